"""Makes packets whole from their fragments."""

import mmap
import secrets
from typing import NoReturn

from ._library import Buffer, ffi, lib
from ._locks import new_lock

_OUTCOMES = {
    "not_fragment": lib.WOLFAREN_NOT_FRAGMENT, "more_wanted": lib.WOLFAREN_MORE_WANTED, "whole": lib.WOLFAREN_WHOLE,
    "faulty_headers": lib.WOLFAREN_FAULTY_FRAGMENT, "no_stated_length": lib.WOLFAREN_NO_STATED_LENGTH,
    "bytes_missing": lib.WOLFAREN_BYTES_MISSING, "unaligned": lib.WOLFAREN_UNALIGNED, "too_long": lib.WOLFAREN_TOO_LONG,
    "overlap": lib.WOLFAREN_OVERLAP, "two_ends": lib.WOLFAREN_TWO_ENDS, "abandoned": lib.WOLFAREN_ABANDONED,
    "headers_too_long": lib.WOLFAREN_HEADERS_TOO_LONG, "no_slot": lib.WOLFAREN_NO_SLOT,
    "mixed_ecn": lib.WOLFAREN_MIXED_ECN}
_LOSSES = {"timed_out": lib.WOLFAREN_TIMED_OUT, "displaced": lib.WOLFAREN_DISPLACED}

# in seconds: more than 500 years, which 64 bits can state in nanoseconds
_LONGEST_TIMEOUT = 2**34


class Defragmenter:
    """Makes IP packets whole from their fragments, which may arrive in any order, and repeated.

    At most `slots` packets are incomplete at once. A slot needs memory when a packet first has it, at most 73 KB. A packet that
    isn't whole `timeout` seconds after its first fragment is given up when its next fragment arrives, or another packet needs
    its slot. Another packet is given up only if all slots are in use: the one that has had its slot longest. After an overlap
    or two ends, all further fragments of the packet are dropped (RFC 5722), and likewise if only some are ECN-capable. If one
    is marked with congestion, so is the whole packet (RFC 3168, section 5.3).

    Threads may share a defragmenter: each call on it is atomic. After a fork, parent and child each have their own. It can't be
    pickled or copied.
    """

    __slots__ = ("_added", "_count", "_defragmenter", "_lock", "_memory", "_out", "_time_ns", "_written")

    def __init__(self, slots: int = 4096, timeout: float = 60.0) -> None:
        if slots < 1:
            raise ValueError("a defragmenter needs a slot")
        if not 0 <= timeout <= _LONGEST_TIMEOUT:
            raise ValueError(f"a timeout is a number of seconds from 0 to {_LONGEST_TIMEOUT}")
        self._count = slots
        size = lib.wolfaren_defragmenter_size(slots)
        memory = mmap.mmap(-1, size, flags=mmap.MAP_PRIVATE | mmap.MAP_ANONYMOUS)
        self._memory = ffi.from_buffer("uint8_t[]", memory, require_writable=True)
        seed = ffi.new("uint64_t[2]", [secrets.randbits(64), secrets.randbits(64)])
        self._defragmenter = lib.wolfaren_defragmenter_init(self._memory, size, seed)
        self._defragmenter.settings.timeout = round(timeout * 10**9)
        self._added = ffi.new("struct wolfaren_added *")
        self._out = ffi.new("uint8_t[]", lib.WOLFAREN_WHOLE_PACKET_ROOM)
        self._written = ffi.new("size_t *")
        self._lock = new_lock()
        self._time_ns = 0

    def add(self, packet: Buffer, time_ns: int | None = 0, context: int = 0) -> bytes | None:
        """Adds a packet that arrived at this time, in nanoseconds since any moment. One without a time, or with a time before
        that moment, arrives with the last packet that has one. `context` is any number below 2**32 for where it arrived, such
        as an interface and a VLAN: fragments of different contexts are never joined.

        Returns the packet itself if it isn't a fragment, the whole packet if it is the fragment that completes it, and
        otherwise `None`. Bytes after a packet that isn't a fragment are returned as well.
        """
        with self._lock:
            if time_ns is not None and time_ns >= 0:
                self._time_ns = time_ns
            return self._add(packet, self._time_ns, context)

    def _add(self, packet: Buffer, time_ns: int, context: int) -> bytes | None:
        data = ffi.from_buffer(packet)
        lib.wolfaren_defragmenter_add(self._defragmenter, context, data, len(data), time_ns, self._added)
        if self._added.outcome == lib.WOLFAREN_NOT_FRAGMENT:
            return bytes(packet)
        if self._added.outcome != lib.WOLFAREN_WHOLE:
            return None
        if not lib.wolfaren_defragmenter_packet(self._defragmenter, self._added.slot, self._out, len(self._out), self._written):
            return None
        return bytes(ffi.buffer(self._out, self._written[0]))

    def give_up(self, time_ns: int) -> int:
        """Gives up the packets that aren't whole after the timeout, as of this time. Returns how many there were; `counts` has
        them as `timed_out`."""
        with self._lock:
            return sum(lib.wolfaren_defragmenter_give_up(self._defragmenter, slot, time_ns) for slot in range(self._count))

    @property
    def counts(self) -> dict[str, int]:
        """How many packets were added, by what became of them, and how many packets were given up, as `timed_out` and
        `displaced`. A count stops at 2**64 - 1."""
        with self._lock:
            counts = self._defragmenter.counts
            return ({name: counts.outcomes[code] for name, code in _OUTCOMES.items()}
                    | {name: counts.losses[code] for name, code in _LOSSES.items()})

    def __reduce__(self) -> NoReturn:
        raise TypeError("a Defragmenter can't be pickled or copied")

    def __repr__(self) -> str:
        return f"Defragmenter({self._count})"
