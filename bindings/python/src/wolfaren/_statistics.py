"""Counts packets, and merges what was counted apart."""

from __future__ import annotations

import functools
import html
import io
import json
import os
import re
from collections.abc import Callable, Iterable, Iterator, Mapping
from typing import TYPE_CHECKING, Any, Generic, TypeVar

from ._dissection import End, FaultKind, Layer
from ._library import Buffer, captures, ffi, lib, name_of, path_for_c, raise_kept
from ._locks import new_lock
from ._many import Packets
from ._optional import import_for

if TYPE_CHECKING:
    from pandas import DataFrame

    from ._captures import Written

MOST = 2**64 - 1
"""The largest count. Counts stop there."""

# What tables have room for, as in ipcap: chains, protocols, and headers of a chain. What doesn't fit is counted as `other`.
_CHAINS, _PROTOCOL_NAMES = 65536, 4096
MOST_HEADERS = 64

# The version of the JSON: major and minor number.
_FORMAT = (1, 4)

_KINDS = {it: name_of(lib.wolfaren_find_kind_word, it) for it in FaultKind}
_LAYERS = {it: name_of(lib.wolfaren_find_layer_word, it) for it in Layer if it}
_ENDS: dict[int, str] = {End.FAULT: " fault", End.TRUNCATED_HEADER: " truncated"}

_TYPE = ffi.typeof("struct wolfaren_statistics")
_SCALARS = [name for name, field in _TYPE.fields if field.type is ffi.typeof("uint64_t")]


def _elements(name: str, size: int) -> dict[int, int | str]:
    """Returns the key of each element of an array of the struct, by its index."""
    if name == "chain_bytes":  # wolfaren_least_chain_bytes, which is no call of the library
        return {i: 4 * i if i < 64 else 1 << (i - 56) for i in range(size)}
    if name == "truncated_headers":
        return {int(layer): name for layer, name in _LAYERS.items()}
    if name == "faults":
        return {16 * kind + layer: f"{_KINDS[kind]} {_LAYERS[layer]}" for kind in _KINDS for layer in _LAYERS}
    return {i: i for i in range(size)}


_ARRAYS = {name: _elements(name, ffi.sizeof(field.type) // 8) for name, field in _TYPE.fields
           if field.type.kind == "array"}


# The names of the counts and tables in the JSON, in their order.
_MEMBERS = [*_SCALARS, "mismatched", "other_protocols", "chains", *_ARRAYS]


def chain_name(version: int, numbers: Iterable[int], payload_number: int, end: int) -> str:
    """Returns the name of a chain of at most `MOST_HEADERS` headers with these protocol numbers, as ipcap writes it."""
    headers = ",".join(map(str, numbers))
    return f"IPv{version} {headers}{' ' if headers else ''}-> {payload_number}{_ENDS.get(end, '')}"


def _chain_order(chain: tuple[str, int]) -> tuple[Any, ...]:
    """Returns what chains are sorted by: `other` last, then by descending count, and then as ipcap does."""
    name, count = chain
    numbers = [int(it) for it in re.findall(r"\d+", name)]
    return name == "other", -count, numbers[:1], len(numbers), numbers[-1:], name.split(" -> ")[-1].split(), numbers


# How many packets are counted in one table of the library, which has room for as many chains.
_TOGETHER = 1 << 16

# How a chain ends, by the third byte of its key.
_END_OF_KEY = {0: End.PAYLOAD, 1: End.FAULT, 2: End.TRUNCATED_HEADER}

_new_memory = ffi.new_allocator(should_clear_after_alloc=False)


class _ChainCounts:
    """Counts of at most so many chains, by the library."""

    def __init__(self, most: int) -> None:
        size = lib.wolfaren_chains_size(most)
        self._memory = _new_memory("uint64_t[]", -(-size // 8))  # each element is aligned as the library needs it
        self.counts = lib.wolfaren_chains_init(self._memory, size, ffi.from_buffer("uint64_t[2]", os.urandom(16)))

    def named(self) -> dict[str, int]:
        """Returns the counts by the names of the chains, in the order in which these were first counted."""
        keys = ((ffi.buffer(it.key)[:it.len], it.count) for it in self.counts.entries[0:self.counts.count])
        named = {chain_name(key[0], key[3:], key[1], _END_OF_KEY[key[2]]): count for key, count in keys}
        return named | {"other": self.counts.other} if self.counts.other else named


# The numbers by which frames say what they carry, in the order of ipcap's table, and how many digits these have.
_PROTOCOLS = {"EtherType": 4, "LLC": 2, "PPP": 4, "NLPID": 2, "802.11": 2}


def _protocol_order(protocol: tuple[str, int]) -> tuple[Any, ...]:
    """Returns what protocols are sorted by: `other` last, then by descending count, and then as ipcap does."""
    name, count = protocol
    kind, _, number = name.partition(" ")
    kinds = ["EtherType", "LLC", "PPP", "NLPID", "family", "802.11"]
    return (name == "other", -count) + ((kinds.index(kind), int(number, 0)) if number else ())


_Value = TypeVar("_Value")


class _Field(property, Generic[_Value]):
    """A count of `struct wolfaren_statistics`, or a table of counts by key."""

    def __init__(self, doc: str) -> None:
        super().__init__(lambda statistics: statistics._read(self._name))
        self.__doc__ = doc

    def __set_name__(self, owner: type, name: str) -> None:
        self._name = name

    if TYPE_CHECKING:
        def __get__(self, statistics: Any, owner: type | None = None) -> _Value: ...


class Statistics:
    """Counts of packets, which are equal to those of `ipcap stat`, and whose sum is that of all packets.

    The counts are those of `struct wolfaren_statistics`, which the library counts and merges; its calls are proved. The
    count `mismatched` and the tables `chains` and `other_protocols` are not. Each count stops at `MOST`. A new object has counted no packets. In
    tables, the most frequent come first, and no count is 0. Threads may share an object: each call on it is atomic. After a
    fork, parent and child each have their own. It can be pickled and copied.
    """

    other_frames = _Field[int]("Frames without an IP packet.")
    truncated_frames = _Field[int]("Frames truncated by the snap length.")
    packets = _Field[int]("IP packets, or what the link layer says are IP packets.")
    without_header = _Field[int]("Packets that don't start with a complete IP header of version 4 or 6.")
    ipv4 = _Field[int]("Packets with an IPv4 header.")
    ipv6 = _Field[int]("Packets with an IPv6 header.")
    at_payload = _Field[int]("Packets whose headers end at `End.PAYLOAD`.")
    at_later_fragment = _Field[int]("Packets whose headers end at `End.LATER_FRAGMENT`.")
    at_truncated_header = _Field[int]("Packets whose headers end at `End.TRUNCATED_HEADER`.")
    at_fault = _Field[int]("Packets whose headers end at `End.FAULT`.")
    atomic_fragments = _Field[int]("Packets with a fragment header that are whole (RFC 6946).")
    first_fragments = _Field[int]("First fragments.")
    middle_fragments = _Field[int]("Middle fragments.")
    last_fragments = _Field[int]("Last fragments.")
    incomplete = _Field[int]("Packets of which stated bytes are missing.")
    payload_bytes = _Field[int]("Payload bytes that were present, except after a fault or truncated header.")
    chain_headers = _Field[Mapping[int, int]]("Chains by their number of headers; 16 means 16 or more.")
    chain_bytes = _Field[Mapping[int, int]]("Chains by their length in bytes; a key is the least length that it counts.")
    headers = _Field[Mapping[int, int]]("Extension headers by protocol number.")
    payload_numbers = _Field[Mapping[int, int]]("Packets whose headers end at the payload, by its protocol number.")
    later_fragment_numbers = _Field[Mapping[int, int]]("Later fragments, by the protocol number of the payload.")
    truncated_headers = _Field[Mapping[str, int]]("Truncated headers by their name, such as `routing`.")
    faults = _Field[Mapping[str, int]]("Faults by kind and header, such as `too-short routing`.")

    __slots__ = ("_counts", "_mismatched", "_chains", "_one", "_protocols", "_lock")
    __hash__ = None  # type: ignore[assignment]

    def __init__(self) -> None:
        self._counts = ffi.new("struct wolfaren_statistics *")
        self._mismatched = 0
        self._chains: dict[str, int] = {}
        self._one: _ChainCounts | None = None  # of a packet that is added
        self._protocols: dict[str, int] = {}
        self._lock = new_lock()
        lib.wolfaren_init_statistics(self._counts)

    def _array(self, name: str) -> Any:
        return ffi.cast("uint64_t *", ffi.addressof(self._counts, name))

    def _read(self, name: str) -> Any:
        with self._lock:
            if name not in _ARRAYS:
                return getattr(self._counts, name)
            counts = self._array(name)
            table: dict[Any, int] = {key: counts[i] for i, key in _ARRAYS[name].items() if counts[i]}
        order = sorted(table.items(), key=lambda it: -it[1])
        return dict(order)

    def _copy(self) -> Statistics:
        copied = Statistics()
        with self._lock:
            ffi.memmove(copied._counts, self._counts, ffi.sizeof(_TYPE))
            copied._mismatched = self._mismatched
            copied._chains.update(self._chains)
            copied._protocols.update(self._protocols)
        return copied

    @property
    def mismatched(self) -> int:
        """IPv4 packets that their frame announces as IPv6, or the reverse. This count isn't proved."""
        with self._lock:
            return self._mismatched

    @property
    def chains(self) -> Mapping[str, int]:
        """Packets by their chain, such as `IPv6 0,43 -> 17`. `other` has those that the table has no room for. This table
        isn't proved."""
        with self._lock:
            chains = list(self._chains.items())
        return dict(sorted(chains, key=_chain_order))

    @property
    def other_protocols(self) -> Mapping[str, int]:
        """Frames without an IP packet by what they carry, such as `EtherType 0x0806`. `other` has those that carry no such
        number, and those that the table has no room for. This table isn't proved."""
        with self._lock:
            protocols = list(self._protocols.items())
        return dict(sorted(protocols, key=_protocol_order))

    def add(self, packet: Buffer) -> None:
        """Counts the packet at the start of the bytes, which may be any bytes."""
        view = ffi.from_buffer("uint8_t[]", packet)
        with self._lock:
            one = self._one = self._one or _ChainCounts(1)
            lib.wolfaren_chains_clear(one.counts)
            lib.wolfaren_count_packet_and_chain(self._counts, one.counts, ffi.NULL, 0, view, len(view))
            self._add_chains(one.named())

    def add_many(self, buffer: Buffer, offsets: Any, lengths: Any) -> None:
        """Counts many packets in a buffer, each as `add` does.

        The packets are given, and errors are raised, as by `dissect_many`. After an error nothing is counted.
        """
        packets = Packets("Statistics.add_many", buffer, offsets, lengths)
        counted, chains = Statistics(), _ChainCounts(min(packets.count, _TOGETHER))
        for start in range(0, packets.count, _TOGETHER):
            lib.wolfaren_chains_clear(chains.counts)
            packets.pass_to(lib.wolfaren_count_packets_and_chains, counted._counts, chains.counts, start=start, most=_TOGETHER)
            for name, count in chains.named().items():  # as many as there are: what has room is decided below
                counted._chains[name] = counted._chains.get(name, 0) + count
        self += counted

    def _add_chains(self, chains: Mapping[str, int]) -> None:
        for name, count in chains.items():
            _add_to(self._chains, name, count, _CHAINS)

    def add_other_frame(self, protocol: str = "other") -> None:
        """Counts a frame without an IP packet, by what it carries, such as `EtherType 0x0806`.

        Raises `ValueError` if `other_protocols` has no such names.
        """
        if not _is_protocol(protocol):
            raise ValueError(f'"{protocol}" is not a protocol')
        with self._lock:
            lib.wolfaren_count_other_frame(self._counts)
            _add_to(self._protocols, protocol, 1, _PROTOCOL_NAMES)

    def add_truncated_frame(self) -> None:
        """Counts a frame that the snap length truncated, in addition to its packet."""
        with self._lock:
            lib.wolfaren_count_truncated_frame(self._counts)

    def add_mismatched(self) -> None:
        """Counts a packet whose IP version isn't the one that its frame announces, in addition to the packet."""
        with self._lock:
            self._mismatched = min(self._mismatched + 1, MOST)

    def clear(self) -> None:
        """Sets all counts to 0."""
        with self._lock:
            lib.wolfaren_init_statistics(self._counts)
            self._mismatched = 0
            self._chains.clear()
            self._protocols.clear()

    def __iadd__(self, other: Statistics) -> Statistics:
        if not isinstance(other, Statistics):
            return NotImplemented
        added = other._copy()  # so that no call waits for a lock while it holds another
        with self._lock:
            if not lib.wolfaren_merge_statistics(self._counts, added._counts):
                raise ValueError("the statistics have different versions")
            self._mismatched = min(self._mismatched + added._mismatched, MOST)
            self._add_chains(added._chains)
            for name, count in added._protocols.items():
                _add_to(self._protocols, name, count, _PROTOCOL_NAMES)
        return self

    def __add__(self, other: Statistics) -> Statistics:
        if not isinstance(other, Statistics):
            return NotImplemented
        total = self._copy()
        total += other
        return total

    def __radd__(self, other: int) -> Statistics:
        """Adds the 0 from which `sum` starts."""
        if other != 0:
            return NotImplemented
        return self._copy()

    def __eq__(self, other: object) -> bool:
        if not isinstance(other, Statistics):
            return NotImplemented
        one, two = self._copy(), other._copy()
        return (ffi.buffer(one._counts)[:] == ffi.buffer(two._counts)[:] and one._mismatched == two._mismatched
                and one._chains == two._chains and one._protocols == two._protocols)

    def __repr__(self) -> str:
        return f"<Statistics of {self.packets} packets>"

    def __reduce__(self) -> tuple[Callable[[str], Statistics], tuple[str]]:
        return Statistics.from_json, (self.to_json(),)

    def to_dict(self) -> dict[str, Any]:
        """Returns all counts and tables by their names, as they were at one moment."""
        copied = self._copy()
        return {name: getattr(copied, name) for name in _MEMBERS}

    def to_json(self) -> str:
        """Returns the line that `ipcap stat --json` prints, without the line feed. `ipcap sum` reads it."""
        return json.dumps({"version": "%d.%d" % _FORMAT, **self.to_dict()}, separators=(",", ":"))

    def to_series(self) -> Any:
        """Returns all counts as a pandas `Series`, by the name of the count or table and the key in the table, which is
        empty for a single count. Its type is `int64`, so that differences are right, or `object` if a count is above
        2**63 - 1.

        Raises `ImportError` if pandas isn't installed.
        """
        pandas = import_for("Statistics.to_series", "pandas")
        rows = list(self._rows(None))
        index = pandas.MultiIndex.from_tuples([row[:2] for row in rows], names=["name", "key"])
        dtype = "int64" if all(row[2] < 2**63 for row in rows) else object
        return pandas.Series([row[2] for row in rows], index, dtype=dtype)

    def _rows(self, most: int | None) -> Iterator[tuple[str, Any, int]]:
        """Yields each count with its name and key: of a table, the first `most`."""
        for name, value in self.to_dict().items():
            table = value if isinstance(value, dict) else {"": value}
            yield from ((name, key, count) for key, count in [*table.items()][:most])

    def _repr_html_(self) -> str:
        """Returns the counts as an HTML table for a notebook, with the ten most frequent of each table."""
        rows = (f"<tr><th>{name}</th><td>{html.escape(str(key))}</td><td>{count}</td></tr>"
                for name, key, count in self._rows(10))
        return f"<table>{''.join(rows)}</table>"

    @classmethod
    def from_json(cls, text: str) -> Statistics:
        """Reads what `to_json`, `ipcap stat --json` or `ipcap sum --json` has written.

        The name of a file in it is left out, as are the counts of packets in tunnels, which `ipcap stat --tunnels` adds.
        Raises `ValueError` if the text is something else, or of a version with another major number, and `TypeError` for what
        isn't a text. Of a version with
        the same major and a larger minor number, members that aren't known are left out.
        """
        try:
            members = json.loads(text)
        except RecursionError:
            raise ValueError("the text is nested too deeply") from None
        if not isinstance(members, dict):
            raise ValueError("the text is not a JSON object")
        minor = _minor_version(members.pop("version", None))
        if not isinstance(members.pop("file", ""), str):
            raise ValueError('"file" is not a text')
        for name in _MEMBERS:
            members.pop(f"inner_{name}", None)
        read = cls()
        for name in _SCALARS:
            setattr(read._counts, name, _count(members.pop(name, None), name))
        read._mismatched = _count(members.pop("mismatched", 0 if minor < 4 else None), "mismatched")
        for name, count in _table(members.pop("chains", None), "chains", 1 + _CHAINS).items():
            if not _CHAIN.fullmatch(name):
                raise ValueError(f'"{name}" is not a chain')
            read._chains[name] = count
        protocols = members.pop("other_protocols", None)
        if protocols is None and minor == 0:  # the first version had no such table
            protocols = {"other": read.other_frames} if read.other_frames else {}
        for name, count in _table(protocols, "other_protocols", 1 + _PROTOCOL_NAMES).items():
            if not _is_protocol(name):
                raise ValueError(f'"{name}" is not a protocol')
            read._protocols[name] = count
        for name, keys in _ARRAYS.items():
            read._read_array(name, {str(key): i for i, key in keys.items()}, members.pop(name, None))
        if members and minor <= _FORMAT[1]:
            raise ValueError(f"unknown member {min(members)}")
        read._check_sums()
        return read

    def _read_array(self, name: str, indices: dict[str, int], table: Any) -> None:
        counts = self._array(name)
        for key, count in _table(table, name, len(indices)).items():
            if key not in indices:
                raise ValueError(f'"{key}" is not in "{name}"')
            counts[indices[key]] = count

    def _check_sums(self) -> None:
        """Refuses counts that don't add up, as `ipcap sum` does."""
        chains = min(self.ipv4 + self.ipv6, MOST)
        sums = [(self.packets, [chains, self.without_header]),
                (self.packets, [self.at_payload, self.at_later_fragment, self.at_truncated_header, self.at_fault]),
                (self.at_payload, self.payload_numbers.values()),
                (self.at_later_fragment, self.later_fragment_numbers.values()),
                (self.at_truncated_header, self.truncated_headers.values()), (self.at_fault, self.faults.values()),
                (chains, self.chain_headers.values()), (chains, self.chain_bytes.values()),
                (chains, self._chains.values()), (self.other_frames, self._protocols.values())]
        if any(total != min(sum(parts), MOST) for total, parts in sums) or self._mismatched > self.packets:
            raise ValueError("the counts don't add up")

    def plot(self, most: int = 10) -> Any:
        """Returns a matplotlib figure with a bar chart each of the chains, payloads and faults, at most `most` bars in
        each. Save it with `savefig`. As the last value of a cell, a notebook shows it.

        Raises `ImportError` if matplotlib isn't installed.
        """
        read = self._copy()
        tables: dict[str, Mapping[Any, int]] = {"chains": read.chains, "payloads": read.payload_numbers, "faults": read.faults}
        figure = import_for("Statistics.plot", "matplotlib.figure").Figure(figsize=(10, 8), layout="constrained")
        for axes, (title, table) in zip(figure.subplots(len(tables), 1), tables.items()):
            bars = sorted(table.items(), key=lambda it: -it[1])[:most][::-1]
            axes.barh([str(key) for key, _ in bars], [count for _, count in bars])
            axes.set_title(title)
            axes.set_xlabel("packets")
        figure._repr_png_ = functools.partial(_png_of, figure)  # for notebooks without matplotlib's own way to show figures
        return figure


def _png_of(figure: Any) -> bytes:
    """Returns a figure as a PNG image."""
    image = io.BytesIO()
    figure.savefig(image, format="png")
    return image.getvalue()


_NUMBER = r"(?:25[0-5]|2[0-4]\d|1\d\d|[1-9]?\d)"
_CHAIN = re.compile(rf"other|IPv[46] (?:{_NUMBER}(?:,{_NUMBER}){{0,63}} )?-> {_NUMBER}(?: fault| truncated)?", re.ASCII)


def _is_protocol(name: str) -> bool:
    """Whether ipcap writes a protocol by this name."""
    if name == "other":
        return True
    kind, _, number = name.partition(" ")
    if kind == "family":
        return re.fullmatch(r"0|[1-9][0-9]*", number) is not None and int(number) < 2**32
    return kind in _PROTOCOLS and re.fullmatch("0x[0-9a-f]{%d}" % _PROTOCOLS[kind], number) is not None


def _add_to(table: dict[str, int], name: str, count: int, most: int) -> None:
    """Adds to a count of a table, or to `other` if the table has as many names as it may have."""
    if name not in table and len(table) - ("other" in table) >= most:
        name = "other"
    table[name] = min(table.get(name, 0) + count, MOST)


def _minor_version(version: Any) -> int:
    found = re.fullmatch(r"(\d+)\.(\d+)", version) if isinstance(version, str) else None
    if not found:
        raise ValueError("the version is not two numbers")
    if int(found[1]) != _FORMAT[0]:
        raise ValueError(f"version {version}, but this package reads {_FORMAT[0]}.x")
    return int(found[2])


def _count(value: Any, name: str) -> int:
    if type(value) is not int or not 0 <= value <= MOST:
        raise ValueError(f'"{name}" is not a count')
    return value


def _table(value: Any, name: str, most: int) -> dict[str, int]:
    if not isinstance(value, dict) or len(value) > most:
        raise ValueError(f'"{name}" is not an object of at most {most} counts')
    if 0 in value.values():
        raise ValueError(f'a count in "{name}" is 0')
    return {key: _count(count, key) for key, count in value.items()}


class CaptureError(Exception):
    """A capture that can't be read to its end. What a call has made of the packets up to there is in the attribute for its
    result; the other attributes are `None`, and all of them if the capture can't be opened. Threads may share it as they may
    what is in it, after a fork parent and child each have their own, and it can be pickled and copied.
    """

    def __init__(self, path: str, reason: str) -> None:
        super().__init__(path, reason)
        self.path = path
        self.reason = reason
        self.statistics: Statistics | None = None
        """The result of `statistics_of`."""
        self.table: DataFrame | None = None
        """The result of `table`."""
        self.written: Written | None = None
        """The result of `Filter.write`, if it has written the output without the packets of some interfaces."""

    def __str__(self) -> str:
        return f"{self.path}: {self.reason}"

    def __repr__(self) -> str:
        return f"{type(self).__name__}({self.path!r}, {self.reason!r})"


class CaptureOSError(CaptureError, OSError):
    """A capture that the system refused to open or to read to its end: `errno` says why. It is also the `OSError` of that
    number, such as `FileNotFoundError`. Threads may share it as they may what is in it, after a fork parent and child each have
    their own, and it can be pickled and copied."""

    def __init__(self, path: str, reason: str, errno: int) -> None:
        super().__init__(path, reason)
        self.errno, self.strerror, self.filename = errno, os.strerror(errno), path

    def __reduce__(self) -> tuple[Callable[..., CaptureError], tuple[str, str, int], dict[str, Any]]:
        return capture_error, (self.path, self.reason, self.errno), self.__dict__


class CaptureWarning(UserWarning):
    """A capture that can't be read to its end, of which a call returns what is there. No call changes it: threads may share it,
    it is the same after a fork, and it can be pickled and copied."""


@functools.cache
def _refusal_type(errno: int) -> type[CaptureOSError]:
    """Returns the type of errors that are a `CaptureOSError` and what Python raises for a number, as `FileNotFoundError`."""
    kind = type(OSError(errno, ""))
    if kind is OSError:
        return CaptureOSError
    return type("CaptureOSError", (CaptureOSError, kind), {"__module__": __name__, "__doc__": CaptureOSError.__doc__})


def capture_error(path: str | os.PathLike[str], reason: str, errno: int) -> CaptureError:
    """Returns the error of a capture, for the reason that the library of captures has written and the number in `errno`."""
    if not errno:
        return CaptureError(os.fspath(path), reason)
    return _refusal_type(errno)(os.fspath(path), reason, errno)


def statistics_of(path: str | os.PathLike[str]) -> Statistics:
    """Counts the packets of a capture, which may be in any format that ipcap reads.

    Raises `CaptureError` if the capture can't be read to its end: a `CaptureOSError` if the system refused to open or to
    read it. Its attribute `statistics` has the packets up to there. Raises `ValueError` for a path with a null byte. The file
    is read by C code with libpcap; Python's other threads run meanwhile.
    """
    own, library = captures()
    error = own.new("char[]", library.WOLFAREN_PCAP_ERROR_ROOM)
    text = library.wolfaren_pcap_count(path_for_c(path), error)
    errno = own.errno
    try:
        raise_kept()
        statistics = Statistics.from_json(own.string(text).decode("ascii")) if text else None
    finally:
        library.wolfaren_pcap_free(text)
    reason = own.string(error).decode(errors="replace")
    if reason or statistics is None:
        refused = capture_error(path, reason, errno)
        refused.statistics = statistics
        raise refused
    return statistics
