"""Reads the packets of captures, and writes some of them to other captures."""

from __future__ import annotations

import contextlib
import datetime
import functools
import os
import secrets
import shutil
import stat
import warnings
from collections.abc import Generator, Iterator
from typing import Any, Literal, NamedTuple, get_args

from ._library import captures, path_for_c, raise_kept
from ._statistics import CaptureError, CaptureWarning, capture_error

Path = str | os.PathLike[str]

# How many packets are read at once.
_PACKETS = 1024

_EPOCH = datetime.datetime(1970, 1, 1, tzinfo=datetime.timezone.utc)

_Bytes = bytes


class Packet(NamedTuple):
    """An IP packet of a capture, and the frame that carries it. Lengths and offsets are in bytes. It never changes: threads may
    share it, it is the same after a fork, and it can be pickled and copied."""

    number: int
    """The number of the frame in the capture: 1 for the first."""
    time_ns: int | None
    """When the frame was captured, in nanoseconds since 1970-01-01, 00:00:00 UTC. `None` for a packet of a pcapng file that
    has no time, or one before 1970 or after July 2554."""
    link_layer: str
    """libpcap's name of the frame's link layer, such as `EN10MB` for Ethernet. It may differ from packet to packet, since
    pcapng files may have several interfaces."""
    original_len: int
    """The length of the frame."""
    captured_len: int
    """How many bytes of the frame the capture has."""
    ip_offset: int
    """Where the packet begins in the frame."""
    bytes: _Bytes
    """The packet and what follows it in the frame, as far as the capture has them."""

    @property
    def time(self) -> datetime.datetime | None:
        """When the frame was captured, in UTC, rounded down to microseconds, or `None` as in `time_ns`."""
        return None if self.time_ns is None else _EPOCH + datetime.timedelta(microseconds=self.time_ns // 1000)


@functools.cache
def link_layer_name(link_type: int) -> str:
    """Returns libpcap's name of a link layer."""
    own, library = captures()
    name: str = own.string(library.wolfaren_pcap_link_layer_name(link_type)).decode("ascii")
    return name


class Reader:
    """An open capture, from which packets are read together. After `read`, `fields` has the fields of each packet in an
    array of C structs, and `bytes` the bytes of all."""

    def __init__(self, path: Path) -> None:
        """Opens a capture. Raises `CaptureError` if that fails."""
        self._path = path
        self._own, self._library = captures()
        self._error = self._own.new("char[]", self._library.WOLFAREN_PCAP_ERROR_ROOM)
        opened = self._library.wolfaren_pcap_open(path_for_c(path), self._error)
        self._check()
        self._reader = self._own.gc(opened, self._library.wolfaren_pcap_close)
        self.fields = self._own.new("struct wolfaren_pcap_packet[]", _PACKETS)
        # without clearing, so that only as much memory is used as the packets need
        allocate = self._own.new_allocator(should_clear_after_alloc=False)
        self.bytes = allocate("uint8_t[]", self._library.WOLFAREN_PCAP_PACKET_ROOM)

    def _check(self) -> None:
        """Raises the error of the last call, if there is one."""
        errno = self._own.errno
        raise_kept()
        reason = self._own.string(self._error).decode(errors="replace")
        if reason:
            raise capture_error(self._path, reason, errno)

    def read(self) -> int:
        """Reads the next packets and returns their number, 0 at the end. Raises `CaptureError` if there is no end, or if
        packets were left out."""
        count: int = self._library.wolfaren_pcap_read(self._reader, self.fields, _PACKETS, self.bytes, len(self.bytes),
                                                      self._error)
        self._check()
        return count

    def packets(self, count: int) -> Iterator[Packet]:
        """Yields the first packets that were read."""
        every = self._own.buffer(self.bytes)
        for it in self.fields[0:count]:
            time = 10**9 * it.seconds + it.nanoseconds if it.has_time else None
            yield Packet(it.number, time, link_layer_name(it.link_type), it.original_len, it.captured_len, it.ip_offset,
                         every[it.offset:it.offset + it.len])

    def fields_type(self) -> Any:
        """Returns the type of a packet's fields."""
        return self._own.typeof("struct wolfaren_pcap_packet")

    def close(self) -> None:
        """Closes the capture, from which nothing can be read any more. It may already be closed."""
        self._own.release(self._reader)


OnError = Literal["raise", "warn"]


def raise_or_warn(error: CaptureError, on_error: OnError) -> None:
    """Raises the error of a capture, or warns of it."""
    if on_error == "raise":
        raise error
    warnings.warn(str(error), CaptureWarning, stacklevel=3)


def check_on_error(on_error: OnError) -> None:
    """Raises `ValueError` for what isn't one of these words."""
    if on_error not in get_args(OnError):
        raise ValueError(f"on_error is 'raise' or 'warn', not {on_error!r}")


def packets(path: Path, on_error: OnError = "raise") -> Generator[Packet, None, None]:
    """Yields the IP packets of a capture, which may be in any format that ipcap reads, as ipcap finds them in frames.

    Frames without an IP packet are left out. Raises `CaptureError` at once if the capture can't be opened, and after the
    last packet if it can't be read to its end: a `CaptureOSError` if the system refused to open or to read it. If
    interfaces of a pcapng file have a link layer that isn't supported, leaves out their packets, and after the last packet
    raises a `CaptureError` that names these interfaces. With `on_error="warn"` none of these is raised, but given as a
    `CaptureWarning`, so that `list` returns the packets that are there.

    The file is closed at its end, on an error, or when the generator is closed or no longer referred to. It is read by C
    code, many packets at once or, from a pipe, each as it arrives; Python's other threads run meanwhile. Threads can't share
    the generator, and after a fork only one process may go on with it. It can't be pickled or copied. Raises `ValueError` for
    a path with a null byte.
    """
    check_on_error(on_error)
    try:
        return _packets_of(Reader(path), on_error)
    except CaptureError as error:
        raise_or_warn(error, on_error)
        return _no_packets()


def _no_packets() -> Generator[Packet, None, None]:
    yield from ()


def _packets_of(reader: Reader, on_error: OnError) -> Generator[Packet, None, None]:
    with contextlib.closing(reader):
        try:
            while count := reader.read():
                yield from reader.packets(count)
        except CaptureError as error:
            raise_or_warn(error, on_error)


class Written(NamedTuple):
    """How many frames of a capture a filter has read, and how many it has written. It never changes: threads may share it, it
    is the same after a fork, and it can be pickled and copied."""

    frames: int
    written: int


class _Filtered(NamedTuple):
    """What a filter has done with a capture, and the error that names the interfaces whose packets it left out."""

    written: Written
    left_out: CaptureError | None


def write_matching(condition: str, path_in: Path, path_out: Path) -> Written:
    """Writes the frames of a capture that meet a condition to another file. See `Filter.write`."""
    for path in [path_in, path_out]:
        path_for_c(path)  # before the files are compared: one whose path has a null byte doesn't exist
    if os.path.exists(path_in) and os.path.exists(path_out) and os.path.samefile(path_in, path_out):
        raise shutil.SameFileError(f"{os.fspath(path_in)} and {os.fspath(path_out)} are the same file")
    if os.path.exists(path_out) and not os.path.isfile(path_out):
        with open(path_out, "wb", buffering=0) as output:
            filtered = _filter(condition, path_in, path_out, output.fileno())
    else:
        filtered = _write_aside(condition, path_in, path_out)
    if filtered.left_out:
        raise filtered.left_out
    return filtered.written


def _mode_of(path: str) -> int | None:
    """Returns the permissions of a file, which this process must be allowed to write, or `None` if there is no file."""
    try:
        descriptor = os.open(path, os.O_WRONLY | os.O_CLOEXEC)
    except FileNotFoundError:
        return None
    try:
        return stat.S_IMODE(os.fstat(descriptor).st_mode)
    finally:
        os.close(descriptor)


def _write_aside(condition: str, path_in: Path, path_out: Path) -> _Filtered:
    """Filters a capture into a new file beside the output, which then takes its place. If that fails, removes it."""
    output = os.path.realpath(path_out)
    aside = os.path.join(os.path.dirname(output), f".wolfaren-{secrets.token_hex(8)}")
    with contextlib.ExitStack() as undo:
        try:
            mode = _mode_of(output)
            descriptor = os.open(aside, os.O_WRONLY | os.O_CREAT | os.O_EXCL | os.O_CLOEXEC, 0o666)
        except OSError as error:
            raise OSError(error.errno, error.strerror, os.fspath(path_out)) from None
        undo.callback(os.unlink, aside)
        with open(descriptor, "wb", buffering=0):
            if mode is not None:
                os.fchmod(descriptor, mode)
            filtered = _filter(condition, path_in, path_out, descriptor)
            os.fsync(descriptor)
        os.replace(aside, output)
        undo.pop_all()
    return filtered


def _filter(condition: str, path_in: Path, path_out: Path, descriptor: int) -> _Filtered:
    """Filters a capture into an open file."""
    own, library = captures()
    text = condition.encode("utf-8", "surrogateescape")
    counts = own.new("struct wolfaren_pcap_counts *")
    error = own.new("char[]", library.WOLFAREN_PCAP_ERROR_ROOM)
    outcome = library.wolfaren_pcap_filter(text, len(text), path_for_c(path_in), descriptor, counts, error)
    errno, reason = own.errno, own.string(error).decode(errors="replace")
    raise_kept()
    if outcome == library.WOLFAREN_PCAP_INPUT_FAILED:
        raise capture_error(path_in, reason, errno)
    if outcome == library.WOLFAREN_PCAP_OUTPUT_FAILED:
        raise OSError(errno, reason, os.fspath(path_out))
    if outcome == library.WOLFAREN_PCAP_CONDITION_FAILED:
        raise ValueError(f"{reason}: {condition!r}")
    written = Written(counts.frames, counts.written)
    if outcome != library.WOLFAREN_PCAP_LEFT_OUT:
        return _Filtered(written, None)
    left_out = capture_error(path_in, reason, errno)
    left_out.written = written
    return _Filtered(written, left_out)
