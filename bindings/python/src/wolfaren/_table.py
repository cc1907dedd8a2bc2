"""Reads captures into tables."""

from __future__ import annotations

import contextlib
import functools
import ipaddress
from collections.abc import Callable, Iterable
from typing import TYPE_CHECKING, Any, NamedTuple

from ._captures import OnError, Path, Reader, check_on_error, link_layer_name, raise_or_warn
from ._dissection import DST, HOP_LIMIT, SRC
from ._library import ffi, lib
from ._many import dtype_of
from ._optional import import_for
from ._statistics import MOST_HEADERS, CaptureError, chain_name

if TYPE_CHECKING:
    from pandas import DataFrame

# Times have 64 bits of nanoseconds, so they end with this second, in the year 2262.
_END_OF_TIMES = 2**63 // 10**9

# How many texts of addresses and of chains are kept.
_TEXTS = 1 << 16


class _Batch:
    """Packets that were read together. The arrays refer to the reader's memory until it reads again."""

    def __init__(self, numpy: Any, reader: Reader, count: int) -> None:
        self.numpy = numpy
        self.count = count
        self.bytes = ffi.buffer(reader.bytes)
        self.fields = self.array(reader.fields, reader.fields_type())

    def array(self, structs: Any, kind: Any) -> Any:
        """Returns an array of C structs, one for each packet, as a numpy array."""
        return self.numpy.frombuffer(ffi.buffer(structs), dtype_of(self.numpy, kind), self.count)

    @functools.cached_property
    def dissected(self) -> tuple[Any, list[bytes | None]]:
        """The dissection of each packet, and the numbers of its extension headers, or `None` if it has too many."""
        parts = ffi.new("struct wolfaren_dissection[]", self.count)
        headers = ffi.new("struct wolfaren_header[]", MOST_HEADERS)
        kind = ffi.typeof("struct wolfaren_header")
        numbers = memoryview(ffi.buffer(headers))[ffi.offsetof(kind, "number")::ffi.sizeof(kind)]
        first, found = ffi.from_buffer("uint8_t[]", self.bytes), list[bytes | None]()
        for i, (offset, size) in enumerate(zip(self.fields["offset"].tolist(), self.fields["len"].tolist())):
            lib.wolfaren_dissect(first + offset, size, headers, MOST_HEADERS, parts + i)
            count = parts[i].headers
            found.append(bytes(numbers[:count]) if count <= MOST_HEADERS else None)
        return self.array(parts, ffi.typeof("struct wolfaren_dissection")), found

    def parts(self, name: str) -> Any:
        """Returns a field of each dissection."""
        return self.dissected[0][name]


@functools.lru_cache(_TEXTS)
def _address(address: bytes) -> str:
    return str(ipaddress.ip_address(address))


@functools.lru_cache(_TEXTS)
def _chain(version: int, numbers: bytes | None, payload_number: int, end: int) -> str | None:
    if version == 0:
        return None
    return "other" if numbers is None else chain_name(version, numbers, payload_number, end)


def _times(batch: _Batch) -> Any:
    seconds, rest = batch.fields["seconds"], batch.fields["nanoseconds"]
    is_there = batch.fields["has_time"] & (0 <= seconds) & (seconds < _END_OF_TIMES)
    return batch.numpy.where(is_there, 10**9 * batch.numpy.where(is_there, seconds, 0) + rest, -2**63)


def _link_layers(batch: _Batch) -> list[str]:
    return [*map(link_layer_name, batch.fields["link_type"].tolist())]


def _hop_limits(batch: _Batch) -> Any:
    versions, every = batch.parts("version"), batch.numpy.frombuffer(batch.bytes, "u1")
    at = batch.fields["offset"].astype("i8") + batch.numpy.where(versions == 4, HOP_LIMIT[4], HOP_LIMIT[6])
    return batch.numpy.where(versions == 0, 0, every.take(at, mode="clip"))


def _fault_offsets(batch: _Batch) -> Any:
    """Returns `Fault.offset` of each packet, or 0."""
    fault = batch.parts("fault")
    return fault["offset"]


def _addresses(places: dict[int, slice], batch: _Batch) -> list[str | None]:
    def text(offset: int, version: int) -> str | None:
        place = places[version]
        return _address(batch.bytes[offset + place.start:offset + place.stop])
    rows = zip(batch.fields["offset"].tolist(), batch.parts("version").tolist())
    return [text(offset, version) if version else None for offset, version in rows]


def _chains(batch: _Batch) -> list[str | None]:
    return [*map(_chain, batch.parts("version").tolist(), batch.dissected[1], batch.parts("payload_number").tolist(),
                 batch.parts("end").tolist())]


class _Column(NamedTuple):
    dtype: str
    values: Callable[[_Batch], Any]


def _field(name: str) -> Callable[[_Batch], Any]:
    return lambda batch: batch.fields[name]


def _part(name: str) -> Callable[[_Batch], Any]:
    return lambda batch: batch.parts(name)


def _fault(name: str) -> Callable[[_Batch], Any]:
    return lambda batch: batch.parts("fault")[name]


_COLUMNS = {
    "number": _Column("int64", _field("number")),
    "time": _Column("datetime64[ns]", _times),
    "link_layer": _Column("object", _link_layers),
    "original_len": _Column("int64", _field("original_len")),
    "captured_len": _Column("int64", _field("captured_len")),
    "ip_offset": _Column("int64", _field("ip_offset")),
    "version": _Column("int16", _part("version")),
    "src": _Column("object", functools.partial(_addresses, SRC)),
    "dst": _Column("object", functools.partial(_addresses, DST)),
    "hop_limit": _Column("int16", _hop_limits),
    "chain": _Column("object", _chains),
    "headers": _Column("int64", _part("headers")),
    "fragment": _Column("int16", _part("fragment")),
    "identification": _Column("int64", _part("identification")),
    "fragment_offset": _Column("int64", _part("fragment_offset")),
    "payload_number": _Column("int16", _part("payload_number")),
    "payload_offset": _Column("int64", _part("payload_offset")),
    "payload_len": _Column("int64", _part("payload_len")),
    "stated_len": _Column("int64", _part("stated_len")),
    "missing": _Column("int64", _part("missing")),
    "padding": _Column("int64", _part("padding")),
    "end": _Column("int16", _part("end")),
    "fault": _Column("int16", _fault("kind")),
    "fault_header": _Column("int16", _fault("header")),
    "fault_layer": _Column("int16", _fault("layer")),
    "fault_offset": _Column("int64", _fault_offsets),
}


def _chosen(columns: Iterable[str] | None) -> dict[str, _Column]:
    """Returns the columns with these names, or all."""
    if isinstance(columns, (str, bytes)):
        raise TypeError(f"columns is a list of names, such as [{columns!r}]")
    names = [*_COLUMNS] if columns is None else [*columns]
    for name in names:
        if name not in _COLUMNS:
            raise ValueError(f"no column {name!r}: the columns are {', '.join(_COLUMNS)}")
    return {name: _COLUMNS[name] for name in names}


def _frame(chosen: dict[str, _Column], arrays: dict[str, list[Any]], rows: int) -> DataFrame:
    """Returns a table of columns, each of which is made of the arrays of all batches."""
    pandas, numpy = (import_for("wolfaren.table", it) for it in ["pandas", "numpy"])
    joined = {name: numpy.concatenate([numpy.empty(0, column.dtype), *arrays[name]]) for name, column in chosen.items()}
    if "time" in joined:
        joined["time"] = pandas.DatetimeIndex(joined["time"], tz="UTC")
    frame: DataFrame = pandas.DataFrame(joined, pandas.RangeIndex(rows))
    return frame


def empty_table(columns: Iterable[str] | None) -> DataFrame:
    """Returns the table of a capture without packets."""
    chosen = _chosen(columns)
    return _frame(chosen, {name: [] for name in chosen}, 0)


def table(path: Path, columns: Iterable[str] | None = None, on_error: OnError = "raise") -> DataFrame:
    """Reads the IP packets of a capture into a pandas `DataFrame`, with a row for each and these columns, by default all.

    Lengths and offsets are in bytes. Types are signed, so that differences are right. The fields of a frame and of its packet:

        number           int64                the number of the frame in the capture: 1 for the first
        time             datetime64[ns, UTC]  when the frame was captured; `NaT` if unknown or after 2262-04-11
        link_layer       object               libpcap's name of the frame's link layer, such as `EN10MB`
        original_len     int64                the length of the frame
        captured_len     int64                how many bytes of the frame the capture has
        ip_offset        int64                where the packet begins in the frame

    Those of its dissection, in which numbers that don't apply are 0:

        version          int16                4 or 6, or 0 if there is no IP header
        src, dst         object               the addresses as text, or `None` if there is no IP header
        hop_limit        int16                the hop limit of IPv6 or the time to live of IPv4
        chain            object               such as `IPv6 0,43 -> 17`, as in `Statistics.chains`, or `None`
        headers          int64                the number of extension headers
        fragment         int16                which fragment the packet is: a `FragmentKind`
        identification   int64                a number that all fragments of a packet share
        fragment_offset  int64                where the fragment lies in the payload
        payload_number   int16                the protocol number of what follows the headers
        payload_offset   int64                where the payload begins in the packet
        payload_len      int64                how many bytes of the payload, or from a faulty header on, are present
        stated_len       int64                the length of the packet as the IP header states it, or 0 if it states none
        missing          int64                how many bytes of the stated length aren't present
        padding          int64                how many bytes follow the packet in the frame
        end              int16                why the headers end: an `End`
        fault            int16                the kind of error: a `FaultKind`
        fault_header     int16                the faulty extension header: a `Layer`
        fault_layer      int16                the layer that needs more bytes: a `Layer`
        fault_offset     int64                where the faulty header or packet begins in the packet

    A packet whose length field is 0 states no length, and all bytes after its headers are its payload: before you trust a row,
    test its `stated_len`, which is then 0.

    Raises `CaptureError` if the capture can't be read to its end: a `CaptureOSError` if the system refused to open or to
    read it. Raises `CaptureError` too if interfaces of a pcapng file have a link layer that isn't supported. Its attribute
    `table` has the other packets, or those up to there. With `on_error="warn"` these are returned, and the error is given as a
    `CaptureWarning`. Raises `ValueError` for another column or a path with a null byte, `TypeError` for a text instead of a
    list, and `ImportError` if pandas isn't installed.
    """
    import_for("wolfaren.table", "pandas")
    chosen = _chosen(columns)
    check_on_error(on_error)
    try:
        reader = Reader(path)
    except CaptureError as error:
        raise_or_warn(error, on_error)
        return empty_table(chosen)
    with contextlib.closing(reader):
        found, refused = _table_of(reader, chosen)
    if refused:
        refused.table = found
        raise_or_warn(refused, on_error)
    return found


def _table_of(reader: Reader, chosen: dict[str, _Column]) -> tuple[DataFrame, CaptureError | None]:
    """Returns the table of the packets that can be read, and the error that left out others."""
    numpy, refused, rows = import_for("wolfaren.table", "numpy"), None, 0
    arrays: dict[str, list[Any]] = {name: [] for name in chosen}
    try:
        while count := reader.read():
            batch = _Batch(numpy, reader, count)
            for name, column in chosen.items():
                arrays[name].append(numpy.array(column.values(batch), column.dtype))
            rows += count
    except CaptureError as error:
        refused = error
    return _frame(chosen, arrays, rows), refused
