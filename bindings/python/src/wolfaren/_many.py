"""Dissects, filters and counts many packets of one buffer in one call of the library. Needs numpy."""

from __future__ import annotations

from typing import Any

from ._library import Buffer, ffi, lib
from ._optional import import_for

_FORMATS = {"size_t": "u8", "uint64_t": "u8", "int64_t": "i8", "uint32_t": "u4", "int32_t": "i4", "uint16_t": "u2",
            "uint8_t": "u1", "_Bool": "?"}

# The numbers of a dissection that are elsewhere in an array than in the struct: `identification` needs 64 bits to have a sign,
# so it takes those of `fragment_offset` after it, which takes the upper half of `missing`. That is below 2^17.
_WIDE, _MOVED, _HALVED = "identification", "fragment_offset", "missing"

# How many packets are passed to the library at a time. In between, Python runs the handlers of signals.
_TOGETHER = 1 << 11


class SpanError(ValueError):
    """A packet that doesn't lie within the buffer. No call changes it: threads may share it, it is the same after a fork, and it
    can be pickled and copied."""

    def __init__(self, index: int, offset: int, length: int, buffer_length: int) -> None:
        super().__init__(index, offset, length, buffer_length)
        self.index = index
        """The index of the first such packet."""
        self.offset = offset
        self.length = length
        self.buffer_length = buffer_length

    def __str__(self) -> str:
        return (f"packet {self.index}, {self.length} bytes at offset {self.offset}, doesn't lie within the buffer of "
                f"{self.buffer_length} bytes")


def dtype_of(numpy: Any, kind: Any) -> Any:
    """Returns numpy's type of a C struct."""
    names, fields = zip(*kind.fields)
    formats = [dtype_of(numpy, it.type) if it.type.kind == "struct" else _FORMATS[it.type.cname] for it in fields]
    return numpy.dtype({"names": names, "formats": formats, "offsets": [it.offset for it in fields],
                        "itemsize": ffi.sizeof(kind)})


def signed(numpy: Any, kind: Any) -> Any:
    """Returns numpy's type of a C struct whose numbers have signs, some of them elsewhere than in the struct."""
    fields: dict[str, tuple[Any, int]] = {
        name: (signed(numpy, it) if it.names else it.str.replace("u", "i"), at) for name, (it, at) in kind.fields.items()}
    if _WIDE in fields:
        fields |= {_WIDE: ("i8", fields[_WIDE][1]), _HALVED: ("i4", fields[_HALVED][1]), _MOVED: ("i4", fields[_HALVED][1] + 4)}
    names = sorted(fields, key=lambda it: fields[it][1])
    formats, offsets = zip(*(fields[it] for it in names))
    return numpy.dtype({"names": names, "formats": formats, "offsets": offsets, "itemsize": kind.itemsize})


def _move(numpy: Any, structs: Any) -> None:
    """Moves the numbers of structs to where `signed` has them."""
    words = structs.view(numpy.uint32).reshape(len(structs), -1)
    moved, halved = (structs.dtype.fields[it][1] // 4 for it in (_MOVED, _HALVED))
    words[:, halved + 1] = words[:, moved]
    words[:, moved] = 0


class Packets:
    """Packets at places in a buffer. `call` is the name of the call that needs numpy for them."""

    def __init__(self, call: str, buffer: Buffer, offsets: Any, lengths: Any) -> None:
        self.numpy = import_for(call, "numpy")
        self.bytes = ffi.from_buffer("uint8_t[]", buffer)
        self._columns = [self._column(it) for it in (offsets, lengths)]
        self.count = len(self._columns[0])
        if len(self._columns[1]) != self.count:
            raise ValueError(f"{self.count} offsets, but {len(self._columns[1])} lengths")
        spans = self.numpy.empty(self.count, dtype_of(self.numpy, ffi.typeof("struct wolfaren_packet_span")))
        spans["offset"], spans["len"] = self._columns  # a negative number becomes one that no buffer has
        self.spans = ffi.from_buffer("struct wolfaren_packet_span[]", spans)

    def _column(self, numbers: Any) -> Any:
        column = self.numpy.asarray(numbers)
        if column.dtype == object:  # such as those of pandas that may have missing values
            column = self.numpy.array([*column])
        is_masked = self.numpy.ma.is_masked(numbers)
        if column.ndim != 1 or is_masked or (column.size and column.dtype.kind not in "iu"):
            raise TypeError("offsets and lengths are one-dimensional arrays of integers, none of them missing")
        return column

    def pass_to(self, call: Any, *arguments: Any, array: Any = None, start: int = 0, most: int | None = None) -> None:
        """Passes the packets from `start` on to a call of the library, after these arguments: at most so many. If there is an array
        to fill, passes as many as it has room for, and the array after them."""
        outside, end = ffi.new("size_t *"), self.count
        if array is not None or most is not None:
            end = min(end, start + (len(array) if most is None else most))
        for at in range(start, end, _TOGETHER):
            count = min(_TOGETHER, end - at)
            room = () if array is None else (array + (at - start), count)
            if not call(*arguments, self.bytes, len(self.bytes), self.spans + at, count, *room, outside):
                index = at + outside[0]
                offset, length = (int(it[index]) for it in self._columns)
                raise SpanError(index, offset, length, len(self.bytes))


def dissect_many(buffer: Buffer, offsets: Any, lengths: Any) -> Any:
    """Dissects the IP packets at many places in a buffer, each as `dissect` does.

    Packet i has the `lengths[i]` bytes of the buffer from `offsets[i]` on. Both are one-dimensional arrays or sequences of
    integers. Packets may overlap. Returns a numpy array with an element for each packet, in order, whose fields are the
    columns. Their types are signed, so that differences are right.

        base_len                i8   the length of the IP header in bytes, or 0 if there is none
        stated_len              i8   the packet's length in bytes as the IP header states it, or 0 if it states none
        headers                 i8   the number of extension headers
        payload_offset          i8   where the payload begins, in bytes from the start of the packet
        payload_len             i8   the number of payload bytes that are present
        missing                 i4   the number of bytes of the stated length that aren't present
        fragment_offset         i4   where the fragment lies in the payload, in bytes
        padding                 i8   the number of bytes after the packet
        fault.required_len      i8   the number of bytes that a layer needs
        fault.len               i8   the number of bytes that are available to it
        fault.offset            i8   where this layer begins, in bytes from the start of the packet
        fault.kind              i1   the error, a `FaultKind`, or 0
        fault.header            i1   the faulty extension header, a `Layer`
        fault.layer             i1   the layer that needs the bytes, a `Layer`
        fault.len_source        i1   where `fault.len` comes from, a `LenSource`
        fault.value             i4   the invalid version or internet header length
        identification          i8   a number that all fragments of a packet share, or 0
        version                 i2   4 or 6, or 0 if there is no IP header
        payload_number          i2   the protocol number of what follows the headers
        fragment                i2   which fragment the packet is, a `FragmentKind`
        end                     i2   why the headers end, an `End`

    The column of a name with a dot is `array["fault"]["kind"]`. Numbers that don't apply are 0. A packet whose length field is
    0 states no length, and all bytes after its headers are its payload: before you trust a row, test its `stated_len`, which
    is then 0.

    Raises `SpanError`, a `ValueError`, with the index of the first packet that doesn't lie within the buffer, `ValueError` if
    there are more offsets or more lengths, `TypeError` if they aren't integers, or some are masked or missing, and
    `ImportError` if numpy isn't installed. Python's other threads run meanwhile; none may write to the buffer.
    """
    packets = Packets("wolfaren.dissect_many", buffer, offsets, lengths)
    numpy = packets.numpy
    kind = dtype_of(numpy, ffi.typeof("struct wolfaren_dissection"))
    structs = numpy.empty(packets.count, kind)
    for start in range(0, packets.count, _TOGETHER):
        some = structs[start:start + _TOGETHER]
        packets.pass_to(lib.wolfaren_dissect_packets, array=ffi.from_buffer("struct wolfaren_dissection[]", some), start=start)
        _move(numpy, some)
    return structs.view(signed(numpy, kind))
