"""Dissects packets."""

from __future__ import annotations

import dataclasses
import enum
import ipaddress
from collections.abc import Callable
from typing import Any, NamedTuple

from ._library import Buffer, ffi, lib, name_of, text_of

Address = ipaddress.IPv4Address | ipaddress.IPv6Address

# How many extension headers the first call has room for. A packet with more takes a second call.
_ROOM = 16

# Where the fields that the library doesn't read are in the header of each IP version (RFC 791, section 3.1, and RFC 8200,
# section 3).
HOP_LIMIT = {4: 8, 6: 7}
SRC = {4: slice(12, 16), 6: slice(8, 24)}
DST = {4: slice(16, 20), 6: slice(24, 40)}

# The options of a header begin after its next header and length fields (RFC 8200, section 4.2).
_OPTIONS_START = 2
_OPTION_HEADERS = [lib.WOLFAREN_HOP_BY_HOP, lib.WOLFAREN_DESTINATION_OPTIONS]


class End(enum.IntEnum):
    """Why the headers of a packet end. Threads may share the members, which are the same after a fork, and can be
    pickled and copied."""

    PAYLOAD = lib.WOLFAREN_AT_PAYLOAD
    """The payload follows them."""
    LATER_FRAGMENT = lib.WOLFAREN_AT_LATER_FRAGMENT
    """The payload follows them, but continues that of an earlier fragment: the fragment offset isn't 0."""
    TRUNCATED_HEADER = lib.WOLFAREN_AT_TRUNCATED_HEADER
    """A header is incomplete: an IP header, or an extension header that lies within the stated length, or no length is
    stated."""
    FAULT = lib.WOLFAREN_AT_FAULT
    """A header doesn't fit within the stated length, or is malformed."""


class FragmentKind(enum.IntEnum):
    """Which fragment a packet is. Threads may share the members, which are the same after a fork, and can be
    pickled and copied."""

    NOT_FRAGMENTED = lib.WOLFAREN_NOT_FRAGMENTED
    ATOMIC = lib.WOLFAREN_ATOMIC_FRAGMENT
    """The whole packet, with a fragment header (RFC 6946)."""
    FIRST = lib.WOLFAREN_FIRST_FRAGMENT
    MIDDLE = lib.WOLFAREN_MIDDLE_FRAGMENT
    LAST = lib.WOLFAREN_LAST_FRAGMENT


class FaultKind(enum.IntEnum):
    """Kinds of error. Threads may share the members, which are the same after a fork, and can be
    pickled and copied."""

    TOO_SHORT = lib.WOLFAREN_TOO_SHORT
    """The layer needs `required_len` bytes from `offset` on, but there are only `len`, as given by `len_source`."""
    HOP_BY_HOP_NOT_AT_START = lib.WOLFAREN_HOP_BY_HOP_NOT_AT_START
    """An extension header is followed by hop-by-hop options, which may only follow the IPv6 header directly."""
    ZERO_PAYLOAD_LEN = lib.WOLFAREN_ZERO_PAYLOAD_LEN
    """The length field of an authentication header is 0."""
    UNSUPPORTED_IP_VERSION = lib.WOLFAREN_UNSUPPORTED_IP_VERSION
    """The version of the packet is `value`, which is neither 4 nor 6."""
    IPV4_HEADER_LENGTH = lib.WOLFAREN_IPV4_HEADER_LENGTH
    """The internet header length (IHL) of an IPv4 packet is `value`, which is below 5."""


class Layer(enum.IntEnum):
    """Headers and packets that an error is about. Threads may share the members, which are the same after a fork, and can be
    pickled and copied."""

    NONE = lib.WOLFAREN_NO_LAYER
    IP_HEADER = lib.WOLFAREN_IP_HEADER
    """An IP header whose version isn't known yet."""
    IPV4_HEADER = lib.WOLFAREN_IPV4_HEADER
    IPV4_PACKET = lib.WOLFAREN_IPV4_PACKET
    AUTHENTICATION_HEADER = lib.WOLFAREN_AUTHENTICATION_HEADER
    IPV6_HEADER = lib.WOLFAREN_IPV6_HEADER
    IPV6_PACKET = lib.WOLFAREN_IPV6_PACKET
    IPV6_EXTENSION_HEADER = lib.WOLFAREN_IPV6_EXTENSION_HEADER
    """Hop-by-hop options, routing or destination options."""
    HOP_BY_HOP_HEADER = lib.WOLFAREN_HOP_BY_HOP_HEADER
    DESTINATION_OPTIONS_HEADER = lib.WOLFAREN_DESTINATION_OPTIONS_HEADER
    ROUTING_HEADER = lib.WOLFAREN_ROUTING_HEADER
    FRAGMENT_HEADER = lib.WOLFAREN_FRAGMENT_HEADER


class LenSource(enum.IntEnum):
    """Where a length comes from. Threads may share the members, which are the same after a fork, and can be
    pickled and copied."""

    NONE = lib.WOLFAREN_NO_LEN_SOURCE
    SLICE = lib.WOLFAREN_SLICE
    """The number of bytes that were passed."""
    IPV4_TOTAL_LENGTH = lib.WOLFAREN_IPV4_TOTAL_LENGTH
    IPV6_PAYLOAD_LENGTH = lib.WOLFAREN_IPV6_PAYLOAD_LENGTH


@dataclasses.dataclass(frozen=True, slots=True)
class Fault:
    """An error. `str` formats it as text, which names the faulty header and says where it is. Numbers that don't apply to
    its kind are 0. It never changes: threads may share it, it is the same after a fork, and it can be pickled and copied."""

    kind: FaultKind
    header: Layer
    """The faulty extension header, or `Layer.NONE` in errors about packets."""
    layer: Layer
    """The layer that needs the bytes."""
    offset: int
    """Where the faulty header or packet begins, in bytes from the start of the packet."""
    required_len: int
    len: int
    len_source: LenSource
    value: int
    text: str

    def __str__(self) -> str:
        return self.text


class _Parts:
    """A record with slices of a packet, whose bytes it is compared, hashed and pickled by. A copy has bytes of its own."""

    __slots__: tuple[str, ...] = ()

    def _values(self) -> tuple[Any, ...]:
        values = (getattr(self, name) for name in self.__slots__)
        return tuple(bytes(it) if isinstance(it, memoryview) else it for it in values)

    def __eq__(self, other: object) -> bool:
        if not isinstance(other, type(self)):
            return NotImplemented
        return self._values() == other._values()

    def __hash__(self) -> int:
        return hash(self._values())

    def __reduce__(self) -> tuple[Callable[..., _Parts], tuple[Any, ...]]:
        return _of_values, (type(self), *self._values())

    def __repr__(self) -> str:
        values = (f"<{len(it)} bytes>" if isinstance(it, bytes) else repr(it) for it in self._values())
        return f"{type(self).__name__}({', '.join(map('='.join, zip(self.__slots__, values)))})"


def _of_values(kind: Callable[..., _Parts], *values: Any) -> _Parts:
    return kind(*(memoryview(it) if isinstance(it, bytes) else it for it in values))


class UnknownOption(enum.IntEnum):
    """What a node does with a packet if it doesn't know an option in it (RFC 8200, section 4.2). Threads may share the members,
    which are the same after a fork, and can be pickled and copied."""

    SKIP = lib.WOLFAREN_SKIP_OPTION
    """Skips the option."""
    DISCARD = lib.WOLFAREN_DISCARD
    """Discards the packet."""
    DISCARD_AND_REPORT = lib.WOLFAREN_DISCARD_AND_REPORT
    """Discards the packet, and reports that to its source (ICMP)."""
    DISCARD_AND_REPORT_UNICAST = lib.WOLFAREN_DISCARD_AND_REPORT_UNICAST
    """The same, but reports it only if the destination isn't multicast."""


class HeaderOption(NamedTuple):
    """An option of a hop-by-hop or destination options header: its type and its data. Pad1, of type 0, has none. It never
    changes: threads may share it, it is the same after a fork, and it can be pickled and copied."""

    type: int
    data: bytes

    @property
    def if_unknown(self) -> UnknownOption:
        """What a node does that doesn't know the option, by the two highest bits of its type."""
        return UnknownOption(self.type >> 6)

    @property
    def may_change(self) -> bool:
        """Whether the data can change on the way, by the third-highest bit of the type."""
        return bool(self.type & 0x20)


@dataclasses.dataclass(frozen=True, slots=True, eq=False, repr=False)
class ExtensionHeader(_Parts):
    """An extension header of a packet. Fields that headers with its number don't have are `None`. Unless the packet's bytes
    do, it never changes: threads may share it, it is the same after a fork, and it can be pickled and copied."""

    number: int
    """The header's own protocol number."""
    next_header: int
    """The next header field: the number of what follows."""
    offset: int
    """Where the header begins, in bytes from the start of the packet."""
    bytes: memoryview

    @property
    def name(self) -> str:
        """The keyword that IANA has assigned to the header's number, such as `IPv6-Frag`."""
        return protocol_name(self.number)

    @property
    def len(self) -> int:
        """The length of the header in bytes."""
        return len(self.bytes)

    @property
    def spi(self) -> int | None:
        """The security parameters index of an authentication header."""
        return self._field(lib.WOLFAREN_AUTHENTICATION, "authentication", "spi")

    @property
    def identification(self) -> int | None:
        """The identification of a fragment header, which all fragments of a packet share."""
        return self._field(lib.WOLFAREN_FRAGMENT, "fragment", "identification")

    @property
    def fragment_offset(self) -> int | None:
        """Where a fragment header says that the fragment lies in the payload, in bytes."""
        return self._field(lib.WOLFAREN_FRAGMENT, "fragment", "fragment_offset")

    @property
    def more_fragments(self) -> bool | None:
        """Whether a fragment header says that more fragments follow."""
        flag = self._field(lib.WOLFAREN_FRAGMENT, "fragment", "more_fragments")
        return None if flag is None else bool(flag)

    @property
    def routing_type(self) -> int | None:
        """The routing type of a routing header."""
        return self._field(lib.WOLFAREN_ROUTING, "routing", "routing_type")

    @property
    def segments_left(self) -> int | None:
        """How many nodes of a routing header are still to be visited."""
        return self._field(lib.WOLFAREN_ROUTING, "routing", "segments_left")

    def addresses(self, destination: Address | None = None) -> list[ipaddress.IPv6Address] | None:
        """Returns the addresses of a routing header of type 2, 3 or 4, in the order of the header; of one with another type
        or with fields that don't fit its length, an empty list. Type 3 leaves out the first bytes of an address if they are
        those of the packet's destination address, `Dissection.dst`: without `destination`, they are 0.
        """
        count = self._field(lib.WOLFAREN_ROUTING, "routing", "addresses")
        if count is None:
            return None
        view, found = ffi.from_buffer("uint8_t[]", self.bytes), []
        first = destination.packed if isinstance(destination, ipaddress.IPv6Address) else bytes(16)
        address = ffi.new("uint8_t[16]")
        for index in range(count):
            lib.wolfaren_routing_address(view, self.len, index, first, address)
            found.append(ipaddress.IPv6Address(bytes(address)))
        return found

    @property
    def options(self) -> list[HeaderOption] | None:
        """The options of a hop-by-hop or destination options header, padding too, up to a malformed one."""
        return self._read_options()[0]

    @property
    def malformed_option(self) -> int | None:
        """Where an option begins that would go past the end of the header, in bytes from the start of the packet, or `None` if
        all options of the header are well formed."""
        return self._read_options()[1]

    def _read_options(self) -> tuple[list[HeaderOption] | None, int | None]:
        """Returns the options, and the offset of a malformed one."""
        if self.number not in _OPTION_HEADERS:
            return None, None
        view, found = ffi.from_buffer("uint8_t[]", self.bytes), []
        cursor = ffi.new("struct wolfaren_option_cursor *", (_OPTIONS_START, self.len))
        option = ffi.new("struct wolfaren_option *")
        while lib.wolfaren_next_option(cursor, view, self.len, option):
            end = option.data_offset + option.data_len
            found.append(HeaderOption(option.option_type, bytes(self.bytes[option.data_offset:end])))
        return found, self.offset + cursor.offset if cursor.offset < cursor.end else None

    def _field(self, number: int, kind: str, name: str) -> int | None:
        """Returns a field that the library reads from headers with a number, or `None` for another header."""
        fields = ffi.new(f"struct wolfaren_{kind} *")
        read = getattr(lib, f"wolfaren_{kind}_fields")
        if self.number != number or not read(ffi.from_buffer("uint8_t[]", self.bytes), self.len, fields):
            return None
        value: int = getattr(fields, name)
        return value


@dataclasses.dataclass(frozen=True, slots=True)
class Fragment:
    """Which fragment a packet is. Of a packet that isn't fragmented, identification and offset are 0. It never changes:
    threads may share it, it is the same after a fork, and it can be pickled and copied."""

    kind: FragmentKind
    identification: int
    """A number that all fragments of a packet share."""
    offset: int
    """Where the fragment lies in the payload, in bytes."""


@dataclasses.dataclass(frozen=True, slots=True, eq=False, repr=False)
class Dissection(_Parts):
    """The parts of a packet, one after another, as far as they are present. The slices refer to the packet's bytes, and
    those of a copy to bytes of its own. Dissections with equal parts are equal. Unless the packet's bytes do, a dissection
    never changes: threads may share it, it is the same after a fork, and it can be pickled and copied."""

    version: int
    """4 or 6, or 0 if there is no IP header."""
    base_header: memoryview
    """The IP header, empty if there is none."""
    headers: tuple[ExtensionHeader, ...]
    fragment: Fragment
    payload_number: int
    """The protocol number of what follows the headers."""
    payload_offset: int
    """Where the payload begins, in bytes from the start of the packet."""
    payload: memoryview
    stated_len: int
    """The length of the packet in bytes as the IP header states it, or 0 if it states none."""
    missing: int
    """How many bytes of the stated length aren't present."""
    padding: memoryview
    """The bytes after the packet."""
    end: End
    fault: Fault | None
    """The error if `end` is `End.TRUNCATED_HEADER` or `End.FAULT`, otherwise `None`."""

    @property
    def src(self) -> Address | None:
        """The source address, or `None` if there is no IP header."""
        return self._address(SRC)

    @property
    def dst(self) -> Address | None:
        """The destination address, or `None` if there is no IP header."""
        return self._address(DST)

    @property
    def hop_limit(self) -> int | None:
        """The hop limit of IPv6 or the time to live of IPv4, or `None` if there is no IP header."""
        return self.base_header[HOP_LIMIT[self.version]] if self.version else None

    def _address(self, places: dict[int, slice]) -> Address | None:
        return ipaddress.ip_address(bytes(self.base_header[places[self.version]])) if self.version else None


def _fault_of(parts: Any) -> Fault | None:
    """Returns the error of a dissection."""
    fault = parts.fault
    if fault.kind == lib.WOLFAREN_NO_FAULT:
        return None
    text = text_of(lib.wolfaren_fault_text, ffi.addressof(parts, "fault"))
    return Fault(FaultKind(fault.kind), Layer(fault.header), Layer(fault.layer), fault.offset, fault.required_len, fault.len,
                 LenSource(fault.len_source), fault.value, text)


def dissect(packet: Buffer) -> Dissection:
    """Dissects the IP packet at the start of the bytes, which may be any bytes.

    The packet ends where its length field says. A packet whose length field is 0 states no length, and all bytes after its
    headers are its payload: before you trust a dissection, test `stated_len`, which is then 0. The headers are the longest
    chain within the packet in which nothing follows a fragment header with a non-zero offset. Bytes that don't start with an
    IP header are all padding. Nothing is copied, and no bytes are an error: `fault` reports what is wrong with them.
    """
    view = memoryview(packet).toreadonly().cast("B")
    bytes_, room = ffi.from_buffer("uint8_t[]", view), _ROOM
    parts = ffi.new("struct wolfaren_dissection *")
    while True:
        headers = ffi.new("struct wolfaren_header[]", room)
        lib.wolfaren_dissect(bytes_, len(view), headers, room, parts)
        if parts.headers <= room:
            break
        room = parts.headers
    at, end = parts.payload_offset, parts.payload_offset + parts.payload_len
    return Dissection(
        version=parts.version,
        base_header=view[:parts.base_len],
        headers=tuple(ExtensionHeader(it.number, it.next_header, it.offset, view[it.offset:it.offset + it.len])
                      for it in headers[0:parts.headers]),
        fragment=Fragment(FragmentKind(parts.fragment), parts.identification, parts.fragment_offset),
        payload_number=parts.payload_number,
        payload_offset=at,
        payload=view[at:end],
        stated_len=parts.stated_len,
        missing=parts.missing,
        padding=view[len(view) - parts.padding:],
        end=End(parts.end),
        fault=_fault_of(parts))


def protocol_name(number: int) -> str:
    """Returns the keyword that IANA has assigned to a protocol number, such as `TCP` for 6, or an empty string."""
    return name_of(lib.wolfaren_find_number_name, number)
