"""Writes packets with other extension headers or another payload."""

from __future__ import annotations

import enum
from collections.abc import Iterable
from typing import Any, NamedTuple

from ._library import Buffer, ffi, lib, text_of


class Refusal(enum.IntEnum):
    """Why a packet isn't rewritten. The first reason that applies is stored in a `RewriteError`. Threads may share the members,
    which are the same after a fork, and can be pickled and copied."""

    HEADERS = lib.WOLFAREN_REFUSED_HEADERS
    """There is no IP header, or the headers are truncated or faulty: `dissect` says why."""
    MISSING = lib.WOLFAREN_REFUSED_MISSING
    """Fewer bytes are here than the IP header states."""
    LATER_FRAGMENT = lib.WOLFAREN_REFUSED_LATER_FRAGMENT
    """The packet is a middle or last fragment of IPv4."""
    NOT_A_HEADER = lib.WOLFAREN_REFUSED_NOT_A_HEADER
    """The bytes aren't one extension header of the number, or it can't be in a packet of the IP version."""
    NO_HEADER = lib.WOLFAREN_REFUSED_NO_HEADER
    """The packet has no such header."""
    FRAGMENT_HEADER = lib.WOLFAREN_REFUSED_FRAGMENT_HEADER
    """The header is the fragment header of a fragment."""
    MISPLACED = lib.WOLFAREN_REFUSED_MISPLACED
    """The header can't be at the index (RFC 8200, section 4.1)."""
    FRAGMENTED = lib.WOLFAREN_REFUSED_FRAGMENTED
    """The change is in the part of the packet that is fragmented."""
    AUTHENTICATED = lib.WOLFAREN_REFUSED_AUTHENTICATED
    """An authentication header covers the change (RFC 4302, section 3.3.3)."""
    HEADER_FOLLOWS = lib.WOLFAREN_REFUSED_HEADER_FOLLOWS
    """The payload would be read as an extension header."""
    NO_LENGTH = lib.WOLFAREN_REFUSED_NO_LENGTH
    """The length would change, and the packet states none: its length field is 0, and it is no jumbogram (RFC 2675)."""
    NOT_A_JUMBOGRAM = lib.WOLFAREN_REFUSED_NOT_A_JUMBOGRAM
    """The packet would no longer be a jumbogram: without the header that states its length, with a fragment header, or with
    65,535 bytes or fewer after its base header (RFC 2675, sections 2 and 3)."""
    TOO_LONG = lib.WOLFAREN_REFUSED_TOO_LONG
    """The length field, or the option of a jumbogram, can't state the length."""


class RewriteError(ValueError):
    """A packet that can't be rewritten. No call changes it: threads may share it, it is the same after a fork, and it can be
    pickled and copied."""

    def __init__(self, refusal: Refusal) -> None:
        super().__init__(refusal)
        self.refusal = refusal

    def __str__(self) -> str:
        return text_of(lib.wolfaren_refusal_text, self.refusal)


class Rewritten(NamedTuple):
    """A packet that was rewritten. It never changes: threads may share it, it is the same after a fork, and it can be pickled and
    copied."""

    packet: bytes
    keeps_checksums: bool
    """Whether transport checksums hold as before. They don't with another payload, or after a routing header with segments left
    was removed or inserted: they cover the final destination (RFC 8200, section 8.1)."""


def _rewritten(call: Any, packet: Buffer, *change: Any, may_be_invalid: bool, added: int = 0) -> Rewritten:
    """Makes a call that writes the packet, which becomes longer by at most `added` bytes, with a change."""
    data = ffi.from_buffer("uint8_t[]", packet)
    out = ffi.new("uint8_t[]", len(data) + added)
    done = ffi.new("struct wolfaren_rewritten *")
    if not call(data, len(data), *change, may_be_invalid, out, len(out), done):
        raise RewriteError(Refusal(done.refusal))
    return Rewritten(bytes(ffi.buffer(out, done.len)), bool(done.keeps_checksums))


def remove_header(packet: Buffer, *, number: int | None = None, index: int | None = None, may_be_invalid: bool = False) -> Rewritten:
    """Returns the packet at the start of the bytes without its extension headers of a number, or without the one with an index.

    One of `number` and `index` is given; `index` counts the extension headers from 0. All else stays as it is, except the
    numbers that lead from header to header, the length in the IP header or in the option of a jumbogram (RFC 2675), and IPv4's
    header checksum, which is computed anew. Bytes after the packet are left out.

    Raises `RewriteError` if that can't be. A packet that keeps an authentication header can only be changed if
    `may_be_invalid` is true, since the header's check value doesn't hold for the changed packet, or if only the fragment header
    of an atomic fragment before it is left out, which isn't covered (RFC 4302, section 3.3.4).
    """
    if (number is None) == (index is None):
        raise TypeError("either number or index must be given")
    call, value = (lib.wolfaren_remove_header, index) if number is None else (lib.wolfaren_remove_headers, number)
    return _rewritten(call, packet, value, may_be_invalid=may_be_invalid)


def with_header(packet: Buffer, number: int, header: Buffer, index: int | None = None, *, may_be_invalid: bool = False) -> Rewritten:
    """Returns the packet at the start of the bytes with one more extension header.

    The header has this number and these bytes, of which the first, its next header field, is replaced. It is inserted before
    the header with this index, or after all of them if there are as many. Without an index, it is inserted where RFC 8200,
    section 4.1, recommends it, destination options last. All else stays as it is, as with `remove_header`.

    Raises `RewriteError` if that can't be, also for an authentication header as `remove_header` does.
    """
    new = ffi.from_buffer("uint8_t[]", header)
    if index is None:
        data = ffi.from_buffer("uint8_t[]", packet)
        index = lib.wolfaren_recommended_index(data, len(data), number)
    return _rewritten(lib.wolfaren_with_header, packet, number, new, len(new), index, may_be_invalid=may_be_invalid, added=len(new))


def with_payload(packet: Buffer, number: int, payload: Buffer, *, may_be_invalid: bool = False) -> Rewritten:
    """Returns the packet at the start of the bytes with all of its extension headers and another payload of this number.

    All else stays as it is, as with `remove_header`. A checksum in the payload is the caller's.

    Raises `RewriteError` if that can't be, also for an authentication header as `remove_header` does.
    """
    new = ffi.from_buffer("uint8_t[]", payload)
    return _rewritten(lib.wolfaren_with_payload, packet, number, new, len(new), may_be_invalid=may_be_invalid, added=len(new))


def has_reserved_bits(packet: Buffer) -> bool:
    """Returns whether a reserved bit is 1 in an extension header of the packet at the start of the bytes.

    `clear_reserved_bits` would then change a header. If the headers end with an error, those before it count.
    """
    data = ffi.from_buffer("uint8_t[]", packet)
    return bool(lib.wolfaren_has_reserved_bits(data, len(data)))


def clear_reserved_bits(packet: Buffer, *, may_be_invalid: bool = False) -> Rewritten:
    """Returns the packet at the start of the bytes with the reserved bits of its fragment and authentication headers set to zero.

    These are defined in RFC 8200, section 4.5, and RFC 4302, section 2.3. All else stays as it is, as with `remove_header`.

    Raises `RewriteError` if that can't be. If one of these bits is 1 in an authentication header, or after one, the packet can
    only be changed if `may_be_invalid` is true.
    """
    return _rewritten(lib.wolfaren_clear_reserved_bits, packet, may_be_invalid=may_be_invalid)


def is_in_order(packet: Buffer) -> bool:
    """Returns whether the extension headers of the packet at the start of the bytes are in the order that `in_order` gives them.

    `in_order` would then leave them as they are. If the headers end with an error, those before it count.
    """
    data = ffi.from_buffer("uint8_t[]", packet)
    return bool(lib.wolfaren_is_in_order(data, len(data)))


def in_order(packet: Buffer, *, may_be_invalid: bool = False) -> Rewritten:
    """Returns the packet at the start of the bytes with its extension headers in the order that RFC 8200, section 4.1, recommends.

    That is hop-by-hop options, routing headers and the destination options before any of them, fragment headers, authentication
    headers, other destination options. Headers of one such group keep their order. All else stays as it is, as with
    `remove_header`.

    Raises `RewriteError` if that can't be. The order of a packet with an authentication header can only be changed if
    `may_be_invalid` is true.
    """
    return _rewritten(lib.wolfaren_in_order, packet, may_be_invalid=may_be_invalid)


_WITHOUT = {
    lib.WOLFAREN_HOP_BY_HOP: "without_hop_by_hop",
    lib.WOLFAREN_ROUTING: "without_routing",
    lib.WOLFAREN_FRAGMENT: "without_fragment",
    lib.WOLFAREN_AUTHENTICATION: "without_authentication",
    lib.WOLFAREN_DESTINATION_OPTIONS: "without_destination_options",
}


def rewrite(packet: Buffer, *, without: Iterable[int] = (), clears: bool = False, orders: bool = False,
            may_be_invalid: bool = False) -> Rewritten | None:
    """Returns the packet at the start of the bytes with several changes at once, or `None` if they change no extension header.

    Headers with the numbers in `without` are left out. Then, if `clears` is true, the reserved bits of the others are set to
    zero, as by `clear_reserved_bits`, and if `orders` is true, these are put in order, as by `in_order`. All else stays as it is,
    as with `remove_header`.

    Raises `RewriteError` if one of the changes can't be made, with the refusal of the first, also for an authentication header as
    `remove_header` does; and `ValueError` for a number of no extension header.
    """
    data = ffi.from_buffer("uint8_t[]", packet)
    request = ffi.new("struct wolfaren_request *", {"clears": clears, "orders": orders, "may_be_invalid": may_be_invalid})
    for number in without:
        if number not in _WITHOUT:
            raise ValueError(f"{number} is no extension header's number")
        setattr(request, _WITHOUT[number], 1)
    done = ffi.new("struct wolfaren_rewritten *")
    lib.wolfaren_rewrite(data, len(data), request, ffi.NULL, 0, done)
    if done.refusal == lib.WOLFAREN_NOT_REFUSED:
        return None
    out = ffi.new("uint8_t[]", len(data))
    if not lib.wolfaren_rewrite(data, len(data), request, out, len(out), done):
        raise RewriteError(Refusal(done.refusal))
    return Rewritten(bytes(ffi.buffer(out, done.len)), bool(done.keeps_checksums))
