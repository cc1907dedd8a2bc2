"""IPv4 and IPv6 fragments as bytes, and what a receiver sees of a whole packet."""

import collections
import ipaddress
import struct

SENDER, RECEIVER = {4: "192.0.2.2", 6: "2001:db8::2"}, {4: "192.0.2.1", 6: "2001:db8::1"}
# source and destination
ADDRESSES = {it: b"".join(ipaddress.ip_address(one[it]).packed for one in (SENDER, RECEIVER)) for it in (4, 6)}
# link-local addresses, the receiver's on each of its interfaces (RFC 4291, section 2.5.6)
LOCAL_RECEIVER = "fe80::1"
LOCAL = b"".join(ipaddress.ip_address(it).packed for it in ("fe80::2", LOCAL_RECEIVER))
# a protocol number for experiments (RFC 3692, section 2.1): nothing takes its payload but a raw socket
NUMBER = 253
HOP_BY_HOP, ROUTING, FRAGMENT, DESTINATION = 0, 43, 44, 60

# A fragment: `offset` is in units of 8 bytes, `options` are those of an IPv4 header, `headers` the numbers of the extension
# headers before the fragment header, and `number` is that of what the payload starts with. `hops` tells the headers of
# different fragments apart. `addresses` are others than ADDRESSES, `context` is the number of the interface where it arrives.
Fragment = collections.namedtuple("Fragment", "version identification offset more data ecn options headers number hops addresses context",
                                  defaults=(0, b"", (), NUMBER, 64, b"", 0))

# What a receiver sees of a whole packet of IPv6: fields of its base header, its extension headers, and its payload.
Seen = collections.namedtuple("Seen", "version flow hops headers data")


def end_of(fragment):
    return 8 * fragment.offset + len(fragment.data)


def words_sum(data):
    """The sum of the words of a header in ones' complement (RFC 1071, section 1)."""
    total = sum(struct.unpack(f">{len(data) // 2}H", data))
    while total > 0xFFFF:
        total = (total & 0xFFFF) + (total >> 16)
    return total


def extension(header, following, mark):
    """An extension header of 8 bytes: options that are padding, or a routing header without segments left (RFC 8200, section 4)."""
    return bytes([following, 0, 1, 4, 0, 0, 0, 0]) if header != ROUTING else bytes([following, 0, NUMBER, 0, 0, 0, 0, mark])


def chain(headers, following, mark):
    """Extension headers, the last of which announces the number of what follows it."""
    return b"".join(extension(*it, mark) for it in zip(headers, (*headers[1:], following)))


def ipv4(fragment, field, data):
    """A packet of IPv4 with a fragment's header, and this field for flags and offset (RFC 791, section 3.1)."""
    length = 20 + len(fragment.options) + len(data)
    head = struct.pack(">BBHHHBB", 0x45 + len(fragment.options) // 4, 0x28 | fragment.ecn, length & 0xFFFF, fragment.identification,
                       field, fragment.hops, fragment.number)
    after = (fragment.addresses or ADDRESSES[4]) + fragment.options
    return head + struct.pack(">H", ~words_sum(head + after) & 0xFFFF) + after + data


def ipv6(fragment, following, data):
    """A packet of IPv6 with a fragment's headers up to the fragment header (RFC 8200, section 3)."""
    before = chain(fragment.headers, following, fragment.hops)
    word = 6 << 28 | (0x28 | fragment.ecn) << 20 | 0x12300 | fragment.hops
    first = (*fragment.headers, following)[0]
    return struct.pack(">IHBB", word, len(before) + len(data), first, fragment.hops) + (fragment.addresses or ADDRESSES[6]) + before + data


def bytes_of(fragment):
    """The packet that a fragment is."""
    if fragment.version == 4:
        return ipv4(fragment, 0x2000 * fragment.more | fragment.offset, fragment.data)
    header = struct.pack(">BBHI", fragment.number, 0, 8 * fragment.offset | fragment.more, fragment.identification)
    return ipv6(fragment, FRAGMENT, header + fragment.data)


def whole_of(first, ecn, data):
    """The whole packet with the headers of the first fragment (RFC 791, section 3.2; RFC 8200, section 4.5)."""
    marked = first._replace(ecn=ecn)
    return ipv4(marked, 0, data) if first.version == 4 else ipv6(marked, first.number, data)


def seen_of(packet):
    """What a receiver sees of a whole packet: all of IPv4, and the parts of IPv6. An atomic fragment's header is skipped."""
    if packet[0] >> 4 == 4:
        return packet
    word, _, number, hops = struct.unpack(">IHBB", packet[:8])
    at, found = 40, []
    while number in (HOP_BY_HOP, ROUTING, FRAGMENT, DESTINATION):
        length = 8 if number == FRAGMENT else 8 + 8 * packet[at + 1]
        found += [(number, packet[at:at + length])] * (number != FRAGMENT)
        number, at = packet[at], at + length
    return Seen(6, word & 0xFFFFFFF, hops, tuple(found), packet[at:])
