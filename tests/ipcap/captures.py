"""Builds packets and captures byte by byte, as the standards define them."""

import struct

ETHERNET, RAW, SLL, SLL2, NULL, LOOP, IPV4, IPV6, NFLOG = 1, 101, 113, 276, 0, 108, 228, 229, 239
MICROSECONDS, NANOSECONDS = 0xA1B2C3D4, 0xA1B23C4D

UDP = struct.pack(">HHHH", 1000, 2000, 12, 0) + b"data"
TCP = struct.pack(">HHIIHHHH", 1000, 2000, 1, 0, 0x5002, 1024, 0, 0)


def options(next_header, units=0):
    """Hop-by-hop or destination options of 8 * (units + 1) bytes, filled with one PadN option per 8 bytes."""
    return bytes([next_header, units]) + b"\1\4\0\0\0\0" + b"\1\6\0\0\0\0\0\0" * units


def routing(next_header, units=0):
    """A routing header of the experimental type 253 (RFC 4727), with no segments left."""
    return bytes([next_header, units, 253, 0]) + bytes(4 + 8 * units)


def fragment(next_header, offset=0, more=0, identification=7):
    return struct.pack(">BBHI", next_header, 0, offset << 3 | more, identification)


def authentication(next_header, value_len=12):
    return struct.pack(">BBHII", next_header, (12 + value_len) // 4 - 2, 0, 1, 2) + bytes(value_len)


def header(number, next_header, units=0):
    """A header with the given protocol number."""
    make = {0: options, 60: options, 43: routing}
    if number == 44:
        return fragment(next_header)
    if number == 51:
        return authentication(next_header, 12 + 4 * units)
    return make[number](next_header, units)


def chain(numbers, final, units=0):
    """Linked headers with the given numbers, the last of which names the final number."""
    following = list(numbers[1:]) + [final]
    return b"".join(header(n, f, units) for n, f in zip(numbers, following))


def ipv6(next_header, payload, payload_len=None):
    length = len(payload) if payload_len is None else payload_len
    addresses = b"\x20\x01\x0d\xb8" + bytes(11) + b"\1" + b"\x20\x01\x0d\xb8" + bytes(11) + b"\2"
    return struct.pack(">IHBB", 6 << 28, length, next_header, 64) + addresses + payload


def ipv6_chain(numbers, final=17, payload=UDP, units=0):
    return ipv6((list(numbers) + [final])[0], chain(numbers, final, units) + payload)


def checksum(data):
    total = sum(struct.unpack(">%dH" % (len(data) // 2), data))
    while total >> 16:
        total = (total & 0xFFFF) + (total >> 16)
    return ~total & 0xFFFF


def ipv4(protocol, payload, fragment_bits=0, total_len=None, words=5, option_bytes=b""):
    length = 20 + len(option_bytes) + len(payload) if total_len is None else total_len
    before = struct.pack(">BBHHHBB", 4 << 4 | words, 0, length, 1, fragment_bits, 64, protocol)
    addresses = bytes([192, 0, 2, 1, 192, 0, 2, 2]) + option_bytes
    return before + struct.pack(">H", checksum(before + b"\0\0" + addresses)) + addresses + payload


# A later fragment: the bytes after its fragment header are the middle of a payload, and not destination options.
LATER_FRAGMENT = ipv6(44, fragment(60, 185, 1) + b"\xde\xad\xbe\xef\0\0\0\0")


def ethernet(packet, tags=(), ethertype=None):
    """An Ethernet frame, with one VLAN tag for each EtherType in `tags`."""
    if ethertype is None:
        ethertype = 0x0800 if packet and packet[0] >> 4 == 4 else 0x86DD
    types = list(tags) + [ethertype]
    frame = b"\2\0\0\0\0\1\2\0\0\0\0\2" + struct.pack(">H", types[0])
    for number, following in enumerate(types[1:]):
        frame += struct.pack(">HH", number + 1, following)
    return frame + packet


def cooked(packet, ethertype):
    """A frame of a Linux cooked capture, version 1."""
    return struct.pack(">HHH", 0, 1, 6) + b"\2\0\0\0\0\1\0\0" + struct.pack(">H", ethertype) + packet


def cooked2(packet, ethertype):
    """A frame of a Linux cooked capture, version 2."""
    return struct.pack(">HHIHBB", ethertype, 0, 1, 1, 0, 6) + b"\2\0\0\0\0\1\0\0" + packet


def file_header(link_layer=ETHERNET, snap_len=65535, magic=MICROSECONDS, order="<"):
    return struct.pack(order + "IHHiIII", magic, 2, 4, 0, 0, snap_len, link_layer)


def record(frame, kept=None, seconds=1000, fraction=5, order="<"):
    """A packet record of a capture, with the first `kept` bytes of the frame."""
    kept = len(frame) if kept is None else min(kept, len(frame))
    return struct.pack(order + "IIII", seconds, fraction, kept, len(frame)) + frame[:kept]


def capture(frames, link_layer=ETHERNET, snap_len=65535, magic=MICROSECONDS, order="<"):
    """A capture of the frames, one second apart."""
    records = [record(f, snap_len, 1000 + i, 5 + i, order) for i, f in enumerate(frames)]
    return file_header(link_layer, snap_len, magic, order) + b"".join(records)


def udp(port, payload, source=50000, length=None):
    return struct.pack(">HHHH", source, port, 8 + len(payload) if length is None else length, 0) + payload


def gre(ethertype, payload, flags=0):
    """A GRE header (RFC 2784, RFC 2890) with the fields that its flags say: checksum, key, and sequence number."""
    fields = b"".join(bytes([0, 0, 0, bit]) for bit in (0x80, 0x20, 0x10) if flags >> 8 & bit)
    return struct.pack(">HH", flags, ethertype) + fields + payload


def gtp_u(payload, flags=0x30, message=255, optional=b"", length=None):
    """A GTP-U header (3GPP TS 29.281) and the bytes of its optional fields and extension headers."""
    rest = optional + payload
    return struct.pack(">BBHI", flags, message, len(rest) if length is None else length, 0x1234) + rest


def vxlan(frame, flags=8):
    """A VXLAN header (RFC 7348)."""
    return bytes([flags, 0, 0, 0, 0, 0x12, 0x34, 0]) + frame


def geneve(ethertype, payload, option_bytes=b"", version=0, flags=0):
    """A Geneve header (RFC 8926)."""
    first = version << 6 | len(option_bytes) // 4
    return struct.pack(">BBHI", first, flags, ethertype, 0x123400) + option_bytes + payload
