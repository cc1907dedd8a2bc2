"""Tests of what is in headers: options and the addresses of routing headers. Expected values come from scapy, from the bytes,
or from the addresses of which a header was made.

SEED and HEADERS in the environment set what the random headers are and how many: `HEADERS=100000` takes some minutes."""

import os
import unittest
from ipaddress import IPv6Address
from random import Random

from support import PACKETS, UDP, ipv6

from wolfaren import HeaderOption, UnknownOption, dissect

HEADERS = int(os.environ.get("HEADERS", "20000"))
SEED = int(os.environ.get("SEED", "1"))

# options of a fixed length, which scapy reads by their type: router alert, jumbo payload, home address
FIXED = {5: 2, 0xc2: 4, 0xc9: 16}
DESTINATION = IPv6Address("2001:db8::2")


def headers_of(packet):
    return dissect(packet).headers


def scapys_options(number, header):
    """Returns the options by scapy, each with its data, and the offset of one whose data goes past the end."""
    from scapy.layers.inet6 import IPv6ExtHdrDestOpt, IPv6ExtHdrHopByHop
    found, offset = [], 2
    for it in (IPv6ExtHdrDestOpt if number == 60 else IPv6ExtHdrHopByHop)(header).options:
        content = bytes(it)
        if it.otype == 0:
            content = content[:1]
        elif len(content) < 2 or len(content) != 2 + content[1]:
            return found, offset
        found.append((it.otype, content[2:]))
        offset += len(content)
    return found, None


def random_option(random, room):
    """Returns an option that fits the room. A type that scapy reads by itself has its length."""
    kinds = [(0, 0)] + [(kind, length) for kind, length in FIXED.items() if length + 2 <= room]
    if room > 1:
        kind = random.choice([1, *(it for it in range(2, 256) if it not in scapys_types())])
        kinds += 3 * [(kind, random.randrange(min(room - 1, 20)))]
    kind, length = random.choice(kinds)
    return b"\0" if kind == 0 else bytes([kind, length]) + random.randbytes(length)


def scapys_types():
    from scapy.layers import inet6
    return inet6._hbhoptcls


def random_options(random):
    """Returns a header of options, now and then with one that goes past its end."""
    room = 8 * random.randrange(1, 9) - 2
    whole, content = room, b""
    malformed = b""
    if random.random() < 0.3:
        left = random.randrange(1, room + 1)
        kind = random.choice([it for it in range(1, 256) if it not in scapys_types()])
        malformed = (bytes([kind, min(255, left - 1 + random.randrange(200))]) + random.randbytes(left))[:left]
        room -= left
    while room > len(content):
        content += random_option(random, room - len(content))
    return bytes([59, (whole + 2) // 8 - 1]) + content + malformed


def random_routing(random, destination):
    """Returns a routing header of a type, and its addresses."""
    kind, left = random.choice([2, 3, 4]), random.randrange(256)
    if kind == 2:
        address = random.randbytes(16)
        return bytes([59, 2, 2, left, 0, 0, 0, 0]) + address, [address]
    if kind == 4:
        addresses = [random.randbytes(16) for _ in range(random.randrange(1, 9))]
        rest = bytes(8 * random.randrange(3))
        content = b"".join(addresses) + rest
        return bytes([59, len(content) // 8, 4, left, len(addresses) - 1, 0, 0, 0]) + content, addresses
    elided, of_last = random.randrange(16), random.randrange(16)
    kept = [16 - elided] * random.randrange(7) + [16 - of_last]
    tails = [random.randbytes(it) for it in kept]
    padding = -sum(kept) % 8
    content = b"".join(tails) + bytes(padding)
    start = bytes([59, len(content) // 8, 3, left, 16 * elided + of_last, 16 * padding, 0, 0])
    return start + content, [destination[:16 - len(it)] + it for it in tails]


class Contents(unittest.TestCase):
    def test_options(self):
        header = bytes([59, 2, 0, 5, 2, 0, 0, 0x63, 4, 1, 2, 3, 4, 0xc2, 4, 0, 1, 0, 0, 1, 3, 0, 0, 0])
        for number in [0, 60]:
            (found,) = headers_of(ipv6(number, header))
            self.assertEqual(found.options, [(0, b""), (5, b"\0\0"), (0x63, b"\1\2\3\4"), (0xc2, b"\0\1\0\0"), (1, bytes(3))])
            self.assertIsNone(found.malformed_option)
            self.assertEqual([(it.if_unknown, it.may_change) for it in found.options],
                             [(UnknownOption.SKIP, False), (UnknownOption.SKIP, False), (UnknownOption.DISCARD, True),
                              (UnknownOption.DISCARD_AND_REPORT_UNICAST, False), (UnknownOption.SKIP, False)])
            self.assertIsInstance(found.options[1], HeaderOption)
        self.assertEqual(HeaderOption(0x8a, b"").if_unknown, UnknownOption.DISCARD_AND_REPORT)

    def test_malformed_options(self):
        for header, count, offset in [(b"\x3b\0\1\0\x8a\3\0\0", 1, 44), (b"\x3b\0\x8a\5\0\0\0\0", 0, 42),
                                      (b"\x3b\0\0\0\0\0\0\x8a", 5, 47), (b"\x3b\0\0\0\0\0\0\0", 6, None)]:
            (found,) = headers_of(ipv6(60, header))
            self.assertEqual((len(found.options), found.malformed_option), (count, offset))

    def test_other_headers(self):
        for found in headers_of(PACKETS[0]):
            self.assertEqual(found.options is None, found.number not in (0, 60))
            self.assertEqual(found.addresses() is None, found.number != 43)

    def test_addresses(self):
        first = IPv6Address("2001:db8:1::1")
        for start, count in [([59, 2, 2, 1, 0, 0, 0, 0], 1), ([59, 2, 4, 200, 0, 0, 0, 0], 1), ([59, 2, 3, 1, 0, 0, 0, 0], 1),
                             ([59, 2, 4, 1, 1, 0, 0, 0], 0), ([59, 2, 3, 1, 0, 0x10, 0, 0], 0), ([59, 2, 0, 1, 0, 0, 0, 0], 0)]:
            (found,) = headers_of(ipv6(43, bytes(start) + first.packed))
            self.assertEqual(found.addresses(), [first] * count)
            self.assertEqual((found.routing_type, found.segments_left), (start[2], start[3]))
        (found,) = headers_of(ipv6(43, bytes([59, 1, 3, 1, 0xff, 0x70, 0, 0, 7]) + bytes(7)))
        self.assertEqual((found.addresses(), found.addresses(DESTINATION)), ([IPv6Address("::7")], [IPv6Address("2001:db8::7")]))

    def test_options_as_scapy(self):
        random = Random(SEED)
        for count in range(HEADERS // 2):
            number, header = random.choice([0, 60]), random_options(random)
            (found,) = headers_of(ipv6(number, header))
            options, malformed = scapys_options(number, header)
            self.assertEqual(found.options, options, (SEED, count, header.hex()))
            self.assertEqual(found.malformed_option, None if malformed is None else 40 + malformed, (SEED, count, header.hex()))

    def test_addresses_as_scapy(self):
        from scapy.layers.inet6 import IPv6, IPv6ExtHdrRouting, IPv6ExtHdrSegmentRouting
        random = Random(SEED)
        for count in range(HEADERS // 2):
            header, addresses = random_routing(random, DESTINATION.packed)
            packet = ipv6(43, header)
            found = dissect(packet)
            wanted = [IPv6Address(it) for it in addresses]
            self.assertEqual(found.headers[0].addresses(found.dst), wanted, (SEED, count, header.hex()))
            made = {2: IPv6ExtHdrRouting, 4: IPv6ExtHdrSegmentRouting}.get(header[2])
            if made:
                layer = made(header)
                self.assertEqual([IPv6Address(it) for it in layer.addresses], wanted, (SEED, count, header.hex()))
                self.assertEqual((found.headers[0].routing_type, found.headers[0].segments_left), (layer.type, layer.segleft))

    def test_packets_as_scapy(self):
        for packet in PACKETS + [ipv6(60, b"\x11\0\5\2\0\0\1\0" + UDP)]:
            for header in headers_of(packet):
                if header.options is not None:
                    options, malformed = scapys_options(header.number, bytes(header.bytes))
                    self.assertEqual((header.options, header.malformed_option), (options, malformed))


if __name__ == "__main__":
    unittest.main()
