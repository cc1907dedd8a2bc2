"""Tests of `dissect`. Expected values were worked out by hand from the bytes, or come from scapy."""

import copy
import pickle
import re
import unittest
from ipaddress import ip_address
from random import Random

from support import LATER_FRAGMENT, ROOT, TCP, UDP, authentication, fragment, ipv4, ipv6, ipv6_chain, options, routing

import wolfaren
from wolfaren import End, FaultKind, Fragment, FragmentKind, Layer, LenSource, dissect


class Dissections(unittest.TestCase):
    def test_every_part(self):
        packet = ipv6(0, options(43) + routing(44, 1) + fragment(51, 0, 1, 99) + authentication(60) + options(17) + UDP)
        found = dissect(packet + b"pad")
        self.assertEqual((found.version, found.base_header, found.stated_len), (6, packet[:40], len(packet)))
        self.assertEqual([(it.number, it.next_header, it.offset, len(it.bytes)) for it in found.headers],
                         [(0, 43, 40, 8), (43, 44, 48, 16), (44, 51, 64, 8), (51, 60, 72, 24), (60, 17, 96, 8)])
        self.assertEqual([it.bytes for it in found.headers][1], routing(44, 1))
        self.assertEqual(found.fragment, Fragment(FragmentKind.FIRST, 99, 0))
        self.assertEqual((found.payload_number, found.payload, found.padding), (17, UDP, b"pad"))
        self.assertEqual((found.payload_offset, found.hop_limit), (104, 64))
        self.assertEqual((found.src, found.dst), (ip_address("2001:db8::1"), ip_address("2001:db8::2")))
        self.assertEqual((found.missing, found.end, found.fault), (0, End.PAYLOAD, None))

    def test_scapy(self):
        from scapy.layers.inet import UDP as ScapyUdp
        from scapy.layers.inet6 import IPv6, IPv6ExtHdrDestOpt, IPv6ExtHdrFragment, IPv6ExtHdrHopByHop, PadN
        from scapy.layers.ipsec import AH
        after = ScapyUdp(sport=1, dport=2) / b"data"
        made = (IPv6() / IPv6ExtHdrHopByHop(options=[PadN(optdata=bytes(12))]) / AH(nh=44, payloadlen=4, icv=bytes(12))
                / IPv6ExtHdrFragment(m=1, id=5) / IPv6ExtHdrDestOpt() / after)
        found = dissect(bytes(made))
        self.assertEqual([(it.number, len(it.bytes)) for it in found.headers], [(0, 16), (51, 24), (44, 8), (60, 8)])
        self.assertEqual(found.payload, bytes(made)[-len(bytes(after)):])
        self.assertEqual(found.fragment, Fragment(FragmentKind.FIRST, 5, 0))

    def test_fields_of_headers(self):
        packet = ipv6(43, bytes([44, 2, 4, 7]) + bytes(20) + fragment(51, 0, 1, 99)
                      + bytes([17, 4, 0, 0]) + b"\xfe\xdc\xba\x98" + bytes(16) + UDP)
        names = "name", "offset", "len", "routing_type", "segments_left", "fragment_offset", "more_fragments", \
            "identification", "spi"
        self.assertEqual([tuple(getattr(it, name) for name in names) for it in dissect(packet).headers],
                         [("IPv6-Route", 40, 24, 4, 7, None, None, None, None),
                          ("IPv6-Frag", 64, 8, None, None, 0, True, 99, None),
                          ("AH", 72, 24, None, None, None, None, None, 0xfedcba98)])
        (header,) = dissect(ipv6(44, fragment(17, 8191, 0, 1) + UDP)).headers
        self.assertEqual((header.fragment_offset, header.more_fragments), (65528, False))

    def test_fields_as_scapy(self):
        from scapy.layers.inet import IP
        from scapy.layers.inet6 import IPv6, IPv6ExtHdrFragment, IPv6ExtHdrRouting
        from scapy.layers.ipsec import AH
        random = Random(1)
        for _ in range(200):
            src, dst = (ip_address(random.randbytes(16)) for _ in range(2))
            kind, left, hops = random.randbytes(3)
            spi, identification = (random.getrandbits(32) for _ in range(2))
            offset, more = random.getrandbits(13), random.getrandbits(1)
            made = (IPv6(src=str(src), dst=str(dst), hlim=hops) / AH(nh=43, payloadlen=4, spi=spi, icv=bytes(12))
                    / IPv6ExtHdrRouting(type=kind, segleft=left)
                    / IPv6ExtHdrFragment(offset=offset, m=more, id=identification))
            found = dissect(bytes(made))
            ah, route, part = found.headers
            self.assertEqual((found.src, found.dst, found.hop_limit), (src, dst, hops))
            self.assertEqual((ah.spi, route.routing_type, route.segments_left), (spi, kind, left))
            self.assertEqual((part.fragment_offset, part.more_fragments, part.identification),
                             (8 * offset, bool(more), identification))
            src, dst = (ip_address(random.randbytes(4)) for _ in range(2))
            found = dissect(bytes(IP(src=str(src), dst=str(dst), ttl=hops)))
            self.assertEqual((found.src, found.dst, found.hop_limit), (src, dst, hops))

    def test_ipv4(self):
        found = dissect(ipv4(51, authentication(6) + TCP, words=7, option_bytes=b"\1" * 8))
        self.assertEqual((found.version, len(found.base_header), found.payload_number), (4, 28, 6))
        self.assertEqual([(it.number, it.offset) for it in found.headers], [(51, 28)])
        self.assertEqual(found.payload, TCP)

    def test_fragments(self):
        found = dissect(LATER_FRAGMENT)
        self.assertEqual((found.end, len(found.headers), found.payload_number), (End.LATER_FRAGMENT, 1, 60))
        self.assertEqual(found.fragment, Fragment(FragmentKind.MIDDLE, 7, 8 * 185))
        self.assertEqual(found.payload, b"\xde\xad\xbe\xef\0\0\0\0")
        for offset, more, kind in [(0, 0, FragmentKind.ATOMIC), (0, 1, FragmentKind.FIRST), (5, 1, FragmentKind.MIDDLE),
                                   (5, 0, FragmentKind.LAST)]:
            self.assertEqual(dissect(ipv6(44, fragment(17, offset, more) + UDP)).fragment.kind, kind)
        self.assertEqual(dissect(ipv4(17, UDP)).fragment, Fragment(FragmentKind.NOT_FRAGMENTED, 0, 0))

    def test_faults(self):
        fault = dissect(ipv6(0, options(60) + b"\x11")).fault
        self.assertEqual((fault.kind, fault.header, fault.offset, fault.required_len, fault.len, fault.len_source),
                         (FaultKind.TOO_SHORT, Layer.DESTINATION_OPTIONS_HEADER, 48, 8, 1, LenSource.IPV6_PAYLOAD_LENGTH))
        self.assertEqual(str(fault), fault.text)
        found = dissect(ipv6_chain([60, 0]))
        self.assertEqual((found.end, found.fault.kind), (End.FAULT, FaultKind.HOP_BY_HOP_NOT_AT_START))
        fault = dissect(b"\x50" + bytes(60)).fault
        self.assertEqual((fault.kind, fault.value), (FaultKind.UNSUPPORTED_IP_VERSION, 5))
        fault = dissect(ipv4(17, UDP, words=4)).fault
        self.assertEqual((fault.kind, fault.value), (FaultKind.IPV4_HEADER_LENGTH, 4))
        self.assertEqual(dissect(ipv4(51, b"\x11\0" + bytes(22))).fault.kind, FaultKind.ZERO_PAYLOAD_LEN)

    def test_fault_texts(self):
        """Each text names the faulty header and where it begins, as does `offset`."""
        short, there = "not enough bytes for the", "1 there by the payload length"
        for packet, offset, text in [
                (ipv6(0, b"\x11"), 40, f"{short} hop-by-hop options header at offset 40: 8 needed, {there}"),
                (ipv6(0, options(60) + b"\x11"), 48, f"{short} destination options header at offset 48: 8 needed, {there}"),
                (ipv6(60, options(43) + b"\x11"), 48, f"{short} routing header at offset 48: 8 needed, {there}"),
                (ipv6(60, options(44) + b"\x11"), 48, f"{short} fragment header at offset 48: 8 needed, {there}"),
                (ipv6(60, options(51) + b"\x11"), 48, f"{short} authentication header at offset 48: 12 needed, {there}"),
                (ipv6_chain([60, 43])[:50], 48, f"{short} routing header at offset 48: 8 needed, 2 there"),
                (ipv4(51, b"\x11"), 20, f"{short} authentication header at offset 20: 12 needed, 1 there by the total length"),
                (ipv6_chain([60])[:30], 0, f"{short} IPv6 header at offset 0: 40 needed, 30 there"),
                (ipv4(17, UDP)[:19], 0, f"{short} IPv4 header at offset 0: 20 needed, 19 there"),
                (b"", 0, f"{short} IP header at offset 0: 1 needed, 0 there"),
                (ipv6_chain([60, 43, 0]), 56, "the hop-by-hop options header at offset 56 doesn't follow the IPv6 header directly"),
                (ipv6(60, options(51) + b"\x11\0" + bytes(22)), 48, "the length field of the authentication header at offset 48 is 0"),
                (ipv4(51, b"\x11\0" + bytes(22)), 20, "the length field of the authentication header at offset 20 is 0"),
                (b"\x50" + bytes(60), 0, "the IP version is 5, where 4 or 6 is required"),
                (ipv4(17, UDP, words=4), 0, "the internet header length of the IPv4 header is 4, where at least 5 is required")]:
            fault = dissect(packet).fault
            self.assertEqual((fault.offset, str(fault)), (offset, text))

    def test_truncated(self):
        whole = ipv6_chain([0, 43])
        found = dissect(whole[:50])
        self.assertEqual((found.end, len(found.headers), found.payload_number), (End.TRUNCATED_HEADER, 1, 43))
        self.assertEqual((found.fault.header, found.missing), (Layer.ROUTING_HEADER, len(whole) - 50))

    def test_no_packet(self):
        found = dissect(b"")
        self.assertEqual((found.version, found.headers, found.base_header, found.payload, found.padding), (0, (), b"", b"", b""))
        self.assertEqual(found.end, End.TRUNCATED_HEADER)
        self.assertEqual((found.src, found.dst, found.hop_limit, found.payload_offset), (None, None, None, 0))
        self.assertEqual(dissect(b"\x70abc").padding, b"\x70abc")

    def test_many_headers(self):
        found = dissect(ipv6_chain([60] * 100))
        self.assertEqual([it.offset for it in found.headers], [40 + 8 * i for i in range(100)])

    def test_nothing_is_copied(self):
        packet = bytearray(ipv6_chain([0]))
        found = dissect(packet)
        packet[48:52] = b"\xff" * 4
        self.assertEqual(found.payload[:4], b"\xff" * 4)
        self.assertTrue(found.payload.readonly)
        self.assertEqual(dissect(memoryview(b"xx" + bytes(packet))[2:]).headers, found.headers)

    def test_copies(self):
        packet = ipv6_chain([0, 43, 44])
        for found in [dissect(packet), dissect(bytearray(packet)), dissect(ipv6(0, options(60) + b"\x11")), dissect(b"")]:
            for copied in [pickle.loads(pickle.dumps(found)), copy.copy(found), copy.deepcopy(found)]:
                self.assertEqual(copied, found)
                self.assertEqual(hash(copied), hash(found))
                self.assertEqual(repr(copied), repr(found))
                self.assertEqual([type(it.bytes) for it in copied.headers], [memoryview] * len(found.headers))
        changed = bytearray(packet)
        found = dissect(changed)
        copied = copy.copy(found)
        changed[-1] ^= 1
        self.assertNotEqual(copied, found)
        self.assertEqual(copied, dissect(packet))

    def test_equality(self):
        packet = ipv6_chain([43])
        one, other = dissect(packet), dissect(bytearray(packet))
        self.assertEqual({one, other}, {one})
        self.assertEqual({*one.headers, *other.headers}, {*one.headers})
        for i in range(len(packet)):
            changed = bytearray(packet)
            changed[i] ^= 1
            self.assertNotEqual(dissect(changed), one, i)
        self.assertNotEqual(one, one.headers[0])

    def test_repr(self):
        found = dissect(ipv6_chain([44]) + b"pad")
        self.assertEqual(repr(found.headers[0]), "ExtensionHeader(number=44, next_header=17, offset=40, bytes=<8 bytes>)")
        for part in ["version=6, base_header=<40 bytes>", f"headers=({found.headers[0]!r},)", "payload=<12 bytes>",
                     "padding=<3 bytes>"]:
            self.assertIn(part, repr(found))

    def test_frozen(self):
        with self.assertRaises(AttributeError):
            dissect(b"").version = 6

    def test_names(self):
        self.assertEqual([wolfaren.protocol_name(number) for number in (6, 44, 253)][:2], ["TCP", "IPv6-Frag"])
        with open(f"{ROOT}/include/wolfaren.h", encoding="utf-8") as it:
            header = it.read()
        for kind, first in [(End, "WOLFAREN_AT_PAYLOAD"), (FragmentKind, "WOLFAREN_NOT_FRAGMENTED"),
                            (FaultKind, "WOLFAREN_NO_FAULT"), (Layer, "WOLFAREN_NO_LAYER"),
                            (LenSource, "WOLFAREN_NO_LEN_SOURCE")]:
            body = re.search(r"^enum \{([^}]*\b%s = 0.*?)^\};$" % first, header, re.M | re.S)[1]
            codes = {int(it) for it in re.findall(r"^ +WOLFAREN_\w+ = (\d+)", body, re.M)}
            self.assertEqual({*map(int, kind), 0}, codes, kind)


if __name__ == "__main__":
    unittest.main()
