"""Tests of the calls that rewrite a packet. Packets with the change are made here, and by scapy."""

import copy
import itertools
import pickle
import unittest

from support import LATER_FRAGMENT, TCP, UDP, authentication, fragment, header, ipv4, ipv6, ipv6_chain, options

from wolfaren import (Refusal, RewriteError, Rewritten, clear_reserved_bits, has_reserved_bits, in_order, is_in_order, remove_header,
                      rewrite, with_header, with_payload)


class Rewrites(unittest.TestCase):
    def assert_refused(self, refusal, packet, *change, call=remove_header, **which):
        with self.assertRaises(RewriteError) as caught:
            call(packet, *change, **which)
        self.assertIs(caught.exception.refusal, refusal)

    def test_headers(self):
        numbers = [0, 60, 43, 44, 60]
        packet = ipv6_chain(numbers)
        for number in set(numbers):
            wanted = ipv6_chain([it for it in numbers if it != number])
            self.assertEqual(remove_header(packet, number=number), (wanted, True))
        for index in range(5):
            wanted = ipv6_chain(numbers[:index] + numbers[index + 1:])
            self.assertEqual(remove_header(packet + b"padding", index=index).packet, wanted)
        for kind in (bytearray, memoryview):
            self.assertEqual(remove_header(kind(packet), index=0).packet, ipv6_chain(numbers[1:]))
        self.assertEqual(remove_header(ipv4(51, authentication(6) + TCP), number=51), (ipv4(6, TCP), True))

    def test_inserted_header(self):
        numbers = [0, 60, 43, 60]
        for index, number in itertools.product(range(1, 5), (43, 44, 51, 60)):
            wanted = ipv6_chain(numbers[:index] + [number] + numbers[index:])
            new = header(number, 99)
            self.assertEqual(with_header(ipv6_chain(numbers) + b"padding", number, new, index), (wanted, True))
        self.assertEqual(with_header(ipv6_chain([60]), 0, memoryview(options(0, 2)), 0).packet, ipv6(0, options(60, 2) + options(17) + UDP))
        self.assertEqual(with_header(ipv4(6, TCP), 51, authentication(0), 0), (ipv4(51, authentication(6) + TCP), True))
        self.assertEqual(with_header(ipv6_chain([51]), 60, options(0), 1, may_be_invalid=True).packet, ipv6_chain([51, 60]))

    def test_recommended_index(self):
        rows = [([], 0, [0]), ([60], 0, [0, 60]), ([0, 60], 43, [0, 43, 60]), ([60, 43, 51], 44, [60, 43, 44, 51]),
                ([0, 43, 60], 51, [0, 43, 51, 60]), ([0, 43], 60, [0, 43, 60])]
        for numbers, number, wanted in rows:
            self.assertEqual(with_header(ipv6_chain(numbers), number, header(number, 99), may_be_invalid=True).packet, ipv6_chain(wanted))
        self.assertEqual(with_header(ipv4(6, TCP), 51, authentication(0)).packet, ipv4(51, authentication(6) + TCP))
        with self.assertRaises(OverflowError):
            with_header(ipv6_chain([]), 256, options(0))

    def test_payload(self):
        for numbers, number, payload in itertools.product(([], [0, 60], [43, 44]), (6, 50, 255), (b"", TCP, bytearray(99))):
            wanted = ipv6_chain(numbers, final=number, payload=bytes(payload))
            self.assertEqual(with_payload(ipv6_chain(numbers) + b"padding", number, payload), (wanted, False))
        self.assertEqual(with_payload(ipv4(6, TCP), 17, UDP), (ipv4(17, UDP), False))
        self.assertEqual(with_payload(ipv6_chain([51]), 6, TCP, may_be_invalid=True).packet, ipv6_chain([51], final=6, payload=TCP))

    def test_several_changes(self):
        packet = bytearray(ipv6_chain([60, 44, 51, 60, 44]))
        packet[40 + len(options(0)) + 1] = 0x80
        wanted = ipv6_chain([44, 60, 60, 44])
        self.assertEqual(rewrite(bytes(packet) + b"padding", without=[51], clears=True).packet, ipv6_chain([60, 44, 60, 44]))
        ordered = in_order(rewrite(bytes(packet), without=[51], clears=True).packet)
        self.assertEqual(rewrite(packet, without={51}, clears=True, orders=True), ordered)
        self.assertEqual(len(ordered.packet), len(wanted))
        self.assertEqual(rewrite(ipv6_chain([0, 60, 43, 60]), without=[0, 43, 60]), Rewritten(ipv6_chain([]), True))
        for change in ({}, {"without": [0, 43]}, {"without": [0], "may_be_invalid": True}):
            self.assertIsNone(rewrite(packet, **change))
        self.assertIsNone(rewrite(ipv6_chain([0, 44, 51, 60]), clears=True, orders=True))
        self.assertIsNone(rewrite(b"", without=[0], clears=True, orders=True))
        self.assert_refused(Refusal.AUTHENTICATED, ipv6_chain([51, 60]), call=rewrite, without=[60])
        self.assertEqual(rewrite(ipv6_chain([51, 60]), without=[60], may_be_invalid=True).packet, ipv6_chain([51]))
        self.assert_refused(Refusal.MISSING, packet[:-1], call=rewrite, clears=True)
        with self.assertRaises(ValueError):
            rewrite(packet, without=[50])

    def test_cleared(self):
        packet = bytearray(ipv6_chain([60, 44, 60, 44]))
        self.assertEqual(clear_reserved_bits(packet + b"padding"), (bytes(packet), True))
        packet[49], packet[51], packet[65], packet[67] = 0xff, 4, 1, 6
        self.assertEqual(clear_reserved_bits(packet), (ipv6_chain([60, 44, 60, 44]), True))
        packet = bytearray(ipv6_chain([51]))
        self.assertEqual(clear_reserved_bits(packet).packet, bytes(packet))
        packet[42] = 1
        self.assert_refused(Refusal.AUTHENTICATED, packet, call=clear_reserved_bits)
        self.assertEqual(clear_reserved_bits(packet, may_be_invalid=True), (ipv6_chain([51]), True))

    def test_reserved_bits(self):
        for number, bits in (44, {8, 9, 10, 11, 12, 13, 14, 15, 29, 30}), (51, set(range(16, 32))), (60, set()):
            plain = ipv6_chain([number])
            self.assertIs(has_reserved_bits(plain), False)
            for bit in range(8 if number == 44 else 16, 64):
                packet = bytearray(plain)
                packet[40 + bit // 8] |= 0x80 >> bit % 8
                self.assertIs(has_reserved_bits(memoryview(packet)), bit in bits)
        self.assertIs(has_reserved_bits(b""), False)

    def test_covered_fragment_header(self):
        self.assertEqual(remove_header(ipv6_chain([44, 51]), number=44), (ipv6_chain([51]), True))
        self.assertEqual(remove_header(ipv6_chain([60, 44, 51]), index=1), (ipv6_chain([60, 51]), True))
        self.assert_refused(Refusal.AUTHENTICATED, ipv6_chain([51, 44]), number=44)
        self.assertEqual(remove_header(ipv6_chain([51, 44]), number=44, may_be_invalid=True).packet, ipv6_chain([51]))
        for numbers, at in ([44, 51], 41), ([51, 44], -len(UDP) - 7):
            packet = bytearray(ipv6_chain(numbers))
            packet[at] = 0xff
            if numbers[0] == 44:
                self.assertEqual(clear_reserved_bits(packet), (ipv6_chain(numbers), True))
            else:
                self.assert_refused(Refusal.AUTHENTICATED, packet, call=clear_reserved_bits)

    def test_order(self):
        for numbers, wanted in [([0, 60, 44, 43, 60], [0, 60, 43, 44, 60]), ([44, 43], [43, 44]), ([60, 44], [44, 60]), ([], []),
                                ([0, 60, 43, 44, 60], [0, 60, 43, 44, 60])]:
            self.assertEqual(in_order(ipv6_chain(numbers) + b"padding"), (ipv6_chain(wanted), True))
        self.assert_refused(Refusal.AUTHENTICATED, ipv6_chain([60, 51]), call=in_order)
        self.assertEqual(in_order(ipv6_chain([60, 51]), may_be_invalid=True), (ipv6_chain([51, 60]), True))
        first = bytearray(ipv6_chain([44, 43]))
        first[43] = 1
        self.assert_refused(Refusal.FRAGMENTED, first, call=in_order)

    def test_is_in_order(self):
        for numbers in [], [60], [0, 60, 43, 44, 51, 60], [60, 43, 43], [43, 60, 43], [43, 60, 60]:
            self.assertIs(is_in_order(ipv6_chain(numbers)), True)
        for numbers in [44, 43], [60, 44], [60, 51], [51, 44], [44, 60, 43], [60, 44, 43]:
            self.assertIs(is_in_order(bytearray(ipv6_chain(numbers))), False)
        self.assertIs(is_in_order(b""), True)

    def test_checksums(self):
        packet = bytearray(ipv6_chain([43, 60]))
        packet[43] = 1
        self.assertFalse(remove_header(packet, index=0).keeps_checksums)
        self.assertTrue(remove_header(packet, index=1).keeps_checksums)
        self.assertFalse(with_header(ipv6_chain([]), 43, b"\0\0\0\1\0\0\0\0", 0).keeps_checksums)

    def test_later_fragments(self):
        for offset, more in (1, 1), (8, 0), (8191, 0):
            end = fragment(60, offset, more) + bytes(range(24))
            later, plain = ipv6(0, options(44) + end), ipv6(44, end)
            self.assertEqual(remove_header(later, number=0), (plain, True))
            self.assertEqual(with_header(plain, 0, options(9), 0), (later, True))
            self.assertEqual(in_order(later), (later, True))
            reserved = bytearray(later)
            reserved[49], reserved[51] = 0xff, reserved[51] | 6
            self.assertEqual(clear_reserved_bits(reserved), (later, True))
            self.assert_refused(Refusal.FRAGMENT_HEADER, later, number=44)
            self.assert_refused(Refusal.FRAGMENTED, later, 60, options(0), 2, call=with_header)
            self.assert_refused(Refusal.FRAGMENTED, later, 17, UDP, call=with_payload)
        covered, plain = ipv6(0, options(44) + fragment(51, 8, 0) + bytes(24)), ipv6(44, fragment(51, 8, 0) + bytes(24))
        self.assert_refused(Refusal.AUTHENTICATED, covered, number=0)
        self.assertEqual(remove_header(covered, number=0, may_be_invalid=True).packet, plain)

    def test_refusals(self):
        first = ipv6(0, options(44) + fragment(60, 0, 1) + options(17) + bytes(8))
        self.assert_refused(Refusal.HEADERS, b"", index=0)
        self.assert_refused(Refusal.HEADERS, ipv6_chain([0])[:45], index=0)
        self.assert_refused(Refusal.MISSING, ipv6_chain([0])[:-1], index=0)
        self.assert_refused(Refusal.LATER_FRAGMENT, ipv4(6, TCP, 1), index=0)
        self.assert_refused(Refusal.FRAGMENT_HEADER, LATER_FRAGMENT, index=0)
        self.assert_refused(Refusal.NO_HEADER, ipv6_chain([0]), number=60)
        self.assert_refused(Refusal.FRAGMENT_HEADER, first, number=44)
        self.assert_refused(Refusal.FRAGMENTED, first, index=2)
        self.assert_refused(Refusal.AUTHENTICATED, ipv6_chain([0, 51]), number=0)
        self.assert_refused(Refusal.HEADER_FOLLOWS, ipv4(51, authentication(51) + bytes(24)), index=0)
        self.assertEqual(remove_header(ipv6_chain([0, 51]), number=0, may_be_invalid=True).packet, ipv6_chain([51]))
        self.assert_refused(Refusal.NOT_A_HEADER, ipv6_chain([]), 60, options(0)[:-1], 0, call=with_header)
        self.assert_refused(Refusal.NOT_A_HEADER, ipv6_chain([]), 17, options(0), 0, call=with_header)
        self.assert_refused(Refusal.NOT_A_HEADER, ipv4(6, TCP), 60, options(0), 0, call=with_header)
        self.assert_refused(Refusal.FRAGMENT_HEADER, ipv6_chain([]), 44, fragment(0, 0, 1), 0, call=with_header)
        self.assert_refused(Refusal.MISPLACED, ipv6_chain([60]), 0, options(0), 1, call=with_header)
        self.assert_refused(Refusal.MISPLACED, ipv6_chain([60]), 60, options(0), 2, call=with_header)
        self.assert_refused(Refusal.FRAGMENTED, first, 60, options(0), 2, call=with_header)
        self.assert_refused(Refusal.AUTHENTICATED, ipv6_chain([51]), 60, options(0), 0, call=with_header)
        self.assert_refused(Refusal.FRAGMENTED, first, 17, UDP, call=with_payload)
        self.assert_refused(Refusal.AUTHENTICATED, ipv6_chain([51]), 17, UDP, call=with_payload)
        self.assert_refused(Refusal.HEADER_FOLLOWS, ipv6_chain([]), 60, UDP, call=with_payload)
        unstated = ipv6_chain([0, 60])[:4] + b"\0\0" + ipv6_chain([0, 60])[6:]
        self.assert_refused(Refusal.NO_LENGTH, unstated, index=0)
        self.assertEqual(in_order(unstated).packet, unstated)
        jumbogram = ipv6(0, bytes([17, 0, 0xC2, 4, 0, 1, 0, 8]) + bytes(65536), 0)
        self.assert_refused(Refusal.NOT_A_JUMBOGRAM, jumbogram, index=0)
        self.assert_refused(Refusal.TOO_LONG, ipv6_chain([]), 17, bytes(65536), call=with_payload)
        for refusal in Refusal:
            error = RewriteError(refusal)
            self.assertTrue(str(error))
            self.assertIs(pickle.loads(pickle.dumps(error)).refusal, refusal)
            self.assertEqual(str(copy.copy(error)), str(error))

    def test_arguments(self):
        for which in ({}, {"number": 0, "index": 0}, {"number": "0"}):
            with self.assertRaises(TypeError):
                remove_header(ipv6_chain([0]), **which)
        for which in ({"number": 256}, {"index": -1}):
            with self.assertRaises(OverflowError):
                remove_header(ipv6_chain([0]), **which)
        for number, index in ((256, 0), (60, -1), (-1, 0)):
            with self.assertRaises(OverflowError):
                with_header(ipv6_chain([0]), number, options(0), index)
        with self.assertRaises(OverflowError):
            with_payload(ipv6_chain([0]), 256, b"")
        with self.assertRaises(TypeError):
            with_payload(ipv6_chain([0]), 17, "payload")

    def test_scapy(self):
        from scapy.layers.inet import TCP as ScapyTcp
        from scapy.layers.inet import UDP as ScapyUdp
        from scapy.layers.inet6 import IPv6, IPv6ExtHdrDestOpt, IPv6ExtHdrFragment, IPv6ExtHdrHopByHop
        upper = ScapyUdp(sport=1, dport=2) / b"data"
        packet = bytes(IPv6(dst="2001:db8::1") / IPv6ExtHdrHopByHop() / IPv6ExtHdrDestOpt() / upper)
        self.assertEqual(remove_header(packet, number=0).packet, bytes(IPv6(dst="2001:db8::1") / IPv6ExtHdrDestOpt() / upper))
        without_options = bytes(IPv6(dst="2001:db8::1") / IPv6ExtHdrHopByHop() / upper)
        self.assertEqual(remove_header(packet, number=60).packet, without_options)
        self.assertEqual(with_header(without_options, 60, bytes(IPv6ExtHdrDestOpt()), 1), (packet, True))
        other = IPv6(dst="2001:db8::1") / IPv6ExtHdrHopByHop() / IPv6ExtHdrDestOpt() / ScapyTcp(sport=3)
        self.assertEqual(with_payload(packet, 6, bytes(other[ScapyTcp])).packet, bytes(other))
        fragment_header = IPv6ExtHdrFragment(id=9)
        reserved = fragment_header.copy()
        reserved.res1, reserved.res2 = 255, 3
        packets = [bytes(IPv6(dst="2001:db8::1") / it / upper) for it in (reserved, fragment_header)]
        self.assertNotEqual(*packets)
        self.assertEqual(clear_reserved_bits(packets[0]), (packets[1], True))
        packets = [bytes(IPv6(dst="2001:db8::1") / one / other / upper)
                   for one, other in itertools.permutations((IPv6ExtHdrDestOpt(), fragment_header), 2)]
        self.assertEqual(in_order(packets[0]), (packets[1], True))


if __name__ == "__main__":
    unittest.main()
