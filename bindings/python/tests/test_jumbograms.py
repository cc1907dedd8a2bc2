"""Tests of IPv6 packets whose payload length is 0: jumbograms (RFC 2675), packets that state no length, and a packet without a
payload. scapy makes them with and without each change, and reads them.

The environment variable JUMBOGRAMS is the number of packets of each kind, SEED that of the generator.
"""

import collections
import os
import random
import unittest

from wolfaren import Filter, Refusal, RewriteError, clear_reserved_bits, dissect, in_order, remove_header, with_header, with_payload

PACKETS = int(os.environ.get("JUMBOGRAMS", "200"))
SEED = int(os.environ.get("SEED", "1"))

HOP_BY_HOP, ROUTING, FRAGMENT, AUTHENTICATION, DESTINATION_OPTIONS = 0, 43, 44, 51, 60
NUMBERS = (HOP_BY_HOP, ROUTING, FRAGMENT, AUTHENTICATION, DESTINATION_OPTIONS)
# protocol numbers for experiments (RFC 3692, section 2.1), whose payload scapy doesn't read
NUMBER, OTHER = 253, 254
BASE_LEN = 40
NO_LENGTH = Filter("no-length")

# A header: its number, a number that tells it from others, and its reserved bits.
Header = collections.namedtuple("Header", "number mark reserved")


def layer(header, following, jumbo_length):
    """Returns scapy's header, of hop-by-hop options with the jumbo payload option unless the length is `None`."""
    from scapy.layers.inet6 import IPv6ExtHdrDestOpt, IPv6ExtHdrFragment, IPv6ExtHdrHopByHop, IPv6ExtHdrRouting, Jumbo, PadN
    from scapy.layers.ipsec import AH
    pad = PadN(optdata=bytes([header.mark] * (header.mark % 9)))
    if header.number == HOP_BY_HOP:
        return IPv6ExtHdrHopByHop(nh=following, options=[pad] if jumbo_length is None else [Jumbo(jumboplen=jumbo_length), pad])
    if header.number == ROUTING:
        return IPv6ExtHdrRouting(nh=following, addresses=["2001:db8::%x" % header.mark] * (header.mark % 3), segleft=0)
    if header.number == FRAGMENT:
        return IPv6ExtHdrFragment(nh=following, id=header.mark, res1=header.reserved >> 8, res2=header.reserved & 3)
    if header.number == AUTHENTICATION:
        return AH(nh=following, payloadlen=4, reserved=header.reserved, spi=header.mark, seq=1, icv=bytes(12))
    return IPv6ExtHdrDestOpt(nh=following, options=[pad])


def built(headers, number, payload, jumbo_length=None, payload_length=0):
    """Returns the packet that scapy builds."""
    from scapy.layers.inet6 import IPv6
    from scapy.packet import Raw
    numbers = [*(it.number for it in headers), number]
    found = IPv6(src="2001:db8::1", dst="2001:db8::2", fl=0x12345, plen=payload_length, nh=numbers[0])
    for header, following in zip(headers, numbers[1:]):
        found = found / layer(header, following, jumbo_length)
    return bytes(found / Raw(payload) if payload else found)


def read_by_scapy(packet):
    """Returns the number and the length of each header that scapy reads, what follows them, and the bytes after the packet."""
    from scapy.layers.inet6 import IPv6
    from scapy.layers.ipsec import AH
    from scapy.packet import NoPayload, Padding
    one, found = IPv6(packet), []
    padding = one[Padding].load if Padding in one else b""
    while one.nh in NUMBERS and not isinstance(one.payload, (NoPayload, Padding)):
        number = one.nh
        # scapy knows no authentication header after others
        one = one.payload if number != AUTHENTICATION else AH(bytes(one.payload))
        found.append((number, len(one) - len(one.payload)))
    return found, b"" if isinstance(one.payload, Padding) else bytes(one.payload), padding


def rank(headers, index):
    """Where a header belongs (RFC 8200, section 4.1). Destination options before a routing header belong to it."""
    if headers[index].number == DESTINATION_OPTIONS:
        return 1 if any(it.number == ROUTING for it in headers[index:]) else 4
    return (HOP_BY_HOP, ROUTING, FRAGMENT, AUTHENTICATION).index(headers[index].number)


def ordered(headers):
    return [headers[index] for index in sorted(range(len(headers)), key=lambda index: rank(headers, index))]


def random_headers(rng, is_jumbogram):
    """Headers of which scapy reads each length. A jumbogram has hop-by-hop options, and no fragment header (RFC 2675, section 3)."""
    numbers = [HOP_BY_HOP] * (is_jumbogram or rng.randrange(2))
    numbers += rng.choices([ROUTING, DESTINATION_OPTIONS] + [FRAGMENT] * (not is_jumbogram), k=rng.randrange(4))
    numbers += [AUTHENTICATION] * rng.randrange(2)
    return [Header(it, rng.randrange(1, 256), rng.choice([0, 0, 0x0102, 0xFF03]) * (it in (FRAGMENT, AUTHENTICATION))) for it in numbers]


def random_payload(rng):
    return rng.randbytes(rng.choice([1, 8, 20, 99, 1400, 65600, 70001] if rng.randrange(5) == 0 else [1, 8, 20, 99]))


class Jumbograms(unittest.TestCase):
    def assert_refused(self, refusal, call, packet, *arguments, **given):
        with self.assertRaises(RewriteError) as caught:
            call(packet, *arguments, **given)
        self.assertEqual(caught.exception.refusal, refusal, (call, packet.hex(), arguments, given))

    def assert_written(self, refusal, wanted, call, packet, *arguments, **given):
        """Expects a packet to be written, unless there is a reason to refuse it."""
        if refusal is not None:
            self.assert_refused(refusal, call, packet, *arguments, **given)
        else:
            self.assertEqual(call(packet, *arguments, **given).packet, wanted, (call, packet.hex(), arguments, given))

    def resized(self, headers, number, payload, jumbo_length):
        """Returns what a change that leaves these headers and this payload has to write, or why it is refused: the packet that
        scapy builds, if that and the old one are jumbograms (RFC 2675, section 3)."""
        if jumbo_length is None or jumbo_length <= 65535:
            return Refusal.NO_LENGTH, None
        length = len(built(headers, number, payload, 0)) - BASE_LEN
        is_jumbogram = length > 65535 and any(it.number == HOP_BY_HOP for it in headers) and all(it.number != FRAGMENT for it in headers)
        return (None, built(headers, number, payload, length)) if is_jumbogram else (Refusal.NOT_A_JUMBOGRAM, None)

    def assert_changes(self, packet, headers, payload, jumbo_length, may_be_invalid):
        """Compares each call with what scapy builds. A change of the length is refused unless the packet is a jumbogram."""
        given = {"may_be_invalid": may_be_invalid}
        covered = Refusal.AUTHENTICATED if any(it.number == AUTHENTICATION for it in headers) and not may_be_invalid else None
        for number in NUMBERS:
            left = [it for it in headers if it.number != number]
            is_covered = covered and number not in (FRAGMENT, AUTHENTICATION)
            refusal, wanted = self.resized(left, NUMBER, payload, jumbo_length)
            reason = Refusal.NO_HEADER if left == headers else covered if is_covered else refusal
            self.assert_written(reason, wanted, remove_header, packet, number=number, **given)
        one = Header(DESTINATION_OPTIONS, 4, 0)
        refusal, wanted = self.resized(headers + [one], NUMBER, payload, jumbo_length)
        self.assert_written(covered or refusal, wanted, with_header, packet, DESTINATION_OPTIONS, bytes(layer(one, 0, None)), **given)
        one = Header(FRAGMENT, 4, 0)
        refusal, wanted = self.resized(headers + [one], NUMBER, payload, jumbo_length)
        self.assert_written(covered or refusal, wanted, with_header, packet, FRAGMENT, bytes(layer(one, 0, None)), **given)
        other = bytes(it ^ 255 for it in payload)
        self.assert_written(covered, built(headers, OTHER, other, jumbo_length), with_payload, packet, OTHER, other, **given)
        refusal, wanted = self.resized(headers, NUMBER, other[1:], jumbo_length)
        self.assert_written(covered or refusal, wanted, with_payload, packet, NUMBER, other[1:], **given)
        is_set = any(it.reserved for it in headers if it.number == AUTHENTICATION)
        wanted = built([it._replace(reserved=0) for it in headers], NUMBER, payload, jumbo_length)
        self.assert_written(covered if is_set else None, wanted, clear_reserved_bits, packet, **given)
        after = ordered(headers)
        self.assert_written(covered if after != headers else None, built(after, NUMBER, payload, jumbo_length), in_order, packet, **given)

    def assert_dissected(self, packet, headers, payload, jumbo_length):
        """Expects the headers that scapy built, and a payload up to the end of the bytes."""
        found = dissect(packet)
        built_headers = [bytes(layer(it, NUMBER, jumbo_length))[1:] for it in headers]
        self.assertEqual([bytes(it.bytes)[1:] for it in found.headers], built_headers)
        self.assertEqual([it.number for it in found.headers], [it.number for it in headers])
        self.assertEqual((found.stated_len, bytes(found.payload), bytes(found.padding), found.fault), (0, payload, b"", None))
        self.assertTrue(NO_LENGTH.matches(packet))

    def test_jumbograms(self):
        rng = random.Random(SEED)
        for _ in range(PACKETS):
            headers, payload = random_headers(rng, True), random_payload(rng)
            length = len(built(headers, NUMBER, payload, 0)) - BASE_LEN
            # scapy takes the length in the option for one in the order of this machine, and is right if the last byte isn't 0
            payload += b"x" * (length % 256 == 0)
            length += length % 256 == 0
            packet = built(headers, NUMBER, payload, length)
            self.assert_dissected(packet, headers, payload, length)
            found = dissect(packet)
            self.assertEqual(([(it.number, it.len) for it in found.headers], bytes(found.payload), b""), read_by_scapy(packet))
            self.assertEqual(found.headers[0].options[0], (0xC2, length.to_bytes(4, "big")))
            self.assert_changes(packet, headers, payload, length, rng.randrange(2) == 0)

    def test_unstated(self):
        """Without the option scapy reads no payload (RFC 8200, section 3), and the library all bytes, but no length."""
        rng = random.Random(SEED)
        for _ in range(PACKETS):
            headers, payload = random_headers(rng, False), random_payload(rng)
            packet = built(headers, NUMBER, payload)
            self.assert_dissected(packet, headers, payload, None)
            if not headers or headers[0].number != HOP_BY_HOP:
                self.assertEqual(read_by_scapy(packet), ([], b"", packet[BASE_LEN:]))
            self.assert_changes(packet, headers, payload, None, rng.randrange(2) == 0)

    def test_empty(self):
        """A packet without bytes after the base header has a length, which changes."""
        packet = built([], OTHER, b"")
        self.assertEqual(read_by_scapy(packet), ([], b"", b""))
        self.assertFalse(NO_LENGTH.matches(packet))
        header = Header(DESTINATION_OPTIONS, 4, 0)
        options = bytes(layer(header, 0, None))
        self.assertEqual(with_header(packet, DESTINATION_OPTIONS, options).packet, built([header], OTHER, b"", None, len(options)))
        self.assertEqual(with_payload(packet, NUMBER, b"payload").packet, built([], NUMBER, b"payload", None, 7))
        self.assertEqual((clear_reserved_bits(packet).packet, in_order(packet).packet), (packet, packet))
        for number in NUMBERS:
            self.assert_refused(Refusal.NO_HEADER, remove_header, packet, number=number)


if __name__ == "__main__":
    unittest.main()
