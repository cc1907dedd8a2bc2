"""Compares random changes of random packets with `plain_rewrites`.

The environment variable PACKETS is the number of packets, SEED that of the generator.
"""

import collections
import os
import random
import unittest

import plain_rewrites as plain
import wolfaren

PACKETS = int(os.environ.get("PACKETS", "20000"))
SEED = int(os.environ.get("SEED", "1"))


def random_header(rng, number, next_header):
    """Any header of a number. Most fragment headers are atomic, since others end what may be changed."""
    units = rng.choice([0, 0, 1, 2, 5])
    data = bytearray(rng.randbytes(8 if number == plain.FRAGMENT else 4 * (units + 3) if number == plain.AUTHENTICATION else 8 * (units + 1)))
    data[0] = next_header
    if number == plain.FRAGMENT:
        data[1], offset, more = rng.choice([0, 0, data[1]]), rng.choice([0] * 9 + [data[2]]), rng.choice([0, 0, 0, 1])
        data[2], data[3] = offset, rng.choice([0, 0, 2, 4, 6]) | more
    else:
        data[1] = units + 1 if number == plain.AUTHENTICATION else units
    if number == plain.AUTHENTICATION and rng.randrange(2):
        data[2:4] = b"\0\0"
    if number == plain.ROUTING:
        data[3] = rng.choice([0, 0, data[3]])
    return bytes(data)


def random_payload(rng):
    return rng.randbytes(rng.choice([0, 1, 7, 8, 20, 40]))


def random_ipv4(rng):
    """An IPv4 packet with options or without, with an authentication header or without, perhaps a fragment."""
    words, number, field = rng.choice([5, 5, 6, 15]), rng.choice([6, 17, 51, 60]), rng.choice([0] * 6 + [0x4000, 0x2000, 0x2001, 7])
    rest = random_payload(rng)
    if rng.randrange(3):
        rest, number = random_header(rng, plain.AUTHENTICATION, number) + rest, plain.AUTHENTICATION
    base = bytearray(rng.randbytes(4 * words))
    base[0], base[9] = 4 << 4 | words, number
    base[2:4], base[6:8] = (len(base) + len(rest)).to_bytes(2, "big"), field.to_bytes(2, "big")
    return base + rest


def random_ipv6(rng):
    """An IPv6 packet with any chain."""
    later = [plain.ROUTING, plain.FRAGMENT, plain.AUTHENTICATION, plain.DESTINATION_OPTIONS, plain.DESTINATION_OPTIONS]
    numbers = [plain.HOP_BY_HOP] * rng.choice([0, 0, 1]) + rng.choices(later, k=rng.choice([0, 1, 2, 3, 6]))
    numbers += [rng.choice([6, 17, 58, 59, 50, 135, plain.HOP_BY_HOP if rng.randrange(20) == 0 else 255])]
    rest = b"".join(random_header(rng, number, following) for number, following in zip(numbers, numbers[1:])) + random_payload(rng)
    base = bytearray(rng.randbytes(40))
    base[0], base[6], base[4:6] = 6 << 4 | base[0] & 15, numbers[0], len(rest).to_bytes(2, "big")
    return base + rest


def random_jumbogram(rng):
    """A packet with a jumbo payload option (RFC 2675, section 2). Some are no jumbograms: they are too short, have a fragment header
    or state another length."""
    numbers = [plain.HOP_BY_HOP] + rng.choices([plain.ROUTING, plain.FRAGMENT, *[plain.DESTINATION_OPTIONS] * 3], k=rng.choice([0, 1, 2])) + [17]
    rest = b"".join(random_header(rng, number, following) for number, following in zip(numbers[1:], numbers[2:]))
    rest += bytes(rng.randrange(65500, 65800))
    padding = rng.choice([b"", b"\1\6" + bytes(6)])
    length = 8 + len(padding) + len(rest)
    options = bytes([numbers[1], len(padding) // 8]) + padding + bytes([plain.JUMBO_PAYLOAD, 4]) + (length + rng.choice([0, 0, 0, 1])).to_bytes(4, "big")
    base = bytearray(rng.randbytes(40))
    base[0], base[6], base[4:6] = 6 << 4 | base[0] & 15, numbers[0], b"\0\0"
    return base + options + rest


def random_packet(rng):
    """Bytes that start with a packet, mostly a whole one: sometimes with another length field, truncated, or with other bytes."""
    if rng.randrange(64) == 0:
        return bytes(random_jumbogram(rng))
    packet = random_ipv4(rng) if rng.randrange(4) == 0 else random_ipv6(rng)
    at = 2 if packet[0] >> 4 == 4 else 4
    kind = rng.randrange(24)
    if kind == 0:
        packet[at:at + 2] = rng.choice([b"\0\0", rng.randbytes(2), bytes([0, rng.randrange(256)])])
    elif kind == 1:
        del packet[rng.randrange(len(packet)):]
    elif kind < 4:
        packet[rng.randrange(len(packet))] = rng.randrange(256)
    return bytes(packet + rng.randbytes(rng.choice([0, 0, 0, 3])))


def random_insertion(rng):
    """The number and the bytes of a header, and its index. Sometimes the bytes aren't such a header."""
    number = rng.choice(plain.EXTENSIONS)
    new = random_header(rng, number, 99)
    kind = rng.randrange(20)
    if kind == 0:
        new = new[:rng.randrange(len(new))]
    elif kind == 1:
        number = rng.randrange(256)
    return number, new, rng.choice([0, 0, 1, 2, 3, rng.randrange(1000)])


def random_change(rng):
    """Returns the names and the arguments of a change, for the package and for `plain_rewrites`."""
    may_be_invalid = rng.randrange(2) == 0
    kind = rng.randrange(6)
    if kind == 0:
        number = rng.choice([*plain.EXTENSIONS, rng.randrange(256)])
        return "remove_header", (), {"number": number}, (lambda index, header: header[0] == number, may_be_invalid)
    if kind == 1:
        at = rng.randrange(4)
        return "remove_header", (), {"index": at}, (lambda index, header: index == at, may_be_invalid)
    if kind == 2:
        new = random_insertion(rng)
        return "with_header", new, {}, (*new, may_be_invalid)
    if kind == 3:
        payload = rng.choice([6, 17, 59, rng.randrange(64)]), bytes(rng.randrange(65000, 66000)) if rng.randrange(50) == 0 else random_payload(rng)
        return "with_payload", payload, {}, (*payload, may_be_invalid)
    return "clear_reserved_bits" if kind == 4 else "in_order", (), {}, (may_be_invalid,)


class RandomRewrites(unittest.TestCase):
    def found(self, name, packet, arguments, given):
        """What the package returns: the packet and whether checksums hold, or the name of the reason."""
        try:
            return tuple(getattr(wolfaren, name)(packet, *arguments, **given))
        except wolfaren.RewriteError as error:
            return error.refusal.name

    def wanted(self, name, packet, arguments):
        """What the plain program returns."""
        try:
            return getattr(plain, name)(packet, *arguments)
        except plain.Refused as refused:
            return refused.args[0]

    def test_random(self):
        rng, counts = random.Random(SEED), collections.Counter()
        for _ in range(PACKETS):
            packet = random_packet(rng)
            name, arguments, given, plain_arguments = random_change(rng)
            may_be_invalid = plain_arguments[-1]
            found = self.found(name, packet, arguments, {**given, "may_be_invalid": may_be_invalid})
            wanted = self.wanted(name, packet, plain_arguments)
            if found != wanted:
                self.fail(f"{name} {arguments} {given} {may_be_invalid} of {packet.hex()}: {found}, expected {wanted}")
            counts[name, wanted if isinstance(wanted, str) else wanted[1]] += 1
        for name, changes in collections.Counter(name for name, result in counts.elements() if isinstance(result, bool)).items():
            self.assertGreater(changes, PACKETS // 40, name)
        reasons = {result for _, result in counts if isinstance(result, str)}
        self.assertEqual(reasons, {it.name for it in wolfaren.Refusal})


if __name__ == "__main__":
    unittest.main()
