"""A plain counter of packets, which shares no code with the library: it follows RFC 791, RFC 4302 and RFC 8200. Also made packets of
chains with wrong lengths, truncated bytes and flipped bits, always the same ones, and those of captures.
"""

import collections
import random
import struct

# the fields of struct wolfaren_statistics after its version and size, with their numbers of elements
FIELDS = {
    "other_frames": 1, "truncated_frames": 1, "packets": 1, "without_header": 1, "ipv4": 1, "ipv6": 1, "at_payload": 1,
    "at_later_fragment": 1, "at_truncated_header": 1, "at_fault": 1, "atomic_fragments": 1, "first_fragments": 1,
    "middle_fragments": 1, "last_fragments": 1, "incomplete": 1, "payload_bytes": 1, "chain_headers": 17, "chain_bytes": 73,
    "headers": 256, "payload_numbers": 256, "later_fragment_numbers": 256, "truncated_headers": 16, "faults": 128,
}
# the codes of the layers of extension headers
LAYERS = {0: 8, 43: 10, 44: 11, 51: 4, 60: 9}
MADE = 30000


class Stop(Exception):
    """The headers of a packet end with an error: a truncated header or a fault, and its index."""


def number_at(bytes_, at):
    return int.from_bytes(bytes_[at:at + 2], "big")


def need(packet, stated, offset, size, layer):
    """Raises Stop unless a header of this size lies within the packet."""
    if stated and offset + size > stated:
        raise Stop("faults", 16 * 1 + layer)
    if offset + size > len(packet):
        raise Stop("truncated_headers", layer)


def header_len(packet, stated, offset, number):
    """Returns the length of the extension header at the offset, which its second byte states if the packet has that. Raises
    Stop if it is truncated or faulty."""
    layer = LAYERS[number]
    size = 12 if number == 51 else 8
    if offset + 2 <= min(len(packet), stated or len(packet)):
        field = packet[offset + 1]
        if number == 51 and field == 0:
            raise Stop("faults", 16 * 3 + layer)
        size = {44: 8, 51: 4 * field + 8}.get(number, 8 * field + 8)
    need(packet, stated, offset, size, layer)
    return size


def fragment_kind(offset, more):
    if offset:
        return "middle_fragments" if more else "last_fragments"
    return "first_fragments" if more else "atomic_fragments"


class Packet:
    """A packet, as far as it has been read."""

    def __init__(self, packet):
        self.bytes, self.stated, self.start, self.kinds, self.headers = packet, 0, 0, [], []
        self.number, self.offset, self.is_later = 59, 0, False

    def begin_ipv4(self):
        size = 4 * (self.bytes[0] & 15)
        if size < 20:
            raise Stop("faults", 16 * 5 + 2)
        if len(self.bytes) < size:
            raise Stop("truncated_headers", 2)
        self.start = self.offset = size
        self.number, self.stated, bits = self.bytes[9], number_at(self.bytes, 2), number_at(self.bytes, 6)
        if bits & 0x3fff:
            self.kinds.append(fragment_kind(bits & 0x1fff, bits & 0x2000))
        if self.stated and self.stated < size:
            raise Stop("faults", 16 * 1 + 3)
        self.is_later = bits & 0x1fff != 0
        if self.number == 51 and not self.is_later:
            self.read_header()

    def begin_ipv6(self):
        if len(self.bytes) < 40:
            raise Stop("truncated_headers", 5)
        self.start = self.offset = 40
        self.number, payload_length = self.bytes[6], number_at(self.bytes, 4)
        self.stated = 40 + payload_length if payload_length else 0
        while self.number in LAYERS and not self.is_later:
            if self.number == 0 and self.headers:
                raise Stop("faults", 16 * 2 + 8)
            self.read_header()

    def read_header(self):
        at, number = self.offset, self.number
        self.offset += header_len(self.bytes, self.stated, at, number)
        self.headers.append(number)
        self.number = self.bytes[at]
        if number == 44:
            bits = number_at(self.bytes, at + 2)
            self.kinds.append(fragment_kind(bits >> 3, bits & 1))
            self.is_later = bits >> 3 != 0

    def begin(self):
        if not self.bytes:
            raise Stop("truncated_headers", 1)
        version = self.bytes[0] >> 4
        if version not in (4, 6):
            raise Stop("faults", 16 * 4 + 1)
        if version == 4:
            self.begin_ipv4()
        else:
            self.begin_ipv6()


def length_index(size):
    return size // 4 if size < 256 else min(72, 56 + size.bit_length() - 1)


def count_packet(counts, packet_bytes):
    packet, error = Packet(packet_bytes), None
    try:
        packet.begin()
    except Stop as stop:
        error = stop.args
    counts["packets", 0] += 1
    if not packet.start:
        counts["without_header", 0] += 1
    else:
        counts["ipv4" if packet_bytes[0] >> 4 == 4 else "ipv6", 0] += 1
        counts["chain_headers", min(16, len(packet.headers))] += 1
        counts["chain_bytes", length_index(packet.offset - packet.start)] += 1
        counts["incomplete", 0] += packet.stated > len(packet_bytes)
    for number in packet.headers:
        counts["headers", number] += 1
    fragmenting = [it for it in packet.kinds if it != "atomic_fragments"] or packet.kinds
    if fragmenting:
        counts[fragmenting[0], 0] += 1
    if error:
        counts[error] += 1
        counts["at_fault" if error[0] == "faults" else "at_truncated_header", 0] += 1
        return
    counts["at_later_fragment" if packet.is_later else "at_payload", 0] += 1
    counts["later_fragment_numbers" if packet.is_later else "payload_numbers", packet.number] += 1
    end = min(len(packet_bytes), packet.stated or len(packet_bytes))
    counts["payload_bytes", 0] += max(end, packet.offset) - packet.offset


def made_chain(dice):
    """Returns extension headers and a payload, and the number of the first."""
    numbers = [dice.choice([0, 43, 44, 51, 60]) for _ in range(dice.choice([0, 0, 1, 1, 2, 3, 5, 18]))]
    if 0 in numbers and dice.random() < 0.8:
        numbers = [0] + [it for it in numbers if it]
    numbers.append(dice.choice([6, 17, 58, 59, 50, dice.randrange(256)]))
    parts = []
    for number, after in zip(numbers, numbers[1:]):
        if number == 44:
            parts.append(struct.pack(">BBHI", after, 0, dice.choice([0, 0, 1, 8, 9, 0x246]), dice.randrange(9)))
            continue
        field = dice.choice([0, 1, 2, 7, 31, 32, 255]) if dice.random() < 0.3 else dice.choice([0, 1, 1, 2])
        size = max(12, 4 * field + 8) if number == 51 else 8 * field + 8
        parts.append(bytes([after, field]) + bytes(size - 2))
    return numbers[0], b"".join(parts) + bytes(dice.choice([0, 4, 20]))


def made_packet(dice):
    first, after = made_chain(dice)
    stated = max(0, len(after) + dice.choice([0, 0, 0, 0, -1, -4, -9, 5, 100]))
    if dice.random() < 0.4:
        options = bytes(4 * dice.choice([0, 0, 0, 1, 10]))
        total = 20 + len(options) + stated if dice.random() < 0.9 else dice.choice([0, 5, 19, 20])
        bits = dice.choice([0, 0, 0, 0x4000, 0x2000, 0x2001, 3])
        packet = struct.pack(">BBHHHBBHII", 0x45 + len(options) // 4, 0, total, 7, bits, 64, first, 0, 1, 2) + options + after
    else:
        packet = struct.pack(">IHBB", 6 << 28, stated if dice.random() < 0.9 else 0, first, 64) + bytes(32) + after
    if dice.random() < 0.2:
        packet = packet[:dice.randrange(len(packet) + 1)]
    if packet and dice.random() < 0.1:
        at = dice.randrange(min(len(packet), 60))
        packet = packet[:at] + bytes([dice.randrange(256)]) + packet[at + 1:]
    return packet


def made_lines():
    dice = random.Random(8200)
    lines = []
    for _ in range(MADE):
        kind = dice.choice("ppppppppot")
        lines.append((kind, made_packet(dice) if kind == "p" else b""))
    return lines


def captured_lines(path):
    """Returns the frames of a classic pcap file of Ethernet (1) or raw IP (101)."""
    with open(path, "rb") as it:
        capture = it.read()
    order = {b"\xd4\xc3\xb2\xa1": "<", b"\xa1\xb2\xc3\xd4": ">", b"\x4d\x3c\xb2\xa1": "<", b"\xa1\xb2\x3c\x4d": ">"}.get(capture[:4])
    if not order or (link := struct.unpack_from(order + "I", capture, 20)[0]) not in (1, 101):
        raise ValueError(f"{path} isn't a classic pcap file of Ethernet or raw IP")
    lines, at = [], 24
    while at + 16 <= len(capture):
        present, size = struct.unpack_from(order + "II", capture, at + 8)
        frame, at = capture[at + 16:at + 16 + present], at + 16 + present
        if present < size:
            lines.append(("t", b""))
        front = 14 if link == 1 else 0
        is_ip = link == 101 or frame[12:14] in (b"\x08\x00", b"\x86\xdd")
        lines.append(("p", frame[front:]) if is_ip else ("o", b""))
    return lines


def plain_counts(lines):
    counts = collections.Counter()
    for kind, packet in lines:
        if kind == "p":
            count_packet(counts, packet)
        else:
            counts["other_frames" if kind == "o" else "truncated_frames", 0] += 1
    return [counts[name, i] for name, count in FIELDS.items() for i in range(count)]
