"""Changes packets by RFC 791, RFC 2675, RFC 4302 and RFC 8200, in plain Python that shares no code with the library."""

import struct

HOP_BY_HOP, ROUTING, FRAGMENT, AUTHENTICATION, DESTINATION_OPTIONS = 0, 43, 44, 51, 60
EXTENSIONS = (HOP_BY_HOP, ROUTING, FRAGMENT, AUTHENTICATION, DESTINATION_OPTIONS)
JUMBO_PAYLOAD = 0xC2


class Refused(Exception):
    """A packet that can't be changed, with the name of the reason."""


def length_of(number, data):
    """Returns the length of the header that the bytes start with, by its own length field."""
    if len(data) < 8 or (number == AUTHENTICATION and data[1] == 0):
        raise Refused("HEADERS")
    if number == FRAGMENT:
        return 8
    return 4 * (data[1] + 2) if number == AUTHENTICATION else 8 * (data[1] + 1)


def fragment_bits(header):
    """Returns the offset and the more fragments flag of a fragment header (RFC 8200, section 4.5)."""
    field = int.from_bytes(header[2:4], "big")
    return field >> 3, field & 1


def is_fragmenting(header):
    return header[0] == FRAGMENT and fragment_bits(header[1]) != (0, 0)


def has_reserved(header):
    """Whether a reserved bit is 1 (RFC 8200, section 4.5; RFC 4302, section 2.3)."""
    number, data = header
    if number == FRAGMENT:
        return data[1] != 0 or data[3] & 6 != 0
    return number == AUTHENTICATION and data[2:4] != b"\0\0"


def has_segments(header):
    return header[0] == ROUTING and header[1][3] != 0


def options_of(header):
    """Returns the options of a hop-by-hop options header, each with its offset, type and data, up to one that doesn't fit."""
    found, at = [], 2
    while at < len(header):
        size = 1 if header[at] == 0 else 2 + (header[at + 1] if at + 1 < len(header) else len(header))
        if at + size > len(header):
            break
        found.append((at, header[at], header[at + 2:at + size]))
        at += size
    return found


class Packet:
    """The packet at the start of some bytes: its base header, its extension headers, each with its number, and its payload."""

    def __init__(self, data):
        self.version = data[0] >> 4 if data else 0
        base_len = 4 * (data[0] & 15) if self.version == 4 else 40
        if self.version not in (4, 6) or len(data) < base_len or base_len < 20:
            raise Refused("HEADERS")
        self.base, self.headers = data[:base_len], []
        stated = int.from_bytes(data[2:4] if self.version == 4 else data[4:6], "big")
        whole = stated + (40 if self.version == 6 else 0)
        if stated and whole < base_len:
            raise Refused("HEADERS")
        rest = data[base_len:whole] if stated else data[base_len:]
        self.states_length = stated != 0 or not rest
        self.number = data[9] if self.version == 4 else data[6]
        field = int.from_bytes(data[6:8], "big") if self.version == 4 else 0
        self.is_ipv4_fragment, is_later = field & 0x3fff != 0, field & 0x1fff != 0
        while not is_later and self.number in self.extensions():
            rest = self.take_header(rest)
            is_later = is_fragmenting(self.headers[-1]) and fragment_bits(self.headers[-1][1])[0] != 0
        self.payload = rest
        if stated and whole > len(data):
            raise Refused("MISSING")
        if is_later and self.version == 4:
            raise Refused("LATER_FRAGMENT")
        self.is_later = is_later

    def extensions(self):
        """Returns the numbers that are extension headers after those so far."""
        if self.version == 4:
            return () if self.headers else (AUTHENTICATION,)
        return EXTENSIONS

    def take_header(self, data):
        """Takes a header off the start of the bytes, and returns the others."""
        size = length_of(self.number, data)
        if size > len(data) or (self.number == HOP_BY_HOP and self.headers):
            raise Refused("HEADERS")
        self.headers.append((self.number, data[:size]))
        self.number = data[0]
        return data[size:]

    def following_len(self):
        """Returns how many bytes follow the base header."""
        return sum(len(it) for _, it in self.headers) + len(self.payload)

    def jumbo_offset(self):
        """Returns the offset of the jumbo payload option in the first header, or `None` if the packet is no jumbogram (RFC 2675,
        sections 2 and 3)."""
        numbers = [number for number, _ in self.headers]
        if self.states_length or self.following_len() <= 65535 or FRAGMENT in numbers or numbers[:1] != [HOP_BY_HOP]:
            return None
        options = options_of(self.headers[0][1])
        offsets = [at for at, kind, _ in options if kind == JUMBO_PAYLOAD]
        states = (JUMBO_PAYLOAD, self.following_len().to_bytes(4, "big")) in [it[1:] for it in options]
        return offsets[0] if len(offsets) == 1 and states else None

    def written(self, headers, number, payload):
        """Returns the packet with these headers and this payload instead."""
        numbers = [it for it, _ in headers] + [number]
        chain = b"".join(bytes([following]) + data[1:] for (_, data), following in zip(headers, numbers[1:]))
        base, counted = bytearray(self.base), len(chain) + len(payload) + (len(self.base) if self.version == 4 else 0)
        jumbo = self.jumbo_offset()
        if jumbo is not None:
            if counted <= 65535 or FRAGMENT in numbers[:-1] or numbers[0] != HOP_BY_HOP:
                raise Refused("NOT_A_JUMBOGRAM")
            chain = chain[:jumbo + 2] + counted.to_bytes(4, "big") + chain[jumbo + 6:]
        elif not self.states_length and len(chain) + len(payload) != self.following_len():
            raise Refused("NO_LENGTH")
        if self.states_length and counted > 65535:
            raise Refused("TOO_LONG")
        base[9 if self.version == 4 else 6] = numbers[0]
        struct.pack_into(">H", base, 2 if self.version == 4 else 4, counted if self.states_length else 0)
        if self.version == 4:
            struct.pack_into(">H", base, 10, 0)
            total = sum(int.from_bytes(base[i:i + 2], "big") for i in range(0, len(base), 2))
            struct.pack_into(">H", base, 10, 65535 - (total % 65535 or 65535))
        return bytes(base) + chain + payload

    def is_covered(self, headers, may_be_invalid):
        """Whether there is an authentication header whose value has to hold. That of a later fragment is where its header leads."""
        follows = self.is_later and self.number == AUTHENTICATION
        return not may_be_invalid and (follows or any(number == AUTHENTICATION for number, _ in headers))

    def has_covered(self, is_changed):
        """Whether a header that is changed is part of what a check value is computed of: any but a fragment header that no
        authentication header precedes, since a packet is whole where the value is computed (RFC 4302, sections 3.3.4, 3.4.1)."""
        after = False
        for index, header in enumerate(self.headers):
            if is_changed(index, header) and (after or header[0] != FRAGMENT):
                return True
            after |= header[0] == AUTHENTICATION
        return False

    def has_fragmented(self, is_changed):
        """Whether a header that is changed, by its index and itself, is in the part that is fragmented."""
        after = self.is_ipv4_fragment
        for index, header in enumerate(self.headers):
            if after and is_changed(index, header):
                return True
            after |= is_fragmenting(header)
        return False


def remove_header(data, is_selected, may_be_invalid):
    """Returns the packet without the selected headers, and whether transport checksums hold as before."""
    packet = Packet(data)
    selected = [header for index, header in enumerate(packet.headers) if is_selected(index, header)]
    kept = [header for index, header in enumerate(packet.headers) if not is_selected(index, header)]
    if not selected:
        raise Refused("NO_HEADER")
    if any(is_fragmenting(it) for it in selected):
        raise Refused("FRAGMENT_HEADER")
    if packet.has_fragmented(is_selected):
        raise Refused("FRAGMENTED")
    if packet.is_covered(kept, may_be_invalid) and packet.has_covered(is_selected):
        raise Refused("AUTHENTICATED")
    if packet.version == 4 and packet.number == AUTHENTICATION:
        raise Refused("HEADER_FOLLOWS")
    return packet.written(kept, packet.number, packet.payload), not any(has_segments(it) for it in selected)


def is_one_header(number, data):
    try:
        return number in EXTENSIONS and length_of(number, data) == len(data)
    except Refused:
        return False


def with_header(data, number, new, index, may_be_invalid):
    """Returns the packet with one more header, likewise."""
    packet, header = Packet(data), (number, new)
    if not is_one_header(number, new) or (packet.version == 4 and number != AUTHENTICATION):
        raise Refused("NOT_A_HEADER")
    if is_fragmenting(header):
        raise Refused("FRAGMENT_HEADER")
    before, after = packet.headers[:index], packet.headers[index:]
    is_pushed = not before and after and after[0][0] == HOP_BY_HOP
    if index > len(packet.headers) or (packet.version == 4 and packet.headers) or (before and number == HOP_BY_HOP) or is_pushed:
        raise Refused("MISPLACED")
    if packet.is_ipv4_fragment or any(is_fragmenting(it) for it in before):
        raise Refused("FRAGMENTED")
    if packet.is_covered(packet.headers, may_be_invalid):
        raise Refused("AUTHENTICATED")
    return packet.written([*before, header, *after], packet.number, packet.payload), not has_segments(header)


def with_payload(data, number, payload, may_be_invalid):
    """Returns the packet with another payload, likewise."""
    packet = Packet(data)
    if packet.is_ipv4_fragment or any(is_fragmenting(it) for it in packet.headers):
        raise Refused("FRAGMENTED")
    if packet.is_covered(packet.headers, may_be_invalid):
        raise Refused("AUTHENTICATED")
    if number in packet.extensions():
        raise Refused("HEADER_FOLLOWS")
    return packet.written(packet.headers, number, payload), False


def clear_reserved_bits(data, may_be_invalid):
    """Returns the packet whose reserved bits are zero, likewise."""
    packet = Packet(data)
    if packet.has_fragmented(lambda index, header: has_reserved(header)):
        raise Refused("FRAGMENTED")
    if packet.has_covered(lambda index, header: has_reserved(header)) and packet.is_covered(packet.headers, may_be_invalid):
        raise Refused("AUTHENTICATED")
    headers = []
    for number, header in packet.headers:
        new = bytearray(header)
        if number == FRAGMENT:
            new[1], new[3] = 0, new[3] & 0xf9
        elif number == AUTHENTICATION:
            new[2:4] = b"\0\0"
        headers.append((number, bytes(new)))
    return packet.written(headers, packet.number, packet.payload), True


def in_order(data, may_be_invalid):
    """Returns the packet with its headers in the order that RFC 8200, section 4.1, recommends, likewise."""
    packet = Packet(data)
    after_routing = len(packet.headers) - next((i for i, it in enumerate(reversed(packet.headers)) if it[0] == ROUTING), len(packet.headers))

    def place(index):
        number = packet.headers[index][0]
        if number == DESTINATION_OPTIONS and index < after_routing:
            number = ROUTING
        return (HOP_BY_HOP, ROUTING, FRAGMENT, AUTHENTICATION, DESTINATION_OPTIONS).index(number)
    order = sorted(range(len(packet.headers)), key=place)
    if order != list(range(len(packet.headers))):
        if any(is_fragmenting(it) for it in packet.headers):
            raise Refused("FRAGMENTED")
        if packet.is_covered(packet.headers, may_be_invalid):
            raise Refused("AUTHENTICATED")
    return packet.written([packet.headers[i] for i in order], packet.number, packet.payload), True
