"""A plain, slow program that makes packets whole, by the standards or with the differences that Linux has."""

import collections

from packets import DESTINATION, LOCAL, ROUTING, bytes_of, end_of, whole_of

NOT_ECT, CE = 0, 3

# Where Linux 6.18 differs from the library: what Linux does, and what the library does and by which standard.
DIFFERENCES = {
    "contained": ("ignores a fragment without new bytes, whatever its bytes and flag are, if those of adjacent fragments "
                  "that arrived in order, or of one, include them",
                  "abandons the packet unless the fragment is an exact repetition: RFC 5722, section 4; RFC 8200, section 4.5"),
    "empty": ("abandons the packet of a fragment without bytes",
              "accepts an empty last fragment, and drops only the fragment if more follow, since its length isn't a positive "
              "multiple of 8: RFC 791, section 3.2; RFC 8200, section 4.5"),
    "trimmed": ("cuts the length of an IPv4 fragment to a multiple of 8 if more follow",
                "drops the fragment, as that of IPv6: RFC 791, section 3.2"),
    "upper-layer header": ("drops a first fragment of IPv6 whose upper-layer header isn't whole, which has a byte at least",
                           "drops one whose extension headers aren't whole, and joins others as they are: RFC 8200, section 4.5, \"should be discarded\"; "
                           "RFC 7112, section 5"),
    "late length": ("counts the headers of a packet only once its payload is whole, and then drops it; of IPv4 also the payload",
                    "drops a fragment with which its packet's length field couldn't state the length: RFC 791, section 3.1; "
                    "RFC 8200, section 4.5"),
    "forgotten": ("forgets a packet with an overlap, two ends or mixed ECN code points, the latter once its payload is whole, so that "
                  "later fragments begin anew",
                  "drops all further fragments of the packet: RFC 5722, section 4, \"including those not yet received\"; "
                  "RFC 3168, section 5.3"),
    "repeated code points": ("doesn't look at the ECN code point of a repetition",
                             "counts it like that of any fragment: RFC 3168, section 5.3"),
    "interfaces": ("joins fragments that arrive on different interfaces, unless the destination is link-local",
                   "joins none of different contexts, which are the caller's: here a number for each interface"),
}

# The code point of a whole packet, by the set of those of its fragments, where it isn't that of the first one: CE if one
# fragment has CE. `None`: the fragments aren't joined (RFC 3168, section 5.3).
CODE_POINTS = {frozenset([1, 3]): CE, frozenset([2, 3]): CE, frozenset([1, 2, 3]): CE,
               **{frozenset([NOT_ECT, *others]): None for others in ([1], [2], [3], [1, 2], [1, 3], [2, 3], [1, 2, 3])}}


def upper_layer_at(fragment):
    """Where the upper-layer header starts in a first fragment of IPv6, or `None` if the extension headers before it aren't whole."""
    at, number, data = 0, fragment.number, fragment.data
    while number in (ROUTING, DESTINATION):
        if len(data) < at + 2 or len(data) < at + 8 + 8 * data[at + 1]:
            return None
        number, at = data[at], at + 8 + 8 * data[at + 1]
    return at


class Packet:
    """What has arrived of a packet: its fragments, its runs of bytes, the code points, and whether its end is known."""

    def __init__(self):
        self.fragments, self.runs, self.points = [], [], set()
        self.ended = self.abandoned = False

    def reach(self):
        return max(map(end_of, self.fragments), default=0)

    def first(self):
        return next((it for it in self.fragments if it.offset == 0), None)

    def payload(self):
        """The payload, once all of it is there. No accepted fragments overlap."""
        parts = sorted(self.fragments, key=lambda it: (it.offset, len(it.data)))
        data = b"".join(it.data for it in parts)
        return data if self.ended and len(data) == self.reach() and self.first() else None

    def overlaps(self, fragment):
        return any(8 * it.offset < end_of(fragment) and 8 * fragment.offset < end_of(it) for it in self.fragments)

    def has_run_around(self, fragment):
        return fragment.data and any(start <= 8 * fragment.offset and end_of(fragment) <= end for start, end in self.runs)

    def accept(self, fragment):
        """Adds a fragment. It continues the last run of bytes if it begins where that ends and is the farthest one."""
        start, end = 8 * fragment.offset, end_of(fragment)
        if self.runs and start == self.reach() == self.runs[-1][1]:
            self.runs[-1] = (self.runs[-1][0], end)
        else:
            self.runs = sorted([*self.runs, (start, end)])
        self.fragments.append(fragment)
        self.ended |= not fragment.more


class Plain:
    """Makes packets whole by the standards, or with these differences."""

    def __init__(self, differences):
        self.differences = differences
        self.packets = collections.defaultdict(Packet)

    def add(self, fragment):
        """Returns the packet that is whole after a fragment, or nothing."""
        if fragment.offset == 0 and not fragment.more:
            return bytes_of(fragment)
        if fragment.version == 4 and "trimmed" in self.differences and fragment.more:
            fragment = fragment._replace(data=fragment.data[:len(fragment.data) & ~7])
        if self.is_refused(fragment):
            return None
        packet = self.packets[self.key(fragment)]
        if packet.abandoned or (self.is_late(packet, fragment) and not self.is_mixed(packet, fragment)):
            return None
        if self.conflicts(packet, fragment):
            self.give_up(fragment)
            return None
        return self.joined(packet, fragment) if self.kept(packet, fragment) else None

    def key(self, fragment):
        """What the fragments of a packet have in common, besides its protocol number in IPv4, which is always the same here."""
        has_context = "interfaces" not in self.differences or fragment.addresses == LOCAL
        return fragment.version, fragment.identification, fragment.addresses, has_context and fragment.context

    def is_refused(self, fragment):
        """Whether a fragment is dropped alone, whatever else has arrived."""
        unaligned = fragment.more and (len(fragment.data) % 8 or not fragment.data and "empty" not in self.differences)
        return unaligned or self.lacks_headers(fragment) or self.is_long(fragment, end_of(fragment), is_whole=False)

    def lacks_headers(self, fragment):
        """Whether a fragment is the first one of IPv6, and headers that it has to have aren't whole."""
        if fragment.version == 4 or fragment.offset > 0:
            return False
        at = upper_layer_at(fragment)
        return at is None or ("upper-layer header" in self.differences and at == len(fragment.data))

    def is_long(self, first, end, is_whole):
        """Whether the length field can't state a packet with these headers and so many bytes of payload."""
        if "late length" in self.differences and not is_whole:
            return first.version == 6 and end > 65535
        headers = 20 + len(first.options) if first.version == 4 else 8 * len(first.headers)
        return headers + end > 65535

    def is_late(self, packet, fragment):
        first = packet.first() or (fragment if fragment.offset == 0 else None)
        return first is not None and self.is_long(first, max(packet.reach(), end_of(fragment)), is_whole=False)

    def is_mixed(self, packet, fragment):
        """Whether a fragment's code point contradicts the others, unless only those of whole payloads are compared."""
        points = frozenset(packet.points | {fragment.ecn})
        return "forgotten" not in self.differences and CODE_POINTS.get(points, NOT_ECT) is None

    def conflicts(self, packet, fragment):
        """Whether a fragment abandons its packet."""
        if "repeated code points" not in self.differences and self.is_mixed(packet, fragment):
            return True
        if self.is_repetition(packet, fragment):
            return False
        if self.is_mixed(packet, fragment) or (not fragment.data and "empty" in self.differences):
            return True
        two_ends = end_of(fragment) < packet.reach() and not fragment.more or end_of(fragment) > packet.reach() and packet.ended
        if "contained" in self.differences and packet.has_run_around(fragment):
            return two_ends
        return two_ends or packet.overlaps(fragment)

    def is_repetition(self, packet, fragment):
        same = [(it.offset, it.more, it.data) for it in packet.fragments]
        return (fragment.offset, fragment.more, fragment.data) in same

    def give_up(self, fragment):
        if "forgotten" in self.differences:
            del self.packets[self.key(fragment)]
        else:
            self.packets[self.key(fragment)].abandoned = True

    def kept(self, packet, fragment):
        """Adds a fragment to its packet. Returns whether it has new bytes, or its packet is asked in any case."""
        if "repeated code points" not in self.differences:
            packet.points.add(fragment.ecn)
        if self.is_repetition(packet, fragment):
            return False
        if "contained" in self.differences and packet.has_run_around(fragment):
            packet.ended |= not fragment.more
            return False
        packet.points.add(fragment.ecn)
        packet.accept(fragment)
        return True

    def joined(self, packet, fragment):
        """The whole packet, after which its fragments are forgotten, or nothing."""
        data = packet.payload()
        if data is None:
            return None
        first = packet.first()
        ecn = CODE_POINTS.get(frozenset(packet.points), first.ecn)
        del self.packets[self.key(fragment)]
        return None if ecn is None or self.is_long(first, len(data), is_whole=True) else whole_of(first, ecn, data)
