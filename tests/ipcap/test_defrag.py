"""Tests of `ipcap defrag`. A plain, slow program makes packets whole in its own way."""

import gzip
import itertools
import os
import random
import re
import resource
import struct
import subprocess

from blocks import interface, obsolete, packet, section, simple
from captures import *
from test_use import refuse_each

MORE = 0x2000
FIRST_LINK, LINK = b"\2\0\0\0\0\1\2\0\0\0\0\7", b"\2\0\0\0\0\1\2\0\0\0\0\2"


def frame(packet_bytes, link=LINK):
    return link + struct.pack(">H", 0x0800 if packet_bytes[0] >> 4 == 4 else 0x86DD) + packet_bytes


def ipv4_part(identification, offset, more, data, protocol=17):
    """A fragment of an IPv4 packet, with the offset in units of 8 bytes."""
    bits = (MORE if more else 0) | offset
    before = struct.pack(">BBHHHBB", 0x46, 0, 24 + len(data), identification, bits, 64, protocol)
    addresses = bytes([192, 0, 2, 1, 192, 0, 2, 2]) + b"\1\1\1\1"
    return before + struct.pack(">H", checksum(before + b"\0\0" + addresses)) + addresses + data


def ipv4_whole(identification, data, protocol=17):
    return ipv4_part(identification, 0, False, data, protocol)


def ipv6_part(identification, offset, more, data, number=17):
    """A fragment of an IPv6 packet with hop-by-hop options, with the offset in units of 8 bytes."""
    return ipv6(0, options(44) + fragment(number, offset, more, identification) + data)


def ipv6_whole(identification, data, number=17):
    return ipv6(0, options(number) + data)


FAMILIES = [(ipv4_part, ipv4_whole), (ipv6_part, ipv6_whole)]


def pieces(data, sizes):
    """The pieces of a payload, each an offset in units of 8 bytes, whether more follow, and bytes."""
    at, found = 0, []
    for size in sizes:
        found.append((at // 8, True, data[at:at + size]))
        at += size
    return found + [(at // 8, False, data[at:])]


def payload(seed, length):
    return random.Random(seed).randbytes(length)


class Plain:
    """Makes packets whole from lists of bytes, one per offset, and looks at all of them each time."""

    def __init__(self):
        self.packets = {}

    def add(self, key, time, offset, more, data):
        """Returns the payload if it is whole, `None` if more is wanted, or why the fragment is dropped."""
        start, end = 8 * offset, 8 * offset + len(data)
        if more and (len(data) == 0 or len(data) % 8):
            return "whose length isn't a positive multiple of 8, though more follow"
        if key in self.packets and time - self.packets[key]["since"] > 60:
            del self.packets[key]
        of = self.packets.setdefault(key, {"since": time, "bytes": {}, "accepted": [], "end": None, "dead": False})
        reach = max([at + 1 for at in of["bytes"]] + [8 * o + len(d) for o, _, d in of["accepted"]], default=0)
        if of["dead"]:
            return "of packets with an overlap, two ends or mixed ECN code points"
        if (offset, more, data) not in of["accepted"]:
            if any(at in of["bytes"] for at in range(start, end)):
                of["dead"] = True
                return "that overlap others"
            if (not more and end < reach) or (of["end"] is not None and end > of["end"]):
                of["dead"] = True
                return "that contradict the end of their packet"
            of["accepted"].append((offset, more, data))
            of["bytes"].update((start + i, byte) for i, byte in enumerate(data))
            if not more:
                of["end"] = end
        if of["end"] is not None and all(at in of["bytes"] for at in range(of["end"])):
            del self.packets[key]
            return bytes(of["bytes"][at] for at in range(of["end"]))
        return None


def frames_of(content):
    """The frames of a classic capture, each with its time."""
    found, at = [], 24
    while at < len(content):
        seconds, fraction, kept, length = struct.unpack("<IIII", content[at:at + 16])
        assert kept == length
        found.append((seconds, fraction, content[at + 16:at + 16 + kept]))
        at += 16 + kept
    return found


def defragment(harness, frames, *arguments, status=0):
    """Runs `defrag` on frames, each one second after the one before. Returns the frames that it writes, and its messages."""
    path = harness.file(capture(frames))
    found = harness.run("defrag", *arguments, path)
    harness.equal(found[0], status, "status of defrag", found[2])
    return [it for _, _, it in frames_of(found[1])], found[2].replace(path, "FILE")


def test_orders(harness):
    """Fragments in any order make their packet whole, in the place of the last one to arrive."""
    for part, whole in FAMILIES:
        frames, wanted, number = [], [], 0
        for count in range(2, 7):
            for order in itertools.permutations(range(count)):
                number += 1
                data = payload(number, 8 * count - number % 8)
                parts = pieces(data, [8] * (count - 1))
                frames += [frame(part(number, *parts[i]), FIRST_LINK if i == 0 else LINK) for i in order]
                wanted.append(frame(whole(number, data), FIRST_LINK))
        harness.equal(defragment(harness, frames), (wanted, ""), "orders of", part.__name__)


def test_places(harness):
    """A whole packet has the time of its last fragment, and all else stays in order."""
    data = payload(1, 40)
    first, middle, last = [frame(ipv6_part(9, *it)) for it in pieces(data, [16, 16])]
    other, arp, atomic = ethernet(ipv6_chain([0])), ethernet(bytes(28), (), 0x0806), frame(ipv6_part(9, 0, False, data))
    frames = [other, last, arp, first, atomic, middle, other]
    path = harness.file(capture(frames))
    found = harness.run("defrag", path)
    whole = frame(ipv6_whole(9, data))
    harness.equal(frames_of(found[1]), [(1000, 5, other), (1002, 7, arp), (1004, 9, atomic), (1005, 10, whole), (1006, 11, other)],
                  "places of packets", found[2])
    harness.equal(harness.run("defrag", "-w", "{}", path)[3], found[1], "defrag -w")
    harness.equal(harness.run("defrag", content=capture(frames))[1], found[1], "defrag of standard input")


def test_refused(harness):
    """Overlaps of each kind, contradicting ends and fragments that can't be used make nothing whole."""
    data = payload(2, 64)
    a, b, c = [(0, True, data[:24]), (3, True, data[24:48]), (6, False, data[48:])]
    changed = bytes(24)
    overlaps = [(0, True, changed), (1, True, data[8:24]), (2, True, data[16:32]), (2, True, changed), (0, True, data[:32]),
                (1, False, data[8:24]), (0, True, data[:16]), (2, False, data[16:40])]
    for part, _ in FAMILIES:
        for piece in overlaps:
            frames = [frame(part(3, *it)) for it in [a, piece, b, c, a]]
            wanted = ("ipcap: FILE: 1 fragment that overlap others\nipcap: FILE: 3 fragments of packets with an overlap, two ends or mixed ECN code points\n"
                      "ipcap: FILE: 1 fragment of packets that aren't whole at the end\n")
            harness.equal(defragment(harness, frames), ([], wanted), "overlap", piece)
            harness.equal(defragment(harness, frames, "--keep")[0], frames, "overlap kept", piece)
        for pieces_of in [[c, (9, True, data[:8])], [(9, True, data[:8]), c], [c, (8, False, data[:8])]]:
            frames = [frame(part(3, *it)) for it in pieces_of]
            harness.check("1 fragment that contradict the end of their packet" in defragment(harness, frames)[1], "two ends", pieces_of)
        found = defragment(harness, [frame(part(3, 0, True, data[:20])), frame(part(3, 0, True, b""))])[1]
        harness.check("2 fragments whose length isn't a positive multiple of 8" in found, "lengths", found)
    for part, at in [(ipv4_part, 8188), (ipv6_part, 8190)]:
        found = defragment(harness, [frame(part(3, at, False, data[:8])), frame(part(3, at, False, data[:7]))])
        harness.equal(found, ([], "ipcap: FILE: 1 fragment that make their packet too long for its length field\n"
                              "ipcap: FILE: 1 fragment of packets that aren't whole at the end\n"), "long payloads", part)
    faulty = frame(ipv6(44, fragment(60, 0, 1) + b"\x11\x04" + bytes(6)))
    found = defragment(harness, [faulty, frame(ipv6(44, fragment(17, 0, 1) + bytes(8), 0)), frame(ipv6(44, fragment(17, 0, 1) + bytes(8), 24))])
    harness.equal(found, ([], "ipcap: FILE: 1 fragment whose headers are truncated or faulty\nipcap: FILE: 1 fragment that state no length\n"
                          "ipcap: FILE: 1 fragment of which bytes are missing\n"), "fragments that can't be used")


def test_keys(harness):
    """A packet's fragments have its addresses and identification, and in IPv4 its protocol."""
    data = payload(4, 32)
    first, last = pieces(data, [16])
    frames = []
    for at in range(22, 54):
        one = bytearray(frame(ipv6_part(at, *first)))
        one[at] ^= 1
        frames += [bytes(one), frame(ipv6_part(at, *last))]
    for at in range(26, 34):
        one = bytearray(frame(ipv4_part(at, *first)))
        one[at] ^= 1
        frames += [bytes(one), frame(ipv4_part(at, *last))]
    others = [(ipv4_part(5, *first), ipv4_part(5, *last, 6)), (ipv4_part(6, *first), ipv4_part(262, *last)),
              (ipv6_part(7, *first), ipv6_part(7 | 1 << 31, *last)), (ipv4_part(8, *first), ipv6_part(8, *last))]
    frames += [frame(it) for pair in others for it in pair]
    path = harness.file(timed([1000 + i / 1000 for i in range(len(frames))], frames))
    found = harness.run("defrag", path)
    harness.equal((found[1][24:], found[2]), (b"", "ipcap: %s: %d fragments of packets that aren't whole at the end\n" % (path, len(frames))),
                  "fragments of different packets")
    harness.equal(defragment(harness, [frame(ipv6_part(5, *first)), frame(ipv6_part(5, *last, 6))])[0],
                  [frame(ipv6_whole(5, data))], "another number in a later fragment of IPv6")


def tagged(packet_bytes, *identifiers):
    """An Ethernet frame with one tag for each VLAN identifier, with a priority and the drop bit."""
    ethertypes = (0x9100, 0x88A8, 0x8100)[3 - len(identifiers):]
    return LINK + b"".join(struct.pack(">HH", *it) for it in zip(ethertypes, (0xB000 | it for it in identifiers))) + frame(packet_bytes, b"")


def test_contexts(harness):
    """Only fragments of the same VLANs and interface are joined."""
    lost = "ipcap: FILE: 2 fragments of packets that aren't whole at the end\n"
    vlans = [(), (5,), (6,), (0x805,), (5, 6), (6, 5), (5, 7), (7, 6), (5, 0x806)]
    for part, whole in FAMILIES:
        packet_bytes = whole(5, payload(12, 32))
        first, last = [part(5, *it) for it in pieces(payload(12, 32), [16])]
        harness.equal(defragment(harness, [tagged(first, 5), tagged(last, 6)]), ([], lost), "VLANs 5 and 6")
        frames = [tagged(first, *it) for it in vlans] + [tagged(last, *it) for it in reversed(vlans)]
        harness.equal(defragment(harness, frames), ([tagged(packet_bytes, *it) for it in reversed(vlans)], ""), "VLANs")
        for a, b in [((), (0,)), ((5, 6, 7), (5, 6, 8))]:
            harness.equal(defragment(harness, [tagged(first, *a), tagged(last, *b)]), ([tagged(packet_bytes, *a)], ""), "the same VLANs")
        for number in (5, 6):
            frames = [cooked(struct.pack(">H", vlan) + tagged(it)[12:], 0x8100) for vlan, it in [(5, first), (number, last)]]
            found = harness.run("defrag", content=capture(frames, SLL))
            harness.equal(found[1][24:] != b"", number == 5, "VLANs of a cooked capture", number)
    for order, make in itertools.product("<>", (packet, obsolete)):
        head = section(order) + interface(order=order) + interface(order=order)
        found = harness.run("defrag", content=head + make(frame(first), 0, order=order) + make(frame(last), 1, order=order))
        harness.equal(found[1], head, "two interfaces", found[2])


def test_congestion(harness):
    """Fragments with any ECN code points, which scapy makes, are joined as RFC 3168, section 5.3, says."""
    from scapy.layers.inet import IP, UDP as ScapyUdp, fragment as fragment4
    from scapy.layers.inet6 import IPv6, IPv6ExtHdrFragment, fragment6
    frames, wanted, dropped = [], [], 0
    for number, points in enumerate(itertools.product(range(4), repeat=3)):
        is_mixed, point = 0 in points and any(points), 3 if 3 in points else points[0]
        data = ScapyUdp(dport=9999) / random.Random(number).randbytes(1000)
        base4 = {"src": "192.0.2.1", "dst": "192.0.2.2", "id": number}
        base6 = {"src": "2001:db8::1", "dst": "2001:db8::2", "fl": 0x12345}
        parts4 = fragment4(IP(bytes(IP(tos=0x28, **base4) / data)), 400)
        parts6 = fragment6(IPv6(bytes(IPv6(tc=0x28, **base6) / IPv6ExtHdrFragment(id=number) / data)), 448)
        harness.equal((len(parts4), len(parts6)), (3, 3), "fragments")
        for part4, part6, one in zip(parts4, parts6, points):
            part4.tos |= one
            part4.chksum = None
            part6.tc |= one
        frames += [frame(bytes(it)) for it in parts4 + parts6]
        dropped += 2 * is_mixed
        if not is_mixed:
            wanted += [frame(bytes(IP(tos=0x28 | point, **base4) / data)), frame(bytes(IPv6(tc=0x28 | point, **base6) / data))]
    found = harness.run("defrag", content=timed([1000 + i / 1000 for i in range(len(frames))], frames))
    harness.equal([it for _, _, it in frames_of(found[1])], wanted, "packets with ECN code points")
    harness.check(": %d fragments that are ECN-capable where others of their packet aren't, or the reverse\n" % dropped in found[2], found[2])


def timed(times, frames):
    return file_header() + b"".join(record(it, None, int(time), round(1e6 * (time % 1))) for time, it in zip(times, frames))


def test_times(harness):
    """A packet is given up after 60 seconds, and no fragment extends that."""
    parts = [frame(ipv4_part(8, *it)) for it in pieces(payload(5, 40), [16, 16])]
    for last, is_whole in [(1060, True), (1060.000001, False)]:
        path = harness.file(timed([1000, 1059, last], parts))
        found = harness.run("defrag", path)
        harness.equal(len(frames_of(found[1])), int(is_whole), "packets after", last, found[2])
        harness.equal("2 fragments of packets that weren't whole after 60 seconds" in found[2], not is_whole, found[2])


def test_slots(harness):
    """The oldest packet is given up for a new one."""
    data = payload(6, 32)
    first, last = pieces(data, [16])
    frames = [frame(ipv4_part(i, *first)) for i in (1, 2, 3)] + [frame(ipv4_part(i, *last)) for i in (3, 2, 1)]
    found = defragment(harness, frames, "--slots", "2")
    wanted = [frame(ipv4_whole(i, data)) for i in (3, 2)]
    harness.equal(found, (wanted, "ipcap: FILE: 1 fragment of packets given up for others, since all slots were in use\n"
                          "ipcap: FILE: 1 fragment of packets that aren't whole at the end\n"), "two slots")
    found = defragment(harness, frames, "--slots", "2", "--keep")
    harness.equal(found[0], [frames[0], *wanted, frames[5]], "kept fragments of two slots")


def test_long_packets(harness):
    """The longest packets are written, and longer ones aren't."""
    for length, part, whole in [(65535 - 8, ipv6_part, ipv6_whole), (65535 - 24, ipv4_part, ipv4_whole)]:
        for more in (0, 1):
            data = payload(length, length + more)
            sizes = [1448] * (len(data) // 1448)
            frames = [frame(part(7, *it)) for it in pieces(data, sizes)]
            found = defragment(harness, frames)
            if more:
                harness.equal(found[0], [], "too long a packet")
                harness.check("1 fragment that make their packet too long for its length field" in found[1], found[1])
            else:
                harness.equal(found, ([frame(whole(7, data))], ""), "the longest packet")


def test_long_links(harness):
    """Whole packets have at most 256 bytes of link-layer headers."""
    data = payload(11, 32)
    for count in (60, 61):
        tags = LINK + struct.pack(">HH", 0x8100, 5) * count
        frames = [tags + frame(ipv6_part(9, *it), b"") for it in pieces(data, [16])]
        wanted = ([tags + frame(ipv6_whole(9, data), b"")], "") if count == 60 else (
            [], "ipcap: FILE: 2 fragments of packets with more than 256 bytes of link-layer headers\n")
        harness.equal(defragment(harness, frames), wanted, count, "tags")
        harness.equal(defragment(harness, frames, "--keep")[0], wanted[0] or frames, count, "tags")


def test_forms_of_files(harness):
    """Whole packets in pcapng files have the interface and the time of their last fragment."""
    data = payload(7, 44)
    first, last = [frame(ipv6_part(9, *it)) for it in pieces(data, [24])]
    whole = frame(ipv6_whole(9, data))
    for order in "<>":
        head = section(order) + interface(snap_len=96, order=order) + interface(order=order)
        blocks = packet(first, 1, 5, order=order) + interface(snap_len=70, order=order) + packet(last, 1, 77, options=struct.pack(order + "HH4sHH", 1, 4, b"note", 0, 0), order=order)
        wanted = (section(order) + interface(order=order) + interface(order=order) + interface(order=order)
                  + packet(whole, 1, 77, order=order))
        found = harness.run("defrag", content=head + blocks)
        harness.equal(found[1], wanted, "pcapng with order", order, found[2])
        found = harness.run("defrag", content=head + packet(first, 1, 5, order=order) + obsolete(last, 1, 77, order=order))
        harness.equal(found[1][-len(packet(whole)):], packet(whole, 1, 77, order=order), "obsolete packet block", order)
        found = harness.run("defrag", content=head + simple(first[:], order=order) + simple(last, order=order))
        harness.equal(found[1][-len(simple(whole)):], simple(whole, order=order), "simple packet block", order)
    for magic in (MICROSECONDS, NANOSECONDS):
        for order in "<>":
            content = capture([first, last], magic=magic, order=order, snap_len=100)
            found = harness.run("defrag", content=content)
            harness.equal(found[1][24 + 16:], whole, "classic form", magic, order)
            harness.equal(struct.unpack("<I", found[1][:4])[0], magic, "precision")


def random_list(rng, number):
    """Fragments of one key: pieces of a payload, of which some are lost, repeated, moved, cut or of another payload."""
    length = rng.choice([9, 24, 31, 64, 100])
    data = rng.randbytes(length)
    sizes, left = [], length
    while left > 8 and rng.random() < 0.8:
        sizes.append(8 * rng.randint(1, (left - 1) // 8))
        left -= sizes[-1]
    found = [it for it in pieces(data, sizes) if rng.random() < 0.97]
    found += [it for it in found if rng.random() < 0.2]
    if rng.random() < 0.3 and found:
        offset, more, part = rng.choice(found)
        found.append(rng.choice([(offset + 1, more, part), (offset, not more, part), (offset, more, part[:-1]),
                                 (offset, more, bytes(len(part))), (max(0, offset - 1), more, part), (offset, more, part[:8])]))
    rng.shuffle(found)
    return found


def random_capture(seed, count):
    """Lists of fragments, some of them interleaved, the frames that the plain program writes, and how many it drops."""
    rng, plain, time = random.Random(seed), Plain(), 0
    lists = [(number, FAMILIES[rng.randint(0, 1)], random_list(rng, number)) for number in range(1, count + 1)]
    frames, wanted, active = [], [], []
    while lists or active:
        if lists and (len(active) < 4):
            active.append(lists.pop())
        number, (part, whole), left = active[rng.randrange(len(active))]
        if left:
            offset, more, data = left.pop()
            frames.append(frame(part(number, offset, more, data)))
            time += 1
            if offset == 0 and not more:
                wanted.append(frames[-1])
            else:
                answer = plain.add((part, number), time / 1000, offset, more, data)
                if isinstance(answer, bytes):
                    wanted.append(frame(whole(number, answer)))
        active = [it for it in active if it[2]]
    content = file_header() + b"".join(record(it, None, 1000 + i // 1000, i % 1000 * 1000) for i, it in enumerate(frames))
    return content, wanted


def test_plain_agrees(harness):
    """A plain program makes the same packets whole, of random lists of fragments."""
    for seed in range(6):
        content, wanted = random_capture(seed, 250)
        found = harness.run("defrag", content=content)
        harness.equal([it for _, _, it in frames_of(found[1])], wanted, "random lists", seed)
    for seed in range(6, 86):
        content, wanted = random_capture(seed, 250)
        found = harness.answer(harness.plain, ["defrag"], content, None)
        harness.equal([it for _, _, it in frames_of(found[1])], wanted, "random lists", seed)


def kept_in_place(rows):
    """What `defrag --keep` writes of rows, each a key, a time, offset, more, data and a frame, and a function that makes the whole frame:
    fragments that made nothing whole stay where they were. A row without a key is no fragment."""
    plain, written, parts = Plain(), [], {}
    for index, (key, time, offset, more, data, one, make) in enumerate(rows):
        written.append(one)
        if key is None:
            continue
        before = plain.packets.get(key)
        answer = plain.add(key, time, offset, more, data)
        if plain.packets.get(key) is not before and not isinstance(answer, bytes):
            parts[key] = []
        if before is None and isinstance(answer, bytes):
            parts[key] = []
        if not isinstance(answer, str):
            parts.setdefault(key, []).append(index)
        if isinstance(answer, bytes):
            for part in parts.pop(key):
                written[part] = None
            written[index] = make(answer)
    return [it for it in written if it is not None]


def scapy_rows(seed):
    """Fragments that scapy makes of packets of both versions, in a random order and with some lost, among other packets."""
    from scapy.layers.inet import IP, UDP as ScapyUdp, fragment as fragment4
    from scapy.layers.inet6 import IPv6, IPv6ExtHdrFragment, fragment6
    rng, rows = random.Random(seed), []
    for number in range(1, 41):
        data = ScapyUdp(dport=9999) / rng.randbytes(rng.randint(500, 2500))
        if number % 2:
            whole = IP(bytes(IP(src="192.0.2.1", dst="192.0.2.2", id=number) / data))
            parts, key = [bytes(it) for it in fragment4(whole, 400)], (4, number)
            offsets = [(struct.unpack(">H", it[6:8])[0], it[20:]) for it in parts]
            cut = [(bits & 0x1FFF, bool(bits & MORE), it) for bits, it in offsets]
            make = lambda payload, whole=bytes(whole): frame(whole)
        else:
            base = IPv6(src="2001:db8::1", dst="2001:db8::2")
            parts, key = [bytes(it) for it in fragment6(IPv6(bytes(base / IPv6ExtHdrFragment(id=number) / data)), 448)], (6, number)
            offsets = [(struct.unpack(">H", it[42:44])[0], it[48:]) for it in parts]
            cut = [(bits >> 3, bool(bits & 1), it) for bits, it in offsets]
            make = lambda payload, whole=bytes(base / data): frame(whole)
        rows += [(key, *it, frame(one), make) for it, one in zip(cut, parts) if rng.random() < 0.9 and len(parts) > 1]
        rows.append((None, 0, False, b"", ethernet(ipv6_chain([0], 17, UDP + bytes([number]))), None))
    for at in range(len(rows) - 1, 0, -1):
        other = max(0, at - rng.randrange(30))
        rows[at], rows[other] = rows[other], rows[at]
    return [(key, index / 1000, *rest) for index, (key, *rest) in enumerate(rows)]


def test_kept_places(harness):
    """Fragments that make nothing whole stay where they were, in classic files, sections and pipes."""
    for seed in range(8):
        rows = scapy_rows(seed)
        frames, wanted = [it[5] for it in rows], kept_in_place(rows)
        content = file_header() + b"".join(record(it, None, 1000, index * 1000) for index, it in enumerate(frames))
        found = harness.run("defrag", "--keep", harness.file(content))
        harness.equal([it for _, _, it in frames_of(found[1])], wanted, "kept in place", seed)
        harness.check(found[0] == 0 and 0 < len(wanted) < len(frames) and "at the end" in found[2], found[2])
        times = [fraction for _, fraction, _ in frames_of(found[1])]
        harness.equal(times, sorted(times), "times")
        piped = harness.run("defrag", "--keep", content=content)
        harness.equal(piped[:2], found[:2], "a pipe")
        with open(harness.file(content), "rb") as file:
            again = subprocess.run(harness.plain + ["defrag", "--keep", "-"], stdin=file, stdout=subprocess.PIPE, stderr=subprocess.PIPE)
        harness.equal(again.stdout, found[1], "a file as standard input")
        packed = harness.run("defrag", "--keep", harness.file(gzip.compress(content), ".gz"))
        harness.equal(packed[:2], found[:2], "a compressed file")
        harness.equal(harness.run("defrag", "--keep", content=gzip.compress(content))[1], found[1], "a compressed pipe")
        report = harness.run("defrag", "--keep", "--report", "{}", content=content)
        harness.equal(report[3], harness.run("defrag", "--report", "{}", content=content)[3], "the report")
    lost = len(frames) - len(defragment(harness, frames)[0])
    harness.check(lost > 0 and not [it for it in os.listdir(harness.temporary()) if it.startswith("ipcap.")], "temporary files")
    content = capture(frames)
    for folder in ("/nonexistent", "/proc"):
        found = subprocess.run(harness.plain + ["defrag", "--keep"], input=content, stdout=subprocess.PIPE, stderr=subprocess.PIPE,
                               env=dict(harness.environment, TMPDIR=folder))
        harness.check(found.returncode == 1 and found.stderr.startswith(b"ipcap: %s/ipcap." % folder.encode()), found)
    truncated = content[:-5]
    for found in (harness.run("defrag", "--keep", content=truncated), harness.run("defrag", "--keep", harness.file(truncated))):
        harness.check(found[0] == 1 and found[2].count("can't read packet") == 1, "a truncated file", found[2])
        harness.equal(frames_of(found[1]), frames_of(harness.run("defrag", "--keep", content=capture(frames[:-1]))[1]), "its packets")


def test_full_temporary(harness):
    """If the temporary file can't be written, what was read is written, and the status says so."""
    parts = [frame(ipv6_part(number, 0, True, bytes(800))) for number in range(400)]
    content = capture(parts)
    for command in [harness.plain, harness.sanitized]:
        found = subprocess.run(command + ["defrag", "--keep", "-w", "/dev/stdout"], input=content, stdout=subprocess.PIPE, stderr=subprocess.PIPE,
                               preexec_fn=lambda: resource.setrlimit(resource.RLIMIT_FSIZE, (200000, 200000)), restore_signals=False,
                               env=harness.environment)
        written = [it for _, _, it in frames_of(found.stdout)]
        harness.check(found.returncode == 1 and b"temporary file: File too large" in found.stderr, found.stderr)
        harness.equal(written, parts[:len(written)], "what was read")
        harness.check(100 < len(written) < 400, len(written))


def shuffled(seed):
    """Fragments of some packets in a random order, and the packets' payloads by version and identification."""
    rng, frames, wanted = random.Random(seed), [], {}
    for number in range(1, 41):
        data = udp(9999, rng.randbytes(rng.randint(40, 3000)))
        sizes = [8 * rng.randint(1, 80) for _ in range(rng.randint(1, 4))]
        while sum(sizes) >= len(data):
            sizes.pop()
        part, _ = FAMILIES[number % 2]
        frames += [frame(part(number, *it)) for it in pieces(data, sizes)] if sizes else []
        if sizes:
            wanted[number] = data
    rng.shuffle(frames)
    return frames, wanted


def test_tshark_agrees(harness):
    """tshark reassembles the same bytes."""
    for seed in range(3):
        frames, wanted = shuffled(seed)
        path = harness.file(timed([1000 + i / 1000 for i in range(len(frames))], frames))
        found = harness.tshark(path, "-o", "ip.defragment:TRUE", "-o", "ipv6.defragment:TRUE", "-T", "fields", "-e", "ip.reassembled.data",
                               "-e", "ipv6.reassembled.data").decode().split("\n")
        theirs = [bytes.fromhex(it.strip().replace(":", "")) for it in found if it.strip()]
        written = [it for _, _, it in frames_of(harness.run("defrag", path)[1])]
        ours = [it[14 + (24 if it[12:14] == b"\x08\0" else 48):] for it in written]
        harness.equal(sorted(ours), sorted(wanted.values()), "payloads")
        harness.equal(ours, theirs, "payloads as tshark reassembles them")


def test_scapy_agrees(harness):
    """scapy makes the same packets of fragments, and ours of its fragments."""
    from scapy.layers.inet import IP, UDP as ScapyUdp, defragment as defragment4, fragment as fragment4
    from scapy.layers.inet6 import IPv6, IPv6ExtHdrDestOpt, IPv6ExtHdrFragment, IPv6ExtHdrHopByHop, defragment6, fragment6
    rng = random.Random(1)
    for number in range(1, 16):
        whole = IP(src="192.0.2.1", dst="192.0.2.2", id=number) / ScapyUdp(dport=9999) / rng.randbytes(rng.randint(600, 4000))
        parts = [IP(bytes(it)) for it in fragment4(IP(bytes(whole)), 400)]
        rng.shuffle(parts)
        theirs = [bytes(it) for it in defragment4(parts)]
        found = defragment(harness, [frame(bytes(it)) for it in parts])
        harness.equal(found, ([frame(bytes(whole))], ""), "a packet that scapy fragmented")
        harness.equal([it[14:] for it in found[0]], theirs, "a packet as scapy makes it whole")
        whole = (IPv6(src="2001:db8::1", dst="2001:db8::2") / IPv6ExtHdrHopByHop() / IPv6ExtHdrFragment(id=number)
                 / IPv6ExtHdrDestOpt() / ScapyUdp(dport=9999) / rng.randbytes(rng.randint(1500, 4000)))
        parts = [IPv6(bytes(it)) for it in fragment6(IPv6(bytes(whole)), 1280)]
        theirs = bytes(defragment6(parts))
        rng.shuffle(parts)
        found = defragment(harness, [frame(bytes(it)) for it in parts])
        harness.equal(found, ([frame(theirs)], ""), "an IPv6 packet as scapy makes it whole")


def test_other_commands(harness):
    """`stat`, `filter` and `show` work on whole packets."""
    data = udp(53, payload(8, 300))
    parts = [frame(ipv6_part(9, *it)) for it in pieces(data, [96, 96])]
    other, lost = frame(ipv4_part(1, 0, False, UDP)), frame(ipv4_part(2, 0, True, UDP + bytes(4)))
    whole = frame(ipv6_whole(9, data))
    fragments, wholes = capture([parts[2], other, lost, parts[0], parts[1]]), capture([other, whole])
    path, plain = harness.file(fragments), harness.file(wholes)
    message = "ipcap: %s: 1 fragment of packets that aren't whole at the end\n" % path
    for arguments in [["stat", "--json"], ["stat", "--top", "3"]]:
        harness.equal(harness.run(*arguments, "--defrag", path), (0, harness.run(*arguments, plain)[1], message, None), arguments)
    many = harness.run("stat", "--json", "--defrag", "-j2", path, path, path)
    harness.equal(many[1:3], (harness.run("stat", "--json", plain, plain, plain)[1], 3 * message), "files side by side")
    harness.check(harness.run("stat", "--json", path)[1] != harness.run("stat", "--json", plain)[1], "fragments are counted")
    for condition in ["port 53", "not fragment", "length > 300", "ip"]:
        found = harness.run("filter", "--defrag", condition, path)
        wanted = [it for _, _, it in frames_of(harness.run("filter", condition, plain)[1])]
        harness.equal(([it for _, _, it in frames_of(found[1])], found[2]), (wanted, message), "filter --defrag", condition)
    harness.equal(frames_of(harness.run("filter", "dst port 53", path)[1])[0][2], parts[0], "the first fragment alone")
    found = harness.run("show", "--defrag", "--one-line", path)
    harness.equal(found[2], message, "show --defrag")
    harness.equal([line.split()[1].strip(",:") for line in found[1].decode().splitlines()], ["2", "5"], "numbers of packets")
    harness.check(b"IPv6 0 -> 17" in found[1], found[1])
    harness.equal(harness.run("show", "--defrag", "-c", "1", "--json", path)[1], harness.run("show", "-c", "2", "--json", path)[1].split(b"\n")[1] + b"\n",
                  "one packet")


def test_wrong_usage(harness):
    """What `defrag` refuses."""
    path = harness.file(capture([]))
    for arguments in [["a", "b"], ["--slots", "0"], ["--slots", "x"], ["--keep=1"], ["-c", "1"]]:
        harness.equal(harness.run("defrag", *arguments)[0], 2, "status of", arguments)
    found = harness.run("defrag", "-w", path, path)
    harness.equal(found[0], 1, "the input as output")
    harness.check("input and output are the same file" in found[2], found[2])
    harness.equal(harness.run("defrag", "-w", "/nonexistent/x", path)[0], 1, "an output that can't be opened")
    harness.equal(harness.run("defrag", "/nonexistent/x")[0], 1, "an input that can't be opened")
    harness.equal(harness.run("defrag", path)[1][16:24], struct.pack("<II", 262144, ETHERNET), "an empty capture")


def reported(harness, frames, *arguments, times=None, status=0):
    """Runs `defrag --report` on frames. Returns the lines of the report, and checks that no other output depends on it."""
    path = harness.file(timed(times or [1000 + i for i in range(len(frames))], frames))
    found = harness.run("defrag", "--report", "{}", *arguments, path)
    plain = harness.run("defrag", *arguments, path)
    harness.equal(found[:3], plain[:3], "the output with a report")
    harness.equal(found[0], status, "status", found[2])
    return found[3].decode().splitlines()


V4_KEY, V6_KEY = "192.0.2.1 > 192.0.2.2, protocol 17, id %d", "2001:db8::1 > 2001:db8::2, protocol 17, id 0x%08x"
IN_TIME, NOT_WHOLE = "timed out: not whole after 60 seconds", "not whole at the end"


def test_reports(harness):
    """--report has a line for each packet that was given up or dropped: its fragments, its key, and why."""
    data = payload(2, 64)
    a, b, c = [(0, True, data[:24]), (3, True, data[24:48]), (6, False, data[48:])]
    other = ethernet(ipv6_chain([0]))
    for part, key in [(ipv4_part, V4_KEY), (ipv6_part, V6_KEY)]:
        made = lambda number, *parts: [frame(part(number, *it)) for it in parts]
        found = reported(harness, made(3, a, b) + [other] + made(4, a) + made(5, a, b, c) + made(4, c))
        harness.equal(found, ["packets 1, 2: %s: %s" % (key % 3, NOT_WHOLE), "packets 4, 8: %s: %s" % (key % 4, NOT_WHOLE)], "at the end")
        found = reported(harness, made(3, a, (1, True, data[8:24]), b, c) + made(4, b))
        harness.equal(found, ["packets 1, 2, 3, 4: %s: refused: a fragment overlaps others" % (key % 3), "packet 5: %s: %s" % (key % 4, NOT_WHOLE)], "an overlap")
        found = reported(harness, made(3, c, (9, True, data[:8]), a))
        harness.equal(found, ["packets 1, 2, 3: %s: refused: a fragment contradicts the end of the packet" % (key % 3)], "two ends")
        found = reported(harness, made(3, a, b, c, a), times=[1000, 1001, 1061, 1062])
        harness.equal(found, ["packets 1, 2: %s: %s" % (key % 3, IN_TIME), "packets 3, 4: %s: %s" % (key % 3, NOT_WHOLE)], "a timeout")
        found = reported(harness, made(1, a) + made(2, a) + made(3, a), "--slots", "2")
        harness.equal(found, ["packet 1: %s: displaced: given up for another packet, since all slots were in use" % (key % 1),
                              "packet 2: %s: %s" % (key % 2, NOT_WHOLE), "packet 3: %s: %s" % (key % 3, NOT_WHOLE)], "displaced")
        found = reported(harness, made(3, (0, True, data[:20])) + made(4, a))
        harness.equal(found, ["packet 1: %s: refused: its length isn't a positive multiple of 8, though more follow" % (key % 3),
                              "packet 2: %s: %s" % (key % 4, NOT_WHOLE)], "a length")
        harness.equal(reported(harness, made(3, a, b, c, a)), ["packet 4: %s: %s" % (key % 3, NOT_WHOLE)], "after a whole packet")
        harness.equal(reported(harness, made(3, a, a, a)), ["packets 1, 2, 3: %s: %s" % (key % 3, NOT_WHOLE)], "repeated")
        harness.equal(reported(harness, made(3, a, b, c) + [other]), [], "nothing lost")
        found = reported(harness, made(3, a, *[b] * 3000), times=[1000] * 3001)
        numbers = ", ".join(map(str, range(1, 1025)))
        harness.equal(found, ["packets %s and 1977 others: %s: %s" % (numbers, key % 3, NOT_WHOLE)], "many")
    for part, key, at in [(ipv4_part, V4_KEY, 8188), (ipv6_part, V6_KEY, 8190)]:
        found = reported(harness, [frame(part(3, at, False, data[:8])), frame(part(3, at, False, data[:7]))])
        harness.equal(found, ["packet 1: %s: refused: it makes its packet too long for its length field" % (key % 3), "packet 2: %s: %s" % (key % 3, NOT_WHOLE)], "too long")
    faulty = frame(ipv6(44, fragment(60, 0, 1) + b"\x11\x04" + bytes(6)))
    key = V6_KEY % 7
    found = reported(harness, [faulty, frame(ipv6(44, fragment(17, 0, 1) + bytes(8), 0)), frame(ipv6(44, fragment(17, 0, 1) + bytes(8), 24)),
                               frame(ipv6_chain([60] * 600 + [44], 17, bytes(8)).replace(fragment(17), fragment(17, 0, 1)))])
    harness.equal(found, ["packet 1: %s: refused: its headers are truncated or faulty" % key.replace("protocol 17", "protocol 60"),
                          "packet 2: %s: refused: it states no length" % key, "packet 3: %s: refused: bytes of it are missing" % key,
                          "packet 4: %s: refused: it has more than 4,096 bytes of headers" % key], "refused by themselves")
    marked = [bytearray(ipv4_part(3, *it)) for it in (a, b, c)]
    marked[1][1] = 2
    for one in marked:
        one[10:12] = bytes(2)
        one[10:12] = struct.pack(">H", checksum(bytes(one[:24])))
    found = reported(harness, [frame(bytes(it)) for it in marked])
    harness.equal(found, ["packets 1, 2, 3: %s: refused: some fragments are ECN-capable, others aren't" % (V4_KEY % 3)], "mixed ECN")
    tags = LINK + struct.pack(">HH", 0x8100, 5) * 61
    found = reported(harness, [tags + frame(ipv6_part(9, *it), b"") for it in pieces(data, [24])])
    harness.equal(found, ["packets 1, 2: %s: refused: more than 256 bytes of link-layer headers" % (V6_KEY % 9)], "link-layer headers")
    for seed in range(3):
        content, wanted = random_capture(seed, 250)
        path = harness.file(content)
        found = harness.run("defrag", "--report", "{}", path)
        lost = [int(it) for line in found[3].decode().splitlines() for it in line.partition(":")[0].split(" ", 1)[1].split(", ")]
        harness.equal(len(lost), len(set(lost)), "no fragment is reported twice")
        counts = [int(it) for it in re.findall(r": (\d+) fragments? ", found[2])]
        harness.equal(len(lost), sum(counts), "as many as the messages say", seed, found[2])


def test_files_of_reports(harness):
    """A report goes to a file of its own, whatever fails."""
    data = payload(2, 64)
    frames = [frame(ipv6_part(number, 0, True, data)) for number in range(300)]
    path = harness.file(capture(frames))
    wanted = harness.run("defrag", "--report", "{}", path)
    harness.equal(wanted[3].count(b"\n"), 300, "lines")
    found = harness.run("defrag", "--report", "-", "-w", "{}", path)
    harness.equal((found[0], found[1], found[3]), (0, wanted[3], wanted[1]), "standard output")
    found = harness.run("defrag", "--report", "-", path)
    harness.equal(found[:3], (2, b"", "ipcap: the capture and the report can't both be written to standard output: use -w; see `ipcap defrag --help`\n"), "both")
    found = harness.run("defrag", "--report", path, path)
    harness.equal(found[:3], (1, b"", "ipcap: %s: input and report are the same file\n" % path), "the input")
    for command in [harness.plain, harness.sanitized, harness.checked]:
        folder = harness.path("")
        os.mkdir(folder)
        for report, output in [("x", "x"), ("x", "./x"), ("./x", "x")]:
            found = subprocess.run(command + ["defrag", "--report", report, "-w", output, path], cwd=folder, stderr=subprocess.PIPE, env=harness.environment)
            words = "ipcap: %s: output and report are the same file\n" % report
            harness.equal((found.returncode, found.stderr.decode()), (1, words), report, output)
            if os.path.exists(os.path.join(folder, "x")):
                os.remove(os.path.join(folder, "x"))
        with open(os.path.join(folder, "out"), "wb") as output:
            found = subprocess.run(command + ["defrag", "--report", "out", path], cwd=folder, stdout=output, stderr=subprocess.PIPE, env=harness.environment)
        harness.equal((found.returncode, found.stderr), (1, b"ipcap: out: output and report are the same file\n"), "standard output")
        with open(path, "ab") as output:
            found = subprocess.run(command + ["defrag", "--report", "-", "-w", os.path.join(folder, "out"), path], cwd=folder, stdout=output, stderr=subprocess.PIPE,
                                   env=harness.environment)
        harness.equal((found.returncode, found.stderr), (1, b"ipcap: standard output: input and report are the same file\n"), "appended")
    with open(path, "rb") as file:
        harness.equal(file.read(), capture(frames), "the input")
    for report in ("/dev/full", "/nonexistent/x"):
        found = harness.run("defrag", "--report", report, path)
        words = "No space left on device" if report == "/dev/full" else "No such file or directory"
        harness.check(found[0] == 1 and found[2].endswith("ipcap: %s: %s\n" % (report, words)), found[2])
        harness.equal(found[1], wanted[1] if report == "/dev/full" else b"", "the capture")
    found = harness.run("defrag", "--report", "/nonexistent/\x1b[31m\u202ex", path)
    harness.equal(found[2], "ipcap: /nonexistent/\\x1b[31m\\xe2\\x80\\xaex: No such file or directory\n", "hidden characters")
    refuse_each(harness, ["defrag", "--report", os.devnull, harness.file(capture(frames[:6]))])
