"""Tests of `ipcap rewrite`. Changed packets are built here and by scapy, and read by tshark."""

import itertools
import random
import struct
import xml.etree.ElementTree

from blocks import interface, obsolete, option, packet, section, simple
from captures import *

NAMES = {0: ["hop-by-hop", "hopopt", "0", "0x0"], 43: ["routing", "route", "43", "0x2b"], 44: ["fragment", "frag", "44", "0x2C"],
         51: ["authentication", "ah", "51"], 60: ["destination-options", "dstopts", "60"]}
COVERED = "an authentication header that covers the change"
BROKEN = "with an integrity check value that no longer holds"


def frames_of(content, order="<"):
    """The frames of a classic capture, each with its time and its length before truncation."""
    found, at = [], 24
    while at < len(content):
        seconds, fraction, kept, length = struct.unpack(order + "IIII", content[at:at + 16])
        found.append((seconds, fraction, length, content[at + 16:at + 16 + kept]))
        at += 16 + kept
    return found


def arguments_for(numbers):
    return [word for number in numbers for word in ("--without", str(number))]


def rewrite(harness, frames, *numbers, options=()):
    """Runs `rewrite` on frames, each one second after the one before. Returns the frames that it writes, and its messages."""
    path = harness.file(capture(frames))
    found = harness.run("rewrite", *arguments_for(numbers), *options, path)
    harness.equal(found[0], 0, "status of rewrite", found[2])
    times = [(seconds, fraction) for seconds, fraction, _, _ in frames_of(found[1])]
    harness.equal(times, [(1000 + i, 5 + i) for i in range(len(frames))], "times")
    return [it for _, _, _, it in frames_of(found[1])], found[2].replace("ipcap: %s: " % path, "")


def message(count, text):
    """The message about so many packets, or none."""
    return "%d %s %s\n" % (count, "packet" if count == 1 else "packets", text) if count else ""


def with_reserved(numbers, bits, units=0, payload=UDP):
    """A packet of these headers. Of the reserved bits of its fragment headers (RFC 8200, section 4.5) and authentication headers (RFC
    4302, section 2.3) those are 1 that are in a number of 16 bits. Returns it, and whether there are any."""
    packet, at, is_set = bytearray(ipv6_chain(numbers, payload=payload, units=units)), 40, False
    for number in numbers:
        mask = {44: 0xff06, 51: 0xffff}.get(number, 0)
        packet[at + (1 if number == 44 else 2)] |= (bits & mask) >> 8
        packet[at + 3] |= bits & mask & 0xff
        is_set |= bits & mask != 0
        at += len(header(number, 0, units))
    return bytes(packet), is_set


def chains(most):
    """All chains of so many headers at most, of which only the first may be hop-by-hop options."""
    later = [43, 44, 51, 60]
    for count in range(most + 1):
        for numbers in itertools.product([0] + later, *[later] * (count - 1)) if count else [()]:
            yield list(numbers)


def is_covered(numbers, changed):
    """Whether an authentication header covers one of the headers with these indexes: any but a fragment header before it."""
    return 51 in numbers and any(numbers[i] != 44 or 51 in numbers[:i] for i in changed)


def indexes_of(numbers, left_out):
    return [i for i, number in enumerate(numbers) if number in left_out]


def with_bits(numbers, bits):
    """The indexes of the headers of which reserved bits are among these."""
    return [i for i, number in enumerate(numbers) if bits & {44: 0xff06, 51: 0xffff}.get(number, 0)]


def test_headers(harness):
    """Any headers are left out of any chain: alone, together, by name or by number."""
    for left_out in [[0], [43], [44], [51], [60], [0, 60], [60, 51, 0], [51, 43], [0, 43, 44, 51, 60]]:
        frames, wanted, covered = [], [], 0
        for numbers, units in itertools.product(chains(3), [0, 2]):
            kept = [it for it in numbers if it not in left_out]
            frames.append(ethernet(ipv6_chain(numbers, units=units)))
            is_refused = 51 in kept and is_covered(numbers, indexes_of(numbers, left_out))
            covered += is_refused
            wanted.append(frames[-1] if is_refused else ethernet(ipv6_chain(kept, units=units)))
        found = rewrite(harness, frames, *left_out)
        harness.equal(found[0], wanted, "chains without", left_out)
        harness.equal(found[1], message(covered, "unchanged: " + COVERED), "messages")
    frame = ethernet(ipv6_chain([0, 43, 44, 60]))
    for number, names in NAMES.items():
        for name in names:
            wanted = frame if number == 51 else ethernet(ipv6_chain([it for it in [0, 43, 44, 60] if it != number]))
            harness.equal(rewrite(harness, [frame], name)[0], [wanted], name)


def test_reserved_bits(harness):
    """Reserved bits of any headers of any chain are cleared, after headers were left out, also under an authentication header."""
    for left_out, bits, breaks in itertools.product([[], [60], [44], [51, 0]], [0, 0xffff, 0x0100, 2, 4, 0x00f9], [False, True]):
        frames, wanted, covered, broken = [], [], 0, 0
        for numbers in chains(3):
            kept = [it for it in numbers if it not in left_out]
            is_changed = kept != numbers or with_reserved(kept, bits)[1]
            frames.append(ethernet(with_reserved(numbers, bits)[0]))
            breaks_value = 51 in kept and (is_covered(numbers, indexes_of(numbers, left_out)) or is_covered(kept, with_bits(kept, bits)))
            wanted.append(ethernet(ipv6_chain(kept)) if is_changed and (breaks or not breaks_value) else frames[-1])
            covered += breaks_value and not breaks
            broken += breaks_value and breaks
        found = rewrite(harness, frames, *left_out, options=["--clear"] + ["--break-authentication"] * breaks)
        harness.equal(found[0], wanted, "reserved bits", bits, left_out)
        harness.equal(found[1], message(covered, "unchanged: " + COVERED) + message(broken, BROKEN), "messages", bits, left_out)
    frame = ethernet(ipv6_chain([0, 51]))
    found = rewrite(harness, [frame], 0, options=["--break-authentication"])
    harness.equal(found, ([ethernet(ipv6_chain([51]))], message(1, BROKEN)), "without --clear")
    long = [60] * 100 + [44]
    harness.equal(rewrite(harness, [ethernet(with_reserved(long, 1 << 15)[0])], options=["--clear"]), ([ethernet(ipv6_chain(long))], ""), "a long chain")


def test_reserved_bits_refused(harness):
    """Reserved bits that can't be cleared stay, and the packet is counted by its reason. Others of its kind without them aren't."""
    def rows(bits):
        second = ipv6(44, fragment(44, 0, 1) + bytes([17, bits]) + bytes(6) + UDP)
        covered = b"\x06\x04" + bytes([0, bits]) + authentication(0)[4:]
        return [(second, "a header in the part that is fragmented"),
                (ipv6(44, bytes([60, bits]) + bytes(6) + b"\x11\x09" + bytes(6)), "headers that are truncated or faulty"),
                (ipv6(44, bytes([17, bits]) + bytes(6) + UDP, 30), "bytes that are missing"),
                (ipv4(51, covered + TCP, 0x2000), "a header in the part that is fragmented"), (ipv4(51, covered + TCP), COVERED)]
    for refused_packet, reason in rows(1):
        frame = ethernet(refused_packet)
        harness.equal(rewrite(harness, [frame] * 2, options=["--clear"]), ([frame] * 2, message(2, "unchanged: " + reason)), reason)
    frames = [ethernet(it) for it, _ in rows(0)] + [ethernet(b"\x60"), ethernet(bytes(28), (), 0x0806)]
    harness.equal(rewrite(harness, frames, options=["--clear"]), (frames, ""), "no reserved bits")
    first = [ethernet(ipv6(44, bytes([60, bits, 0, bits & 6 | 1, 0, 0, 0, 7]) + options(17) + bytes(8))) for bits in (0xff, 0)]
    harness.equal(rewrite(harness, first[:1], options=["--clear"]), (first[1:], ""), "a first fragment")
    later = [ethernet(LATER_FRAGMENT[:41] + bytes([bits]) + LATER_FRAGMENT[42:]) for bits in (0xff, 0)]
    harness.equal(rewrite(harness, later[:1], options=["--clear"]), (later[1:], ""), "a later fragment")
    both = ethernet(ipv6(60, options(44) + fragment(44, 0, 1) + bytes([17, 1]) + bytes(6) + UDP))
    found = rewrite(harness, [both], 60, options=["--clear"])
    harness.equal(found, ([both], message(1, "unchanged: a header in the part that is fragmented")), "all changes or none")
    wrong, covered = bytearray(ethernet(ipv4(51, authentication(6) + TCP))), ethernet(ipv4(51, authentication(6) + TCP))
    wrong[24] ^= 1
    harness.equal(rewrite(harness, [bytes(wrong)], options=["--clear"]), ([bytes(wrong)], ""), "a wrong checksum that isn't the change's")
    wrong[36] = 1
    found = rewrite(harness, [bytes(wrong)], options=["--clear", "--break-authentication"])
    harness.equal(found, ([covered], message(1, BROKEN)), "IPv4")


def test_fragments(harness):
    """Each fragment loses the headers before its fragment header. Made whole, they are the packet without these headers."""
    payload = bytes(range(64))
    for left_out, before in [([0], [0]), ([60], [60, 43]), ([0, 43], [0, 60, 43])]:
        kept, chains = [it for it in before if it not in left_out], []
        for numbers in (before, kept):
            leading = [header(number, following) for number, following in zip(numbers, numbers[1:] + [44])]
            parts = [fragment(17, at // 8, at + 24 < len(payload)) + payload[at:at + 24] for at in range(0, len(payload), 24)]
            chains.append([ethernet(ipv6((numbers + [44])[0], b"".join(leading) + part)) for part in parts])
        harness.equal(rewrite(harness, chains[0], *left_out), (chains[1], ""), "fragments without", left_out)
        whole = [harness.run("defrag", harness.file(capture(frames))) for frames in chains]
        path = harness.file(whole[0][1])
        found = harness.run("rewrite", *arguments_for(left_out), path)
        harness.equal([it[3] for it in frames_of(found[1])], [it[3] for it in frames_of(whole[1][1])], "the whole packet without", left_out)
        harness.equal(len(frames_of(whole[1][1])), 1, "whole packets")
    covered = [ethernet(ipv6(0, options(44) + fragment(51, at, at == 0) + (authentication(17) + bytes(8) if at == 0 else bytes(8)))) for at in (0, 4)]
    harness.equal(rewrite(harness, covered, 0), (covered, message(2, "unchanged: " + COVERED)), "fragments of a covered packet")


def ordered(numbers):
    """The numbers of headers in the order that RFC 8200, section 4.1, recommends. Destination options before a routing header
    belong to it."""
    places = [1 if number == 60 and 43 in numbers[i:] else [0, 43, 44, 51, 60].index(number) for i, number in enumerate(numbers)]
    return [number for _, number in sorted(zip(places, numbers), key=lambda it: it[0])]


def test_orders(harness):
    """Any headers of any chain are put in order, after headers were left out and reserved bits cleared."""
    for left_out, bits, breaks in itertools.product([[], [60], [51, 0]], [0, 0xffff], [False, True]):
        frames, wanted, covered, broken = [], [], 0, 0
        for numbers in chains(4):
            kept = [it for it in numbers if it not in left_out]
            is_changed = kept != numbers or ordered(kept) != kept or with_reserved(kept, bits)[1]
            frames.append(ethernet(with_reserved(numbers, bits)[0]))
            breaks_value = 51 in kept and (is_covered(numbers, indexes_of(numbers, left_out)) or ordered(kept) != kept
                                           or is_covered(kept, with_bits(kept, bits)))
            wanted.append(ethernet(ipv6_chain(ordered(kept))) if is_changed and (breaks or not breaks_value) else frames[-1])
            covered += breaks_value and not breaks
            broken += breaks_value and breaks
        words = ["--in-order"] + ["--clear"] * (bits != 0) + ["--break-authentication"] * breaks
        found = rewrite(harness, frames, *left_out, options=words)
        harness.equal(found[0], wanted, "orders", bits, left_out)
        harness.equal(found[1], message(covered, "unchanged: " + COVERED) + message(broken, BROKEN), "messages", bits, left_out)
    tagged = [ipv6(60, options(60) + options(60, 1) + options(44, 2) + fragment(17) + UDP),
              ipv6(44, fragment(60) + options(60) + options(60, 1) + options(17, 2) + UDP)]
    harness.equal(rewrite(harness, [ethernet(tagged[0])], options=["--in-order"]), ([ethernet(tagged[1])], ""), "headers of one kind")


def test_orders_refused(harness):
    """A packet whose order can't be changed is counted by its reason. Others of its kind that are in order aren't."""
    def rows(one, other):
        first = ipv6(one, header(one, other) + header(other, 44) + fragment(60, 0, 1) + options(17) + bytes(8))
        later = ipv6(one, header(one, other) + header(other, 44) + LATER_FRAGMENT[40:])
        faulty = ipv6(one, header(one, other) + header(other, 60) + b"\x11\x09" + bytes(6))
        return [(first, "a header in the part that is fragmented"), (later, "a header in the part that is fragmented"),
                (faulty, "headers that are truncated or faulty"), (ipv6(one, header(one, other) + header(other, 17), 60), "bytes that are missing"),
                (ipv6_chain([one, other, 51]), COVERED)]
    for refused_packet, reason in rows(44, 43):
        frame = ethernet(refused_packet)
        harness.equal(rewrite(harness, [frame] * 2, options=["--in-order"]), ([frame] * 2, message(2, "unchanged: " + reason)), reason)
    frames = [ethernet(it) for it, _ in rows(43, 44)] + [ethernet(b"\x60"), ethernet(ipv4(51, authentication(6) + TCP))]
    harness.equal(rewrite(harness, frames, options=["--in-order"]), (frames, ""), "in order")


def test_other_bytes(harness):
    """All bytes but those of the header stay: of other packets, link layers, and after the packet."""
    plain, arp = ethernet(ipv6_chain([])), ethernet(bytes(28), (), 0x0806)
    wanted, packets = [plain, arp, b"\1\2", ethernet(b"\x60")], [plain, arp, b"\1\2", ethernet(b"\x60")]
    for after in range(0, 20, 3):
        padding = bytes(range(0xe0, 0xe0 + after))
        for tags in [(), (0x8100,), (0x88a8, 0x8100)]:
            packets.append(ethernet(ipv6_chain([0, 60]), tags, 0x86DD) + padding)
            wanted.append(ethernet(ipv6_chain([60]), tags, 0x86DD) + padding)
        packets.append(ethernet(ipv4(17, UDP)) + padding)
        wanted.append(packets[-1])
    harness.equal(rewrite(harness, packets, 0), (wanted, ""), "frames")
    ipv4_packets = [ethernet(ipv4(51, authentication(6) + TCP, words=words, option_bytes=bytes([1]) * 4 * (words - 5))) for words in (5, 7)]
    wanted = [ethernet(ipv4(6, TCP, words=words, option_bytes=bytes([1]) * 4 * (words - 5))) for words in (5, 7)]
    harness.equal(rewrite(harness, ipv4_packets, 51), (wanted, ""), "IPv4")
    unstated = bytearray(ethernet(ipv6_chain([0, 60])))
    unstated[18:20] = b"\0\0"
    harness.equal(rewrite(harness, [bytes(unstated)], 60), ([bytes(unstated)], message(1, "unchanged: a length that isn't stated")), "no length")
    for link_layer, head in [(RAW, b""), (NULL, struct.pack("<I", 10)), (IPV6, b""), (SLL, cooked(b"", 0x86DD)), (SLL2, cooked2(b"", 0x86DD))]:
        found = harness.run("rewrite", "--without", "0", content=capture([head + ipv6_chain([0])], link_layer))
        harness.equal(found, (0, capture([head + ipv6_chain([])], link_layer), "", None), "link layer", link_layer)


def test_jumbograms(harness):
    """The option of a jumbogram states its new length (RFC 2675, section 2). A packet that would be none any more stays as it is."""
    def jumbogram(next_header, following, stated=None):
        length = 8 + len(following) if stated is None else stated
        jumbo = struct.pack(">BBBBI", next_header, 0, 0xC2, 4, length)
        return capture([ethernet(ipv6(0, jumbo + following, 0))], snap_len=262144)

    payload = bytes(65600)
    old, new = jumbogram(60, options(253) + payload), jumbogram(253, payload)
    harness.equal(harness.run("rewrite", "--without", "60", content=old), (0, new, "", None), "the option")
    ends = "a jumbogram that would no longer be one"
    rows = [("0", old, ends), ("60", jumbogram(60, options(253) + payload[:65527]), ends),
            ("60", jumbogram(60, options(253) + payload, 65615), "a length that isn't stated")]
    for number, content, reason in rows:
        found = harness.run("rewrite", "--without", number, content=content)
        harness.equal(found[:2], (0, content), "a packet that stays", reason)
        harness.check(found[2].endswith(message(1, "unchanged: " + reason)), found[2])


def test_outputs(harness):
    """The same is written to a file, to standard output, and from standard input."""
    content, wanted = [capture([ethernet(ipv6_chain(numbers)), ethernet(ipv6_chain([]))]) for numbers in ([60], [])]
    path = harness.file(content)
    harness.equal(harness.run("rewrite", "--without=60", path), (0, wanted, "", None), "standard output")
    harness.equal(harness.run("rewrite", "-w", "{}", "--without", "60", path), (0, b"", "", wanted), "a file")
    harness.equal(harness.run("rewrite", "--without", "60", content=content), (0, wanted, "", None), "standard input")
    harness.equal(harness.run("rewrite", "--without", "60", "-", content=content[:-3])[0], 1, "a truncated capture")


def test_refused(harness):
    """Packets that can't be changed stay as they are, and are counted by reason."""
    first = ipv6(0, options(44) + fragment(60, 0, 1) + options(17) + bytes(8))
    rows = [([60], first, "a header in the part that is fragmented"), ([44], first, "the fragment header of a fragment"),
            ([0], ipv6(0, options(60) + b"\x11\x09" + bytes(6)), "headers that are truncated or faulty"),
            ([0], ipv6(0, options(17) + UDP, 30), "bytes that are missing"), ([0, 60], ipv6_chain([0, 51, 60]), COVERED),
            ([60, 44], first, "the fragment header of a fragment"), ([0, 60], first, "a header in the part that is fragmented"),
            ([51], ipv4(51, authentication(6) + TCP, 0x2000), "a header in the part that is fragmented"),
            ([51], ipv4(51, authentication(51) + bytes(24)), "a payload that would be read as a header")]
    for left_out, refused_packet, reason in rows:
        frame = ethernet(refused_packet)
        for count in (1, 2):
            found = rewrite(harness, [frame] * count, *left_out)
            harness.equal(found, ([frame] * count, message(count, "unchanged: " + reason)), left_out)
    frames = [ethernet(it) for left_out, it, _ in rows if 0 in left_out]
    found = rewrite(harness, frames, 0, 60)[1]
    harness.equal([line.split(" ", 1)[0] for line in found.splitlines()], ["1"] * 4, "reasons in order", found)
    harness.equal(rewrite(harness, [ethernet(first)], 0)[0], [ethernet(ipv6(44, fragment(60, 0, 1) + options(17) + bytes(8)))], "a first fragment")
    # packets without such a header aren't counted, whatever else is wrong with them
    frames = [ethernet(ipv6_chain([43]))[:50], ethernet(LATER_FRAGMENT), ethernet(b"\x50" * 40)]
    harness.equal(rewrite(harness, frames, 0), (frames, ""), "other packets")
    left = ipv6(43, b"\x11\x02\x04\x01\0\0\0\0" + bytes(15) + b"\x09" + UDP)
    found = rewrite(harness, [ethernet(left)], 43)
    harness.equal(found, ([ethernet(ipv6_chain([]))], "1 packet with a transport checksum that no longer holds\n"), "segments left")


def test_forms_of_files(harness):
    """Blocks of pcapng files keep their times, interfaces and comments."""
    comment = option(1, b"note") + struct.pack("<HH", 0, 0)
    for order, extra, words in itertools.product("<>", range(4), [["--without", "0"], ["--clear"]]):
        data, numbers = UDP + bytes(extra), [[0, 60], [60]] if words[1:] else [[44, 60]] * 2
        old, new = ethernet(with_reserved(numbers[0], 0x0302, payload=data)[0]), ethernet(ipv6_chain(numbers[1], payload=data))
        note = struct.pack(order + "HH4sHH", 1, 4, b"note", 0, 0)
        def blocks(frame, padding=b""):
            return (section(order) + interface(order=order) + interface(snap_len=96, order=order)
                    + packet(frame + padding, 1, 77, options=note, order=order) + packet(frame, 0, 78, order=order)
                    + obsolete(frame, 1, 79, order=order) + interface(RAW, order=order))
        for padding in (b"", b"\xee\xef"):
            found = harness.run("rewrite", *words, content=blocks(old, padding))
            harness.equal(found, (0, blocks(new, padding), "", None), "blocks", order, extra)
        whole = section(order) + interface(order=order)
        found = harness.run("rewrite", *words, content=whole + simple(old, order=order))
        harness.equal(found, (0, whole + simple(new, order=order), "", None), "simple packet block", order, extra)
    old, new = [ethernet(ipv6_chain(numbers)) for numbers in ([0, 60], [60])]
    head = section() + interface(snap_len=len(old) + 2)
    content = head + simple(old + bytes(9), len(old) + 2)
    found = harness.run("rewrite", "--without", "0", content=content)
    harness.equal(found[:2], (0, content), "a simple packet block that is truncated")
    harness.check("1 packet unchanged: bytes that are missing" in found[2], found[2])
    content, wanted = [head + packet(it + bytes(9), kept=len(it) + 2, options=comment) for it in (old, new)]
    harness.equal(harness.run("rewrite", "--without", "0", content=content), (0, wanted, "", None), "a truncated block")
    for magic, order in itertools.product((MICROSECONDS, NANOSECONDS), "<>"):
        content, wanted = [file_header(snap_len=90, magic=magic, order=order) + record(it + bytes(40), len(it) + 4, order=order) for it in (old, new)]
        found = harness.run("rewrite", "--without", "0", content=content)
        native = file_header(snap_len=90, magic=magic) + record(new + bytes(40), len(new) + 4)
        harness.equal(found, (0, native, "", None), "classic form", magic, order)


def random_packet(rng, left_out, clears, orders_them, breaks):
    """A frame, the one that is wanted, whether it is refused, and whether its authentication is broken: chains of any length."""
    numbers = [rng.choice([43, 60, 51, 60, 44]) for _ in range(rng.randint(0, 12))]
    numbers = [0] * rng.randint(0, 1) + numbers
    units, data = rng.randint(0, 3), UDP + rng.randbytes(rng.randint(0, 30))
    bits, padding = rng.choice([0, rng.getrandbits(16)]), bytes(rng.randint(0, 9))
    kept = [it for it in numbers if it not in left_out]
    old = ethernet(with_reserved(numbers, bits, units, data)[0]) + padding
    new = ordered(kept) if orders_them else kept
    breaks_value = 51 in kept and (is_covered(numbers, indexes_of(numbers, left_out)) or new != kept
                                   or clears and is_covered(kept, with_bits(kept, bits)))
    new = ethernet(with_reserved(new, 0 if clears else bits, units, data)[0]) + padding
    is_refused = breaks_value and not breaks
    return old, old if is_refused else new, is_refused, breaks_value and breaks


def test_random_packets(harness):
    """Random changes of random chains."""
    for seed in range(60):
        rng = random.Random(seed)
        clears, breaks, orders_them = seed % 3 == 0, seed % 2 == 0, seed % 5 < 2
        left_out = rng.sample([0, 43, 44, 51, 60], rng.randint(0 if clears or orders_them else 1, 5))
        rows = [random_packet(rng, left_out, clears, orders_them, breaks) for _ in range(200)]
        content = capture([row[0] for row in rows])
        command = harness.run if seed < 6 else lambda *words, content: harness.answer(harness.plain, words, content, None)
        words = arguments_for(left_out) + ["--clear"] * clears + ["--in-order"] * orders_them + ["--break-authentication"] * breaks
        found = command("rewrite", *words, content=content)
        harness.equal(found[1], capture([row[1] for row in rows]), "random chains", seed, words)
        count, broken = [sum(row[i] for row in rows) for i in (2, 3)]
        wanted = message(count, "unchanged: " + COVERED) + message(broken, BROKEN)
        harness.equal(found[2].replace("ipcap: standard input: ", ""), wanted, "messages", seed)


def packets_for_readers():
    """Packets with good checksums, and headers that tshark reads field by field."""
    from scapy.layers.inet import IP, TCP as ScapyTcp, UDP as ScapyUdp
    from scapy.layers.inet6 import (ICMPv6EchoRequest, IPv6, IPv6ExtHdrDestOpt, IPv6ExtHdrFragment, IPv6ExtHdrHopByHop,
                                    IPv6ExtHdrRouting, PadN, RouterAlert)
    from scapy.layers.ipsec import AH
    upper = [ScapyUdp(sport=5000, dport=9999) / b"payload", ScapyTcp(sport=5000, dport=80, flags="S"), ICMPv6EchoRequest(data=b"echo"),
             ScapyUdp(sport=5000, dport=9999) / bytes(97)]
    options_of = {0: lambda: IPv6ExtHdrHopByHop(options=[RouterAlert(), PadN(optdata=b"\0" * 4)]),
                  60: lambda: IPv6ExtHdrDestOpt(options=[PadN(optdata=b"\0" * 4)]), 43: lambda: IPv6ExtHdrRouting(addresses=[], segleft=0),
                  44: lambda: IPv6ExtHdrFragment(id=77)}

    def built(numbers, payload):
        found = IPv6(src="2001:db8::1", dst="2001:db8::2", fl=0x12345, tc=3)
        for number in numbers:
            found = found / options_of[number]()
        return bytes(found / payload)

    def built_ipv4(payload):
        """Returns a packet with an authentication header, and without it."""
        plain = IP(bytes(IP(src="192.0.2.1", dst="192.0.2.2", id=5) / payload))
        header = AH(nh=plain.proto, payloadlen=4, spi=9, seq=1, icv=bytes(12))
        return bytes(IP(src="192.0.2.1", dst="192.0.2.2", id=5) / header / bytes(plain.payload)), bytes(plain)
    return built, built_ipv4, upper


def reserved_in_scapy(payload, octet, bits):
    """Returns a packet whose fragment and authentication headers have reserved bits, and the packet in which they are 0."""
    from scapy.layers.inet6 import IPv6, IPv6ExtHdrFragment
    from scapy.layers.ipsec import AH
    base = IPv6(src="2001:db8::1", dst="2001:db8::2")
    plain = IPv6(bytes(base / payload))
    return [bytes(base / IPv6ExtHdrFragment(id=77, res1=octet * it, res2=bits * it)
                  / AH(nh=plain.nh, payloadlen=4, reserved=(octet << 8 | bits) * it, spi=9, seq=1, icv=bytes(12)) / bytes(plain.payload))
            for it in (1, 0)]


def test_scapy_agrees(harness):
    """What is written is what scapy builds without the header, checksums included."""
    built, built_ipv4, upper = packets_for_readers()
    for left_out in (0, 60, 43, 44):
        frames, wanted = [], []
        for payload in upper:
            for numbers in [[0], [0, 60], [60, 43], [0, 43, 44, 60], [44], [60, 0][::-1], [0, 60, 43, 44, 60]]:
                frames.append(ethernet(built(numbers, payload)))
                wanted.append(ethernet(built([it for it in numbers if it != left_out], payload)))
        harness.equal(rewrite(harness, frames, left_out), (wanted, ""), "as scapy builds them without", left_out)
    frames, wanted = zip(*[[ethernet(packet_bytes) for packet_bytes in built_ipv4(it)] for it in upper[:2]])
    harness.equal(rewrite(harness, list(frames), "ah"), (list(wanted), ""), "IPv4")
    frames, wanted = zip(*[map(ethernet, reserved_in_scapy(it, *bits)) for it in upper for bits in [(255, 3), (1, 0), (0, 1), (0, 2)]])
    harness.equal(rewrite(harness, list(frames), options=["--clear", "--break-authentication"])[0], list(wanted), "reserved bits")
    frames, wanted = zip(*[[ethernet(built(numbers, it)) for numbers in rows] for it in upper
                           for rows in [([60, 43], [60, 43]), ([44, 43], [43, 44]), ([0, 44, 60, 43], [0, 60, 43, 44]), ([60, 44], [44, 60])]])
    harness.equal(rewrite(harness, list(frames), options=["--in-order"]), (list(wanted), ""), "orders")


# what differs in a packet without a header, besides the fields of the header and the next header fields of others
OTHERWISE = {"frame.len", "frame.cap_len", "frame.protocols", "ipv6.plen", "ip.len", "ip.proto", "ip.checksum", "ip.checksum_calculated", "len", "caplen", ""}


def fields_of(harness, content, *header):
    """Returns the fields of each packet, as pairs of name and value, without those of some protocols and headers."""
    path = harness.file(content)
    found = harness.tshark(path, "-T", "pdml", "-o", "ip.check_checksum:TRUE", "-o", "udp.check_checksum:TRUE", "-o", "tcp.check_checksum:TRUE",
                           "-o", "ipv6.defragment:FALSE")

    def walk(node):
        name = node.get("name")
        if name in header:
            return []
        is_own = node.tag == "field" and name not in OTHERWISE and not name.endswith(".nxt")
        return [(name, node.get("show"))] * is_own + [it for child in node for it in walk(child)]
    packets = xml.etree.ElementTree.fromstring(found).findall("packet")
    return [[it for proto in one if proto.get("name") != "geninfo" for it in walk(proto)] for one in packets]


def test_tshark_agrees(harness):
    """tshark reads a packet as before, field by field, but for the header that was left out."""
    built, built_ipv4, upper = packets_for_readers()
    for left_out, name in [(0, "ipv6.hopopts"), (60, "ipv6.dstopts"), (43, "ipv6.routing"), (44, "ipv6.fraghdr")]:
        chains_of = [[0, 60], [0], [left_out], [0, 43, 60], [44, 60], [60]]
        content = capture([ethernet(built(numbers, payload)) for payload in upper for numbers in chains_of])
        written = harness.run("rewrite", *arguments_for([left_out]), content=content)[1]
        before, after = fields_of(harness, content, name), fields_of(harness, written, name)
        harness.equal(len(after), len(before), "number of packets")
        for one, other in zip(before, after):
            harness.equal(other, one, "fields without", name)
        harness.check(name.encode() not in harness.tshark(harness.file(written), "-T", "pdml"), name, "is still there")
        harness.check(all(("udp.checksum.status", "1") in it or ("tcp.checksum.status", "1") in it or ("icmpv6.checksum.status", "1") in it
                          for it in after), "checksums")
    content = capture([ethernet(built_ipv4(it)[0]) for it in upper[:2]])
    written = harness.run("rewrite", "--without", "ah", content=content)[1]
    before, after = fields_of(harness, content, "ah"), fields_of(harness, written)
    harness.equal(after, before, "fields of IPv4 packets")
    harness.check(all(("ip.checksum.status", "1") in it for it in after), "checksums of IPv4 headers")
    reserved = ["ipv6.fraghdr.reserved_octet", "ipv6.fraghdr.reserved_bits", "ah.reserved"]
    content = capture([ethernet(reserved_in_scapy(it, 255, 3)[0]) for it in upper])
    written = harness.run("rewrite", "--clear", "--break-authentication", content=content)[1]
    before, after = fields_of(harness, content, *reserved), fields_of(harness, written, *reserved)
    harness.equal(after, before, "fields but for reserved bits")
    names = [word for name in reserved for word in ("-e", name)]
    found = [harness.tshark(harness.file(it), "-T", "fields", *names) for it in (content, written)]
    harness.equal([set(it.split()) for it in found], [{b"0xff", b"3", b"ff03"}, {b"0x00", b"0", b"0000"}], "reserved bits")
    content = capture([ethernet(built(numbers, it)) for it in upper for numbers in [[44, 43], [0, 44, 60, 43], [60, 44]]])
    written = harness.run("rewrite", "--in-order", content=content)[1]
    before, after = fields_of(harness, content), fields_of(harness, written)
    harness.equal([sorted(it) for it in after], [sorted(it) for it in before], "fields in another order")
    protocols = harness.tshark(harness.file(written), "-T", "fields", "-e", "frame.protocols").decode().split()
    wanted = ["ipv6.routing:ipv6.fraghdr", "ipv6.hopopts:ipv6.dstopts:ipv6.routing:ipv6.fraghdr", "ipv6.fraghdr:ipv6.dstopts"]
    harness.check(len(protocols) == len(upper) * 3 and all(":ipv6:%s:" % it in found for it, found in zip(wanted * len(upper), protocols)),
                  "orders as tshark finds them", protocols)


def test_wrong_usage(harness):
    """What `rewrite` refuses."""
    path = harness.file(capture([]))
    for arguments in [["--without"], ["--without", "0", "a", "b"], ["--without", "0", "-c", "1"], ["--clear=0", path]]:
        harness.equal(harness.run("rewrite", *arguments)[0], 2, "status of", arguments)
    for arguments in [[], [path], ["--break-authentication", path]]:
        found = harness.run("rewrite", *arguments)
        harness.check(found[0] == 2 and "--without, --clear or --in-order is missing" in found[2], arguments, found)
    for name in ["", "17", "tcp", "256", "-1", "0 or ip", "0)", "esp", "h", "hop-by-hop ", " 0", "0,60", "x" * 100, "044"]:
        found = harness.run("rewrite", "--without", name, path)
        harness.equal(found[0], 2, "status of --without", name)
        harness.check("--without must be an extension header" in found[2], found[2])
    found = harness.run("rewrite", "--without", "0", "-w", path, path)
    harness.equal(found[0], 1, "the input as output")
    harness.check("input and output are the same file" in found[2], found[2])
    harness.equal(harness.run("rewrite", "--without", "0", "-w", "/nonexistent/x", path)[0], 1, "an output that can't be opened")
    harness.equal(harness.run("rewrite", "--without", "0", "/nonexistent/x")[0], 1, "an input that can't be opened")
    harness.equal(harness.run("rewrite", "--without", "0", path), (0, capture([]), "", None), "an empty capture")
