"""Tests of `ipcap stat --tunnels`. Headers of tunnels were written by hand from the standards."""

import collections
import csv
import json
import random
import xml.etree.ElementTree as ElementTree

from captures import *
from expected import COUNTS, TABLES, statistics
from test_stat import chain_in, random_frames
from test_sum import refuse
from test_use import LONG, refuse_each

SIX, FOUR = ipv6_chain([0, 43], 6, TCP), ipv4(51, authentication(17) + UDP)
IN_SIX, IN_FOUR = "IPv6 0,43 -> 6", "IPv4 51 -> 17"
ARP = ethernet(bytes(28), (), 0x0806)
PORTS = {"GTP-U": 2152, "VXLAN": 4789, "Geneve": 6081}
# GTP-U: sequence number, N-PDU number, and the type of the first extension header; then a PDCP PDU number of 4 bytes
# (type 0xc0), and a PDU session container of 8 (type 0x85), each with the type of the next.
NO_EXTENSION, SESSION = b"\0\1\2\0", b"\0\1\2\x85" + b"\2\0\0\0\0\0\0\0"
TWO_EXTENSIONS = b"\0\1\2\xc0" + b"\1\0\0\x85" + b"\2\0\0\0\0\0\0\0"
# Geneve: an option of class 0x0102 and type 3 with 4 bytes, and one without any
GENEVE_OPTIONS = b"\1\2\3\1data" + b"\1\2\4\0"
LABELS = b"\0\1\0\x40" + b"\0\1\1\x40"


def over_udp(tunnel, payload, outer=ipv4, **parts):
    return outer(17, udp(PORTS[tunnel], payload, **parts))


def gre_packets():
    for bits in range(8):
        flags = (bits & 4) << 13 | (bits & 3) << 12
        yield ipv4(47, gre(0x86DD, SIX, flags)), ["IPv4 GRE > " + IN_SIX]
    yield ipv4(47, gre(0x0800, FOUR, 0x03F8)), ["IPv4 GRE > " + IN_FOUR]
    yield ipv6(60, options(47) + gre(0x6558, ethernet(SIX), 0x2000)), ["IPv6 60 GRE > " + IN_SIX]
    yield ipv4(47, gre(0x6558, ethernet(FOUR, (0x88A8, 0x8100)))), ["IPv4 GRE > " + IN_FOUR]
    yield ipv4(47, gre(0x8847, LABELS + FOUR)), ["IPv4 GRE > " + IN_FOUR]
    yield ipv4(47, gre(0x6558, ARP)), ["EtherType 0x0806"]
    yield ipv4(47, gre(0x2001, bytes(20))), ["EtherType 0x2001"]
    yield ipv4(47, gre(0, b"")), ["EtherType 0x0000"]
    yield ipv4(47, gre(0x6558, ARP[:13])), ["other"]


def gtp_u_packets():
    for flags, optional in [(0x30, b""), (0x38, b""), (0x32, NO_EXTENSION), (0x31, b"\0\1\2\x85"), (0x34, NO_EXTENSION),
                            (0x37, NO_EXTENSION), (0x34, SESSION), (0x34, TWO_EXTENSIONS)]:
        yield over_udp("GTP-U", gtp_u(SIX, flags, optional=optional), ipv6), ["IPv6 GTP-U > " + IN_SIX]
    yield over_udp("GTP-U", gtp_u(FOUR)), ["IPv4 GTP-U > " + IN_FOUR]
    yield over_udp("GTP-U", gtp_u(SIX, length=48)), ["IPv4 GTP-U > IPv6 0 -> 43 truncated"]
    yield over_udp("GTP-U", gtp_u(SIX, length=9999)), ["IPv4 GTP-U > " + IN_SIX]
    yield over_udp("GTP-U", gtp_u(ARP)), ["other"]
    yield over_udp("GTP-U", gtp_u(b"")), ["other"]


def vxlan_packets():
    for flags in [0x08, 0xFF]:
        yield over_udp("VXLAN", vxlan(ethernet(SIX), flags)), ["IPv4 VXLAN > " + IN_SIX]
    yield over_udp("VXLAN", vxlan(ethernet(FOUR, (0x8100,))), ipv6), ["IPv6 VXLAN > " + IN_FOUR]
    yield over_udp("VXLAN", vxlan(ethernet(LABELS + FOUR, (0x8100,), 0x8847))), ["IPv4 VXLAN > " + IN_FOUR]
    yield over_udp("VXLAN", vxlan(ethernet(b"\xaa\xaa\x03\0\0\0\x08\0" + FOUR, (), 60))), ["IPv4 VXLAN > " + IN_FOUR]
    yield over_udp("VXLAN", vxlan(ARP)), ["EtherType 0x0806"]
    yield over_udp("VXLAN", vxlan(ethernet(b"\x42\x42\x03", (), 38))), ["LLC 0x42"]
    yield over_udp("VXLAN", vxlan(b"")), ["other"]


def geneve_packets():
    for flags in [0, 0x40, 0x7F]:
        yield over_udp("Geneve", geneve(0x86DD, SIX, flags=flags)), ["IPv4 Geneve > " + IN_SIX]
    yield over_udp("Geneve", geneve(0x6558, ethernet(FOUR), GENEVE_OPTIONS), ipv6), ["IPv6 Geneve > " + IN_FOUR]
    yield over_udp("Geneve", geneve(0x0800, FOUR, bytes(252))), ["IPv4 Geneve > " + IN_FOUR]
    yield over_udp("Geneve", geneve(0x6558, ethernet(SIX, (0x8100,)))), ["IPv4 Geneve > " + IN_SIX]
    yield over_udp("Geneve", geneve(0x6558, ARP)), ["EtherType 0x0806"]
    yield over_udp("Geneve", geneve(0x0806, bytes(28))), ["EtherType 0x0806"]


def outer_packets():
    """Yields tunnels in packets of each kind: with extension headers, fragments, other lengths, and in other tunnels."""
    for outer, version in [(ipv4, 4), (ipv6, 6)]:
        yield outer(4, FOUR), ["IPv%d > %s" % (version, IN_FOUR)]
        yield outer(41, SIX), ["IPv%d > %s" % (version, IN_SIX)]
        yield outer(41, FOUR), ["IPv%d > %s" % (version, IN_FOUR)]
        yield outer(51, authentication(41) + SIX), ["IPv%d 51 > %s" % (version, IN_SIX)]
        yield outer(4, b"\x50" + FOUR[1:]), ["no header"]
        yield outer(4, b""), ["no header"]
        yield outer(17, udp(4789, vxlan(ethernet(SIX)), length=8 + 8 + 14 + 48)), \
            ["IPv%d VXLAN > IPv6 0 -> 43 truncated" % version]
        yield outer(17, udp(4789, vxlan(ethernet(SIX)), length=9999)), ["IPv%d VXLAN > %s" % (version, IN_SIX)]
    yield ipv6(17, udp(4789, vxlan(ethernet(SIX)), length=0)), ["IPv6 VXLAN > " + IN_SIX]
    yield ipv6(44, fragment(47) + gre(0x86DD, SIX)), ["IPv6 44 GRE > " + IN_SIX]
    yield ipv6(44, fragment(47, 0, 1) + gre(0x86DD, SIX)[:52]), ["IPv6 44 GRE > IPv6 0 -> 43 truncated"]
    yield ipv4(47, gre(0x86DD, SIX)[:44], 0x2000), ["IPv4 GRE > IPv6 -> 0 truncated"]
    yield ipv4(47, gre(0x86DD, SIX), total_len=20 + 4 + 40), ["IPv4 GRE > IPv6 -> 0 truncated"]
    yield ipv4(41, ipv6(60, options(0) + options(17) + UDP)), ["IPv4 > IPv6 60 -> 0 fault"]
    yield ipv4(41, ipv6(0, options(43) + routing(47) + gre(0x0800, ipv4(4, FOUR)))), \
        ["IPv4 > IPv6 0,43 -> 47", "IPv4 > IPv6 0,43 GRE > IPv4 -> 4", "IPv4 > IPv6 0,43 GRE > IPv4 > " + IN_FOUR]
    yield over_udp("VXLAN", vxlan(ethernet(over_udp("Geneve", geneve(0x6558, ethernet(over_udp("GTP-U", gtp_u(SIX)))),
                                                    ipv6)))), \
        ["IPv4 VXLAN > IPv6 -> 17", "IPv4 VXLAN > IPv6 Geneve > IPv4 -> 17",
         "IPv4 VXLAN > IPv6 Geneve > IPv4 GTP-U > " + IN_SIX]
    yield over_udp("VXLAN", vxlan(ethernet(ipv4(47, gre(0x6558, ARP))))), ["IPv4 VXLAN > IPv4 -> 47", "EtherType 0x0806"]


def followed_packets():
    """Yields packets with the chain or the protocol of each thing that tunnels in them carry."""
    for packets in [gre_packets, gtp_u_packets, vxlan_packets, geneve_packets, outer_packets]:
        yield from packets()


def other_packets():
    """Yields packets in which there is no tunnel, or none that is followed."""
    yield from [ipv4(17, UDP), ipv6(58, FOUR), ipv4(50, FOUR), ipv4(0, FOUR), ipv4(137, LABELS + FOUR)]
    frames = {4789: vxlan(ethernet(SIX)), 2152: gtp_u(SIX), 6081: geneve(0x86DD, SIX)}
    for port, payload in frames.items():
        for other in [0, 53, port - 1, port + 1]:
            yield ipv4(17, udp(other, payload, source=port))
        yield ipv4(136, udp(port, payload))
        yield from (ipv4(17, udp(port, payload, length=length)) for length in range(8))
        yield from (ipv6(17, udp(port, payload, length=length)) for length in range(1, 8))
        yield ipv4(17, udp(port, payload)[8:], 1)
        yield ipv6(44, fragment(17, 1, 1) + udp(port, payload))
    # version 1 of GRE is that of PPTP, and the bits of RFC 1701 come with source routes
    yield from (ipv4(47, gre(0x86DD, SIX, flags)) for flags in [1, 2, 4, 7, 0x4000, 0x0800, 0x0400, 0x7000])
    yield from (ipv4(number, payload, 1) for number, payload in [(4, FOUR), (41, SIX), (47, gre(0x86DD, SIX))])
    yield from (over_udp("GTP-U", gtp_u(SIX, flags)) for flags in [0x10, 0x50, 0x70, 0xF0, 0x20, 0x00])
    yield from (over_udp("GTP-U", gtp_u(SIX, message=message)) for message in [0, 1, 2, 26, 31, 254])
    yield over_udp("GTP-U", gtp_u(b"\0" + SIX, 0x34, optional=b"\0\1\2\x85"))
    yield over_udp("GTP-U", gtp_u(SIX, 0x34, optional=b"\0\1\2\x85" + b"\xff\0\0\0"))
    yield from (over_udp("GTP-U", gtp_u(SIX, 0x34, optional=TWO_EXTENSIONS, length=length)) for length in range(16))
    yield from (over_udp("VXLAN", vxlan(ethernet(SIX), flags)) for flags in [0, 0xF7])
    yield from (over_udp("Geneve", geneve(0x86DD, SIX, version=version)) for version in [1, 2, 3])
    yield from (over_udp("Geneve", geneve(0x86DD, SIX, flags=flags)) for flags in [0x80, 0xC0])
    yield over_udp("Geneve", b"\x3f" + geneve(0x86DD, SIX)[1:])
    yield from [ipv6(60, options(0) + options(4) + FOUR), ipv4(51, bytes(24) + FOUR), ipv4(4, FOUR, total_len=19),
                ipv6(60, options(41) + SIX, payload_len=7), ipv6(60, b"\x29", payload_len=40)]


def follow(harness, packets):
    """Returns for each packet how many things tunnels carry in its first 0, 1 and so on bytes, and the text of each in
    all bytes. Each is in memory that ends after it."""
    content = "".join(packet.hex() + ".\n" for packet in packets).encode()
    answers = [harness.answer(command, [], content, None) for command in harness.commands("follow")]
    for answer in answers:
        harness.equal(answer, (0, answers[0][1], "", None), "tunnels")
    found = []
    for line in answers[0][1].decode().splitlines():
        counts, *texts = line.split(";")
        found.append((list(map(int, counts.split())), texts))
    return found


def inner_in(found):
    """Returns the statistics of what tunnels carry, with the names of those of frames."""
    return {name[6:]: value for name, value in found.items() if name.startswith("inner_")}


def outer_in(found):
    return {name: value for name, value in found.items() if not name.startswith("inner_")}


def inner_statistics(**parts):
    """Returns the expected statistics of what tunnels carry."""
    wanted = statistics(**parts)
    del wanted["version"]
    return wanted


def test_followed(harness):
    """What each tunnel carries is found, and nothing where there is none."""
    packets, wanted = zip(*followed_packets())
    others = list(other_packets())
    for packet, texts, (_, found) in zip(packets, wanted, follow(harness, packets)):
        harness.equal(found, texts, "packet", packet.hex())
    for packet, (counts, _) in zip(others, follow(harness, others)):
        harness.equal(set(counts), {0}, "packet", packet.hex())
    content = capture([*packets, *others], RAW)
    found, errors = harness.stat("--tunnels", content=content)
    texts = [text for each in wanted for text in each]
    chains = collections.Counter(text for text in texts if text.startswith("IPv"))
    protocols = collections.Counter(text for text in texts if text.startswith(("other", "EtherType ", "LLC ")))
    inner = inner_in(found)
    harness.equal((inner["chains"], inner["other_protocols"], inner["without_header"], errors),
                  (chains, protocols, texts.count("no header"), ""), "all packets")
    harness.equal(outer_in(found), harness.stat(content=content)[0], "the outer packets")
    harness.equal(harness.stat("--tunnels", content=capture(others, RAW))[0],
                  {**harness.stat(content=capture(others, RAW))[0],
                   **{"inner_" + name: value for name, value in inner_statistics().items()}}, "no tunnels")


def test_counted(harness):
    """All counts of what tunnels carry."""
    frames = [ethernet(ipv4(47, gre(0x86DD, SIX))), ethernet(ipv6(44, fragment(4) + FOUR)),
              ethernet(over_udp("VXLAN", vxlan(ARP))), ethernet(ipv4(4, ipv6(44, fragment(17, 5, 1) + UDP))),
              ethernet(ipv4(41, ipv6(60, options(0) + options(17) + UDP))), ethernet(ipv4(47, gre(0x0800, b"\x50" + FOUR))),
              ethernet(ARP[14:], (), 0x0806), ethernet(ipv4(4, ipv4(17, UDP, 0x2000))), ethernet(ipv4(6, TCP))]
    cut = ethernet(over_udp("GTP-U", gtp_u(ipv4(41, SIX))))
    content = capture(frames) + record(cut, len(cut) - len(TCP) - 9)
    found, errors = harness.stat("--tunnels", content=content)
    wanted = inner_statistics(
        other_frames=1, truncated_frames=2, packets=8, without_header=1, ipv4=3, ipv6=4, at_payload=4, at_later_fragment=1,
        at_truncated_header=1, at_fault=2, first_fragments=1, middle_fragments=1, incomplete=2, mismatched=1,
        payload_bytes=len(TCP) + len(UDP) + len(UDP) + len(UDP) + 47,
        other_protocols={"EtherType 0x0806": 1},
        chains={"IPv4 GRE > IPv6 0,43 -> 6": 1, "IPv6 44 > IPv4 51 -> 17": 1, "IPv4 > IPv6 44 -> 17": 1,
                "IPv4 > IPv6 60 -> 0 fault": 1, "IPv4 > IPv4 -> 17": 1, "IPv4 GTP-U > IPv4 -> 41": 1,
                "IPv4 GTP-U > IPv4 > IPv6 -> 0 truncated": 1},
        chain_headers={"0": 3, "1": 3, "2": 1}, chain_bytes={"0": 3, "8": 2, "16": 1, "24": 1},
        headers={"0": 1, "43": 1, "44": 1, "51": 1, "60": 1}, payload_numbers={"6": 1, "17": 2, "41": 1},
        later_fragment_numbers={"17": 1}, truncated_headers={"hop-by-hop": 1},
        faults={"not-at-start hop-by-hop": 1, "unsupported-version IP-header": 1})
    harness.equal((inner_in(found), errors), (wanted, ""), "all counts")
    names = ["version", *COUNTS, *TABLES, *("inner_" + name for name in COUNTS + TABLES)]
    harness.equal(list(found), names, "the order of the members")
    harness.equal(outer_in(found), harness.stat(content=content)[0], "the outer packets")


def nested(*makers):
    """Returns a packet in tunnels: each maker makes a packet of another."""
    packet = SIX
    for make in makers:
        packet = make(packet)
    return packet


def test_depths(harness):
    """Tunnels are followed up to seven deep, and a chain with its path has room for 64 headers, two less per tunnel."""
    four, six = (lambda packet: ipv4(41, packet)), (lambda packet: ipv6(4 if packet[0] >> 4 == 4 else 41, packet))
    for depth in [1, 6, 7, 8, 60]:
        found, _ = harness.stat("--tunnels", content=capture([nested(*[four] * depth)], RAW))
        chains = {"IPv4 > " * level + "IPv4 -> 41": 1 for level in range(1, min(depth, 8))}
        if depth < 8:
            chains["IPv4 > " * depth + IN_SIX] = 1
        harness.equal((found["inner_chains"], found["inner_packets"]), (chains, min(depth, 7)), "depth", depth)

    def with_chain(count):
        return lambda packet: ipv6((60 if count else 41), chain([60] * count, 41) + packet)
    for packet, text, count in [(SIX, IN_SIX, 60), (ipv6(17, UDP), "IPv6 -> 17", 62)]:
        fitting = "IPv6 %s > %s" % (",".join(["60"] * count), text)
        for longer, name in [(0, fitting), (1, "other"), (2, "other"), (400, "other")]:
            found, _ = harness.stat("--tunnels", content=capture([with_chain(count + longer)(packet)], RAW))
            harness.equal(found["inner_chains"], {name: 1}, count + longer, "headers before", text)
    for count, chains in [(62, {"IPv6 > IPv6 %s -> 41" % ",".join(["60"] * 62): 1, "other": 1}), (63, {"other": 2})]:
        found, _ = harness.stat("--tunnels", content=capture([nested(with_chain(count), six)], RAW))
        harness.equal(found["inner_chains"], chains, count, "headers in a tunnel")
    vxlans = nested(with_chain(2), *[lambda packet: over_udp("VXLAN", vxlan(ethernet(packet)), ipv6)] * 6)
    found, _ = harness.stat("--tunnels", content=capture([vxlans], RAW))
    harness.equal(max(found["inner_chains"], key=len), "IPv6 VXLAN > " * 6 + "IPv6 60,60 > " + IN_SIX, "six times VXLAN")


def longest_text():
    """Returns the longest name of a chain in tunnels."""
    numbers = ",".join(["255"] * 50)
    return "IPv6 Geneve > " * 7 + "IPv6 " + numbers + " -> 255 truncated"


def test_truncated(harness):
    """No byte after a truncated packet is read, and a tunnel is found where all its headers are there."""
    cases = [(ipv4(47, gre(0x86DD, SIX, 0xB000)), [36]), (over_udp("VXLAN", vxlan(ethernet(FOUR))), [36]),
             (over_udp("GTP-U", gtp_u(SIX, 0x34, optional=TWO_EXTENSIONS)), [28 + 24]),
             (over_udp("Geneve", geneve(0x0800, FOUR, GENEVE_OPTIONS), ipv6), [48 + 20]),
             (ipv6(60, options(4) + ipv4(47, gre(0x0800, FOUR))), [48, 72])]
    for (packet, bounds), (counts, _) in zip(cases, follow(harness, [packet for packet, _ in cases])):
        wanted = [sum(length >= bound for bound in bounds) for length in range(len(packet) + 1)]
        harness.equal(counts, wanted, "packet", packet.hex())
    records = b"".join(record(ethernet(packet), kept) for packet, _ in cases for kept in range(len(ethernet(packet)) + 1))
    found, errors = harness.stat("--tunnels", content=file_header() + records)
    harness.equal((found["inner_faults"], errors), ({}, ""), "faults")


def test_hostile(harness):
    """No byte after a packet is read, whatever follows the headers of a tunnel, and counts add up."""
    draw, packets = random.Random(11), []
    headers = [(4, b""), (41, b""), (47, gre(0x6558, b"", 0xB000)), (47, gre(0x86DD, b""))]
    headers += [(17, udp(port, b"", length=0)) for port in PORTS.values()]
    for number, header in headers:
        for length in [*range(30), 60, 120, 300]:
            packets += [outer(number, header + draw.randbytes(length)) for outer in (ipv4, ipv6)]
    for packet, _ in followed_packets():
        for _ in range(6):
            changed = bytearray(packet)
            for _ in range(draw.choice([1, 2, 5])):
                changed[draw.randrange(len(changed))] = draw.choice([0, 1, 4, 255, draw.randrange(256)])
            packets.append(bytes(changed))
    harness.equal(len(follow(harness, packets)), len(packets), "hostile packets")
    content = capture([ethernet(packet) for packet in packets], snap_len=150)
    found = harness.run("stat", "--json", "--tunnels", content=content)
    harness.equal(harness.run("sum", "--json", content=found[1]), found, "the sum")
    harness.equal(outer_in(json.loads(found[1])), harness.stat(content=content)[0], "the outer packets")


def random_tunnels(count, seed, parts):
    """Returns frames with random tunnels of at most `parts` packets."""
    draw = random.Random(seed)
    gtp_u_heads = [(0x30, 255), (0x32, 255, NO_EXTENSION), (0x34, 255, SESSION)]
    makers = [lambda packet: (4 if packet[0] >> 4 == 4 else 41, packet),
              lambda packet: (47, gre(0x86DD if packet[0] >> 4 == 6 else 0x0800, packet, draw.choice([0, 0x2000, 0xB000]))),
              lambda packet: (47, gre(0x6558, ethernet(packet, draw.choice([(), (0x8100,)])), 0x2000)),
              lambda packet: (17, udp(2152, gtp_u(packet, *draw.choice(gtp_u_heads)))),
              lambda packet: (17, udp(4789, vxlan(ethernet(packet, draw.choice([(), (0x8100,), (0x88A8, 0x8100)]))))),
              lambda packet: (17, udp(6081, geneve(0x6558, ethernet(packet), draw.choice([b"", GENEVE_OPTIONS]))))]

    def outer(number, payload):
        kind = draw.randrange(4)
        if kind == 0:
            return ipv4(number, payload)
        if kind == 1:
            return ipv4(51, authentication(number) + payload)
        return ipv6_chain([draw.choice([43, 44, 51, 60]) for _ in range(draw.randrange(4))], number, payload)
    frames = []
    for _ in range(count):
        packet = outer(*draw.choice([(17, UDP), (6, TCP), (59, b"")]))
        for _ in range(draw.randrange(parts)):
            packet = outer(*draw.choice(makers)(packet))
        frames.append(ethernet(packet))
    return frames


TUNNEL_LAYERS = {"gre": "GRE ", "gtp": "GTP-U ", "vxlan": "VXLAN ", "geneve": "Geneve "}


def chains_in(packet):
    """Returns the chain of each IP packet that tshark finds within a packet, with its path."""
    levels, tunnels = [], []
    for layer in packet.findall("proto"):
        if layer.get("name") in ("ip", "ipv6"):
            levels.append(ElementTree.Element("packet"))
            levels[-1].append(packet.find("proto[@name='geninfo']"))
            tunnels.append("")
        elif layer.get("name") in TUNNEL_LAYERS:
            tunnels[-1] = TUNNEL_LAYERS[layer.get("name")]
        if levels:
            levels[-1].append(layer)
    path, found = "", []
    for level, tunnel in zip(levels, tunnels):
        text = chain_in(level)
        if text:
            found.append(path + text)
            path += text.partition("->")[0] + tunnel + "> "
    return found


def compare_with_tshark(harness, content, least):
    """Compares the chains in tunnels of a capture, with at least so many different ones."""
    path = harness.file(content)
    fragments_off = ["-o", "ipv6.defragment:FALSE", "-o", "ip.defragment:FALSE"]
    packets = ElementTree.fromstring(harness.tshark(path, *fragments_off, "-T", "pdml")).iter("packet")
    chains = collections.Counter(chain for packet in packets for chain in chains_in(packet)[1:])
    found, _ = harness.stat("--tunnels", path)
    harness.check(len(chains) >= least, "chains that tshark finds:", len(chains))
    harness.equal(found["inner_chains"], chains, "what tshark finds")


def test_tshark_agrees(harness):
    """tshark finds the same packets in tunnels: nested ones, in first fragments, and at every snap length."""
    made = [packet for packets in [gre_packets, gtp_u_packets, vxlan_packets, geneve_packets] for packet, _ in packets()]
    compare_with_tshark(harness, capture([ethernet(packet) for packet in made]), 11)
    compare_with_tshark(harness, capture(random_tunnels(300, 1, 3)), 100)
    compare_with_tshark(harness, capture(random_tunnels(100, 2, 8)), 100)
    fragments = [ipv4(47, gre(0x86DD, SIX)[:44], 0x2000), ipv6(44, fragment(47, 0, 1) + gre(0x86DD, SIX)[:52]),
                 ipv4(17, udp(4789, vxlan(ethernet(SIX)))[:88], 0x2000), ipv4(41, SIX[8:], 1), LATER_FRAGMENT,
                 ipv6(44, fragment(4, 1, 0) + FOUR), ipv6(44, fragment(4) + FOUR)]
    compare_with_tshark(harness, capture([ethernet(packet) for packet in fragments]), 4)
    for packet, _, first in [(ipv4(47, gre(0x86DD, ipv6_chain([0, 43, 60]), 0xB000)), 0, 36 + 40),
                             (over_udp("VXLAN", vxlan(ethernet(FOUR)), ipv6), 0, 56 + 14 + 20)]:
        frame = ethernet(packet)
        records = [record(frame, kept) for kept in range(14 + first, len(frame) + 1)]
        compare_with_tshark(harness, file_header() + b"".join(records), 1)


def test_sums(harness):
    """Statistics with and without tunnels add up, and all forms of output have those of tunnels."""
    frames = random_tunnels(80, 4, 4) + random_frames(40, 5)
    whole = harness.run("stat", "--json", "--tunnels", content=capture(frames))[1]
    files = [harness.file(capture(frames[start:start + 30])) for start in range(0, 120, 30)]
    parts = [harness.run("stat", "--json", "--tunnels", file)[1] for file in files]
    for jobs in ["1", "3"]:
        harness.equal(harness.run("stat", "--json", "--tunnels", "-j", jobs, *files), (0, whole, "", None), "-j", jobs)
    harness.equal(harness.run("sum", "--json", content=b"".join(parts[::-1])), (0, whole, "", None), "the sum")
    harness.equal(harness.run("sum", content=whole), harness.run("stat", "--tunnels", *files), "tables")
    harness.equal(harness.run("sum", "--top", "2", content=whole), harness.run("stat", "--tunnels", "--top", "2", *files),
                  "--top")
    spread = json.dumps(json.loads(whole), indent=1, sort_keys=True).encode()
    harness.equal(harness.run("sum", "--json", content=spread), (0, whole, "", None), "members in another order")
    apart = harness.run("stat", "--json", "--tunnels", "--per-file", *files)[1]
    harness.equal([inner_in(json.loads(line)) for line in apart.splitlines()],
                  [inner_in(json.loads(part)) for part in parts], "--per-file")
    harness.equal(harness.run("sum", "--json", content=apart), (0, whole, "", None), "the sum of files")
    plain = harness.run("stat", "--json", files[0])[1]
    found = json.loads(harness.run("sum", "--json", content=plain + parts[1])[1])
    harness.equal(inner_in(found), inner_in(json.loads(parts[1])), "a part without tunnels")
    harness.equal(found["packets"], json.loads(plain)["packets"] + json.loads(parts[1])["packets"], "its packets")
    harness.equal(json.loads(harness.run("sum", "--json", content=whole + whole)[1])["inner_packets"],
                  2 * json.loads(whole)["inner_packets"], "twice")


def test_tables(harness):
    """The human-readable output has tables of tunnels after all others."""
    path = harness.file(capture([ethernet(ipv4(47, gre(0x86DD, SIX))), ethernet(over_udp("VXLAN", vxlan(ARP))),
                                 ethernet(ipv4(41, ipv6(60, b"\x11")))]))
    wanted = """in tunnels: packets
           1  frames without an IP packet
           2  IP packets
           2  IPv6 packets
           1  headers that end at the payload
           1  headers that end at a fault
          20  payload bytes
in tunnels: protocols of frames without an IP packet
           1  EtherType 0x0806
in tunnels: chains
           1  IPv4 > IPv6 -> 60 fault
           1  IPv4 GRE > IPv6 0,43 -> 6
in tunnels: headers of a chain
           1  0
           1  2
in tunnels: least bytes of a chain
           1  0
           1  16
in tunnels: extension headers
           1  0 hop-by-hop
           1  43 routing
in tunnels: payloads
           1  6 TCP
in tunnels: payloads of later fragments
in tunnels: truncated headers
in tunnels: faults
           1  too-short destination-options
"""
    outer = harness.run("stat", path)[1]
    harness.equal(harness.run("stat", "--tunnels", path), (0, outer + wanted.encode(), "", None), "tables")
    found = harness.run("stat", "--tunnels", "--top", "1", path)[1].decode().partition("in tunnels: chains\n")[2]
    harness.equal(found.splitlines()[1], "           1  other", "--top 1")
    found = harness.run("stat", "--tunnels", "--per-file", path)[1]
    harness.equal(found, b"file " + path.encode() + b"\n" + outer + wanted.encode(), "--per-file")


def good(**parts):
    """Statistics of a packet in a tunnel, as JSON. Members can be overridden, or left out by None."""
    inner = inner_statistics(packets=1, ipv6=1, at_payload=1, chains={"IPv4 GRE > IPv6 0 -> 17": 1}, chain_headers={"1": 1},
                             chain_bytes={"8": 1}, headers={"0": 1}, payload_numbers={"17": 1})
    outer = statistics(packets=1, ipv4=1, at_payload=1, chains={"IPv4 -> 47": 1}, chain_headers={"0": 1},
                       chain_bytes={"0": 1}, payload_numbers={"47": 1})
    counts = {**outer, **{"inner_" + name: value for name, value in inner.items()}, **parts}
    return json.dumps({name: value for name, value in counts.items() if value is not None}, separators=(",", ":")).encode()


def test_names_of_chains(harness):
    """`ipcap sum` reads the chains that `ipcap stat` writes, and no others."""
    harness.equal(harness.run("sum", "--json", content=good()), (0, good() + b"\n", "", None), "as it was")
    for name in ["IPv4 > IPv6 -> 58", "IPv6 44 VXLAN > IPv6 -> 17", "IPv6 0,43,60 > IPv4 Geneve > IPv6 255 -> 0 fault",
                 "IPv4 GTP-U > IPv6 -> 60 truncated", longest_text()]:
        content = good(inner_chains={name: 1})
        harness.equal(harness.run("sum", "--json", content=content), (0, content + b"\n", "", None), name)
    harness.check(len(longest_text()) < 320, "the longest text")
    for name in ["IPv6 0 -> 17", "IPv4 >IPv6 -> 17", "IPv4  > IPv6 -> 17", "IPv4 GRE IPv6 -> 17", "IPv4 GRE> IPv6 -> 17",
                 "IPv4 gre > IPv6 -> 17", "IPv4 L2TP > IPv6 -> 17", "IPv4 GRE > GRE > IPv6 -> 17", "IPv5 > IPv6 -> 17",
                 "IPv4 -> 47 > IPv6 -> 17", "IPv4 GRE > ", "> IPv6 -> 17", "IPv4 47 GRE > IPv6", "IPv4 256 > IPv6 -> 17",
                 "IPv4 GRE > IPv6 -> 17 ", "IPv4 > " * 8 + "IPv6 -> 17",
                 "IPv6 > " * 7 + "IPv6 %s -> 17" % ",".join(["60"] * 51), "IPv6 %s > IPv6 -> 17" % ",".join(["60"] * 63),
                 "IPv4 GRE > IPv6 0, -> 17", "IPv4 GRE  > IPv6 -> 17", ""]:
        refuse(harness, good(inner_chains={name: 1}), "not a chain in a tunnel", name)
    for chains in [{"IPv4 GRE > IPv6 0 -> 17": 1}, {"IPv4 > IPv4 -> 17": 1}]:
        refuse(harness, good(chains=chains), "not a chain", chains)
    refuse(harness, good(inner_chains={"IPv6 > IPv4 -> 17": 1}), "don't add up", "the version of the outer packet")


def test_malformed(harness):
    """Statistics of tunnels are there as a whole or not at all, add up, and are skipped by their names alone."""
    for name in COUNTS + TABLES:
        refuse(harness, good(**{"inner_" + name: None}), "the object has no \"inner_%s\"" % name, name)
    for parts, words in [({"inner_packets": 2}, "don't add up"), ({"inner_chains": {}}, "don't add up"),
                         ({"inner_other_frames": 1}, "don't add up"), ({"inner_headers": {"256": 1}}, "not in \"headers\""),
                         ({"inner_chains": 1}, "'1'"), ({"inner_packets": {}}, "'{'"),
                         ({"inner_file": "a"}, "unknown member"), ({"inner_version": "1.4"}, "unknown member"),
                         ({"inner_": 1}, "unknown member"), ({"inner_inner_packets": 1}, "unknown member")]:
        refuse(harness, good(**parts), words, parts)
    refuse(harness, good()[:-1] + b',"inner_packets":1}', "duplicate name in the object", "twice")
    found = harness.run("sum", "--json", content=good(version="1.9", inner_new=1, inner_table={"a": 1}))
    harness.equal(found, (0, good() + b"\n", "", None), "a later version")
    most = 2**64 - 1
    half = {name: 2**63 for name in ["inner_packets", "inner_ipv6", "inner_at_payload"]}
    tables = {"inner_chains": "IPv4 GRE > IPv6 0 -> 17", "inner_chain_headers": "1", "inner_chain_bytes": "8",
              "inner_headers": "0", "inner_payload_numbers": "17"}
    content = good(**half, **{name: {key: 2**63} for name, key in tables.items()})
    found = json.loads(harness.run("sum", "--json", content=content + content)[1])
    harness.equal([found[name] for name in [*half, *tables]], [most] * 3 + [{key: most} for key in tables.values()],
                  "largest counts")


# Frames with tunnels and without, by name.
CARRIERS = {
    "gre": ethernet(ipv4(47, gre(0x86DD, SIX))),
    "vxlan": ethernet(over_udp("VXLAN", vxlan(ethernet(FOUR, (0x8100,))))),
    "vxlan arp": ethernet(over_udp("VXLAN", vxlan(ARP), ipv6)),
    "six": ethernet(SIX),
    "mismatched": ethernet(ipv4(41, FOUR)),
    "deep": ethernet(over_udp("VXLAN", vxlan(ethernet(ipv6(60, options(47) + gre(0x0800, ipv4(1, bytes([8, 0, 0, 0]) + bytes(8)))))))),
    "arp": ARP,
    "four": ethernet(ipv4(17, UDP)),
    "fragment": ethernet(ipv4(4, ipv6(44, fragment(17, 5, 1) + UDP))),
    "truncated": ethernet(over_udp("GTP-U", gtp_u(ipv6(0, options(60) + b"\x11\0"[:1], payload_len=24)))),
}

# Conditions, and the frames that meet them by what is in their tunnels, and by themselves.
INNER_CONDITIONS = {
    "tcp": ("gre", "six"), "header 51": ("vxlan, mismatched", ""), "header 43": ("gre", "six"), "mismatched": ("mismatched, fragment", ""),
    "ip6 and header 60": ("deep", ""), "icmp-type 8": ("deep", ""), "fragment": ("fragment", ""), "truncated": ("truncated", ""),
    "not ip and not ip6": ("vxlan arp", "arp"), "not udp": ("vxlan arp, deep, truncated", "gre, six, mismatched, arp, fragment"),
    "port 1000": ("gre, vxlan, mismatched", "six, four"), "port 1000 and not tcp": ("vxlan, mismatched", "four"), "any": ("", ", ".join(CARRIERS)),
}


def test_conditions(harness):
    """With --tunnels, a packet meets a condition if it or one in its tunnels does."""
    frames = list(CARRIERS.values())
    path = harness.file(capture(frames))
    for condition, (inner, own) in INNER_CONDITIONS.items():
        for wanted, arguments in [(own, []), (own + ", " + inner, ["--tunnels"])]:
            numbers = [i + 1 for i, name in enumerate(CARRIERS) if name in wanted.split(", ")]
            content = harness.run("filter", *arguments, condition, path)
            kept = b"".join(record(frames[it - 1], None, 999 + it, 4 + it) for it in numbers)
            harness.equal(content, (0, file_header() + kept, "", None), condition, arguments)
            found = harness.run("show", "--json", *arguments, condition, path)[1].splitlines()
            harness.equal(sorted({json.loads(it)["packet"] for it in found}), numbers, condition, "show", arguments)
    mismatched = {5, 9} # tshark reads these by the number, not by the version
    for ours, theirs in [("tcp", "tcp"), ("header 51", "ah"), ("header 43", "ipv6.routing"), ("icmp", "icmp"), ("ip6", "ipv6"), ("ip", "ip")]:
        wanted = harness.tshark(path, "-Y", theirs, "-T", "fields", "-e", "frame.number").split()
        found = harness.run("filter", "--tunnels", ours, path)[1]
        times = [it.split(b".")[0] for it in harness.tshark(harness.file(found), "-T", "fields", "-e", "frame.time_epoch").split()]
        harness.equal({int(it) - 999 for it in times} - mismatched, set(map(int, wanted)) - mismatched, "as tshark finds them", ours)
    for depth in (7, 8):
        nested_in = capture([nested(*[lambda it: ipv4(41, it)] * depth)], RAW)
        found = harness.run("filter", "--tunnels", "tcp", content=nested_in)[1]
        harness.equal(len(found) > 24, depth == 7, "depth", depth)


def test_shown(harness):
    """With --tunnels, each packet in a tunnel is shown after the one that carries it."""
    packets, wanted = zip(*followed_packets())
    path = harness.file(capture(packets, RAW))
    plain, lines = [harness.run("show", "--one-line", *it, path)[1].decode().splitlines() for it in ([], ["--tunnels"])]
    found = iter(lines)
    for number, (packet, texts) in enumerate(zip(packets, wanted), 1):
        harness.equal(next(found), plain[number - 1], "the outer packet", number)
        for depth, text in enumerate(texts, 1):
            line = next(found)
            harness.check(line.startswith("packet %d, tunnel %d: " % (number, depth)), text, line)
            if text.startswith("IPv"):
                chain = line.partition(": IPv")[2]
                harness.check((chain + ",").startswith(text[3:] + ","), "chain", text, line)
            elif text == "no header":
                harness.check(": unread base header" in line, text, line)
            elif text == "other":
                harness.check(", not IP" in line and "0x" not in line, text, line)
            else:
                harness.check(", not IP, " in line and "0x" + text.split("0x")[1] in line, text, line)
    harness.equal(list(found), [], "nothing else")
    objects = [json.loads(it) for it in harness.run("show", "--json", "--tunnels", path)[1].splitlines()]
    harness.equal([(it["packet"], it["tunnels"]) for it in objects], [(i, depth) for i, texts in enumerate(wanted, 1) for depth in range(len(texts) + 1)], "--json")
    for one in objects:
        packet = packets[one["packet"] - 1]
        harness.check((one["frame_len"], one["captured_len"]) == (len(packet), len(packet)), "lengths of the frame", one)
        harness.check(one.get("version", 0) == 0 or packet[one["ip_offset"]] >> 4 == one["version"], "place", one)
    texts = {(it["packet"], it["tunnels"]): it.get("chain", it.get("other_protocol", "")) for it in objects}
    harness.equal([texts[i, depth] or "none" for i, each in enumerate(wanted, 1) for depth in range(1, len(each) + 1)],
                  [{"no header": "none", "other": "none"}.get(text, text) for each in wanted for text in each], "chains")
    names, *rows = csv.reader(harness.run("show", "--csv", "--tunnels", path)[1].decode().splitlines())
    harness.equal([{name: int(value) for name, value in zip(names, row) if name in ("packet", "tunnels")} for row in rows],
                  [{"packet": it["packet"], "tunnels": it["tunnels"]} for it in objects], "--csv")
    harness.check("tunnels" not in harness.run("show", "--csv", path)[1].decode(), "without --tunnels")
    drawn = harness.run("show", "-c", "1", "--tunnels", content=capture(list(CARRIERS.values())))[1].decode()
    first, second = drawn.split("\n\n")
    harness.equal(second.rstrip("\n").split("\n", 1)[1], harness.run("show", content=capture([SIX], RAW))[1].decode().rstrip("\n").split("\n", 1)[1], "the drawing")
    harness.equal(second.split("\n")[0], "packet 1, tunnel 1: 1970-01-01T00:16:40.000005Z, 2001:db8::1.1000 > 2001:db8::2.2000, 76 bytes, IP at 38: "
                  "IPv4 GRE > IPv6 0,43 -> 6, Flags [S]", "the first line")
    harness.equal(first, harness.run("show", "-c", "1", content=capture(list(CARRIERS.values())))[1].decode().rstrip("\n"), "the outer packet")
    path = harness.file(capture([*CARRIERS.values(), LONG], snap_len=len(LONG)))
    refuse_each(harness, ["show", "--tunnels", "tcp", path])
    refuse_each(harness, ["filter", "--tunnels", "tcp", path])
