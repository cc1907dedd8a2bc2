"""Tests of link layers. All headers were written by hand from the standards."""

import random
import struct
import sys

from captures import *
from expected import statistics

MAC = "020000000001 020000000002"
SNAP = "aaaa03 000000"
RING = "1047 020000000001"
ROUTE = "d2a0" + "0012" * 8
COOKED = "0000 0001 0006 020000000001 0000"
COOKED2 = "0000 00000001 0001 00 06 0200000000010000"
IPNET = "0000 00000054 00000002 00000000 ffffffff 00000000"
GLOBAL_ROUTE = "00" * 40
SLIP = "00 45 0000000000000000000000000000"
PPPOE = "8864 1100 0001 0040"
JUNIPER = "4d4743 80 0010 030101 06010e 01028c00 04044c010000"
LABEL, LAST_LABEL = "0001 0040", "0001 0140"

# Link layers: their number, the headers before an IPv6 and before an IPv4 packet, a frame without IP, and its protocol.
LINKS = {
    "802.3": (1, f"{MAC} 05dc {SNAP} 86dd", f"{MAC} 0000 {SNAP} 0800", f"{MAC} 05dd {SNAP} 0800", "EtherType 0x05dd"),
    "802.3, no SNAP": (1, f"{MAC} 0040 {SNAP} 86dd", f"{MAC} 0040 {SNAP} 0800", f"{MAC} 0026 424203 0000",
                       "LLC 0x42"),
    "802.3, organization": (1, f"{MAC} 0040 {SNAP} 86dd", f"{MAC} 0040 {SNAP} 0800", f"{MAC} 0040 aaaa03 00000c 0800",
                            "LLC 0xaa"),
    "VLAN, 802.3": (1, f"{MAC} 8100 0001 05dc {SNAP} 86dd", f"{MAC} 8100 0001 0040 {SNAP} 0800",
                    f"{MAC} 8100 0001 0026 424203", "LLC 0x42"),
    "Token Ring": (6, f"{RING} 020000000002 {SNAP} 86dd", f"{RING} 020000000002 {SNAP} 0800",
                   f"1000 {MAC} {SNAP} 0800", "other"),
    "Token Ring, routed": (6, f"{RING} 820000000002 {ROUTE} {SNAP} 86dd", f"{RING} 820000000002 0220 {SNAP} 0800",
                           f"{RING} 820000000002 06a0 {SNAP} 0800", "LLC 0x00"),
    "FDDI": (10, f"50 {MAC} {SNAP} 86dd", f"57 {MAC} {SNAP} 0800", f"41 {MAC} {SNAP} 0800", "other"),
    "ATM": (11, f"{SNAP} 86dd", f"{SNAP} 0800", "fefe03 81 0000", "LLC 0xfe"),
    "cooked": (113, f"{COOKED} 86dd", f"{COOKED} 0800", f"{COOKED} 0806" + "00" * 28, "EtherType 0x0806"),
    "cooked, VLAN": (113, f"{COOKED} 8100 0007 86dd", f"{COOKED} 0800", f"{COOKED} 8100 0007 0806",
                     "EtherType 0x0806"),
    "cooked, LLC": (113, f"{COOKED} 0004 {SNAP} 86dd", f"{COOKED} 0004 {SNAP} 0800", f"{COOKED} 0004 424203",
                    "LLC 0x42"),
    "cooked 2": (276, f"86dd {COOKED2}", f"0800 {COOKED2}", f"0806 {COOKED2}" + "00" * 28, "EtherType 0x0806"),
    "cooked 2, VLAN": (276, f"8100 {COOKED2} 0007 86dd", f"0800 {COOKED2}", f"8100 {COOKED2} 0007 0806",
                       "EtherType 0x0806"),
    "IPoIB": (242, f"{GLOBAL_ROUTE} 86dd 0000", f"{GLOBAL_ROUTE} 0800 0000", f"{GLOBAL_ROUTE} 0806 0000",
              "EtherType 0x0806"),
    "Solaris": (226, f"01 1a {IPNET}", f"01 02 {IPNET}", f"01 07 {IPNET}", "family 7"),
    "SLIP": (8, SLIP, SLIP, "00 45 0000", "other"),
    "PPP": (9, "0057", "0021", "c021 0101 0004", "PPP 0xc021"),
    "PPP, framed": (9, "ff03 0057", "ff03 0021", "ff03 8057 0101 0004", "PPP 0x8057"),
    "PPP, compressed": (9, "57", "21", "2f 45", "PPP 0x002f"),
    "PPP, framed and compressed": (9, "ff03 57", "ff03 21", "ff03 fd", "PPP 0x00fd"),
    "PPP with direction": (204, "00 ff03 0057", "01 0021", "00 ff03 c021", "PPP 0xc021"),
    "PPP of pppd": (166, "0003 0057", "0103 0021", "0003 c021", "PPP 0xc021"),
    "PPP, serial": (50, "ff03 0057", "ff03 0021", "ff03 c021 0101 0004", "PPP 0xc021"),
    "Cisco HDLC, serial": (50, "0f00 86dd", "8f00 0800", "8f00 8035 00000002", "EtherType 0x8035"),
    "PPPoE": (51, "1100 0001 0040 0057", "1100 0001 0040 0021", "1109 0000 0040 0021", "other"),
    "PPPoE, version 2": (51, "1100 0001 0040 0057", "1100 0001 0040 0021", "2100 0001 0040 0021", "other"),
    "Ethernet, PPPoE": (1, f"{MAC} {PPPOE} 0057", f"{MAC} {PPPOE} 0021", f"{MAC} 8863 1109 0000 0004 01010000",
                        "EtherType 0x8863"),
    "VLAN, PPPoE": (1, f"{MAC} 88a8 0001 8100 0002 {PPPOE} 0057", f"{MAC} 8100 0002 {PPPOE} 0021",
                    f"{MAC} {PPPOE} c021", "PPP 0xc021"),
    "Cisco HDLC": (104, "0f00 86dd", "0f00 0800", "8f00 8035 00000002", "EtherType 0x8035"),
    "Cisco HDLC with direction": (205, "00 0f00 86dd", "01 0f00 0800", "01 8f00 8035", "EtherType 0x8035"),
    "Frame Relay": (107, "1841 03 8e", "1841 03 cc", "0001 03 08 00 75", "NLPID 0x08"),
    "Frame Relay, long addresses": (107, "184041 03 00 8e", "18404041 03 cc", "1840404041 03 cc", "other"),
    "Frame Relay, short address": (107, "1841 03 8e", "1841 03 cc", "19 03 cc", "other"),
    "Frame Relay, SNAP": (107, "1841 03 00 80 000000 86dd", "1841 03 80 000000 0800", "1841 03 00 80 0080c2 0007",
                          "NLPID 0x80"),
    "Frame Relay, PPP": (107, "1841 03 cf 0057", "1841 03 cf 0021", "1841 03 cf c021", "PPP 0xc021"),
    "Frame Relay, Cisco": (107, "0401 86dd", "00f1 0800", "0001 0800 75", "other"),
    "Frame Relay with direction": (206, "00 1841 03 8e", "01 1841 03 cc", "01 1841 03 81", "NLPID 0x81"),
    "multilink Frame Relay": (182, "c105 1841 03 8e", "8106 1841 0800", "e100 1841 03 cc", "other"),
    "multilink Frame Relay, later": (182, "c105 1841 03 8e", "8106 1841 0800", "4107 1841 03 cc", "other"),
    "MACsec": (1, f"{MAC} 88e5 2000 00000001 0200000000010001 86dd", f"{MAC} 8100 0001 88e5 0000 00000001 0800",
               f"{MAC} 88e5 2c00 00000001 0200000000010001 0800", "EtherType 0x88e5"),
    "MACsec, 802.3": (1, f"{MAC} 88e5 0000 00000001 05dc {SNAP} 86dd", f"{MAC} 88e5 4000 00000001 0800",
                      f"{MAC} 88e5 8000 00000001 0800", "EtherType 0x88e5"),
    "802.11": (105, f"0801 0000 {MAC} 020000000003 0000 {SNAP} 86dd", f"0803 0000 {MAC} 020000000003 0000 020000000004 {SNAP} 0800",
               f"8000 0000 {MAC} 020000000003 0000", "802.11 0x08"),
    "802.11, QoS": (105, f"8802 0000 {MAC} 020000000003 0000 0500 {SNAP} 86dd", f"8882 0000 {MAC} 020000000003 0000 0000 00000000 {SNAP} 0800",
                    f"8842 0000 {MAC} 020000000003 0000 0000 {SNAP} 0800", "802.11 0x28"),
    "802.11, several frames": (105, f"8803 0000 {MAC} 020000000003 0000 020000000004 0000 {SNAP} 86dd", f"0802 0000 {MAC} 020000000003 1000 {SNAP} 0800",
                               f"8802 0000 {MAC} 020000000003 0000 8000 {SNAP} 0800", "802.11 0x28"),
    "802.11, later fragment": (105, f"0801 0000 {MAC} 020000000003 f000 {SNAP} 86dd", f"0801 0000 {MAC} 020000000003 0000 {SNAP} 0800",
                               f"0801 0000 {MAC} 020000000003 0100 {SNAP} 0800", "802.11 0x20"),
    "802.11, radiotap": (127, f"0000 0900 02000000 10 0801 0000 {MAC} 020000000003 0000 {SNAP} 86dd",
                         f"0000 0c00 04800000 02000800 0801 0000 {MAC} 020000000003 0000 {SNAP} 0800", "0100 0900 02000000 10 0801 0000", "other"),
    "802.11, no data": (105, f"0801 0000 {MAC} 020000000003 0000 {SNAP} 86dd", f"0801 0000 {MAC} 020000000003 0000 {SNAP} 0800",
                        f"4801 0000 {MAC} 020000000003 0000", "802.11 0x24"),
    "PPI": (192, f"00 00 0800 69000000 0801 0000 {MAC} 020000000003 0000 {SNAP} 86dd", f"00 00 0c00 01000000 00000000 {MAC} 0800",
            f"00 00 0800 09000000 0021", "other"),
    "Juniper Ethernet": (178, f"4d4743 01 {MAC} 86dd", f"{JUNIPER} {MAC} 0800", f"{JUNIPER} {MAC} 0806",
                         "EtherType 0x0806"),
    "Juniper ATM1": (137, f"4d4743 01 00000000 {SNAP} 86dd", f"{JUNIPER} 00000000 {SNAP} 0800",
                     f"4d4743 01 80000000 {SNAP} 0800", "other"),
}

# The packets after these are IP if their first four bits are 4 or 6.
LINKS_BY_VERSION = {
    "MPLS": (1, f"{MAC} 8847 {LAST_LABEL}", f"{MAC} 8848 {LABEL * 3} {LAST_LABEL}",
             f"{MAC} 8847 {LAST_LABEL} 00000000", "EtherType 0x8847"),
    "NSH": (1, f"{MAC} 894f 0fc6 0102 000001ff" + "00" * 16, f"{MAC} 894f 0fc2 0201 000001ff",
            f"{MAC} 894f 0fc2 02fe 000001ff", "EtherType 0x894f"),
    "NSH, operation": (1, f"{MAC} 894f 0fc2 0204 000001ff 0fc2 0202 000001fe", f"{MAC} 894f 0fc2 0205 000001ff {LAST_LABEL}",
                       f"{MAC} 894f 2fc2 0201 000001ff", "EtherType 0x894f"),
    "NSH, Ethernet": (1, f"{MAC} 894f 0fc2 0203 000001ff {MAC} 8847 {LAST_LABEL}", f"{MAC} 894f 0fc2 0201 000001ff",
                      f"{MAC} 894f 0fc1 0201 000001ff", "EtherType 0x894f"),
    "MPLS without bottom": (1, f"{MAC} 8847 {LAST_LABEL}", f"{MAC} 8847 {LAST_LABEL}",
                            f"{MAC} 8847 {LABEL * 300} 0001", "EtherType 0x8847"),
    "VLAN, PPPoE, MPLS": (1, f"{MAC} 88a8 0001 8100 0002 {PPPOE} 0281 {LABEL} {LAST_LABEL}",
                          f"{MAC} 8100 0002 {PPPOE} 0283 {LAST_LABEL}", f"{MAC} 8100 0002 {PPPOE} 8281 0101 0004",
                          "PPP 0x8281"),
    "PPP, MPLS": (9, f"ff03 0281 {LABEL} {LAST_LABEL}", f"ff03 0283 {LAST_LABEL}", f"ff03 0281 {LAST_LABEL} 8100",
                  "PPP 0x0281"),
    "Cisco HDLC, MPLS": (104, f"0f00 8847 {LAST_LABEL}", f"0f00 8848 {LABEL} {LAST_LABEL}",
                         f"0f00 8847 {LAST_LABEL} 00", "EtherType 0x8847"),
    "Juniper Ethernet, removed": (178, "4d4743 02 00000000", JUNIPER.replace("80", "82", 1) + "02000000",
                                  "4d4743 02 00000000 81", "other"),
    "Juniper ATM1 without LLC": (137, "4d4743 01 00000000", f"{JUNIPER} 00000000", "4d474f 01 00000000 45", "other"),
}


def nflog(family, order, version=0, payload_len=600):
    """Returns the headers of a netfilter log: an attribute of 6 bytes, which is padded, and then that of a payload."""
    attributes = struct.pack(order + "HHHxxHH", 6, 10, ord("x"), payload_len, 9)
    return bytes([family, version, 0, 1]) + attributes


def from_hex(links):
    """Yields the name, the number, the headers, the frame without IP, and its protocol, with bytes for hexadecimal."""
    for name, (number, *parts, protocol) in links.items():
        yield (name, number, *map(bytes.fromhex, parts), protocol)


def fixed_links():
    """Yields the link layers after which there is IP whatever the packet is."""
    yield from from_hex(LINKS)
    for tags in [(), (0x8100,), (0x88A8, 0x8100), (0x9100, 0x8100), (0x8100,) * 5]:
        six, four, other = [ethernet(b"", tags, ethertype) for ethertype in (0x86DD, 0x0800, 0x0806)]
        yield "Ethernet", ETHERNET, six, four, other + bytes(46), "EtherType 0x0806"
    for order in "<>":
        for number in [10, 24, 28, 30]:
            yield "BSD loopback", NULL, *(struct.pack(order + "I", family) for family in (number, 2, 7)), "family 7"
    yield "OpenBSD loopback", LOOP, *(struct.pack(">I", family) for family in (24, 2, 7)), "family 7"
    order = "<" if sys.byteorder == "little" else ">"
    others = [(nflog(7, order), "family 7"), (nflog(2, order, 1), "other"), (nflog(2, order, 0, 3), "family 2")]
    for other, protocol in others:
        yield "netfilter log", NFLOG, nflog(10, order), nflog(2, order), other, protocol


def test_link_layers(harness):
    """Three frames of each link layer: an IPv6 packet, an IPv4 packet, and one that isn't IP."""
    six, four = ipv6_chain([0, 43]), ipv4(51, authentication(6) + TCP)

    def wanted(protocol):
        return statistics(
            other_frames=1, packets=2, ipv4=1, ipv6=1, at_payload=2, payload_bytes=len(UDP) + len(TCP),
            other_protocols={protocol: 1}, chains={"IPv4 51 -> 6": 1, "IPv6 0,43 -> 17": 1},
            chain_headers={"1": 1, "2": 1}, chain_bytes={"24": 1, "16": 1}, headers={"0": 1, "43": 1, "51": 1},
            payload_numbers={"6": 1, "17": 1})
    for name, number, before_six, before_four, other, protocol in [*fixed_links(), *from_hex(LINKS_BY_VERSION)]:
        content = capture([before_six + six, before_four + four, other], number)
        harness.equal(harness.stat(content=content), (wanted(protocol), ""), "link layer", name)
    for order in "<>":
        content = capture([nflog(10, order) + six, nflog(2, order) + four, nflog(7, order)], NFLOG, order=order)
        harness.equal(harness.stat(content=content), (wanted("family 7"), ""), "byte order", order)
    for link_layer, packet, version in [(RAW, six, 6), (RAW, four, 4), (IPV6, six, 6), (IPV4, four, 4)]:
        found, _ = harness.stat(content=capture([packet], link_layer))
        harness.equal((found["packets"], found["ipv%d" % version]), (1, 1), "link layer", link_layer)


def test_swapped_headers(harness):
    """Copies of frames have the headers whose numbers are in the byte order of the file in that of the copy, as far as they go."""
    def logs(order):
        head = struct.pack(order + "HH4s", 7, 10, b"abc")
        payload = struct.pack(order + "HH", 600, 9) + b"\1\2\3\4\5\6"
        return [bytes([7, 0, 0, 1]) + it for it in (
            head + payload, head * 3, head + payload[:4], head + b"\1\2\3", struct.pack(order + "HH", 0, 10) + b"\1\2\3\4",
            struct.pack(order + "HH", 65535, 10) + b"\1\2\3\4", b"", b"\1\2\3")] + [b"\7\1\0\1\0\4\0\1", b"\7\0\0"]

    def cans(order):
        identifier = struct.pack(order + "I", 0x12345678)
        return [cooked(it, protocol) for protocol in (12, 13) for it in (identifier + b"\2\0\0\0\1\2", identifier, b"\1\2\3", b"")] + [
            cooked(b"\1\2\3\4\5", protocol) for protocol in (1, 4, 11, 14, 0x0c0c, 0x0806)] + [cooked(b"", 12)[:15]]
    for link_layer, frames in [(NFLOG, logs), (SLL, cans), (SLL2, cans), (ETHERNET, cans)]:
        for order in "<>":
            found = harness.run("filter", "not tcp", content=capture(frames(order), link_layer, order=order))
            copied = frames("<" if link_layer in (NFLOG, SLL) else order)
            harness.equal(found, (0, capture(copied, link_layer), "", None), "copies", link_layer, order)


def test_mismatched(harness):
    """Packets of one IP version that their frame announces as the other are counted where they are, and as mismatched."""
    six, four, five = ipv6_chain([0, 43]), ipv4(51, authentication(6) + TCP), b"\x50" + bytes(60)
    for links, count in [(fixed_links(), 3), (from_hex(LINKS_BY_VERSION), 0)]:
        for name, number, before_six, before_four, other, _ in links:
            kept = 0 if number == 8 else count  # SLIP announces nothing
            frames = [before_six + four, before_four + six, before_six + b"\x40", before_six + six, before_four + four, other]
            found, _ = harness.stat(content=capture(frames, number))
            harness.equal((found["mismatched"], found["ipv4"], found["ipv6"], found["other_frames"]), (kept, 2, 2, 1), name)
            if count:
                found, _ = harness.stat(content=capture([before_six + five, before_four + five, before_six, other], number))
                harness.equal((found["mismatched"], found["packets"]), (0, 3), name, "other versions")
    for link_layer in [RAW, IPV4, IPV6]:
        harness.equal(harness.stat(content=capture([six, four], link_layer))[0]["mismatched"], 0, "link layer", link_layer)
    frame = ethernet(six, (0x8100,), 0x0800)
    found = harness.run("stat", harness.file(capture([frame, ethernet(four)])))[1].decode()
    harness.check("           1  IPv4 packets announced as IPv6, or IPv6 as IPv4\n" in found, "the table", found)


def test_short_frames(harness):
    """Frames that end within the link-layer header, or directly after it."""
    for link_layer, frame, before, protocols in [
            (ETHERNET, ethernet(b""), 14, {"other": 14}),
            (ETHERNET, ethernet(b"", (0x8100, 0x8100)), 22, {"other": 14, "EtherType 0x8100": 8}),
            (SLL, cooked(b"", 0x86DD), 16, {"other": 16}), (SLL2, cooked2(b"", 0x86DD), 20, {"other": 20}),
            (NULL, struct.pack("<I", 30), 4, {"other": 4})]:
        found, _ = harness.stat(content=capture([frame[:n] for n in range(before + 1)], link_layer))
        harness.equal(found, statistics(other_frames=before, packets=1, without_header=1, at_truncated_header=1,
                                        other_protocols=protocols, truncated_headers={"IP-header": 1}),
                      "link layer", link_layer)


def test_other_protocols(harness):
    """The JSON has all protocols of frames without IP, up to 4096, and the human-readable output five."""
    types = [0x0806, 0x88CC, 0x88CC, 0x8863, 0x8863, 0x8863, 0x1234, 0x1234, 0x9000, 0x0805]
    frames = [ethernet(bytes(46), (), number) for number in types] + [b"short", b"short"]
    path = harness.file(capture(frames))
    wanted = {"EtherType 0x8863": 3, "EtherType 0x1234": 2, "EtherType 0x88cc": 2, "EtherType 0x0805": 1,
              "EtherType 0x0806": 1, "EtherType 0x9000": 1, "other": 2}
    found, _ = harness.stat(path)
    harness.equal(list(found["other_protocols"].items()), list(wanted.items()), "all protocols")
    table = """protocols of frames without an IP packet
           3  EtherType 0x8863
           2  EtherType 0x1234
           2  EtherType 0x88cc
           1  EtherType 0x0805
           1  EtherType 0x0806
           3  other
chains
"""
    harness.check(table in harness.run("stat", path)[1].decode(), "five protocols")
    found, _ = harness.stat(content=capture([ethernet(b"", (), 0xA000 + number) for number in range(5000)]))
    protocols = found["other_protocols"]
    harness.equal((len(protocols), protocols["EtherType 0xafff"], protocols["other"]), (4097, 1, 904), "5000 protocols")


def places_of_ip(harness, frames):
    """Returns where IP is found in each of the frames, truncated to 0, 1 and so on bytes, or -1. Each is in memory that
    ends after it."""
    content = "".join("%d:%s.\n" % (number, frame.hex()) for number, frame in frames).encode()
    answers = [harness.answer(command, [], content, None) for command in harness.commands("find")]
    for answer in answers:
        harness.equal(answer, (0, answers[0][1], "", None), "places of IP")
    return [list(map(int, line.split())) for line in answers[0][1].splitlines()]


def test_truncated_frames(harness):
    """No byte after a truncated frame is read, and IP is found where all headers before it are there."""
    frames, wanted, names = [], [], []
    for links, further in [(fixed_links(), 0), (from_hex(LINKS_BY_VERSION), 1)]:
        for name, number, before_six, before_four, other, _ in links:
            for before, first in [(before_six, b"\x60"), (before_four, b"\x45")]:
                frames.append((number, before + first * 2))
                wanted.append([-1] * (len(before) + further) + [len(before)] * (3 - further))
            frames.append((number, other))
            wanted.append([-1] * (len(other) + 1))
            names += [name] * 3
    for found, expected, name in zip(places_of_ip(harness, frames), wanted, names):
        harness.equal(found, expected, "truncated frames of", name)


def test_hostile_frames(harness):
    """No byte after a frame is read, whatever its bytes are."""
    draw, frames = random.Random(7), []
    for _, number, *parts, _ in [*fixed_links(), *from_hex(LINKS_BY_VERSION)]:
        for headers in parts:
            for place in range(min(len(headers), 40)):
                for value in [0, 255, headers[place] ^ 1, draw.randrange(256)]:
                    frames.append((number, headers[:place] + bytes([value]) + headers[place + 1:][:40] + b"\x45"))
        frames += [(number, draw.randbytes(draw.randrange(40))) for _ in range(40)]
    harness.equal(len(places_of_ip(harness, frames)), len(frames), "hostile frames")
