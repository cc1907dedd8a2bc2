"""Tests of `ipcap show`."""

import collections
import csv
import itertools
import json
import random
import re
import shutil
import socket
import struct
import subprocess
import xml.etree.ElementTree

from blocks import interface, packet, section
from captures import *
from test_stat import random_frames

DRAWN = """packet 1: 1970-01-01T00:16:40.000005Z, 2001:db8::1.1000 > 2001:db8::2.2000, 90 bytes, IP at 14: IPv6 0,43,44 -> 17, frag (0x00000007:0|12)
0000  60 00 00 00 00 24 00 40 20 01 0d b8 00 00 00 00
      [-------------------- IPv6 --------------------
0010  00 00 00 00 00 00 00 01 20 01 0d b8 00 00 00 00
      -----------------------------------------------
0020  00 00 00 00 00 00 00 02 2b 00 01 04 00 00 00 00
      ----------------------] [---- hop-by-hop -----]
0030  2c 00 fd 00 00 00 00 00 11 00 00 00 00 00 00 07
      [------ routing ------] [----- fragment ------]
0040  03 e8 07 d0 00 0c 00 00 64 61 74 61
      [-------------- UDP --------------]

packet 2: 1970-01-01T00:16:41.000006Z, 60 bytes, not IP, ethertype ARP (0x0806)

packet 3: 1970-01-01T00:16:42.000007Z, 192.0.2.1.1000 > 192.0.2.2.2000, 46 bytes, IP at 18: IPv4 -> 17
0000  45 00 00 1c 00 01 00 00 40 11 f6 cc c0 00 02 01
      [-------------------- IPv4 --------------------
0010  c0 00 02 02 03 e8 07 d0 00 0c 00 00
      ----------] [-------- UDP --------]

packet 4: 1970-01-01T00:16:40.000005Z, 2001:db8::1 > 2001:db8::2, 62 of 78 bytes, IP at 14: IPv6 60 -> 44 truncated
0000  60 00 00 00 00 18 3c 40 20 01 0d b8 00 00 00 00
      [-------------------- IPv6 --------------------
0010  00 00 00 00 00 00 00 01 20 01 0d b8 00 00 00 00
      -----------------------------------------------
0020  00 00 00 00 00 00 00 02 2c 00 01 04 00 00 00 00
      ----------------------] [ destination-options ]
0030
      ^ truncated: not enough bytes for the fragment header at offset 48: 8 needed, 0 there
      16 bytes missing

packet 5: 1970-01-01T00:16:40.000005Z, 2001:db8::1 > 2001:db8::2, 70 bytes, IP at 14: IPv6 44 -> 60, frag (0x00000007:1480|8)
0000  60 00 00 00 00 10 2c 40 20 01 0d b8 00 00 00 00
      [-------------------- IPv6 --------------------
0010  00 00 00 00 00 00 00 01 20 01 0d b8 00 00 00 00
      -----------------------------------------------
0020  00 00 00 00 00 00 00 02 3c 00 05 c9 00 00 00 07
      ----------------------] [----- fragment ------]
0030  de ad be ef 00 00 00 00
      [-- part of payload --]
"""


def drawn_capture():
    frames = [ethernet(ipv6_chain([0, 43, 44])), ethernet(bytes(46), (), 0x0806),
              ethernet(ipv4(17, UDP[:8]), (0x8100,))]
    content = capture(frames) + record(ethernet(ipv6(60, options(44) + fragment(17) + bytes(8))), 62)
    return content + record(ethernet(LATER_FRAGMENT))


def test_drawings(harness):
    """Drawings that were made by hand."""
    content = drawn_capture()
    status, found, errors, _ = harness.run("show", content=content)
    for line, wanted in zip(found.decode().split("\n"), DRAWN.split("\n")):
        harness.equal(line, wanted, "a line")
    harness.equal((status, len(found), errors), (0, len(DRAWN), ""), "the whole")


def test_lines(harness):
    """--one-line prints the first lines, and -c stops after so many packets."""
    content = drawn_capture()
    titles = [line + "\n" for line in DRAWN.split("\n") if line.startswith("packet ")]
    harness.equal(harness.run("show", "--one-line", content=content), (0, "".join(titles).encode(), "", None), "--one-line")
    found = harness.run("show", "--one-line", "-c", "2", content=content[:-1])
    harness.equal(found, (0, "".join(titles[:2]).encode(), "", None), "-c 2")
    found = harness.run("show", "-c1", harness.file(content))
    harness.equal(found, (0, DRAWN[:DRAWN.index("\npacket 2")].encode(), "", None), "-c 1")
    for seconds, magic, wanted in [(0, MICROSECONDS, "1970-01-01T00:00:00.000005Z"),
                                   (951825600, NANOSECONDS, "2000-02-29T12:00:00.000000005Z"),
                                   (2**32 - 1, NANOSECONDS, "2106-02-07T06:28:15.000000005Z")]:
        content = file_header(magic=magic) + record(ethernet(b"\x50" + bytes(5)), None, seconds)
        wanted = "packet 1: %s, 20 bytes, IP at 14: unread base header\n" % wanted
        harness.equal(harness.run("show", "--one-line", content=content), (0, wanted.encode(), "", None), seconds)
    for fraction, magic, wanted in [(10**6, MICROSECONDS, "00:00:01.000000Z"), (2**32 - 1, MICROSECONDS, "01:11:34.967295Z"),
                                    (2**32 - 1, NANOSECONDS, "00:00:04.294967295Z")]:
        content = file_header(magic=magic) + record(ethernet(b"\x50" + bytes(5)), None, 0, fraction)
        found = harness.run("show", "--one-line", content=content)[1]
        harness.check(found.startswith(b"packet 1: 1970-01-01T%s," % wanted.encode()), "a fraction of a second or more", found)


def test_objects(harness):
    """--json prints an object per packet, with the names and codes of wolfaren.h."""
    status, found, errors, _ = harness.run("show", "--json", content=drawn_capture() + record(ethernet(b"\x50" + bytes(5))))
    harness.equal((status, errors), (0, ""), "--json")
    six = {"src": "2001:db8::1", "dst": "2001:db8::2", "version": 6, "base_len": 40, "hop_limit": 64}
    ports = {"src_port": 1000, "dst_port": 2000}
    def packet(number, time, frame_len, captured_len, **fields):
        return {"packet": number, "time": "1970-01-01T00:16:%sZ" % time, "frame_len": frame_len, "captured_len": captured_len,
                **fields}
    def dissected(**fields):
        return {"missing": 0, "padding": 0, "headers": [], "end": 0, "end_name": "payload", **fields}
    def headers(*rows):
        return [dict(zip(["offset", "len", "number", "name", "next_header", "next_header_name"], row)) for row in rows]
    wanted = [
        packet(1, "40.000005", 90, 90, ip_offset=14, **six, **ports, **dissected(
            stated_len=76, headers=headers((40, 8, 0, "hop-by-hop", 43, "routing"), (48, 8, 43, "routing", 44, "fragment"),
                                           (56, 8, 44, "fragment", 17, "UDP")), chain="IPv6 0,43,44 -> 17", payload_number=17, payload_name="UDP",
            payload_offset=64, payload_len=12, fragment=1, fragment_name="atomic", identification=7, fragment_offset=0)),
        packet(2, "41.000006", 60, 60, other_protocol="EtherType 0x0806", other_protocol_name="ARP"),
        packet(3, "42.000007", 46, 46, ip_offset=18, src="192.0.2.1", dst="192.0.2.2", version=4, base_len=20, hop_limit=64, **ports,
               **dissected(stated_len=28, chain="IPv4 -> 17", payload_number=17, payload_name="UDP", payload_offset=20, payload_len=8)),
        packet(4, "40.000005", 78, 62, ip_offset=14, **six, **dissected(
            stated_len=64, headers=headers((40, 8, 60, "destination-options", 44, "fragment")), chain="IPv6 60 -> 44 truncated",
            payload_number=44, payload_name="fragment", payload_offset=48, payload_len=0, missing=16, end=2, end_name="truncated-header",
            fault={"name": "fragment", "text": "not enough bytes for the fragment header at offset 48: 8 needed, 0 there",
                   "required_len": 8, "len": 0, "offset": 48, "kind": 1, "kind_name": "too-short", "header": 11, "header_name": "fragment",
                   "layer": 11, "layer_name": "fragment", "len_source": 1, "len_source_name": "capture"})),
        packet(5, "40.000005", 70, 70, ip_offset=14, **six, **dissected(
            stated_len=56, headers=headers((40, 8, 44, "fragment", 60, "destination-options")), chain="IPv6 44 -> 60", payload_number=60,
            payload_name="destination-options", payload_offset=48, payload_len=8, fragment=3, fragment_name="middle", identification=7,
            fragment_offset=1480, end=1, end_name="later-fragment")),
        packet(6, "40.000005", 20, 20, ip_offset=14, version=0, base_len=0, **dissected(
            stated_len=0, payload_number=59, payload_name="no-next", payload_offset=0, payload_len=0, padding=6, end=3, end_name="fault",
            fault={"name": "unsupported-version IP-header", "text": "the IP version is 5, where 4 or 6 is required", "kind": 4,
                   "kind_name": "unsupported-version", "value": 5})),
    ]
    harness.equal([json.loads(line) for line in found.splitlines()], wanted, "objects")
    found = harness.run("show", "--json", "-c", "1", content=capture([ethernet(ipv6_chain([60] * 100))]))[1]
    long = json.loads(found)
    harness.equal((len(long["headers"]), "chain" in long), (100, False), "all headers")


def test_rows(harness):
    """--csv prints the members of --json as columns, those of the fault each with its own, and the numbers of the headers."""
    content = drawn_capture() + record(ethernet(b"\x50" + bytes(5)))
    status, found, errors, _ = harness.run("show", "--csv", content=content)
    harness.equal((status, errors), (0, ""), "--csv")
    names, *found = csv.reader(found.decode().splitlines())
    harness.equal([len(row) for row in found], 6 * [len(names)], "values")
    first, other, four, truncated, _, faulty = [dict(zip(names, row)) for row in found]
    harness.equal({name: text for name, text in other.items() if text},
                  {"packet": "2", "time": "1970-01-01T00:16:41.000006Z", "frame_len": "60", "captured_len": "60", "other_protocol": "EtherType 0x0806",
                   "other_protocol_name": "ARP"},
                  "not IP")
    harness.equal((first["headers"], first["header_names"], first["src"], first["dst"], first["identification"], first["payload_number"]),
                  ("0 43 44", "hop-by-hop routing fragment", "2001:db8::1", "2001:db8::2", "7", "17"), "headers")
    harness.equal((four["headers"], four["version"], four["payload_len"], four["fault_kind"], four["fragment"]), ("", "4", "8", "", ""), "IPv4")
    harness.equal((truncated["fault_required_len"], truncated["fault_offset"], truncated["end"]), ("8", "48", "2"), "truncated")
    harness.equal((faulty["src"], faulty["padding"], faulty["fault_value"]), ("", "6", "5"), "another version")
    for line, row in zip(harness.run("show", "--json", content=content)[1].splitlines(), found):
        packet = json.loads(line)
        fault = packet.pop("fault", {})
        headers = packet.pop("headers", [])
        numbers, texts = [" ".join(str(header[name]) for header in headers) for name in ("number", "name")]
        wanted = {**packet, "headers": numbers, "header_names": texts, **{f"fault_{name}": number for name, number in fault.items()}}
        harness.equal({name: str(wanted.get(name, "")) for name in names}, dict(zip(names, row)), "the same as --json")
    harness.equal(harness.run("show", "--csv", content=capture([]))[1].decode().count("\n"), 1, "no packet")


# names of protocols that tshark has in other words
OTHER_NAMES = {0: "IPv6 Hop-by-Hop Option", 4: "IPIP", 33: "Datagram Congestion Control Protocol", 43: "Routing Header for IPv6", 44: "Fragment Header for IPv6",
               46: "Reservation Protocol", 47: "Generic Routing Encapsulation", 50: "Encap Security Payload", 51: "Authentication Header",
               59: "No Next Header for IPv6", 60: "Destination Options for IPv6", 89: "OSPF IGP", 97: "Ether in IP", 115: "Layer 2 Tunneling",
               135: "Mobile IPv6", 137: "MPLS in IP", 140: "Shim6 header"}
PORTS = [("tcp", 6), ("udp", 17), ("dccp", 33), ("sctp", 132), ("udplite", 136)]


def described(packet):
    """What an object of --json says that tshark says too."""
    return [str(packet.get(name, "")) for name in ("src", "dst", "hop_limit", "src_port", "dst_port")]


def test_tshark_agrees(harness):
    """Addresses, hop limits, ports, fragments and names are those that tshark finds, in each form of files."""
    draw, frames = random.Random(5), random_frames(200, 9)
    for outer, (_, number) in itertools.product((ipv4, ipv6), PORTS * 3):
        one = bytearray(outer(number, struct.pack(">HH", draw.randrange(1 << 16), draw.randrange(1 << 16)) + (TCP if number == 6 else UDP)[4:] + bytes(20)))
        one[8 if outer is ipv4 else 7] = draw.randrange(256)
        frames.append(ethernet(bytes(one)))
    frames += [ethernet(ipv4(17, UDP + bytes(4), bits)) for bits in (0x2000, 0x2010, 0x0010)]
    frames += [ethernet(ipv6(44, fragment(17, at, more, 9 + at) + UDP + bytes(4))) for at, more in [(0, 1), (2, 1), (5, 0)]]
    fields = ["ip.src", "ipv6.src", "ip.dst", "ipv6.dst", "ip.ttl", "ipv6.hlim"] + [name % it for name in ("%s.srcport", "%s.dstport") for it, _ in PORTS[:-1]]
    fragments = ["ip.frag_offset", "ipv6.fraghdr.offset", "ipv6.fraghdr.ident"]
    for content in (capture(frames), capture(frames, magic=NANOSECONDS, order=">"), section(">") + interface(order=">") + b"".join(packet(it, order=">") for it in frames)):
        path = harness.file(content)
        options = [word for name in fields + fragments for word in ("-e", name)] + ["-E", "occurrence=f", "-o", "ip.defragment:FALSE", "-o", "ipv6.defragment:FALSE"]
        rows = [line.split("\t") for line in harness.tshark(path, "-T", "fields", *options).decode().splitlines()]
        ours = [json.loads(line) for line in harness.run("show", "--json", path)[1].splitlines()]
        harness.equal(len(rows), len(ours), "packets")
        for row, one in zip(rows, ours):
            theirs = dict(zip(fields + fragments, row))
            wanted = ["".join(theirs[it] for it in names) for names in (fields[:2], fields[2:4], fields[4:6], fields[6:10], fields[10:])]
            harness.equal(described(one), wanted, one)
            if one.get("fragment", 0) > 1:
                units = int(theirs["ip.frag_offset"] or theirs["ipv6.fraghdr.offset"])
                harness.equal(one["fragment_offset"], 8 * units, "offset of a fragment", one)
            if one.get("fragment") and one["version"] == 6:
                harness.equal(one["identification"], int(theirs["ipv6.fraghdr.ident"], 16), "identification", one)


def test_names_of_numbers(harness):
    """Each number has the name that tshark has for it, and ends of chains and faults have those of `stat`."""
    path = harness.file(capture([ethernet(ipv6(number, bytes(40))) for number in range(256)]))
    trees = xml.etree.ElementTree.fromstring(harness.tshark(path, "-T", "pdml"))
    shown = [next(it.get("showname") for it in one.iter("field") if it.get("name") == "ipv6.nxt") for one in trees.findall("packet")]
    for number, line in enumerate(harness.run("show", "--json", path)[1].splitlines()):
        one = json.loads(line)
        first = one["headers"][0] if one["headers"] else {"number": one["payload_number"], "name": one.get("payload_name", "")}
        theirs = shown[number].partition(": ")[2].rpartition(" (")[0]
        harness.equal(first["number"], number, "number")
        harness.check(first.get("name", "") in ("", theirs) or OTHER_NAMES.get(number) == theirs, "name", first, theirs)
    rows = [ipv6(0, options(43, 3) + routing(17)[:5]), ipv6_chain([43, 60, 0]), ipv6(51, b"\x11\0" + bytes(14)), ipv6(60, b"\x11\4" + bytes(6)),
            ipv4(51, b"\x11\0" + bytes(14)), b"\x50" + bytes(40), ipv4(17, UDP, words=4), ipv4(17, UDP, total_len=19), ipv6_chain([60], 44, b"")]
    cut = [ipv6(60, b"", 40), ipv6(44, b"", 40), ipv6(51, b"", 40), b"", ipv4(17, UDP)[:9], ipv6(17, UDP)[:30]]
    for packets, table in ((rows, "faults"), (cut, "truncated_headers")):
        path = harness.file(capture(packets, RAW))
        found = collections.Counter(json.loads(line)["fault"]["name"] for line in harness.run("show", "--json", path)[1].splitlines())
        harness.equal(found, harness.stat(path)[0][table], table)
    for packet_bytes in rows:
        one = json.loads(harness.run("show", "--json", content=capture([packet_bytes], RAW))[1])
        text = one["fault"]["text"]
        harness.check(("^ " + text).encode() in harness.run("show", content=capture([packet_bytes], RAW))[1], text)


def test_large_offsets(harness):
    """Where offsets have five digits, they do in each row of that packet, and the marks are below their bytes."""
    content = capture([ethernet(ipv6_chain([60] * 8190 + [0], 17, b"")), ethernet(ipv6_chain([60], 17, b""))], snap_len=262144)
    rows = harness.run("show", content=content)[1].decode().split("\n")
    harness.equal(rows[1], "00000  60 00 00 00 ff f8 3c 40 20 01 0d b8 00 00 00 00", "the first row")
    harness.equal(rows[2], "       [-------------------- IPv6 --------------------", "its marks")
    last = rows.index("10010  00 00 01 04 00 00 00 00 11 00 01 04 00 00 00 00")
    harness.equal(rows[last - 2:last], ["10000  3c 00 01 04 00 00 00 00 3c 00 01 04 00 00 00 00",
                                        "       [ destination-options ] [ destination-options ]"], "the row before")
    harness.equal(rows[last + 1], "       [ destination-options ]", "the last marks")
    harness.check(rows[last + 2].startswith(" " * 31 + "^ "), rows[last + 2])
    harness.check(rows[last + 5].startswith("0000  60 "), "the next packet", rows[last + 5])


def carets(found):
    """Yields each caret of a drawing: the offset of the byte above it, and its text."""
    row = 0
    for line in found.decode().split("\n"):
        if line[:4].strip() and line[4:6] in ("", "  "):
            row = int(line[:4], 16)
        elif line.strip().startswith("^ "):
            yield row + (line.index("^") - 6) // 3, line.strip()[2:]


def test_places_of_faults(harness):
    """The caret is below the first byte of the faulty header."""
    short, cut, length = "not enough bytes for the ", "truncated: not enough bytes for the ", "the length field of the "
    cases = [(ipv6(0, options(43, 3) + routing(17)[:5]), 40 + 32,
              short + "routing header at offset 72: 8 needed, 5 there by the payload length"),
             (ipv6(43, b"\x11"), 40, short + "routing header at offset 40: 8 needed, 1 there by the payload length"),
             (ipv6_chain([43, 60, 0]), 56,
              "the hop-by-hop options header at offset 56 doesn't follow the IPv6 header directly"),
             (ipv6(51, b"\x11\0" + bytes(14)), 40, length + "authentication header at offset 40 is 0"),
             (ipv4(51, b"\x11\0" + bytes(14)), 20, length + "authentication header at offset 20 is 0"),
             (ipv6(60, b""), 40, cut + "destination options header at offset 40: 8 needed, 0 there"),
             (ipv6(0, b""), 40, cut + "hop-by-hop options header at offset 40: 8 needed, 0 there"),
             (ipv6_chain([60, 60, 60], 44, b""), 64,
              short + "fragment header at offset 64: 8 needed, 0 there by the payload length"),
             (ipv4(17, UDP, total_len=19), 0, short + "IPv4 packet at offset 0: 20 needed, 19 there by the total length"),
             (b"\x50" + bytes(40), 0, "the IP version is 5, where 4 or 6 is required"),
             (ipv4(17, UDP, words=4), 0,
              "the internet header length of the IPv4 header is 4, where at least 5 is required"),
             (b"", 0, cut + "IP header at offset 0: 1 needed, 0 there"),
             (ipv4(17, b"")[:19], 0, cut + "IPv4 header at offset 0: 20 needed, 19 there"),
             (ipv4(51, authentication(17)[:9], words=7, option_bytes=bytes(8)), 28,
              short + "authentication header at offset 28: 24 needed, 9 there by the total length")]
    for packet, place, words in cases:
        status, found, _, _ = harness.run("show", content=capture([ethernet(packet)]))
        drawn = list(carets(found))
        harness.equal((status, len(drawn), drawn[0][0] if drawn else None), (0, 1, place), packet.hex(),
                      found.decode())
        harness.equal(drawn[0][1], words, packet.hex())
    for kept, place, needed in [(0, 0, 1), (16, 0, 40), (39, 0, 40), (40, 40, 8), (47, 40, 8), (48, 48, 8), (49, 48, 8),
                                (50, 48, 24), (71, 48, 24), (72, 72, 8)]:
        frame = ethernet(ipv6(0, options(43) + routing(44, 2) + fragment(17) + UDP))
        found = harness.run("show", content=file_header() + record(frame, 14 + kept))[1]
        drawn = [(at, words.startswith("truncated: "), words[words.index("offset"):]) for at, words in carets(found)]
        harness.equal(drawn, [(place, True, "offset %d: %d needed, %d there" % (place, needed, kept - place))],
                      kept, "bytes kept")


def test_long_packets(harness):
    """A chain is drawn completely. After it some bytes are drawn, and the number of remaining bytes is printed."""
    found = harness.run("show", content=capture([ethernet(ipv6_chain([0], 17, bytes(1000)))]))[1].decode()
    harness.check(found.endswith("      and 968 bytes more\n"), found)
    found = harness.run("show", content=capture([ethernet(ipv6_chain([60] * 2000, 17, b""))]))[1].decode()
    harness.check("IPv6 2000 headers -> 17\n" in found, "a long chain")
    harness.equal(found.count(" destination-options "), 2000, "headers of a long chain")


def test_addresses(harness):
    """Addresses are as the system writes them."""
    draw = random.Random(1)
    values = [bytes(16), bytes(15) + b"\1", bytes(12) + b"\xc0\0\2\1", bytes(10) + b"\xff\xff\xc0\0\2\1", b"\xff" * 16,
              bytes(10) + b"\xff\xff" + bytes(4), bytes(10) + b"\0\1" + bytes(4), bytes(13) + b"\1\0\0"]
    for bits in range(256):
        values.append(b"".join(draw.choice([b"\0\1", b"\x0a\0", b"\xff\xff"]) if bits >> i & 1 else b"\0\0" for i in range(8)))
    frames = [ethernet(ipv6(59, b"")[:8] + one + other) for one, other in zip(values, values[1:] + values[:1])]
    frames += [ethernet(ipv4(59, b"")[:12] + one[:8]) for one in values]
    found = list(csv.DictReader(harness.run("show", "--csv", content=capture(frames))[1].decode().splitlines()))
    wanted = [(socket.inet_ntop(socket.AF_INET6, one), socket.inet_ntop(socket.AF_INET6, other))
              for one, other in zip(values, values[1:] + values[:1])]
    wanted += [(socket.inet_ntop(socket.AF_INET, one[:4]), socket.inet_ntop(socket.AF_INET, one[4:8])) for one in values]
    harness.equal([(row["src"], row["dst"]) for row in found], wanted, "addresses")


def test_buffers(harness):
    """Each form has the same text packet by packet, as from a pipe, and in larger parts."""
    content = capture(random_frames(1500, 3))
    path = harness.file(content)
    for form in [[], ["--one-line"], ["--json"], ["--csv"], ["--color=always"]]:
        whole = harness.run("show", *form, path)
        harness.check(len(whole[1]) > 1 << 16 and whole[0] == 0, form, len(whole[1]))
        harness.equal(harness.run("show", *form, content=content), whole, form)


def numbers_of(text):
    """The numbers of the packets in lines."""
    return [int(line.split()[1].strip(",:")) for line in text.decode().splitlines() if line.startswith("packet ")]


def test_conditions(harness):
    """Packets that meet a condition are shown, with their numbers in the capture."""
    syn, arp = ipv4(6, TCP), ethernet(bytes(28), (), 0x0806)
    frames = [ethernet(ipv6_chain([0], 6, TCP)), arp, ethernet(ipv4(17, UDP)), ethernet(syn, (0x8100,)), ethernet(ipv6_chain([44])),
              ethernet(LATER_FRAGMENT), ethernet(ipv4(6, TCP, 0x2000)), arp, ethernet(syn)]
    content = capture(frames)
    path, ng = harness.file(content), harness.file(section() + interface() + b"".join(map(packet, frames)))
    for words, wanted in [(["tcp"], [1, 4, 7, 9]), (["header", "44"], [5, 6]), (["tcp and not ip6"], [4, 7, 9]),
                          (["fragment", "or", "udp"], [3, 5, 6, 7]), (["not", "ip", "and", "not", "ip6"], [2, 8]), (["port", "53"], []),
                          (["any"], list(range(1, 10))), (["mismatched"], [])]:
        for file in (path, ng):
            status, found, errors, _ = harness.run("show", "--one-line", *words, file)
            harness.equal((status, numbers_of(found), errors), (0, wanted, ""), words)
        found = [json.loads(line)["packet"] for line in harness.run("show", "--json", *words, "-", content=content)[1].splitlines()]
        harness.equal(found, wanted, words, "--json")
        found = list(csv.DictReader(harness.run("show", "--csv", " ".join(words), path)[1].decode().splitlines()))
        harness.equal([int(row["packet"]) for row in found], wanted, words, "--csv")
        drawn = harness.run("show", *words, path)[1]
        alone = [harness.run("show", "-c", "1", "--", "any", harness.file(file_header() + record(frames[number - 1], None, 999 + number, 4 + number)))[1]
                 for number in wanted]
        alone = [text.replace(b"packet 1:", b"packet %d:" % number, 1) for text, number in zip(alone, wanted)]
        harness.equal(drawn, b"\n".join(alone), words, "drawings")
    theirs = harness.tshark(path, "-o", "ip.defragment:FALSE", "-Y", "tcp", "-T", "fields", "-e", "frame.number").split()
    harness.equal(numbers_of(harness.run("show", "--one-line", "leads-to tcp", path)[1]), list(map(int, theirs)), "as tshark numbers them")
    harness.equal(numbers_of(harness.run("show", "-c", "2", "--one-line", "tcp", path)[1]), [1, 4], "-c 2")
    data = udp(53, bytes(300))
    parts = [ipv6(44, fragment(17, at, at < 24, 5) + data[8 * at:8 * at + 96]) for at in (0, 12, 24, 36)]
    parts = harness.file(capture([arp, ethernet(parts[0]), ethernet(syn), ethernet(parts[1]), ethernet(parts[2])[:14 + 48 + 96]]))
    harness.equal(numbers_of(harness.run("show", "--one-line", "port 53", parts)[1]), [2], "the first fragment")


def test_wrong_conditions(harness):
    """What is no condition, or has no file after it, is refused."""
    path = harness.file(capture([]))
    for arguments, words in [(["tcp"], "after a condition, show needs a file, or `-` for standard input"),
                             (["header", "44"], "after a condition, show needs a file, or `-` for standard input"),
                             ([path, path], "show reads a single file"), ([path, "x", path], "show reads a single file")]:
        found = harness.run("show", *arguments)
        harness.equal(found, (2, b"", "ipcap: %s; see `ipcap show --help`\n" % words, None), arguments)
    found = harness.run("show", "frob", path)
    harness.check(found[0] == 2 and found[2].startswith("ipcap: condition: expected ") and "'frob' in column 1\n  frob\n  ^\n" in found[2], found[2])
    found = harness.run("show", "tcp", "and", path)
    harness.check(found[0] == 2 and "found the end\n  tcp and\n         ^\n" in found[2], found[2])
    found = harness.run("show", "net", "10.1.2.3/8", path)
    harness.check(found[0] == 2 and "10.0.0.0/8 is meant" in found[2], found[2])
    found = harness.run("show", "tcp", "/nonexistent/x")
    harness.equal(found, (1, b"", "ipcap: /nonexistent/x: No such file or directory\n", None), "no such file")


def tcpdump(path, *arguments):
    """Returns what tcpdump prints of a capture, or None if it is missing."""
    if not shutil.which("tcpdump"):
        print("what tcpdump prints: skipped, tcpdump missing")
        return None
    return subprocess.run(["tcpdump", "-n", "-t", *arguments, "-r", path], stdout=subprocess.PIPE, stderr=subprocess.DEVNULL).stdout.decode()


def has_our_names():
    """Whether tcpdump is the version that has the names that ipcap has. Later ones may have more."""
    return "4.99.3" in subprocess.run(["tcpdump", "--version"], stdout=subprocess.PIPE, stderr=subprocess.STDOUT).stdout.decode()


def test_details(harness):
    """Ports, flags of TCP, types of ICMP messages, fragments and EtherTypes are those that tcpdump prints."""
    frames = [ethernet(outer(number, TCP if number == 6 else UDP + bytes(20))) for outer in (ipv4, ipv6) for number in (6, 17, 33, 132)]
    frames += [ethernet(ipv6_chain([0, 60], 17, UDP)), ethernet(ipv6(44, fragment(17, 0, 1) + UDP + bytes(4))), ethernet(LATER_FRAGMENT)]
    frames += [ethernet(ipv6(0, options(44) + fragment(60, 0, 1, 0xFEDCBA98) + options(17) + UDP + bytes(4))),
               ethernet(ipv6(44, fragment(17, 185, 0) + bytes(9))), ethernet(ipv6(44, fragment(17) + UDP))]
    frames += [ethernet(ipv4(17, UDP + bytes(4), bits)) for bits in (0x2000, 0x2010, 0x6010, 0x0010, 0xE001, 0x4000, 0x8000)]
    frames += [ethernet(ipv4(6, TCP[:13] + bytes([flags]) + TCP[14:])) for flags in range(256)]
    path = harness.file(capture(frames))
    ours = harness.run("show", "--one-line", path)[1].decode().splitlines()
    theirs = tcpdump(path, "-v")
    theirs = ours if theirs is None else re.split(r"\n(?=IP)", re.sub(r"\n\s+(?!0x)", " ", theirs))
    harness.equal(len(ours), len(theirs), "packets")
    for line, wanted in zip(ours, theirs if theirs is not ours else []):
        ends = re.search(r"([0-9a-f.:]+) > ([0-9a-f.:]+): ", wanted)
        source, destination = ends[1], ends[2]
        inner = re.search(r" (?:DSTOPT|RT6|frag|HBH).*? (\d+) > (\d+): ", wanted)
        if inner:
            source, destination = "%s.%s" % (source, inner[1]), "%s.%s" % (destination, inner[2])
        harness.check(", %s > %s, " % (source, destination) in line, "addresses and ports", line, wanted)
        fragmented = re.search(r"frag \(0x[^)]*\)", wanted)
        harness.equal(re.findall(r"frag \([^)]*\)", line), [fragmented[0]] if fragmented else [], line, wanted)
        of_ipv4 = re.search(r"(id \d+, offset (\d+), flags \[([^]]*)\]), proto .*?, (length \d+)\)", wanted)
        is_part = of_ipv4 and (of_ipv4[2] != "0" or "+" in of_ipv4[3])
        harness.equal(re.findall(r"id \d+, offset .*?, length \d+", line), ["%s, %s" % (of_ipv4[1], of_ipv4[4])] if is_part else [], line, wanted)
        flags = re.findall(r"Flags \[[^]]*\]", wanted)
        harness.equal(re.findall(r"Flags \[[^]]*\]", line), flags, line, wanted)
    for payload, number, wanted in [(UDP[:1], 17, ("", "")), (UDP[:2], 17, (".1000", "")), (UDP[:3], 17, (".1000", "")), (UDP[:4], 17, (".1000", ".2000")),
                                    (UDP, 136, (".1000", ".2000")), (UDP, 59, ("", ""))]:
        line = harness.run("show", "--one-line", content=capture([ethernet(ipv4(number, payload))]))[1].decode()
        harness.check(", 192.0.2.1%s > 192.0.2.2%s, " % wanted in line, payload, line)
    for payload, wanted in [(TCP[:13], "-> 6\n"), (TCP[:14], "-> 6, Flags [S]\n")]:
        line = harness.run("show", "--one-line", content=capture([ethernet(ipv4(6, payload))]))[1].decode()
        harness.check(line.endswith(wanted), payload, line)
    faulty = harness.run("show", "--one-line", content=capture([ethernet(ipv6(60, options(17, 3)[:8]))]))[1].decode()
    harness.check("2001:db8::1 > 2001:db8::2, " in faulty and faulty.endswith("-> 60 fault\n"), faulty)


# Types of ICMPv6 that tcpdump names, and that are for private experiments (RFC 4443, section 2.1).
EXPERIMENTS = {200, 201}


def test_icmp_types(harness):
    """The name of each type of ICMP messages begins what tcpdump prints of it."""
    quoted = bytes(4) + ipv4(17, UDP)
    frames = [ethernet(ipv4(1, bytes([kind, 0, 0, 0]) + quoted)) for kind in range(256)]
    frames += [ethernet(ipv6(58, bytes([kind, 0, 0, 0]) + bytes(60))) for kind in range(256)]
    path = harness.file(capture(frames))
    ours = harness.run("show", "--one-line", path)[1].decode().splitlines()
    theirs = tcpdump(path)
    theirs = None if theirs is None else [line for line in theirs.splitlines() if line.startswith("IP")]
    harness.equal((len(ours), theirs is None or len(theirs)), (512, theirs is None or 512), "messages")
    has_names = theirs is not None and has_our_names()
    for kind, (line, wanted) in enumerate(zip(ours, theirs or [])):
        name = line[line.index("ICMP"):]
        theirs_name = wanted[wanted.index("ICMP"):]
        begins = theirs_name.startswith(name)
        if kind == 3:
            begins = name == "ICMP unreachable" and " unreachable, " in theirs_name
        if kind in (256 + 139, 256 + 140):
            begins = name[len("ICMP6, "):] in theirs_name
        is_named = not re.search(r"type-#|unknown icmp6 type", name)
        harness.check(begins or kind - 256 in EXPERIMENTS or not (is_named or has_names), "type", kind, name, wanted)
    line = harness.run("show", "--one-line", content=capture([ethernet(ipv4(1, bytes([3, 4, 0, 0]) + quoted))]))[1]
    harness.check(line.endswith(b"-> 1, ICMP unreachable, code 4\n"), line)
    for part, wanted in [(b"", b"-> 58\n"), (b"\x80", b"-> 58, ICMP6, echo request\n"), (b"\xc8\3", b", ICMP6, unknown icmp6 type (200), code 3\n")]:
        line = harness.run("show", "--one-line", content=capture([ethernet(ipv6(58, part))]))[1]
        harness.check(line.endswith(wanted), line)


def test_names_of_ethertypes(harness):
    """What isn't IP is named by its EtherType as tcpdump names it, or by another number."""
    types = [it for it in range(0x600, 0x10000) if it not in (0x0800, 0x86DD, 0x8100, 0x88A8, 0x9100, 0x9200, 0x8847, 0x8848, 0x8864, 0x8870, 0x88E5)]
    path = harness.file(capture([ethernet(bytes(46), (), it) for it in types]))
    ours = harness.run("show", "--one-line", path)[1].decode().splitlines()
    theirs = tcpdump(path, "-e", "-q")
    theirs = None if theirs is None else [line for line in theirs.splitlines() if " > " in line and "length 60" in line]
    harness.equal((len(ours), theirs is None or len(theirs)), (len(types), theirs is None or len(types)), "frames")
    has_names = theirs is not None and has_our_names()
    for number, line, wanted in zip(types, ours, theirs or []):
        if "ethertype Unknown" in line and not has_names:
            continue
        name = re.search(r"02:00:00:00:00:01, (.*?), length 60", wanted)[1]
        name = "Unknown" if name.startswith("Unknown Ethertype") else name
        harness.check(line.endswith(", 60 bytes, not IP, ethertype %s (0x%04x)" % (name, number)), number, line, wanted)
    for frame, wanted in [(ethernet(b"\x42\x42\x03", (), 38), "not IP, LLC 0x42"), (ethernet(bytes(28), (0x8100,), 0x0806), "not IP, ethertype ARP (0x0806)"),
                          (ethernet(b"\0\1\1\x40\0", (), 0x8847), "not IP, ethertype MPLS unicast (0x8847)"),
                          (ethernet(b"\0\1\1\x40\0", (), 0x8848), "not IP, ethertype MPLS multicast (0x8848)"), (ethernet(b"")[:13], "not IP")]:
        line = harness.run("show", "--one-line", content=capture([frame]))[1].decode()
        harness.check(line.endswith(" bytes, %s\n" % wanted), wanted, line)


def test_colors(harness):
    content = capture([ethernet(ipv6_chain([0, 43])), ethernet(ipv6(60, b"\x11"))])
    plain = harness.run("show", content=content)[1]
    harness.check(b"\033" not in plain, "no colour in a pipe")
    for arguments in [["--color=never"], ["--color=auto"], ["--color", "never", "-"]]:
        harness.equal(harness.run("show", *arguments, content=content)[1], plain, arguments)
    colored = harness.run("show", "--color=always", content=content)[1]
    harness.check(b"\033[35m" in colored and b"\033[1;31m^" in colored, "colours")
    harness.equal(colored.replace(b"\033[1;31m", b"").replace(b"\033[33m", b"").replace(b"\033[35m", b"")
                  .replace(b"\033[1m", b"").replace(b"\033[0m", b""), plain, "colours taken away")
