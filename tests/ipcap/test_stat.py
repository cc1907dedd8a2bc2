"""Tests of `ipcap stat`. Expected values were worked out by hand from the bytes, except where tshark is named."""

import collections
import gzip
import json
import os
import random
import re
import xml.etree.ElementTree as ElementTree

from captures import *
import expected
from expected import statistics

SHORT_NAMES = {0: "hop-by-hop", 43: "routing", 44: "fragment", 51: "authentication", 60: "destination-options"}


def faulty_packets():
    """Yields packets with their error, the text of their chain, and its length in bytes."""
    for number in [0, 43, 60]:
        first = header(number, 17, 2)
        for kept in [1, 7, 8, 23]:
            yield ipv6(number, first[:kept]), "too-short " + SHORT_NAMES[number], "IPv6 -> %d fault" % number, 0
    for kept in [0, 7]:
        yield ipv6(60, options(44) + fragment(17)[:kept]), "too-short fragment", "IPv6 60 -> 44 fault", 8
    for kept in [0, 11, 12, 23]:
        part = authentication(17)[:kept]
        yield ipv6(43, routing(51, 1) + part), "too-short authentication", "IPv6 43 -> 51 fault", 16
        yield ipv4(51, part), "too-short authentication", "IPv4 -> 51 fault", 0
    for before in [0, 43, 60]:
        yield ipv6_chain([before, 0]), "not-at-start hop-by-hop", "IPv6 %d -> 0 fault" % before, 8
    yield ipv6_chain([44, 0]), "not-at-start hop-by-hop", "IPv6 44 -> 0 fault", 8
    zero = b"\x11\0" + bytes(22)
    yield ipv6(51, zero), "zero-length authentication", "IPv6 -> 51 fault", 0
    yield ipv6(0, options(51) + zero), "zero-length authentication", "IPv6 0 -> 51 fault", 8
    yield ipv4(51, zero), "zero-length authentication", "IPv4 -> 51 fault", 0
    yield ipv4(51, authentication(17), total_len=19), "too-short IPv4-packet", "IPv4 -> 51 fault", 0
    yield ipv4(17, UDP, total_len=1), "too-short IPv4-packet", "IPv4 -> 17 fault", 0
    for packet, fault in [(b"\x50" + bytes(50), "unsupported-version IP-header"),
                          (b"\x00" + bytes(50), "unsupported-version IP-header"),
                          (ipv4(17, UDP, words=4), "header-length IPv4-header")]:
        yield packet, fault, None, 0


def test_faults(harness):
    packets = list(faulty_packets())
    for packet, fault, chain_text, chain_bytes in packets:
        found, _ = harness.stat(content=capture([packet], RAW))
        wanted = statistics(packets=1, at_fault=1, faults={fault: 1}, without_header=int(chain_text is None))
        if chain_text:
            numbers = re.findall(r"\d+", chain_text)[1:-1]
            wanted["ipv" + chain_text[3]] = 1
            wanted["atomic_fragments"] = numbers.count("44")
            wanted.update(chains={chain_text: 1}, chain_bytes={str(chain_bytes): 1}, headers=dict.fromkeys(numbers, 1),
                          chain_headers={str(len(numbers)): 1})
        harness.equal(found, wanted, "packet", packet.hex())
    found, _ = harness.stat(content=capture([packet for packet, *_ in packets], RAW))
    harness.equal(sum(found["faults"].values()), len(packets), "all faults in one capture")


def test_incomplete_packets(harness):
    """Bytes that are missing within the length that a packet states, or if it states none, are not an error."""
    packets = [(ipv6_chain([0])[:-1], "IPv6 0 -> 17"), (ipv4(17, UDP, total_len=33), "IPv4 -> 17"),
               (ipv6(44, b""), "IPv6 -> 44 truncated"),
               (ipv6(60, options(43) + routing(17)[:5], 0), "IPv6 60 -> 43 truncated"),
               (ipv6_chain([0, 43])[:50], "IPv6 0 -> 43 truncated"),
               (ipv4(51, authentication(17)[:11], total_len=0), "IPv4 -> 51 truncated"),
               (ipv4(51, authentication(17))[:33], "IPv4 -> 51 truncated"),
               (b"", None), (ipv6(17, UDP)[:39], None), (ipv4(17, b"")[:19], None), (ipv4(17, b"", words=6), None)]
    for packet, chain_text in packets:
        found, _ = harness.stat(content=capture([packet], RAW))
        harness.equal((found["chains"], found["without_header"], found["faults"]),
                      ({chain_text: 1} if chain_text else {}, int(chain_text is None), {}), "packet", packet.hex())


def test_bounds_of_packets(harness):
    """Bytes after the end that a packet's length field states, such as padding, aren't part of the packet."""
    def chains(packet):
        return harness.stat(content=capture([ethernet(packet)]))[0]["chains"]
    harness.equal(chains(ipv6(0, options(43) + routing(17), payload_len=8)), {"IPv6 0 -> 43 fault": 1}, "padding")
    harness.equal(chains(ipv4(17, b"") + bytes(26)), {"IPv4 -> 17": 1}, "IPv4 in a short frame")
    harness.equal(chains(ipv6(0, options(43) + routing(17), payload_len=0)), {"IPv6 0,43 -> 17": 1}, "jumbogram")
    offloaded = ipv4(51, authentication(17) + UDP, total_len=0)
    harness.equal(chains(offloaded), {"IPv4 51 -> 17": 1}, "segmentation offload")
    words = ipv4(51, authentication(17) + UDP, words=15, option_bytes=b"\1" * 40)
    harness.equal(chains(words), {"IPv4 51 -> 17": 1}, "IPv4 with options")


def test_fragments(harness):
    """A fragment header with a non-zero offset is followed by payload, whatever its next header field says."""
    packets = [(ipv6(44, fragment(60, 0, 1) + options(17) + UDP), "IPv6 44,60 -> 17", 1),
               (ipv6(44, fragment(60, 0, 0) + options(17) + UDP), "IPv6 44,60 -> 17", 0),
               (ipv6(44, fragment(60, 1, 0) + options(17) + UDP), "IPv6 44 -> 60", 1),
               (ipv6(44, fragment(0, 8191, 1) + b"\xff" * 8), "IPv6 44 -> 0", 1),
               (ipv6(0, options(44) + fragment(51, 9, 1) + bytes(8)), "IPv6 0,44 -> 51", 1),
               (ipv4(51, authentication(17) + UDP, 0x2000), "IPv4 51 -> 17", 1),
               (ipv4(51, authentication(17) + UDP, 0x4000), "IPv4 51 -> 17", 0),
               (ipv4(51, bytes(24), 0x0001), "IPv4 -> 51", 1), (ipv4(17, UDP, 0x3fff), "IPv4 -> 17", 1),
               (LATER_FRAGMENT, "IPv6 44 -> 60", 1)]
    for packet, chain_text, fragments_wanted in packets:
        found, _ = harness.stat(content=capture([packet], RAW))
        harness.equal((found["chains"], expected.fragments(found), found["faults"]), ({chain_text: 1}, fragments_wanted, {}),
                      "packet", packet.hex())
    # The kind is that of the first fragment header that makes the payload a fragment. So middle and last fragments are as
    # many as end at a later fragment, but for a first fragment that does too, and IPv4 fragments with a fault.
    names = ["atomic_fragments", "first_fragments", "middle_fragments", "last_fragments", "at_later_fragment"]
    for packet, wanted in [(ipv6(44, fragment(44, 0, 1) + fragment(17, 3, 1) + UDP), [0, 1, 0, 0, 1]),
                           (ipv6(44, fragment(44, 0, 0) + fragment(17, 3, 1) + UDP), [0, 0, 1, 0, 1]),
                           (ipv6(44, fragment(44, 0, 0) + fragment(17, 0, 0) + UDP), [1, 0, 0, 0, 0]),
                           (ipv6(44, fragment(44, 3, 0) + fragment(17, 0, 1) + UDP), [0, 0, 0, 1, 1]),
                           (ipv4(17, UDP, 5, total_len=19), [0, 0, 0, 1, 0]), (ipv4(17, UDP, 0x2005), [0, 0, 1, 0, 1])]:
        found, _ = harness.stat(content=capture([packet], RAW))
        harness.equal([found[name] for name in names], wanted, "several fragment headers", packet.hex())


def snapped(version, ends, numbers, final, kept, before):
    """Returns the chain of a packet truncated to `kept` bytes, with `before` bytes before the chain. Its headers end at
    `ends`, counted from the start of the chain."""
    if kept < before:
        return None
    whole = [n for n, end in zip(numbers, ends) if before + end <= kept]
    leads_to = (numbers + [final])[len(whole)]
    text = ",".join(map(str, whole)) + (" " if whole else "")
    return "IPv%d %s-> %d%s" % (version, text, leads_to, "" if len(whole) == len(numbers) else " truncated")


def test_snap_lengths(harness):
    """Packets truncated to every possible length."""
    six = ipv6(0, options(43) + routing(44, 2) + fragment(60) + options(17, 1) + UDP)
    four = ipv4(51, authentication(17) + UDP)
    for version, packet, numbers, ends, base in [(6, six, [0, 43, 44, 60], [8, 32, 40, 56], 40),
                                                 (4, four, [51], [24], 20)]:
        frame = ethernet(packet)
        kept = range(14, len(frame))
        wanted = {}
        for length in kept:
            text = snapped(version, ends, numbers, 17, length, 14 + base)
            wanted[text] = wanted.get(text, 0) + 1
        unread = wanted.pop(None)
        found, errors = harness.stat(content=file_header() + b"".join(record(frame, length) for length in kept))
        harness.equal((found["chains"], found["without_header"], found["truncated_frames"], found["faults"], errors),
                      (wanted, unread, len(kept), {}, ""), "snap lengths of IPv%d" % version)


def test_faults_in_truncated_packets(harness):
    """An error in the captured bytes is reported, and bytes missing from the capture are not an error."""
    zero = b"\x11\0" + bytes(22)
    for packet, kept, faults_wanted in [
            (ipv6_chain([60, 0]), 70, {"not-at-start hop-by-hop": 1}),
            (ipv6(51, zero + UDP), 70, {"zero-length authentication": 1}),
            (ipv4(51, zero + UDP), 60, {"zero-length authentication": 1}), (ipv6(51, zero), 55, {}),
            (ipv6(51, zero), 56, {"zero-length authentication": 1}),
            (ipv6(0, options(43) + routing(17) + bytes(99), payload_len=12), 90, {"too-short routing": 1}),
            (b"\x70" + bytes(90), 50, {"unsupported-version IP-header": 1}),
            (ipv4(17, UDP, words=3), 40, {"header-length IPv4-header": 1}),
            (ipv4(17, UDP, total_len=10), 40, {"too-short IPv4-packet": 1})]:
        found, _ = harness.stat(content=file_header() + record(ethernet(packet), kept))
        harness.equal((found["faults"], found["truncated_frames"]), (faults_wanted, 1), "packet", packet.hex())


def test_truncated_files(harness):
    whole = capture([ethernet(ipv6_chain([0]))] * 3)
    third = (len(whole) - 24) // 3 * 2 + 24
    for length in [third + 1, third + 15, third + 16, third + 40, len(whole) - 1]:
        path = harness.file(whole[:length])
        found, errors = harness.stat(path, status=1)
        harness.equal(found["packets"], 2, "packets of a file of", length, "bytes")
        needed = 16 if length < third + 16 else len(whole) - third
        words = "record at offset %d is truncated: %d bytes needed, %d there" % (third, needed, length - third)
        harness.equal(errors, "ipcap: %s: can't read packet 3: %s\n" % (path, words), "truncated")
    harness.equal(harness.stat(harness.file(whole[:third]))[0]["packets"], 2, "a file that ends after a packet")
    truncated, other = "the file header is truncated", "file header at offset 0 begins with no magic number of capture files"
    for content, words in [(b"", "the file is empty"), (whole[:3], truncated), (whole[:4], truncated), (whole[:23], truncated),
                           (b"text", other), (b"no capture at all, but some bytes", other)]:
        path = harness.file(content)
        found, errors = harness.stat(path, harness.file(whole), status=1)
        harness.equal(found["packets"], 3, "the capture after one that can't be read")
        harness.equal(errors, "ipcap: %s: %s\n" % (path, words), "no header")
    broken = capture([ethernet(ipv6_chain([0]))]) + struct.pack("<IIII", 0, 0, 0x7fffffff, 0x7fffffff) + bytes(60)
    harness.check("can't read packet 2: " in harness.stat(content=broken, status=1)[1], "a packet of 2 GB")


def test_what_cant_be_read(harness):
    for link_layer, words in [(119, "link layer PRISM_HEADER (802.11 plus Prism header) isn't supported"),
                              (163, "link layer IEEE802_11_RADIO_AVS (802.11 plus AVS radio information header) "
                                    "isn't supported"),
                              (60000, "link layer 60000 isn't supported")]:
        path = harness.file(capture([bytes(60)], link_layer))
        for command in ["stat", "show"]:
            harness.equal(harness.run(command, path)[0::2], (1, "ipcap: %s: %s\n" % (path, words)), command)
        harness.equal(harness.run("filter", "fault", path), (1, b"", "ipcap: %s: %s\n" % (path, words), None),
                      "filter")
    empty, compressed = harness.file(b""), harness.file(gzip.compress(b""), ".gz")
    for path in (empty, compressed):
        for command in (["stat"], ["show"], ["filter", "fault"], ["defrag"], ["rewrite", "--clear"]):
            harness.equal(harness.run(*command, path), (1, b"", "ipcap: %s: the file is empty\n" % path, None), command)
    harness.equal(harness.run("stat"), (1, b"", "ipcap: standard input: the file is empty\n", None), "standard input")
    harness.check("the file is empty" not in harness.run("stat", content=b"\xd4")[2], "one byte")
    for arguments in [[], ["--json"], ["--per-file"], ["--per-file", "--json"]]:
        words = "ipcap: /nonexistent: No such file or directory\nipcap: %s: Is a directory\n" % harness.folder
        found = harness.run("stat", *arguments, "/nonexistent", harness.folder)
        harness.equal(found, (1, b"", words, None), arguments)


def names():
    """Yields names of files, as they are printed in tables and in JSON."""
    yield b"a.pcap", b"a.pcap", "a.pcap"
    yield b"\033[31m\n\177", b"\\x1b[31m\\x0a\\x7f", "\\u001b[31m\\u000a\\u007f"
    yield b'"\\', b'"\\', "\\u0022\\u005c"
    for text in ["\u00e9", "\u07ff", "\u0800", "\ud7ff", "\ue000", "\uffff"]:
        yield text.encode(), text.encode(), "\\u%04x" % ord(text)
    yield "\U0001f600".encode(), "\U0001f600".encode(), "\\ud83d\\ude00"
    yield "\U0010ffff".encode(), "\U0010ffff".encode(), "\\udbff\\udfff"
    for wrong in [b"\x80", b"\xff", b"\xc3", b"\xc0\x80", b"\xc1\xbf", b"\xe0\x9f\xbf", b"\xed\xa0\x80", b"\xf0\x8f\xbf\xbf",
                  b"\xf4\x90\x80\x80", b"\xf8\x88\x80\x80\x80", b"\xe2\x82"]:
        yield wrong, "".join("\\x%02x" % byte for byte in wrong).encode(), "".join("\\udc%02x" % byte for byte in wrong)
    for text in ["\x80", "\x9b", "\x9f", "\u061c", "\u200e", "\u200f", "\u2028", "\u202e", "\u2066", "\u2069"]:
        yield text.encode(), "".join("\\x%02x" % byte for byte in text.encode()).encode(), "\\u%04x" % ord(text)
    for text in ["\xa0", "\u061b", "\u200d", "\u2010", "\u2027", "\u202f", "\u2065", "\u206a"]:
        yield text.encode(), text.encode(), "\\u%04x" % ord(text)


def test_files_apart(harness):
    """--per-file prints the counts of each file, with its name."""
    one, other = capture([ethernet(ipv4(6, TCP))]), capture([ethernet(ipv6_chain([0]))] * 2)
    folder = os.path.join(harness.folder, "names")
    os.mkdir(folder)
    paths, in_tables, in_json = [], [], []
    for name, *shown in names():
        paths.append(os.path.join(folder, os.fsdecode(name)))
        with open(paths[-1], "wb") as file:
            file.write(other)
        in_tables.append(b"file %s/%s\n" % (folder.encode(), shown[0]))
        in_json.append(b'{"version":"1.4","file":"%s/%s",' % (folder.encode(), shown[1].encode()))
    first, second = [harness.run("stat", content=it)[1] for it in (one, other)]
    wanted = b"file -\n" + first + b"".join(head + second for head in in_tables)
    harness.equal(harness.run("stat", "--per-file", "-", *paths, content=one), (0, wanted, "", None), "tables")
    first, second = [harness.run("stat", "--json", content=it)[1].partition(b",")[2] for it in (one, other)]
    wanted = b'{"version":"1.4","file":"-",' + first + b"".join(head + second for head in in_json)
    harness.equal(harness.run("stat", "--per-file", "--json", "-", *paths, content=one), (0, wanted, "", None), "JSON")
    harness.equal([json.loads(line)["file"] for line in wanted.splitlines()], ["-"] + paths, "the names in JSON")
    total = harness.run("stat", "--json", "-", *paths, content=one)
    harness.equal(harness.run("sum", "--json", content=wanted), total, "the sum")
    found = harness.run("stat", "--per-file", "/nonexistent", "-", content=one)
    wanted = (1, b"file -\n" + harness.run("stat", content=one)[1], "ipcap: /nonexistent: No such file or directory\n", None)
    harness.equal(found, wanted, "a file that can't be opened")


def test_side_by_side(harness):
    """Whatever -j is, output, messages and status are those of counting the files in turn."""
    draw = random.Random(3)
    contents = [capture(random_frames(draw.randrange(1, 200), seed)) for seed in range(9)]
    whole = [harness.file(content) for content in contents]
    broken = [harness.file(contents[0][:-1]), "/nonexistent", harness.folder, harness.file(b"no capture"),
              harness.file(capture([bytes(60)], 119))]
    many = [harness.file(capture([ipv6_chain([43] * count, number, b"") for number in range(140, 250)
                                  for count in range(start, start + 30)], RAW)) for start in [0, 20, 30]]
    for paths in [whole[:1], whole[:2], whole, broken, whole[:3] + broken + whole[3:], whole[:2] + ["-"] + whole[2:4],
                  ["-", whole[0], "-"], whole * 4, many]:
        for arguments in [[], ["--json"], ["--per-file"], ["--per-file", "--json"]]:
            wanted = harness.answer(harness.plain, ["stat", "-j1", *arguments, *paths], contents[4], None)
            for jobs in [["-j", "2"], ["-j", "5"], []]:
                found = harness.answer(harness.plain, ["stat", *arguments, *jobs, *paths], contents[4], None)
                harness.equal(found, wanted, jobs, arguments, paths)
            if len(paths) in (2, 14):
                harness.equal(harness.run("stat", "-j", "3", *arguments, *paths, content=contents[4]), wanted, arguments, paths)
    found = [harness.stat(path)[0]["packets"] for path in whole]
    harness.equal(harness.stat("-j", "18446744073709551615", *whole)[0]["packets"], sum(found), "the sum")
    with open("/dev/full", "wb") as full:
        found = harness.run("stat", "-j", "2", "--per-file", *whole, output=full)
        harness.equal(found[0::2], (1, "ipcap: standard output: No space left on device\n"), "a full disk")


def test_forms_of_files(harness):
    frames = [ethernet(ipv6_chain([0, 44])), ethernet(ipv4(17, UDP))]
    first, _ = harness.stat(content=capture(frames))
    for magic in [MICROSECONDS, NANOSECONDS]:
        for order in "<>":
            content = capture(frames, magic=magic, order=order)
            harness.equal(harness.stat(content=content), (first, ""), "standard input", magic, order)
            harness.equal(harness.stat(harness.file(content)), (first, ""), "a file", magic, order)
            harness.equal(harness.stat("-", content=content), (first, ""), "-", magic, order)


# tshark's fields with the number that follows a header: the header's own number, and the field with its length.
NEXT_FIELDS = {"ipv6.nxt": (None, None), "ip.proto": (None, None), "ipv6.hopopts.nxt": (0, "ipv6.hopopts.len_oct"),
               "ipv6.routing.nxt": (43, "ipv6.routing.len_oct"), "ipv6.fraghdr.nxt": (44, None),
               "ah.next_header": (51, "ah.length"), "ipv6.dstopts.nxt": (60, "ipv6.dstopts.len_oct")}


def end_of_header(packet, field):
    """Returns where the header with this next header field ends in the frame, by the length that tshark shows."""
    length_name, at = NEXT_FIELDS[field.get("name")][1], int(field.get("pos"))
    if length_name is None:
        return at + (8 if field.get("name") == "ipv6.fraghdr.nxt" else 1)
    for length in packet.iter("field"):
        if length.get("name") == length_name and int(length.get("pos")) == at + 1:
            # RFC 4302, section 2.2: in words of 4 bytes, minus 2. The other lengths are in bytes.
            return at + (4 * (int(length.get("value"), 16) + 2) if length_name == "ah.length" else int(length.get("show")))
    return at + 2048


def is_later_fragment(packet):
    offsets = [f.get("show") for f in packet.iter("field") if f.get("name") in ("ip.frag_offset", "ipv6.fraghdr.offset")]
    return any(int(offset, 0) for offset in offsets)


def is_fragment(packet):
    flags = [f.get("show") for f in packet.iter("field") if f.get("name") in ("ip.flags.mf", "ipv6.fraghdr.more")]
    return is_later_fragment(packet) or any(flag in ("1", "True") for flag in flags)


def chain_in(packet):
    """Returns the chain of the complete headers that tshark finds in a packet, from the next header fields."""
    fields = [f for f in packet.iter("field") if f.get("name") in NEXT_FIELDS]
    fields.sort(key=lambda f: int(f.get("pos")))
    if not fields:
        return None
    captured = int(packet.find("proto[@name='geninfo']/field[@name='caplen']").get("show"))
    fields = [f for f in fields if end_of_header(packet, f) <= captured]
    version = 6 if fields[0].get("name") == "ipv6.nxt" else 4
    numbers = [str(NEXT_FIELDS[f.get("name")][0]) for f in fields[1:]]
    final = int(fields[-1].get("value"), 16)
    is_truncated = final in (SHORT_NAMES if version == 6 else [51]) and not is_later_fragment(packet)
    return "IPv%d %s-> %d%s" % (version, ",".join(numbers) + " " if numbers else "", final,
                                " truncated" if is_truncated else "")


def random_frames(count, seed):
    """Returns frames with random chains."""
    draw = random.Random(seed)
    frames = []
    for _ in range(count):
        numbers = [0] * draw.choice([0, 0, 1])
        numbers += [draw.choice([43, 44, 51, 60]) for _ in range(draw.choice([0, 0, 1, 2, 3, 6]))]
        kind = draw.randrange(10)
        if kind == 0:
            frames.append(ethernet(bytes(46), (), 0x0806))
        elif kind < 3:
            frames.append(ethernet(ipv4(51, authentication(17) + UDP) if draw.randrange(2) else ipv4(6, TCP)))
        else:
            final, payload = draw.choice([(17, UDP), (6, TCP), (59, b"")])
            frames.append(ethernet(ipv6_chain(numbers, final, payload, draw.randrange(3))))
    return frames


def compare_with_tshark(harness, content, least):
    """Compares the chains, final numbers and fragments of a capture, with at least so many different chains."""
    path = harness.file(content)
    fragments_off = ["-o", "ipv6.defragment:FALSE", "-o", "ip.defragment:FALSE"]
    packets = list(ElementTree.fromstring(harness.tshark(path, *fragments_off, "-T", "pdml")).iter("packet"))
    chains = collections.Counter(map(chain_in, packets))
    not_ip = chains.pop(None, 0)
    finals = {False: collections.Counter(), True: collections.Counter()}
    for packet in packets:
        text = chain_in(packet)
        if text and not text.endswith(" truncated"):
            finals[is_later_fragment(packet)][text.split()[-1]] += 1
    found, _ = harness.stat(path)
    harness.check(len(chains) >= least, "chains that tshark finds:", len(chains))
    harness.equal((found["chains"], found["payload_numbers"], found["later_fragment_numbers"], expected.fragments(found),
                   found["other_frames"], found["packets"]),
                  (chains, finals[False], finals[True], sum(map(is_fragment, packets)), not_ip, len(packets) - not_ip),
                  "what tshark finds")


def test_tshark_agrees(harness):
    """tshark finds the same chains."""
    compare_with_tshark(harness, capture(random_frames(400, 1)), 50)


def jumbogram(numbers):
    """Returns a packet whose length is in a jumbo payload option (RFC 2675, section 2), with these headers after it."""
    following = chain(numbers, 17) + UDP + bytes(65536)
    jumbo = struct.pack(">BBBBI", (numbers + [17])[0], 0, 0xC2, 4, 8 + len(following))
    return ipv6(0, jumbo + following, payload_len=0)


def odd_packets():
    """Returns fragments of each kind, and packets whose length field is 0."""
    following = options(17) + UDP
    packets = [LATER_FRAGMENT]
    for offset, more in [(0, 0), (0, 1), (1, 0), (1, 1), (8191, 1), (8191, 0)]:
        for number in [60, 43, 51, 44, 17] if offset else [60]:
            packets.append(ipv6(44, fragment(number, offset, more) + following))
            packets.append(ipv6(60, options(44) + fragment(number, offset, more) + following))
            packets.append(ipv4(number if offset else 17, following, more << 13 | offset))
    packets += [jumbogram(numbers) for numbers in [[], [43], [60, 43], [43, 51, 60]]]
    packets.append(ipv6(6, TCP, payload_len=0))
    packets.append(ipv4(6, TCP, total_len=0))
    packets.append(ipv4(51, authentication(6) + TCP, total_len=0))
    return packets


def test_tshark_agrees_on_odd_packets(harness):
    """tshark finds the same chains in fragments, in packets without a length, and at every snap length."""
    compare_with_tshark(harness, capture([ethernet(packet) for packet in odd_packets()], snap_len=200), 15)
    for packet, base_len in [(ipv6(0, options(43, 1) + routing(51, 2) + authentication(44) + fragment(60)
                                   + options(17, 1) + UDP), 40),
                             (ipv6(0, options(44) + fragment(60, 185, 1) + options(17) + UDP), 40),
                             (jumbogram([43, 51, 60])[:100], 40),
                             (ipv4(51, authentication(17) + UDP), 20), (ipv4(51, authentication(17) + UDP, 3), 20)]:
        frame = ethernet(packet)
        records = [record(frame, kept) for kept in range(14 + base_len, len(frame) + 1)]
        compare_with_tshark(harness, file_header() + b"".join(records), 1)


def test_scapy_agrees(harness):
    """The chains of packets that scapy builds are the ones it was given."""
    from scapy.layers.inet import IP, UDP as ScapyUdp
    from scapy.layers.inet6 import (IPv6, IPv6ExtHdrDestOpt, IPv6ExtHdrFragment, IPv6ExtHdrHopByHop, IPv6ExtHdrRouting,
                                    PadN)
    from scapy.layers.ipsec import AH
    made = [(IPv6() / IPv6ExtHdrHopByHop(options=[PadN(optdata=bytes(12))])
             / IPv6ExtHdrRouting(addresses=["::1", "::2"]) / IPv6ExtHdrFragment(m=1) / ScapyUdp() / b"data",
             "IPv6 0,43,44 -> 17", 16 + 40 + 8),
            (IPv6() / IPv6ExtHdrDestOpt() / AH(nh=60, payloadlen=4, icv=bytes(12)) / IPv6ExtHdrDestOpt() / ScapyUdp(),
             "IPv6 60,51,60 -> 17", 40),
            (IP() / AH(nh=17, payloadlen=5, icv=bytes(16)) / ScapyUdp(), "IPv4 51 -> 17", 28),
            (IP() / ScapyUdp(), "IPv4 -> 17", 0)]
    for packet, chain_text, chain_bytes in made:
        found, _ = harness.stat(content=capture([ethernet(bytes(packet))]))
        harness.equal((found["chains"], found["chain_bytes"]), ({chain_text: 1}, {str(chain_bytes): 1}), chain_text)


def test_tables(harness):
    """The human-readable output."""
    path = harness.file(capture([ethernet(ipv6_chain([0, 43])), ethernet(ipv6_chain([0, 43])), ethernet(ipv4(6, TCP)),
                                 ethernet(ipv6(60, b"\x11")), ethernet(bytes(46), (), 0x0806)]))
    wanted = """packets
           1  frames without an IP packet
           4  IP packets
           1  IPv4 packets
           3  IPv6 packets
           3  headers that end at the payload
           1  headers that end at a fault
          44  payload bytes
protocols of frames without an IP packet
           1  EtherType 0x0806
chains
           2  IPv6 0,43 -> 17
           1  IPv4 -> 6
           1  IPv6 -> 60 fault
headers of a chain
           2  0
           2  2
least bytes of a chain
           2  0
           2  16
extension headers
           2  0 hop-by-hop
           2  43 routing
payloads
           2  17 UDP
           1  6 TCP
payloads of later fragments
truncated headers
faults
           1  too-short destination-options
"""
    harness.equal(harness.run("stat", path), (0, wanted.encode(), "", None), "tables")


def test_first_rows(harness):
    """--top limits the rows of each table. The others are summed up, also those of the table of protocols."""
    frames = [ethernet(bytes(46), (), 0x0800 + 2 + i) for i in range(7) for _ in range(7 - i)]
    frames += [ethernet(ipv4(6, TCP))] * 3 + [ethernet(ipv6_chain([0, 43]))] * 2 + [ethernet(ipv6(44, b""))]
    path = harness.file(capture(frames))
    rows = {"protocols": ["7  EtherType 0x0802", "6  EtherType 0x0803", "15  other"],
            "chains": ["3  IPv4 -> 6", "2  IPv6 0,43 -> 17", "1  other"], "headers of a chain": ["4  0", "2  2"],
            "least bytes": ["4  0", "2  16"], "extension headers": ["2  0 hop-by-hop", "2  43 routing"],
            "payloads": ["3  6 TCP", "2  17 UDP"], "payloads of later": [], "truncated headers": ["1  fragment"],
            "faults": []}
    def tables(*arguments):
        found = {}
        for line in harness.run("stat", *arguments, path)[1].decode().splitlines():
            if line.startswith(" "):
                list(found.values())[-1].append(line.strip())
            else:
                found[line] = []
        return list(found.values())[1:]
    harness.equal(tables("--top", "2"), list(rows.values()), "--top 2")
    wanted = [["7  EtherType 0x0802", "21  other"], ["3  IPv4 -> 6", "3  other"], ["4  0", "2  other"], ["4  0", "2  other"],
              ["2  0 hop-by-hop", "2  other"], ["3  6 TCP", "2  other"], [], ["1  fragment"], []]
    harness.equal(tables("--top=1"), wanted, "--top 1")
    harness.equal(len(tables("--top", "7")[0]), 7, "all protocols")
    harness.equal(len(tables()[0]), 6, "five protocols and the others")
    harness.equal(harness.run("stat", "--top", "1", "--json", path), harness.run("stat", "--json", path), "JSON has all")
    counted = harness.run("stat", "--json", path)[1]
    harness.equal(harness.run("sum", "--top", "2", content=counted), harness.run("stat", "--top", "2", path), "sum --top")


def test_tables_of_numbers(harness):
    """The last element of a table counts everything from there on, and equal counts are sorted by number."""
    packets = [ipv6_chain([60] * n) for n in [15, 16, 17, 64]] + [ipv6(60, options(17, 31) + UDP), ipv6_chain([60] * 8000)]
    found, _ = harness.stat(content=capture([ethernet(packet) for packet in packets], snap_len=262144))
    harness.equal(found["chain_headers"], {"16": 4, "1": 1, "15": 1}, "headers of a chain")
    harness.equal(found["chain_bytes"], {"120": 1, "128": 1, "136": 1, "256": 1, "512": 1, "32768": 1}, "bytes of a chain")
    harness.equal(found["headers"], {"60": 15 + 16 + 17 + 64 + 1 + 8000}, "extension headers")
    packets = [ipv6(44, fragment(17, 5, 1) + UDP), ipv6(44, fragment(6, 5, 0) + TCP), ipv6(44, fragment(17, 0, 1) + UDP),
               ipv6(44, fragment(58) + UDP), ipv4(1, bytes(8), 0x2000), ipv6_chain([0, 43])[:52], ipv6_chain([0, 43])[:60],
               ipv4(17, UDP)[:-1]]
    found, _ = harness.stat(content=capture(packets, RAW))
    harness.equal(found, statistics(
        packets=8, ipv4=2, ipv6=6, at_payload=5, at_later_fragment=2, at_truncated_header=1, atomic_fragments=1,
        first_fragments=2, middle_fragments=1, last_fragments=1, incomplete=3, payload_bytes=12 + 20 + 12 + 12 + 8 + 4 + 11,
        chains={"IPv4 -> 1": 1, "IPv4 -> 17": 1, "IPv6 0 -> 43 truncated": 1, "IPv6 44 -> 6": 1, "IPv6 44 -> 17": 2,
                "IPv6 44 -> 58": 1, "IPv6 0,43 -> 17": 1},
        chain_headers={"0": 2, "1": 5, "2": 1}, chain_bytes={"0": 2, "8": 5, "16": 1}, headers={"0": 2, "43": 1, "44": 4},
        payload_numbers={"1": 1, "17": 3, "58": 1}, later_fragment_numbers={"6": 1, "17": 1},
        truncated_headers={"routing": 1}), "fragments and truncated packets")
    harness.equal(list(found["later_fragment_numbers"]), ["6", "17"], "equal counts")
