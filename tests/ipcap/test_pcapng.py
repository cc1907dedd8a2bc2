"""Tests of pcapng files, which are made here block by block. Where tshark is named, it reads the same files."""

import json
import os
import random
import struct
import subprocess
import threading

from blocks import *
from captures import *
from test_use import refuse_each

COMMANDS = [["stat"], ["show"], ["filter", "header 44"]]
PRISM_HEADER = 119
REFUSED = "link layer PRISM_HEADER (802.11 plus Prism header) isn't supported"
ANY = "fault or not fault"
PACKET = ipv6_chain([0, 44])
OTHER = ipv4(17, UDP)
# An interface's link type in files, and a frame of it with the packet.
LINKS = [(ETHERNET, ethernet), (RAW, lambda it: it), (SLL, lambda it: cooked(it, 0x86DD if it[0] >> 4 == 6 else 0x0800)),
         (NULL, lambda it: struct.pack("<I", 30 if it[0] >> 4 == 6 else 2) + it), (IPV6, lambda it: it),
         (100, lambda it: b"\xaa\xaa\x03\0\0\0" + (b"\x86\xdd" if it[0] >> 4 == 6 else b"\x08\0") + it)]
UNKNOWN = [block(5, bytes(12)), block(4, END), block(0x0BAD, b"\0\0\0\1comment"), block(0x80000001, bytes(99)), block(10, b"")]


def fields(harness, path, *names):
    """Returns what tshark finds in each frame."""
    arguments = [word for name in names for word in ("-e", name)]
    return [line.split("\t") for line in harness.tshark(path, "-T", "fields", *arguments).decode().splitlines()]


def objects(harness, *arguments, content=b"", status=0):
    found = harness.run("show", "--json", *arguments, content=content)
    harness.equal(found[0], status, arguments, found[2])
    return [json.loads(line) for line in found[1].splitlines()]


def several_interfaces(order="<"):
    """Returns a section with an interface of each kind and packets of all of them, and their number."""
    content = section(order)
    for link_layer, _ in LINKS:
        content += interface(link_layer, 65535, order=order)
    for number, (link_layer, frame) in enumerate(LINKS):
        for it in [PACKET, OTHER] if link_layer != IPV6 else [PACKET, PACKET]:
            content += packet(frame(it), number, 1000000000 + number, order=order)
        content += block(0x12345678, b"unknown", order)
    return content, 2 * len(LINKS)


def test_interfaces(harness):
    """Packets of interfaces of several kinds, in both byte orders, and in several sections."""
    for orders in ["<", ">", "<>", "><<"]:
        parts = [several_interfaces(order) for order in orders]
        content, count = b"".join(it for it, _ in parts), sum(it for _, it in parts)
        path = harness.file(content, ".pcapng")
        found, errors = harness.stat(path)
        fours = (len(LINKS) - 1) * len(orders)
        harness.equal((found["packets"], found["ipv4"], found["chains"], found["other_frames"], errors),
                      (count, fours, {"IPv6 0,44 -> 17": count - fours, "IPv4 -> 17": fours}, 0, ""), orders)
        harness.equal(harness.stat(content=content)[0], found, "standard input", orders)
        shown = objects(harness, path)
        wanted = fields(harness, path, "frame.number", "frame.len", "frame.time_epoch", "ipv6.src", "ip.src")
        harness.equal([[str(it["packet"]), str(it["frame_len"]), it["src"]] for it in shown],
                      [[number, length, six or four] for number, length, _, six, four in wanted], "tshark", orders)
        harness.equal([it["time"][-11:-1] for it in shown], [time[-10:] for _, _, time, _, _ in wanted], "times", orders)
    for kind in [packet, simple, obsolete]:
        content = section() + UNKNOWN[0] + interface() + UNKNOWN[2] + kind(ethernet(PACKET)) + UNKNOWN[3]
        found, _ = harness.stat(content=content)
        harness.equal(found["chains"], {"IPv6 0,44 -> 17": 1}, kind)
    harness.equal(harness.stat(content=section())[0]["packets"], 0, "no interface and no packet")
    harness.equal(harness.stat(content=section(version=(1, 2)) + interface())[0]["packets"], 0, "version 1.2")


# The options of an interface, the units of a timestamp, and the time.
TIMES = [(b"", 1000000005, "1970-01-01T00:16:40.000005000Z"), (option(9, b"\6"), 1, "1970-01-01T00:00:00.000001000Z"),
         (option(9, b"\x09"), 1795852800123456789, "2026-11-28T08:00:00.123456789Z"),
         (option(9, b"\0"), 1000, "1970-01-01T00:16:40.000000000Z"),
         (option(9, b"\x03") + END, 1000500, "1970-01-01T00:16:40.500000000Z"),
         (option(9, b"\x0c"), 1000000000007000, "1970-01-01T00:16:40.000000007Z"),
         (option(9, b"\x8a"), 1024 * 1000 + 512, "1970-01-01T00:16:40.500000000Z"),
         (option(9, b"\xa0"), (1000 << 32) + (1 << 31), "1970-01-01T00:16:40.500000000Z"),
         (option(2, b"eth0") + option(14, struct.pack("<q", 3600)), 5, "1970-01-01T01:00:00.000005000Z"),
         (option(14, struct.pack("<q", -3600)), 7200000001, "1970-01-01T01:00:00.000001000Z"),
         (option(14, struct.pack("<q", -1)), 10**6 + 1, "1970-01-01T00:00:00.000001000Z"),
         (option(9, b"\0"), 1 << 32, "2106-02-07T06:28:16.000000000Z"),
         (option(9, b"\x09"), (1 << 64) - 1, "2554-07-21T23:34:33.709551615Z"),
         (option(9, b"\x13"), (1 << 64) - 1, "1970-01-01T00:00:01.844674407Z"),
         (option(9, b"\xbf"), (1 << 64) - 1, "1970-01-01T00:00:01.999999999Z")]


# The options of an interface and the units of a timestamp where 64 bits don't hold the time in nanoseconds, or the units of a second.
NO_TIMES = [(option(14, struct.pack("<q", -1)), 1), (option(9, b"\0"), 18446744074), (option(9, b"\0"), (1 << 64) - 1),
            (option(14, struct.pack("<q", (1 << 63) - 1)), 10**9), (option(9, b"\x14"), 1), (option(9, b"\xc0"), 1)]


def test_times(harness):
    """Resolutions, offsets, times after 2^32 seconds, and packets without a time."""
    for options, units, wanted in TIMES:
        content = section() + interface(options=options) + packet(ethernet(PACKET), units=units)
        harness.equal(objects(harness, content=content)[0]["time"], wanted, options, units)
        for name, kept in [("--since", content), ("--until", section() + interface(options=options))]:
            harness.equal(harness.run("filter", ANY, name, wanted, content=content), (0, kept, "", None), name, wanted)
    for options, units in NO_TIMES:
        content = section() + interface(options=options) + packet(ethernet(PACKET), units=units)
        harness.equal("time" in objects(harness, content=content)[0], False, options, units)
    content = section() + interface() + simple(ethernet(PACKET)) + packet(ethernet(OTHER))
    shown = objects(harness, content=content)
    harness.equal(["time" in it for it in shown], [False, True], "a simple packet")
    lines = harness.run("show", "--one-line", content=content)[1]
    harness.check(lines.startswith(b"packet 1: no time, 2001:db8::1.1000 > "), lines)
    harness.equal(harness.run("filter", ANY, content=content)[1], content, "without a range of time")
    head = section() + interface()
    for arguments in [["--since", "0"], ["--until", "9999-01-01T00:00:00Z"]]:
        harness.equal(harness.run("filter", ANY, *arguments, content=content)[1], head + packet(ethernet(OTHER)), arguments)


def test_lengths(harness):
    """Packets that are truncated, by the snap length or by their block."""
    frame = ethernet(PACKET)
    for content, kept in [(packet(frame, kept=60), 60), (simple(frame, 60), 60), (packet(frame, kept=0), 0)]:
        shown = objects(harness, content=section() + interface(snap_len=60) + content)
        harness.equal((shown[0]["frame_len"], shown[0]["captured_len"]), (len(frame), kept), kept)
    shown = objects(harness, content=section() + interface(snap_len=1 << 20) + packet(frame + bytes(500000)))
    harness.equal(shown[0]["captured_len"], len(frame) + 500000, "a long packet")


def test_left_out(harness):
    """Interfaces with other link layers are named once, and their packets are numbered and left out."""
    head = section() + interface() + interface(PRISM_HEADER) + interface(PRISM_HEADER) + interface(60000)
    packets = [packet(bytes(60), 1), packet(ethernet(PACKET)), packet(bytes(60), 2), packet(ethernet(OTHER)),
               packet(bytes(60), 3)]
    content = head + b"".join(packets)
    words = "interface 1: %s; interface 3: link layer 60000 isn't supported\n" % REFUSED
    path = harness.file(content, ".pcapng")
    found = harness.run("stat", "--json", path)
    counts = json.loads(found[1])
    harness.equal((found[0], found[2]), (1, "ipcap: %s: %s" % (path, words)), "stat")
    harness.equal((counts["packets"], counts["other_frames"]), (2, 0), "stat")
    for command in harness.commands("count"):
        harness.equal(harness.answer(command, [path], b"", None)[:3], (1, found[1], words[:-1]), command)
    found = harness.run("show", path)
    lines = [it for it in found[1].splitlines() if it.startswith(b"packet ")]
    harness.equal([it.split(b":")[0] for it in lines], [b"packet 2", b"packet 4"], "show")
    harness.equal(found[1].count(b"\n\n"), 1, "show")
    harness.equal(len(harness.run("show", "--one-line", "-c", "1", path)[1].splitlines()), 1, "show -c")
    found = harness.run("filter", ANY, path)
    harness.equal(found[:3], (1, head + packets[1] + packets[3], "ipcap: %s: %s" % (path, words)), "filter")
    found = harness.run("filter", "--packets", "1-2", ANY, path)
    harness.equal(found[1], head + packets[1], "--packets")
    content = section() + interface(PRISM_HEADER) + packet(bytes(60))
    path = harness.file(content, ".pcapng")
    for command in [["stat"], ["stat", "--json"], ["show"], ["filter", "fault"]]:
        wanted = (1, b"", "ipcap: %s: interface 0: %s\n" % (path, REFUSED), None)
        harness.equal(harness.run(*command, path), wanted, command)
    later = section() + interface() + packet(ethernet(PACKET)) + interface(PRISM_HEADER) + packet(bytes(60), 1)
    found = harness.run("show", "--one-line", content=later + packet(ethernet(OTHER)))
    harness.equal((found[0], found[1].count(b"\n"), found[2]), (1, 2, "ipcap: standard input: interface 1: %s\n" % REFUSED), "later")


def test_copies(harness):
    """The output for a pcapng file has its blocks as they are, except for packets and what must not be copied."""
    comment = option(1, b"a comment")
    names = option(2, b"eth0") + option(9, b"\x09") + END
    private, statistics = block(0x40000BAD, b"\0\0\0\1private"), block(5, struct.pack("<III", 0, 0, 9))
    packets = [packet(ethernet(PACKET), 0, 1000000000000000007, options=comment + END), packet(ethernet(OTHER), 0),
               packet(PACKET, 1, 5, options=comment), packet(OTHER, 1), simple(ethernet(PACKET)), obsolete(PACKET, 1)]
    for order in "<>":
        start = section(order, length=99, options=option(4, b"a program", order))
        inner = UNKNOWN[0] + UNKNOWN[2] if order == "<" else block(0x80000001, bytes(99), order)
        if order == ">":
            packets = [packet(ethernet(PACKET), 0, 7, order=order), packet(ethernet(OTHER), 0, order=order),
                       packet(PACKET, 1, 5, order=order), packet(OTHER, 1, order=order),
                       simple(ethernet(PACKET), order=order), obsolete(PACKET, 1, order=order)]
            names, private, statistics = [b"", block(0x40000BAD, b"\0\0\0\1private", order), block(5, bytes(12), order)]
        head = [interface(ETHERNET, 65535, names, order), inner, interface(RAW, order=order)]
        content = start + head[0] + private + b"".join(head[1:]) + packets[0] + statistics + b"".join(packets[1:]) + private
        wanted = section(order, options=option(4, b"a program", order)) + b"".join(head) + packets[0] + statistics
        wanted += packets[2] + b"".join(packets[4:])
        again = start + head[0] + private + start + head[0] + packets[0]
        harness.equal(harness.run("filter", "header 44", content=content), (0, wanted, "", None), order)
        found = harness.run("filter", "header 44", "-w", "{}", harness.file(content))
        harness.equal(found, (0, b"", "", wanted), order, "-w")
        found = harness.run("filter", "header 44", content=again)
        new = section(order, options=option(4, b"a program", order)) + head[0]
        harness.equal(found, (0, new + new + packets[0], "", None), "sections", order)
        path = harness.file(wanted, ".pcapng")
        # tshark also lists blocks that are no packets
        rows = [row for row in fields(harness, path, "frame.interface_id", "frame.comment", "frame.interface_name")
                if row[0]]
        harness.equal([row[0] for row in rows], ["0", "1", "0", "1"], "interfaces, by tshark")
        if order == "<":
            harness.equal([row[1] for row in rows], ["a comment", "a comment", "", ""], "comments, by tshark")
            harness.equal([row[2] for row in rows[::2]], ["eth0", "eth0"], "names, by tshark")
            times = [row[1] for row in fields(harness, path, "frame.interface_id", "frame.time_epoch") if row[0]]
            harness.equal(times[0], "1000000000.000000007", "nanoseconds, by tshark")
    head, first = section() + interface(), packet(ethernet(PACKET))
    harness.equal(harness.run("filter", "-c1", ANY, content=head + first + first[:9]), (0, head + first, "", None), "-c")
    with open("/dev/full", "wb") as full:
        for content in [head, head + first * 3, head + UNKNOWN[3] * 2000]:
            found = harness.run("filter", ANY, content=content, output=full)
            harness.equal((found[0], found[2]), (1, "ipcap: standard output: No space left on device\n"), len(content))


def test_among_files(harness):
    """With several files, the output is a classic one, with the link layer of the first."""
    frame = ethernet(PACKET)
    classic = harness.file(capture([frame]))
    head = section() + interface() + interface(RAW) + interface(options=option(9, b"\0"))
    path = harness.file(head + packet(PACKET, 1) + packet(frame) + packet(PACKET, 1) + simple(frame), ".pcapng")
    wanted = file_header(snap_len=262144, magic=NANOSECONDS) + record(frame, None, 1000, 5000)
    simple_record = record(frame, None, 0, 0)
    words = "ipcap: %s: packet 1 and others like it are left out: its link layer isn't that of the output\n" % path
    found = harness.run("filter", ANY, path, classic)
    harness.equal(found, (1, wanted + simple_record + record(frame, None, 1000, 5000), words, None), "first")
    found = harness.run("filter", ANY, classic, path)
    harness.equal(found, (1, wanted + record(frame, None, 1000, 5000) + simple_record, words, None), "second")
    found = harness.run("filter", ANY, harness.file(section(), ".pcapng"), classic)
    harness.equal(found, (0, wanted, "", None), "a file without interfaces")
    for other, reason in [(packet(frame, 2, 1 << 32), "time"), (packet(frame + bytes(262144)), "length")]:
        later = harness.file(head + other + packet(frame, 2, (1 << 32) - 1), ".pcapng")
        words = "ipcap: %s: packet 1 and others like it are left out: the classic pcap format has no such %s\n" % (later, reason)
        last = record(frame, None, (1 << 32) - 1, 0)
        harness.equal(harness.run("filter", ANY, classic, later), (1, wanted + last, words, None), reason)


ODD = "block at offset @ states %d bytes, which is too few or no multiple of 4"
LONG_BLOCK = "block at offset @ states %d bytes, more than 16777216"
TRUNCATED = "block at offset @ is truncated: %d bytes needed, %d there"
LONG = "block at offset @ states %d captured bytes, %d are left"
NO_INTERFACE = "block at offset @ has a packet of interface %d, which isn't described"
OPTION = "block at offset @ has an option of %d bytes, %d are left"
VERSION = "block at offset @ states version %s, not 1.0 or 1.2"

# Bytes after a section and an Ethernet interface, and the error, in which @ is the offset of the last block.
HOSTILE = [
    (struct.pack("<II", 6, 0) + bytes(40), ODD % 0), (struct.pack("<II", 6, 11) + bytes(40), ODD % 11),
    (struct.pack("<II", 6, 33) + bytes(40), ODD % 33), (struct.pack("<II", 6, 0xFFFFFFFC) + bytes(40), LONG_BLOCK % 0xFFFFFFFC),
    (struct.pack("<II", 99, 16777220) + bytes(40), LONG_BLOCK % 16777220),
    (struct.pack("<II", 99, 16777216) + bytes(40), TRUNCATED % (16777216, 48)),
    (struct.pack("<II", 6, 32), TRUNCATED % (12, 8)), (packet(b"frame")[:-1], TRUNCATED % (40, 39)),
    (packet(b"frame")[:-4] + bytes(4), "block at offset @ states 40 bytes at its start and 0 at its end"),
    (block(6, bytes(16)), ODD % 28), (block(6, b""), ODD % 12), (block(2, bytes(16)), ODD % 28), (block(3, b""), ODD % 12),
    (block(6, struct.pack("<IIIII", 0, 0, 0, 5, 5) + bytes(4)), LONG % (5, 4)),
    (block(2, struct.pack("<HHIIII", 0, 0, 0, 0, 0xFFFFFFFF, 5) + bytes(4)), LONG % (0xFFFFFFFF, 4)),
    (block(3, struct.pack("<I", 0x7FFFFFFF) + bytes(8)), LONG % (0x7FFFFFFF, 8)),
    (packet(b"frame", 1), NO_INTERFACE % 1), (obsolete(b"frame", 65535), NO_INTERFACE % 65535),
    (section() + packet(b"frame"), NO_INTERFACE % 0), (section() + simple(b"frame"), NO_INTERFACE % 0),
    (b"\x0a\x0d\x0d\x0a" + struct.pack("<II", 28, 0x1A2B3C4E) + bytes(16), "block at offset @ has no byte-order magic"),
    (b"\x0a\x0d\x0d\x0a" + struct.pack("<II", 24, 0x1A2B3C4D) + bytes(16), ODD % 24),
    (section(version=(2, 0)), VERSION % "2.0"), (section(version=(1, 1)), VERSION % "1.1"),
    (block(1, bytes(4)), ODD % 16),
    (interface(options=struct.pack("<HH", 2, 5) + bytes(4)), OPTION % (5, 4)),
    (interface(options=struct.pack("<HH", 9, 65535)), OPTION % (65535, 0)),
    (section(options=struct.pack("<HH", 1, 9) + bytes(4)), OPTION % (9, 4)),
    (packet(b"frame", options=struct.pack("<HH", 1, 5) + bytes(4)), OPTION % (5, 4)),
    (packet(b"frame", options=struct.pack("<HH", 0, 1)), OPTION % (1, 0)),
    (block(2, struct.pack("<HHIIIIHH", 0, 0, 0, 0, 0, 0, 1, 3)), OPTION % (3, 0)),
    (block(3, struct.pack("<I", 5) + bytes(12)), "block at offset @ states 5 captured bytes, and 12 are left"),
    (block(5, bytes(8)), ODD % 20), (block(5, bytes(12) + struct.pack("<HH", 2, 9) + bytes(8)), OPTION % (9, 8)),
]


def test_hostile(harness):
    """Lengths and numbers that can't be right are refused, with the offset of their block."""
    good = packet(ethernet(PACKET))
    start = section() + interface()
    for content, words in HOSTILE:
        before = len(start) + (len(section()) if content.startswith(section()) else 0)
        found = harness.run("show", "--one-line", content=start + content)
        wanted = ["ipcap: standard input: %s%s\n" % (it, words.replace("@", str(before))) for it in ("", "can't read packet 1: ")]
        harness.check(found[:2] == (1, b"") and found[2] in wanted, words, found)
        found = harness.run("show", "--one-line", content=start + good + content)
        wanted = "ipcap: standard input: can't read packet 2: %s\n" % words.replace("@", str(before + len(good)))
        harness.equal((found[0], found[1].count(b"\n"), found[2]), (1, 1, wanted), words, "after a packet")
    many = harness.file(start + interface() * 65535 + packet(ethernet(PACKET), 65535), ".pcapng")
    harness.equal(harness.stat(many)[0]["packets"], 1, "many interfaces")
    names = section() + block(4, bytes(16777204)) + interface() + packet(ethernet(PACKET))
    words = "ipcap: standard input: no interface is described in the first 16777216 bytes\n"
    harness.equal(harness.run("stat", content=names), (1, b"", words, None), "a late interface")
    more = harness.file(start + interface() * 65536, ".pcapng")
    status, _, errors, _ = harness.run("stat", more)
    harness.check(status == 1 and " describes one interface more than the 65536 that there is memory for\n" in errors, errors)


def test_truncated(harness):
    """Of a truncated file, all packets before the damage are read."""
    parts = [section(), interface(), UNKNOWN[3], packet(ethernet(PACKET)), UNKNOWN[0],
             packet(ethernet(OTHER), options=option(1, b"it"))]
    content = b"".join(parts)
    ends = [sum(map(len, parts[:i])) for i in range(len(parts) + 1)]
    for kept in range(4, len(content)):
        found = harness.answer(harness.plain, ["show", "--one-line"], content[:kept], None)
        packets = sum(kept >= end for end in (ends[4], ends[6]))
        start = max(end for end in ends if end <= kept)
        there = kept - start
        needed = 12 if there < 12 else len(parts[ends.index(start)])
        words = "" if kept in ends else "block at offset %d is truncated: %d bytes needed, %d there\n" % (start, needed, there)
        harness.equal((found[0], found[1].count(b"\n"), found[2].partition("offset")[2]),
                      (int(kept not in ends), packets, words.partition("offset")[2]), kept)


def test_damaged(harness):
    """Whatever bytes are changed, each command ends in an orderly way."""
    draw = random.Random(11)
    content = several_interfaces("<")[0] + UNKNOWN[2] + several_interfaces(">")[0] + simple(b"frame")
    for number in range(120):
        changed = bytearray(content)
        for _ in range(draw.choice([1, 2, 5, 20])):
            changed[draw.randrange(4, len(changed))] = draw.choice([0, 1, 255, draw.randrange(256)])
        status, _, errors, _ = harness.run(*COMMANDS[number % 3], content=bytes(changed))
        harness.equal(status == 0, errors == "", bytes(changed).hex(), errors)


def test_between_programs(harness):
    """Each block is written when it arrives, before the next one does."""
    parts = [packet(ethernet(PACKET)), UNKNOWN[2], section(">"), interface(RAW, order=">"), packet(PACKET, order=">")]
    head = section() + interface()
    for command in [harness.plain, harness.sanitized, harness.checked]:
        process = subprocess.Popen(command + ["filter", "header 44"], stdin=subprocess.PIPE, stdout=subprocess.PIPE,
                                   env=harness.environment)
        watch = threading.Timer(60, process.kill)
        watch.start()
        os.write(process.stdin.fileno(), head + parts[0])
        harness.equal(process.stdout.read(len(head + parts[0])), head + parts[0], "the first packet")
        for part in parts[1:]:
            os.write(process.stdin.fileno(), part)
            harness.equal(process.stdout.read(len(part)), part, part.hex())
        process.stdin.close()
        harness.equal((process.wait(), process.stdout.read()), (0, b""), "the end")
        process.stdout.close()
        watch.cancel()


def test_refused_memory(harness):
    """Each failed allocation is an error, unless the program gets by without that memory."""
    path = harness.file(several_interfaces()[0], ".pcapng")
    refuse_each(harness, ["stat", path])
    refuse_each(harness, ["filter", "header 44", path])
