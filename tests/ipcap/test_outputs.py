"""Tests that an output is readable whatever the input is, and whatever signals, streams and memory do."""

import gzip
import os
import re
import resource
import signal
import struct
import subprocess
import threading
import time

from blocks import block, interface, option, packet, section, simple
from captures import *
from test_defrag import frame, ipv6_part, ipv6_whole, payload, pieces
from test_use import refuse_each

# A block of this length has the same length in both byte orders.
PALINDROME = 0x00010100
EMPTY = section()


def filled(content, length=PALINDROME):
    """A frame with bytes after its packet, so that its enhanced packet block has this length."""
    return content + bytes(length - 32 - len(content))


def notes(room, order):
    """Comments that take this many bytes."""
    count = (room - 8) // 60004
    return option(1, bytes(60000), order) * count + option(1, bytes(room - 60004 * count - 4), order)


def test_byte_orders(harness):
    """Only the section header says in which byte order a block is, whatever the block's length is."""
    data = payload(8, 44)
    first, last = [frame(ipv6_part(9, *it)) for it in pieces(data, [24])]
    whole = frame(ipv6_whole(9, data))
    for order in "<>":
        head = section(order) + interface(order=order)
        for length in (PALINDROME, 3 * PALINDROME, PALINDROME + 4):
            old, new = [filled(ethernet(ipv6_chain(it)), length)[:length - 32] for it in ([0, 60], [60])]
            new = new[:length - 32 - 8]
            found = harness.run("rewrite", "--without", "0", content=head + packet(old, order=order))
            harness.check(found == (0, head + packet(new, order=order), "", None), "rewrite", order, length, found[2])
            content = head + packet(first, order=order) + packet(filled(last, length), units=1000000007, order=order)
            found = harness.run("defrag", content=content)
            harness.check(found == (0, head + packet(whole, units=1000000007, order=order), "", None), "defrag", order, length, found[2])
            late = [interface(RAW, it, notes(length - 20, order), order) for it in (96, 0)]
            found = harness.run("defrag", content=head + packet(whole, order=order) + late[0])
            harness.check(found[:2] == (0, head + packet(whole, order=order) + late[1]), "interface", order, length, found[2])


def test_secrets(harness):
    """A block with decryption secrets, whose type begins as that of a section header, is none."""
    data = payload(9, 44)
    parts = [frame(ipv6_part(9, *it)) for it in pieces(data, [24])]
    for order in "<>":
        keys = block(10, struct.pack(order + "II", 0x544C534B, 12) + b"CLIENT_RANDO", order)
        heads = [section(order) + keys + interface(snap_len=96, order=order) + keys,
                 section(order) + keys + interface(order=order) + keys]
        blocks = [packet(it, units=5, order=order) for it in parts] + [interface(snap_len=70, order=order)]
        found = harness.run("defrag", content=heads[0] + b"".join(blocks))
        wanted = heads[1] + packet(frame(ipv6_whole(9, data)), units=5, order=order) + interface(order=order)
        harness.equal(found, (0, wanted, "", None), "secrets", order)


def test_simple_packets(harness):
    """A simple packet block that was truncated stays readable without the snap length."""
    data = ethernet(ipv6_chain([0, 60])) + bytes(range(40))
    part = frame(ipv6_part(1, *pieces(payload(12, 60), [24, 16])[1]))
    for order in "<>":
        for kept in (0, 60, 61, len(data) - 1):
            content = section(order) + interface(snap_len=kept or 1, order=order) + simple(data, kept or 1, order)
            wanted = section(order) + interface(order=order) + simple(data[:kept or 1], order=order)
            found = harness.run("defrag", content=content)
            harness.equal(found, (0, wanted, "", None), "simple packet block", order, kept)
            path = harness.file(found[1], ".pcapng")
            harness.equal(harness.tshark(path, "-T", "fields", "-e", "frame.cap_len").strip(), b"%d" % (kept or 1), "tshark")
            harness.equal(harness.run("filter", "--defrag", "fault or not fault", content=content)[1], wanted, "filter --defrag")
        whole = section(order) + interface(snap_len=len(part), order=order) + simple(part, order=order)
        found = harness.run("defrag", "--keep", content=whole)
        harness.equal(found[1], section(order) + interface(order=order) + simple(part, order=order), "not truncated", order)


def test_kept_in_sections(harness):
    """A fragment that is kept stays in its section."""
    data = payload(10, 60)
    parts = [ipv6_part(number, *it) for number in (1, 2, 3) for it in pieces(data, [24, 16])]
    whole = ipv6_whole(3, data)
    name = option(2, b"eth9", ">") + struct.pack(">HH", 0, 0)
    one = section("<") + interface(RAW, 99) + interface(snap_len=99)
    two = section(">", options=option(4, b"a program", ">")) + interface(snap_len=99, options=name, order=">")
    late, three = interface(IPV6, 99, order=">"), section("<") + interface(IPV4)
    lifted = [it.replace(struct.pack(order + "I", 99), bytes(4)) for it, order in [(one, "<"), (two, ">"), (late, ">")]]
    content = (one + packet(parts[0], 0, 1) + packet(frame(parts[1]), 1, 2) + packet(frame(parts[6]), 1, 3)
               + two + packet(frame(parts[3]), 0, 4, order=">") + late + packet(parts[4], 1, 5, order=">") + packet(parts[7], 1, 6, order=">")
               + three + two + late + packet(parts[8], 1, 8, order=">"))
    wanted = (lifted[0] + lifted[1] + lifted[2] + three + lifted[1] + lifted[2] + packet(whole, 1, 8, order=">"))
    kept = (lifted[0] + packet(parts[0], 0, 1) + packet(frame(parts[1]), 1, 2)
            + lifted[1] + packet(frame(parts[3]), 0, 4, order=">") + lifted[2] + packet(parts[4], 1, 5, order=">")
            + three + lifted[1] + lifted[2] + packet(whole, 1, 8, order=">"))
    path = harness.file(content, ".pcapng")
    words = "ipcap: %s: 4 fragments of packets that aren't whole at the end\n" % path
    harness.equal(harness.run("defrag", path), (0, wanted, words, None), "without those kept")
    found = harness.run("defrag", "--keep", path)
    harness.equal(found, (0, kept, words, None), "sections")
    harness.equal(harness.run("defrag", "--keep", content=content)[1], kept, "sections in a pipe")
    written = harness.file(found[1], ".pcapng")
    fields = harness.tshark(written, "-T", "fields", "-e", "frame.number", "-e", "ipv6.src", "-e", "ipv6.fraghdr.ident", "-o", "ipv6.defragment:FALSE")
    rows = [line.split(b"\t") for line in fields.splitlines() if line]
    harness.equal([row[2] for row in rows], [b"0x00000001", b"0x00000001", b"0x00000002", b"0x00000002", b""], "tshark")
    for order in "<>":
        start = section(order) + interface(order=order)
        blocks = [packet(frame(it), order=order) for it in parts[:2]]
        found = harness.run("defrag", "--keep", content=section() + interface(RAW) + start + b"".join(blocks))
        harness.equal(found[1], section() + interface(RAW) + start + b"".join(blocks), "one section", order)


def test_stated_lengths(harness):
    """A frame that states fewer bytes than are removed gets no length below 0."""
    old, new = [ethernet(ipv6_chain(it)) for it in ([0, 60], [60])]
    for stated in (0, 4, 7, 8, 9, len(old)):
        left = max(0, stated - 8)
        content, wanted = [file_header() + struct.pack("<IIII", 1000, 5, len(it), length) + it for it, length in ((old, stated), (new, left))]
        harness.equal(harness.run("rewrite", "--without", "0", content=content), (0, wanted, "", None), "classic", stated)
        for order in "<>":
            head = section(order) + interface(order=order)
            content, wanted = [head + block(6, struct.pack(order + "IIIII", 0, 0, 5, len(it), length) + it, order)
                               for it, length in ((old, stated), (new, left))]
            harness.equal(harness.run("rewrite", "--without", "0", content=content), (0, wanted, "", None), order, stated)


def test_empty_outputs(harness):
    """Files without an interface make an output without one, in place of what was there."""
    paths = [harness.file(it, ".pcapng") for it in (section(), section(">") + block(5, bytes(12), ">"))]
    for command in [harness.plain, harness.sanitized, harness.checked]:
        output = harness.file(b"old contents" * 99, ".pcapng")
        found = harness.answer(command, ["filter", "fragment", "-w", output, *paths], b"", None)
        with open(output, "rb") as file:
            harness.equal((found[:3], file.read()), ((0, b"", ""), EMPTY), "-w", command)
        harness.equal(harness.tshark(output).strip(), b"", "tshark")
    harness.equal(harness.run("filter", "fragment", *paths), (0, EMPTY, "", None), "standard output")
    harness.equal(harness.stat(content=EMPTY)[0]["packets"], 0, "read again")
    found = harness.run("filter", "fragment", paths[0], "/nonexistent", paths[1])
    harness.equal(found[:2], (1, EMPTY), "one that is missing")
    with open("/dev/full", "wb") as full:
        found = harness.run("filter", "fragment", *paths, output=full)
        harness.equal((found[0], found[2]), (1, "ipcap: standard output: No space left on device\n"), "a full disk")
    found = harness.run("filter", "fragment", "-w", paths[0], *paths)
    harness.equal(found[:3], (1, b"", "ipcap: %s: input and output are the same file\n" % paths[0]), "the input")
    found = harness.run("filter", "fragment", "-w", "{}", "/nonexistent", "/nonexistent/2")
    harness.equal((found[0], found[3]), (1, None), "no file that can be read")


def test_memory_for_kept(harness):
    """If memory runs out for a fragment that is to be kept, the status says so."""
    data = payload(11, 60)
    parts = [frame(ipv6_part(number, *it)) for number in range(6) for it in pieces(data, [24, 16])[:2]]
    heads = [section() + interface(), section(">") + interface(order=">")]
    blocks = [heads[0]] + [packet(it) for it in parts] + [heads[1]] + [packet(it, order=">") for it in parts]
    for content in (capture(parts), b"".join(blocks)):
        refuse_each(harness, ["defrag", "--keep", harness.file(content)])


def test_room_for_kept(harness):
    """Fragments that are kept need no memory for their bytes."""
    part = frame(ipv6_part(1, *pieces(payload(13, 60), [24, 16])[1]))
    for head, long_frame in [(section() + interface(), packet(part + bytes(1 << 20))), (file_header(snap_len=262144), record(part + bytes(200000)))]:
        count = (400 << 20) // len(long_frame)
        path = harness.path(".gz")
        with gzip.open(path, "wb", 1) as file:
            file.write(head)
            for _ in range(count):
                file.write(long_frame)
        written = harness.path()
        status, _, errors, peak = harness.measure("defrag", "--keep", "--memory", "64M", "-w", written, path)
        harness.check(status == 0 and peak < 64 << 20 and "kept" not in errors, "memory", peak, status, errors)
        harness.check(0 <= os.path.getsize(written) - count * len(long_frame) < 1000, "written", count)
        os.remove(written)


def run_with(harness, command, arguments, prepare, content=b""):
    """Runs a build after `prepare` was called in its process. Returns status and standard output."""
    process = subprocess.run(command + arguments, input=content, stdout=subprocess.PIPE, stderr=subprocess.PIPE, preexec_fn=prepare,
                             env=harness.environment, timeout=300)
    return process.returncode, process.stdout


def test_closed_streams(harness):
    """Messages never go to a file that is opened."""
    content = capture([ethernet(ipv6_chain([0, 51]))] * 3)
    path, output = harness.file(content), harness.path()
    for command in [harness.plain, harness.sanitized]:
        for closed in ([2], [1, 2], [1]):
            found = run_with(harness, command, ["rewrite", "--without", "0", "-w", output], lambda: [os.close(it) for it in closed], content)
            with open(output, "rb") as file:
                harness.equal((found[0], file.read()), (0, content), "closed", closed)
        for arguments in (["stat", path], ["filter", "fragment", path], ["filter", "--number", "any", path], ["rewrite", "--without", "0", path], ["show", path],
                          ["show", "--tunnels", "ip6", path]):
            for closed in ([0, 1, 2], [1, 2]):
                found = run_with(harness, command, arguments, lambda: [os.close(it) for it in closed])
                harness.equal(found[0], 1, arguments, "without standard output", closed)
        found = run_with(harness, command, ["stat"], lambda: os.close(0))
        harness.equal(found, (1, b""), "without standard input")
        part = harness.file(capture([frame(ipv6_part(1, 0, True, bytes(8)))]))
        for closed in ([1], [1, 2], [0, 1, 2]):
            found = run_with(harness, command, ["defrag", "--report", "-", "-w", output, part], lambda: [os.close(it) for it in closed])
            with open(output, "rb") as file:
                harness.equal((found[0], file.read()), (1, file_header(snap_len=262144)), "a report without standard output", closed)
    with open(path, "rb") as file:
        harness.equal(file.read(), content, "the input")


def limit_files():
    resource.setrlimit(resource.RLIMIT_FSIZE, (1 << 22, 1 << 22))


def test_appended_outputs(harness):
    """Standard output that is the input is refused."""
    contents = [capture([ethernet(ipv6_chain([0]))] * 4000), section() + interface() + packet(ethernet(ipv6_chain([0]))) * 4000]
    for content in contents:
        path, other = harness.file(content), harness.file(content)
        for arguments in (["filter", "header 0"], ["filter", "header 0", "/dev/null"], ["filter", "--number", "header 0"], ["defrag"],
                          ["defrag", "--report", "/dev/null"], ["rewrite", "--without", "0"], ["show"], ["show", "--one-line", "any"], ["stat"],
                          ["stat", "--json", "/dev/null"], ["stat", "-j1", "--per-file", other]):
            for command in [harness.plain, harness.sanitized, harness.checked]:
                with open(path, "ab") as output:
                    process = subprocess.run(command + arguments + [path], stdout=output, stderr=subprocess.PIPE, preexec_fn=limit_files,
                                             env=harness.environment, timeout=300)
                with open(path, "rb") as file:
                    is_same = file.read() == content
                words = process.stderr.decode()
                harness.check(process.returncode == 1 and is_same and "standard output: input and output are the same file\n" in words,
                              arguments, process.returncode, words)
        for arguments in (["show"], ["stat"]):
            with open(path, "rb") as given, open(path, "ab") as output:
                process = subprocess.run(harness.plain + arguments, stdin=given, stdout=output, stderr=subprocess.PIPE, preexec_fn=limit_files)
            harness.equal((process.returncode, process.stderr), (1, b"ipcap: standard output: input and output are the same file\n"), arguments)
            with open(other, "ab") as output:
                process = subprocess.run(harness.plain + arguments + [path], stdout=output, stderr=subprocess.PIPE)
            harness.equal((process.returncode, process.stderr), (0, b""), arguments, "another file")


def is_whole(content):
    """Whether a capture ends at the end of a record or a block. Returns the number of these, too."""
    is_classic, at, count = content[:4] == b"\xd4\xc3\xb2\xa1", 24, 0
    if not is_classic:
        at = 0
    while at + (16 if is_classic else 12) <= len(content):
        at += 16 + struct.unpack_from("<I", content, at + 8)[0] if is_classic else struct.unpack_from("<I", content, at + 4)[0]
        count += 1
    return at == len(content), count


SIGNALS = [signal.SIGINT, signal.SIGTERM, signal.SIGHUP]


def take_signals():
    """Restores the default actions of the signals, which may be ignored where the tests run."""
    for number in SIGNALS:
        signal.signal(number, signal.SIG_DFL)


def stopped(harness, command, arguments, number, path):
    """Runs a command, and sends a signal after some bytes of output were read. Returns status, output and messages."""
    process = subprocess.Popen(command + arguments + [path], stdout=subprocess.PIPE, stderr=subprocess.PIPE, env=harness.environment,
                               preexec_fn=take_signals)
    watch = threading.Timer(120, process.kill)
    watch.start()
    output = process.stdout.read(5000)
    process.send_signal(number)
    time.sleep(0.05)
    output += process.stdout.read()
    errors = process.stderr.read().decode()
    status = process.wait()
    watch.cancel()
    process.stdout.close()
    process.stderr.close()
    return status, output, errors


def test_signals(harness):
    """After a signal, the record is finished, the counts are printed, and the program ends by the signal."""
    frames = [frame(ipv6_part(number % 50, 0, True, bytes(8))) for number in range(1000)]
    mixed = [frames[0]] + [ethernet(ipv6_chain([0, 51, 60])), ethernet(ipv6_chain([44], payload=UDP + bytes(97)))] * 30000
    paths = [harness.file(capture(mixed)), harness.file(section() + interface() + b"".join(map(packet, mixed)))]
    commands = [["filter", "ip6"], ["filter", "--number", "--tunnels", "ip6"], ["defrag"], ["defrag", "--keep"], ["rewrite", "--without", "0"]]
    words = {"defrag": "1 fragment of packets that aren't whole at the end", "rewrite": "unchanged: an authentication header"}
    for arguments in commands:
        for number in SIGNALS:
            for path in paths:
                for command in [harness.plain, harness.sanitized] + [harness.checked] * (number == signal.SIGTERM):
                    status, output, errors = stopped(harness, command, arguments, number, path)
                    whole, count = is_whole(output)
                    harness.check(whole and 0 < count < len(mixed), "records", arguments, number, whole, count)
                    harness.equal(status, -number, "status", arguments, errors)
                    harness.check("ipcap: %s: interrupted after " % path in errors and words.get(arguments[0], "") in errors, arguments, errors)
    for command in [harness.plain, harness.sanitized, harness.checked]:
        report = harness.path(".txt")
        found = stopped(harness, command, ["defrag", "--report", report], signal.SIGTERM, paths[0])
        with open(report) as file:
            harness.equal((found[0], file.read()), (-signal.SIGTERM, "packet 1: 2001:db8::1 > 2001:db8::2, protocol 17, id 0x00000000: not whole at the end\n"), "report")
    found = stopped(harness, harness.plain, ["show", "--json"], signal.SIGTERM, paths[0])
    harness.check(found[0] == -signal.SIGTERM and found[1].endswith(b"}\n") and "interrupted after" in found[2], found[0], found[2])


def silent_pipe(harness, command, arguments, number):
    """Runs a command on a pipe in which no more bytes come, and sends a signal. Returns status, output and messages."""
    start = section() + interface() + packet(ethernet(ipv6_chain([0])))
    process = subprocess.Popen(command + arguments, stdin=subprocess.PIPE, stdout=subprocess.PIPE, stderr=subprocess.PIPE,
                               env=harness.environment, preexec_fn=take_signals)
    watch = threading.Timer(120, process.kill)
    watch.start()
    os.write(process.stdin.fileno(), start + packet(bytes(60))[:33])
    output = process.stdout.read(len(start)) if arguments[0] != "stat" and "--keep" not in arguments else b""
    if not output:
        time.sleep(2 if command == harness.checked else 1)
    process.send_signal(number)
    rest, errors = process.stdout.read(), process.stderr.read()
    status = process.wait()
    watch.cancel()
    for stream in (process.stdin, process.stdout, process.stderr):
        stream.close()
    return status, output + rest, errors.decode()


def test_signals_in_pipes(harness):
    """A signal ends the wait for bytes of a pipe."""
    start = section() + interface() + packet(ethernet(ipv6_chain([0])))
    for command in [harness.plain, harness.sanitized, harness.checked]:
        for number in (signal.SIGTERM, signal.SIGHUP):
            found = silent_pipe(harness, command, ["filter", "header 0"], number)
            harness.equal(found, (-number, start, "ipcap: standard input: interrupted after 1 packet\n"), "filter", number)
    found = silent_pipe(harness, harness.plain, ["defrag", "--keep"], signal.SIGTERM)
    harness.equal(found, (-signal.SIGTERM, start, "ipcap: standard input: interrupted after 1 packet\n"), "defrag --keep")
    status, output, errors = silent_pipe(harness, harness.plain, ["stat", "--json"], signal.SIGTERM)
    harness.check(status == -signal.SIGTERM and b'"packets":1,' in output and "interrupted after 1 packet" in errors, status, output, errors)
