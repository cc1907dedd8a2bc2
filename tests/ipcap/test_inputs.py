"""Tests of files that end early, arrive in pieces, or change while they are read, and of outputs that other programs read."""

import contextlib
import itertools
import os
import subprocess
import threading
import time

from blocks import interface, packet, section
from captures import *

ANY = "fault or not fault"
FRAMES = [ethernet(ipv6_chain([0, 60])), ethernet(ipv4(17, UDP)), ethernet(ipv6_chain([60], units=3))]
FORMS = list(itertools.product([MICROSECONDS, NANOSECONDS], "<>"))
# Long enough that ipcap, whose output isn't taken, waits before it has read half of the file.
MANY = 40000


def classic(magic=MICROSECONDS, order="<", frames=FRAMES):
    """Returns the header and the records of a classic capture."""
    return [file_header(magic=magic, order=order)] + [record(it, order=order) for it in frames]


def blocks(order="<", frames=FRAMES):
    """Returns the head and the packets of a pcapng file."""
    return [section(order) + interface(order=order)] + [packet(it, order=order) for it in frames]


def test_cut(harness):
    """Of a classic file that is cut anywhere, all whole records are read, and the error states what is missing."""
    for magic, order in FORMS:
        parts = classic(magic, order)
        content, ends = b"".join(parts), list(itertools.accumulate(map(len, parts)))
        for kept in range(len(parts[0]), len(content)):
            start = max(end for end in ends if end <= kept)
            there, whole = kept - start, len(parts[ends.index(start) + 1])
            words = "record at offset %d is truncated: %d bytes needed, %d there" % (start, 16 if there < 16 else whole, there)
            found = harness.answer(harness.plain, ["filter", ANY], content[:kept], None)
            wanted = b"".join(classic(magic)[:ends.index(start) + 1])
            harness.equal((found[0], found[1], words in found[2]), (int(there > 0), wanted, there > 0), kept, magic, order, found[2])


def test_single_bytes(harness):
    """A pipe that gives one byte at a time has the same packets as a file, for each form."""
    contents = [b"".join(classic(*it)) for it in FORMS] + [b"".join(blocks(order)) for order in "<>"]
    for content in contents + [contents[0][:-5], contents[-1][:-5]]:
        path = harness.file(content)
        wanted = harness.answer(harness.plain, ["filter", ANY, path], b"", None)
        for command in [harness.plain, harness.sanitized]:
            # each write is read apart
            reading, writing = os.pipe2(os.O_DIRECT | os.O_CLOEXEC)
            process = subprocess.Popen(command + ["filter", ANY], stdin=reading, stdout=subprocess.PIPE, stderr=subprocess.PIPE, env=harness.environment)
            os.close(reading)
            with contextlib.suppress(BrokenPipeError):
                for at in range(len(content)):
                    os.write(writing, content[at:at + 1])
            os.close(writing)
            found, errors = process.communicate(timeout=60)
            harness.equal((process.returncode, found, errors.decode().replace("standard input", path)), wanted[:3], len(content))


def descriptor_of(process, path):
    """Returns the descriptor by which a process reads a file, once it is open, or `None` if the process ends before."""
    folder = "/proc/%d/fd" % process.pid
    while process.poll() is None:
        for name in os.listdir(folder):
            if os.path.realpath(os.path.join(folder, name)) == os.path.realpath(path):
                return name
        time.sleep(0.01)
    return None


def wait_until_blocked(process, path):
    """Waits until a process whose output isn't taken has read a part of a file, and reads no more. Returns the length of that part."""
    before, same, name = -1, 0, descriptor_of(process, path)
    while same < 5:
        with open("/proc/%d/fdinfo/%s" % (process.pid, name), encoding="ascii") as info:
            at = int(info.readline().split()[1])
        same = same + 1 if at == before and at > 0 else 0
        before = at
        time.sleep(0.05)
    return before


def changed_meanwhile(harness, content, change):
    """Runs `filter` on a file that is changed when ipcap has read a part of it. Returns its answer."""
    path = harness.file(content)
    process = subprocess.Popen(harness.plain + ["filter", ANY, path], stdout=subprocess.PIPE, stderr=subprocess.PIPE, env=harness.environment)
    watch = threading.Timer(60, process.kill)
    watch.start()
    at = wait_until_blocked(process, path)
    harness.check(at < len(content) // 2, "read before the change:", at)
    change(path)
    found, errors = process.communicate()
    watch.cancel()
    return process.returncode, found, errors.decode().replace(path, "FILE")


def test_changed_meanwhile(harness):
    """Of a file that another process truncates or lengthens, what is there when it is read is written."""
    for parts, kind in [(classic(frames=FRAMES[:1] * MANY), "record"), (blocks(frames=FRAMES[:1] * MANY), "block")]:
        content, half = b"".join(parts), len(parts[0]) + MANY // 2 * len(parts[1])
        whole = len(parts[1])
        words = "ipcap: FILE: can't read packet %d: %s at offset %d is truncated: %d bytes needed, 20 there\n"
        found = changed_meanwhile(harness, content, lambda path: os.truncate(path, half + 20))
        harness.check(found[:2] == (1, content[:half]), kind, "truncated", found[0], len(found[1]), half)
        harness.equal(found[2], words % (MANY // 2 + 1, kind, half, whole), kind)
        found = changed_meanwhile(harness, content, lambda path: os.truncate(path, half))
        harness.check(found == (0, content[:half], ""), kind, "truncated after a packet", found[0], len(found[1]), found[2])

        def lengthen(path):
            with open(path, "ab") as file:
                file.write(parts[1] * 7)

        found = changed_meanwhile(harness, content, lengthen)
        harness.check(found == (0, content + parts[1] * 7, ""), kind, "lengthened", found[0], len(found[1]), found[2])


def test_capinfos_reads(harness):
    """capinfos and tshark find form, precision, frames and times in what each command writes, for each form that it reads."""
    fragments = [ethernet(ipv6(44, fragment(17, offset, more) + data)) for offset, more, data in [(0, 1, UDP[:8]), (1, 0, UDP[8:])]]
    inputs = [(b"".join(classic(*form, FRAMES + fragments)), {MICROSECONDS: "pcap", NANOSECONDS: "nsecpcap"}[form[0]]) for form in FORMS]
    inputs += [(b"".join(blocks(order, FRAMES + fragments)), "pcapng") for order in "<>"]
    commands = [(["filter", "header 60"], FRAMES[::2]), (["defrag"], FRAMES + [ethernet(ipv6(17, UDP))]),
                (["rewrite", "--without", "0"], [ethernet(ipv6_chain([60]))] + FRAMES[1:] + fragments)]
    outputs = {}
    for (content, form), (words, frames) in itertools.product(inputs, commands):
        outputs[harness.run(*words, content=content)[1]] = form, frames
    paths = [harness.file(it) for it in outputs]
    found = subprocess.run(["capinfos", "-TrmtEcd", *paths], stdout=subprocess.PIPE, check=True).stdout.decode()
    wanted = [[path, form, "ether", str(len(frames)), str(sum(map(len, frames)))] for path, (form, frames) in zip(paths, outputs.values())]
    harness.equal([line.split(",") for line in found.splitlines()], wanted, "capinfos")
    for path, (form, frames) in zip(paths, outputs.values()):
        shown = harness.tshark(path, "-T", "fields", "-e", "frame.time_epoch", "-e", "frame.len", "-e", "frame.cap_len").decode()
        time_text = "1000.000000005" if form == "nsecpcap" else "1000.000005000"
        harness.equal(shown.splitlines(), ["%s\t%d\t%d" % (time_text, len(it), len(it)) for it in frames], "tshark", form)
