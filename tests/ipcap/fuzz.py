"""Runs all commands of ipcap, built with sanitizers, on captures that are changed at random: one, or two where a command takes
several, from a pipe or from files, which may be compressed. `ipcap sum` gets what `ipcap stat --json` prints, also changed.

Each run has to end by itself, with a status that the manual has. If the status is 0, what was written has to be readable:
by ipcap, and by Wireshark's reader, which capinfos uses, if that reads the captures. Blocks of pcapng that are neither
packets nor of the file's structure are copied as they are.

usage: fuzz.py IPCAP MINUTES SEED FOLDER. Takes so many minutes of all processors together. Prints the seed and the number of
runs. At the first error, prints the captures, which stay in FOLDER, and what was wrong.
"""

import concurrent.futures
import gzip
import lzma
import os
import random
import re
import struct
import subprocess
import sys
import time

from blocks import block, interface, obsolete, option, packet, section, simple
from captures import *

SECONDS = 120
# how many outputs capinfos reads at a time
BATCH = 100
WORDS = [bytes(4), b"\xff" * 4, b"\x7f\xff\xff\xff", b"\x80\0\0\0", b"\0\1\1\0", b"\n\r\r\n", b"\x1a\x2b\x3c\x4d", b"\x4d\x3c\x2b\x1a"]
WRITING = [["filter", "fault or not fault"], ["filter", "--defrag", "not fragment"], ["filter", "-c", "3", "header 44 or tcp"],
           ["filter", "--number", "--tunnels", "ip6"],
           ["defrag", "--report", "/dev/null"], ["defrag", "--keep"], ["defrag", "--keep", "--slots", "1"], ["defrag", "--tunnels", "--keep"], ["defrag", "--tunnels", "--slots", "2"],
           ["rewrite", "--without", "0", "--without", "60"], ["rewrite", "--tunnels", "--clear", "--in-order", "--without", "0"],
           ["rewrite", "--clear", "--in-order"], ["rewrite", "--break-authentication", "--without", "51", "--without", "43"]]
READING = [["stat"], ["stat", "--json", "--tunnels"], ["stat", "--defrag", "--per-file"], ["stat", "-j1"], ["show"], ["show", "--json"],
           ["show", "--csv", "--defrag"], ["show", "--tunnels", "tcp or udp"], ["show", "--one-line"]]
SUMMING = [["stat", "--json"], ["stat", "--json", "--tunnels"], ["stat", "--json", "--defrag"]]
# the commands that take several captures
SEVERAL = ("filter", "stat")
COMPRESSED = {".gz": lambda content: gzip.compress(content, 1), ".xz": lambda content: lzma.compress(content, preset=0)}
NUMBERS = [b"0", b"1", b"-1", b"1e3", b"1.5", b"18446744073709551615", b"18446744073709551616"]


def frames(draw):
    """Returns frames of each kind that the commands treat in a way of their own."""
    number, data = draw.randrange(3), bytes(range(64))
    parts = [ipv6(44, fragment(17, offset, more, number) + data[8 * offset:8 * offset + size])
             for offset, more, size in draw.sample([(0, 1, 24), (3, 1, 24), (6, 0, 16)], 3)]
    pieces = [ipv4(17, data[8 * it:8 * it + 32], (it == 0) << 13 | it) for it in draw.sample([0, 4], 2)]
    chains = [ipv6_chain([draw.choice([0, 43, 44, 51, 60]) for _ in range(draw.randrange(5))]) for _ in range(2)]
    tunnels = [ipv4(41, ipv6_chain([0, 60])), ipv4(47, gre(0x86DD, ipv6_chain([60]))), ipv6(4, ipv4(51, authentication(17) + UDP))]
    tunnels += [draw.choice([lambda it: ipv6(47, gre(0x86DD, it, 0x8000)), lambda it: ipv4(17, udp(4789, vxlan(ethernet(it)))),
                             lambda it: ipv6(17, udp(2152, gtp_u(it)))])(it) for it in parts]
    packets = parts + pieces + chains + tunnels
    return [ethernet(it, draw.choice([(), (), (0x8100,)])) for it in draw.sample(packets, len(packets))]


def classic(draw):
    """Returns the parts of a classic capture: its header and its records."""
    order = draw.choice("<>")
    head = file_header(draw.choice([ETHERNET, ETHERNET, RAW]), 65535, draw.choice([MICROSECONDS, NANOSECONDS]), order)
    return [head] + [record(it, draw.choice([None, None, len(it) - 3]), 1000 + number, 5, order) for number, it in enumerate(frames(draw))]


def sections(draw):
    """Returns the blocks of a pcapng file of one or two sections."""
    found = []
    for _ in range(draw.choice([1, 1, 2])):
        order = draw.choice("<>")
        found += [section(order), interface(ETHERNET, draw.choice([0, 96]), option(9, bytes([draw.choice([3, 6, 9])]), order), order)]
        comment = option(1, b"a comment", order) + option(0, b"", order)
        for it in frames(draw):
            found.append(draw.choice([packet(it, order=order), packet(it, options=comment, order=order), packet(it, kept=len(it) - 3, order=order),
                                      simple(it, order=order), obsolete(it, order=order),
                                      interface(draw.choice([ETHERNET, RAW]), order=order) + packet(it, order=order),
                                      block(draw.choice([4, 5, 10, 0xBAD]), bytes(20), order) + packet(it, order=order)]))
    return found


def rearranged(draw, parts):
    """Returns parts of which some come twice, are missing, or change places."""
    for _ in range(draw.choice([0, 0, 1, 2])):
        at = draw.randrange(len(parts))
        change = draw.randrange(3)
        parts = parts[:at] + ([parts[at]] * 2 if change == 0 else draw.choices(parts, k=2) if change == 1 else []) + parts[at + 1:]
    return parts


def changed(draw, content):
    """Returns bytes of which some are others, are missing, or are added."""
    content = bytearray(content)
    for _ in range(draw.choice([0, 0, 1, 1, 2, 5])):
        at = draw.randrange(len(content) + 1)
        kind = draw.randrange(5)
        if kind == 0 and at < len(content):
            content[at] = draw.choice([0, 1, 255, content[at] ^ 1 << draw.randrange(8), draw.randrange(256)])
        elif kind == 1:
            content[at & -4:(at & -4) + 4] = draw.choice(WORDS)
        elif kind == 2:
            content[at:at] = bytes(draw.choice([1, 4, 8, 100]))
        elif kind == 3:
            del content[at:at + draw.choice([1, 4, 32])]
        elif kind == 4 and at + 4 <= len(content):
            word, = struct.unpack_from("<I", content, at & -4)
            struct.pack_into("<I", content, at & -4, (word + draw.choice([-4, -1, 1, 4, 65536])) % (1 << 32))
    return bytes(content)


def made(draw):
    """Returns a capture."""
    parts = draw.choice([classic, sections])(draw)
    content = changed(draw, b"".join(rearranged(draw, parts)))
    return content[:draw.randrange(len(content) + 1)] if draw.randrange(8) == 0 else content


def changed_text(draw, text):
    """Returns JSON of which some numbers or bytes are others, or a part comes twice."""
    numbers = list(re.finditer(rb"\d+", text))
    kind = draw.randrange(4)
    if kind == 0 and numbers:
        it = draw.choice(numbers)
        return text[:it.start()] + draw.choice(NUMBERS) + text[it.end():]
    if kind == 1:
        at, end = sorted(draw.randrange(len(text) + 1) for _ in range(2))
        return text[:end] + text[at:]
    return changed(draw, text)


class Wrong(Exception):
    """What was wrong, with the capture that shows it."""


def run(command, content):
    """Runs a command on a capture, and checks how it ends. Returns the process."""
    environment = dict(os.environ, ASAN_OPTIONS="exitcode=98", UBSAN_OPTIONS="halt_on_error=1:exitcode=98")
    try:
        found = subprocess.run(command, input=content, stdout=subprocess.PIPE, stderr=subprocess.PIPE, env=environment, timeout=SECONDS)
    except subprocess.TimeoutExpired as error:
        raise Wrong(f"{command[1:]} takes more than {SECONDS} seconds") from error
    if found.returncode not in (0, 1):
        raise Wrong(f"{command[1:]} ends with {found.returncode}: {found.stderr.decode(errors='replace')}")
    if found.returncode == 1 and not found.stderr.startswith(b"ipcap: "):
        raise Wrong(f"{command[1:]} ends with 1 and without a message: {found.stderr!r}")
    return found


def written(ipcap, words, content):
    """Returns what a command writes, or None if its status isn't 0. Checks that ipcap reads a capture again."""
    found = run([ipcap, *words], content)
    if found.returncode:
        return None
    again = run([ipcap, "stat"], found.stdout)
    if again.returncode:
        raise Wrong(f"{words}: what was written can't be read: {again.stderr.decode(errors='replace')}")
    return found.stdout


def add_up(ipcap, draw, words, content):
    """Adds up what a command counts, also with changes. A sum has to be what it is the sum of, and so has its own sum."""
    found = run([ipcap, *words], content)
    if found.returncode:
        return
    form = draw.choice([["sum"], ["sum", "--top", "1"]])
    text, is_changed = found.stdout, draw.randrange(4) > 0
    if is_changed:
        text = changed_text(draw, draw.choice([text, text + text]))
        run([ipcap, *form], text)
    total = run([ipcap, "sum", "--json"], text)
    if total.returncode and not is_changed:
        raise Wrong(f"{words}: what was counted can't be added up: {total.stderr.decode(errors='replace')}")
    again = run([ipcap, "sum", "--json"], total.stdout) if total.returncode == 0 else total
    if again.stdout != total.stdout or (not is_changed and total.stdout != text):
        raise Wrong(f"{words}: the sum is another one: {text!r}, {total.stdout!r}, {again.stdout!r}")


def operand(draw, path, content, may_be_pipe):
    """Returns the operand for a capture that was written to a path, and whether what ipcap reads is that capture."""
    kind = draw.choice(["pipe"] * 4 + ["plain"] * 2 + list(COMPRESSED))
    if kind == "pipe" and may_be_pipe:
        return "-", True
    if kind not in COMPRESSED:
        return path, True
    packed, is_damaged = COMPRESSED[kind](content), draw.randrange(3) == 0
    with open(path + kind, "wb") as file:
        file.write(changed(draw, packed) if is_damaged else packed)
    return path + kind, not is_damaged


def attempt(ipcap, draw, name):
    """Runs one command on one or two captures, which are kept as NAME.in and NAME.more. If it writes one, keeps that as
    NAME.out, and returns the command's words and the captures."""
    words = draw.choice(WRITING * 2 + READING + SUMMING)
    paths = [name + ".in", name + ".more"][:2 if words[0] in SEVERAL and draw.randrange(4) == 0 else 1]
    operands, piped, are_read = [], b"", True
    for path in paths:
        content = made(draw)
        with open(path, "wb") as file:
            file.write(content)
        given, is_read = operand(draw, path, content, "-" not in operands)
        operands.append(given)
        are_read &= is_read
        piped = content if given == "-" else piped
    output = None
    try:
        if words in WRITING:
            output = written(ipcap, words + operands, piped)
        elif words in SUMMING:
            add_up(ipcap, draw, words + operands, piped)
        else:
            run([ipcap, *words, *operands], piped)
    except Wrong as error:
        raise Wrong(f"{', '.join(paths)}: {error}") from None
    if output is None or not are_read:
        return None
    with open(name + ".out", "wb") as file:
        file.write(output)
    return words + operands, paths


def is_readable(*paths):
    """Whether Wireshark's reader reads captures to their ends."""
    return subprocess.run(["capinfos", "-T", "-r", "-c", *paths], stdout=subprocess.DEVNULL, stderr=subprocess.DEVNULL).returncode == 0


def is_guessed(path):
    """Whether Wireshark's reader guesses the form of a classic file: a record states fewer bytes than were captured, as in files
    of other forms with the same magic number. libpcap's reader, which doesn't guess, has to read it then."""
    with open(path, "rb") as file:
        content = file.read()
    order = {b"\xd4\xc3\xb2\xa1": "<", b"\x4d\x3c\xb2\xa1": "<", b"\xa1\xb2\xc3\xd4": ">", b"\xa1\xb2\x3c\x4d": ">"}.get(content[:4])
    place, is_short = 24, False
    while order and place + 16 <= len(content):
        captured, original = struct.unpack_from(order + "8xII", content, place)
        place, is_short = place + 16 + captured, is_short or original < captured
    return is_short and subprocess.run(["tcpdump", "-nr", path], stdout=subprocess.DEVNULL, stderr=subprocess.DEVNULL).returncode == 0


def read_by_others(outputs):
    """Checks that Wireshark's reader reads outputs, each a name, the words of the command and the captures, if it reads these."""
    if not outputs or is_readable(*(name + ".out" for name, _, _ in outputs)):
        return
    for name, words, paths in outputs:
        if not is_readable(name + ".out") and is_readable(*paths) and not is_guessed(name + ".out"):
            raise Wrong(f"{', '.join(paths)}: {words}: Wireshark can't read what was written: {name}.out")


def work(ipcap, seed, until, folder):
    """Runs commands until a time. Returns how many ran, and how many outputs were read again."""
    draw, runs, read, outputs = random.Random(seed), 0, 0, []
    os.mkdir(folder)
    while time.monotonic() < until:
        name = os.path.join(folder, f"{len(outputs):03}")
        found = attempt(ipcap, draw, name)
        outputs += [(name, *found)] if found else []
        runs += 1
        if len(outputs) == BATCH:
            read_by_others(outputs)
            read, outputs = read + BATCH, []
    read_by_others(outputs)
    return runs, read + len(outputs)


def main():
    ipcap, minutes, seed, folder = sys.argv[1:]
    count = len(os.sched_getaffinity(0))
    print(f"seed {seed}", flush=True)
    until = time.monotonic() + 60 * float(minutes) / count
    with concurrent.futures.ProcessPoolExecutor(count) as pool:
        jobs = [pool.submit(work, ipcap, f"{seed} {it}", until, os.path.join(folder, f"worker-{it}")) for it in range(count)]
        try:
            done = [it.result() for it in jobs]
        except Wrong as error:
            print(error)
            return 1
    runs, read = map(sum, zip(*done))
    print(f"{runs} runs, {read} outputs read again: passed")
    return 0 if read else 1


if __name__ == "__main__":
    sys.exit(main())
