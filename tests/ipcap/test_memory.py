"""Tests of the budget of memory."""

import gzip
import json
import lzma
import os
import re
import struct
import subprocess
import threading
import time

from blocks import block, interface, packet, section
from captures import *
from test_compression import formats
from test_defrag import frame, ipv4_part, ipv6_part


def spread(first, count):
    """A capture of `count` packets that aren't whole: their fragments of 8 bytes are in each page of the payload."""
    parts = [frame(ipv4_part(first + number, at // 8, True, bytes(8))) for number in range(count) for at in range(0, 65000, 4096)]
    return file_header() + b"".join(record(it) for it in parts)


def lost_in(errors):
    """The number of fragments that messages are about."""
    return sum(int(it) for it in re.findall(r": (\d+) fragments? ", errors))


def test_budget_of_jobs(harness):
    """Files that are counted side by side have one budget, and their counts don't depend on it."""
    paths = [harness.file(spread(1, 3000)) for _ in range(4)]
    counts = 4 * 3000 * 16
    wanted = harness.measure("stat", "--defrag", "--json", "-j1", *paths)
    harness.equal((wanted[0], lost_in(wanted[2])), (0, counts), "one after another")
    for memory, jobs in [("512M", 4), ("512M", 64), ("300M", 4), ("128M", 4), ("64M", 64)]:
        status, found, errors, peak = harness.measure("stat", "--defrag", "--json", "--memory", memory, "-j%d" % jobs, *paths)
        harness.equal((status, found, lost_in(errors)), (0, wanted[1], counts), memory, jobs)
        harness.check(peak <= int(memory[:-1]) << 20, "peak", peak >> 20, memory, jobs)
    status, found, errors, peak = harness.measure("stat", "--defrag", "--json", "-j4", *paths)
    harness.check(found == wanted[1] and peak <= 512 << 20, "the default", peak >> 20)
    found = harness.measure("stat", "--defrag", "--json", "--memory", "4G", "-j4", *paths)[1]
    harness.equal(found, wanted[1], "a large budget")
    few = [harness.file(capture([frame(ipv6_part(number, 0, True, bytes(8)))])) for number in range(40)]
    plain = harness.run("stat", "--defrag", "--json", "-j1", *few)
    for memory in ("64M", "512M"):
        harness.equal(harness.run("stat", "--defrag", "--json", "-j40", "--memory", memory, *few), plain, "many files", memory)


def test_budget_of_slots(harness):
    """A small budget has room for fewer packets, and one that is too small for a number of slots is refused."""
    path = harness.file(spread(1, 3000))
    for command in (["defrag"], ["show", "--defrag"], ["filter", "--defrag", "any"], ["stat", "--defrag"]):
        for memory in (64, 100, 512):
            status, _, errors, peak = harness.measure(*command, "--memory", "%dM" % memory, path)
            harness.check(status == 0 and peak <= memory << 20, command, memory, peak >> 20)
            harness.equal(lost_in(errors), 3000 * 16, command, memory)
            is_full = "since all slots were in use" in errors
            harness.check(is_full or memory == 512, command, memory, errors)
    found = harness.run("defrag", "--slots", "100000", path)
    least = re.search(r"--slots 100000 needs --memory (\d+)M or more; see `ipcap defrag --help`\n", found[2])
    harness.check(found[0] == 2 and least, found[2])
    least = int(least[1])
    harness.equal(harness.answer(harness.plain, ["defrag", "--slots", "100000", "--memory", "%dM" % least, "-w", "/dev/null", path], b"", None)[0], 0, "enough")
    harness.equal(harness.run("defrag", "--slots", "100000", "--memory", "%dM" % (least - 2), path)[0], 2, "too little")
    found = harness.run("defrag", "--slots", "18446744073709551615", path)
    harness.equal((found[0], found[2]), (2, "ipcap: --slots 18446744073709551615 needs more memory than there is; see `ipcap defrag --help`\n"), "far too many")
    content = capture([frame(ipv6_part(1, 0, True, bytes(8)))])
    harness.equal(harness.run("defrag", "--slots", "1", "--memory", "64M", content=content)[0], 0, "one slot")


def test_budget_of_kept(harness):
    """Numbers of fragments that are kept have what the slots and the rest leave. Those that don't fit are counted."""
    part = frame(ipv4_part(1, 0, True, bytes(8)))
    path = harness.path(".gz")
    count = 2000000
    with gzip.open(path, "wb", 1) as file:
        file.write(file_header() + record(part) * count)
    for memory in (64, 80, 200):
        status, found, errors, peak = harness.measure("defrag", "--keep", "--slots", "8", "--memory", "%dM" % memory, path)
        lost = re.search(r"(\d+) of these weren't kept, first packet (\d+): out of memory\n", errors)
        harness.check(peak <= memory << 20, "peak", peak >> 20, memory)
        harness.equal((status, bool(lost)), (0, False) if memory == 200 else (1, True), memory, errors)
        kept = (len(found) - 24) // (16 + len(part))
        harness.equal(kept, count - int(lost[1]) if lost else count, memory, "written")
        harness.check(not lost or kept == int(lost[2]) - 1, "the first that is lost", errors)
        harness.check(not lost or kept * 32 > ((memory - 45) << 20) * 0.9, "what is left is used", memory, kept)


def test_budget_of_tunnels(harness):
    """Tunnels with fragments have what is left. Fragments of further ones stay as they are, and the status says so."""
    part = ethernet(ipv4(17, udp(4789, vxlan(ethernet(ipv4_part(1, 0, True, bytes(8)))))))
    at = 14 + 20 + 8 + 4
    path = harness.path(".gz")
    count = 400000
    with gzip.open(path, "wb", 1) as file:
        file.write(file_header() + b"".join(record(part[:at] + struct.pack(">I", number << 8) + part[at + 4:]) for number in range(count)))
    tags = b"".join(record(ethernet(ipv4(17, UDP), (0x88A8, 0x8100), 0x0800)[:14] + struct.pack(">HHH", number % 4096, 0x8100, number // 4096)
                           + b"\x08\0" + ipv4(17, UDP)) for number in range(count))
    found = harness.measure("defrag", "--tunnels", "--slots", "8", "--memory", "64M", harness.file(file_header() + tags))
    harness.equal((found[0], len(found[1]), found[2]), (0, 24 + len(tags), ""), "many VLANs without fragments")
    for memory in (64, 200):
        status, found, errors, peak = harness.measure("defrag", "--tunnels", "--slots", "8", "--memory", "%dM" % memory, path)
        harness.check(peak <= memory << 20, "peak", peak >> 20, memory)
        left = (len(found) - 24) // (16 + len(part))
        harness.equal((status, "out of memory" in errors), (0, False) if memory == 200 else (1, True), memory, errors)
        harness.check(left == 0 if memory == 200 else 0 < left < count - 50000, "what stays", left)


def with_window(content, descriptor):
    """A zstd frame with a window descriptor, and blocks that aren't compressed (RFC 8878, section 3.1.1.1.2)."""
    found = b"\x28\xb5\x2f\xfd\0" + bytes([descriptor])
    parts = [content[at:at + 1000] for at in range(0, len(content), 1000)] or [b""]
    for number, part in enumerate(parts):
        found += struct.pack("<I", len(part) << 3 | (number == len(parts) - 1))[:3] + part
    return found


def test_budget_of_decoders(harness):
    """A decoder gets the memory that a stream needs, if that is within the budget."""
    content = capture([ethernet(ipv6_chain([0, 44])), ethernet(ipv4(17, UDP))] * 50)
    names = [name for name, _ in formats(harness)]
    wanted = harness.run("stat", "--json", content=content)[1]
    refused = "data can't be decompressed: more memory needed than the budget allows"
    if "zstd" in names:
        for log in (10, 19, 20, 21, 23, 24, 26, 27):
            for mantissa in (0, 1, 7) if log < 27 else (0,):
                data = with_window(content, (log - 10) << 3 | mantissa)
                harness.equal(harness.run("stat", "--json", content=data)[:3], (0, wanted, ""), "window", log, mantissa)
                found = harness.run("stat", "--json", "--memory", "64M", content=data)
                is_small = (1 << log) * (8 + mantissa) // 8 < 23 << 20
                harness.equal(found[:2] == (0, wanted), is_small, "64M", log, mantissa, found[2])
                harness.check(is_small or "zstd " + refused in found[2], log, mantissa, found[2])
        for descriptor in ((28 - 10) << 3, (27 - 10) << 3 | 1, 255):
            found = harness.run("stat", "--json", "--memory", "2G", content=with_window(content, descriptor))
            harness.check(found[0] == 1 and "zstd data can't be decompressed: Frame requires too much memory" in found[2], descriptor, found[2])
        parts = [with_window(content[:500], 0), with_window(content[500:2000], 13 << 3), with_window(b"", 16 << 3), with_window(content[2000:], 12 << 3)]
        harness.equal(harness.run("stat", "--json", content=b"".join(parts))[1], wanted, "frames with several windows")
        path = harness.file(b"".join(parts))
        several = harness.run("stat", "--json", "-j4", *[path] * 8)
        harness.equal(several, harness.run("stat", "--json", "-j1", *[path] * 8), "side by side")
        large = capture([ethernet(ipv6_chain([0])) + bytes(60000)] * 50)
        data = subprocess.run(["zstd", "-q", "-c"], input=large, stdout=subprocess.PIPE).stdout
        for at in (len(data), 5, 6, 7, 9, 13, 20):
            process = subprocess.Popen(harness.plain + ["stat", "--json"], stdin=subprocess.PIPE, stdout=subprocess.PIPE)
            os.write(process.stdin.fileno(), data[:at])
            found = process.communicate(data[at:])[0]
            harness.equal(json.loads(found)["packets"], 50, "in parts", at)
    if "xz" in names:
        for dictionary, least in [(1 << 16, 64), (16 << 20, 64), (64 << 20, 128), (192 << 20, 256)]:
            data = lzma.compress(content, filters=[{"id": lzma.FILTER_LZMA2, "preset": 0, "dict_size": dictionary}])
            harness.equal(harness.run("stat", "--json", "--memory", "%dM" % least, content=data)[:3], (0, wanted, ""), "dictionary", dictionary)
            if least > 64:
                found = harness.run("stat", "--json", "--memory", "64M", content=data)
                harness.check(found[0] == 1 and "xz " + refused in found[2], dictionary, found[2])
        data = lzma.compress(content, filters=[{"id": lzma.FILTER_LZMA2, "preset": 0, "dict_size": 300 << 20}])
        found = harness.run("stat", "--json", "--memory", "2G", content=data)
        harness.check(found[0] == 1 and "xz data can't be decompressed: more than 256 MiB of memory needed" in found[2], found[2])
        small, large = [lzma.compress(it, filters=[{"id": lzma.FILTER_LZMA2, "preset": 0, "dict_size": size}]) for it, size in ((content[:900], 1 << 16), (content[900:], 48 << 20))]
        harness.equal(harness.run("stat", "--json", "--defrag", content=small + large)[1], wanted, "streams with several dictionaries")


def test_long_chains(harness):
    """Extension headers after the first 64 are found, too."""
    numbers = [0] + [60, 43, 44, 51] * 40
    path = harness.file(capture([ethernet(ipv6_chain(numbers))]))
    shown = json.loads(harness.run("show", "--json", path)[1])["headers"]
    lengths = [len(header(it, 17)) for it in numbers]
    wanted = [(40 + sum(lengths[:at]), lengths[at], it, (numbers + [17])[at + 1]) for at, it in enumerate(numbers)]
    harness.equal([tuple(it[name] for name in ("offset", "len", "number", "next_header")) for it in shown], wanted, "show --json")
    harness.check(",%s," % " ".join(map(str, numbers)) in harness.run("show", "--csv", path)[1].decode(), "show --csv")
    drawn = harness.run("show", path)[1].decode()
    harness.equal([drawn.count(" %s " % it) for it in ("routing", "fragment")], [40, 40], "show")
    before = chain([60] * 70, 44)
    path = harness.file(capture([ethernet(ipv6(60, before + fragment(17, 0, 1) + bytes(8)))]))
    harness.check(b" frag (0x00000007:0|8)" in harness.run("show", "--one-line", path)[1], "show --one-line")
    report = harness.run("defrag", "--report", "{}", path)[3]
    harness.check(b", protocol 17, id 0x00000007: " in report, "defrag --report", report)
    path = harness.file(capture([ethernet(ipv6(60, before + b"\x11\1" + fragment(17)[2:] + UDP))]))
    found = harness.run("rewrite", "--clear", path)[1]
    harness.equal(found, capture([ethernet(ipv6(60, before + fragment(17) + UDP))]), "rewrite --clear")
    path = harness.file(capture([ethernet(ipv6_chain([44] * 70 + [60, 43]))]))
    found = harness.run("rewrite", "--in-order", path)[1]
    harness.equal(found, capture([ethernet(ipv6_chain([60, 43] + [44] * 70))]), "rewrite --in-order")
    content = capture([ethernet(ipv6(60, chain([60] * 70 + [51], 41) + ipv6_chain([0])))])
    found = harness.run("rewrite", "--tunnels", "--without", "0", content=content)
    harness.check(found[1] == content and "1 packet unchanged: " in found[2], "an authenticated tunnel", found[2])


def test_budget_of_headers(harness):
    """A packet may have millions of extension headers, which are visited one by one."""
    count = ((16 << 20) - 200) // 8
    frame = ethernet(ipv6(60, options(60) * (count - 1) + options(17) + UDP, 0))
    content = section() + interface() + packet(frame)
    path = harness.file(content)
    found = harness.measure("stat", "--json", "--memory", "64M", path)
    counts = json.loads(found[1])
    harness.equal((found[0], found[2], counts["headers"], counts["chains"]), (0, "", {"60": count}, {"other": 1}), "stat")
    harness.check(found[3] <= 64 << 20, "peak", found[3] >> 20)
    peak = harness.measure("stat", "--memory", "128M", "-j4", *[harness.file(content) for _ in range(4)])[3]
    harness.check(peak <= 128 << 20, "peak side by side", peak >> 20)
    for form in ([], ["--one-line"], ["--csv"], ["--tunnels"]):
        status, _, errors, peak = harness.measure("show", "--memory", "64M", *form, path, output=subprocess.DEVNULL)
        harness.check((status, errors) == (0, "") and peak <= 64 << 20, "show", form, errors, peak >> 20)
    unstated = "ipcap: %s: 1 packet unchanged: a length that isn't stated\n" % path
    for changes, wanted in ((["--in-order"], ""), (["--clear"], ""), (["--without", "60"], unstated)):
        status, output, errors, peak = harness.measure("rewrite", "--memory", "64M", *changes, path)
        harness.check((status, errors) == (0, wanted) and output == content and peak <= 64 << 20, "rewrite", changes, errors, peak >> 20)


def test_budget_of_changed_packets(harness):
    """A packet that is rewritten needs memory of its own: a jumbogram (RFC 2675) of a quarter of headers."""
    count = (4 << 20) // 8
    following = options(60) * (count - 1) + options(17) + UDP + bytes((16 << 20) - 300 - 8 * count)
    jumbo_payload = bytes([60, 0, 0xC2, 4]) + struct.pack(">I", 8 + len(following))
    path = harness.file(section() + interface() + packet(ethernet(ipv6(0, jumbo_payload + following, 0))))
    for memory in (64, 128):
        status, output, errors, peak = harness.measure("rewrite", "--memory", "%dM" % memory, "--without", "60", path)
        harness.check(peak <= memory << 20, "rewrite", memory, peak >> 20)
        harness.equal((status, "out of memory" in errors), (1, True) if memory == 64 else (0, False), memory, errors)


def test_budget_of_heads(harness):
    """Blocks before the first packet of a pcapng file are kept only where they are copied, and have what is left."""
    most = 16 << 20
    start, end = section() + interface(), packet(ethernet(ipv4(17, UDP)))
    large = block(0x0BAD, bytes(most - 12))
    heads = [start + block(0x0BAD, bytes(most - 200)) + large, start + block(0x0BAD, bytes(65000)) * 258 + large]
    files = [harness.file(gzip.compress(it + end, 1)) for it in heads]
    words = "ipcap: %s: the blocks before the first packet can't be kept: more memory needed than the budget allows\n"
    for memory, jobs in ((128, 4), (512, 20)):
        path = harness.file(gzip.compress(heads[jobs == 4] + end + large + large, 1))
        status, found, errors, peak = harness.measure("stat", "--json", "--memory", "%dM" % memory, "-j%d" % jobs, *[path] * 2 * jobs)
        harness.equal((status, errors, json.loads(found)["packets"]), (0, "", 2 * jobs), "stat", jobs)
        harness.check(peak <= memory << 20, "peak side by side", peak >> 20, jobs)
    for path, head in zip(files, heads):
        for command in (["stat", "--defrag"], ["show"], ["show", "--defrag"]):
            status, _, errors, peak = harness.measure(*command, "--memory", "64M", path)
            harness.check((status, errors) == (0, "") and peak <= 64 << 20, command, errors, peak >> 20)
        for command, enough in ((["filter", "any"], 96), (["rewrite", "--clear"], 96), (["defrag"], 200), (["defrag", "--keep"], 200)):
            refused = harness.measure(*command, "--memory", "64M", path)
            harness.equal(refused[:3], (1, b"", words % path), command)
            status, found, errors, peak = harness.measure(*command, "--memory", "%dM" % enough, path)
            harness.check((status, errors) == (0, "") and found == head + end, command, status, errors)
            harness.check(peak <= enough << 20 and refused[3] <= 64 << 20, command, peak >> 20, refused[3] >> 20)
    harness.equal(harness.run("filter", "--memory", "64M", "any", "-w", "{}", files[0]), (1, b"", words % files[0], None), "no output")
    found = harness.measure("filter", "--memory", "64M", "any", *files)
    harness.check((found[0], found[2]) == (0, "") and len(found[1]) < 1000 and found[3] <= 64 << 20, "several files", found[2], found[3] >> 20)
    small = start + block(0x0BAD, bytes(65000)) * 80 + large + end
    found = harness.measure("filter", "--memory", "64M", "any", harness.file(gzip.compress(small, 1)))
    harness.check((found[0], found[2]) == (0, "") and found[1] == small and found[3] <= 64 << 20, found[2], found[3] >> 20)


def test_sizes(harness):
    """A size is a number of bytes, or of 1024 to some power."""
    path = harness.file(capture([]))
    commands = [["stat"], ["filter", "any"], ["show"], ["defrag"], ["rewrite", "--clear"]]
    for command in commands:
        is_first = command == commands[0]
        for size in ("64M", "67108864", "65536K", "1G", "100000M")[:5 if is_first else 1]:
            harness.equal(harness.run(*command, "--memory", size, path)[0], 0, command, size)
        for size in ("", "x", "63M", "67108863", "0", "-1", "64MB", "64m", "1T", "64 M", "1.5G", "99999999999999999999", "18446744073709551615K", "17179869184G")[:14 if is_first else 3]:
            found = harness.run(*command, "--memory", size, path)
            words = "ipcap: --memory must be a number of bytes of at least 64M, such as 512M or 2G; see `ipcap %s --help`\n" % command[0]
            harness.equal(found, (2, b"", words, None), command, size)
    harness.equal(harness.run("sum", "--memory", "64M")[0], 2, "sum")


def test_late_pipes(harness):
    """A file that can't be opened yet doesn't keep others from being read."""
    content = capture([frame(ipv6_part(number, 0, True, bytes(8))) for number in range(9)])
    for arguments in (["-j2"], ["-j2", "--defrag"], ["-j2", "--defrag", "--memory", "64M"]):
        first, second = harness.path(), harness.path()
        os.mkfifo(first)
        os.mkfifo(second)
        command = harness.plain + ["stat", "--json", *arguments, first, second]
        process = subprocess.Popen(command, stdout=subprocess.PIPE, stderr=subprocess.DEVNULL, env=harness.environment)
        watch = threading.Timer(60, process.kill)
        watch.start()
        for path in (second, first):
            descriptor = None
            while descriptor is None and process.poll() is None:
                try:
                    descriptor = os.open(path, os.O_WRONLY | os.O_NONBLOCK)
                except OSError:
                    time.sleep(0.01)
            harness.check(descriptor is not None, "the pipe is opened", arguments, path == second)
            os.write(descriptor, content)
            os.close(descriptor)
        found = process.communicate()[0]
        watch.cancel()
        harness.equal(json.loads(found or b"{}").get("packets"), 18 if arguments == ["-j2"] else 0, arguments)
