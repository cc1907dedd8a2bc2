"""Tests of compressed captures."""

import gzip
import lzma
import os
import random
import re
import shutil
import struct
import subprocess
import threading
import zlib

from captures import *
from test_use import refuse_each

COMMANDS = [["stat"], ["show"], ["filter", "header 44"]]
LIBRARIES = {"gzip": "zlib", "zstd": "libzstd", "xz": "liblzma"}


def zstd(content, checksum=b""):
    """A zstd frame of blocks that aren't compressed (RFC 8878, sections 3.1.1.1 and 3.1.1.2)."""
    frame = b"\x28\xb5\x2f\xfd" + struct.pack("<BI", 0xA0 | (4 if checksum else 0), len(content))
    parts = [content[at:at + 1000] for at in range(0, len(content), 1000)] or [b""]
    for number, part in enumerate(parts):
        frame += struct.pack("<I", len(part) << 3 | (number == len(parts) - 1))[:3] + part
    return frame + checksum


COMPRESS = {"gzip": gzip.compress, "zstd": zstd, "xz": lzma.compress}


def formats(harness):
    """Yields the formats with which ipcap was built, and how each is made."""
    built = re.findall(r"for (\w+)\n", harness.run("--version")[1].decode())
    for name, compress in COMPRESS.items():
        if name in built:
            yield name, compress
        else:
            print("compressed captures: %s skipped, built without %s" % (name, LIBRARIES[name]))
    if "zstd" in built and shutil.which("zstd"):
        yield "zstd", lambda content: subprocess.run(["zstd", "-q", "-c"], input=content, stdout=subprocess.PIPE).stdout


def frames():
    return [ethernet(ipv6_chain([0, 44])), ethernet(ipv4(17, UDP)), ethernet(ipv6_chain([60] * 9)), ethernet(LATER_FRAGMENT)]


def test_compressed(harness):
    """Each command reads a compressed capture, in one stream or several, from a file and from standard input."""
    plain = capture(frames() * 30, magic=NANOSECONDS)
    wanted = [harness.run(*command, content=plain) for command in COMMANDS]
    for name, compress in formats(harness):
        parts = [plain[:3], plain[3:], b"", plain[100:]]
        several = compress(parts[0]) + compress(parts[2]) + compress(parts[1]) + compress(parts[2])
        forms = [compress(plain), several, b"".join(compress(plain[at:at + 1]) for at in range(40)) + compress(plain[40:])]
        if name == "xz":
            forms.append(compress(plain[:50]) + bytes(8) + compress(plain[50:]) + bytes(4))
        if name == "zstd":
            forms.append(b"\x50\x2a\x4d\x18" + struct.pack("<I", 5) + b"other" + compress(plain))
        for content in forms:
            path = harness.file(content, ".any")
            for command, found in zip(COMMANDS, wanted):
                harness.equal(harness.run(*command, path), found, name, command)
                harness.equal(harness.run(*command, content=content), found, name, command, "standard input")
        path = harness.file(compress(capture(frames(), snap_len=90, order=">")))
        found = harness.run("filter", "header 44", path, harness.file(plain))
        again = harness.run("filter", "header 44", harness.file(capture(frames(), snap_len=90, order=">")), harness.file(plain))
        harness.equal(found, again, name, "and a plain file")
        empty, path = harness.file(b""), harness.file(compress(b""))
        words = harness.run("stat", empty)[2].replace(empty, path)
        harness.equal(harness.run("stat", path), (1, b"", words, None), name, "of an empty file")
        harness.equal(harness.run("filter", "fault", content=compress(capture([]))), (0, file_header(), "", None), name)


def test_truncated(harness):
    """Of truncated compressed data, all packets are read that can be decompressed."""
    plain = capture(frames() * 30)
    for name, compress in formats(harness):
        content = compress(plain)
        for kept in [6, 7, 12, len(content) // 2, len(content) - 1]:
            path = harness.file(content[:kept])
            status, found, errors, _ = harness.run("show", "--one-line", path)
            lines = found.count(b"\n")
            place = "can't read packet %d: " % (lines + 1) if lines else ""
            wanted = ["ipcap: %s: %s%s data is truncated\n" % (path, it, name) for it in (place, "can't read packet 1: ")]
            harness.check(errors in wanted, name, kept, errors)
            harness.equal(status, 1, name, kept)
        harness.check(lines == 120 or name == "zstd", name, "without the last byte", lines)
        status, found, errors, _ = harness.run("show", "--one-line", content=compress(plain) + content[:len(content) // 2])
        is_named = errors.endswith(" %s data is truncated\n" % name)
        harness.check(status == 1 and found.count(b"\n") >= 120 and is_named, errors)


def with_wrong_checksum(name, content):
    """Returns compressed data with another checksum of its content."""
    if name == "zstd":
        return zstd(content, b"sum.")
    changed = bytearray(COMPRESS[name](content))
    index_len = 4 * (struct.unpack("<I", changed[-8:-4])[0] + 1) if name == "xz" else 0
    changed[-13 - index_len if name == "xz" else -5] ^= 1
    return bytes(changed)


def test_damaged(harness):
    """Damaged compressed data is reported by its format, and all packets before it are read."""
    plain = capture(frames() * 30)
    words = {"gzip": ["incorrect data check", "incorrect header check"], "xz": ["corrupt data", "corrupt data"],
             "zstd": ["Restored data doesn't match checksum", "Unknown frame descriptor"]}
    built = dict(formats(harness))
    for name in built:
        contents = [with_wrong_checksum(name, plain), COMPRESS[name](plain) + b"no data of this format"]
        for content, reason in zip(contents, words[name]):
            found = harness.run("show", "--one-line", content=content)
            wanted = "ipcap: standard input: can't read packet 121: %s data can't be decompressed: %s\n" % (name, reason)
            harness.equal((found[0], found[1].count(b"\n"), found[2]), (1, 120, wanted), name)
    draw = random.Random(8)
    for number in range(90):
        name, compress = draw.choice([(it, COMPRESS[it]) for it in built])
        changed = bytearray(compress(plain))
        for _ in range(draw.choice([1, 2, 5])):
            changed[draw.randrange(len(changed))] = draw.choice([0, 1, 255, draw.randrange(256)])
        status, _, errors, _ = harness.run(*COMMANDS[number % 3], content=bytes(changed))
        harness.equal(status == 0, errors == "", name, bytes(changed).hex(), errors)


def test_between_programs(harness):
    """What can be decompressed is written at once, before more arrives."""
    if "gzip" not in dict(formats(harness)):
        return
    for command in [harness.plain, harness.sanitized, harness.checked]:
        process = subprocess.Popen(command + ["filter", "header 44"], stdin=subprocess.PIPE, stdout=subprocess.PIPE,
                                   env=harness.environment)
        watch = threading.Timer(60, process.kill)
        watch.start()
        packer = zlib.compressobj(wbits=31)
        for part in [file_header(), record(frames()[0]), record(frames()[3])]:
            os.write(process.stdin.fileno(), packer.compress(part) + packer.flush(zlib.Z_SYNC_FLUSH))
            harness.equal(process.stdout.read(len(part)), part, "after a flush")
        os.write(process.stdin.fileno(), packer.flush())
        process.stdin.close()
        harness.equal((process.wait(), process.stdout.read()), (0, b""), "the end")
        process.stdout.close()
        watch.cancel()


def test_refused_memory(harness):
    """Each failed allocation of a decoder is an error, unless it gets by without that memory."""
    for _, compress in formats(harness):
        refuse_each(harness, ["stat", harness.file(compress(capture(frames())))])


def test_without_libraries(harness):
    """A program that was built without a library names it."""
    bare = harness.commands(os.path.join("..", "bare", "ipcap"))[0]
    version = harness.answer(bare, ["--version"], b"", None)
    harness.check(version[0] == 0 and b" for " not in version[1], version)
    plain = capture(frames())
    for name, compress in COMPRESS.items():
        path = harness.file(compress(plain))
        words = "ipcap: %s: %s data can't be decompressed: this ipcap was built without %s\n" % (path, name, LIBRARIES[name])
        for command in COMMANDS:
            harness.equal(harness.answer(bare, [*command, path], b"", None), (1, b"", words, None), command, name)
            found = harness.answer(bare, command, compress(plain), None)
            harness.equal(found[:3], (1, b"", words.replace(path, "standard input")), command, name)
    harness.equal(harness.answer(bare, ["stat"], plain, None), harness.run("stat", content=plain), "a plain capture")
