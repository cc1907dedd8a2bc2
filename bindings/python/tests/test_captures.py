"""Tests of `packets` and `Filter.write`. Expected values were worked out by hand, or are what ipcap writes."""

import contextlib
import datetime
import errno
import gzip
import os
import pickle
import random
import re
import resource
import shutil
import stat
import subprocess
import tempfile
import threading
import unittest
from unittest import mock

from support import BUILD, PACKETS, ROOT, TCP, UDP, capture, ethernet, file_header, ipcap, ipv4, ipv6_chain, record, write

import blocks
from captures import LOOP, NANOSECONDS, RAW, SLL2, cooked2

import wolfaren
from wolfaren._library import captures, file_of
from wolfaren import CaptureError, CaptureOSError, CaptureWarning, Filter, Packet, Statistics, Written, packets

ARP = ethernet(bytes(46), (), 0x0806)
LATE = 2**32 - 1


def open_files(path):
    """Returns how many of this process's files are the one at the path."""
    found = 0
    for name in os.listdir("/proc/self/fd"):
        with contextlib.suppress(OSError):
            found += os.path.samefile(f"/proc/self/fd/{name}", path)
    return found


class Scratch(unittest.TestCase):
    def setUp(self):
        folder = tempfile.TemporaryDirectory()
        self.addCleanup(folder.cleanup)
        self.folder = folder.name

    def file(self, content, name="a.pcap"):
        return write(self.folder, name, content)


class Packets(Scratch):
    def test_fields(self):
        frame = ethernet(ipv4(6, TCP), [0x8100])
        path = self.file(file_header() + record(ARP) + record(frame, 50, 1000, 999999) + record(ethernet(b"", (), 0x86DD)))
        first, second = packets(path)
        self.assertEqual(first, Packet(2, 1000_999999000, "EN10MB", len(frame), 50, 18, ipv4(6, TCP)[:32]))
        self.assertEqual(first.time, datetime.datetime(1970, 1, 1, 0, 16, 40, 999999, datetime.timezone.utc))
        self.assertEqual(second, Packet(3, 1000_000005000, "EN10MB", 14, 14, 14, b""))
        self.assertEqual(pickle.loads(pickle.dumps(first)), first)

    def test_times(self):
        for magic, order, fraction, wanted in [(NANOSECONDS, ">", 999999999, LATE * 10**9 + 999999999),
                                               (NANOSECONDS, "<", 7, LATE * 10**9 + 7)]:
            head = file_header(RAW, 65535, magic, order)
            (packet,) = packets(self.file(head + record(ipv4(6, TCP), None, LATE, fraction, order)))
            self.assertEqual((packet.time_ns, packet.time.year), (wanted, 2106))

    def test_late_time(self):
        """Packets of a pcapng file at the last time that is known, in microseconds, and at the next."""
        packet, last = ipv4(6, TCP), 2**64 // 1000
        content = blocks.section() + blocks.interface(RAW) + blocks.packet(packet, 0, last) + blocks.packet(packet, 0, last + 1)
        found = list(packets(self.file(content)))
        self.assertEqual([(it.time_ns, it.bytes) for it in found], [(last * 1000, packet), (None, packet)])
        self.assertEqual([it.time.year for it in found if it.time], [2554])

    def test_link_layers(self):
        packet = ipv4(17, UDP)
        for number, name, frame in [(RAW, "RAW", packet), (LOOP, "LOOP", b"\0\0\0\2" + packet),
                                    (SLL2, "LINUX_SLL2", cooked2(packet, 0x0800))]:
            (found,) = packets(self.file(capture([frame], number)))
            self.assertEqual((found.link_layer, found.ip_offset, found.bytes), (name, len(frame) - len(packet), packet))

    def test_interfaces(self):
        """Each packet of a pcapng file has the link layer, and the resolution of times, of its interface."""
        packet, frame = ipv4(17, UDP), ethernet(ipv4(6, TCP))
        content = (blocks.section() + blocks.interface() + blocks.interface(RAW, options=blocks.option(9, b"\x09"))
                   + blocks.packet(frame) + blocks.packet(packet, 1, 1795852800_000000007) + blocks.simple(frame)
                   + blocks.packet(ARP) + blocks.section(">") + blocks.interface(SLL2, order=">")
                   + blocks.obsolete(cooked2(packet, 0x0800), order=">"))
        for path in [self.file(content, "a.pcapng"), self.file(gzip.compress(content), "a.pcapng.gz")]:
            found = [*packets(path)]
            self.assertEqual([(it.number, it.time_ns, it.link_layer, it.ip_offset, it.bytes) for it in found],
                             [(1, 1000_000005000, "EN10MB", 14, frame[14:]), (2, 1795852800_000000007, "RAW", 0, packet),
                              (3, None, "EN10MB", 14, frame[14:]), (5, 1000_000005000, "LINUX_SLL2", 20, packet)])
            self.assertEqual([it.time is None for it in found], [False, False, True, False])
        self.assertEqual(pickle.loads(pickle.dumps(found)), found)

    def test_left_out(self):
        """Packets of an interface whose link layer isn't supported are left out, and it is named after the last packet."""
        content = (blocks.section() + blocks.interface(119) + blocks.interface(RAW) + blocks.packet(bytes(60))
                   + blocks.packet(PACKETS[0], 1) + blocks.packet(bytes(60)))
        named = "interface 0: link layer PRISM_HEADER .* isn't supported$"
        for missing, reason in [(0, f"^{named}"), (1, f"^can't read packet 3: .* is truncated: .*; {named}")]:
            path = self.file(content[:len(content) - missing])
            found = packets(path)
            self.assertEqual((next(found).number, open_files(path)), (2, 1))
            with self.assertRaises(CaptureError) as raised:
                next(found)
            self.assertEqual((raised.exception.path, open_files(path)), (path, 0))
            self.assertRegex(raised.exception.reason, reason)
            self.assertNotIsInstance(raised.exception, OSError)
        self.assertEqual(next(packets(path)).bytes, PACKETS[0])
        self.assertEqual([*packets(self.file(blocks.section()))], [])

    def test_compressed(self):
        content = capture([ethernet(it) for it in PACKETS[:4]])
        wanted = [*packets(self.file(content))]
        path = self.file(gzip.compress(content), "a.pcap.gz")
        self.assertEqual([*packets(path)], wanted)
        with self.assertRaisesRegex(CaptureError, "gzip data is truncated"):
            [*packets(self.file(gzip.compress(content)[:-9]))]

    def test_large(self):
        """The longest packet that a block of a pcapng file has room for, between others."""
        large, small = bytes(2**24 - 32), ipv4(17, UDP)
        content = blocks.section() + blocks.interface(RAW) + b"".join(map(blocks.packet, [small, large, small, large]))
        self.assertEqual([it.bytes for it in packets(self.file(content))], [small, large, small, large])

    def test_many(self):
        """More packets than are read at once, by number or by bytes, are those that `ipcap stat` counts."""
        some = random.Random(1)
        frames = [ethernet(ipv6_chain([60] * some.randrange(3), payload=bytes(some.randrange(40)))) for _ in range(5000)]
        large = [ethernet(ipv4(17, bytes(some.randrange(60000)))) for _ in range(60)]
        longest = capture([bytes(262144)], RAW, 262144)
        for content in [capture(frames + [ARP] * 2000 + frames), capture(large), longest, capture([])]:
            path, counted = self.file(content), Statistics()
            found = list(packets(path))
            for it in found:
                counted.add(it.bytes)
            wanted = wolfaren.statistics_of(path)
            self.assertEqual((counted.packets, counted.chains), (wanted.packets, wanted.chains))
            self.assertEqual([it.number for it in found], sorted({it.number for it in found}))
        self.assertEqual([it.bytes for it in packets(self.file(capture(large)))], [it[14:] for it in large])

    def test_truncated(self):
        content = capture([ethernet(it) for it in PACKETS[:4]])
        for missing in [1, 40]:
            path, found, error = self.file(content[:-missing]), [], None
            try:
                for it in packets(path):
                    found.append(it.number)
            except CaptureError as raised:
                error = raised
                self.assertEqual(open_files(path), 0)  # although the traceback refers to what the generator had
            self.assertRegex(error.reason, "can't read packet 4: ")
            self.assertEqual((found, error.path, error.statistics), ([1, 2, 3], path, None))
            self.assertNotIsInstance(error, OSError)
            with self.assertWarnsRegex(CaptureWarning, f"^{re.escape(str(error))}$"):
                self.assertEqual([it.number for it in packets(path, on_error="warn")], [1, 2, 3])

    def test_unreadable(self):
        """The capture is opened by the call, before a packet is asked for."""
        for path, words in [(self.file(b"no capture", "x"), "no magic number of capture files"),
                            (self.file(capture([b""], 119), "y"), "link layer PRISM_HEADER .* isn't supported"),
                            (f"{self.folder}/none", "No such file"), (self.folder, "Is a directory")]:
            with self.assertRaisesRegex(CaptureError, words):
                packets(path)
        with self.assertRaises(CaptureOSError) as raised:
            packets(f"{self.folder}/none")
        self.assertEqual((raised.exception.errno, raised.exception.filename), (errno.ENOENT, f"{self.folder}/none"))
        with self.assertWarnsRegex(CaptureWarning, "No such file"):
            self.assertEqual([*packets(f"{self.folder}/none", on_error="warn")], [])
        with self.assertRaisesRegex(ValueError, "on_error is 'raise' or 'warn', not 'ignore'"):
            packets(self.folder, on_error="ignore")

    def test_null_byte(self):
        path = self.file(capture([ethernet(PACKETS[0])]))
        for name in [f"{path}\0", f"{path}\0b", "\0"]:
            with self.assertRaisesRegex(ValueError, "^embedded null byte$"):
                packets(name)

    def test_stopped_early(self):
        path = self.file(capture([ethernet(it) for it in PACKETS[:4]]))
        found = packets(path)
        self.assertEqual((next(found).number, open_files(path)), (1, 1))
        found.close()
        self.assertEqual((open_files(path), list(found)), (0, []))
        for _ in packets(path):
            break
        packets(path)
        self.assertEqual(open_files(path), 0)

    def test_pipe(self):
        """A packet of a pipe is there before the next one is written."""
        pipe = f"{self.folder}/pipe"
        os.mkfifo(pipe)
        with contextlib.ExitStack() as files:
            def begin():
                writers.append(files.enter_context(open(pipe, "wb", buffering=0)))
                writers[0].write(file_header() + record(ethernet(PACKETS[0])))
            writers = []
            threading.Thread(target=begin, daemon=True).start()
            found = packets(pipe)
            self.assertEqual(next(found).bytes, PACKETS[0])
            writers[0].write(record(ethernet(PACKETS[1])))
            self.assertEqual(next(found).bytes, PACKETS[1])
            found.close()

    def test_names_of_files(self):
        self.addCleanup(os.chdir, os.getcwd())
        os.chdir(self.folder)
        self.file(capture([ethernet(PACKETS[0])]), "-")
        self.assertEqual(len(list(packets("-"))), 1)


class Calls(Scratch):
    """What the package doesn't do with the calls of the library."""

    def test_small_buffer(self):
        """A packet that doesn't fit is kept for the next call."""
        own, library = captures()
        path = self.file(capture([ethernet(it) for it in [PACKETS[2], PACKETS[0], PACKETS[2]]]))
        error, bytes_ = own.new("char[]", library.WOLFAREN_PCAP_ERROR_ROOM), own.new("uint8_t[]", 200)
        fields = own.new("struct wolfaren_pcap_packet[]", 3)
        reader = library.wolfaren_pcap_open(os.fsencode(path), error)
        rooms = [(40, 1, 1), (40, 0, 2), (len(PACKETS[0]), 1, 2), (200, 1, 3), (200, 0, 3)]
        for room, wanted, number in rooms:
            self.assertEqual(library.wolfaren_pcap_read(reader, fields, 3, bytes_, room, error), wanted)
            self.assertEqual(own.string(error), b"" if number != 2 or wanted else b"a packet is larger than the buffer")
            if wanted:
                self.assertEqual((fields[0].number, fields[0].len), (number, len(PACKETS[0 if number == 2 else 2])))
        library.wolfaren_pcap_close(reader)
        library.wolfaren_pcap_close(own.NULL)

    def test_no_condition(self):
        own, library = captures()
        counts, error = own.new("struct wolfaren_pcap_counts *"), own.new("char[]", library.WOLFAREN_PCAP_ERROR_ROOM)
        self.assertEqual(library.wolfaren_pcap_filter(b"fault or", 8, b"/nonexistent", -1, counts, error),
                         library.WOLFAREN_PCAP_CONDITION_FAILED)
        self.assertEqual((own.string(error), own.errno), (b"the condition is not a filter", 0))

    def test_no_output(self):
        own, library = captures()
        counts, error = own.new("struct wolfaren_pcap_counts *"), own.new("char[]", library.WOLFAREN_PCAP_ERROR_ROOM)
        path = os.fsencode(self.file(capture([ethernet(PACKETS[0])])))
        closed = os.open(os.devnull, os.O_RDONLY)
        self.addCleanup(os.close, closed)
        for output, reason in [(-1, errno.EBADF), (closed, errno.EINVAL)]:
            self.assertEqual(library.wolfaren_pcap_filter(b"version 6", 9, path, output, counts, error),
                             library.WOLFAREN_PCAP_OUTPUT_FAILED)
            self.assertEqual((own.string(error), own.errno), (os.strerror(reason).encode(), reason))


class Program(Scratch):
    """A C program that makes the library's calls, captures.c."""

    def build(self, library, *flags):
        """Builds the program with libwolfaren-pcap in a directory, and returns its path."""
        program = f"{self.folder}/captures"
        subprocess.run(["cc", "-std=c99", "-D_POSIX_C_SOURCE=200809L", "-Wall", "-Wextra", "-Werror", *flags,
                        f"-I{ROOT}/programs/ipcap", f"{ROOT}/bindings/python/tests/captures.c", f"{library}/{file_of('libwolfaren-pcap', 'wolfaren-pcap.h')}",
                        f"-Wl,-rpath,{os.path.abspath(library)}", "-o", program], check=True)
        return program

    def test_refused_memory(self):
        """Each failed allocation is an error, unless the call gets by without that memory."""
        program, refusing = self.build(BUILD), f"{self.folder}/refuse.so"
        subprocess.run(["cc", "-O1", "-shared", "-fPIC", "-o", refusing, f"{ROOT}/tests/lines/refuse-memory.c", "-ldl"], check=True)
        frames = [ethernet(it) for it in PACKETS[:4]]
        content = blocks.section() + blocks.interface() + b"".join(map(blocks.packet, frames))
        for content in [capture(frames), content, gzip.compress(content)]:
            words = [program, f"{self.folder}/c.pcap", self.file(content)]
            wanted = subprocess.run(words, capture_output=True, check=True).stdout
            failed = 0
            for number in range(1, 40):
                environment = {**os.environ, "LD_PRELOAD": refusing, "REFUSED_ALLOCATION": str(number)}
                ran = subprocess.run(words, env=environment, capture_output=True, check=False)
                self.assertIn(ran.returncode, [0, 2], number)  # 2: the program's own buffer
                if ran.stdout != wanted and ran.returncode == 0:
                    self.assertRegex(ran.stdout, b"memory|malloc|read error|write failed", number)
                failed += ran.stdout != wanted
            self.assertGreater(failed, 4)

    def test_damaged_captures(self):
        """The C code, built with sanitizers, does with damaged captures what the package does."""
        flags = ["-O1", "-g", "-fsanitize=address,undefined", "-fno-sanitize-recover=all"]
        subprocess.run(["make", "-s", "-C", f"{ROOT}/programs", "pcap-shared", f"LIB={os.path.abspath(BUILD)}",
                        f"OUT={self.folder}/out", f"CFLAGS={' '.join(flags)}", "HARDENING="], check=True)
        program, paths = self.build(f"{self.folder}/out", *flags), self.damaged()
        ran = subprocess.run([program, f"{self.folder}/c.pcap", *paths], capture_output=True, text=True, check=False)
        self.assertEqual((ran.returncode, ran.stderr), (0, ""))
        wanted = [line for path in paths for line in self.wanted(path)]
        for found, line in zip(ran.stdout.splitlines(), wanted, strict=True):
            self.assertRegex(found, f"^{line}$")

    def wanted(self, path):
        """Returns what the program prints of a capture, by what the package reads and writes of it."""
        lines, reason = [], ""
        try:
            for it in packets(path):
                time = "" if it.time_ns is None else f"{it.time_ns % 2**64} "
                total = sum((i + 1) * byte for i, byte in enumerate(it.bytes))
                lines.append(f"{it.number} {time}{it.link_layer} {it.captured_len} {it.original_len} {it.ip_offset} "
                             f"{len(it.bytes)} {total}")
        except CaptureError as error:
            reason = error.reason
        try:
            written = "0 %d %d " % Filter("version 6").write(path, f"{self.folder}/b.pcap")
        except CaptureError as error:
            written = f"[24] .* {re.escape(error.reason)}"
        return [*map(re.escape, lines), re.escape(reason), written]

    def whole(self):
        """Returns the contents of a pcap file, of pcapng files, one with an interface that isn't supported, and of one
        that is compressed."""
        frames = [ethernet(it) for it in PACKETS[:4]] * 2 + [ethernet(ipv4(17, UDP) + bytes(150000))] * 2 + [ARP]
        several = (blocks.section() + blocks.interface(snap_len=262144) + blocks.interface(RAW)
                   + b"".join(map(blocks.packet, frames)) + blocks.simple(frames[0]) + blocks.block(5, bytes(12))
                   + b"".join(blocks.packet(it, 1) for it in PACKETS))
        left_out = several + blocks.interface(119) + blocks.packet(ARP, 2) + blocks.packet(PACKETS[0], 1)
        return [capture(frames, snap_len=262144), several, left_out, gzip.compress(several)]

    def damaged(self):
        """Writes captures that are damaged in different ways, and returns their paths."""
        some = random.Random(3)
        whole = self.whole()
        contents = [*whole, *(it[:-1] for it in whole), *(it[:some.randrange(90)] for it in whole), whole[0][:40], b""]
        for number in range(300):
            content = whole[number % len(whole)]
            damaged = bytearray(content[:some.choice([len(content), 700, 250])])
            for _ in range(some.randrange(1, 5)):
                damaged[some.randrange(min(len(damaged), 900))] = some.randrange(256)
            contents.append(bytes(damaged))
        return [self.file(content, f"{i}.pcap") for i, content in enumerate(contents)]


class Writes(Scratch):
    def setUp(self):
        super().setUp()
        frames = [ethernet(it) for it in PACKETS[:4]] + [ARP]
        self.content = capture(frames * 3, snap_len=90, magic=NANOSECONDS)
        self.input = self.file(self.content)
        self.output = f"{self.folder}/b.pcap"

    def left(self):
        """Returns the files of the directory that the tests haven't made."""
        return sorted({*os.listdir(self.folder)} - {"a.pcap"})

    def test_as_ipcap(self):
        for condition in ["version 6", "version 4", "not fault"]:
            ipcap("filter", "-w", f"{self.folder}/c.pcap", condition, self.input)
            counts = Filter(condition).write(self.input, self.output)
            with open(self.output, "rb") as found, open(f"{self.folder}/c.pcap", "rb") as wanted:
                self.assertEqual(found.read(), wanted.read())
            self.assertEqual(counts, Written(15, int(counts.written)))
            self.assertEqual(counts.written, sum(1 for _ in packets(self.output)) + (3 if condition == "not fault" else 0))
        self.assertEqual(self.left(), ["b.pcap", "c.pcap"])

    def test_pcapng(self):
        """Interfaces, comments and other blocks are kept as ipcap keeps them, in an output that isn't compressed."""
        head = (blocks.section(options=blocks.option(1, b"a comment")) + blocks.interface(options=blocks.option(2, b"eth0"))
                + blocks.interface(RAW))
        some = [blocks.packet(ethernet(PACKETS[0]), 0, 7), blocks.packet(PACKETS[2], 1, 8), blocks.block(5, bytes(12)),
                blocks.simple(ethernet(PACKETS[0])), blocks.packet(ARP)]
        content = head + b"".join(some)
        for path in [self.file(content, "c.pcapng"), self.file(gzip.compress(content), "c.pcapng.gz")]:
            for condition, written, wanted in [("version 6", 2, head + some[0] + some[2] + some[3]),
                                               ("not fault", 4, content), ("version 4", 1, head + some[1] + some[2])]:
                ipcap("filter", "-w", f"{self.folder}/c", condition, path)
                self.assertEqual(Filter(condition).write(path, self.output), (4, written))
                with open(self.output, "rb") as found, open(f"{self.folder}/c", "rb") as other:
                    self.assertEqual((found.read(), other.read()), (wanted, wanted))
        self.assertEqual([it.time_ns for it in packets(self.output)], [8000])

    def test_compressed(self):
        path = self.file(gzip.compress(self.content), "a.pcap.gz")
        self.assertEqual(Filter("not fault").write(path, self.output), (15, 12))
        uncompressed = f"{self.folder}/c.pcap"
        self.assertEqual(Filter("not fault").write(self.input, uncompressed), (15, 12))
        with open(self.output, "rb") as found, open(uncompressed, "rb") as wanted:
            self.assertEqual(found.read(), wanted.read())

    def test_left_out(self):
        """The output has all but the packets of an interface that isn't supported, as that of ipcap; the error names it."""
        packet = [blocks.packet(PACKETS[0]), blocks.packet(bytes(60), 1), blocks.packet(PACKETS[0])]
        head = blocks.section() + blocks.interface(RAW) + blocks.interface(119)
        path = self.file(head + b"".join(packet), "c.pcapng")
        before = self.file(b"kept", "b.pcap")
        with self.assertRaisesRegex(CaptureError, ": interface 1: link layer PRISM_HEADER .* isn't supported$") as raised:
            Filter("version 6").write(path, before)
        self.assertEqual((raised.exception.path, raised.exception.written), (path, Written(3, 2)))
        ipcap("filter", "-w", f"{self.folder}/c", "version 6", path, status=1)
        with open(before, "rb") as found, open(f"{self.folder}/c", "rb") as wanted:
            self.assertEqual((found.read(), wanted.read()), (head + packet[0] + packet[2],) * 2)
        with self.assertRaisesRegex(CaptureError, "is truncated: .*; interface 1: link layer"):
            Filter("not fault").write(self.file((head + packet[0] + packet[1])[:-1], "d.pcapng"), before)
        self.assertEqual(os.path.getsize(before), len(head + packet[0] + packet[2]))
        self.assertEqual(self.left(), ["b.pcap", "c", "c.pcapng", "d.pcapng"])

    def test_counts(self):
        self.assertEqual(Filter("version 4").write(self.input, self.output), (15, 3))
        self.assertEqual(Filter(b"version 6").write(self.file(capture([]), "c.pcap"), self.output), (0, 0))
        self.assertEqual(os.path.getsize(self.output), 24)

    def test_truncated_input(self):
        path = self.file(self.content[:-1], "damaged.pcap")
        before = self.file(b"kept", "b.pcap")
        for output in [before, f"{self.folder}/new.pcap"]:
            with self.assertRaisesRegex(CaptureError, "can't read packet 15: ") as raised:
                Filter("version 6").write(path, output)
            self.assertEqual(raised.exception.path, path)
        self.assertEqual(self.left(), ["b.pcap", "damaged.pcap"])
        with open(before, "rb") as it:
            self.assertEqual(it.read(), b"kept")

    def test_missing_input(self):
        with self.assertRaises(CaptureOSError) as raised:
            Filter("version 6").write(f"{self.folder}/none", self.output)
        self.assertEqual((raised.exception.errno, raised.exception.filename), (errno.ENOENT, f"{self.folder}/none"))
        with self.assertRaisesRegex(CaptureError, "no magic number of capture files"):
            Filter("version 6").write(self.file(b"no capture", "x"), self.output)
        self.assertEqual(self.left(), ["x"])

    def test_same_file(self):
        os.link(self.input, f"{self.folder}/link")
        os.symlink(self.input, f"{self.folder}/symbolic")
        for output in [self.input, f"{self.folder}/link", f"{self.folder}/symbolic"]:
            with self.assertRaisesRegex(shutil.SameFileError, "are the same file"):
                Filter("version 6").write(self.input, output)
        with open(self.input, "rb") as it:
            self.assertEqual(it.read(), self.content)

    def test_null_byte(self):
        """A path with a null byte isn't that of the file before the byte, which may be the input."""
        for one, other in [(f"{self.input}\0", self.input), (self.input, f"{self.input}\0"), (self.input, f"{self.output}\0"),
                           (f"{self.input}\0b", self.output)]:
            with self.assertRaisesRegex(ValueError, "^embedded null byte$"):
                Filter("version 4").write(one, other)
        self.assertEqual(self.left(), [])
        with open(self.input, "rb") as it:
            self.assertEqual(it.read(), self.content)

    def test_refused_output(self):
        for output, reason in [(f"{self.folder}/none/b.pcap", errno.ENOENT), (self.folder, errno.EISDIR)]:
            with self.assertRaises(OSError) as raised:
                Filter("version 6").write(self.input, output)
            self.assertEqual((raised.exception.errno, raised.exception.filename), (reason, output))
            self.assertNotIsInstance(raised.exception, CaptureError)
        self.assertEqual(self.left(), [])

    def test_output_too_large(self):
        """The system refuses the last bytes of the output, or those that fill its buffer."""
        large = self.file(capture([ethernet(PACKETS[0])] * 2000), "large.pcap")
        limits = resource.getrlimit(resource.RLIMIT_FSIZE)
        content = blocks.section() + blocks.interface() + blocks.packet(ethernet(PACKETS[0])) * 2000
        other = self.file(content, "large.pcapng")
        for path, most in [(self.input, 100), (large, 100000), (other, 100), (other, 100000)]:
            resource.setrlimit(resource.RLIMIT_FSIZE, (most, limits[1]))
            try:
                with self.assertRaises(OSError) as raised:
                    Filter("version 6").write(path, self.output)
            finally:
                resource.setrlimit(resource.RLIMIT_FSIZE, limits)
            self.assertEqual((raised.exception.errno, raised.exception.filename), (errno.EFBIG, self.output))
            self.assertNotIsInstance(raised.exception, CaptureError)
            self.assertEqual(self.left(), ["large.pcap", "large.pcapng"])

    def test_stopped(self):
        """Whatever stops the writing after the new file is there, that file is removed."""
        for call in ["os.fsync", "os.replace"]:
            with mock.patch(call, side_effect=KeyboardInterrupt), self.assertRaises(KeyboardInterrupt):
                Filter("version 6").write(self.input, self.output)
            self.assertEqual(self.left(), [])

    def test_replaced_output(self):
        """The output keeps its permissions, and a symbolic link to it stays. A new file has those of `open`."""
        Filter("version 6").write(self.input, self.output)
        with open(f"{self.folder}/opened", "w", encoding="ascii"):
            pass
        self.assertEqual(os.stat(self.output).st_mode, os.stat(f"{self.folder}/opened").st_mode)
        os.chmod(self.output, 0o640)
        os.symlink("b.pcap", f"{self.folder}/link")
        self.assertEqual(Filter("version 4").write(self.input, f"{self.folder}/link"), (15, 3))
        self.assertEqual(stat.S_IMODE(os.stat(self.output).st_mode), 0o640)
        self.assertEqual((len(list(packets(self.output))), os.readlink(f"{self.folder}/link")), (3, "b.pcap"))

    def test_read_only_output(self):
        """A file that may not be written isn't replaced either."""
        before, user = self.file(b"kept", "b.pcap"), os.geteuid()
        os.chmod(before, 0o444)
        os.chmod(self.folder, 0o777)
        if user == 0:
            os.seteuid(65534)
        try:
            with self.assertRaises(PermissionError) as raised:
                Filter("version 6").write(self.input, before)
        finally:
            os.seteuid(user)
        self.assertEqual((raised.exception.filename, self.left(), os.path.getsize(before)), (before, ["b.pcap"], 4))

    def test_pipe(self):
        """An output that isn't a regular file is written, and not replaced."""
        pipe, found = f"{self.folder}/pipe", []
        os.mkfifo(pipe)
        reader = threading.Thread(target=lambda: found.extend(packets(pipe)), daemon=True)
        reader.start()
        self.assertEqual(Filter("version 6").write(self.input, pipe), (15, 9))
        reader.join(60)
        self.assertEqual(len(found), 9)
        self.assertTrue(stat.S_ISFIFO(os.stat(pipe).st_mode))


if __name__ == "__main__":
    unittest.main()
