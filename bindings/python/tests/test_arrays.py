"""Tests of the calls for many packets, which need numpy, against those for one packet. Columns of pandas are passed too."""

import inspect
import json
import os
import random
import re
import signal
import tempfile
import threading
import time
import unittest

import numpy
import pandas

from support import LATER_FRAGMENT, PACKETS, TCP, UDP, authentication, capture, ethernet, fragment, ipv4, ipv6, ipv6_chain, write

from wolfaren import Filter, SpanError, Statistics, dissect, dissect_many, packets

FILTERS = ["fault", "not fault", "ip6 and header frag", "udp or truncated", "payload > 20 and leads-to 17", "port 53"]
PARTS = ["version", "payload_number", "payload_offset", "stated_len", "missing", "end"]
FRAGMENT = {"fragment": "kind", "identification": "identification", "fragment_offset": "offset"}
FAULT = ["required_len", "len", "kind", "header", "layer", "len_source", "value"]


def joined(all_packets, gap=b""):
    """Returns a buffer with packets, and their offsets and lengths."""
    lengths = [len(it) for it in all_packets]
    offsets = [sum(lengths[:i]) + i * len(gap) for i in range(len(lengths))]
    return gap.join(all_packets), offsets, lengths


def random_packets(count, seed=1):
    """Returns packets: whole, truncated, with bytes after them, with changed bytes, with long chains, and random bytes."""
    chance, found = random.Random(seed), []
    kinds = PACKETS + [ipv6_chain([60] * 3), ipv6_chain([0, 43, 43]), ipv6_chain([60] * 70), ipv4(51, authentication(17) + UDP),
                       ipv6(44, fragment(17, 0, True, 7) + UDP), ipv6(17, UDP), ipv4(1, b""), LATER_FRAGMENT]
    for _ in range(count):
        packet = bytearray(chance.choice(kinds))
        if chance.random() < 0.3:
            del packet[chance.randrange(len(packet) + 1):]
        if chance.random() < 0.3:
            packet += chance.randbytes(chance.randrange(9))
        if packet and chance.random() < 0.3:
            packet[chance.randrange(len(packet))] = chance.randrange(256)
        found.append(bytes(packet) if chance.random() < 0.9 else chance.randbytes(chance.randrange(90)))
    return found


def counted(all_packets):
    statistics = Statistics()
    for packet in all_packets:
        statistics.add(packet)
    return statistics


class AsSingleCalls(unittest.TestCase):
    def check(self, buffer, offsets, lengths):
        cut = [bytes(buffer[offset:offset + length]) for offset, length in zip(offsets, lengths)]
        columns = dissect_many(buffer, offsets, lengths)
        self.assertEqual(columns.shape, (len(cut),))
        for packet, row in zip(cut, columns):
            self.check_parts(dissect(packet), row)
        for text in FILTERS:
            matches = Filter(text).matches_many(buffer, offsets, lengths)
            self.assertEqual(matches.dtype, bool)
            self.assertEqual(matches.tolist(), [Filter(text).matches(it) for it in cut], text)
        statistics = Statistics()
        statistics.add_many(buffer, offsets, lengths)
        self.assertEqual(statistics, counted(cut))
        self.assertEqual(*([name for name in it._chains if name != "other"] for it in (statistics, counted(cut))))
        self.assertEqual(Statistics.from_json(statistics.to_json()), statistics)

    def check_parts(self, parts, row):
        self.assertEqual([int(row[name]) for name in PARTS], [getattr(parts, name) for name in PARTS])
        lengths = {"base_len": parts.base_header, "headers": parts.headers, "payload_len": parts.payload, "padding": parts.padding}
        self.assertEqual([int(row[name]) for name in lengths], [len(it) for it in lengths.values()])
        self.assertEqual([int(row[name]) for name in FRAGMENT], [getattr(parts.fragment, it) for it in FRAGMENT.values()])
        fault = parts.fault
        self.assertEqual([int(row["fault"][name]) for name in FAULT], [getattr(fault, it) if fault else 0 for it in FAULT])

    def test_by_hand(self):
        buffer, offsets, lengths = joined(PACKETS)
        columns = dissect_many(buffer, offsets, lengths)
        self.assertEqual(columns["version"].tolist(), [6, 6, 4, 6, 0])
        self.assertEqual(columns["headers"].tolist(), [5, 0, 0, 1, 0])
        self.assertEqual(columns["payload_offset"].tolist(), [96, 40, 20, 48, 0])
        self.assertEqual(columns["fault"]["kind"].tolist(), [0, 1, 0, 0, 1])
        self.assertEqual(Filter("header frag").matches_many(buffer, offsets, lengths).tolist(), [True, False, False, True, False])
        statistics = Statistics()
        statistics.add_many(buffer, offsets, lengths)
        self.assertEqual(statistics.headers, {0: 1, 43: 1, 44: 2, 51: 1, 60: 1})
        self.assertEqual(statistics.chains, {"IPv6 0,43,44,51,60 -> 17": 1, "IPv6 -> 60 fault": 1, "IPv4 -> 6": 1,
                                             "IPv6 44 -> 60": 1})
        self.check(buffer, offsets, lengths)

    def test_differences(self):
        """Differences between rows have their sign."""
        columns = dissect_many(*joined([ipv6(17, UDP), ipv6_chain([60, 60]), LATER_FRAGMENT]))
        for name in ["payload_offset", "headers", "fragment_offset", "version", "fragment"]:
            one, two, three = columns[name].tolist()
            self.assertEqual(numpy.diff(columns[name]).tolist(), [two - one, three - two], name)
        self.assertEqual(numpy.diff(columns["payload_offset"]).tolist(), [16, -8])
        array = dissect_many(*joined([ipv6(44, fragment(17, 0, 1, it) + UDP) for it in [7, 0xffffffff, 5]]))
        self.assertEqual(numpy.diff(array["identification"]).tolist(), [0xffffffff - 7, 5 - 0xffffffff])

    def test_saved(self):
        """An array can be saved and loaded, and other packages can read its memory."""
        array = dissect_many(*joined(PACKETS))
        with tempfile.TemporaryFile() as file:
            numpy.save(file, array)
            file.seek(0)
            self.assertEqual(numpy.load(file).tolist(), array.tolist())
        self.assertEqual(memoryview(array).nbytes, array.nbytes)

    def test_signs(self):
        """No column is unsigned."""
        kinds = dissect_many(b"", [], []).dtype
        numbers = [kinds["fault"][it] for it in kinds["fault"].names] + [kinds[it] for it in kinds.names if it != "fault"]
        self.assertEqual({it.kind for it in numbers}, {"i"})

    def test_random_packets(self):
        for seed, gap in [(1, b""), (2, b"\x60\x00\x00")]:
            self.check(*joined(random_packets(3000, seed), gap))

    def test_overlapping(self):
        chance, buffer = random.Random(3), b"".join(random_packets(100))
        offsets = [chance.randrange(len(buffer) + 1) for _ in range(1000)]
        self.check(buffer, offsets, [chance.randrange(min(200, len(buffer) - it) + 1) for it in offsets])

    def test_captures(self):
        with tempfile.TemporaryDirectory() as folder:
            path = write(folder, "one.pcap", capture([ethernet(it) for it in random_packets(500, 4)]))
            self.check(*joined([it.bytes for it in packets(path)]))

    def test_none(self):
        self.check(b"", [], [])
        self.check(b"", [0, 0], [0, 0])
        self.check(UDP, numpy.empty(0, "u8"), numpy.empty(0, "i4"))

    def test_several_together(self):
        """More packets than are counted at a time, of which the last have chains that the first don't have."""
        whole = [ipv6(17, UDP)] * 70000 + [ipv6_chain([60, 43]), ipv4(6, TCP), ipv4(17, UDP)[:-1]] * 2
        buffer, offsets, lengths = joined(whole)
        statistics = Statistics()
        statistics.add_many(buffer, offsets, lengths)
        self.assertEqual(statistics.chains, {"IPv6 -> 17": 70000, "IPv4 -> 6": 2, "IPv4 -> 17": 2, "IPv6 60,43 -> 17": 2})
        self.assertEqual(list(statistics._chains), ["IPv6 -> 17", "IPv6 60,43 -> 17", "IPv4 -> 6", "IPv4 -> 17"])
        statistics.add_many(buffer, offsets, lengths)
        self.assertEqual((statistics.packets, statistics.chains["IPv6 -> 17"]), (140012, 140000))

    def test_many_chains(self):
        """The table of chains has room for 65536: those that occur first are in it."""
        chains = [ipv6_chain([43 if number >> bit & 1 else 60 for bit in range(17)]) for number in range(66440)]
        statistics, before = Statistics(), counted(chains[66340:])
        statistics += before
        statistics.add_many(*joined(chains))
        self.assertEqual(statistics, counted(chains[66340:] + chains))


class Arguments(unittest.TestCase):
    def calls(self):
        """Returns each call, and what says whether it changed anything."""
        statistics = Statistics()
        return [(dissect_many, lambda: None), (Filter("fault").matches_many, lambda: None),
                (statistics.add_many, lambda: statistics.packets)]

    def test_kinds(self):
        """Buffers, and sequences and arrays of numbers, may be of any kind."""
        buffer, offsets, lengths = joined(PACKETS)
        wanted = dissect_many(buffer, offsets, lengths)
        for kind in [bytearray, memoryview, lambda it: numpy.frombuffer(it, "u1")]:
            self.assertEqual(dissect_many(kind(buffer), offsets, lengths).tobytes(), wanted.tobytes())
        for dtype in ["u8", "i8", "u4", "i2", ">i4"]:
            many = dissect_many(buffer, numpy.array(offsets, dtype), tuple(lengths))
            self.assertEqual(many.tobytes(), wanted.tobytes())
        unmasked = numpy.ma.array(offsets, mask=[False] * len(offsets))
        columns = pandas.DataFrame({"offset": offsets, "length": lengths}, dtype="Int64")  # may have missing values, but has none
        for kind in [unmasked, columns["offset"], columns["offset"].array]:
            self.assertEqual(dissect_many(buffer, kind, lengths).tobytes(), wanted.tobytes())
        self.assertEqual(dissect_many(buffer, columns["offset"], columns["length"]).tobytes(), wanted.tobytes())
        self.assertEqual(dissect_many(buffer, columns["offset"][:0], columns["length"][:0]).tobytes(), b"")
        every = numpy.array(list(zip(offsets, lengths)))
        self.assertEqual(dissect_many(buffer, every[:, 0], every[:, 1]).tobytes(), wanted.tobytes())

    def test_outside(self):
        buffer, offsets, lengths = joined(PACKETS)
        for wrong in [(0, len(buffer) + 1), (len(buffer), 1), (len(buffer) + 1, 0), (-1, 1), (1, -1), (2**63 - 1, 2**63 - 1)]:
            for index in range(4):
                (offsets[index], lengths[index]), before = wrong, (offsets[index], lengths[index])
                for call, state in self.calls():
                    with self.assertRaises(SpanError) as raised:
                        call(buffer, offsets + [wrong[0]], lengths + [wrong[1]])
                    error = raised.exception
                    self.assertEqual((error.index, error.offset, error.length, error.buffer_length), (index, *wrong, len(buffer)))
                    self.assertIn(f"packet {index}, {wrong[1]} bytes at offset {wrong[0]}, doesn't lie within", str(error))
                    self.assertIn(state(), [None, 0])
                offsets[index], lengths[index] = before

    def test_large_numbers(self):
        for offsets in [numpy.array([2**64 - 1], "u8"), numpy.array([2**63], "u8")]:
            for call, _ in self.calls():
                with self.assertRaises(SpanError) as raised:
                    call(b"12", offsets, numpy.array([2], "u8"))
                self.assertEqual(raised.exception.offset, int(offsets[0]))

    def test_wrong(self):
        masked, missing = numpy.ma.array([0, 1], mask=[False, True]), pandas.Series([0, pandas.NA], dtype="Int64")
        for call, state in self.calls():
            for offsets, lengths in [(masked, [1, 1]), ([0, 1], masked), (missing, [1, 1]), ([0, 1], missing), (missing.array, [1, 1]),
                                     ([0, pandas.NA], [1, 1]), ([0, None], [1, 1]), ([0.0], [1]), ([0], ["1"]), ([[0]], [[1]]), (0, 1),
                                     ([2**70], [1]), ([True], [True])]:
                with self.assertRaises(TypeError):
                    call(b"12", offsets, lengths)
            with self.assertRaises(ValueError):
                call(b"12", [0, 1], [1])
            with self.assertRaises(TypeError):
                call("12", [0], [1])
            self.assertIn(state(), [None, 0])


class Documentation(unittest.TestCase):
    def test_columns(self):
        """The documentation lists each column with its type."""
        listed = re.findall(r"^    (\w+(?:\.\w+)?)  +([iu]\d) ", inspect.getdoc(dissect_many), re.M)
        dtype = dissect_many(b"", [], []).dtype
        columns = []
        for name in dtype.names:
            inner = dtype[name]
            columns += [(f"{name}.{it}", inner[it].str[1:]) for it in inner.names] if inner.names else [(name, inner.str[1:])]
        self.assertEqual(listed, columns)


class Signalled(Exception):
    pass


class Threads(unittest.TestCase):
    def test_signals(self):
        """What the handler of a signal raises ends a call for many packets soon, and nothing is counted then."""
        buffer, count = ipv6_chain([60] * 8000), 1200000  # ten seconds of work or more for each call
        offsets, lengths, statistics = numpy.zeros(count, "u8"), numpy.full(count, len(buffer)), Statistics()

        def handle(*_):
            raise Signalled
        before = signal.signal(signal.SIGALRM, handle)
        try:
            for call in [statistics.add_many, Filter("option 5").matches_many, dissect_many]:
                began = time.monotonic()
                signal.setitimer(signal.ITIMER_REAL, 0.1)
                with self.assertRaises(Signalled):
                    call(buffer, offsets, lengths)
                self.assertLess(time.monotonic() - began, 5)
        finally:
            signal.setitimer(signal.ITIMER_REAL, 0)
            signal.signal(signal.SIGALRM, before)
        self.assertEqual(statistics, Statistics())

    def test_others_run(self):
        """Another thread runs while many packets are counted: the call doesn't hold the interpreter's lock."""
        buffer = ipv6_chain([60] * 8000)
        ticks, stop = [], threading.Event()

        def tick():
            while not stop.wait(0.001):
                ticks.append(time.monotonic())

        other = threading.Thread(target=tick, daemon=True)
        filter_, offsets, lengths = Filter("header ah"), numpy.zeros(4000, "u8"), numpy.full(4000, len(buffer))
        other.start()
        began = time.monotonic()
        filter_.matches_many(buffer, offsets, lengths)
        ended = time.monotonic()
        stop.set()
        other.join()
        self.assertGreater(sum(began < it < ended for it in ticks), (ended - began) * 100)

    def test_shared(self):
        """Threads may count in one object."""
        buffer, offsets, lengths = joined(PACKETS * 100)
        statistics = Statistics()
        threads = [threading.Thread(target=statistics.add_many, args=(buffer, offsets, lengths)) for _ in range(8)]
        for thread in threads:
            thread.start()
        for thread in threads:
            thread.join()
        self.assertEqual(statistics, counted(PACKETS * 800))


if __name__ == "__main__":
    unittest.main()
