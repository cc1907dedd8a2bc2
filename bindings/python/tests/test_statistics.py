"""Tests of `Statistics` and `statistics_of`. Expected values were worked out by hand, or are what ipcap prints."""

import contextlib
import errno
import fcntl
import json
import os
import pickle
import pydoc
import rlcompleter
import signal
import sys
import tempfile
import termios
import threading
import time
import unittest
from unittest import mock

from support import (LATER_FRAGMENT, PACKETS, TCP, UDP, authentication, capture, ethernet, fragment, ipcap, ipv4, ipv6,
                     ipv6_chain, options, write)

from wolfaren import MOST, CaptureError, CaptureOSError, Statistics, statistics_of


def counted(packets):
    """Returns the statistics of packets."""
    statistics = Statistics()
    for packet in packets:
        statistics.add(packet)
    return statistics


def run_together(*calls):
    """Runs each call in a thread of its own, and returns whether all of them ended within a minute."""
    threads = [threading.Thread(target=it, daemon=True) for it in calls]
    end = time.monotonic() + 60
    for thread in threads:
        thread.start()
    for thread in threads:
        thread.join(max(0, end - time.monotonic()))
    return not any(it.is_alive() for it in threads)


class Counts(unittest.TestCase):
    def test_by_hand(self):
        found = counted(PACKETS)
        self.assertEqual((found.packets, found.ipv4, found.ipv6, found.without_header), (5, 1, 3, 1))
        self.assertEqual((found.at_payload, found.at_later_fragment, found.at_truncated_header, found.at_fault), (2, 1, 1, 1))
        self.assertEqual((found.atomic_fragments, found.first_fragments, found.middle_fragments, found.last_fragments),
                         (1, 0, 1, 0))
        self.assertEqual(found.payload_bytes, len(UDP) + len(TCP) + 8)
        self.assertEqual(found.headers, {0: 1, 43: 1, 44: 2, 51: 1, 60: 1})
        self.assertEqual(found.chain_headers, {0: 2, 1: 1, 5: 1})
        self.assertEqual(found.chain_bytes, {0: 2, 8: 1, 56: 1})
        self.assertEqual((found.payload_numbers, found.later_fragment_numbers), ({17: 1, 6: 1}, {60: 1}))
        self.assertEqual((found.truncated_headers, found.faults), ({"IP-header": 1}, {"too-short destination-options": 1}))
        self.assertEqual(found.chains, {"IPv6 0,43,44,51,60 -> 17": 1, "IPv6 -> 60 fault": 1, "IPv4 -> 6": 1,
                                        "IPv6 44 -> 60": 1})

    def test_last_elements(self):
        found = counted([ipv6_chain([60] * 300), ipv6(60, options(17, 255) + UDP), ipv6_chain([60] * 8000)])
        self.assertEqual(found.chain_headers, {16: 2, 1: 1})
        self.assertEqual(found.chain_bytes, {2048: 2, 32768: 1})
        self.assertEqual(found.chains, {"IPv6 60 -> 17": 1, "other": 2})

    def test_incomplete(self):
        self.assertEqual(counted([ipv4(17, UDP)[:-1], ipv4(17, UDP)]).incomplete, 1)

    def test_sums(self):
        one, other = counted(PACKETS[:2]), counted(PACKETS[2:])
        self.assertEqual(one + other, counted(PACKETS))
        self.assertEqual(other + one, counted(PACKETS))
        self.assertNotEqual(one, other)
        one += one
        self.assertEqual(one, counted(PACKETS[:2] * 2))
        self.assertEqual(sum([other] * 3), counted(PACKETS[2:] * 3))
        self.assertEqual(other, counted(PACKETS[2:]))
        for wrong in [1, "0"]:
            with self.assertRaises(TypeError):
                one + wrong
            with self.assertRaises(TypeError):
                wrong + one

    def test_clear(self):
        found = counted(PACKETS)
        found.clear()
        self.assertEqual(found, Statistics())
        self.assertEqual(found.chains, {})

    def test_largest_counts(self):
        most = json.loads(counted([ipv4(6, TCP)]).to_json().replace(":1,", f":{MOST},").replace(":1}", f":{MOST}}}"))
        statistics = Statistics.from_json(json.dumps(most))
        total = statistics + statistics
        self.assertEqual((total.packets, total.ipv4, total.chains), (MOST, MOST, {"IPv4 -> 6": MOST}))
        self.assertEqual(Statistics.from_json(total.to_json()), total)
        self.assertEqual(json.loads(ipcap("sum", "--json", text=statistics.to_json() * 2)), json.loads(total.to_json()))

    def test_copies(self):
        found = counted(PACKETS)
        self.assertEqual(pickle.loads(pickle.dumps(found)), found)
        self.assertEqual(repr(found), "<Statistics of 5 packets>")
        with self.assertRaises(TypeError):
            hash(found)
        with self.assertRaises(AttributeError):
            found.frames

    def test_many_chains(self):
        chains = [[43 if number >> bit & 1 else 60 for bit in range(17)] for number in range(65536 + 904)]
        found = counted(ipv6_chain(numbers) for numbers in chains)
        self.assertEqual((len(found.chains), found.chains["other"]), (65537, 904))
        self.assertEqual((found + found).chains["other"], 1808)
        self.assertEqual(ipcap("sum", "--json", text=found.to_json()), found.to_json() + "\n")


class Json(unittest.TestCase):
    def test_as_ipcap(self):
        packets = PACKETS + [ipv6_chain([60, 43]), ipv6_chain([43, 60]), ipv4(51, authentication(17) + UDP), ipv4(1, b""),
                             ipv6(44, fragment(17, 0, 1) + UDP), ipv6_chain([0])[:44], ipv6_chain([0])[:44]]
        with tempfile.TemporaryDirectory() as folder:
            path = write(folder, "a.pcap", capture([ethernet(it) for it in packets if it] + [ethernet(b"", (), 0x86dd)]))
            printed = ipcap("stat", "--json", path)
        found = counted(packets)
        self.assertEqual(found.to_json() + "\n", printed)
        self.assertEqual(Statistics.from_json(printed), found)
        self.assertEqual(ipcap("sum", "--json", text=found.to_json() + printed), (found + found).to_json() + "\n")

    def test_tunnels(self):
        packets = [ipv4(41, ipv6_chain([60, 43])), ipv4(17, UDP)]
        with tempfile.TemporaryDirectory() as folder:
            path = write(folder, "a.pcap", capture([ethernet(it) for it in packets]))
            printed = ipcap("stat", "--json", "--tunnels", path)
        self.assertEqual(json.loads(printed)["inner_chains"], {"IPv4 > IPv6 60,43 -> 17": 1})
        self.assertEqual(Statistics.from_json(printed), counted(packets))
        with self.assertRaisesRegex(ValueError, "unknown member inner_new"):
            Statistics.from_json(printed.rstrip()[:-1] + ',"inner_new":1}')

    def test_versions(self):
        text = counted(PACKETS).to_json()
        added = text.replace('"1.4"', '"1.7"')[:-1] + ',"new":{"a":1},"text":"b"}'
        self.assertEqual(Statistics.from_json(added), counted(PACKETS))
        named = text.replace('"1.4"', '"1.4","file":"\\u00e9\\udcff"')
        self.assertEqual(Statistics.from_json(named), counted(PACKETS))
        for version in ["2.0", "0.9", "1", "x", ""]:
            with self.assertRaisesRegex(ValueError, "version"):
                Statistics.from_json(text.replace("1.4", version))
        first = text.replace('"1.4"', '"1.0"').replace('"other_protocols":{},', "").replace('"other_frames":0', '"other_frames":2')
        self.assertEqual(Statistics.from_json(first).other_protocols, {"other": 2})

    def test_refused(self):
        text = counted(PACKETS).to_json()
        for old, new, words in [('"packets"', '"packet"', '"packets" is not a count'), ('"ipv4":1', '"ipv4":2', "add up"),
                                ('"ipv4":1', '"ipv4":-1', "not a count"), ('"ipv4":1', '"ipv4":1.0', "not a count"),
                                ('"ipv4":1', '"ipv4":true', "not a count"),
                                ('"ipv4":1', '"ipv4":1,"file":1', '"file" is not a text'),
                                ('"ipv4":1', f'"ipv4":{MOST + 1}', "not a count"),
                                ('"IPv4 -> 6"', '"IPv5 -> 6"', "not a chain"),
                                ('"IPv4 -> 6"', '"IPv4 256 -> 6"', "not a chain"), ('"IPv4 -> 6"', '"IPv4 -> 06"', "not a chain"),
                                ('"IPv4 -> 6":1', '"IPv4 -> 6":0', 'a count in "chains" is 0'), ('{"0":2', '{"x":2', 'not in "chain_headers"'),
                                ('"17":1', '"256":1', 'not in "payload_numbers"'), ("{", "[{", ""), ("}", "", "")]:
            with self.assertRaisesRegex(ValueError, words):
                Statistics.from_json(text.replace(old, new, 1))
        for other in ["", "[]", "1", "null", "[" * 100000, text.replace(":1", ":" + '{"a":' * 100000 + "1" + "}" * 100000, 1)]:
            with self.assertRaises(ValueError):
                Statistics.from_json(other)
        with self.assertRaisesRegex(ValueError, "unknown member new"):
            Statistics.from_json(text[:-1] + ',"new":1}')


class Captures(unittest.TestCase):
    def setUp(self):
        self.folder = tempfile.TemporaryDirectory()
        self.addCleanup(self.folder.cleanup)
        self.content = capture([ethernet(it) for it in PACKETS[:4]] + [ethernet(bytes(46), (), 0x0806)], snap_len=90)
        self.path = write(self.folder.name, "a.pcap", self.content)

    def test_counts(self):
        found = statistics_of(self.path)
        self.assertEqual((found.packets, found.other_frames, found.truncated_frames), (4, 1, 1))
        added = counted([*(it[:76] for it in PACKETS[:1]), *PACKETS[1:4]])
        added.add_other_frame("EtherType 0x0806")
        added.add_truncated_frame()
        self.assertEqual(found, added)
        self.assertEqual(found.to_json() + "\n", ipcap("stat", "--json", self.path))

    def test_mismatched(self):
        path = write(self.folder.name, "b.pcap", capture([ethernet(ipv6_chain([44]), (), 0x0800), *map(ethernet, PACKETS[:2])]))
        found = statistics_of(path)
        self.assertEqual((found.mismatched, found.packets), (1, 3))
        self.assertEqual(found.to_json() + "\n", ipcap("stat", "--json", path))
        added = counted([ipv6_chain([44]), *PACKETS[:2]])
        self.assertNotEqual(found, added)
        added.add_mismatched()
        self.assertEqual(found, added)
        self.assertEqual(Statistics.from_json(found.to_json()), found)
        self.assertEqual((found + found).mismatched, 2)
        self.assertEqual(ipcap("sum", "--json", text=found.to_json()), found.to_json() + "\n")
        before = found.to_json().replace('"1.4"', '"1.3"').replace('"mismatched":1,', "")
        self.assertEqual(Statistics.from_json(before).mismatched, 0)
        for text, words in [(before.replace('"1.3"', '"1.4"'), '"mismatched" is not a count'),
                            (found.to_json().replace('"mismatched":1', '"mismatched":4'), "add up")]:
            with self.assertRaisesRegex(ValueError, words):
                Statistics.from_json(text)
        added.clear()
        self.assertEqual(added, Statistics())

    def test_other_protocols(self):
        names = ["EtherType 0x88cc"] * 2 + ["PPP 0xc021", "other", "EtherType 0x0806", "NLPID 0x08", "LLC 0x42", "family 30",
                                            "family 7"]
        found = Statistics()
        for name in names:
            found.add_other_frame(name)
        found.add_other_frame()
        self.assertEqual(list((found + found).other_protocols.items()), [
            ("EtherType 0x88cc", 4), ("EtherType 0x0806", 2), ("LLC 0x42", 2), ("PPP 0xc021", 2), ("NLPID 0x08", 2),
            ("family 7", 2), ("family 30", 2), ("other", 4)])
        self.assertEqual(Statistics.from_json(found.to_json()), found)
        self.assertEqual(ipcap("sum", "--json", text=found.to_json()), found.to_json() + "\n")
        for name in ["", "IP 0x", "EtherType 0x806", "EtherType 0x10000", "LLC 0xAA", "family 07", "family 4294967296", "PPP"]:
            with self.assertRaisesRegex(ValueError, "is not a protocol"):
                found.add_other_frame(name)
            with self.assertRaises(ValueError):
                Statistics.from_json(found.to_json().replace("PPP 0xc021", name))

    def test_damaged(self):
        path = write(self.folder.name, "damaged.pcap", self.content[:-1])
        with self.assertRaisesRegex(CaptureError, "can't read packet 5: ") as raised:
            statistics_of(path)
        self.assertEqual(raised.exception.path, path)
        for error in [raised.exception, pickle.loads(pickle.dumps(raised.exception))]:
            self.assertEqual((error.statistics.packets, error.table, error.written), (4, None, None))
            self.assertEqual((str(error), repr(error)), (f"{path}: {error.reason}", f"CaptureError({path!r}, {error.reason!r})"))

    def test_unreadable(self):
        for path, words in [(write(self.folder.name, "x", b"no capture"), "no magic number of capture files"),
                            (write(self.folder.name, "y", capture([b""], 119)), "link layer PRISM_HEADER .* isn't supported"),
                            (f"{self.folder.name}/none", "No such file"), (self.folder.name, "Is a directory")]:
            with self.assertRaisesRegex(CaptureError, words) as raised:
                statistics_of(path)
            self.assertIsNone(raised.exception.statistics)

    def test_refused_by_system(self):
        for path, reason, kind in [(f"{self.folder.name}/none", errno.ENOENT, FileNotFoundError),
                                   (self.folder.name, errno.EISDIR, IsADirectoryError),
                                   (f"{self.path}/none", errno.ENOTDIR, NotADirectoryError),
                                   (f"{self.folder.name}/{'x' * 300}", errno.ENAMETOOLONG, OSError)]:
            with self.assertRaises(kind) as raised:
                statistics_of(path)
            for error in [raised.exception, pickle.loads(pickle.dumps(raised.exception))]:
                self.assertIsInstance(error, CaptureOSError)
                self.assertIsInstance(error, kind)
                self.assertEqual(repr(error), f"CaptureOSError({path!r}, {os.strerror(reason)!r})")
                self.assertEqual((error.errno, error.strerror, error.filename), (reason, os.strerror(reason), path))
                self.assertEqual(str(error), f"{path}: {os.strerror(reason)}")
        for content in [b"no capture", self.content[:-1]]:
            with self.assertRaises(CaptureError) as raised:
                statistics_of(write(self.folder.name, "damaged.pcap", content))
            self.assertNotIsInstance(raised.exception, OSError)

    def test_refused_halfway(self):
        """While the capture is read from a pipe, a directory takes the place of the pipe, which can't be read."""
        pipe, errors = f"{self.folder.name}/pipe", []

        def count():
            try:
                statistics_of(pipe)
            except CaptureOSError as error:
                errors.append(error)
        os.mkfifo(pipe)
        thread = threading.Thread(target=count, daemon=True)
        thread.start()
        with open(pipe, "wb", buffering=0) as writer:
            writer.write(self.content)
            while fcntl.ioctl(writer, termios.FIONREAD, bytes(4)) != bytes(4):  # until the thread has read it
                time.sleep(0.001)
            files = [int(it) for it in os.listdir("/proc/self/fd")]
            (reader,) = [it for it in files if os.path.exists(f"/proc/self/fd/{it}") and it != writer.fileno()
                         and os.path.samefile(f"/proc/self/fd/{it}", pipe)]
            folder = os.open(self.folder.name, os.O_RDONLY)
            os.dup2(folder, reader)
            os.close(folder)
            with contextlib.suppress(BrokenPipeError):  # unless the thread waits for bytes of the pipe
                writer.write(self.content[24:])
        thread.join(60)
        (error,) = errors
        self.assertEqual((error.errno, error.statistics.packets > 0), (errno.EISDIR, True))

    def test_null_byte(self):
        with self.assertRaisesRegex(ValueError, "^embedded null byte$"):
            statistics_of(self.path + "\0")

    def test_names_of_files(self):
        os.chdir(self.folder.name)
        write(self.folder.name, "-", self.content)
        self.assertEqual(statistics_of("-").packets, 4)

    def test_threads(self):
        results = []
        self.assertTrue(run_together(*[lambda: results.append(statistics_of(self.path))] * 8))
        self.assertEqual(results, [statistics_of(self.path)] * 8)


class Fields(unittest.TestCase):
    def test_visible(self):
        found = counted(PACKETS)
        self.assertLessEqual({"packets", "faults", "chains"}, {*dir(found)})
        completer = rlcompleter.Completer({"found": found})
        self.assertEqual(completer.attr_matches("found.pay"), ["found.payload_bytes", "found.payload_numbers"])
        shown = pydoc.plain(pydoc.render_doc(Statistics))
        self.assertRegex(shown, r"packets\n \| +IP packets, or what the link layer says are IP packets\.")
        with self.assertRaises(AttributeError):
            found.packets = 1

    def test_dict(self):
        found = counted(PACKETS).to_dict()
        self.assertEqual((found["packets"], found["headers"]), (5, {44: 2, 0: 1, 43: 1, 51: 1, 60: 1}))
        self.assertEqual(list(found["headers"]), [44, 0, 43, 51, 60])
        printed = json.loads(counted(PACKETS).to_json())
        self.assertEqual(json.loads(json.dumps(found)), {name: printed[name] for name in printed if name != "version"})

    def test_html(self):
        found = counted(PACKETS * 2 + [ipv6_chain([60], final) for final in range(100, 120)])._repr_html_()
        for row in ["<tr><th>packets</th><td></td><td>30</td></tr>", "<tr><th>headers</th><td>60</td><td>22</td></tr>",
                    "<tr><th>chains</th><td>IPv6 0,43,44,51,60 -&gt; 17</td><td>2</td></tr>"]:
            self.assertIn(row, found)
        self.assertEqual(found.count("<th>payload_numbers</th>"), 10)

    def test_series(self):
        try:
            import pandas
        except ImportError:
            self.skipTest("no pandas")
        found = counted(PACKETS).to_series()
        self.assertEqual((found["packets", ""], found["headers", 44], found["chains", "IPv4 -> 6"]), (5, 2, 1))
        self.assertEqual(found["headers"].to_dict(), {44: 2, 0: 1, 43: 1, 51: 1, 60: 1})
        pandas.testing.assert_series_equal(found + found, counted(PACKETS * 2).to_series().loc[found.index])
        largest = Statistics.from_json(counted([ipv4(6, TCP)]).to_json().replace('"payload_bytes":20', f'"payload_bytes":{MOST}'))
        self.assertEqual(largest.to_series()["payload_bytes", ""], MOST)
        self.assertEqual((Statistics().to_series() - found)["packets", ""], -5)

    def test_without_pandas(self):
        with mock.patch.dict(sys.modules, {"pandas": None}):
            with self.assertRaisesRegex(ImportError, "python3-pandas"):
                Statistics().to_series()


class Threads(unittest.TestCase):
    """Threads share an object, and take turns as often as Python lets them."""

    def setUp(self):
        self.addCleanup(sys.setswitchinterval, sys.getswitchinterval())
        sys.setswitchinterval(1e-6)
        self.shared = Statistics()

    def test_frames(self):
        def count(add):
            for _ in range(200_000):
                add()
        for add in [self.shared.add_other_frame, self.shared.add_truncated_frame]:
            self.assertTrue(run_together(*[lambda: count(add)] * 4))
        self.assertEqual((self.shared.other_frames, self.shared.truncated_frames), (800_000, 800_000))

    def test_adding_and_reading(self):
        """Each copy that is read meanwhile has counts that add up: otherwise it can't be made."""
        def count():
            for _ in range(2000):
                for packet in PACKETS:
                    self.shared.add(packet)
                self.shared.add_truncated_frame()

        def read():
            while self.shared.packets < 4 * 2000 * len(PACKETS):
                copies.append(pickle.loads(pickle.dumps(self.shared)).packets)
                copies.append(pickle.loads(pickle.dumps(self.shared + Statistics())).packets)
        copies = []
        self.assertTrue(run_together(*[count] * 4, read))
        self.assertEqual(copies, sorted(copies))
        self.assertEqual(self.shared.truncated_frames, 8000)
        self.assertEqual(sum(self.shared.chains.values()), 8000 * (len(PACKETS) - 1))

    def test_clearing(self):
        def count():
            for packet in PACKETS * 4000:
                self.shared.add(packet)

        def clear():
            for _ in range(2000):
                self.shared.clear()
                copies.append(pickle.loads(pickle.dumps(self.shared)))
        copies = []
        self.assertTrue(run_together(count, count, clear))
        self.assertEqual(len(copies), 2000)

    def test_signals(self):
        """A handler reads what its thread was counting when the signal came, and doesn't wait for it."""
        self.addCleanup(signal.signal, signal.SIGALRM, signal.getsignal(signal.SIGALRM))
        read = []
        signal.signal(signal.SIGALRM, lambda *_: read.append(self.shared.packets))
        signal.setitimer(signal.ITIMER_REAL, 1e-3, 1e-3)
        self.addCleanup(signal.setitimer, signal.ITIMER_REAL, 0)
        added = 0
        while len(read) < 20:
            self.shared.add(PACKETS[0])
            added += 1
        self.assertEqual(self.shared.packets, added)

    def test_merging(self):
        part, copies = counted(ipv6_chain([60], final) for final in range(100, 200)), []

        def merge():
            for _ in range(500):
                self.shared.__iadd__(part)

        def read():
            while self.shared.packets < 2000 * part.packets:
                copies.append(pickle.loads(pickle.dumps(self.shared)).packets % part.packets)
        self.assertTrue(run_together(*[merge] * 4, read))
        self.assertEqual({*copies}, {0})
        self.assertEqual({*self.shared.chains.values()}, {2000})

    def test_merging_each_other(self):
        one, other = counted(PACKETS), counted(PACKETS)

        def merge(into, part):
            for _ in range(3000):
                into += part
        self.assertTrue(run_together(lambda: merge(one, other), lambda: merge(other, one), lambda: merge(one, one)))
        for statistics in [one, other]:
            self.assertEqual(pickle.loads(pickle.dumps(statistics)), statistics)
            self.assertEqual(statistics.packets, MOST)


class Plots(unittest.TestCase):
    def test_bars(self):
        try:
            import matplotlib
        except ImportError:
            self.skipTest("no matplotlib")
        figure = counted(PACKETS * 2 + PACKETS[:1]).plot()
        chains, payloads, faults = figure.axes
        self.assertEqual([bar.get_width() for bar in chains.patches][-1], 3)
        self.assertEqual(chains.get_yticklabels()[-1].get_text(), "IPv6 0,43,44,51,60 -> 17")
        self.assertEqual(sorted(bar.get_width() for bar in payloads.patches), [2, 3])
        self.assertEqual(faults.get_title(), "faults")
        with tempfile.TemporaryDirectory() as folder:
            figure.savefig(f"{folder}/a.png")

    def test_notebook(self):
        """A figure has the image that notebooks ask for, as does its copy, without a magic word or an import by the user."""
        try:
            import matplotlib
        except ImportError:
            self.skipTest("no matplotlib")
        figure = counted(PACKETS).plot()
        for shown in [figure, pickle.loads(pickle.dumps(figure))]:
            self.assertEqual(shown._repr_png_()[:8], b"\x89PNG\r\n\x1a\n")
        try:
            from IPython.core.formatters import DisplayFormatter
        except ImportError:
            self.skipTest("no IPython")
        (shown, _) = DisplayFormatter().format(figure)
        self.assertEqual(shown["image/png"], figure._repr_png_())

    def test_without_matplotlib(self):
        with mock.patch.dict(sys.modules, {"matplotlib.figure": None, "matplotlib": None}):
            with self.assertRaisesRegex(ImportError, "python3-matplotlib"):
                Statistics().plot()


if __name__ == "__main__":
    unittest.main()
