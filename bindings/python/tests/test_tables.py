"""Tests of `wolfaren.table` and `wolfaren.distributed.table`, which need pandas and Dask."""

import gzip
import inspect
import os
import pickle
import random
import re
import tempfile
import unittest
import warnings

import dask
import pandas

from support import (LATER_FRAGMENT, PACKETS, TCP, UDP, authentication, capture, ethernet, file_header, fragment, ipv4, ipv6,
                     ipv6_chain, record, write)

import blocks
from captures import NANOSECONDS, RAW

import wolfaren
from wolfaren import CaptureError, CaptureOSError, CaptureWarning, End, FaultKind, FragmentKind, Layer, distributed, packets, table

ARP = ethernet(bytes(46), (), 0x0806)

# The columns that are fields of a packet or of its dissection by the same name.
FIELDS = ["number", "link_layer", "original_len", "captured_len", "ip_offset"]
PARTS = ["version", "payload_number", "payload_offset", "stated_len", "missing", "end"]


def documented():
    """Returns the columns and types that the documentation lists."""
    rows = re.findall(r"^    (\w+(?:, \w+)*)  +(int\d+|object|datetime64\[ns, UTC\]) ", inspect.getdoc(table), re.M)
    return {name: dtype for names, dtype in rows for name in names.split(", ")}


def chain_of(packet):
    """Returns the name of the packet's chain by `Statistics`, or None."""
    counted = wolfaren.Statistics()
    counted.add(packet)
    return next(iter(counted.chains), None)


def row_of(packet):
    """Returns the columns of a packet by `dissect`."""
    parts = wolfaren.dissect(packet.bytes)
    address = {name: None if getattr(parts, name) is None else str(getattr(parts, name)) for name in ["src", "dst"]}
    fault = parts.fault
    return {**{name: getattr(packet, name) for name in FIELDS}, **{name: getattr(parts, name) for name in PARTS}, **address,
            "time": pandas.Timestamp(packet.time_ns, tz="UTC"), "hop_limit": parts.hop_limit or 0,
            "chain": chain_of(packet.bytes), "headers": len(parts.headers), "fragment": parts.fragment.kind,
            "identification": parts.fragment.identification, "fragment_offset": parts.fragment.offset,
            "payload_len": len(parts.payload), "padding": len(parts.padding), "fault": fault.kind if fault else 0,
            "fault_header": fault.header if fault else 0, "fault_layer": fault.layer if fault else 0,
            "fault_offset": fault.offset if fault else 0}


class Scratch(unittest.TestCase):
    def setUp(self):
        folder = tempfile.TemporaryDirectory()
        self.addCleanup(folder.cleanup)
        self.folder = folder.name

    def file(self, content, name="a.pcap"):
        return write(self.folder, name, content)


class Tables(Scratch):
    def test_by_hand(self):
        frames = [ARP, *map(ethernet, PACKETS)]
        found = table(self.file(capture(frames, magic=NANOSECONDS)))
        self.assertEqual(found.number.tolist(), [2, 3, 4, 5, 6])
        self.assertEqual(str(found.time[0]), "1970-01-01 00:16:41.000000006+00:00")
        self.assertEqual(found.chain.tolist(), ["IPv6 0,43,44,51,60 -> 17", "IPv6 -> 60 fault", "IPv4 -> 6", "IPv6 44 -> 60", None])
        self.assertEqual(found.src.tolist(), ["2001:db8::1", "2001:db8::1", "192.0.2.1", "2001:db8::1", None])
        self.assertEqual(found.dst[2], "192.0.2.2")
        self.assertEqual(found.hop_limit.tolist(), [64, 64, 64, 64, 0])
        self.assertEqual(found.end.tolist(), [End.PAYLOAD, End.FAULT, End.PAYLOAD, End.LATER_FRAGMENT, End.TRUNCATED_HEADER])
        self.assertEqual((found.fragment[3], found.fragment_offset[3]), (FragmentKind.MIDDLE, 1480))
        fault = found.loc[1, ["fault", "fault_header", "fault_layer", "fault_offset"]].tolist()
        self.assertEqual(fault, [FaultKind.TOO_SHORT, Layer.DESTINATION_OPTIONS_HEADER, Layer.IPV6_EXTENSION_HEADER, 40])
        self.assertEqual(found.payload_len.tolist(), [len(UDP), 1, len(TCP), 8, 0])

    def test_as_dissected(self):
        """Each row of some thousand packets, many of them damaged, is what `packets` and `dissect` return."""
        some = random.Random(5)
        whole = [*PACKETS, ipv6(44, fragment(17, 0, 1) + UDP), ipv4(51, authentication(17) + UDP), ipv6_chain([60] * 64),
                 ipv6_chain([60] * 65), ipv6_chain([0, 43])[:52], ipv4(6, TCP) + bytes(9), ipv6_chain([60, 0]), LATER_FRAGMENT]
        content = bytearray(file_header(RAW, 700, NANOSECONDS))
        for i in range(3000):
            packet = bytearray(some.choice(whole))
            for _ in range(some.randrange(3) if packet else 0):
                packet[some.randrange(min(len(packet), 60))] = some.randrange(256)
            content += record(bytes(packet), 700, some.randrange(2**32), some.randrange(10**9))
        path = self.file(bytes(content))
        found = table(path)
        self.assertEqual([*found.columns], [*documented()])
        for name, values in found.items():
            self.assertEqual(values.tolist(), [it[name] for it in map(row_of, packets(path))], name)

    def test_types(self):
        for content in [capture([]), capture([ARP]), capture([ethernet(it) for it in PACKETS])]:
            found = table(self.file(content))
            self.assertEqual({name: str(it) for name, it in found.dtypes.items()}, documented())
            self.assertEqual(len(found), 5 if len(content) > 200 else 0)

    def test_columns(self):
        path = self.file(capture([ethernet(it) for it in PACKETS]))
        self.assertEqual([*table(path, ["time", "number"]).columns], ["time", "number"])
        self.assertEqual([*table(path, iter(["src"])).columns], ["src"])
        self.assertEqual(table(path, []).shape, (5, 0))
        with self.assertRaisesRegex(ValueError, "no column 'sport': the columns are number, time, "):
            table(path, ["src", "sport"])
        with self.assertRaisesRegex(TypeError, r"^columns is a list of names, such as \['src'\]$"):
            table(path, "src")

    def test_differences(self):
        """Differences between rows have their sign, also of the largest numbers."""
        content = blocks.section() + blocks.interface(RAW) + blocks.packet(ipv6_chain([60] * 3)) + blocks.packet(LATER_FRAGMENT)
        found = table(self.file(content))
        for name in ["number", "captured_len", "payload_offset", "fragment_offset", "hop_limit", "version", "fragment"]:
            one, other = found[name].tolist()
            self.assertEqual((found[name] - found[name][::-1].values).tolist(), [one - other, other - one], name)
        self.assertEqual((found.payload_offset.diff()[1], found.fragment_offset.diff()[1]), (48 - 64, 1480))
        self.assertEqual(found.identification.dtype, "int64")

    def test_missing_times(self):
        """Times that pandas doesn't have are missing, and that of a packet without one."""
        packet, content = ipv4(6, TCP), blocks.section() + blocks.interface(RAW)
        for seconds in [9223372035, 9223372036, 2**40]:
            content += blocks.packet(packet, 0, 10**6 * seconds + 999999)
        times = table(self.file(content + blocks.simple(packet))).time
        self.assertEqual(times.isna().tolist(), [False, True, True, True])
        self.assertEqual(times[0].value, 9223372035_999999000)

    def test_interfaces(self):
        """Each packet of a pcapng file has the link layer of its interface, also if the file is compressed."""
        content = (blocks.section() + blocks.interface() + blocks.interface(RAW) + blocks.packet(PACKETS[0], 1)
                   + blocks.packet(ethernet(PACKETS[0])) + blocks.packet(PACKETS[2], 1))
        for path in [self.file(content), self.file(gzip.compress(content))]:
            found = table(path)
            self.assertEqual(found.link_layer.tolist(), ["RAW", "EN10MB", "RAW"])
            self.assertEqual((found.ip_offset.tolist(), found.version.tolist()), ([0, 14, 0], [6, 6, 4]))
        with self.assertRaisesRegex(CaptureError, ": interface 2: link layer PRISM_HEADER .* isn't supported"):
            table(self.file(content + blocks.interface(119)))

    def test_errors(self):
        whole = capture([ethernet(it) for it in PACKETS])
        wanted = table(self.file(whole), ["number", "chain"])[:4]
        path = self.file(whole[:-1])
        with self.assertRaisesRegex(CaptureError, "can't read packet 5: ") as raised:
            table(path, ["number", "chain"])
        for error in [raised.exception, pickle.loads(pickle.dumps(raised.exception))]:
            pandas.testing.assert_frame_equal(error.table, wanted)
            self.assertIsNone(error.statistics)
        with self.assertWarnsRegex(CaptureWarning, f"^{re.escape(path)}: can't read packet 5: "):
            pandas.testing.assert_frame_equal(table(path, iter(["number", "chain"]), on_error="warn"), wanted)

    def test_unreadable(self):
        path = f"{self.folder}/none"
        with self.assertRaises(FileNotFoundError) as raised:
            table(path)
        self.assertIsInstance(raised.exception, CaptureOSError)
        self.assertIsNone(raised.exception.table)
        with self.assertWarnsRegex(CaptureWarning, "No such file"):
            found = table(path, iter(["number", "src"]), on_error="warn")
        self.assertEqual((len(found), [*found.columns]), (0, ["number", "src"]))
        with self.assertRaisesRegex(ValueError, "on_error is 'raise' or 'warn'"):
            table(path, on_error="none")
        with self.assertRaisesRegex(ValueError, "^embedded null byte$"):
            table(f"{path}\0")

    def test_left_out(self):
        content = (blocks.section() + blocks.interface(RAW) + blocks.interface(119) + blocks.packet(PACKETS[0])
                   + blocks.packet(bytes(60), 1) + blocks.packet(PACKETS[2]))
        with self.assertRaisesRegex(CaptureError, "interface 1: link layer") as raised:
            table(self.file(content))
        self.assertEqual(raised.exception.table.number.tolist(), [1, 3])


class DaskTables(Scratch):
    def setUp(self):
        super().setUp()
        self.enterContext(dask.config.set(scheduler="synchronous"))

    def test_partitions(self):
        paths = [self.file(capture([ethernet(it) for it in PACKETS[:i]]), f"{i}.pcap") for i in [3, 0, 5]]
        found = distributed.table(paths)
        self.assertEqual(found.npartitions, 3)
        for partition, path in zip(found.partitions, paths):
            pandas.testing.assert_frame_equal(partition.compute(), table(path))
        self.assertEqual(found.payload_len.sum().compute(), 2 * (len(UDP) + 1 + len(TCP)) + 8)
        self.assertEqual(found.groupby("chain").size().compute()["IPv4 -> 6"], 2)

    def test_columns(self):
        path = self.file(capture([ethernet(it) for it in PACKETS]))
        found = distributed.table([path], ["time", "chain"])
        self.assertEqual([str(it) for it in found.dtypes], ["datetime64[ns, UTC]", "object"])
        pandas.testing.assert_frame_equal(found.compute(), table(path, ["time", "chain"]))
        with self.assertRaisesRegex(ValueError, "no column 'sport'"):
            distributed.table([path], ["sport"])

    def test_no_captures(self):
        found = distributed.table([])
        self.assertEqual((len(found), {name: str(it) for name, it in found.dtypes.items()}), (0, documented()))

    def test_changed_capture(self):
        """A capture is read when its partition is computed, each time."""
        path = self.file(capture([ethernet(PACKETS[0])]))
        found = distributed.table([path])
        self.file(capture([ethernet(it) for it in PACKETS]))
        self.assertEqual((len(found), len(distributed.table([path]))), (5, 5))
        os.unlink(path)
        with self.assertWarnsRegex(CaptureWarning, "No such file"):
            self.assertEqual(len(found.compute()), 0)

    def test_bad_captures(self):
        """A capture that is cut or missing has the packets that are there, and doesn't end the computation."""
        whole = capture([ethernet(it) for it in PACKETS])
        paths = [self.file(whole, "1.pcap"), self.file(whole[:-1], "2.pcap"), f"{self.folder}/none", self.file(b"text", "4.pcap")]
        with warnings.catch_warnings(record=True) as caught:
            warnings.simplefilter("always")
            found = distributed.table(paths, ["number", "src"]).compute()
        self.assertEqual(found.number.tolist(), [1, 2, 3, 4, 5, 1, 2, 3, 4])
        self.assertEqual([str(it.message).split(":")[0] for it in caught if it.category is CaptureWarning], paths[1:])
        with self.assertRaisesRegex(CaptureError, "can't read packet 5: "):
            distributed.table(paths[:2], on_error="raise").compute()
        with self.assertRaisesRegex(ValueError, "on_error is 'raise' or 'warn'"):
            distributed.table(paths, on_error=None)
        with self.assertRaisesRegex(TypeError, "^paths is a list of paths, such as \\['"):
            distributed.table(paths[0])


if __name__ == "__main__":
    unittest.main()
