"""Tests of `Defragmenter`. Fragments are made here, and by scapy, which also makes them whole."""

import copy
import itertools
import json
import os
import pickle
import random
import shutil
import struct
import subprocess
import sys
import threading
import unittest

from support import UDP, checksum, fragment, ipv4, ipv6, ipv6_chain

import wolfaren
from wolfaren import Defragmenter


def pieces(identification, data, size):
    """Returns the fragments of an IPv6 packet with this payload."""
    starts = range(0, len(data), size)
    return [ipv6(44, fragment(17, start // 8, start + size < len(data), identification) + data[start:start + size]) for start in starts]


def piece_to_end(packet):
    """Returns a fragment as one that others follow."""
    return packet[:43] + bytes([packet[43] | 1]) + packet[44:]


# Sends fragments to the kernel, in a network namespace, and says what arrives.
KERNEL = ["unshare", "--net", sys.executable, os.path.join(os.path.dirname(__file__), "kernel.py")]


def local(packet):
    """Returns the packet with the addresses of this machine."""
    if packet[0] >> 4 == 6:
        return packet[:8] + 2 * (bytes(15) + b"\1") + packet[40:]
    header = packet[:10] + bytes(2) + 2 * bytes([127, 0, 0, 1])
    return header[:10] + struct.pack(">H", checksum(header)) + header[12:] + packet[20:]


def datagram(version, data):
    """Returns a UDP datagram to port 9, without a checksum in IPv4 and with one in IPv6."""
    words = struct.pack(">HHH", 1000, 9, 8 + len(data))
    if version == 4:
        return words + bytes(2) + data
    pseudo = 2 * (bytes(15) + b"\1") + struct.pack(">II", 8 + len(data), 17)
    return words + struct.pack(">H", checksum(pseudo + words + bytes(2) + data + bytes(len(data) % 2)) or 0xFFFF) + data


def piece(version, identification, payload, start, end):
    """Returns the fragment with these bytes of a payload."""
    more = end < len(payload)
    if version == 6:
        return local(ipv6(44, fragment(17, start // 8, more, identification) + payload[start:end]))
    packet = ipv4(17, payload[start:end], start // 8 | more << 13)
    return local(packet[:4] + struct.pack(">H", identification) + packet[6:])


def trial(rng, number):
    """Returns fragments of one packet, some repeated, of which one may be missing or overlapped by another one."""
    version = rng.choice((4, 6))
    payload = datagram(version, struct.pack(">I", number) + rng.randbytes(rng.randint(200, 2000)))
    cuts = [0, *sorted(rng.sample(range(8, len(payload), 8), rng.randint(1, 6))), len(payload)]
    spans = list(zip(cuts, cuts[1:]))
    rng.shuffle(spans)
    kind = rng.choice(("all", "repeated", "missing", "overlap"))
    if kind == "repeated":
        spans.insert(rng.randrange(len(spans)), rng.choice(spans))
    if kind == "missing":
        spans.pop()
    if kind == "overlap":
        start, end = spans[0]
        spans.insert(1, (max(0, start - 8), start + 8) if start else (0, min(end, len(payload) - 8) // 8 * 8 + 8))
    return [piece(version, number, payload, *it) for it in spans]


def has_namespaces():
    """Returns whether a network namespace can be made, with both versions of IP."""
    return shutil.which("unshare") and subprocess.run(KERNEL, input="[]", capture_output=True, text=True, check=False).stdout == "[]"


class Defragmenters(unittest.TestCase):
    def test_orders(self):
        defragmenter = Defragmenter()
        data = bytes(range(60))
        for identification, order in enumerate(itertools.permutations(range(4))):
            parts = pieces(identification, data, 16)
            found = [defragmenter.add(parts[i]) for i in order]
            self.assertEqual(found, [None] * 3 + [ipv6(17, data)])
        self.assertEqual(defragmenter.counts["whole"], 24)
        self.assertEqual(defragmenter.counts["more_wanted"], 72)

    def test_others(self):
        defragmenter = Defragmenter(1)
        packet = ipv6_chain([0, 60])
        self.assertEqual(defragmenter.add(bytearray(packet)), packet)
        self.assertEqual(defragmenter.add(memoryview(b"")), b"")
        first, last = pieces(1, bytes(16), 8)
        self.assertIsNone(defragmenter.add(first, 5))
        self.assertIsNone(defragmenter.add(first[:-1], 5))
        self.assertIsNone(defragmenter.add(last, 60 * 10**9 + 6))
        self.assertIsNone(defragmenter.add(pieces(2, bytes(16), 8)[0], 60 * 10**9 + 6))
        counts = {name: count for name, count in defragmenter.counts.items() if count}
        self.assertEqual(counts, {"not_fragment": 2, "more_wanted": 3, "bytes_missing": 1, "timed_out": 1, "displaced": 1})
        self.assertEqual(repr(defragmenter), "Defragmenter(1)")
        with self.assertRaises(ValueError):
            Defragmenter(0)

    def test_give_up(self):
        defragmenter = Defragmenter(64)
        packets = [pieces(identification, bytes(range(16)), 8) for identification in range(3)]
        for identification in range(3):
            self.assertIsNone(defragmenter.add(packets[identification][0], 10 + identification))
        self.assertEqual(defragmenter.give_up(60 * 10**9 + 10), 0)
        self.assertEqual(defragmenter.give_up(60 * 10**9 + 12), 2)
        self.assertEqual(defragmenter.counts["timed_out"], 2)
        self.assertEqual(defragmenter.add(packets[2][1], 60 * 10**9 + 12), ipv6(17, bytes(range(16))))
        self.assertIsNone(defragmenter.add(packets[0][1], 60 * 10**9 + 12))

    def test_missing_times(self):
        """A packet without a time arrives with the last one that has a time, as in ipcap."""
        defragmenter = Defragmenter(64)
        first, last = pieces(1, bytes(16), 8)
        self.assertIsNone(defragmenter.add(first, None))
        self.assertIsNone(defragmenter.add(pieces(2, bytes(16), 8)[0], 60 * 10**9 + 1))
        for time in [None, -1]:
            self.assertEqual(defragmenter.counts["timed_out"], 0 if time is None else 1)
            self.assertIsNone(defragmenter.add(last, time))
        with self.assertRaises(TypeError):
            defragmenter.add(first, "1")

    def test_fork(self):
        """After a fork, the packets of the parent are made whole with its own bytes, and those of the child with its own."""
        defragmenter = Defragmenter()
        mine, other = pieces(1, b"parent's" * 2, 8), pieces(1, b"children" * 2, 8)
        self.assertIsNone(defragmenter.add(ipv6(44, fragment(17, 2, 0, 1) + b"the end.")))
        child = os.fork()
        if child == 0:
            is_whole = [defragmenter.add(it) for it in (other[0], piece_to_end(other[1]))][1] == ipv6(17, b"children" * 2 + b"the end.")
            os._exit(0 if is_whole else 1)
        self.assertEqual(os.waitpid(child, 0)[1], 0)
        found = [defragmenter.add(it) for it in (mine[0], piece_to_end(mine[1]))]
        self.assertEqual(found, [None, ipv6(17, b"parent's" * 2 + b"the end.")])

    def test_threads(self):
        """Threads share a defragmenter: each packet has its own bytes."""
        defragmenter, wrong = Defragmenter(), []

        def add(thread):
            for number in range(3000):
                data = struct.pack(">II", thread, number) * 100
                found = [defragmenter.add(it) for it in pieces(thread << 16 | number, data, 400)]
                if found != [None, ipv6(17, data)]:
                    wrong.append(number)
        threads = [threading.Thread(target=add, args=(it,)) for it in range(4)]
        for it in threads:
            it.start()
        for it in threads:
            it.join()
        self.assertEqual((len(wrong), defragmenter.counts["whole"]), (0, 12000))

    def test_copies(self):
        for make in [copy.copy, copy.deepcopy, pickle.dumps]:
            with self.assertRaisesRegex(TypeError, "a Defragmenter can't be pickled or copied"):
                make(Defragmenter(1))

    def test_timeout(self):
        defragmenter = Defragmenter(1, timeout=1.5)
        first, last = pieces(1, bytes(range(16)), 8)
        defragmenter.add(first, 10)
        self.assertEqual(defragmenter.give_up(10 + 15 * 10**8), 0)
        self.assertEqual(defragmenter.add(last, 10 + 15 * 10**8), ipv6(17, bytes(range(16))))
        defragmenter.add(first, 10)
        self.assertEqual(defragmenter.give_up(11 + 15 * 10**8), 1)
        defragmenter = Defragmenter(1, timeout=0)
        defragmenter.add(first, 10)
        self.assertIsNone(defragmenter.add(last, 9))
        self.assertEqual(defragmenter.counts["timed_out"], 1)
        for timeout in (-1, 1e300, float("nan"), float("inf")):
            with self.assertRaises(ValueError):
                Defragmenter(timeout=timeout)

    def test_contexts(self):
        defragmenter = Defragmenter()
        first, last = pieces(1, bytes(range(16)), 8)
        self.assertIsNone(defragmenter.add(first, context=5))
        self.assertIsNone(defragmenter.add(last, context=2**32 - 1))
        self.assertIsNone(defragmenter.add(last))
        for packet, context in [(last, 5), (first, 2**32 - 1), (first, 0)]:
            self.assertEqual(defragmenter.add(packet, 0, context), ipv6(17, bytes(range(16))))
        for context in (-1, 2**32):
            with self.assertRaises(OverflowError):
                defragmenter.add(first, context=context)

    def test_congestion(self):
        from scapy.layers.inet import IP, fragment as fragment4
        for points in itertools.product(range(4), repeat=2):
            with self.subTest(points):
                parts = fragment4(IP(bytes(IP(src="192.0.2.1", dst="192.0.2.2", tos=0x28) / bytes(range(64)))), 32)
                for part, point in zip(parts, points):
                    part.tos |= point
                    part.chksum = None
                defragmenter = Defragmenter(1)
                self.assertIsNone(defragmenter.add(bytes(parts[0])))
                found = defragmenter.add(bytes(parts[1]))
                if 0 in points and any(points):
                    self.assertIsNone(found)
                    self.assertEqual(defragmenter.counts["mixed_ecn"], 1)
                else:
                    tos = 0x28 | (3 if 3 in points else points[0])
                    self.assertEqual(found, bytes(IP(src="192.0.2.1", dst="192.0.2.2", tos=tos) / bytes(range(64))))

    def test_refused(self):
        defragmenter = Defragmenter(1)
        first, last = pieces(1, bytes(range(16)), 8)
        self.assertIsNone(defragmenter.add(first))
        self.assertIsNone(defragmenter.add(ipv6(44, fragment(17, 0, True, 2) + bytes(7))))
        self.assertIsNone(defragmenter.add(ipv6(44, fragment(17, 8191, False, 2) + bytes(8))))
        self.assertEqual(defragmenter.add(last), ipv6(17, bytes(range(16))))
        counts = {name: count for name, count in defragmenter.counts.items() if count}
        self.assertEqual(counts, {"more_wanted": 1, "whole": 1, "unaligned": 1, "too_long": 1})

    def test_scapy(self):
        from scapy.layers.inet import IP, UDP as ScapyUdp, defragment, fragment as fragment4
        rng = random.Random(1)
        for number in range(1, 20):
            whole = IP(bytes(IP(src="192.0.2.1", dst="192.0.2.2", id=number) / ScapyUdp(dport=9999) / rng.randbytes(rng.randint(600, 4000))))
            parts = [bytes(it) for it in fragment4(whole, 8 * rng.randint(10, 60))]
            rng.shuffle(parts)
            defragmenter = Defragmenter(8)
            found = [it for it in map(defragmenter.add, parts) if it]
            self.assertEqual(found, [bytes(whole)])
            self.assertEqual(found, [bytes(it) for it in defragment([IP(it) for it in parts])])

    @unittest.skipUnless(has_namespaces(), "no network namespace can be made")
    def test_kernel(self):
        rng = random.Random(1)
        trials = [trial(rng, number) for number in range(1, 400)]
        asked = json.dumps([[it.hex() for it in packets] for packets in trials])
        arrived = json.loads(subprocess.run(KERNEL, input=asked, capture_output=True, text=True, check=True).stdout)
        self.assertGreater(sum(it is not None for it in arrived), 100)
        defragmenter = Defragmenter()
        for number, (packets, data) in enumerate(zip(trials, arrived), 1):
            with self.subTest(number):
                found = [it for it in map(defragmenter.add, packets) if it]
                headers = 28 if packets[0][0] >> 4 == 4 else 48
                self.assertEqual([it[headers:].hex() for it in found], [data] if data else [])
