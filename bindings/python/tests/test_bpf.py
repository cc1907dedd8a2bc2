"""Tests of `Filter.to_bpf`: Linux runs the programs as filters of a socket."""

import copy
import pickle
import socket
import unittest

from support import PACKETS, TCP, UDP, ipv4, ipv6, ipv6_chain

from wolfaren import BpfProgram, Filter

# Packets whose addresses are 192.0.2.1 and 192.0.2.2, or 2001:db8::1 and 2001:db8::2.
ALL = {"ipv4": ipv4(6, TCP), "udp": ipv6(17, UDP), "chain": ipv6_chain([0, 60, 43, 44, 51]), "truncated": ipv6(17, UDP)[:39], "empty": b"\0"}
EXACT = {"src 192.0.2.1": "ipv4", "dst 192.0.2.1": "", "net 2001:db8::/32": "udp chain", "host 2001:db8::2 or host 192.0.2.2": "ipv4 udp chain",
         "not src 2001:db8::1": "ipv4 truncated empty", "ttl = 64 and ecn = 0": "ipv4 udp chain", "flow >= 0": "udp chain"}
# Of these the program doesn't decide all terms: at least and at most which packets it accepts.
UNDECIDED = {"header 44": ("chain", "chain"), "src 192.0.2.1 and not fault": ("ipv4", "ipv4"), "dst 192.0.2.1 and tcp": ("", "")}


def received(program):
    """Returns the names of the packets that a socket with the program receives."""
    sender, receiver = socket.socketpair(socket.AF_UNIX, socket.SOCK_DGRAM)
    with sender, receiver:
        receiver.setblocking(False)
        program.attach(receiver)
        names = set()
        for name, packet in ALL.items():
            sender.send(packet)
            try:
                assert receiver.recv(65536) == packet
                names.add(name)
            except BlockingIOError:
                pass
        return names


class Programs(unittest.TestCase):
    def test_linux_runs_them(self):
        for text, names in EXACT.items():
            with self.subTest(text=text):
                programs = [Filter(text).to_bpf(it) for it in (None, "keep", "drop")]
                self.assertEqual(programs, programs[:1] * 3)
                self.assertEqual(received(programs[0]), set(names.split()))

    def test_packets_that_are_not_decided(self):
        for text, (least, most) in UNDECIDED.items():
            with self.subTest(text=text):
                self.assertLessEqual(set(least.split()), received(Filter(text).to_bpf("keep")))
                self.assertLessEqual(received(Filter(text).to_bpf("drop")), set(most.split()))

    def test_what_is_refused(self):
        self.assertRaisesRegex(ValueError, "can't decide each packet", Filter("option 5").to_bpf)
        self.assertRaisesRegex(ValueError, "'keep', 'drop' or None, not 'both'", Filter("src ::1").to_bpf, "both")

    def test_text_and_values(self):
        program = Filter("src 192.0.2.1").to_bpf()
        lines = str(program).splitlines()
        self.assertEqual(int(lines[0]), len(lines) - 1)
        self.assertEqual([tuple(map(int, it.split())) for it in lines[1:]], list(program))
        self.assertEqual(lines[-2:], ["6 0 0 4294967295", "6 0 0 0"])
        self.assertEqual(program.instructions, tuple(program))
        for other in (copy.copy(program), copy.deepcopy(program), pickle.loads(pickle.dumps(program)), eval(repr(program), {"BpfProgram": BpfProgram})):
            self.assertEqual((other, hash(other)), (program, hash(program)))
        self.assertNotEqual(program, Filter("src 192.0.2.2").to_bpf())
        self.assertNotEqual(program, program.instructions)
