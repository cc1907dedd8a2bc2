"""Tests of `ipcap filter --bytecode`. libpcap and the kernel run the programs on the packets of test_filter.py, which lists by hand
which of them meet each condition."""

import ctypes
import ctypes.util
import re
import socket
import struct

from captures import *
from test_filter import CONDITIONS, FRAMES

SO_ATTACH_FILTER = 26
ALL, NONE = 0xFFFFFFFF, 0

# The packets, without the frame of each.
PACKETS = {name: frame[18 if frame[12:14] == b"\x81\x00" else 14:] for name, frame in FRAMES.items() if name != "arp"}

# Terms that a program decides: conditions of these alone need no `--undecided`.
DECIDED = re.compile(r"(src|dst|net|and|not|ttl|hop-limit|dscp|ecn|flow) ?|[=!<>]+ (0x)?[0-9a-f]+ ?|[0-9a-f.:]+(/\d+)? ?")


def is_decided(condition):
    return DECIDED.sub("", condition) == ""


class Kernel:
    """Runs programs as filters of a socket, which drops the packets that a program refuses."""

    def __init__(self, program):
        self.sender, self.receiver = socket.socketpair(socket.AF_UNIX, socket.SOCK_DGRAM)
        self.receiver.setblocking(False)
        code = ctypes.create_string_buffer(b"".join(struct.pack("HBBI", *it) for it in program))
        self.receiver.setsockopt(socket.SOL_SOCKET, SO_ATTACH_FILTER, struct.pack("HxxxxxxP", len(program), ctypes.addressof(code)))

    def run(self, packet):
        self.sender.send(packet)
        try:
            return ALL if self.receiver.recv(1 << 16) == packet else "part of it"
        except BlockingIOError:
            return NONE

    def close(self):
        self.sender.close()
        self.receiver.close()


def run_by_pcap(program, packet):
    """Returns what a program returns on a packet in libpcap."""
    run = ctypes.CDLL(ctypes.util.find_library("pcap")).bpf_filter
    run.restype = ctypes.c_uint
    return run(b"".join(struct.pack("HBBI", *it) for it in program), packet, len(packet), len(packet))


def program_of(harness, condition, *options):
    """Returns the program of a condition, or None if it can't decide each packet."""
    status, found, _, _ = harness.run("filter", "--bytecode", *options, *condition.split())
    if status:
        harness.equal((status, found), (2, b""), condition)
        return None
    count, *lines = found.decode().splitlines()
    harness.equal(int(count), len(lines), condition, "lines")
    return [tuple(map(int, it.split())) for it in lines]


def accepted(harness, program):
    """Returns the names of the packets that a program accepts, by libpcap and by the kernel."""
    kernel = Kernel(program)
    results = {name: run_by_pcap(program, packet) for name, packet in PACKETS.items()}
    harness.equal({name: kernel.run(packet) for name, packet in PACKETS.items()}, results, "kernel and libpcap")
    kernel.close()
    harness.check(set(results.values()) <= {ALL, NONE}, "all bytes or none")
    return {name for name, result in results.items() if result}


def test_programs_accept_what_meets_the_condition(harness):
    """With `keep` at least those packets, with `drop` at most, and exactly those where `--undecided` isn't needed."""
    for condition, names in CONDITIONS.items():
        wanted = set(names.split(", ")) & set(PACKETS)
        kept, dropped = (accepted(harness, program_of(harness, condition, "--undecided", it)) for it in ("keep", "drop"))
        harness.check(dropped <= wanted <= kept, condition, dropped, wanted, kept)
        exact = program_of(harness, condition)
        harness.check(exact is not None or not is_decided(condition), condition, "is decided")
        if exact is not None:
            harness.equal(accepted(harness, exact), wanted, condition)
    harness.check(len([it for it in CONDITIONS if is_decided(it)]) > 5, "conditions that are decided")


def test_text_has_the_instructions(harness):
    """As `tcpdump -d` prints them: an index each, with the indices to which jumps lead."""
    condition = "src 192.0.2.0/24 or dst 2001:db8::/32"
    program = program_of(harness, condition)
    status, found, errors, _ = harness.run("filter", "--bytecode=text", *condition.split())
    lines = found.decode().splitlines()
    harness.equal((status, errors, len(lines)), (0, "", len(program)), "text")
    for index, (line, (code, jt, jf, k)) in enumerate(zip(lines, program)):
        harness.check(line.startswith("(%03d) " % index), line)
        if code & 7 == 5 and code != 5:
            harness.check(line.endswith("jt %d\tjf %d" % (index + 1 + jt, index + 1 + jf)), line)
        if code == 0x20:
            harness.check(line.endswith("ld       [%d]" % k), line)
    harness.equal(lines[-2:], ["(%03d) ret      #-1" % (len(lines) - 2), "(%03d) ret      #0" % (len(lines) - 1)], "the last lines")


def test_terms_of_the_program_are_undecided(harness):
    """`mismatched` is about frames, of which a program for IP packets knows nothing."""
    everything = set(PACKETS) - {"unread", "version 5", "words"}
    kept, dropped = (accepted(harness, program_of(harness, "net 0.0.0.0/0 or net ::/0 and mismatched", "--undecided", it)) for it in ("keep", "drop"))
    harness.equal((kept, dropped), (everything, {"ipv4", "ipv4 fragment", "ipv4 auth"}), "mismatched")
