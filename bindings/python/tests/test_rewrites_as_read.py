"""Tests that tshark reads a packet with another header or payload as before, but for the change, and with good checksums."""

import itertools
import shutil
import subprocess
import tempfile
import unittest
import xml.etree.ElementTree

from support import capture, write

from wolfaren import with_header, with_payload

RAW = 101  # the link layer of captures without one
NAMES = {0: "ipv6.hopopts", 43: "ipv6.routing", 44: "ipv6.fraghdr", 60: "ipv6.dstopts"}
CHECKS = ["-o", "ip.check_checksum:TRUE", "-o", "udp.check_checksum:TRUE", "-o", "tcp.check_checksum:TRUE", "-o", "ipv6.defragment:FALSE"]
# what differs besides the fields of the header that was inserted, and the next header fields of others
OTHERWISE = {"frame.len", "frame.cap_len", "frame.protocols", "ipv6.plen", "ip.len", "ip.proto", "ip.checksum",
             "ip.checksum_calculated", "len", "caplen", "", "raw.no_link"}
GOOD = {("udp.checksum.status", "1"), ("tcp.checksum.status", "1"), ("icmpv6.checksum.status", "1")}


def built(numbers, upper):
    """Returns an IPv6 packet with headers of these numbers, as scapy builds it."""
    from scapy.layers.inet6 import IPv6
    packet = IPv6(src="2001:db8::1", dst="2001:db8::2", fl=0x12345, tc=3)
    for number in numbers:
        packet = packet / header(number)
    return bytes(packet / upper)


def header(number):
    from scapy.layers.inet6 import IPv6ExtHdrDestOpt, IPv6ExtHdrFragment, IPv6ExtHdrHopByHop, IPv6ExtHdrRouting, PadN
    padding = [PadN(optdata=b"\0" * 4)]
    return {0: lambda: IPv6ExtHdrHopByHop(options=padding), 43: lambda: IPv6ExtHdrRouting(addresses=[], segleft=0),
            44: lambda: IPv6ExtHdrFragment(id=77), 60: lambda: IPv6ExtHdrDestOpt(options=padding)}[number]()


def uppers():
    """Payloads whose checksums don't depend on the extension headers."""
    from scapy.layers.inet import TCP, UDP
    from scapy.layers.inet6 import ICMPv6EchoRequest
    return [(17, UDP(sport=5000, dport=9999) / b"payload"), (6, TCP(sport=5000, dport=80, flags="S")), (58, ICMPv6EchoRequest(data=b"echo"))]


def read(packets):
    """Returns the nodes of each packet, as tshark reads it."""
    with tempfile.TemporaryDirectory() as folder:
        path = write(folder, "packets.pcap", capture(packets, RAW))
        found = subprocess.run(["tshark", "-r", path, "-T", "pdml", *CHECKS], capture_output=True, check=True).stdout
    packets = xml.etree.ElementTree.fromstring(found).findall("packet")
    return [[proto for proto in packet if proto.get("name") not in ("geninfo", "frame")] for packet in packets]


def fields(node, left_out):
    """Returns the fields of a node as pairs of name and value, without those of a header."""
    name = node.get("name")
    if name == left_out:
        return []
    is_own = node.tag == "field" and name not in OTHERWISE and not name.endswith(".nxt")
    return [(name, node.get("show"))] * is_own + [it for child in node for it in fields(child, left_out)]


def count(packet, name):
    return sum(node.get("name") == name for proto in packet for node in proto.iter())


@unittest.skipUnless(shutil.which("tshark"), "tshark is missing")
class AsRead(unittest.TestCase):
    def test_inserted_header(self):
        for number, name in NAMES.items():
            before, after = [], []
            for numbers, (_, upper) in itertools.product([[], [60], [43, 60], [60, 43, 60]], uppers()):
                packet = built(numbers, upper)
                for index in range(1 if number == 0 else len(numbers) + 1):
                    before.append(packet)
                    after.append(with_header(packet, number, bytes(header(number)), index).packet)
            for old, new in zip(read(before), read(after)):
                self.assertEqual(*[[it for proto in packet for it in fields(proto, name)] for packet in (new, old)])
                self.assertEqual(count(new, name), count(old, name) + 1)
                self.assertTrue(GOOD & {it for proto in new for it in fields(proto, name)})

    def test_payload(self):
        changes = [(numbers, before, number, after) for numbers in ([], [0], [60, 43], [0, 44, 60])
                   for (_, before), (number, after) in itertools.product(uppers(), uppers())]
        packets = [with_payload(built(numbers, before), number, self.payload(after)).packet for numbers, before, number, after in changes]
        wanted = [built(numbers, after) for numbers, _, _, after in changes]
        self.assertEqual(packets, wanted)
        for packet in read(packets):
            self.assertTrue(GOOD & {it for proto in packet for it in fields(proto, None)})

    def payload(self, upper):
        """Returns the bytes of a payload with its checksum, as scapy builds it after an IPv6 header."""
        return built([], upper)[40:]


if __name__ == "__main__":
    unittest.main()
