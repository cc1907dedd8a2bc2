"""Tests of the conditions of `ipcap filter` on random packets, with tshark and tcpdump as judges. Conditions are made at
random of pairs of terms: one of ours, and the display filter or the expression of libpcap that has the same meaning."""

import os
import random
import re
import shutil
import struct
import subprocess

from captures import *

TCP_NUMBER, UDP_NUMBER, DCCP, GRE, ESP, ICMP6, SCTP, UDP_LITE = 6, 17, 33, 47, 50, 58, 132, 136

# Few values, so that a term meets some packets and not others.
PORTS = [22, 53, 443, 1024, 50000]
HOPS = [1, 2, 64, 255]
LENGTHS = [40, 60, 72, 80]
FLOWS = [0, 1, 0xfffff]
CLASSES = [0, 0x03, 0xb8, 0xbb]
TYPES = {1: [0, 8], ICMP6: [128, 129]}

ROUTING_TYPES, SEGMENTS = [253, 254], [0, 1, 3]
# Contents of headers with options: padding of several bytes, of one, a router alert (RFC 2711), an experiment (RFC 4727).
OPTIONS = [b"\1\4" + bytes(4), b"\0\0\1\2" + bytes(2), b"\5\2\0\0\1\0", b"\x1e\4" + bytes(4)]
TCP_FLAGS = {"fin": "fin", "syn": "syn", "rst": "reset", "psh": "push", "ack": "ack", "urg": "urg", "ece": "ece", "cwr": "cwr"}

CHAINS = [(), (0,), (43,), (60,), (51,), (44,), (0, 60), (0, 43, 44), (60, 43, 60), (43, 51), (0, 44, 60)]


def tcp(draw, ports):
    return struct.pack(">HHIIHHHH", *ports, 1, 0, 0x5000 | draw.getrandbits(8), 1024, 0, 0) + bytes(draw.randrange(40))


def udp(draw, ports):
    data = bytes(draw.randrange(40))
    return struct.pack(">HHHH", *ports, 8 + len(data), 0) + data


def udp_lite(draw, ports):
    return struct.pack(">HHHH", *ports, 8, 0) + bytes(draw.randrange(40))


def sctp(draw, ports):
    return struct.pack(">HHII", *ports, 1, 0)


def dccp(draw, ports):
    """A request with a long sequence number (RFC 4340, section 5.1)."""
    return struct.pack(">HHBBHBBHII", *ports, 5, 0, 0, 1, 0, 0, 1, 0)


def message(number):
    def make(draw, ports):
        return struct.pack(">BBHI", draw.choice(TYPES[number]), draw.randrange(2), 0, 1) + bytes(8)
    return make


TRANSPORTS = {TCP_NUMBER: tcp, UDP_NUMBER: udp, UDP_LITE: udp_lite, SCTP: sctp, DCCP: dccp}


def random_payload(draw, version, numbers):
    """Returns a protocol number, and a payload of that protocol."""
    messages = {4: 1, 6: ICMP6}[version]
    number = draw.choice([*numbers, messages])
    make = TRANSPORTS.get(number) or message(number)
    return number, make(draw, (draw.choice(PORTS), draw.choice(PORTS)))


def random_ipv4(draw, numbers, is_plain):
    number, payload = random_payload(draw, 4, numbers)
    bits = 0 if is_plain else draw.choice([0, 0, 0, 0x2000, 0x2001, 0x00b9])
    if not is_plain and bits & 0x1fff == 0 and draw.randrange(4) == 0:
        number, payload = 51, authentication(number) + payload
    packet = bytearray(ipv4(number, payload, bits, words=6, option_bytes=bytes(4)) if draw.randrange(4) == 0
                       else ipv4(number, payload, bits))
    packet[1], packet[8] = draw.choice(CLASSES), draw.choice(HOPS)
    packet[15], packet[19] = draw.randrange(1, 4), draw.randrange(1, 4)
    packet[4:6] = struct.pack(">H", draw.choice([1, 7]))
    return bytes(packet)


def random_header(draw, number, following):
    if number == 43:
        return bytes([following, 0, draw.choice(ROUTING_TYPES), draw.choice(SEGMENTS)]) + bytes(4)
    if number in [0, 60]:
        return bytes([following, 0]) + draw.choice(OPTIONS)
    if number == 44 and draw.randrange(2):
        return fragment(following, draw.choice([0, 1, 185]), draw.randrange(2), draw.choice([1, 7]))
    return header(number, following)


def random_ipv6(draw, numbers, is_plain):
    number, payload = random_payload(draw, 6, numbers)
    following = [*([] if is_plain else draw.choice(CHAINS)), number]
    headers = b"".join(random_header(draw, *pair) for pair in zip(following, following[1:]))
    packet = bytearray(ipv6(following[0], headers + payload))
    packet[:4] = struct.pack(">I", 6 << 28 | draw.choice(CLASSES) << 20 | draw.choice(FLOWS))
    packet[7], packet[23], packet[39] = draw.choice(HOPS), draw.randrange(1, 4), draw.randrange(1, 4)
    return bytes(packet)


def random_packets(draw, count, numbers, is_plain):
    return [draw.choice([random_ipv4, random_ipv6])(draw, numbers, is_plain) for _ in range(count)]


def port_field(name, ports):
    return " or ".join("%s.%s in {%s}" % (protocol, name, ports) for protocol in ["tcp", "udp", "sctp", "dccp"])


def random_range(draw):
    return sorted(draw.choice(PORTS) for _ in range(2))


def port_pair(draw):
    first, last = random_range(draw)
    ours, theirs = draw.choice([("port", "port"), ("src port", "srcport"), ("dst port", "dstport")])
    if draw.randrange(2):
        return f"{ours} {first}", port_field(theirs, first)
    return f"{ours} {first}-{last}", port_field(theirs, f"{first}..{last}")


COMPARISONS = ["=", "!=", "<", "<=", ">", ">="]
MOST = {"hop-limit": 255, "ttl": 255, "dscp": 63, "ecn": 3, "flow": 0xfffff, "segments-left": 255}


def comparison_of(draw, term, values):
    """A sign and a number, with which a packet may compare."""
    while True:
        sign, value = draw.choice(COMPARISONS), draw.choice(values)
        if (sign, value) not in [("<", 0), (">", MOST.get(term))]:
            return sign, value


def compared(draw, ours, values, *fields):
    """A comparison of a field that one header or another has. Each of `fields` is a protocol, its field, and what is added
    to that."""
    comparison, value = comparison_of(draw, ours, values)
    theirs = "==" if comparison == "=" else comparison
    return f"{ours} {comparison} {value}", " or ".join(
        f"({protocol} and {field} {theirs} {value - more})" for protocol, field, more in fields if value >= more)


LATER4, LATER6 = "ip.frag_offset > 0", "ipv6.fraghdr.offset > 0"
FRAGMENT4 = f"(ip.flags.mf == 1 or {LATER4})"
FRAGMENT6 = f"(ipv6.fraghdr.more == 1 or {LATER6})"
NAMES = {"tcp": TCP_NUMBER, "udp": UDP_NUMBER, "dccp": DCCP, "sctp": SCTP, "udp-lite": UDP_LITE, "icmp": 1, "icmp6": ICMP6}


def led_to(number):
    """The field that names what follows the last header: of the base header or of any extension header."""
    fields = ["ip.proto", "ipv6.nxt", "ipv6.hopopts.nxt", "ipv6.routing.nxt", "ipv6.dstopts.nxt", "ipv6.fraghdr.nxt", "ah.next_header"]
    return " or ".join(f"{field} == {number}" for field in fields)


# The version that a protocol's name by itself asks for, too.
VERSIONS = {"icmp": "ip", "icmp6": "ipv6"}


def protocol_pair(draw):
    name = draw.choice([*NAMES])
    if draw.randrange(3) == 0:
        return name, f"({led_to(NAMES[name])})" + (f" and {VERSIONS[name]}" if name in VERSIONS else "")
    return draw.choice([f"leads-to {name}", f"leads-to {NAMES[name]}"]), led_to(NAMES[name])


def header_pair(draw):
    number, name = draw.choice([(0, "ipv6.hopopts"), (43, "ipv6.routing"), (44, "ipv6.fraghdr"), (51, "ah"), (60, "ipv6.dstopts")])
    return f"header {number}", name


def fragment_pair(draw):
    return draw.choice([
        ("fragment", f"{FRAGMENT4} or {FRAGMENT6}"),
        ("first-fragment", f"(ip.flags.mf == 1 and ip.frag_offset == 0) or (ipv6.fraghdr.more == 1 and ipv6.fraghdr.offset == 0)"),
        ("later-fragment", f"{LATER4} or {LATER6}"),
        ("id 7", f"(ip.id == 7 and {FRAGMENT4}) or ipv6.fraghdr.ident == 7"),
        ("id 1", f"(ip.id == 1 and {FRAGMENT4}) or ipv6.fraghdr.ident == 1")])


ADDRESSES = [("192.0.2.1", "ip"), ("192.0.2.2/31", "ip"), ("192.0.2.0/24", "ip"), ("2001:db8::3", "ipv6"),
             ("2001:db8::2/127", "ipv6"), ("2001:db8::/32", "ipv6")]


def network_pair(draw):
    ours, theirs = draw.choice([("net", "addr"), ("src", "src"), ("dst", "dst")])
    address, version = draw.choice(ADDRESSES)
    return f"{ours} {address}", f"{version}.{theirs} == {address}"


def message_pair(draw):
    field, values = draw.choice([("type", [0, 8, 128, 129]), ("code", [0, 1])])
    value = draw.choice(values)
    ours, theirs = draw.choice([("icmp", "icmp"), ("icmp6", "icmpv6")])
    return f"{ours}-{field} {value}", f"{VERSIONS[ours]} and {theirs}.{field} == {value}"


def flags_pair(draw):
    """Flags of TCP that are set, and sometimes others that aren't."""
    names = draw.sample([*TCP_FLAGS], draw.randrange(1, 4))
    wanted = names[:draw.randrange(1, len(names) + 1)]
    theirs = [f"tcp.flags.{TCP_FLAGS[name]} == {int(name in wanted)}" for name in names]
    ours = ",".join(wanted) + ("/" + ",".join(names) if draw.randrange(2) or len(wanted) < len(names) else "")
    return f"tcp-flags {ours}", " and ".join(theirs)


def routing_pair(draw):
    if draw.randrange(2):
        number = draw.choice(ROUTING_TYPES)
        return f"routing-type {number}", f"ipv6.routing.type == {number}"
    return compared(draw, "segments-left", SEGMENTS, ("ipv6.routing", "ipv6.routing.segleft", 0))


def option_pair(draw):
    number = draw.choice([0, 1, 5, 0x1e])
    return f"option {number}", f"ipv6.opt.type == {number}"


def version_pair(draw):
    return draw.choice([("ip", "ip"), ("ip6", "ipv6"), ("version 4", "ip"), ("version 6", "ipv6")])


PAIRS = [
    port_pair, port_pair, protocol_pair, protocol_pair, header_pair, fragment_pair, network_pair, message_pair, version_pair,
    flags_pair, routing_pair, option_pair,
    lambda draw: compared(draw, draw.choice(["hop-limit", "ttl"]), HOPS, ("ip", "ip.ttl", 0), ("ipv6", "ipv6.hlim", 0)),
    lambda draw: compared(draw, "length", LENGTHS, ("ip", "ip.len", 0), ("ipv6", "ipv6.plen", 40)),
    lambda draw: compared(draw, "dscp", [0, 46], ("ip", "ip.dsfield.dscp", 0), ("ipv6", "ipv6.tclass.dscp", 0)),
    lambda draw: compared(draw, "ecn", [0, 3], ("ip", "ip.dsfield.ecn", 0), ("ipv6", "ipv6.tclass.ecn", 0)),
    lambda draw: compared(draw, "flow", FLOWS, ("ipv6", "ipv6.flow", 0)),
    lambda draw: ("spi 1", "ah.spi == 1 or esp.spi == 1"),
]


def condition(draw, pairs, depth=2):
    """Returns a random formula as a condition of ours and of the other program."""
    shape = draw.randrange(4) if depth else 0
    if shape == 0:
        ours, theirs = draw.choice(pairs)(draw)
        return ours, f"({theirs})"
    if shape == 1:
        ours, theirs = condition(draw, pairs, depth - 1)
        return f"not ({ours})", f"not ({theirs})"
    (ours, theirs), (more, others) = (condition(draw, pairs, depth - 1) for _ in range(2))
    word = draw.choice(["and", "or"])
    return f"({ours}) {word} ({more})", f"({theirs}) {word} ({others})"


def found_by_ipcap(harness, path, text):
    """Returns the numbers of the packets that meet a condition, from 0."""
    status, found, errors, _ = harness.answer(harness.plain, ["filter", text, path], b"", None)
    harness.equal((status, errors), (0, ""), text)
    return seconds(found)


def seconds(content):
    """Returns the times of the packets in a capture, of which the first of all packets has 0."""
    times, at = set(), 24
    while at < len(content):
        second, _, kept = struct.unpack_from("<III", content, at)
        times.add(second - 1000)
        at += 16 + kept
    return times


# How many display filters are in one table of tshark.
COLUMNS = 25

# A row of such a table: a second, and for each filter the number of packets and of bytes.
ROW = re.compile(r"^\| *\d+ <> +(?:\d+|Dur) *\|(.+)\|$", re.M)


def found_by_tshark(harness, path, filters):
    """Returns for each display filter the numbers of the packets that meet it. tshark counts them second by second. Its
    tables come in any order, so the first filter of each finds the packet with the number of the table."""
    tables = [filters[at:at + COLUMNS] for at in range(0, len(filters), COLUMNS)]
    options = [word for i, table in enumerate(tables) for word in ["-z", ",".join([f"io,stat,1,frame.number=={i + 1}", *table])]]
    text = harness.tshark(path, "-q", "-o", "ip.defragment:FALSE", "-o", "ipv6.defragment:FALSE", *options).decode()
    found = {}
    for rows in text.split("| IO Statistics")[1:]:
        columns = zip(*[[int(count) for count in cells.split("|")[::2]] for cells in ROW.findall(rows)])
        (table,), *packets = [{second for second, count in enumerate(column) if count} for column in columns]
        found[table] = packets
    harness.equal(sorted(found), [*range(len(tables))], "tables of tshark")
    return [packets for _, table in sorted(found.items()) for packets in table]


def conditions(draw, count, pairs):
    return [condition(draw, pairs) for _ in range(count)]


def test_tshark_agrees(harness):
    """300 conditions find the packets that tshark's display filters find, behind each kind of header."""
    draw = random.Random(1)
    packets = random_packets(draw, 150, TRANSPORTS, False)
    path = harness.file(capture([ethernet(packet) for packet in packets]))
    made = conditions(draw, 300, PAIRS)
    for (ours, theirs), wanted in zip(made, found_by_tshark(harness, path, [theirs for _, theirs in made])):
        harness.equal(found_by_ipcap(harness, path, ours), wanted, ours, "is", theirs)


# libpcap's ports are those of these protocols.
LIBPCAP_TRANSPORTS = [TCP_NUMBER, UDP_NUMBER, SCTP]


def port_in_libpcap(draw):
    first, last = random_range(draw)
    direction = draw.choice(["", "src ", "dst "])
    if draw.randrange(2):
        return f"{direction}port {first}", f"{direction}port {first}"
    return f"{direction}port {first}-{last}", f"{direction}portrange {first}-{last}"


def network_in_libpcap(draw):
    direction, address = draw.choice(["net", "src", "dst"]), draw.choice(ADDRESSES)[0]
    theirs = {"net": "", "src": "src ", "dst": "dst "}[direction] + ("net" if "/" in address else "host")
    return f"{direction} {address}", f"{theirs} {address}"


def field_in_libpcap(draw):
    """A comparison of a field of the base header: ours, and its bytes in IPv4 and in IPv6."""
    ours, four, six, values = draw.choice([("hop-limit", "ip[8]", "ip6[7]", HOPS), ("length", "ip[2:2]", "ip6[4:2] + 40", LENGTHS)])
    comparison, value = comparison_of(draw, ours, values)
    return f"{ours} {comparison} {value}", f"(ip and {four} {comparison} {value}) or (ip6 and {six} {comparison} {value})"


def name_in_libpcap(draw):
    name = draw.choice(["tcp", "udp", "sctp", "icmp", "icmp6", "ip", "ip6"])
    return name, name


LIBPCAP_PAIRS = [port_in_libpcap, port_in_libpcap, name_in_libpcap, network_in_libpcap, field_in_libpcap]


def found_by_libpcap(harness, path, expression):
    """Returns the numbers of the packets that meet an expression, by tcpdump."""
    ran = subprocess.run(["tcpdump", "-r", path, "-w", "-", expression], stdout=subprocess.PIPE, stderr=subprocess.PIPE)
    if b"expression rejects all packets" in ran.stderr:
        return set()
    harness.equal(ran.returncode, 0, "status of tcpdump", expression, ran.stderr)
    return seconds(ran.stdout)


def test_libpcap_agrees(harness):
    """100 conditions find the packets that libpcap's expressions find, without extension headers."""
    if not shutil.which("tcpdump"):
        print("libpcap's expressions: skipped, tcpdump missing")
        return
    draw = random.Random(2)
    packets = random_packets(draw, 150, LIBPCAP_TRANSPORTS, True)
    path = harness.file(capture([ethernet(packet) for packet in packets]))
    for ours, theirs in conditions(draw, 100, LIBPCAP_PAIRS):
        harness.equal(found_by_ipcap(harness, path, ours), found_by_libpcap(harness, path, theirs), ours, "is", theirs)


MANUAL = os.path.join(os.path.dirname(os.path.abspath(__file__)), "..", "..", "programs", "ipcap", "ipcap.1")


def types_in_the_manual(term):
    """Returns the names of types that the manual page lists for a term."""
    with open(MANUAL) as file:
        _, _, paragraph = file.read().partition(f"\\fB{term}\\fP \\fITYPE\\fP\n")
    return re.findall(r"^\.BR \\%(icmp6?-\w+)", paragraph.partition(".TP")[0], re.M)


def test_libpcap_names_types(harness):
    """Each name of a type of ICMP and ICMPv6 is the number that libpcap takes it for."""
    if not shutil.which("tcpdump"):
        print("libpcap's names of types: skipped, tcpdump missing")
        return
    for protocol, count in [("icmp", 15), ("icmp6", 29)]:
        names = types_in_the_manual(f"{protocol}-type")
        harness.equal(len(names), count, protocol)
        for name in names:
            code = subprocess.run(["tcpdump", "-y", "EN10MB", "-d", f"{protocol}[0] == {name}"], stdout=subprocess.PIPE).stdout
            number = int(re.findall(rb"jeq +#(0x[0-9a-f]+)", code)[-1], 16)
            shown = [harness.run("filter", "--show", f"{protocol}-type {it}")[:2] for it in (name, number)]
            harness.equal(shown[0], shown[1], name)
            harness.equal(shown[0][0], 0, name)


def first_number(packet):
    """Returns the number that the base header names."""
    return packet[6] if packet[0] >> 4 == 6 else packet[9]


def test_libpcap_misses(harness):
    """`tcp port 443` of libpcap finds no packet with an extension header; ours finds them, as tshark does."""
    draw = random.Random(3)
    packets = random_packets(draw, 150, TRANSPORTS, False)
    path = harness.file(capture([ethernet(packet) for packet in packets]))
    found = found_by_ipcap(harness, path, "tcp and port 443")
    harness.equal([found], found_by_tshark(harness, path, ["tcp.port == 443"]), "tshark")
    if shutil.which("tcpdump"):
        with_headers = {i for i in found if first_number(packets[i]) != TCP_NUMBER}
        harness.equal(found_by_libpcap(harness, path, "tcp port 443"), found - with_headers, "libpcap")
        harness.check(len(with_headers) > 3, "packets that libpcap misses:", len(with_headers))
