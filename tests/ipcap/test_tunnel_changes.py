"""Tests of `ipcap rewrite --tunnels` and `ipcap defrag --tunnels`. scapy builds the packets that are wanted, with their checksums."""

import itertools
import random
import re
import struct

from blocks import interface, obsolete, option, packet, section, simple
from captures import *
from test_defrag import frame, frames_of, payload
from test_use import refuse_each

OUTER = {4: {"src": "198.51.100.1", "dst": "198.51.100.2"}, 6: {"src": "2001:db8:1::1", "dst": "2001:db8:1::2"}}
OTHER = {4: {"src": "198.51.100.1", "dst": "198.51.100.3"}, 6: {"src": "2001:db8:1::1", "dst": "2001:db8:1::3"}}
COVERED = "unchanged: an authentication header that covers the change"


def base(version, number=None, identification=1, addresses=OUTER):
    """The IP header of an outer packet as scapy has it."""
    from scapy.layers.inet import IP
    from scapy.layers.inet6 import IPv6
    found = IP(id=identification, **addresses[4]) if version == 4 else IPv6(fl=identification, **addresses[6])
    if number is not None:
        setattr(found, "proto" if version == 4 else "nh", number)
    return found


def ether(inner, vlan=None):
    """An Ethernet frame in a tunnel."""
    from scapy.layers.l2 import Dot1Q, Ether
    number = 0x0800 if inner[0] >> 4 == 4 else 0x86DD
    link = Ether(src="02:00:00:00:00:11", dst="02:00:00:00:00:12", type=number if vlan is None else 0x8100)
    return bytes(link if vlan is None else link / Dot1Q(vlan=vlan, type=number)) + inner


def in_gre(version, inner, key=None, is_frame=False, vlan=None, fields={}, **outer):
    from scapy.layers.l2 import GRE
    from scapy.packet import Raw
    number = 0x6558 if is_frame else 0x0800 if inner[0] >> 4 == 4 else 0x86DD
    keys = {} if key is None else {"key_present": 1, "key": key}
    return base(version, 47, **outer) / GRE(proto=number, **keys, **fields) / Raw(ether(inner, vlan) if is_frame else inner)


def in_udp(version, port, header, inner, checksum=True, **outer):
    from scapy.layers.inet import UDP as ScapyUdp
    from scapy.packet import Raw
    return base(version, **outer) / ScapyUdp(sport=50000, dport=port, **({} if checksum else {"chksum": 0})) / Raw(bytes(header) + inner)


def in_ip(version, inner, **outer):
    from scapy.packet import Raw
    return base(version, 4 if inner[0] >> 4 == 4 else 41, **outer) / Raw(inner)


def in_gtp_u(version, inner, key=0x1234, has_fields=False, **outer):
    from scapy.contrib.gtp import GTP_U_Header
    fields = {"S": 1, "seq": 7} if has_fields else {}
    return in_udp(version, 2152, GTP_U_Header(gtp_type=255, teid=key, length=len(inner) + 4 * has_fields, **fields), inner, **outer)


def in_vxlan(version, inner, key=0x1234, vlan=None, **outer):
    from scapy.layers.vxlan import VXLAN
    return in_udp(version, 4789, VXLAN(vni=key, flags=8), ether(inner, vlan), **outer)


def in_geneve(version, inner, key=0x1234, is_frame=False, vlan=None, **outer):
    from scapy.contrib.geneve import GENEVE
    number = 0x6558 if is_frame else 0x0800 if inner[0] >> 4 == 4 else 0x86DD
    return in_udp(version, 6081, GENEVE(vni=key, proto=number), ether(inner, vlan) if is_frame else inner, **outer)


# Each kind of tunnel, and what it is built with.
TUNNELS = {
    "IP": (in_ip, {}), "GRE": (in_gre, {}), "GRE with a key": (in_gre, {"key": 9}),
    "GRE with a checksum": (in_gre, {"fields": {"chksum_present": 1, "seqnum_present": 1, "seqence_number": 5}}),
    "GRE with Ethernet": (in_gre, {"is_frame": True, "fields": {"chksum_present": 1}}),
    "GTP-U": (in_gtp_u, {}), "GTP-U with fields": (in_gtp_u, {"has_fields": True}), "GTP-U without a checksum": (in_gtp_u, {"checksum": False}),
    "VXLAN": (in_vxlan, {}), "VXLAN without a checksum": (in_vxlan, {"checksum": False}), "VXLAN with a VLAN": (in_vxlan, {"vlan": 7}),
    "Geneve": (in_geneve, {}), "Geneve with Ethernet": (in_geneve, {"is_frame": True}),
}


def built(name, version, inner, **outer):
    """The bytes of a packet in a tunnel of this kind."""
    make, fields = TUNNELS[name]
    return bytes(make(version, bytes(inner), **{**fields, **outer}))


def with_headers(numbers, data=b"data"):
    """An IPv6 packet with these headers and UDP."""
    from scapy.layers.inet import UDP as ScapyUdp
    from scapy.layers.inet6 import IPv6, IPv6ExtHdrDestOpt, IPv6ExtHdrHopByHop, PadN
    found = IPv6(src="2001:db8::1", dst="2001:db8::2")
    for number in numbers:
        found = found / {0: IPv6ExtHdrHopByHop, 60: IPv6ExtHdrDestOpt}[number](options=[PadN(optdata=bytes(4))])
    return bytes(found / ScapyUdp(sport=5, dport=6) / data)


def rewrite(harness, frames, *arguments, status=0):
    """Runs `rewrite --tunnels` on frames. Returns those that it writes, and its messages."""
    path = harness.file(capture(frames))
    found = harness.run("rewrite", "--tunnels", *arguments, path)
    harness.equal(found[0], status, "status of rewrite", found[2])
    return [it for _, _, it in frames_of(found[1])], found[2].replace("ipcap: %s: " % path, "")


def check_sums(harness, frames, words):
    """Checks that tshark finds no wrong checksum and no malformed packet."""
    checks = [word for name in ("ip", "udp", "tcp") for word in ("-o", "%s.check_checksum:TRUE" % name)]
    bad = " || ".join(["_ws.malformed", "ip.checksum.status == 0", "udp.checksum.status == 0", "gre.checksum.status == 0", "udp.length.bad",
                       "ip.bogus_ip_length"])
    found = harness.tshark(harness.file(capture(frames)), *checks, "-o", "ip.defragment:FALSE", "-o", "ipv6.defragment:FALSE", "-Y", bad,
                           "-T", "fields", "-e", "frame.number")
    harness.equal(found.strip(), b"", "packets that tshark finds wrong", words)


def test_rewritten(harness):
    """In each tunnel, the inner packet is what scapy builds without the header, and the outer one what scapy builds around it."""
    frames, wanted = [], []
    for name, version, data in itertools.product(TUNNELS, (4, 6), (b"data", b"odd")):
        frames.append(frame(built(name, version, with_headers([0, 60], data))))
        wanted.append(frame(built(name, version, with_headers([60], data))))
    check_sums(harness, frames, "before")
    harness.equal(rewrite(harness, frames, "--without", "0"), (wanted, ""), "in each tunnel")
    check_sums(harness, wanted, "after")
    plain = harness.run("rewrite", "--without", "0", content=capture(frames))
    harness.equal(plain, (0, capture(frames), "", None), "without --tunnels")
    deep, less = with_headers([0, 60]), with_headers([60])
    for name, version in list(itertools.product(["GRE with a checksum", "VXLAN", "GTP-U", "IP", "Geneve with Ethernet"], (4, 6)))[:7]:
        deep, less = built(name, version, deep), built(name, version, less)
        harness.equal(rewrite(harness, [frame(deep)], "--without", "0"), ([frame(less)], ""), "tunnels in tunnels", name)
    beyond = [frame(built("IP", 4, deep))]
    harness.equal(rewrite(harness, beyond, "--without", "0"), (beyond, ""), "too many tunnels")


def test_each_level(harness):
    """The outer packet is changed too, also if the inner one can't be, and each is counted by itself."""
    for inner, kept in [(with_headers([0]), with_headers([])), (with_headers([60]), with_headers([60]))]:
        both, wanted = [ipv6(number, (options(41) if number == 0 else b"") + packet_bytes) for number, packet_bytes in ((0, inner), (41, kept))]
        harness.equal(rewrite(harness, [ethernet(both)], "--without", "0"), ([ethernet(wanted)], ""), "both packets")
    covered = ipv6(0, options(51) + authentication(17) + UDP)
    outer = [ipv6(0, options(41) + covered), ipv6(41, covered)]
    harness.equal(rewrite(harness, [ethernet(outer[0])], "--without", "0"), ([ethernet(outer[1])], "1 packet " + COVERED + "\n"), "the inner one stays")
    inner = with_headers([0, 60])
    outer = [ipv6(51, authentication(41) + it) for it in (inner, with_headers([60]))]
    harness.equal(rewrite(harness, [ethernet(outer[0])], "--without", "0"), ([ethernet(outer[0])], "1 packet " + COVERED + "\n"), "a header that covers the tunnel")
    found = rewrite(harness, [ethernet(outer[0])], "--without", "0", "--break-authentication")
    harness.equal(found, ([ethernet(outer[1])], "1 packet with an integrity check value that no longer holds\n"), "--break-authentication")
    harness.equal(rewrite(harness, [ethernet(outer[0])], "--without", "0", "--without", "ah"), ([ethernet(ipv6(41, with_headers([60])))], ""), "both are left out")
    bits = [bytearray(ipv6(44, fragment(17) + UDP)) for _ in range(2)]
    bits[0][41] = 0xff
    for name in TUNNELS:
        frames = [frame(built(name, 4, bytes(it))) for it in bits]
        harness.equal(rewrite(harness, frames[:1], "--clear"), (frames[1:], ""), "reserved bits", name)
    found = rewrite(harness, [frame(built("VXLAN", 6, ipv6_chain([44, 43])))], "--in-order")
    harness.equal(found, ([frame(built("VXLAN", 6, ipv6_chain([43, 44])))], ""), "orders")


def test_refused(harness):
    """A packet stays as it is where the outer ones can't follow, and is counted by the reason."""
    inner = with_headers([0, 60])
    unstated = bytearray(built("GRE", 6, inner))
    unstated[4:6] = b"\0\0"
    no_udp_length = bytearray(built("VXLAN", 6, inner))
    no_udp_length[44:46] = b"\0\0"
    long_udp, long_gtp_u = bytearray(built("VXLAN", 4, inner)), bytearray(built("GTP-U", 4, inner))
    long_udp[24:26] = struct.pack(">H", len(long_udp))
    long_gtp_u[30:32] = struct.pack(">H", len(long_gtp_u))
    cases = [("a length that isn't stated", bytes(unstated)), ("a length that isn't stated", bytes(no_udp_length)),
             ("bytes that are missing", bytes(long_udp)), ("bytes that are missing", bytes(long_gtp_u)),
             ("a header in the part that is fragmented", ipv4(41, inner, 0x2000)),
             ("a header in the part that is fragmented", ipv6(44, fragment(41, 0, 1) + inner)),
             ("bytes that are missing", ipv4(41, inner + bytes(8))[:-4])]
    for reason, packet_bytes in cases:
        one = ethernet(packet_bytes)
        harness.equal(rewrite(harness, [one, one], "--without", "0"), ([one, one], "2 packets unchanged: %s\n" % reason), reason, packet_bytes.hex())
    atomic = [ethernet(ipv6(44, fragment(41) + it)) for it in (inner, with_headers([60]))]
    harness.equal(rewrite(harness, atomic[:1], "--without", "0"), (atomic[1:], ""), "an atomic fragment")
    later = [ethernet(ipv4(41, inner, 1)), ethernet(ipv4(17, udp(4789, vxlan(bytes(30)))))]
    harness.equal(rewrite(harness, later, "--without", "0"), (later, ""), "no packet in a tunnel")


def test_other_bytes(harness):
    """Wrong checksums stay wrong, and all bytes but those of the change stay, in each form of files."""
    inner, less = with_headers([0, 60]), with_headers([60])
    for name, at in [("VXLAN", 14 + 26), ("GRE with a checksum", 14 + 24), ("IP", 14 + 10)]:
        frames = [bytearray(frame(built(name, 4, it))) for it in (inner, less)]
        for one in frames:
            value = struct.unpack_from(">H", one, at)[0]
            struct.pack_into(">H", one, at, (value + 5) % 0xffff or 1)
        harness.equal(rewrite(harness, [bytes(frames[0])], "--without", "0"), ([bytes(frames[1])], ""), "a wrong checksum", name)
    for tail, link in itertools.product((b"", b"\xee" * 7), (b"", b"\xdd" * 4)):
        old, new = [frame(bytes(in_udp(4, 4789, b"\x08\0\0\0\0\0\x05\0", ether(it) + link))) + tail for it in (inner, less)]
        harness.equal(rewrite(harness, [old], "--without", "0"), ([new], ""), "bytes after packets")
        for order in "<>":
            note = option(1, b"note", order) + struct.pack(order + "HH", 0, 0)
            content, wanted = [section(order) + interface(order=order) + packet(it, 0, 77, options=note, order=order) + obsolete(it, 0, 78, order=order)
                               + simple(it, order=order) for it in (old, new)]
            found = harness.run("rewrite", "--tunnels", "--without", "0", content=content)
            harness.equal(found, (0, wanted, "", None), "blocks", order)
    path = harness.file(capture([frame(built(name, 6, inner)) for name in TUNNELS]))
    refuse_each(harness, ["rewrite", "--tunnels", "--without", "0", path])


def parts_of(version, number, data, size=400):
    """The fragments that scapy makes of a packet with UDP, and the whole packet."""
    from scapy.layers.inet import IP, UDP as ScapyUdp, fragment as fragment4
    from scapy.layers.inet6 import IPv6, IPv6ExtHdrFragment, fragment6
    upper = ScapyUdp(sport=7, dport=8) / data
    if version == 4:
        whole = IP(bytes(IP(src="192.0.2.1", dst="192.0.2.2", id=number) / upper))
        return [bytes(it) for it in fragment4(whole, size)], bytes(whole)
    head = IPv6(src="2001:db8::1", dst="2001:db8::2")
    return [bytes(it) for it in fragment6(IPv6(bytes(head / IPv6ExtHdrFragment(id=number) / upper)), size + 48)], bytes(head / upper)


def timed(frames):
    return file_header(snap_len=262144) + b"".join(record(it, None, 1000, index) for index, it in enumerate(frames))


def defragment(harness, frames, *arguments, status=0):
    """Runs `defrag --tunnels` on frames. Returns those that it writes, and its messages."""
    path = harness.file(timed(frames))
    found = harness.run("defrag", "--tunnels", *arguments, path)
    harness.equal(found[0], status, "status of defrag", found[2])
    return [it for _, _, it in frames_of(found[1])], found[2].replace("ipcap: %s: " % path, "")


def test_made_whole(harness):
    """In each tunnel, the inner packet is the one that scapy fragmented, and the outer one what scapy builds around it."""
    rng, frames, wanted = random.Random(2), [], []
    for number, (name, outer, version) in enumerate(itertools.product(TUNNELS, (4, 6), (4, 6))):
        parts, whole = parts_of(version, number, payload(number, rng.choice([900, 1001, 1302])))
        rng.shuffle(parts)
        frames += [frame(built(name, outer, part, identification=1 + i)) for i, part in enumerate(parts)]
        wanted.append(frame(built(name, outer, whole, identification=len(parts))))
    check_sums(harness, frames, "before")
    harness.equal(defragment(harness, frames), (wanted, ""), "in each tunnel")
    check_sums(harness, wanted, "after")
    plain = harness.run("defrag", content=timed(frames))
    harness.equal([it for _, _, it in frames_of(plain[1])], frames, "without --tunnels")
    parts, whole = parts_of(6, 9, payload(3, 1000))
    for version in (4, 6):
        outer = [built("VXLAN", 4, built("GRE with a checksum", version, built("GTP-U", 6, it))) for it in (*parts, whole)]
        harness.equal(defragment(harness, [frame(it) for it in outer[:-1]]), ([frame(outer[-1])], ""), "tunnels in tunnels")
    tail = [frame(bytes(in_udp(4, 4789, b"\x08\0\0\0\0\0\x05\0", ether(it) + b"\xee" * 6))) + b"\xdd" * 9 for it in parts]
    harness.equal(defragment(harness, tail), ([frame(bytes(in_udp(4, 4789, b"\x08\0\0\0\0\0\x05\0", ether(whole))))], ""), "bytes after packets")


def test_apart(harness):
    """Fragments of different tunnels aren't joined: of other addresses, kinds, numbers and VLANs."""
    kinds = ["IP", "GRE", "GRE with a key", "GTP-U", "VXLAN", "VXLAN with a VLAN", "Geneve"]
    places = [(name, fields) for name in kinds for fields in ({}, {"addresses": OTHER})]
    places += [("GRE", {"key": 0}), ("GRE", {"key": 5}), ("GTP-U", {"key": 5}), ("VXLAN", {"key": 5}), ("Geneve", {"key": 5}),
               ("VXLAN with a VLAN", {"vlan": 8}), ("Geneve with Ethernet", {"vlan": 7}), ("GRE with Ethernet", {"vlan": 7})]
    rng, queues, wanted = random.Random(4), [], []
    for number, ((name, fields), version) in enumerate(itertools.product(places, (4, 6))):
        parts, whole = parts_of(6, 1, payload(number, 1000))
        queues.append([frame(built(name, version, it, **fields)) for it in parts] + [frame(built(name, version, whole, **fields))])
    frames = []
    while any(len(it) > 1 for it in queues):
        queue = rng.choice([it for it in queues if len(it) > 1])
        frames.append(queue.pop(0))
        if len(queue) == 1:
            wanted.append(queue[0])
    harness.equal(defragment(harness, frames), (wanted, ""), "tunnels")
    parts, whole = parts_of(4, 1, payload(5, 1000))
    # these differ in what belongs to no tunnel: checksums, fields, and whether there is an Ethernet frame
    same = [{"GRE with a checksum", "GRE"}, {"GTP-U", "GTP-U with fields", "GTP-U without a checksum"}, {"VXLAN", "VXLAN without a checksum"},
            {"GRE with Ethernet", "GRE"}, {"Geneve", "Geneve with Ethernet"}]
    for names in same:
        for one, other in itertools.permutations(names, 2):
            mixed = [frame(built(one, 4, parts[0]))] + [frame(built(other, 4, it)) for it in parts[1:]]
            harness.equal(defragment(harness, mixed), ([frame(built(other, 4, whole))], ""), "the same tunnel", one, other)
    mixed = [frame(parts[0])] + [frame(built("IP", 4, it)) for it in parts[1:]]
    found = defragment(harness, mixed)
    harness.equal(found, ([], "%d fragments of packets that aren't whole at the end\n" % len(parts)), "in a tunnel and not")


def test_outer_fragments(harness):
    """Outer packets are made whole before those in their tunnels."""
    from scapy.layers.inet import IP, fragment as fragment4
    parts, whole = parts_of(6, 7, payload(6, 1000))
    outer = [IP(built("VXLAN", 4, it, identification=20 + i)) for i, it in enumerate(parts)]
    frames = [frame(bytes(it)) for one in outer for it in fragment4(one, 160)]
    wanted = [frame(built("VXLAN", 4, whole, identification=20 + len(parts) - 1))]
    harness.equal(defragment(harness, frames), (wanted, ""), "both")
    found = harness.run("defrag", content=timed(frames))
    harness.equal([it for _, _, it in frames_of(found[1])], [frame(bytes(it)) for it in outer], "the outer ones alone")
    kept = defragment(harness, frames[:-1], "--keep")
    last = fragment4(outer[-1], 160)
    harness.equal(kept[0], [frame(bytes(it)) for it in outer[:-1]] + [frame(bytes(it)) for it in last[:-1]], "--keep")
    harness.equal(defragment(harness, frames[:-1])[0], [], "without --keep")


def test_what_stays(harness):
    """Fragments in tunnels stay as they are where the outer packets can't follow, and are counted."""
    parts, whole = parts_of(4, 3, payload(8, 1000))
    for reason, make in [("an authentication header that covers the change", lambda it: ipv6(51, authentication(4) + it)),
                         ("bytes that are missing", lambda it: ipv4(4, it, total_len=20 + len(it) + 4)),
                         ("a length that isn't stated", lambda it: ipv6(4, it, 0))]:
        frames = [ethernet(make(it)) for it in parts]
        harness.equal(defragment(harness, frames), (frames, "%d fragments in tunnels unchanged: %s\n" % (len(parts), reason)), reason)
    for name, outer, fits, over in [("VXLAN", 4, 65535 - 20 - 8 - 8 - 14, 1), ("IP", 4, 65515, 1), ("GRE", 6, 65531, 1), ("GTP-U", 6, 65519, 1)]:
        for more in (0, over):
            pieces, big = parts_of(4, 3, payload(8, fits - 28 + more), 8000)
            frames = [frame(built(name, outer, it)) for it in pieces]
            found = defragment(harness, frames)
            words = "%d fragments of packets in tunnels that are too long for the length fields of outer packets\n" % len(pieces)
            harness.equal(found, ([], words) if more else ([frame(built(name, outer, big))], ""), "the longest packet", name, more)
            if more:
                harness.equal(defragment(harness, frames, "--keep"), (frames, words), "kept")
    path = harness.file(timed(frames))
    report = harness.run("defrag", "--tunnels", "--report", "{}", path)[3].decode()
    numbers = ", ".join(str(it) for it in range(1, len(frames) + 1))
    harness.equal(report, "packets %s: 192.0.2.1 > 192.0.2.2, protocol 17, id 3: refused: too long for the length field of a packet that carries it\n" % numbers, "report")


def test_kept_and_forms(harness):
    """With --keep, fragments stay where they were. In pcapng files, a whole packet has the interface and time of the last fragment."""
    (a, b, c), whole = parts_of(6, 1, payload(1, 1000))
    (d, e, f), _ = parts_of(6, 2, payload(2, 1000))
    order = [built("VXLAN", 6, it) for it in (d, a, c, f, b)]
    frames = [frame(it) for it in order] + [frame(built("GRE", 6, it)) for it in (e, with_headers([]))]
    wanted = [frames[0], frames[3], frame(built("VXLAN", 6, whole)), *frames[5:]]
    for found in (defragment(harness, frames, "--keep"), defragment(harness, frames, "--keep", "--slots", "4")):
        harness.equal(found, (wanted, "3 fragments of packets that aren't whole at the end\n"), "--keep")
    harness.equal(defragment(harness, frames)[0], wanted[2:3] + wanted[4:], "without --keep")
    for order in "<>":
        head = section(order) + interface(order=order) + interface(order=order)
        for make in (packet, obsolete):
            content = head + b"".join(make(frame(built("VXLAN", 6, it)), 1, 5 + i, order=order) for i, it in enumerate((a, b, c)))
            found = harness.run("defrag", "--tunnels", content=content)
            harness.equal(found, (0, head + packet(frame(built("VXLAN", 6, whole)), 1, 7, order=order), "", None), "blocks", order)
        content = section(order) + interface(order=order) + b"".join(simple(frame(built("IP", 6, it)), order=order) for it in (a, b, c))
        found = harness.run("defrag", "--tunnels", content=content)
        harness.equal(found[1], section(order) + interface(order=order) + simple(frame(built("IP", 6, whole)), order=order), "simple packet blocks")
    content = timed([frame(built("IP", 6, it)) for it in (a, b, c)])
    found = harness.run("defrag", "--tunnels", content=content)
    plain = harness.run("stat", "--json", "--tunnels", content=found[1])[1]
    harness.equal(harness.run("stat", "--json", "--defrag", "--tunnels", content=content), (0, plain, "", None), "stat")
    harness.equal(harness.run("filter", "--defrag", "--tunnels", "not fragment and udp", content=content)[1], found[1], "filter")
    shown = harness.run("show", "--defrag", "--tunnels", "--one-line", content=content)[1]
    harness.check(shown.count(b"\n") == 2 and b"packet 3, tunnel 1: " in shown, shown)
    refuse_each(harness, ["defrag", "--tunnels", harness.file(timed(frames))])
    refuse_each(harness, ["defrag", "--tunnels", "--keep", harness.file(timed(frames))])


def test_without_tunnels(harness):
    """Where there is no tunnel, --tunnels changes nothing."""
    from test_defrag import random_capture
    for seed in range(3):
        content = random_capture(seed, 250)[0]
        for arguments in (["defrag"], ["defrag", "--keep"]):
            found, wanted = [harness.run(*arguments, *more, content=content) for more in (["--tunnels"], [])]
            harness.equal(found, wanted, arguments, seed)
    faulty = capture([ethernet(ipv6(44, fragment(60, 0, 1) + b"\x11\x04" + bytes(6))), ethernet(ipv6(44, fragment(17, 0, 1) + bytes(8), 0)),
                      ethernet(ipv6(44, fragment(17, 0, 1) + bytes(8), 24)), ethernet(ipv4(17, UDP, 0x2000)), ethernet(LATER_FRAGMENT)])
    harness.equal(harness.run("defrag", "--tunnels", content=faulty), harness.run("defrag", content=faulty), "faulty fragments")


def test_random_tunnels(harness):
    """Random fragments in random tunnels, of which some are lost."""
    for seed in range(12):
        rng, queues = random.Random(seed), []
        for number in range(25):
            name, outer, version = rng.choice(list(TUNNELS)), rng.choice((4, 6)), rng.choice((4, 6))
            parts, whole = parts_of(version, number, payload(number, rng.randint(500, 3000)), rng.choice((200, 400, 800)))
            if len(parts) > 1:
                rng.shuffle(parts)
                lost = rng.random() < 0.2
                queues.append(([frame(built(name, outer, it)) for it in parts[lost:]], None if lost else frame(built(name, outer, whole))))
        frames, wanted, kept = [], [], []
        while queues:
            at = rng.randrange(len(queues))
            parts, whole = queues[at]
            frames.append(parts.pop())
            wanted += [whole] if whole and not parts else []
            kept += [frames[-1]] if not whole else [whole] if not parts else []
            if not parts:
                del queues[at]
        command = harness.run if seed < 2 else lambda *words, content: harness.answer(harness.plain, words, content, None)
        found = command("defrag", "--tunnels", content=timed(frames))
        harness.equal([it for _, _, it in frames_of(found[1])], wanted, "random tunnels", seed)
        found = command("defrag", "--tunnels", "--keep", content=timed(frames))
        harness.equal([it for _, _, it in frames_of(found[1])], kept, "random tunnels with --keep", seed)
        counts = sum(int(it) for it in re.findall(r"(\d+) fragments? of packets that aren't whole", found[2]))
        harness.equal(counts, len(kept) - len(wanted), "fragments that are lost", seed)
