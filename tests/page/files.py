"""Captures, with the packets that the page has to find in them."""

import struct

from pastes import HEADER, OTHER, PACKET

# An IPv6 header with the payload length and the next header, before the payload.
IPV6 = "20010db8000000000000000000000001" "20010db8000000000000000000000002"
VLAN = "81000064"
ARP = "0001080006040001" + "00" * 20
COOKED = "0000000100060001020304050000"
# An 802.11 header of data from an access point (IEEE 802.11, section 9.3.2.1).
DATA = "08020000" + "000102030405" * 3 + "1000"
# Frames of each supported kind around an IPv6 packet, with the link type and the page's kind.
FRAMES = [
    (1, "ethernet", f"{HEADER}86dd{PACKET}"), (1, "ethernet", f"{HEADER}{VLAN}88a80064910000650800{OTHER}"),
    (1, "ethernet", f"{HEADER}0044aaaa0300000086dd{PACKET}"), (1, "ethernet", f"{HEADER}88470001404000018140{OTHER}"),
    (1, "ethernet", f"{HEADER}88641100000100420057{PACKET}"), (113, "cooked", f"{COOKED}86dd{PACKET}"),
    (113, "cooked", f"{COOKED}{VLAN}86dd{PACKET}"), (276, "cooked2", f"86dd000000000002000100060001020304050000{PACKET}"),
    (0, "loopback", f"0a000000{PACKET}"), (108, "loopback", f"0000001e{PACKET}"), (9, "ppp", f"ff030057{PACKET}"),
    (9, "ppp", f"21{OTHER}"), (101, "packet", PACKET), (12, "packet", OTHER), (229, "packet", PACKET),
    (105, "frame", f"{DATA}aaaa0300000086dd{PACKET}"), (127, "frame", f"0000080000000000{DATA}aaaa0300000086dd{PACKET}"),
    (104, "frame", f"0f000800{OTHER}"), (51, "frame", f"1100000100420057{PACKET}"), (107, "frame", f"1841038e{PACKET}"),
]
# Frames without an IP packet: the link type, the frame, the length of its headers, and what the page says.
OTHERS = [
    (1, f"{HEADER}0806{ARP}", 14, "A frame of 42 bytes: Ethernet, EtherType 0x0806 (ARP), not IP."),
    (1, f"{HEADER}{VLAN}0806{ARP}", 18, "A frame of 46 bytes: Ethernet, EtherType 0x0806 (ARP), not IP."),
    (1, f"{HEADER}0026424203" + "00" * 35, 14, "A frame of 52 bytes: Ethernet, LLC 0x42, not IP."),
    (113, f"{COOKED}0806{ARP}", 16, "A frame of 44 bytes: Linux cooked, EtherType 0x0806 (ARP), not IP."),
    (113, f"{COOKED}{VLAN}0806{ARP}", 20, "A frame of 48 bytes: Linux cooked, EtherType 0x0806 (ARP), not IP."),
    (276, f"0806000000000002000100060001020304050000{ARP}", 20,
     "A frame of 48 bytes: Linux cooked, EtherType 0x0806 (ARP), not IP."),
    (0, "07000000" + "00" * 20, 4, "A frame of 24 bytes: loopback, family 7, not IP."),
    (9, "c0210101000a", 2, "A frame of 6 bytes: PPP, PPP 0xc021, not IP."),
    (105, f"{DATA}aaaa030000000806{ARP}", 32, "A frame of 60 bytes: 802.11, EtherType 0x0806 (ARP), not IP."),
    (107, "18410381" + "00" * 20, 4, "A frame of 24 bytes: Frame Relay, NLPID 0x81, not IP."),
]


def capture(order, magic, link, frames):
    """Returns a pcap file of frames, each with its original length if that differs."""
    head = struct.pack(f"{order}IHHiIII", magic, 2, 4, 0, 0, 65535, link)
    pairs = [it if isinstance(it, tuple) else (it, len(it)) for it in frames]
    return head + b"".join(struct.pack(f"{order}IIII", 5, 250, len(it), wire) + it for it, wire in pairs)


def block(order, kind, body):
    """Returns a block of a pcapng file."""
    padded = body + bytes(-len(body) % 4)
    return struct.pack(f"{order}II", kind, len(padded) + 12) + padded + struct.pack(f"{order}I", len(padded) + 12)


def section(order):
    return block(order, 0x0a0d0d0a, struct.pack(f"{order}IHHq", 0x1a2b3c4d, 1, 0, -1))


def interface(order, link, options=b"", snap=0):
    return block(order, 1, struct.pack(f"{order}HHI", link, 0, snap) + options)


def option(order, code, value):
    return struct.pack(f"{order}HH", code, len(value)) + value + bytes(-len(value) % 4)


def packet_block(order, index, units, frame, wire=None):
    return block(order, 6, struct.pack(f"{order}IIIII", index, units >> 32, units & 0xffffffff, len(frame), wire or len(frame)) + frame)


def obsolete_block(order, index, units, frame):
    return block(order, 2, struct.pack(f"{order}HHIIII", index, 7, units >> 32, units & 0xffffffff, len(frame), len(frame)) + frame)


def simple_block(order, frame, wire):
    return block(order, 3, struct.pack(f"{order}I", wire) + frame)


def pcapng(order):
    """Returns a pcapng file with interfaces of three link types, one of which isn't supported, and packets of each kind.

    Times are 5.00025 seconds, in microseconds, nanoseconds after an offset of 3 seconds, and units of 1/1024 seconds.
    """
    packet, frame = bytes.fromhex(PACKET), bytes.fromhex(f"{HEADER}86dd{PACKET}")
    nanoseconds = option(order, 9, b"\x09") + option(order, 14, struct.pack(f"{order}q", 3)) + struct.pack(f"{order}HH", 0, 0)
    binary = option(order, 2, b"eth0") + option(order, 9, b"\x8a")
    return (section(order) + interface(order, 1) + interface(order, 101, nanoseconds) + interface(order, 147, binary)
            + block(order, 5, bytes(20)) + packet_block(order, 0, 5000250, frame) + packet_block(order, 1, 2000250000, packet)
            + packet_block(order, 2, 5120, b"\x80\x00") + obsolete_block(order, 0, 5000250, frame) + simple_block(order, frame, len(frame))
            + section(order) + interface(order, 101, b"", 46) + simple_block(order, packet[:46], len(packet)))


# What the page lists of that file.
IN_PCAPNG = [
    "packet 1: 1970-01-01T00:00:05.000250000Z, 2001:db8::1 > 2001:db8::2, 74 bytes, IP at 14: IPv6 60,44 -> 17",
    "packet 2: 1970-01-01T00:00:05.000250000Z, 2001:db8::1 > 2001:db8::2, 60 bytes, IP at 0: IPv6 60,44 -> 17",
    "packet 3: 1970-01-01T00:00:05.000000000Z, 2 bytes, link type 147 isn't supported",
    "packet 4: 1970-01-01T00:00:05.000250000Z, 2001:db8::1 > 2001:db8::2, 74 bytes, IP at 14: IPv6 60,44 -> 17",
    "packet 5: no time, 2001:db8::1 > 2001:db8::2, 74 bytes, IP at 14: IPv6 60,44 -> 17",
    "packet 6: no time, 2001:db8::1 > 2001:db8::2, 46 of 60 bytes, IP at 0: IPv6 -> 60 truncated",
]

# Files that are damaged, with words of the message.
DAMAGED = [
    (capture("<", 0xa1b2c3d4, 1, [bytes(20)])[:-1], "The file ends within the record at offset 24: 35 of 36 bytes are there."),
    (capture("<", 0xa1b2c3d4, 1, []) + struct.pack("<IIII", 5, 0, 1 << 29, 1 << 29),
     "The record at offset 24 states 536870912 bytes, more than 268435456."),
    (bytes(24), "Unknown file format"), (bytes(3), "too short to be a capture"),
    (capture("<", 0xa1b2c3d4, 1, []), "The capture has no packets."), (section("<") + interface("<", 1), "The capture has no packets."),
    (section("<") + struct.pack("<II", 5, 12), "The file ends within the block at offset 28: 8 of 12 bytes are there."),
    (section("<")[:8] + bytes(20), "The block at offset 0 has no byte-order magic."),
    (section("<") + struct.pack("<III", 5, 13, 13), "The block at offset 28 states 13 bytes, which is too few or no multiple of 4."),
    (section("<") + packet_block("<", 0, 0, b""), "The block at offset 28 has a packet of interface 0, which isn't described."),
    (section("<") + interface("<", 1) + block("<", 6, struct.pack("<IIIII", 0, 0, 0, 9, 9) + bytes(8)),
     "The block at offset 48 states 9 captured bytes, 8 are left."),
    (section("<") + interface("<", 1, struct.pack("<HH", 2, 9)), "The block at offset 28 has an option of 9 bytes, 0 are left."),
]
