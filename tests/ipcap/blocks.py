"""Builds pcapng files block by block, as draft-ietf-opsawg-pcapng defines them."""

import struct

from captures import ETHERNET

END = struct.pack("<HH", 0, 0)


def block(kind, body, order="<"):
    body += bytes(-len(body) % 4)
    length = struct.pack(order + "I", 12 + len(body))
    return struct.pack(order + "I", kind) + length + body + length


def option(code, value, order="<"):
    return struct.pack(order + "HH", code, len(value)) + value + bytes(-len(value) % 4)


def section(order="<", version=(1, 0), length=-1, options=b""):
    return block(0x0A0D0D0A, struct.pack(order + "IHHq", 0x1A2B3C4D, *version, length) + options, order)


def interface(link_layer=ETHERNET, snap_len=0, options=b"", order="<"):
    return block(1, struct.pack(order + "HHI", link_layer, 0, snap_len) + options, order)


def packet(frame, number=0, units=1000000005, kept=None, options=b"", order="<"):
    """An enhanced packet block."""
    kept = len(frame) if kept is None else kept
    fields = struct.pack(order + "IIIII", number, units >> 32, units & 0xFFFFFFFF, kept, len(frame))
    return block(6, fields + frame[:kept] + bytes(-kept % 4) + options, order)


def simple(frame, kept=None, order="<"):
    return block(3, struct.pack(order + "I", len(frame)) + frame[:kept], order)


def obsolete(frame, number=0, units=1000000005, order="<"):
    fields = struct.pack(order + "HHIIII", number, 7, units >> 32, units & 0xFFFFFFFF, len(frame), len(frame))
    return block(2, fields + frame, order)
