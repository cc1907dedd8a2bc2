"""Compares fragment headers with scapy's. OURS is the program `diff`, TOOL the tool.

    fields.py OURS TOOL SEED COUNT

Scapy builds COUNT headers from random fields, and parses as many made of random bytes. What we read from them must be
the same, and what we write must be what scapy builds from the same fields with the reserved bits cleared.
"""
import random
import subprocess
import sys
from collections import namedtuple

from scapy.layers.inet6 import IPv6, IPv6ExtHdrFragment
from scapy.packet import Raw

EXTENSIONS = (0, 43, 44, 51, 60)
OTHERS = [number for number in range(256) if number not in EXTENSIONS]

Fields = namedtuple("Fields", "next_header res1 offset res2 more identification")
Asked = namedtuple("Asked", "fields packet header payload_len")


def few_or_all(draw, width):
    """Returns a number of `width` bits: random, with one bit set, 0, or with all bits set."""
    return draw.choice([draw.getrandbits(width), 1 << draw.randrange(width), 0, (1 << width) - 1])


def drawn_fields(draw):
    return Fields(draw.choice(OTHERS), few_or_all(draw, 8), few_or_all(draw, 13), draw.getrandbits(2),
                  draw.getrandbits(1), few_or_all(draw, 32))


def layer_of(fields):
    return IPv6ExtHdrFragment(nh=fields.next_header, res1=fields.res1, offset=fields.offset, res2=fields.res2,
                              m=fields.more, id=fields.identification)


def fields_of(header):
    layer = IPv6ExtHdrFragment(header)
    return Fields(layer.nh, layer.res1, layer.offset, layer.res2, layer.m, layer.id)


def packet_of(draw, layer, payload):
    addresses = [":".join("%x" % draw.getrandbits(16) for _ in range(8)) for _ in range(2)]
    return bytes(IPv6(src=addresses[0], dst=addresses[1]) / layer / Raw(payload))


def built(draw):
    """Returns a header that scapy builds from random fields."""
    fields, payload = drawn_fields(draw), draw.randbytes(draw.randrange(1, 20))
    packet = packet_of(draw, layer_of(fields), payload)
    return Asked(fields, packet, packet[40:48], len(payload))


def taken_apart(draw):
    """Returns a header of random bytes, which scapy parses."""
    header = bytes([draw.choice(OTHERS)]) + draw.randbytes(7)
    payload = draw.randbytes(draw.randrange(1, 20))
    packet = packet_of(draw, Raw(header + payload), b"")
    packet = packet[:6] + bytes([44]) + packet[7:]
    return Asked(fields_of(header), packet, header, len(payload))


def written_of(fields):
    return bytes(layer_of(fields._replace(res1=0, res2=0)))[:8].hex()


def expected_fields(asked):
    """Returns the expected line of `diff fields`."""
    fields = asked.fields
    fragment = int(fields.offset > 0 or fields.more == 1)
    return [f"next {fields.next_header} offset {fields.offset} more {fields.more} fragment {fragment} "
            f"identification {fields.identification} written {written_of(fields)}"]


def expected_packet(asked):
    """Returns the expected answer of the tool to `packet`."""
    fields = asked.fields
    fragmented = "yes" if fields.offset > 0 or fields.more == 1 else "no"
    return [f"ipv6 header 40 exts 8 payload {asked.payload_len}",
            f"next {fields.next_header} fragmented {fragmented} source Ipv6HeaderPayloadLen", "ok"]


def expected_rewritten(asked):
    """Returns the expected answer of the tool to `rewrite6`."""
    return [f"next {asked.fields.next_header} rest {asked.payload_len}", f"written {written_of(asked.fields)}", "ok"]


def hold(command, line_of, expected_of, all_asked):
    """Runs a command on all lines. Ends the program at the first answer that isn't the expected one."""
    lines = [line_of(asked) for asked in all_asked]
    ran = subprocess.run(command, input="".join(line + "\n" for line in lines), text=True, capture_output=True)
    if ran.returncode != 0:
        sys.exit(f"{' '.join(command)} ended with status {ran.returncode}:\n{ran.stderr}")
    told = iter(ran.stdout.splitlines())
    for asked, line in zip(all_asked, lines):
        expected = expected_of(asked)
        ours = [next(told, "no line") for _ in expected]
        if ours != expected:
            sys.exit("a difference\n" + "\n".join([line, "scapy:", *expected, "ours:", *ours]))
    if list(told):
        sys.exit(f"{' '.join(command)} printed more lines than expected")


def main():
    ours, tool, seed, count = sys.argv[1], sys.argv[2], int(sys.argv[3]), int(sys.argv[4])
    draw = random.Random(seed)
    all_asked = [built(draw) for _ in range(count)] + [taken_apart(draw) for _ in range(count)]
    hold([ours, "fields"], lambda asked: asked.header.hex(), expected_fields, all_asked)
    hold([tool], lambda asked: f"packet {asked.packet.hex()}", expected_packet, all_asked)
    hold([tool], lambda asked: f"rewrite6 44 {asked.packet[40:].hex()}", expected_rewritten, all_asked)
    print(f"{count} fragment headers built by scapy and {count} parsed by it, from seed {seed}: "
          "what is read, written and reported about their packets is the same")


main()
