"""Packets, with what the page has to show of them."""

from files import IPV6
from pastes import HEADER, PACKET

# The middle of a payload: what follows the fragment header isn't the destination options that 60 names.
LATER_FRAGMENT = f"6000000000102c40{IPV6}3c0005c900000007deadbeef00000000"
# Packets with the answers to the program's form `dissect`, worked out by hand from RFC 8200, RFC 4302 and RFC 791.
DISSECTIONS = [
    (LATER_FRAGMENT, ["ipv6 base 40 stated 56", "40 frag 8", "fragment middle id 7 offset 1480", "next 60 rest 8",
                      "missing 0 padding 0", "later fragment"]),
    (f"6000000000083c40{IPV6}1101000000000000", ["ipv6 base 40 stated 48", "fragment none", "next 60 rest 8", "missing 0 padding 0",
                                                 "fault len 16 of 8 Ipv6HeaderPayloadLen Ipv6ExtHeader at 40 in Ipv6DestOptionsHeader"]),
    (f"6000000000103c40{IPV6}1101000000000000", ["ipv6 base 40 stated 56", "fragment none", "next 60 rest 8", "missing 8 padding 0",
                                                 "truncated len 16 of 8 Slice Ipv6ExtHeader at 40 in Ipv6DestOptionsHeader"]),
    (f"6000000000002c40{IPV6}3c00000100000009110001040000000001020304",
     ["ipv6 base 40 stated none", "40 frag 8", "48 dstopts 8", "fragment first id 9 offset 0", "next 17 rest 4", "missing 0 padding 0",
      "payload"]),
    (f"6000000000103c40{IPV6}00000104000000001100010400000000",
     ["ipv6 base 40 stated 56", "40 dstopts 8", "fragment none", "next 0 rest 8", "missing 0 padding 0",
      "fault HopByHopNotAtStart in Ipv6HopByHopHeader"]),
    (f"60000000000c3340{IPV6}110000000000000000000000", ["ipv6 base 40 stated 52", "fragment none", "next 51 rest 12",
                                                         "missing 0 padding 0", "fault ZeroPayloadLen in IpAuthHeader"]),
    ("4500002200004000403300000a0000010a000002" "110100000000000100000002090909",
     ["ipv4 base 20 stated 34", "20 auth 12", "fragment none", "next 17 rest 2", "missing 0 padding 1", "payload"]),
    ("4500000000013fff401100000a0000010a00000200000000", ["ipv4 base 20 stated none", "fragment middle id 1 offset 65528", "next 17 rest 4",
                                                          "missing 0 padding 0", "later fragment"]),
    ("4500001300000000401100000a0000010a00000200000000", ["ipv4 base 20 stated 19", "fragment none", "next 17 rest 0", "missing 0 padding 4",
                                                          "fault len 20 of 19 Ipv4HeaderTotalLen Ipv4Packet at 0"]),
    ("4500002000000000403300000a0000010a00000211010000", ["ipv4 base 20 stated 32", "fragment none", "next 51 rest 4", "missing 8 padding 0",
                                                          "truncated len 12 of 4 Slice IpAuthHeader at 20"]),
    ("", ["truncated len 1 of 0 Slice IpHeader at 0"]),
    ("60" * 39, ["truncated len 40 of 39 Slice Ipv6Header at 0"]),
    ("46" * 23, ["truncated len 24 of 23 Slice Ipv4Header at 0"]),
    ("44" * 20, ["fault Ipv4HeaderLengthSmallerThanHeader 4"]),
    ("50", ["fault UnsupportedIpVersion 5"]),
]

# Packets and a chain whose fields were worked out by hand from RFC 8200, RFC 4302 and RFC 791: the kind, the bytes, and
# the fields of each header.
FIELDS = [
    ("packet", "62e1234500202b40" "20010db8000000000000000000000001" "20010db8000000000000000000000002"
     "33000401aabbccdd" "2c0200000000010000000005cafebabe" "1100123d01020304", [
         "Version 6, Traffic Class 0x2e, Flow Label 0x12345, Payload Length 32, Next Header 43 routing, Hop Limit 64, "
         "Source Address 2001:db8::1, Destination Address 2001:db8::2",
         "Next Header 51 authentication, Hdr Ext Len 0, Routing Type 4, Segments Left 1, Type-specific data aabbccdd",
         "Next Header 44 fragment, Payload Len 2, Reserved 0, Security Parameters Index 0x00000100, Sequence Number 5, "
         "Integrity Check Value cafebabe",
         "Next Header 17 UDP, Reserved 0, Fragment Offset 583, Res 2, M 1, Identification 0x01020304"]),
    ("packet", "46100018abcd40003f11beef0a0000010a00000201010101", [
        "Version 4, IHL 6, Type of Service 0x10, Total Length 24, Identification 0xabcd, Flags 2, Fragment Offset 0, "
        "Time to Live 63, Protocol 17 UDP, Header Checksum 0xbeef, Source Address 10.0.0.1, Destination Address 10.0.0.2, "
        "Options 01010101"]),
    ("chain6", "1100010400000000", ["Next Header 17 UDP, Hdr Ext Len 0, Options 010400000000"]),
]

LONG = "600000000000004020010db8" + "00" * 28 + "3c00010400000000" + "3c00010400000000" * 8184
FRAME = f"{HEADER}86dd{PACKET}"
FAULTY = f"6000000000183c40{IPV6}2b0001040000000033020000000000001100000000000000"
TRUNCATED = f"6000000000203c40{IPV6}2c000104000000001100"
FIRST_FRAGMENT = f"6000000000182c40{IPV6}110000010000000700350035000800000102030405060708"
MISSING = f"6000000000401140{IPV6}0035003500380000"
VERSION_5 = "5000000000000000000000000000000000000000"
# Packets with an error or a truncated header: its name in the table, and its sentence.
SENTENCES = [
    (FAULTY, "too-short routing",
     "not enough bytes for the routing header at offset 48: 24 needed, 16 there by the payload length"),
    (TRUNCATED, "fragment", "truncated: not enough bytes for the fragment header at offset 48: 8 needed, 2 there"),
    (f"6000000000103c40{IPV6}00000104000000001100010400000000", "not-at-start hop-by-hop",
     "the hop-by-hop options header at offset 48 doesn't follow the IPv6 header directly"),
    (f"60000000000c3340{IPV6}110000000000000000000000", "zero-length authentication",
     "the length field of the authentication header at offset 40 is 0"),
    (VERSION_5, "unsupported-version IP-header", "the IP version is 5, where 4 or 6 is required"),
    ("44" * 20, "header-length IPv4-header",
     "the internet header length of the IPv4 header is 4, where at least 5 is required"),
    ("4500001300000000401100000a0000010a00000200000000", "too-short IPv4-packet",
     "not enough bytes for the IPv4 packet at offset 0: 20 needed, 19 there by the total length"),
]
# An IP packet that states more bytes, with a source address in which an EtherType and the version of IPv4 seem to be.
LIKE_FRAME = "450000140000000040110000080045000a000002"
# An atomic fragment header, and then one with more fragments.
TWO_FRAGMENTS = f"6000000000182c40{IPV6}2c000000000000091100000" "10000000a0000000000000000"
RED = "rgb(196, 38, 46)"
