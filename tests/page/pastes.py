"""Pasted texts, with the packets that they mean or the words that refuse them."""

import base64
import struct

# An IPv6 packet with destination options, a fragment header of a whole packet, and four bytes of UDP.
PACKET = "6000000000143c4020010db800000000000000000000000120010db80000000000000000000000022c000104000000001100000000000007deadbeef"
# An IPv4 packet of 32 bytes.
OTHER = "450000200001000040110000c0000201c0000202" "003500350008000001020304"
# An Ethernet header without its EtherType.
HEADER = "00010203040500060708090a"
# A packet of 120 bytes, whose payload has the characters that Python escapes, and printable ones.
PRINTABLE = bytes.fromhex("60000000005011400a0a") + bytes(30) + bytes(range(0x20, 0x5f)) + b"\\\\'\"\n\r\t\x00\x7f\xff: abc12"
# 64 bytes, of which three rows are equal.
ROWS = bytes.fromhex("60000000001810400000000000000000") + bytes(32) + bytes.fromhex("0123456789abcdef") * 2


def dumped(packet, offset, separator, text, wide=16):
    """Returns a dump with offsets."""
    rows = []
    for at in range(0, len(packet), wide):
        part = packet[at:at + wide]
        hexes = separator(part)
        shown = "".join(chr(it) if 32 < it < 127 else "." for it in part)
        rows.append(f"{offset(at)}{hexes}{text(hexes, shown)}")
    return "\n".join(rows) + "\n"


def pairs(part):
    return " ".join(f"{it:02x}" for it in part)


def quads(part):
    digits = part.hex()
    return " ".join(digits[i:i + 4] for i in range(0, len(digits), 4))


def words(part):
    """Returns words of two bytes as a little-endian machine reads them. Of a last one with one byte, the other is 0."""
    return " ".join(f"{it:04x}" for it in struct.unpack(f"<{(len(part) + 1) // 2}H", part + bytes(len(part) % 2)))


def octals(part):
    return " ".join(f"{it:03o}" for it in part)


def padded(wide):
    """Returns a function for the column of text, after the digits and so many spaces."""
    return lambda hexes, shown: " " * (wide - len(hexes)) + shown


def bare(*_):
    return ""


def xxd(packet, wide=16):
    return dumped(packet, lambda at: f"{at:08x}: ", quads, padded(wide * 5 // 2 + 1), wide)


HEADING = "12:00:00.000000 IP6 2001:db8::1 > 2001:db8::2: dstopt\n"


def tcpdump(packet, column=bare):
    return HEADING + dumped(packet, lambda at: f"\t0x{at:04x}:  ", quads, column)


def hexdump(packet):
    """Returns what `hexdump -C` writes, without rows for which it writes an asterisk."""
    return dumped(packet, lambda at: f"{at:08x}  ", lambda part: f"{pairs(part[:8])}  {pairs(part[8:])}".rstrip(),
                  lambda hexes, shown: " " * (50 - len(hexes)) + f"|{shown}|") + f"{len(packet):08x}\n"


def plain(packet, offset, separator):
    """Returns what hexdump and od write: offsets in this format, and the length in the last line."""
    return dumped(packet, lambda at: format(at, offset) + " ", separator, bare) + format(len(packet), offset) + "\n"


def digit_spellings(packet):
    digits = packet.hex()
    return {
        "digits": digits, "upper case": digits.upper(), "spaces": pairs(packet), "colons": ":".join(f"{it:02x}" for it in packet),
        "0x in front": f"0x{digits}", "words": " ".join(f"0x{digits[i:i + 8]}" for i in range(0, len(digits), 8)),
        "xxd -p": "\n".join(digits[i:i + 60] for i in range(0, len(digits), 60)), "unpadded 0x": ", ".join(hex(it) for it in packet),
        "decimal numbers": " ".join(str(it) for it in packet), "binary numbers": ", ".join(f"0b{it:08b}" for it in packet),
    }


def dump_spellings(packet):
    return {
        "tcpdump -x": tcpdump(packet), "tcpdump -X": tcpdump(packet, padded(41)),
        "xxd": xxd(packet), "xxd -c 32": xxd(packet, 32), "xxd -c 8": xxd(packet, 8),
        "xxd -g1 -c 8": dumped(packet, lambda at: f"{at:08x}: ", pairs, padded(25), 8),
        "Wireshark's hex dump": dumped(packet, lambda at: f"{at:04x}   ", pairs, bare),
        "Wireshark's offset, hex and text": dumped(packet, lambda at: f"{at:04x}   ", pairs, padded(50)),
        "hexdump -C": hexdump(packet), "hexdump": plain(packet, "07x", words),
        "hexdump -x": plain(packet, "07x", lambda part: "   " + words(part).replace(" ", "    ")), "hexdump -b": plain(packet, "07x", octals),
        "od -t x1": plain(packet, "07o", pairs), "od -A d -t x1": plain(packet, "07", pairs), "od -A x -t x1": plain(packet, "06x", pairs),
        "od -x": plain(packet, "07o", words), "od -b": plain(packet, "07o", octals),
    }


def code_spellings(packet):
    escaped = "".join(f"\\x{it:02x}" for it in packet)
    array = ", ".join(f"0x{it:02x}" for it in packet)
    return {
        "escaped string": f'"{escaped[:64]}" \\\n"{escaped[64:]}"', "escapes without quotes": escaped,
        "escapes with spaces": escaped.replace("\\", " \\"), "octal escapes": 'printf "' + "".join(f"\\{it:03o}" for it in packet) + '"',
        "Python's repr": repr(packet), "Python's bytearray": repr(bytearray(packet)),
        "Python's fromhex": f'packet = bytes.fromhex("{packet.hex()}")',
        "C array": f"/* Frame (60 bytes) */\nstatic const unsigned char pkt60[60] = {{\n{array} /* end */\n}};\n",
        "C array without its end": f"unsigned char packet[] = {{ {array}", "Rust array": f"let packet: [u8; 60] = [{array}];",
        "decimal list": str(list(packet)), "binary list": str([bin(it) for it in packet]).replace("'", ""), "signed bytes": str([it - 256 if it > 127 else it for it in packet]),
    }


def base64_spellings(packet):
    digits = base64.b64encode(packet).decode()
    return {"base64": digits, "base64 in lines": base64.encodebytes(packet).decode(),
            "base64 for URLs": base64.urlsafe_b64encode(packet).decode(), "base64 in quotes": f'"{digits}"'}


def spellings(packet):
    """Returns the bytes of a packet in each supported format, by the name of the format."""
    return {**digit_spellings(packet), **dump_spellings(packet), **code_spellings(packet), **base64_spellings(packet)}


# Texts with the packets that they mean, and words of what the page says of the format.
READ = [
    ("a colon is a byte of an escaped string", r'":\x00\x05\x02\x00\x00\x01\x00"', ["3a00050200000100"], "an escaped string: 8 bytes"),
    ("what the kernel prints of a packet", dumped(bytes.fromhex(PACKET), lambda at: f"skb raw: {at:08x}: ", pairs, bare), [PACKET],
     "60 bytes. Left out: what precedes the offsets"),
    ("two packets that the kernel prints", dumped(bytes.fromhex(PACKET) * 2, lambda at: f"[    1.5] skb linear:   {at % 60:08x}: ", pairs,
                                                  padded(48), 15), [PACKET] * 2, "120 bytes in 2 packets. Left out: what precedes the offsets"),
    ("a colon without quotes", r":\x00\x05\x02\x00\x00\x01\x00", ["3a00050200000100"], "an escaped string without quotes: 8 bytes"),
    ("a space is a byte unless all escapes are apart", r"\x60\x00 \x01", ["60002001"], "4 bytes"),
    ("Python's repr of 120 bytes", repr(PRINTABLE), [PRINTABLE.hex()], "an escaped string: 120 bytes"),
    ("Python's repr with the other quotes", repr(PRINTABLE.replace(b'"', b"'")), [PRINTABLE.replace(b'"', b"'").hex()], "120 bytes"),
    ("bytes without an escape", "b'E'", ["45"], "an escaped string: 1 byte"),
    ("digits in a string of bytes, as hexlify returns them", "b'600000000000003b'", ["600000000000003b"], "hexadecimal digits in quotes: 8 bytes"),
    ("escapes of C", r'"\0\1\a\b\f\v\e\?\"\\"', ["0001" "07080c0b1b3f225c"], "10 bytes"),
    ("hexdump -C with repeated rows", hexdump(ROWS).replace(f"\n00000020  {'00 ' * 8} {'00 ' * 8} |{'.' * 16}|", "\n*"), [ROWS.hex()],
     "64 bytes. Left out: the column of text"),
    ("od with repeated rows", "0000000" + " 60" * 16 + "\n*\n0000060 01\n0000061\n", ["60" * 48 + "01"], "49 bytes"),
    ("od with decimal offsets and repeated rows", "0000000" + " 60" * 16 + "\n*\n0000080\n", ["60" * 80], "80 bytes"),
    ("xxd -e with a last word of three bytes", "00000000:   614260                             `Ba\n", ["604261"],
     "which are swapped: 3 bytes"),
    ("hexdump with a last odd byte", "0000000 0060 0000 0014\n0000005\n", ["6000000014"], "words of two bytes, which are swapped: 5 bytes"),
    ("xxd -e, by its text", "00000000: 62610060 00004241  `.abAB..\n", ["6000616241420000"], "groups of four bytes, which are swapped: 8 bytes"),
    ("xxd -g 4, by its text", "00000000: 60006162 41420000  `.abAB..\n", ["6000616241420000"], "groups of four bytes: 8 bytes"),
    ("a dump from another offset", "0010  60 00\n0012  01\n", ["600001"], "a dump with offsets: 3 bytes"),
    ("words that begin with 0", "0000 5e00 0101 0011 2233 4455 86dd 6000", ["00005e00010100112233445586dd6000"], "hexadecimal digits: 16 bytes"),
    ("a list of digits in quotes", "['60', '00', '0a']", ["60000a"], "3 bytes"),
    ("two dumps of tcpdump", tcpdump(bytes.fromhex(PACKET)) + tcpdump(bytes.fromhex(OTHER)), [PACKET, OTHER],
     "92 bytes in 2 packets. Left out: 2 lines of headings"),
    ("two C arrays", "char one[] = {0x60, 0x01, 0x02};\nchar two[2] = {0x45, 0x00};", ["600102", "4500"],
     "5 bytes in 2 packets. Left out: the program text around it"),
    ("two strings of Python", repr(bytes.fromhex(PACKET)) + "\n" + repr(bytes.fromhex(OTHER)), [PACKET, OTHER], "in 2 packets"),
    ("two strings of C are one", '"\\x60\\x00"\n"\\x00"', ["600000"], "3 bytes."),
    ("two packets with a blank line between", f"{PACKET}\n\n{OTHER}", [PACKET, OTHER], "in 2 packets"),
    ("a packet with a blank line in it", f"{PACKET[:40]}\n\n{PACKET[40:]}", [PACKET], "60 bytes."),
    ("a packet per line", f"{PACKET}\n{OTHER}\n{PACKET}\n", [PACKET, OTHER, PACKET], "in 3 packets"),
    ("a frame per line, of which one is padded", f"{HEADER}86dd{PACKET}\n{HEADER}0800{OTHER}{'00' * 14}",
     [f"{HEADER}86dd{PACKET}", f"{HEADER}0800{OTHER}{'00' * 14}"], "in 2 packets"),
    ("base64 per line", "\n".join(base64.b64encode(bytes.fromhex(it)).decode() for it in (OTHER, PACKET)), [OTHER, PACKET],
     "base64: 92 bytes in 2 packets"),
]

SEVERAL = "these numbers may be decimal, octal or hexadecimal"
NOT_BYTES = "these numbers aren't hexadecimal bytes: use hexdump -C"
# Texts that aren't read, or only in part: the bytes, the words that say why, and the ranges that are marked.
REFUSED = [
    ("octal words of od", "0000000 000140 000000 000024\n0000006\n", "", NOT_BYTES, None),
    ("decimal bytes of od", "0000000  96   0   0   0   0  20\n0000006\n", "", NOT_BYTES, None),
    ("decimal words of hexdump", "0000000   00096   00000   05120\n0000006\n", "", NOT_BYTES, None),
    ("xxd -e without its text", "00000000: 62610060 00004241\n", "", "groups of four bytes may be swapped", None),
    ("words with offsets that may be octal", "0000000" + " 0060" * 8 + "\n*\n0000040\n", "", "offsets may be octal or hexadecimal", None),
    ("base32", "GAYTEMZUGU3DOOBZMFRGGZDF", "", "most of this isn't hexadecimal digits", None),
    ("numbers below 100", "96 0 0 0 0 20 60 64", "", SEVERAL, None),
    ("octal numbers", "0140, 0, 0, 0, 0, 024", "", SEVERAL, None),
    ("octal numbers in an array", "{0140, 0, 0, 024}", "", SEVERAL, None),
    ("numbers of three digits", "140 000 000 000", "", SEVERAL, None),
    ("an array of two digits each", "{60, 10, 20, 14}", "", SEVERAL, None),
    ("an octal number in an array", "{0x60, 0, 010, 20}", "600014", "not a byte", ["010"]),
    ("a number above 255", "[96, 0, 256]", "", SEVERAL, None),
    ("a letter in digits", "60 00 0g 00 001", "600000", "line 1: an odd number of digits (and 2 more)", ["0", "g", "001"]),
    ("an odd digit at the end", f"{PACKET}6", PACKET, "an odd number of digits", ["6"]),
    ("a letter in a dump", "0x0000:  4500 00x4 0000  E...", "450000", "not a hexadecimal digit", ["x4 0000  E..."]),
    ("a letter in a long run is no base64", f"{PACKET[:20]}g{PACKET[21:]}", PACKET[:20] + PACKET[21:-1], "not a hexadecimal digit", ["g", "f"]),
    ("an unknown escape", r'"\x60\u0060\x00"', "603030363000", "an unknown escape", ["\\u"]),
    ("a letter that isn't ASCII", 'b"\\x60é"', "60", "not an ASCII character", ["é"]),
    ("an octal escape above 255", r'"\x60\777"', "60", "an octal number above 377", ["\\777"]),
    ("digits outside the quotes", r'6000 "\x60"', "60", "outside the quotes", ["6000"]),
    ("letters outside the quotes that may be digits", r'deadbeef "\x60"', "60", "outside the quotes", ["deadbeef"]),
    ("digits outside the list", "6000 {0x60, 0x00}", "6000", "outside the list", ["6000"]),
    ("an address of a debugger", "0x7fff0000:\t0x60\t0x00", "6000", "an address, not bytes", ["0x7fff0000:"]),
    ("a row that is missing", "00000000  60 00\n00000004  01 02\n", "6000", "offset 00000004, where 00000002 was expected", ["00000004  01 02"]),
    ("a dump that ends too late", "00000000  60 00\n00000003\n", "6000", "the bytes end at offset 2", ["00000003"]),
    ("a line without an offset", "00000000  60 00\n60 00\n", "6000", "no offset", ["60 00"]),
    ("repeated rows without an end", "00000000  60 00\n*\n", "6000", "no offset after the repeated rows", ["*"]),
    ("repeated rows that don't fit", "00000000  60 00\n*\n00000005\n", "6000", "no whole rows up to offset 00000005", ["*", "00000005"]),
    ("more than the text of a row", "0000  60 00  `. and more text\n", "6000", "more than the text of the row", ["`. and more text"]),
    ("words of prose", "hello", "", "most of this isn't hexadecimal digits", ["hello"]),
    ("words of prose with digits", "This is a packet of one.", "", "most of this isn't hexadecimal digits", None),
    ("a comment that doesn't end", "6000 /* 00", "600000", "not a hexadecimal digit", ["/*"]),
]
# What begins and doesn't end, of which long texts are made.
UNENDED = ["/* ", "/*\n", '" /* ', '"\\', "'\\\"a ", "# /* ", '{0x60} /* ', '"\\x60" /* ', "[1,2]"]
