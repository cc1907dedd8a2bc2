"""Filters packets."""

from __future__ import annotations

import itertools
from collections.abc import Callable, Sequence
from typing import Any, Literal, NamedTuple

from ._bpf import BpfProgram, compile_filter
from ._captures import Path, Written, write_matching
from ._library import Buffer, ffi, lib, name_of, text_of
from ._many import Packets

_TEST_FIELDS = [name for name, _ in ffi.typeof("struct wolfaren_filter_test").fields]


class FilterError(ValueError):
    """A text that isn't a filter. No call changes it: threads may share it, it is the same after a fork, and it can be
    pickled and copied."""

    def __init__(self, text: str, offset: int, expected: str) -> None:
        super().__init__(text, offset, expected)
        self.text = text
        self.offset = offset
        """Where the first wrong word begins in the text, in characters, or the length of a text that is too short."""
        self.expected = expected
        """What is expected there, in words."""

    def __str__(self) -> str:
        return f"expected {self.expected} at offset {self.offset} of {self.text!r}"


class FilterTerm(NamedTuple):
    """A term of filters. It never changes: threads may share it, it is the same after a fork, and it can be pickled and
    copied."""

    term: str
    """The term with its arguments, such as `header HEADER`."""
    meaning: str
    """What it says."""
    example: str
    """An example, such as `header 44`."""


def filter_terms() -> list[FilterTerm]:
    """Returns the terms of filters, in the order of the documentation of `Filter`."""
    calls = (lib.wolfaren_find_term, lib.wolfaren_find_term_meaning, lib.wolfaren_find_term_example)
    rows = (FilterTerm(*(name_of(call, index) for call in calls)) for index in range(256))
    return list(itertools.takewhile(lambda row: row.term, rows))
def _frame(ether_type: int | None, version: int | None, vlans: Sequence[int]) -> Any:
    """Returns what is known of a frame with an IP packet, for C."""
    frame = ffi.new("struct wolfaren_frame *")
    if ether_type is not None:
        frame.number_kind = lib.WOLFAREN_ETHERTYPE
        frame.number = ether_type
    frame.version = version or 0
    frame.vlan_count = len(vlans)
    frame.first_vlan, frame.second_vlan = (*vlans, 0, 0)[:2]
    return frame


class Filter:
    """A condition on packets, such as `header 44 and not fault`.

    Its text, which may be `bytes`, consists of these terms, which `filter_terms` returns too:

      fragment            the payload is a fragment
      first-fragment      the payload is a first fragment
      later-fragment      the payload is a middle or last fragment
      header HEADER       the chain has this header
      leads-to PROTOCOL   this number follows the chain
      tcp                 TCP (6) follows the chain
      udp                 UDP (17) follows the chain
      dccp                DCCP (33) follows the chain
      gre                 GRE (47) follows the chain
      esp                 ESP (50) follows the chain
      no-next             no header (59) follows the chain
      sctp                SCTP (132) follows the chain
      udp-lite            UDP-Lite (136) follows the chain
      icmp                ICMP (1) follows the chain of an IPv4 packet
      icmp6               ICMPv6 (58) follows that of an IPv6 packet
      headers OP N        the number of headers in the chain
      chain-bytes OP N    the length of the chain in bytes
      payload OP N        the number of payload bytes captured
      length OP N         the length of the packet in bytes
      no-length           the IP header states length 0
      hop-limit OP N      the hop limit, or the time to live of IPv4
      ttl OP N            as hop-limit
      dscp OP N           the differentiated services code point
      ecn OP N            the explicit congestion notification
      flow OP N           the flow label of an IPv6 packet
      fault               the packet has an error
      fault KIND          the packet has an error of this kind
      fault KIND LAYER    the error is in this header or packet
      truncated           a header is truncated
      truncated LAYER     this header is truncated
      incomplete          bytes of the stated length are missing
      mismatched          IPv4 announced as IPv6, or the reverse
      less N              the frame has at most N bytes on the wire
      greater N           the frame has at least N bytes on the wire
      vlan                the frame has a VLAN tag
      vlan N              one of its first two tags has this number
      arp                 the EtherType of the frame is that of ARP
      version N           the IP version, 4 or 6
      ip                  as version 4
      ip6                 as version 6
      spi N               the security parameters index of AH or ESP
      id N                the identification of the fragment
      routing-type N      the type of a routing header
      segments-left OP N  the segments left of a routing header
      option N            a hop-by-hop or destination option
      src NETWORK         the source address is in the network
      dst NETWORK         the destination address is in the network
      net NETWORK         either address is in the network
      host ADDRESS        either address is this one
      ip multicast        the destination is in 224.0.0.0/3
      ip6 multicast       the destination is in ff00::/8
      src port PORTS      the source port is one of these
      dst port PORTS      the destination port is one of these
      port PORTS          either port is one of these
      portrange PORTS     as port
      proto PROTOCOL      as leads-to, or the chain has the header
      no-transport        the upper-layer header is not all there
      icmp-type TYPE      the type of an ICMP message of IPv4
      icmp6-type TYPE     the type of an ICMPv6 message of IPv6
      icmp-code N         the code of an ICMP message of IPv4
      icmp6-code N        the code of an ICMPv6 message of IPv6
      tcp-flags FLAGS     these flags of TCP are set

      HEADER    hop-by-hop (0), routing (43), fragment (44), authentication (51), destination-options (60), in short
                hopopt (0), route (43), frag (44), ah (51), dstopts (60), or one of these numbers
      PROTOCOL  a number from 0 to 255, a HEADER, or icmp (1), tcp (6), udp (17), dccp (33), gre (47), esp (50),
                icmp6 (58), no-next (59), sctp (132), udp-lite (136)
      OP        = == != < <= > >=
      KIND      too-short, not-at-start, zero-length, unsupported-version, header-length
      LAYER     IP-header, IPv4-header, IPv4-packet, authentication, IPv6-header, IPv6-extension, hop-by-hop,
                destination-options, routing, fragment; IPv6-extension is any extension header of an IPv6 packet
      TYPE      a number from 0 to 255, or its name in libpcap's expressions, such as icmp-echo or
                icmp6-neighborsolicit
      N         a decimal number, or a hexadecimal one after 0x
      NETWORK   an IPv4 or IPv6 address, alone or with a slash and a number of bits; after net, also A mask M, or one
                to three numbers: net 192.168 is net 192.168.0.0/16
      ADDRESS   an IPv4 or IPv6 address
      PORTS     a number from 0 to 65535, or a range such as 1024-65535
      FLAGS     fin, syn, rst, psh, ack, urg, ece, cwr, or several with commas between; all that count after a slash

    After `leads-to`, `icmp` and `icmp6` are numbers of either version.

    A `fault` is too-short with IPv4-packet or an extension header, not-at-start with hop-by-hop, zero-length with
    authentication, unsupported-version with IP-header, or header-length with IPv4-header; IPv6-extension may follow
    the first three. IP-header, IPv4-header, IPv6-header and extension headers can be truncated.

    `length` is what is there where none is stated. A jumbo payload option doesn't count for `no-length`.

    TCP, UDP, UDP-Lite, SCTP and DCCP have ports. Ports, types, codes and flags of TCP are read from the payload, so
    extension headers may precede them. A later fragment has none, nor has a packet with an error or a truncated
    header. The terms about fragments hold of an IPv6 packet if they do of one of its fragment headers.

    `no-transport` asks for the header of TCP up to its data offset, of DCCP likewise, of SCTP (12 bytes), of UDP,
    UDP-Lite and ICMP after IPv4 (8 bytes) and of ICMPv6 after IPv6 (4 bytes). It holds of a first fragment that has
    less of it (RFC 7112), and of a packet whose data offset is too small.

    `mismatched`, `less`, `greater`, `vlan` and `arp` ask the frame, of which a match may be told. Of a packet alone,
    `less` and `greater` ask the length as `length` does, and the others are false.

    As in tcpdump's expressions, `host`, `net`, `port` or `portrange` may follow `src` and `dst`, and `ip`, `ip6` or
    the name of a protocol may precede `src`, `dst` and these: `tcp src port 80` is `( tcp and src port 80 )`, of two
    terms. `src or dst` is either one, and `src and dst port 53` is `( src port 53 and dst port 53 )`. An address,
    prefix, port or protocol alone takes the words of the term before it: `tcp port 80 or 443` is `tcp port 80 or tcp
    port 443`.

    An access compares bytes of the packet, as in tcpdump's expressions: `tcp[13] & 2 != 0`, `ip[6:2] & 0x1fff = 0`.
    `NAME[I]`, `NAME[I:2]` and `NAME[I:4]` are the number in 1, 2 or 4 bytes at offset I, in network byte order. NAME
    is `ip` or `ip6`, with offsets from the IP header of this version, or the name of a protocol, with offsets from
    its header, which extension headers may precede. `& BITS` may follow, and then OP and BITS: a number of 32 bits,
    a name, or several in parentheses with `|` between them, as in `tcp[tcpflags] & (tcp-syn|tcp-ack) != 0`. The
    names are tcp-fin, tcp-syn, tcp-rst, tcp-push, tcp-ack, tcp-urg, tcp-ece, tcp-cwr and those of types; icmptype,
    icmpcode, icmp6type, icmp6code and tcpflags are offsets. An access is false, also with `!=`, if not all of its
    bytes are in the packet, or if the protocol's header is in an earlier fragment.

    Terms are joined by `not`, `and` and `or`, or `!`, `&&` and `||`, and by parentheses. `not` binds most tightly,
    then `and`. White space separates words. There may be up to 64 terms and 16 levels of parentheses.

    The names of types are icmp-echoreply, icmp-unreach, icmp-sourcequench, icmp-redirect, icmp-echo,
    icmp-routeradvert, icmp-routersolicit, icmp-timxceed, icmp-paramprob, icmp-tstamp, icmp-tstampreply, icmp-ireq,
    icmp-ireqreply, icmp-maskreq, icmp-maskreply; icmp6-destinationunreach, icmp6-packettoobig, icmp6-timeexceeded,
    icmp6-parameterproblem, icmp6-echo, icmp6-echoreply, icmp6-multicastlistenerquery,
    icmp6-multicastlistenerreportv1, icmp6-multicastlistenerdone, icmp6-routersolicit, icmp6-routeradvert,
    icmp6-neighborsolicit, icmp6-neighboradvert, icmp6-redirect, icmp6-routerrenum, icmp6-nodeinformationquery,
    icmp6-nodeinformationresponse, icmp6-ineighbordiscoverysolicit, icmp6-ineighbordiscoveryadvert,
    icmp6-multicastlistenerreportv2, icmp6-homeagentdiscoveryrequest, icmp6-homeagentdiscoveryreply,
    icmp6-mobileprefixsolicit, icmp6-mobileprefixadvert, icmp6-certpathsolicit, icmp6-certpathadvert,
    icmp6-multicastrouteradvert, icmp6-multicastroutersolicit, icmp6-multicastrouterterm.

    Raises `FilterError`, a `ValueError`, for any other text, and `TypeError` for what isn't a text, such as `None`.

    Filters are equal if their texts compile to the same program, as `not (fault or truncated)` and
    `not fault and not truncated` do.

    A filter never changes: threads may share it, it is the same after a fork, and it can be pickled and copied.
    """

    __slots__ = ("_text", "_filter")

    def __init__(self, text: str | bytes) -> None:
        if not isinstance(text, (str, bytes)):
            raise TypeError(f"a filter is made of a text, not of {type(text).__name__}")
        self._text = text.decode("utf-8", "surrogateescape") if isinstance(text, bytes) else text
        self._filter = ffi.new("struct wolfaren_filter *")
        encoded = self.text.encode("utf-8", "surrogateescape")
        error = ffi.new("struct wolfaren_filter_error *")
        if not lib.wolfaren_parse_filter(encoded, len(encoded), self._filter, error):
            offset = len(encoded[:error.offset].decode("utf-8", "replace"))
            raise FilterError(self.text, offset, text_of(lib.wolfaren_expected_text, error.expected))

    @property
    def text(self) -> str:
        """The text of which the filter was made."""
        return self._text

    def matches(self, packet: Buffer, *, wire_length: int | None = None, ether_type: int | None = None,
                version: int | None = None, vlans: Sequence[int] = ()) -> bool:
        """Returns whether the packet at the start of the bytes, which may be any bytes, meets the condition.

        The keywords say what its frame was, for terms that ask it: its length on the wire in bytes, the EtherType and the IP
        version that it announced, and the identifiers of its VLAN tags, the outer one first. With any of them but without
        `wire_length`, the length is that of the bytes. Raises `OverflowError` for numbers beyond their fields.
        """
        view = ffi.from_buffer("uint8_t[]", packet)
        if wire_length is None and ether_type is None and version is None and not vlans:
            return bool(lib.wolfaren_filter_matches(self._filter, view, len(view)))
        frame = _frame(ether_type, version, vlans)
        length = len(view) if wire_length is None else wire_length
        return bool(lib.wolfaren_filter_matches_frame(self._filter, frame, length, view, len(view)))

    def matches_many(self, buffer: Buffer, offsets: Any, lengths: Any) -> Any:
        """Returns whether each of many packets in a buffer meets the condition, as a numpy array of type `bool`.

        The packets are given, and errors are raised, as by `dissect_many`.
        """
        packets = Packets("Filter.matches_many", buffer, offsets, lengths)
        matches = packets.numpy.empty(packets.count, bool)
        packets.pass_to(lib.wolfaren_filter_packets, self._filter, array=ffi.from_buffer("uint8_t[]", matches))
        return matches

    def matches_other_frame(self, *, wire_length: int | None = None, ether_type: int | None = None,
                            vlans: Sequence[int] = ()) -> bool:
        """Returns whether a frame without an IP packet meets the condition, as it meets `not fault`.

        With `wire_length`, the terms that ask the frame may hold, too: the keywords are those of `matches`. Raises `TypeError`
        for the others without it.
        """
        if wire_length is None:
            if ether_type is not None or vlans:
                raise TypeError("a frame has a length on the wire: give wire_length, too")
            return bool(lib.wolfaren_filter_matches_other(self._filter))
        frame = _frame(ether_type, None, vlans)
        frame.end = lib.WOLFAREN_FRAME_OTHER
        return bool(lib.wolfaren_filter_matches_frame(self._filter, frame, wire_length, ffi.NULL, 0))

    def to_bpf(self, undecided: Literal["keep", "drop"] | None = None) -> BpfProgram:
        """Compiles the condition to a program of classic BPF, for packets that begin with an IP header.

        The program decides `src`, `dst`, `net`, `host`, `hop-limit`, `ttl`, `dscp`, `ecn` and `flow`. If there are other terms,
        `undecided` has to be given: with `"keep"` the program accepts the packets that it can't decide, and so each packet that meets the condition; with
        `"drop"` it refuses them, and accepts no packet that doesn't meet it. Otherwise raises `ValueError`.
        """
        return compile_filter(self._filter, undecided)

    def write(self, path_in: Path, path_out: Path) -> Written:
        """Writes the frames of a capture that meet the condition to another file, and returns how many were read and written.

        The input may be in any format that ipcap reads. The output is what `ipcap filter -w` writes: for a pcapng file a
        pcapng file, which keeps interfaces and comments, for a pcap file a pcap file, and never compressed. It is written
        to a new file in its directory, which takes its name once it is complete, so if anything fails there is no output,
        or the one that there was. An output that exists and isn't a regular file, such as a pipe, is written directly.

        Raises `CaptureError` if the input can't be read to its end: a `CaptureOSError` if the system refused to open or to
        read it. If interfaces of a pcapng file have a link layer that isn't supported, writes the output without their
        packets, and then raises a `CaptureError` that names these interfaces, and whose `written` has the numbers. Raises
        `OSError` if the output can't be written, `shutil.SameFileError`, an `OSError`, if input and output are the same file,
        and `ValueError` for a path with a null byte. The files are read and written by C code; Python's other threads run
        meanwhile.
        """
        return write_matching(self.text, path_in, path_out)

    def _program(self) -> tuple[tuple[int, ...], ...]:
        tests = self._filter.tests[0:self._filter.count]
        return tuple(tuple(getattr(test, name) for name in _TEST_FIELDS) for test in tests)

    def __eq__(self, other: object) -> bool:
        if not isinstance(other, Filter):
            return NotImplemented
        return self._program() == other._program()

    def __hash__(self) -> int:
        return hash(self._program())

    def __str__(self) -> str:
        return self.text

    def __repr__(self) -> str:
        return f"Filter({self.text!r})"

    def __reduce__(self) -> tuple[Callable[[str], Filter], tuple[str]]:
        return Filter, (self.text,)
