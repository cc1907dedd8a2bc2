#![doc = include_str!("../README.md")]
#![no_std]
#![forbid(unsafe_code)]
#![warn(missing_docs)]
// Functions, arguments and imports that only contracts use, and exports of deprecated names.
#![allow(dead_code, deprecated, unused_imports, unused_variables)]
// The code has the form with which it is proved.
#![allow(clippy::complexity, clippy::style, clippy::manual_unwrap_or_default)]

extern crate alloc;
#[cfg(feature = "std")]
extern crate std;
// thiserror 1 names `std::error::Error`.
#[cfg(not(feature = "std"))]
extern crate core as std;

pub mod build;
mod calls;
mod fields;
#[cfg(feature = "std")]
mod frame_reader;
mod frames_of;
pub mod ip_number;
mod memory;
mod plain;
mod reads;
#[cfg(feature = "serde")]
mod serde_forms;
mod text_filter;
#[cfg(feature = "std")]
mod writes;

mod etherparse_ip;
mod ip_base;
mod ip_bpf;
mod ip_captures;
mod ip_batches;
mod ip_chain_counts;
mod ip_codes;
mod ip_reassembly;
mod ip_defragmenter;
mod ip_dissect;
mod ip_ext_chains;
mod ip_ext_headers;
mod ip_ext_slices;
mod ip_filter;
mod ip_filter_bpf;
#[cfg(feature = "c")]
mod ip_filter_terms;
mod ip_frames;
mod ip_hash;
mod ip_header_contents;
mod ip_key_counts;
mod ip_lists;
mod ip_rewrite;
mod ip_spans;
mod ip_statistics;
#[cfg(feature = "c")]
mod ipexts_c;

pub use etherparse_ip::*;
#[cfg(not(feature = "std"))]
pub use plain::io as no_std_io;

/// Frames of link layers, and the IP packets in them.
pub mod frames {
    pub use crate::ip_frames::*;
}

/// Programs of classic BPF, checked as the kernel does and run, and filters compiled to them.
pub mod bpf {
    pub use crate::ip_bpf::*;
    pub use crate::ip_filter_bpf::*;
}

/// Packets dissected: any bytes, also truncated packets and fragments, with the reason why their headers end.
///
/// A packet whose length field is 0 states no length, and all bytes after its headers are its payload: before you trust a
/// dissection, test its `stated_len`, which is then `None`.
pub mod dissect {
    pub use crate::ip_dissect::*;
}

/// Contents of extension headers: options, and addresses of routing headers.
pub mod contents {
    pub use crate::ip_header_contents::*;
}

/// Codes of errors, layers and ends, by which statistics count, and their names.
pub mod codes {
    pub use crate::ip_codes::*;
}

/// Filters: texts parsed, and packets that match them. A text has terms, joined by `not`, `and` and `or`.
///
/// These are the terms.
///
/// | Term | Holds if, or compares |
/// |---|---|
/// | `fragment` | the payload is a fragment |
/// | `first-fragment` | the payload is a first fragment |
/// | `later-fragment` | the payload is a middle or last fragment |
/// | `header HEADER` | the chain has this header |
/// | `leads-to PROTOCOL` | this number follows the chain |
/// | `tcp` | TCP (6) follows the chain |
/// | `udp` | UDP (17) follows the chain |
/// | `dccp` | DCCP (33) follows the chain |
/// | `gre` | GRE (47) follows the chain |
/// | `esp` | ESP (50) follows the chain |
/// | `no-next` | no header (59) follows the chain |
/// | `sctp` | SCTP (132) follows the chain |
/// | `udp-lite` | UDP-Lite (136) follows the chain |
/// | `icmp` | ICMP (1) follows the chain of an IPv4 packet |
/// | `icmp6` | ICMPv6 (58) follows that of an IPv6 packet |
/// | `headers OP N` | the number of headers in the chain |
/// | `chain-bytes OP N` | the length of the chain in bytes |
/// | `payload OP N` | the number of payload bytes captured |
/// | `length OP N` | the length of the packet in bytes |
/// | `no-length` | the IP header states length 0 |
/// | `hop-limit OP N` | the hop limit, or the time to live of IPv4 |
/// | `ttl OP N` | as hop-limit |
/// | `dscp OP N` | the differentiated services code point |
/// | `ecn OP N` | the explicit congestion notification |
/// | `flow OP N` | the flow label of an IPv6 packet |
/// | `fault` | the packet has an error |
/// | `fault KIND` | the packet has an error of this kind |
/// | `fault KIND LAYER` | the error is in this header or packet |
/// | `truncated` | a header is truncated |
/// | `truncated LAYER` | this header is truncated |
/// | `incomplete` | bytes of the stated length are missing |
/// | `mismatched` | IPv4 announced as IPv6, or the reverse |
/// | `less N` | the frame has at most N bytes on the wire |
/// | `greater N` | the frame has at least N bytes on the wire |
/// | `vlan` | the frame has a VLAN tag |
/// | `vlan N` | one of its first two tags has this number |
/// | `arp` | the EtherType of the frame is that of ARP |
/// | `version N` | the IP version, 4 or 6 |
/// | `ip` | as version 4 |
/// | `ip6` | as version 6 |
/// | `spi N` | the security parameters index of AH or ESP |
/// | `id N` | the identification of the fragment |
/// | `routing-type N` | the type of a routing header |
/// | `segments-left OP N` | the segments left of a routing header |
/// | `option N` | a hop-by-hop or destination option |
/// | `src NETWORK` | the source address is in the network |
/// | `dst NETWORK` | the destination address is in the network |
/// | `net NETWORK` | either address is in the network |
/// | `host ADDRESS` | either address is this one |
/// | `ip multicast` | the destination is in 224.0.0.0/3 |
/// | `ip6 multicast` | the destination is in ff00::/8 |
/// | `src port PORTS` | the source port is one of these |
/// | `dst port PORTS` | the destination port is one of these |
/// | `port PORTS` | either port is one of these |
/// | `portrange PORTS` | as port |
/// | `proto PROTOCOL` | as leads-to, or the chain has the header |
/// | `no-transport` | the upper-layer header is not all there |
/// | `icmp-type TYPE` | the type of an ICMP message of IPv4 |
/// | `icmp6-type TYPE` | the type of an ICMPv6 message of IPv6 |
/// | `icmp-code N` | the code of an ICMP message of IPv4 |
/// | `icmp6-code N` | the code of an ICMPv6 message of IPv6 |
/// | `tcp-flags FLAGS` | these flags of TCP are set |
///
/// | Argument | |
/// |---|---|
/// | `HEADER` | hop-by-hop (0), routing (43), fragment (44), authentication (51), destination-options (60), in short hopopt (0), route (43), frag (44), ah (51), dstopts (60), or one of these numbers |
/// | `PROTOCOL` | a number from 0 to 255, a HEADER, or icmp (1), tcp (6), udp (17), dccp (33), gre (47), esp (50), icmp6 (58), no-next (59), sctp (132), udp-lite (136) |
/// | `OP` | `= == != < <= > >=` |
/// | `KIND` | too-short, not-at-start, zero-length, unsupported-version, header-length |
/// | `LAYER` | IP-header, IPv4-header, IPv4-packet, authentication, IPv6-header, IPv6-extension, hop-by-hop, destination-options, routing, fragment; IPv6-extension is any extension header of an IPv6 packet |
/// | `TYPE` | a number from 0 to 255, or its name in libpcap's expressions, such as icmp-echo or icmp6-neighborsolicit |
/// | `N` | a decimal number, or a hexadecimal one after 0x |
/// | `NETWORK` | an IPv4 or IPv6 address, alone or with a slash and a number of bits; after net, also A mask M, or one to three numbers: net 192.168 is net 192.168.0.0/16 |
/// | `ADDRESS` | an IPv4 or IPv6 address |
/// | `PORTS` | a number from 0 to 65535, or a range such as 1024-65535 |
/// | `FLAGS` | fin, syn, rst, psh, ack, urg, ece, cwr, or several with commas between; all that count after a slash |
///
/// After `leads-to`, `icmp` and `icmp6` are numbers of either version.
///
/// A `fault` is too-short with IPv4-packet or an extension header, not-at-start with hop-by-hop, zero-length with
/// authentication, unsupported-version with IP-header, or header-length with IPv4-header; IPv6-extension may follow
/// the first three. IP-header, IPv4-header, IPv6-header and extension headers can be truncated.
///
/// `length` is what is there where none is stated. A jumbo payload option doesn't count for `no-length`.
///
/// TCP, UDP, UDP-Lite, SCTP and DCCP have ports. Ports, types, codes and flags of TCP are read from the payload, so
/// extension headers may precede them. A later fragment has none, nor has a packet with an error or a truncated
/// header. The terms about fragments hold of an IPv6 packet if they do of one of its fragment headers.
///
/// `no-transport` asks for the header of TCP up to its data offset, of DCCP likewise, of SCTP (12 bytes), of UDP,
/// UDP-Lite and ICMP after IPv4 (8 bytes) and of ICMPv6 after IPv6 (4 bytes). It holds of a first fragment that has
/// less of it (RFC 7112), and of a packet whose data offset is too small.
///
/// `mismatched`, `less`, `greater`, `vlan` and `arp` ask the frame, of which a match may be told. Of a packet alone,
/// `less` and `greater` ask the length as `length` does, and the others are false.
///
/// As in tcpdump's expressions, `host`, `net`, `port` or `portrange` may follow `src` and `dst`, and `ip`, `ip6` or
/// the name of a protocol may precede `src`, `dst` and these: `tcp src port 80` is `( tcp and src port 80 )`, of two
/// terms. `src or dst` is either one, and `src and dst port 53` is `( src port 53 and dst port 53 )`. An address,
/// prefix, port or protocol alone takes the words of the term before it: `tcp port 80 or 443` is `tcp port 80 or tcp
/// port 443`.
///
/// An access compares bytes of the packet, as in tcpdump's expressions: `tcp[13] & 2 != 0`, `ip[6:2] & 0x1fff = 0`.
/// `NAME[I]`, `NAME[I:2]` and `NAME[I:4]` are the number in 1, 2 or 4 bytes at offset I, in network byte order. NAME
/// is `ip` or `ip6`, with offsets from the IP header of this version, or the name of a protocol, with offsets from its
/// header, which extension headers may precede. `& BITS` may follow, and then OP and BITS: a number of 32 bits, a
/// name, or several in parentheses with `|` between them, as in `tcp[tcpflags] & (tcp-syn|tcp-ack) != 0`. The names
/// are tcp-fin, tcp-syn, tcp-rst, tcp-push, tcp-ack, tcp-urg, tcp-ece, tcp-cwr and those of types; icmptype, icmpcode,
/// icmp6type, icmp6code and tcpflags are offsets. An access is false, also with `!=`, if not all of its bytes are in
/// the packet, or if the protocol's header is in an earlier fragment.
///
/// Terms are joined by `not`, `and` and `or`, or `!`, `&&` and `||`, and by parentheses. `not` binds most tightly,
/// then `and`. White space separates words. There may be up to 64 terms and 16 levels of parentheses.
pub mod filter {
    pub use crate::ip_filter::*;
    pub use crate::text_filter::TextFilter;
}

/// Statistics of packets, which can be merged.
pub mod statistics {
    pub use crate::ip_statistics::*;
}

/// Counts of the chains of packets, in memory of the caller's.
pub mod chains {
    pub use crate::ip_chain_counts::*;
    pub use crate::ip_key_counts::*;
}

/// Many packets of one buffer, counted, filtered or dissected in one call.
pub mod batches {
    pub use crate::ip_batches::*;
    pub use crate::ip_spans::{DissectionParts, FaultFields};
}

/// Capture files, from bytes to frames.
pub mod captures {
    #[cfg(feature = "std")]
    pub use crate::frame_reader::FrameReader;
    pub use crate::frames_of::Frames;
    pub use crate::ip_captures::*;
}

/// Packets reassembled from their fragments.
pub mod defragment {
    pub use crate::ip_reassembly::*;
    pub use crate::ip_defragmenter::*;
    pub use crate::ip_lists::*;
    pub use crate::memory::OwnedDefragmenter;
}

/// Packets written with other extension headers or another payload.
pub mod rewrite {
    pub use crate::ip_rewrite::*;
}

/// What the package of the C interface calls, without a promise for programs in Rust.
#[cfg(feature = "c")]
#[doc(hidden)]
#[allow(missing_docs)]
pub mod c {
    pub use crate::ip_batches::*;
    pub use crate::ip_spans::*;
    pub use crate::ipexts_c::*;
}
