//! All calls that are made on an input, each with its counterpart in the original.
use crate::asked::{Asked, Begins};
use crate::input::Input;
use crate::measured::{ChainCall, HeaderCall, PacketCall, RepeatedCall};
use crate::{
    every_byte, measured, original, original_ipv4, original_reads, original_slices, ours, sources,
};
use diff::headers::{self, Question};
use diff::reads::{self, Kind};
use etherparse::{IpNumber, Ipv6Extensions, Ipv6ExtensionsSlice};

/// A result.
#[derive(Debug, PartialEq, Eq)]
pub enum Answer {
    Digest(u64),
    Header(headers::Answer),
    Read(reads::Answer),
}

/// A call, and its counterpart in the original.
pub struct Call {
    pub name: &'static str,
    pub sides: Sides,
    /// When both sides must return the same.
    pub alike: Alike,
}

/// The two sides of a call, ours first.
pub enum Sides {
    Chain(ChainCall, ChainCall),
    Ipv4(ChainCall, ChainCall),
    Packet(PacketCall, PacketCall),
    Header(HeaderCall, HeaderCall),
    Repeated(Begins, RepeatedCall, RepeatedCall),
    /// Calls whose digests cover every byte.
    EveryByteOfChain(ChainCall, fn(u8, &[u8]) -> u64),
    EveryByteOfPacket(PacketCall, fn(&[u8]) -> u64),
    EveryByteLinked,
    /// The parts of a single header.
    Parts(fn(&Input<'_>) -> Question),
    Read(Kind),
    LimitedRead(Kind),
}

/// The known differences of docs/DIFFERENCES.md for which a call isn't made.
#[derive(Clone, Copy)]
pub enum Alike {
    Always,
    /// The original's iterator reads past the end of a chain that ended at an error, so `bench/` leaves it out
    /// there.
    WhereTheChainHasNoFault,
    /// The original's `write` panics from number 0 if there are no hop-by-hop options.
    BehindHopByHopOptions,
}

impl Alike {
    /// Returns whether both sides must return the same for this input.
    pub fn holds(self, input: &Input<'_>) -> bool {
        match self {
            Alike::Always => true,
            Alike::WhereTheChainHasNoFault => {
                let start = IpNumber(input.start);
                Ipv6ExtensionsSlice::from_slice(start, input.bytes).is_ok()
            }
            Alike::BehindHopByHopOptions => {
                let (exts, ..) = Ipv6Extensions::from_slice_lax(IpNumber(0), input.bytes);
                exts.hop_by_hop_options.is_some()
            }
        }
    }
}

/// How often bytes are written, each time with another next header.
const TIMES: u32 = 3;

/// The index of the byte that digests of `bench/` include: the first, since all others are compared by other
/// calls.
const CHOSEN: usize = 0;

impl Sides {
    /// Returns our result.
    pub fn ours(&self, input: &Input<'_>) -> Answer {
        let (start, bytes, len) = (input.start, input.bytes.as_ptr(), input.bytes.len());
        // SAFETY: the pointer is valid for that many bytes.
        Answer::Digest(unsafe {
            match self {
                Sides::Chain(ours, _) | Sides::Ipv4(ours, _) => ours(start, bytes, len),
                Sides::Packet(ours, _) => ours(bytes, len),
                Sides::Header(ours, _) => ours(bytes, len, CHOSEN),
                Sides::Repeated(_, ours, _) => ours(bytes, len, CHOSEN, TIMES),
                Sides::EveryByteOfChain(ours, _) => ours(start, bytes, len),
                Sides::EveryByteOfPacket(ours, _) => ours(bytes, len),
                Sides::EveryByteLinked => {
                    ours::ipexts_struct_linked_bytes(start, input.last, bytes, len)
                }
                Sides::Parts(question) => return Answer::Header(headers::ours(&question(input))),
                Sides::Read(kind) => return Answer::Read(reads::ours(&read(*kind, input))),
                Sides::LimitedRead(kind) => {
                    return Answer::Read(reads::ours(&limited_read(*kind, input)))
                }
            }
        })
    }

    /// Returns the original's result. Its bytes are made here, or by `every_byte` and the modules of `diff/`.
    pub fn original(&self, input: &Input<'_>) -> Answer {
        let begins = match self {
            Sides::Chain(..) => Begins::Chain(input.start),
            Sides::Packet(..) => Begins::Packet,
            Sides::Repeated(begins, ..) => *begins,
            _ => Begins::Nowhere,
        };
        let asked = Asked::new(begins, input.bytes);
        let (bytes, len) = (asked.original().as_ptr(), asked.original().len());
        // SAFETY: the pointer is valid for that many bytes.
        Answer::Digest(unsafe {
            match self {
                Sides::Chain(_, original) | Sides::Ipv4(_, original) => {
                    original(input.start, bytes, len)
                }
                Sides::Packet(_, original) => original(bytes, len),
                Sides::Header(_, original) => original(bytes, len, CHOSEN),
                Sides::Repeated(_, _, original) => original(bytes, len, CHOSEN, TIMES),
                Sides::EveryByteOfChain(_, original) => original(input.start, input.bytes),
                Sides::EveryByteOfPacket(_, original) => original(input.bytes),
                Sides::EveryByteLinked => {
                    every_byte::linked_struct(input.start, input.last, input.bytes)
                }
                Sides::Parts(question) => {
                    return Answer::Header(headers::original(&question(input)))
                }
                Sides::Read(kind) => return Answer::Read(reads::original(&read(*kind, input))),
                Sides::LimitedRead(kind) => {
                    return Answer::Read(reads::original(&limited_read(*kind, input)))
                }
            }
        })
    }
}

fn read(kind: Kind, input: &Input<'_>) -> reads::Question {
    reads::Question {
        kind,
        start: input.start,
        is_over: input.is_over,
        limit: None,
        bytes: input.bytes.to_vec(),
    }
}

fn limited_read(kind: Kind, input: &Input<'_>) -> reads::Question {
    reads::Question {
        limit: Some(input.limit),
        ..read(kind, input)
    }
}

/// A security parameters index or a sequence number for a new header.
fn number(input: &Input<'_>) -> u32 {
    u32::from_be_bytes([input.start, input.limit.before, input.last, 1])
}

fn call(name: &'static str, sides: Sides) -> Call {
    Call {
        name,
        sides,
        alike: Alike::Always,
    }
}

/// Returns all calls.
pub fn calls() -> Vec<Call> {
    [
        chains(),
        iterators(),
        structs(),
        walked_structs(),
        ipv4(),
        packets(),
        headers(),
        written_headers(),
        parts(),
        reads(),
    ]
    .into_iter()
    .flatten()
    .collect()
}

fn chains() -> Vec<Call> {
    use measured::*;
    let chain = |name, ours, original| call(name, Sides::Chain(ours, original));
    let bytes = |name, ours, original| call(name, Sides::EveryByteOfChain(ours, original));
    vec![
        bytes(
            "lax parse, every byte",
            ours::ipexts_lax_bytes,
            every_byte::lax,
        ),
        bytes(
            "strict parse, every byte",
            ours::ipexts_strict_bytes,
            every_byte::strict,
        ),
        bytes(
            "cursor, every byte",
            ours::ipexts_cursor_bytes,
            every_byte::cursor,
        ),
        chain("lax parse", ipexts_lax, original::chain::<original::Lax>),
        chain(
            "strict parse",
            ipexts_strict,
            original::chain::<original::Strict>,
        ),
        chain(
            "lax filter",
            ipexts_lax_filter,
            original::chain::<original::LaxFilter>,
        ),
        chain(
            "strict filter",
            ipexts_strict_filter,
            original::chain::<original::StrictFilter>,
        ),
    ]
}

fn iterators() -> Vec<Call> {
    use measured::*;
    let chain = |name, ours, original| Call {
        name,
        sides: Sides::Chain(ours, original),
        alike: Alike::WhereTheChainHasNoFault,
    };
    vec![
        chain(
            "iterator",
            ipexts_lax_headers,
            original::chain::<original::LaxHeaders>,
        ),
        chain(
            "iterator filter",
            ipexts_lax_headers_filter,
            original::chain::<original::LaxHeadersFilter>,
        ),
        chain(
            "cursor kinds",
            ipexts_cursor_kinds,
            original::chain::<original::LaxKinds>,
        ),
        chain(
            "cursor to the first fragment header",
            ipexts_cursor_fragment,
            original::chain::<original::LaxFragment>,
        ),
    ]
}

fn structs() -> Vec<Call> {
    use measured::*;
    let chain = |name, ours, original| call(name, Sides::Chain(ours, original));
    let bytes = |name, ours, original| call(name, Sides::EveryByteOfChain(ours, original));
    vec![
        bytes(
            "struct, every byte",
            ours::ipexts_struct_bytes,
            every_byte::lax_struct,
        ),
        call("linked struct, every byte", Sides::EveryByteLinked),
        bytes(
            "runs, every byte",
            ours::ipexts_runs_bytes,
            every_byte::runs,
        ),
        chain(
            "lax struct",
            ipexts_lax_struct,
            original::chain::<original::LaxStruct>,
        ),
        chain(
            "strict struct",
            ipexts_strict_struct,
            original::chain::<original::StrictStruct>,
        ),
        chain("runs", ipexts_runs, original::runs),
    ]
}

fn walked_structs() -> Vec<Call> {
    use measured::*;
    let from_0 = |name, ours, original, alike| Call {
        name,
        sides: Sides::Repeated(Begins::Chain(0), ours, original),
        alike,
    };
    vec![
        from_0(
            "struct, next_header",
            ipexts_struct_next_header,
            original::struct_next_header,
            Alike::Always,
        ),
        from_0(
            "struct, set_next_headers",
            ipexts_struct_set_next_headers,
            original::struct_set_next_headers,
            Alike::Always,
        ),
        from_0(
            "struct, write",
            ipexts_struct_write,
            original::struct_write,
            Alike::BehindHopByHopOptions,
        ),
        from_0(
            "struct, write into a new vector",
            ipexts_struct_write_new,
            original::struct_write_new,
            Alike::BehindHopByHopOptions,
        ),
    ]
}

fn ipv4() -> Vec<Call> {
    use measured::*;
    let chain = |name, ours, original| call(name, Sides::Ipv4(ours, original));
    vec![
        call(
            "IPv4, every byte",
            Sides::EveryByteOfChain(ours::ipexts_ipv4_bytes, every_byte::ipv4),
        ),
        chain("IPv4 lax", ipexts_ipv4_lax, original_ipv4::lax),
        chain("IPv4 strict", ipexts_ipv4_strict, original_ipv4::strict),
        chain("IPv4 filter", ipexts_ipv4_filter, original_ipv4::filter),
        chain(
            "IPv4 owned lax",
            ipexts_ipv4_owned_lax,
            original_ipv4::owned_lax,
        ),
        chain(
            "IPv4 owned strict",
            ipexts_ipv4_owned_strict,
            original_ipv4::owned_strict,
        ),
        chain("IPv4 read", ipexts_ipv4_read, original_reads::ipv4_read),
        call(
            "IPv4 write",
            Sides::Repeated(Begins::Nowhere, ipexts_ipv4_write, original_ipv4::write),
        ),
    ]
}

fn packets() -> Vec<Call> {
    use measured::*;
    use original_slices::{packet, IpFilter, Ipv4, Ipv6Lax};
    let digest = |name, ours, original| call(name, Sides::Packet(ours, original));
    let bytes = |name, ours, original| call(name, Sides::EveryByteOfPacket(ours, original));
    vec![
        bytes("IpSlice, every byte", ours::ipexts_ip_bytes, every_byte::ip),
        bytes(
            "Ipv4Slice, every byte",
            ours::ipexts_ipv4_slice_bytes,
            every_byte::ipv4_slice,
        ),
        bytes(
            "Ipv6Slice, every byte",
            ours::ipexts_ipv6_slice_bytes,
            every_byte::ipv6_slice,
        ),
        bytes(
            "Ipv6Slice lax, every byte",
            ours::ipexts_ipv6_slice_lax_bytes,
            every_byte::ipv6_slice_lax,
        ),
        bytes(
            "dissect, every byte",
            ours::ipexts_dissect_bytes,
            every_byte::dissection,
        ),
        digest("IpSlice", ipexts_ip, packet::<sources::Ip>),
        digest("IpSlice filter", ipexts_ip_filter, packet::<IpFilter>),
        digest("Ipv4Slice", ipexts_ipv4_slice, packet::<Ipv4>),
        digest("Ipv6Slice", ipexts_ipv6_slice, packet::<sources::Ipv6>),
        digest("Ipv6Slice lax", ipexts_ipv6_slice_lax, packet::<Ipv6Lax>),
    ]
}

fn headers() -> Vec<Call> {
    use measured::*;
    let header = |name, ours, original| call(name, Sides::Header(ours, original));
    vec![
        header(
            "raw header, read",
            ipexts_raw_read,
            original_reads::raw_read,
        ),
        header(
            "authentication header, read",
            ipexts_auth_read,
            original_reads::auth_read,
        ),
    ]
}

fn written_headers() -> Vec<Call> {
    use measured::*;
    let header =
        |name, ours, original| call(name, Sides::Repeated(Begins::Nowhere, ours, original));
    let fragment =
        |name, ours, original| call(name, Sides::Repeated(Begins::Fragment, ours, original));
    vec![
        header(
            "raw header, to_bytes",
            ipexts_raw_to_bytes,
            original::raw_to_bytes,
        ),
        header("raw header, write", ipexts_raw_write, original::raw_write),
        header(
            "authentication header, to_bytes",
            ipexts_auth_to_bytes,
            original::auth_to_bytes,
        ),
        header(
            "authentication header, write",
            ipexts_auth_write,
            original::auth_write,
        ),
        fragment(
            "fragment header, to_bytes",
            ipexts_fragment_to_bytes,
            original::fragment_to_bytes,
        ),
        fragment(
            "fragment header, write",
            ipexts_fragment_write,
            original::fragment_write,
        ),
    ]
}

fn parts() -> Vec<Call> {
    let of = |name, question| call(name, Sides::Parts(question));
    vec![
        of("raw header, borrowed", |input| {
            Question::RawBorrowed(input.bytes.to_vec())
        }),
        of("raw header, owned", |input| {
            Question::RawOwned(input.bytes.to_vec())
        }),
        of("raw header, new", |input| {
            Question::RawNew(input.last, input.bytes.to_vec())
        }),
        of("authentication header, borrowed", |input| {
            Question::AuthBorrowed(input.bytes.to_vec())
        }),
        of("authentication header, owned", |input| {
            Question::AuthOwned(input.bytes.to_vec())
        }),
        of("authentication header, new", |input| {
            let spi = number(input);
            Question::AuthNew(input.last, spi, !spi, input.bytes.to_vec())
        }),
        of("fragment header, borrowed", |input| {
            Question::FragmentBorrowed(input.bytes.to_vec())
        }),
        of("fragment header, owned", |input| {
            Question::FragmentOwned(input.bytes.to_vec())
        }),
    ]
}

fn reads() -> Vec<Call> {
    let read = |name, kind| call(name, Sides::Read(kind));
    let limited = |name, kind| call(name, Sides::LimitedRead(kind));
    vec![
        read("raw header, read, every byte", Kind::Raw),
        read("authentication header, read, every byte", Kind::Auth),
        read("fragment header, read, every byte", Kind::Fragment),
        read("IPv4, read, every byte", Kind::Ipv4),
        read("six places, read, every byte", Kind::Ipv6),
        limited("raw header, read_limited", Kind::Raw),
        limited("authentication header, read_limited", Kind::Auth),
        limited("fragment header, read_limited", Kind::Fragment),
        limited("IPv4, read_limited", Kind::Ipv4),
        limited("six places, read_limited", Kind::Ipv6),
    ]
}
