//! The rows of the table: which call, on which bytes, on both sides.
use crate::dissect_rows;
use crate::fragment_bits::{self, from_the_original};
use crate::inputs::{self, Chain, Packets, Sides};
use crate::original::{self, Parse};
use crate::original_ipv4;
use crate::ours::{self, ChainCall, HeaderCall, PacketLoop, RepeatedCall};
use crate::read_rows;
use crate::slice_rows;
use std::hint::black_box;

/// How many calls are made in one run of a row with a single call.
pub const CALLS: usize = 1000;

/// The number of packets.
pub const PACKETS: usize = 10_000;

/// A piece of work to be timed. Returns a digest.
pub type Work = Box<dyn Fn() -> u64>;

/// Returns all bytes that our side and the original write, in our layout of fragment headers.
pub type Written = Box<dyn Fn() -> (Vec<u8>, Vec<u8>)>;

/// A row: the same work on both sides.
pub struct Row {
    pub group: &'static str,
    pub name: String,
    /// The unit of the times.
    pub unit: &'static str,
    /// The number of units per run.
    pub units: usize,
    pub ours: Work,
    pub original: Work,
    /// A bare walk in C over the same bytes.
    pub limit: Option<Work>,
    /// Returns everything written, for rows about writing, whose digest covers only two of the bytes.
    pub written: Option<Written>,
}

/// A way to parse a chain, on both sides.
pub struct Form {
    name: &'static str,
    reading: &'static str,
    ours: ChainCall,
    original: ChainCall,
    our_loop: PacketLoop,
    original_loop: PacketLoop,
    /// Whether the other side is also ours, and gets the same bytes.
    is_against_ours: bool,
}

impl Form {
    /// Returns the packets for the other side.
    fn other_packets(&self, packets: Sides) -> &'static Packets {
        if self.is_against_ours {
            packets.ours
        } else {
            packets.original
        }
    }

    /// Returns the chain for the other side.
    fn other_chain(&self, chain: &Chain) -> Vec<u8> {
        if self.is_against_ours {
            chain.ours.clone()
        } else {
            chain.original.clone()
        }
    }

    /// Makes a row with `count` calls on a chain.
    fn row(&self, group: &'static str, name: String, chain: Chain, calls: usize) -> Row {
        let other = self.other_chain(&chain);
        Row {
            group,
            name,
            unit: "call",
            units: calls,
            ours: again(self.ours, chain.start, chain.ours, calls),
            original: again(self.original, chain.start, other, calls),
            limit: None,
            written: None,
        }
    }
}

pub fn form<P: Parse>(
    name: &'static str,
    reading: &'static str,
    ours: ChainCall,
    our_loop: PacketLoop,
) -> Form {
    Form {
        name,
        reading,
        ours,
        original: original::chain::<P>,
        our_loop,
        original_loop: original::packets::<P>,
        is_against_ours: false,
    }
}

/// Each parse, read in full and as in a filter.
fn forms() -> Vec<Form> {
    use ours::*;
    vec![
        form::<original::Lax>("lax", "in full", ipexts_lax, ipexts_lax_packets),
        form::<original::LaxHeaders>(
            "lax, iterator",
            "in full",
            ipexts_lax_headers,
            ipexts_lax_headers_packets,
        ),
        form::<original::Strict>("strict", "in full", ipexts_strict, ipexts_strict_packets),
        form::<original::LaxFilter>(
            "lax",
            "filter",
            ipexts_lax_filter,
            ipexts_lax_filter_packets,
        ),
        form::<original::LaxHeadersFilter>(
            "lax, iterator",
            "filter",
            ipexts_lax_headers_filter,
            ipexts_lax_headers_filter_packets,
        ),
        form::<original::StrictFilter>(
            "strict",
            "filter",
            ipexts_strict_filter,
            ipexts_strict_filter_packets,
        ),
    ]
}

/// A cursor in one pass, compared with the original's parse and iterator, and with our own.
fn cursor_forms() -> Vec<Form> {
    use ours::*;
    let against_ours = |reading, ours, our_loop, original, original_loop| Form {
        name: "cursor against our two passes",
        reading,
        ours,
        original,
        our_loop,
        original_loop,
        is_against_ours: true,
    };
    let (all, early) = ("all headers", "first fragment");
    vec![
        form::<original::LaxKinds>(
            "cursor",
            all,
            ipexts_cursor_kinds,
            ipexts_cursor_kinds_packets,
        ),
        form::<original::LaxFragment>(
            "cursor",
            early,
            ipexts_cursor_fragment,
            ipexts_cursor_fragment_packets,
        ),
        against_ours(
            all,
            ipexts_cursor_kinds,
            ipexts_cursor_kinds_packets,
            ipexts_lax_kinds,
            ipexts_lax_kinds_packets,
        ),
        against_ours(
            early,
            ipexts_cursor_fragment,
            ipexts_cursor_fragment_packets,
            ipexts_lax_fragment,
            ipexts_lax_fragment_packets,
        ),
    ]
}

/// Each parse into a struct.
fn struct_forms() -> Vec<Form> {
    use ours::*;
    vec![
        form::<original::LaxStruct>(
            "struct, lax",
            "in full",
            ipexts_lax_struct,
            ipexts_lax_struct_packets,
        ),
        form::<original::StrictStruct>(
            "struct, strict",
            "in full",
            ipexts_strict_struct,
            ipexts_strict_struct_packets,
        ),
    ]
}

/// A parse into a struct: packets, no headers, all places filled, and rejections.
fn struct_rows(form: &Form, packets: Sides) -> Vec<Row> {
    let mut rows = vec![packet_loop(form, packets), packet_calls(form, packets)];
    rows.push(regular_chain(form, 0));
    rows.extend([8, 2040].map(|len| full_chain(form, len)));
    rows.extend(refusals(form));
    rows
}

/// A chain that fills all six places, whose headers in the uniform format (RFC 6564) have `len` bytes each.
pub fn full_chain(form: &Form, len: usize) -> Row {
    let name = format!("{}: six places, options of {len} bytes", form.name);
    form.row("all places filled", name, inputs::full(len), CALLS)
}

/// Returns all rows.
pub fn rows(seed: u64) -> Vec<Row> {
    let packets = Sides::new(inputs::packets(PACKETS, seed));
    let mut rows = Vec::new();
    for form in forms() {
        rows.push(packet_loop(&form, packets));
        rows.push(packet_calls(&form, packets));
    }
    for form in forms() {
        rows.extend([0, 1, 2, 4, 64, 4096].map(|count| regular_chain(&form, count)));
    }
    for form in forms()
        .into_iter()
        .filter(|form| form.name != "lax, iterator")
    {
        rows.extend(refusals(&form));
    }
    // the original's side, which is that of the package too, has no cursor
    for form in cursor_forms()
        .into_iter()
        .filter(|_| !cfg!(feature = "package"))
    {
        rows.push(packet_loop(&form, packets));
        rows.push(packet_calls(&form, packets));
        rows.extend([4, 64].map(|count| regular_chain(&form, count)));
    }
    for form in struct_forms() {
        rows.extend(struct_rows(&form, packets));
    }
    rows.extend(borrowed_and_owned());
    rows.extend(written());
    rows.extend(struct_written());
    rows.extend(runs());
    rows.extend(ipv4());
    rows.extend(slice_rows::rows(packets, seed));
    rows.extend(dissect_rows::rows(seed));
    rows.extend(read_rows::rows(packets));
    rows
}

/// Makes rows of a call over all packets.
pub fn over_packets(call: PacketLoop, packets: &'static Packets) -> Work {
    Box::new(move || {
        let call = black_box(call);
        let (bytes, ends) = (&packets.bytes, &packets.ends);
        unsafe { call(bytes.as_ptr(), bytes.len(), ends.as_ptr(), ends.len()) }
    })
}

/// Makes a row of one exported loop over all packets.
pub fn packet_loop(form: &Form, packets: Sides) -> Row {
    Row {
        group: "packets, one loop",
        name: format!("{}, {}: packets in one loop", form.name, form.reading),
        unit: "packet",
        units: packets.ours.ends.len(),
        ours: over_packets(form.our_loop, packets.ours),
        original: over_packets(form.original_loop, form.other_packets(packets)),
        limit: Some(over_packets(ours::walk_packets, packets.ours)),
        written: None,
    }
}

/// Makes a row with one call per packet.
pub fn packet_calls(form: &Form, packets: Sides) -> Row {
    let over = |call: ChainCall, packets: &'static Packets| -> Work {
        let each = packets.each();
        Box::new(move || {
            let call = black_box(call);
            each.iter().fold(0u64, |sum, packet| {
                let chain = &packet[40..];
                sum.rotate_left(1) ^ unsafe { call(packet[6], chain.as_ptr(), chain.len()) }
            })
        })
    };
    Row {
        group: "packets, a call each",
        name: format!("{}, {}: a call for each packet", form.name, form.reading),
        unit: "packet",
        units: packets.ours.ends.len(),
        ours: over(form.ours, packets.ours),
        original: over(form.original, form.other_packets(packets)),
        limit: Some(over(ours::walk_chain, packets.ours)),
        written: None,
    }
}

/// Makes rows of repeated calls on the same bytes.
pub fn again(call: ChainCall, start: u8, bytes: Vec<u8>, calls: usize) -> Work {
    Box::new(move || {
        let call = black_box(call);
        (0..calls).fold(0u64, |sum, _| {
            let bytes = black_box(&bytes[..]);
            sum.rotate_left(1) ^ unsafe { call(start, bytes.as_ptr(), bytes.len()) }
        })
    })
}

pub fn regular_chain(form: &Form, count: usize) -> Row {
    let chain = inputs::regular(count);
    let calls = (CALLS / (count + 1)).max(5);
    let name = format!("{}, {}: chain of {count}", form.name, form.reading);
    let walked = chain.ours.clone();
    Row {
        unit: "header",
        units: calls * count.max(1),
        limit: Some(again(ours::walk_chain, chain.start, walked, calls)),
        ..form.row("regular chains", name, chain, calls)
    }
}

/// Makes rows for each rejection, at the first header and after four.
pub fn refusals(form: &Form) -> Vec<Row> {
    let mut rows = Vec::new();
    for (why, number, bytes) in inputs::refusals() {
        // Hop-by-hop options are rejected only after another header.
        let first = if number == inputs::HOP_BY_HOP {
            Chain::new(inputs::DEST_OPTIONS, vec![number, 0, 0, 0, 0, 0, 0, 0])
        } else {
            Chain::new(number, bytes.clone())
        };
        let at_first = if number == inputs::HOP_BY_HOP {
            "after one"
        } else {
            "at the first"
        };
        for (place, chain) in [
            (at_first, first),
            ("after four", inputs::after_four(number, &bytes)),
        ] {
            let group = if place == "after four" {
                "refusals after four headers"
            } else {
                "refusals at the first header"
            };
            let name = format!("{}, {}: {why}, {place}", form.name, form.reading);
            rows.push(form.row(group, name, chain, CALLS));
        }
    }
    rows
}

/// Single headers on both sides, and their calls.
fn borrowed_and_owned() -> Vec<Row> {
    use ours::*;
    let raw = [8, 64, 2048].map(|len| (len, inputs::single(inputs::ROUTE, len)));
    let auth = [12, 64, 1028].map(|len| (len, inputs::single(inputs::AUTH, len)));
    let fragment = [(8, inputs::single(inputs::FRAGMENT, 8))];
    let raw_refused = [(7, inputs::truncated(inputs::ROUTE))];
    let auth_refused = [(7, inputs::truncated(inputs::AUTH))];
    let mut rows = Vec::new();
    let mut add = |group, name: &str, inputs: &[(usize, Chain)], ours, original| {
        rows.extend(
            inputs
                .iter()
                .map(|(len, chain)| single(group, name, *len, chain, ours, original)),
        );
    };
    add(
        "borrowed headers",
        "raw header, borrowed",
        &raw,
        ipexts_raw_borrowed,
        original::raw_borrowed,
    );
    add(
        "borrowed headers",
        "authentication header, borrowed",
        &auth,
        ipexts_auth_borrowed,
        original::auth_borrowed,
    );
    add(
        "borrowed headers",
        "fragment header, borrowed",
        &fragment,
        ipexts_fragment_borrowed,
        original::fragment_borrowed,
    );
    add(
        "borrowed headers",
        "raw header, borrowed, refused",
        &raw_refused,
        ipexts_raw_borrowed,
        original::raw_borrowed,
    );
    add(
        "borrowed headers",
        "raw header, filter",
        &raw,
        ipexts_raw_filter,
        original::raw_filter,
    );
    add(
        "borrowed headers",
        "authentication header, filter",
        &auth,
        ipexts_auth_filter,
        original::auth_filter,
    );
    add(
        "borrowed headers",
        "fragment header, filter",
        &fragment,
        ipexts_fragment_filter,
        original::fragment_filter,
    );
    add(
        "owned headers",
        "raw header, owned",
        &raw,
        ipexts_raw_owned,
        original::raw_owned,
    );
    add(
        "owned headers",
        "authentication header, owned",
        &auth,
        ipexts_auth_owned,
        original::auth_owned,
    );
    add(
        "owned headers",
        "fragment header, owned",
        &fragment,
        ipexts_fragment_owned,
        original::fragment_owned,
    );
    add(
        "owned headers",
        "raw header, owned, refused",
        &raw_refused,
        ipexts_raw_owned,
        original::raw_owned,
    );
    add(
        "owned headers",
        "authentication header, owned, refused",
        &auth_refused,
        ipexts_auth_owned,
        original::auth_owned,
    );
    rows
}

/// Makes a row of one call on a single header.
pub fn single(
    group: &'static str,
    name: &str,
    len: usize,
    chain: &Chain,
    ours: HeaderCall,
    original: HeaderCall,
) -> Row {
    let over = |call: HeaderCall, bytes: &[u8]| -> Work {
        let bytes = bytes.to_vec();
        Box::new(move || {
            let call = black_box(call);
            (0..CALLS).fold(0u64, |sum, at| {
                let bytes = black_box(&bytes[..]);
                sum.rotate_left(1) ^ unsafe { call(bytes.as_ptr(), bytes.len(), at % len) }
            })
        })
    };
    Row {
        group,
        name: format!("{name}: {len} bytes"),
        unit: "call",
        units: CALLS,
        ours: over(ours, &chain.ours),
        original: over(original, &chain.original),
        limit: None,
        written: None,
    }
}

/// Makes rows of writing owned headers.
fn written() -> Vec<Row> {
    use ours::*;
    let raw = [8, 64, 2048].map(|len| (len, inputs::single(inputs::ROUTE, len)));
    let auth = [12, 64, 1028].map(|len| (len, inputs::single(inputs::AUTH, len)));
    let fragment = [(8, inputs::single(inputs::FRAGMENT, 8))];
    let mut rows = Vec::new();
    let mut add = |group, name: &str, inputs: &[(usize, Chain)], ours, original| {
        rows.extend(
            inputs
                .iter()
                .map(|(len, chain)| repeated(group, name, *len, chain, ours, original)),
        );
    };
    add(
        "to_bytes",
        "raw header, to_bytes",
        &raw,
        ipexts_raw_to_bytes,
        original::raw_to_bytes,
    );
    add(
        "to_bytes",
        "authentication header, to_bytes",
        &auth,
        ipexts_auth_to_bytes,
        original::auth_to_bytes,
    );
    add(
        "to_bytes",
        "fragment header, to_bytes",
        &fragment,
        ipexts_fragment_to_bytes,
        original::fragment_to_bytes,
    );
    add(
        "write",
        "raw header, write",
        &raw,
        ipexts_raw_write,
        original::raw_write,
    );
    add(
        "write",
        "authentication header, write",
        &auth,
        ipexts_auth_write,
        original::auth_write,
    );
    add(
        "write",
        "fragment header, write",
        &fragment,
        ipexts_fragment_write,
        original::fragment_write,
    );
    rows
}

/// IPv4 extension headers: one of each length, none, and a truncated one.
fn ipv4() -> Vec<Row> {
    use ours::*;
    let headers = [12, 64, 1028].map(|len| {
        let name = format!("a header of {len} bytes");
        (name, inputs::single(inputs::AUTH, len))
    });
    let none = ("no header".to_owned(), Chain::new(17, vec![17; 20]));
    let refused = (
        "a truncated header".to_owned(),
        inputs::truncated(inputs::AUTH),
    );
    let all = [&headers[..], &[none, refused]].concat();
    let calls: [(&str, &str, ChainCall, ChainCall); 5] = [
        (
            "IPv4, borrowed",
            "IPv4, lax, in full",
            ipexts_ipv4_lax,
            original_ipv4::lax,
        ),
        (
            "IPv4, borrowed",
            "IPv4, strict, in full",
            ipexts_ipv4_strict,
            original_ipv4::strict,
        ),
        (
            "IPv4, borrowed",
            "IPv4, lax, filter",
            ipexts_ipv4_filter,
            original_ipv4::filter,
        ),
        (
            "IPv4, owned",
            "IPv4, owned, lax",
            ipexts_ipv4_owned_lax,
            original_ipv4::owned_lax,
        ),
        (
            "IPv4, owned",
            "IPv4, owned, strict",
            ipexts_ipv4_owned_strict,
            original_ipv4::owned_strict,
        ),
    ];
    let mut rows = Vec::new();
    for (group, call, ours, original) in calls {
        rows.extend(all.iter().map(|(what, chain)| Row {
            group,
            name: format!("{call}: {what}"),
            unit: "call",
            units: CALLS,
            ours: again(ours, chain.start, chain.ours.clone(), CALLS),
            original: again(original, chain.start, chain.original.clone(), CALLS),
            limit: None,
            written: None,
        }));
    }
    rows.extend(headers.iter().map(|(_, chain)| {
        let name = "IPv4, linked and written";
        repeated(
            "IPv4, write",
            name,
            chain.ours.len(),
            chain,
            ipexts_ipv4_write,
            original_ipv4::write,
        )
    }));
    rows
}

/// Walking, linking and writing a struct with all places filled.
fn struct_written() -> Vec<Row> {
    use ours::*;
    let full = [8, 2040].map(|len| (len, inputs::full(len)));
    let calls: [(&str, RepeatedCall, RepeatedCall); 4] = [
        (
            "struct, next_header, options of",
            ipexts_struct_next_header,
            original::struct_next_header,
        ),
        (
            "struct, set_next_headers, options of",
            ipexts_struct_set_next_headers,
            original::struct_set_next_headers,
        ),
        (
            "struct, write with room, options of",
            ipexts_struct_write,
            original::struct_write,
        ),
        (
            "struct, write into a new vector, options of",
            ipexts_struct_write_new,
            original::struct_write_new,
        ),
    ];
    let mut rows = Vec::new();
    for (name, ours, original) in calls {
        rows.extend(
            full.iter().map(|(len, chain)| {
                repeated("walk, links, write", name, *len, chain, ours, original)
            }),
        );
    }
    rows
}

/// The runs of chains of fragment headers, one header each. The original has no runs: its side calls the struct
/// parse repeatedly.
fn runs() -> Vec<Row> {
    [4usize, 1024, 2048, 4096]
        .into_iter()
        .map(|count| {
            let chain = inputs::fragments(count);
            let calls = (CALLS / (count + 1)).max(2);
            Row {
                group: "runs",
                name: format!("runs of {count} fragment headers"),
                unit: "header",
                units: calls * count,
                ours: again(ours::ipexts_runs, chain.start, chain.ours, calls),
                original: again(original::runs, chain.start, chain.original, calls),
                limit: None,
                written: None,
            }
        })
        .collect()
}

/// Makes a row of a call that writes a header repeatedly.
fn repeated(
    group: &'static str,
    name: &str,
    len: usize,
    chain: &Chain,
    ours: RepeatedCall,
    original: RepeatedCall,
) -> Row {
    let over = |call: RepeatedCall, bytes: &[u8]| -> Work {
        let bytes = bytes.to_vec();
        Box::new(move || {
            let call = black_box(call);
            let bytes = black_box(&bytes[..]);
            unsafe {
                call(
                    bytes.as_ptr(),
                    bytes.len(),
                    black_box(len - 1),
                    CALLS as u32,
                )
            }
        })
    };
    Row {
        group,
        name: format!("{name}: {len} bytes"),
        unit: "call",
        units: CALLS,
        ours: over(ours, &chain.ours),
        original: over(original, &chain.original),
        limit: None,
        written: Some(written_by(ours, original, chain.clone())),
    }
}

/// Returns all bytes that two calls write for a chain.
fn written_by(ours: RepeatedCall, original: RepeatedCall, chain: Chain) -> Written {
    Box::new(move || {
        let theirs = bytes_of(original, &chain.original);
        (
            bytes_of(ours, &chain.ours),
            fragment_bits::chain(chain.start, &theirs, from_the_original),
        )
    })
}

/// Returns the bytes that a call writes once. Its digest ends with the byte at an index, or with 256 if there is
/// none.
fn bytes_of(call: RepeatedCall, asked: &[u8]) -> Vec<u8> {
    let digest = |at| unsafe { call(asked.as_ptr(), asked.len(), at, 1) };
    let no_byte = digest(usize::MAX);
    (0..)
        .map(|at| digest(at).wrapping_sub(no_byte).wrapping_add(256))
        .map_while(|byte| u8::try_from(byte).ok())
        .collect()
}
