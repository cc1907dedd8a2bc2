//! The rows of reads: headers, IPv4 chains, and chains of six places, with and without a limit.
use crate::inputs::{self, Chain, Sides};
use crate::original_reads;
use crate::ours;
use crate::rows::{again, form, full_chain, packet_calls, packet_loop, refusals, regular_chain};
use crate::rows::{single, Form, Row, CALLS};

/// Returns all rows, with the same packets as the rows of chains.
pub fn rows(packets: Sides) -> Vec<Row> {
    let mut rows = headers();
    rows.extend(ipv4());
    for form in forms() {
        rows.extend([packet_loop(&form, packets), packet_calls(&form, packets)]);
        rows.push(regular_chain(&form, 0));
        rows.extend([8, 2040].map(|len| full_chain(&form, len)));
    }
    let mut rows: Vec<Row> = rows
        .into_iter()
        .map(|row| Row {
            group: if row.name.contains("limited") {
                "reads under a limit"
            } else {
                "reads"
            },
            limit: None,
            ..row
        })
        .collect();
    rows.extend(refused());
    rows
}

/// Chains of six places.
fn forms() -> [Form; 2] {
    use ours::*;
    [
        form::<original_reads::StructRead>(
            "struct, read",
            "in full",
            ipexts_struct_read,
            ipexts_struct_read_packets,
        ),
        form::<original_reads::StructReadLimited>(
            "struct, read_limited",
            "in full",
            ipexts_struct_read_limited,
            ipexts_struct_read_limited_packets,
        ),
    ]
}

/// Chains of six places that are rejected.
fn refused() -> Vec<Row> {
    let mut rows: Vec<Row> = forms().iter().flat_map(refusals).collect();
    for row in &mut rows {
        row.group = "refused reads of six places";
    }
    rows
}

/// Each kind of header, and a truncated one.
fn headers() -> Vec<Row> {
    use ours::*;
    let calls: [(&str, u8, &[usize], HeaderCall, HeaderCall); 6] = [
        (
            "raw header, read",
            inputs::ROUTE,
            &[8, 64, 2048],
            ipexts_raw_read,
            original_reads::raw_read,
        ),
        (
            "raw header, read_limited",
            inputs::ROUTE,
            &[8, 64, 2048],
            ipexts_raw_read_limited,
            original_reads::raw_read_limited,
        ),
        (
            "authentication header, read",
            inputs::AUTH,
            &[12, 64, 1028],
            ipexts_auth_read,
            original_reads::auth_read,
        ),
        (
            "authentication header, read_limited",
            inputs::AUTH,
            &[12, 64, 1028],
            ipexts_auth_read_limited,
            original_reads::auth_read_limited,
        ),
        (
            "fragment header, read",
            inputs::FRAGMENT,
            &[8],
            ipexts_fragment_read,
            original_reads::fragment_read,
        ),
        (
            "fragment header, read_limited",
            inputs::FRAGMENT,
            &[8],
            ipexts_fragment_read_limited,
            original_reads::fragment_read_limited,
        ),
    ];
    let mut rows = Vec::new();
    for (name, number, lens, ours, original) in calls {
        rows.extend(lens.iter().map(|len| {
            let chain = inputs::single(number, *len);
            single("reads", name, *len, &chain, ours, original)
        }));
        rows.push(single(
            "reads",
            &format!("{name}, refused"),
            7,
            &inputs::truncated(number),
            ours,
            original,
        ));
    }
    rows
}

/// An IPv4 header, none, and a truncated one.
fn ipv4() -> Vec<Row> {
    let header = inputs::single(inputs::AUTH, 64);
    [
        ("a header of 64 bytes", header),
        ("no header", Chain::new(17, vec![17; 20])),
        ("a truncated header", inputs::truncated(inputs::AUTH)),
    ]
    .map(|(what, chain)| Row {
        group: "reads",
        name: format!("IPv4, owned, read: {what}"),
        unit: "call",
        units: CALLS,
        ours: again(ours::ipexts_ipv4_read, chain.start, chain.ours, CALLS),
        original: again(
            original_reads::ipv4_read,
            chain.start,
            chain.original,
            CALLS,
        ),
        limit: None,
        written: None,
    })
    .into()
}
