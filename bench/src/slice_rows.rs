//! The rows of whole packets: valid packets of either version, and rejected ones.
use crate::inputs::{self, Packets, Sides};
use crate::original_slices::{self, Packet};
use crate::ours::{self, PacketCall, PacketLoop};
use crate::rows::{over_packets, Row, Work, CALLS, PACKETS};
use std::hint::black_box;

/// A way to parse a packet, on both sides.
struct Form {
    name: &'static str,
    reading: &'static str,
    ours: PacketCall,
    original: PacketCall,
    our_loop: PacketLoop,
    original_loop: PacketLoop,
}

fn form<P: Packet>(
    name: &'static str,
    reading: &'static str,
    ours: PacketCall,
    our_loop: PacketLoop,
) -> Form {
    Form {
        name,
        reading,
        ours,
        original: original_slices::packet::<P>,
        our_loop,
        original_loop: original_slices::packets::<P>,
    }
}

/// Packets of either version.
fn ip_forms() -> [Form; 2] {
    use ours::*;
    [
        form::<original_slices::Ip>("IpSlice", "in full", ipexts_ip, ipexts_ip_packets),
        form::<original_slices::IpFilter>(
            "IpSlice",
            "filter",
            ipexts_ip_filter,
            ipexts_ip_filter_packets,
        ),
    ]
}

/// IPv4 packets.
fn ipv4_forms() -> [Form; 2] {
    use ours::*;
    [
        form::<original_slices::Ipv4>(
            "Ipv4Slice",
            "in full",
            ipexts_ipv4_slice,
            ipexts_ipv4_slice_packets,
        ),
        form::<original_slices::Ipv4Filter>(
            "Ipv4Slice",
            "filter",
            ipexts_ipv4_slice_filter,
            ipexts_ipv4_slice_filter_packets,
        ),
    ]
}

/// IPv6 packets, strict and lax.
fn ipv6_forms() -> [Form; 4] {
    use ours::*;
    [
        form::<original_slices::Ipv6>(
            "Ipv6Slice, strict",
            "in full",
            ipexts_ipv6_slice,
            ipexts_ipv6_slice_packets,
        ),
        form::<original_slices::Ipv6Filter>(
            "Ipv6Slice, strict",
            "filter",
            ipexts_ipv6_slice_filter,
            ipexts_ipv6_slice_filter_packets,
        ),
        form::<original_slices::Ipv6Lax>(
            "Ipv6Slice, lax",
            "in full",
            ipexts_ipv6_slice_lax,
            ipexts_ipv6_slice_lax_packets,
        ),
        form::<original_slices::Ipv6LaxFilter>(
            "Ipv6Slice, lax",
            "filter",
            ipexts_ipv6_slice_lax_filter,
            ipexts_ipv6_slice_lax_filter_packets,
        ),
    ]
}

/// Returns all rows, with the same IPv6 packets as the rows of chains, and with others.
pub fn rows(ipv6: Sides, seed: u64) -> Vec<Row> {
    let ipv4 = Sides::new(inputs::ipv4_packets(PACKETS, seed));
    let both = Sides::new(inputs::alternating(ipv4.ours, ipv6.ours));
    let mut rows = Vec::new();
    let mut add = |forms: &[Form], inputs: &[(&str, Sides)]| {
        for form in forms {
            for (what, packets) in inputs.iter().copied() {
                rows.push(one_loop(form, what, packets));
                rows.push(a_call_each(form, what, packets));
            }
            rows.extend(refusals(form));
        }
    };
    add(
        &ip_forms(),
        &[
            ("IPv6", ipv6),
            ("IPv4", ipv4),
            ("either version in turn", both),
        ],
    );
    add(&ipv4_forms(), &[("IPv4", ipv4)]);
    add(&ipv6_forms(), &[("IPv6", ipv6)]);
    rows
}

/// Makes a row of one exported loop over all packets.
fn one_loop(form: &Form, what: &str, packets: Sides) -> Row {
    Row {
        group: "whole packets, one loop",
        name: format!("{}, {}: {what}, one loop", form.name, form.reading),
        unit: "packet",
        units: packets.ours.ends.len(),
        ours: over_packets(form.our_loop, packets.ours),
        original: over_packets(form.original_loop, packets.original),
        limit: None,
        written: None,
    }
}

/// Makes a row with one call per packet.
fn a_call_each(form: &Form, what: &str, packets: Sides) -> Row {
    let over = |call: PacketCall, packets: &'static Packets| -> Work {
        let each = packets.each();
        Box::new(move || {
            let call = black_box(call);
            each.iter().fold(0u64, |sum, packet| {
                sum.rotate_left(1) ^ unsafe { call(packet.as_ptr(), packet.len()) }
            })
        })
    };
    Row {
        group: "whole packets, a call each",
        name: format!("{}, {}: {what}, a call each", form.name, form.reading),
        unit: "packet",
        units: packets.ours.ends.len(),
        ours: over(form.ours, packets.ours),
        original: over(form.original, packets.original),
        limit: None,
        written: None,
    }
}

/// Makes rows for each rejected packet that applies to the type.
fn refusals(form: &Form) -> Vec<Row> {
    let lax = form.name.ends_with("lax");
    inputs::refused_packets()
        .into_iter()
        .filter(|refused| match refused.version {
            4 => !form.name.starts_with("Ipv6"),
            6 => !(form.name.starts_with("Ipv4") || lax && refused.truncated),
            _ => true,
        })
        .map(|refused| {
            let over = |call: PacketCall, bytes: Vec<u8>| -> Work {
                Box::new(move || {
                    let call = black_box(call);
                    (0..CALLS).fold(0u64, |sum, _| {
                        let bytes = black_box(&bytes[..]);
                        sum.rotate_left(1) ^ unsafe { call(bytes.as_ptr(), bytes.len()) }
                    })
                })
            };
            Row {
                group: "whole packets refused",
                name: format!("{}, {}: refused, {}", form.name, form.reading, refused.why),
                unit: "call",
                units: CALLS,
                ours: over(form.ours, refused.ours),
                original: over(form.original, refused.original),
                limit: None,
                written: None,
            }
        })
        .collect()
}
