//! The rows of dissections as a filter reads them, compared with the original and with our own search for the payload,
//! and of a filter with one term, compared with the dissection.
//! No packet is a later fragment, so all sides find the same payload.
use crate::inputs::{self, Sides};
use crate::original_slices::{self, IpPlace};
use crate::ours::{self, PacketLoop};
use crate::rows::{over_packets, Row, PACKETS};

/// A call for packets, and one that it is compared with.
struct Form {
    name: &'static str,
    ours: PacketLoop,
    other: PacketLoop,
    /// Whether the other side is also ours, and gets the same bytes.
    is_against_ours: bool,
}

const FORMS: [Form; 4] = [
    Form {
        name: "dissect",
        ours: ours::ipexts_dissect_packets,
        other: original_slices::packets::<IpPlace>,
        is_against_ours: false,
    },
    Form {
        name: "dissect against find_payload",
        ours: ours::ipexts_dissect_packets,
        other: ours::ipexts_find_payload_packets,
        is_against_ours: true,
    },
    Form {
        name: "summarize_packet against find_payload",
        ours: ours::ipexts_summarize_packets,
        other: ours::ipexts_find_payload_packets,
        is_against_ours: true,
    },
    Form {
        name: "header 44 against dissect",
        ours: ours::ipexts_filter_packets,
        other: ours::ipexts_fragmented_packets,
        is_against_ours: true,
    },
];

/// Returns the rows of whole packets and of packets with an error.
pub fn rows(seed: u64) -> Vec<Row> {
    let whole =
        inputs::first_fragments(PACKETS, seed).map(|(what, packets)| (what, Sides::new(packets)));
    let broken = inputs::broken(PACKETS, seed).map(|it| (it.what, Sides::new(it.packets)));
    let mut rows = Vec::new();
    for form in &FORMS {
        rows.extend(whole.iter().map(|input| row("dissections", form, input)));
        rows.extend(
            broken
                .iter()
                .map(|input| row("dissections refused", form, input)),
        );
    }
    rows
}

fn row(group: &'static str, form: &Form, (what, packets): &(&str, Sides)) -> Row {
    let other = if form.is_against_ours {
        packets.ours
    } else {
        packets.original
    };
    Row {
        group,
        name: format!("{}, filter: {what}", form.name),
        unit: "packet",
        units: packets.ours.ends.len(),
        ours: over_packets(form.ours, packets.ours),
        original: over_packets(form.other, other),
        limit: None,
        written: None,
    }
}
