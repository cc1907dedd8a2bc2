//! `packet HEX`: the IP packet at the start of the bytes.
use super::{bytes_of, hex_of, Form, MAX_LINE_LEN};
use crate::changes::Changes;
use crate::faults::{push, push_packet_fault};
use crate::named::Difference;
use crate::packets;
use crate::random::Random;
use etherparse::IpSlice;

pub struct Packet;

impl Form for Packet {
    fn name(&self) -> &'static str {
        "packet"
    }

    fn arguments(&self, random: &mut Random) -> Vec<String> {
        arguments(self.name(), random)
    }

    fn answer(
        &self,
        arguments: &str,
        changes: Changes,
        answer: &mut String,
    ) -> Option<Vec<Difference>> {
        let bytes = changes.asked_packet(bytes_of(arguments)?);
        let mut named = Vec::new();
        match IpSlice::from_slice(&bytes) {
            Ok(packet) => push_parts(&packet, answer),
            Err(fault) => {
                let changed = changes.packet_fault(&bytes, &fault);
                if changed.is_some() {
                    named.push(Difference::StrictSourceIsPayloadLength);
                }
                push_packet_fault(&changed.unwrap_or(fault), answer);
            }
        }
        Some(named)
    }
}

/// Makes hexadecimal digits for a form with this name that takes a packet.
pub fn arguments(name: &str, random: &mut Random) -> Vec<String> {
    let upper = random.percent(10);
    let longest = MAX_LINE_LEN - name.len() - " ".len();
    packets::asked(random, longest / 2)
        .into_iter()
        .map(|bytes| hex_of(&bytes, upper))
        .collect()
}

/// Appends the lengths of the parts, and the properties of the payload.
fn push_parts(packet: &IpSlice<'_>, answer: &mut String) {
    let (name, header, exts) = match packet {
        IpSlice::Ipv4(packet) => {
            let auth = packet.extensions().auth;
            let exts = auth.map_or(0, |header| header.slice().len());
            ("ipv4", packet.header().slice().len(), exts)
        }
        IpSlice::Ipv6(packet) => {
            let exts = packet.extensions().slice().len();
            ("ipv6", packet.header().slice().len(), exts)
        }
    };
    let payload = packet.payload();
    push(
        answer,
        format_args!(
            "{name} header {header} exts {exts} payload {}\n",
            payload.payload.len()
        ),
    );
    let fragmented = if packet.is_fragmenting_payload() {
        "yes"
    } else {
        "no"
    };
    push(
        answer,
        format_args!(
            "next {} fragmented {fragmented} source {:?}\nok\n",
            packet.payload_ip_number().0,
            payload.len_source
        ),
    );
}

#[cfg(test)]
mod tests {
    use super::*;

    fn answer(hex: &str, changes: Changes) -> (String, Vec<Difference>) {
        let mut text = String::new();
        let named = Packet.answer(hex, changes, &mut text);
        (text, named.expect("the arguments are of this form"))
    }

    /// Makes an IPv6 packet with a payload length, a next header, and these bytes after its IPv6 header.
    fn ipv6(payload_length: u8, next: u8, after: &str) -> String {
        format!(
            "60000000{payload_length:04x}{next:02x}40{}{after}",
            "00".repeat(32)
        )
    }

    /// The source of an error in the headers is the slice if the payload length is 0, and nothing else changes.
    #[test]
    fn the_source_of_a_fault_in_the_headers_is_the_one_really_used() {
        for (next, after) in [(60, "2b00000000000000"), (44, "11"), (51, "1101")] {
            let hex = ipv6(0, next, after);
            let (original, named) = answer(&hex, Changes::NONE);
            assert!(original.contains(" Ipv6HeaderPayloadLen ") && named.is_empty());
            let (expected, named) = answer(&hex, Changes::ALL);
            assert_eq!(expected, original.replace("Ipv6HeaderPayloadLen", "Slice"));
            assert_eq!(named, [Difference::StrictSourceIsPayloadLength]);
        }
    }

    /// Every other answer is the original's: if the payload length bounds the headers, if no bytes follow the IPv6
    /// header, for other errors and those of the IPv6 header, without an error, and for IPv4.
    #[test]
    fn no_other_source_is_replaced() {
        let ipv4 = format!("45000018000000004033{}11010000", "00".repeat(10));
        for hex in [
            ipv6(8, 60, "2b00000000000000"),
            ipv6(9, 60, "2b00000000000000"),
            ipv6(0, 60, ""),
            ipv6(0, 51, "110000000000000000000000"),
            ipv6(0, 60, "0000000000000000"),
            ipv6(0, 60, "1100000000000000"),
            ipv6(0, 17, "")[..78].to_owned(),
            ipv4,
        ] {
            let (expected, named) = answer(&hex, Changes::ALL);
            assert_eq!((expected, named), answer(&hex, Changes::NONE), "{hex}");
        }
    }

    /// A fragment header with only the M flag, and one with only reserved bits.
    #[test]
    fn a_packet_is_a_fragment_by_the_bits_of_the_standard() {
        for payload_length in [0, 8] {
            for (low, fragmented) in [("01", "yes"), ("06", "no"), ("08", "yes"), ("00", "no")] {
                let hex = ipv6(payload_length, 44, &format!("110000{low}00000000"));
                let (expected, _) = answer(&hex, Changes::ALL);
                assert!(
                    expected.contains(&format!("fragmented {fragmented}")),
                    "{hex}"
                );
            }
        }
    }

    /// Each kind of answer occurs among a few thousand lines.
    #[test]
    fn each_kind_of_answer_is_asked_for() {
        let mut random = Random::new(1);
        let mut answers = String::new();
        for _ in 0..5000 {
            for arguments in Packet.arguments(&mut random) {
                Packet.answer(&arguments, Changes::ALL, &mut answers);
            }
        }
        let kinds = [
            "ipv4 header 20 exts 0",
            "ipv4 header 20 exts 12",
            "ipv4 header 60 ",
            "ipv6 header 40 exts 0",
            "ipv6 header 40 exts 16",
            "fragmented yes source Ipv4HeaderTotalLen",
            "fragmented no source Ipv4HeaderTotalLen",
            "fragmented yes source Ipv6HeaderPayloadLen",
            "fragmented no source Ipv6HeaderPayloadLen",
            "fragmented yes source Slice",
            "fragmented no source Slice",
            "Slice IpHeader at 0",
            "Slice Ipv4Header at 0",
            "Slice Ipv4Packet at 0",
            "Ipv4HeaderTotalLen Ipv4Packet at 0",
            "Ipv4HeaderTotalLen IpAuthHeader at 20",
            "Slice Ipv6Header at 0",
            "Slice Ipv6Packet at 0",
            "Ipv6HeaderPayloadLen Ipv6FragHeader at 40",
            "Ipv6HeaderPayloadLen IpAuthHeader at ",
            "Ipv6HeaderPayloadLen Ipv6ExtHeader at 48",
            "Slice Ipv6FragHeader at 40",
            "Slice IpAuthHeader at ",
            "Slice Ipv6ExtHeader at 48",
            "fault ZeroPayloadLen",
            "fault HopByHopNotAtStart",
            "fault UnsupportedIpVersion 0",
            "fault UnsupportedIpVersion 15",
            "fault Ipv4HeaderLengthSmallerThanHeader 4",
        ];
        for kind in kinds {
            assert!(answers.contains(kind), "{kind}");
        }
    }
}
