//! `dissect HEX`: the packet at the start of the bytes, as far as it is there.
use super::{bytes_of, packet, Form};
use crate::changes::Changes;
use crate::dissections::{dissected, Dissected, End, Fragment};
use crate::faults::{push, push_len, push_packet_error};
use crate::named::Difference;
use crate::random::Random;
use etherparse::err::Layer;

pub struct Dissect;

impl Form for Dissect {
    fn name(&self) -> &'static str {
        "dissect"
    }

    fn arguments(&self, random: &mut Random) -> Vec<String> {
        packet::arguments(self.name(), random)
    }

    fn answer(
        &self,
        arguments: &str,
        changes: Changes,
        answer: &mut String,
    ) -> Option<Vec<Difference>> {
        let bytes = changes.asked_packet(bytes_of(arguments)?);
        let parts = dissected(&bytes);
        if parts.version != 0 {
            push_parts(&parts, answer);
        }
        push_end(&parts.end, answer);
        Some(parts.named)
    }
}

/// Appends the lines before the last one.
fn push_parts(parts: &Dissected<'_>, answer: &mut String) {
    let stated = parts
        .stated
        .map_or("none".to_owned(), |stated| stated.to_string());
    push(
        answer,
        format_args!(
            "ipv{} base {} stated {stated}\n",
            parts.version,
            parts.base.len()
        ),
    );
    let mut offset = parts.base.len();
    for (number, header) in &parts.headers {
        push(
            answer,
            format_args!("{offset} {} {}\n", header_name(*number), header.len()),
        );
        offset += header.len();
    }
    push_fragment(parts.fragment, answer);
    push(
        answer,
        format_args!("next {} rest {}\n", parts.number, parts.payload.len()),
    );
    push(
        answer,
        format_args!(
            "missing {} padding {}\n",
            parts.missing,
            parts.padding.len()
        ),
    );
}

fn header_name(number: u8) -> &'static str {
    match number {
        0 => "hopopt",
        43 => "route",
        44 => "frag",
        51 => "auth",
        _ => "dstopts",
    }
}

fn push_fragment(fragment: Option<Fragment>, answer: &mut String) {
    let Some(fragment) = fragment else {
        answer.push_str("fragment none\n");
        return;
    };
    let kind = match (fragment.has_more, fragment.offset) {
        (false, 0) => "atomic",
        (true, 0) => "first",
        (true, _) => "middle",
        (false, _) => "last",
    };
    let Fragment {
        identification,
        offset,
        ..
    } = fragment;
    push(
        answer,
        format_args!("fragment {kind} id {identification} offset {offset}\n"),
    );
}

fn push_end(end: &End, answer: &mut String) {
    match end {
        End::Payload => answer.push_str("payload"),
        End::LaterFragment => answer.push_str("later fragment"),
        End::Truncated(error, header) => {
            answer.push_str("truncated ");
            push_len(error, answer);
            push_in(header, answer);
        }
        End::Fault(error, header) => {
            push_packet_error(error, answer);
            push_in(header, answer);
        }
    }
    answer.push('\n');
}

fn push_in(header: &Option<Layer>, answer: &mut String) {
    if let Some(layer) = header {
        push(answer, format_args!(" in {layer:?}"));
    }
}

#[cfg(test)]
mod tests {
    use super::*;
    use crate::packets;
    use etherparse::{IpSlice, Ipv6Slice};

    /// Makes a few thousand packets.
    fn asked() -> Vec<Vec<u8>> {
        let mut random = Random::new(1);
        (0..5000)
            .flat_map(|_| packets::asked(&mut random, 2000))
            .collect()
    }

    /// The original returns the same parts for each packet that it accepts and that isn't a later fragment.
    #[test]
    fn the_parts_are_those_of_packets_that_the_original_accepts() {
        let mut accepted = 0;
        for bytes in asked() {
            let Ok(packet) = IpSlice::from_slice(&bytes) else {
                continue;
            };
            let parts = dissected(&bytes);
            if parts.end == End::LaterFragment {
                continue;
            }
            let (base, extensions) = match &packet {
                IpSlice::Ipv4(packet) => {
                    let auth = packet.extensions().auth;
                    (
                        packet.header().slice(),
                        auth.map_or(&[][..], |header| header.slice()),
                    )
                }
                IpSlice::Ipv6(packet) => (packet.header().slice(), packet.extensions().slice()),
            };
            let headers: Vec<&[u8]> = parts.headers.iter().map(|header| header.1).collect();
            assert_eq!((parts.base, &headers.concat()[..]), (base, extensions));
            assert_eq!(parts.payload, packet.payload().payload);
            assert_eq!(parts.number, packet.payload_ip_number().0);
            assert_eq!((parts.missing, parts.end), (0, End::Payload));
            accepted += 1;
        }
        assert!(accepted > 1000, "{accepted}");
    }

    /// The original rejects each packet with an error, also in a lax parse, except later fragments.
    #[test]
    fn packets_with_an_error_are_those_that_the_original_rejects() {
        let mut rejected = 0;
        for bytes in asked() {
            if let End::Truncated(..) | End::Fault(..) = dissected(&bytes).end {
                assert!(IpSlice::from_slice(&bytes).is_err(), "{bytes:02x?}");
                assert!(Ipv6Slice::from_slice_lax(&bytes).is_err(), "{bytes:02x?}");
                rejected += 1;
            }
        }
        assert!(rejected > 1000, "{rejected}");
    }

    /// Each kind of answer occurs among them.
    #[test]
    fn each_kind_of_answer_is_asked_for() {
        let mut answers = String::new();
        for bytes in asked() {
            Dissect.answer(
                &super::super::hex_of(&bytes, false),
                Changes::ALL,
                &mut answers,
            );
        }
        let kinds = [
            "ipv4 base 20 stated none\n",
            "ipv6 base 40 stated none\n",
            "fragment atomic ",
            "fragment first ",
            "fragment middle ",
            "fragment last ",
            "missing 0 padding 1",
            "missing 1",
            "\npayload\n",
            "\nlater fragment\n",
            "truncated len 1 of 0 Slice IpHeader at 0\n",
            " Slice Ipv4Header at 0\n",
            " Slice Ipv6Header at 0\n",
            " Slice Ipv6ExtHeader at ",
            " Slice Ipv6FragHeader at ",
            " Ipv6HeaderPayloadLen Ipv6ExtHeader at ",
            " Ipv6HeaderPayloadLen Ipv6FragHeader at ",
            "truncated len 12 of 0 Slice IpAuthHeader at 20\n",
            " Ipv4HeaderTotalLen IpAuthHeader at ",
            " Ipv4HeaderTotalLen Ipv4Packet at 0\n",
            "fault ZeroPayloadLen\n",
            "fault ZeroPayloadLen in IpAuthHeader\n",
            "fault HopByHopNotAtStart in Ipv6HopByHopHeader\n",
            "fault UnsupportedIpVersion 15\n",
            "fault Ipv4HeaderLengthSmallerThanHeader 4\n",
        ];
        for kind in kinds {
            assert!(answers.contains(kind), "{kind}");
        }
    }
}
