//! `rewrite6 N HEX`: the IPv6 extension headers at the start of the bytes that fit into the six places, written
//! again.
use super::{chain_arguments, hex_of, number_and_bytes, Form};
use crate::changes::Changes;
use crate::faults::{push, push_ipv6_fault};
use crate::named::Difference;
use crate::random::Random;
use etherparse::{IpNumber, Ipv6Extensions};

pub struct Rewrite6;

impl Form for Rewrite6 {
    fn name(&self) -> &'static str {
        "rewrite6"
    }

    fn arguments(&self, random: &mut Random) -> Vec<String> {
        chain_arguments(self.name(), random)
    }

    fn answer(
        &self,
        arguments: &str,
        changes: Changes,
        answer: &mut String,
    ) -> Option<Vec<Difference>> {
        let (number, bytes) = number_and_bytes(arguments)?;
        let bytes = changes.asked_chain(number, bytes);
        let (headers, next, rest, fault) = Ipv6Extensions::from_slice_lax(IpNumber(number), &bytes);
        // From number 0, something is read only if there are hop-by-hop options.
        let panics = number == 0 && headers.hop_by_hop_options.is_none();
        let mut written = Vec::new();
        if !panics {
            headers
                .write(&mut written, IpNumber(number))
                .expect("headers that were read are all reached");
        }
        push(
            answer,
            format_args!("next {} rest {}\n", next.0, rest.len()),
        );
        let written = changes.written_chain(number, written);
        push(
            answer,
            format_args!("written {}\n", hex_of(&written, false)),
        );
        match fault {
            None => answer.push_str("ok\n"),
            Some((fault, layer)) => {
                push_ipv6_fault(&fault, answer);
                push(answer, format_args!(" in {layer:?}\n"));
            }
        }
        Some(if panics {
            vec![Difference::WriteFromZeroPanics]
        } else {
            Vec::new()
        })
    }
}
