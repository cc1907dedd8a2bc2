//! `exts4 N HEX`: the IPv4 extension headers at the start of the bytes.
use super::{hex_of, number_and_bytes, Form};
use crate::chains::{self, AUTH};
use crate::changes::Changes;
use crate::faults::{push, push_auth_fault};
use crate::named::Difference;
use crate::random::Random;
use etherparse::{IpNumber, Ipv4ExtensionsSlice};

pub struct Exts4;

impl Form for Exts4 {
    fn name(&self) -> &'static str {
        "exts4"
    }

    fn arguments(&self, random: &mut Random) -> Vec<String> {
        let upper = random.percent(10);
        let longest = super::MAX_LINE_LEN - "exts4 255 ".len();
        // Most start numbers are that of the authentication header.
        let named = random.percent(70);
        chains::asked(random, longest / 2)
            .into_iter()
            .map(|(number, bytes)| {
                let start = if named { AUTH } else { number };
                format!("{start} {}", hex_of(&bytes, upper))
            })
            .collect()
    }

    fn answer(
        &self,
        arguments: &str,
        _changes: Changes,
        answer: &mut String,
    ) -> Option<Vec<Difference>> {
        let (number, bytes) = number_and_bytes(arguments)?;
        let (headers, next, rest, fault) =
            Ipv4ExtensionsSlice::from_slice_lax(IpNumber(number), &bytes);
        if let Some(header) = headers.auth {
            push(answer, format_args!("0 auth {}\n", header.slice().len()));
        }
        push(
            answer,
            format_args!("next {} rest {}\n", next.0, rest.len()),
        );
        match fault {
            None => answer.push_str("ok\n"),
            Some(fault) => {
                push_auth_fault(&fault, answer);
                answer.push('\n');
            }
        }
        Some(Vec::new())
    }
}
