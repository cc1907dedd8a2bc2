//! `exts6 N HEX`: the chain of IPv6 extension headers at the start of the bytes.
use super::{chain_arguments, number_and_bytes, Form};
use crate::chains::EXTENSIONS;
use crate::changes::Changes;
use crate::faults::{push, push_ipv6_fault};
use crate::named::Difference;
use crate::random::Random;
use etherparse::{IpNumber, Ipv6ExtensionSlice, Ipv6ExtensionsSlice};

pub struct Exts6;

impl Form for Exts6 {
    fn name(&self) -> &'static str {
        "exts6"
    }

    fn arguments(&self, random: &mut Random) -> Vec<String> {
        chain_arguments(self.name(), random)
    }

    fn answer(
        &self,
        arguments: &str,
        changes: Changes,
        answer: &mut String,
    ) -> Option<Vec<Difference>> {
        let (number, bytes) = number_and_bytes(arguments)?;
        let bytes = changes.asked_chain(number, bytes);
        let (headers, next, rest, fault) =
            Ipv6ExtensionsSlice::from_slice_lax(IpNumber(number), &bytes);
        let reads_on = push_headers(headers, answer);
        push(
            answer,
            format_args!("next {} rest {}\n", next.0, rest.len()),
        );
        match fault {
            None => answer.push_str("ok\n"),
            Some((fault, layer)) => {
                push_ipv6_fault(&fault, answer);
                push(answer, format_args!(" in {layer:?}\n"));
            }
        }
        Some(if reads_on {
            vec![Difference::IteratorReadsOn]
        } else {
            Vec::new()
        })
    }
}

/// Appends a line for each header. Returns whether the original's iterator would continue after the end of the
/// chain, because the last header names another one.
fn push_headers(headers: Ipv6ExtensionsSlice<'_>, answer: &mut String) -> bool {
    let end = headers.slice().len();
    let mut headers = headers.into_iter();
    let mut offset = 0;
    let mut next = None;
    while offset < end {
        let header = headers
            .next()
            .expect("a header for the bytes that are left");
        let (name, len, leads_to) = parts(&header);
        push(answer, format_args!("{offset} {name} {len}\n"));
        offset += len;
        next = Some(leads_to);
    }
    next.is_some_and(|next| EXTENSIONS.contains(&next))
}

/// Returns the name of a header, its length, and its next header field.
fn parts(header: &Ipv6ExtensionSlice<'_>) -> (&'static str, usize, u8) {
    match header {
        Ipv6ExtensionSlice::HopByHop(header) => {
            ("hopopt", header.slice().len(), header.next_header().0)
        }
        Ipv6ExtensionSlice::Routing(header) => {
            ("route", header.slice().len(), header.next_header().0)
        }
        Ipv6ExtensionSlice::Fragment(header) => {
            ("frag", header.slice().len(), header.next_header().0)
        }
        Ipv6ExtensionSlice::DestinationOptions(header) => {
            ("dstopts", header.slice().len(), header.next_header().0)
        }
        Ipv6ExtensionSlice::Authentication(header) => {
            ("auth", header.slice().len(), header.next_header().0)
        }
    }
}

#[cfg(test)]
mod tests {
    use super::*;
    use crate::{chains, fragment_bits};

    /// Returns the offsets of byte 3 of the fragment headers that the original finds.
    fn found(number: u8, bytes: &[u8]) -> Vec<usize> {
        let (headers, ..) = Ipv6ExtensionsSlice::from_slice_lax(IpNumber(number), bytes);
        let end = headers.slice().len();
        let (mut headers, mut offset) = (headers.into_iter(), 0);
        let mut places = Vec::new();
        while offset < end {
            let header = headers.next().expect("a header for the bytes left");
            let (name, len, _) = parts(&header);
            if name == "frag" {
                places.push(offset + 3);
            }
            offset += len;
        }
        places
    }

    /// The walk that converts fragment headers changes those that the original finds, and no other byte.
    #[test]
    fn the_fragment_headers_of_a_chain_are_those_that_the_original_finds() {
        let mut random = Random::new(1);
        for _ in 0..5000 {
            for (number, bytes) in chains::asked(&mut random, 2000) {
                let changed = fragment_bits::chain(number, &bytes, |byte| !byte);
                let places: Vec<usize> = (0..bytes.len())
                    .filter(|at| changed[*at] != bytes[*at])
                    .collect();
                assert_eq!(places, found(number, &bytes), "{number} {bytes:02x?}");
            }
        }
    }
}
