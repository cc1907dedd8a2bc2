//! `rewriteall6 N HEX`: the IPv6 extension headers at the start of the bytes, in the fewest structs that hold
//! them, written one after another. The original has no such iterator: its struct parse is called again if a place
//! was occupied.
use super::{chain_arguments, hex_of, number_and_bytes, Form};
use crate::chains::EXTENSIONS;
use crate::changes::Changes;
use crate::faults::{push, push_ipv6_fault};
use crate::named::Difference;
use crate::random::Random;
use etherparse::err::ipv6_exts::HeaderSliceError;
use etherparse::err::Layer;
use etherparse::{IpNumber, Ipv6Extensions};

pub struct RewriteAll6;

impl Form for RewriteAll6 {
    fn name(&self) -> &'static str {
        "rewriteall6"
    }

    fn arguments(&self, random: &mut Random) -> Vec<String> {
        chain_arguments(self.name(), random)
    }

    fn answer(
        &self,
        arguments: &str,
        changes: Changes,
        answer: &mut String,
    ) -> Option<Vec<Difference>> {
        let (start, bytes) = number_and_bytes(arguments)?;
        let bytes = changes.asked_chain(start, bytes);
        let all = all_runs(start, &bytes);
        push(
            answer,
            format_args!(
                "runs {} next {} rest {}\n",
                all.count, all.next.0, all.rest_len
            ),
        );
        let written = changes.written_chain(start, all.written);
        push(
            answer,
            format_args!("written {}\n", hex_of(&written, false)),
        );
        match all.fault {
            None => answer.push_str("ok\n"),
            Some((fault, layer)) => {
                push_ipv6_fault(&fault, answer);
                push(answer, format_args!(" in {layer:?}\n"));
            }
        }
        Some(Vec::new())
    }
}

/// Writes the structs that hold the headers of a chain. Returns what follows the last.
struct Runs {
    count: usize,
    written: Vec<u8>,
    next: IpNumber,
    rest_len: usize,
    fault: Option<(HeaderSliceError, Layer)>,
}

fn all_runs(start: u8, bytes: &[u8]) -> Runs {
    let (mut count, mut written) = (0, Vec::new());
    let (mut number, mut rest) = (IpNumber(start), bytes);
    loop {
        let offset = bytes.len() - rest.len();
        let (headers, next, after, fault) = Ipv6Extensions::from_slice_lax(number, rest);
        // From number 0 the original's `write` panics if there are no hop-by-hop options. In that case nothing was
        // read.
        if !headers.is_empty() {
            headers
                .write(&mut written, number)
                .expect("headers that were read are all reached");
        }
        count += 1;
        (number, rest) = (next, after);
        if fault.is_some() || !EXTENSIONS.contains(&number.0) {
            return Runs {
                count,
                written,
                next,
                rest_len: rest.len(),
                fault: fault.map(|(fault, layer)| (fault.add_slice_offset(offset), layer)),
            };
        }
    }
}
