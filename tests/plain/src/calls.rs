//! Answers lines by calls of the Rust package. The argument says what the lines are:
//!
//!     `count`       a packet after `p`, or a frame without one (`o`) or a truncated one (`t`), as tests/c/statistics.c reads
//!                   them; after the last line, all counts
//!     `defragment`  a context, a time in nanoseconds and a packet: the whole packet, if there is one now, or `-`
//!     `bpf`         a program, 8 bytes an instruction, and packets: `accepted` and what it returns on each, or the error
//!     `rewrite`     a call, whether checks may become invalid (0 or 1), a number, an index, other bytes and a packet: the new
//!                   packet and whether checksums hold, or the error
//!
//! Bytes are in hexadecimal, after an `x`.
use etherparse::bpf::{Instruction, Program};
use etherparse::defragment::{Defragmenter, Outcome, OwnedDefragmenter, Settings};
use etherparse::rewrite::{
    clear_reserved_bits, in_order, remove_header, with_header, with_payload, Authentication,
    RewriteError, Rewritten, Which,
};
use etherparse::statistics::{CaptureStatistics, Statistics};
use etherparse::IpNumber;
use std::io::{BufRead, Write};

/// Room for the longest packet with another header.
const ROOM: usize = 80_000;

fn bytes_of(word: &str) -> Vec<u8> {
    let digit = |byte: &u8| (*byte as char).to_digit(16).expect("a digit") as u8;
    let digits = &word.as_bytes()[1..];
    digits
        .chunks(2)
        .map(|pair| digit(&pair[0]) * 16 + digit(&pair[1]))
        .collect()
}

fn digits_of(bytes: &[u8]) -> String {
    bytes.iter().map(|byte| format!("{byte:02x}")).collect()
}

fn new_statistics() -> CaptureStatistics {
    let mut statistics = CaptureStatistics {
        version: 0,
        size: 0,
        other_frames: 0,
        truncated_frames: 0,
        packets: Statistics::new(),
    };
    statistics.clear();
    statistics
}

fn count(line: &str, statistics: &mut CaptureStatistics) {
    match line.as_bytes()[0] {
        b'p' => statistics.packets.count_packet(&bytes_of(line)),
        b'o' => statistics.count_other_frame(),
        _ => statistics.count_truncated_frame(),
    }
}

fn counts(of: &CaptureStatistics) -> Vec<u64> {
    let it = &of.packets;
    let mut all = vec![
        of.other_frames,
        of.truncated_frames,
        it.packets,
        it.without_header,
    ];
    all.extend([
        it.ipv4,
        it.ipv6,
        it.at_payload,
        it.at_later_fragment,
        it.at_truncated_header,
    ]);
    all.extend([
        it.at_fault,
        it.atomic_fragments,
        it.first_fragments,
        it.middle_fragments,
    ]);
    all.extend([it.last_fragments, it.incomplete, it.payload_bytes]);
    all.extend(
        it.chain_headers
            .iter()
            .chain(&it.chain_bytes)
            .chain(&it.headers),
    );
    all.extend(it.payload_numbers.iter().chain(&it.later_fragment_numbers));
    all.extend(it.truncated_headers.iter().chain(&it.faults));
    all
}

fn defragmented(line: &str, defragmenter: &mut Defragmenter, out: &mut [u8]) -> String {
    let words: Vec<&str> = line.split(' ').collect();
    let (context, time) = (
        words[0].parse().expect("a context"),
        words[1].parse().expect("a time"),
    );
    let packet = bytes_of(words[2]);
    match defragmenter.add(context, time, &packet).outcome {
        Outcome::NotFragment => digits_of(&packet),
        Outcome::Whole(index) => match defragmenter.memories[index].write(out) {
            Ok(Some(len)) => digits_of(&out[..len]),
            other => format!("{other:?}"),
        },
        _ => "-".to_string(),
    }
}

fn rewritten(line: &str, out: &mut [u8]) -> Result<Rewritten, RewriteError> {
    let words: Vec<&str> = line.split(' ').collect();
    let authentication = match words[1] {
        "0" => Authentication::Valid,
        _ => Authentication::Invalid,
    };
    let number = IpNumber(words[2].parse().expect("a number"));
    let index = words[3].parse().expect("an index");
    let (other, packet) = (bytes_of(words[4]), bytes_of(words[5]));
    match words[0] {
        "remove_headers" => remove_header(&packet, Which::Number(number), authentication, out),
        "remove_header" => remove_header(&packet, Which::Index(index), authentication, out),
        "with_header" => with_header(&packet, number, &other, index, authentication, out),
        "with_payload" => with_payload(&packet, number, &other, authentication, out),
        "clear_reserved_bits" => clear_reserved_bits(&packet, authentication, out),
        _ => in_order(&packet, authentication, out),
    }
}

fn returned(line: &str) -> String {
    let mut words = line.split(' ');
    let instructions: Vec<Instruction> = bytes_of(words.next().expect("a program"))
        .chunks(8)
        .map(|it| Instruction {
            code: u16::from_be_bytes([it[0], it[1]]),
            jt: it[2],
            jf: it[3],
            k: u32::from_be_bytes([it[4], it[5], it[6], it[7]]),
        })
        .collect();
    match Program::new(&instructions) {
        Ok(program) => words.fold("accepted".to_string(), |said, packet| {
            format!("{said} {}", program.run(&bytes_of(packet)))
        }),
        Err(error) => format!("{error:?}"),
    }
}

fn main() {
    let what = std::env::args().nth(1).expect("what the lines are");
    let mut output = std::io::stdout().lock();
    let mut parts = [new_statistics(), new_statistics(), new_statistics()];
    let mut memory = OwnedDefragmenter::try_new(4096, Settings::new([3, 4])).expect("memory");
    let mut defragmenter = memory.defragmenter();
    let mut out = vec![0; ROOM];
    for (index, line) in std::io::stdin().lock().lines().enumerate() {
        let line = line.expect("a line");
        let answer = match &what[..] {
            "count" => {
                count(&line, &mut parts[index % 3]);
                continue;
            }
            "defragment" => defragmented(&line, &mut defragmenter, &mut out),
            "bpf" => returned(&line),
            _ => match rewritten(&line, &mut out) {
                Ok(it) => format!("{} {}", digits_of(&out[..it.len]), it.keeps_checksums),
                Err(error) => format!("{error:?}"),
            },
        };
        writeln!(output, "{answer}")
            .and_then(|()| output.flush())
            .expect("output");
    }
    if what == "count" {
        let [mut all, second, third] = parts;
        assert!(all.merge(&second) && all.merge(&third));
        counts(&all).iter().for_each(|count| println!("{count}"));
    }
}
