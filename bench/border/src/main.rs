//! Compares the time to parse packets through C, and with the package `wolfaren`, with that of etherparse 0.19.0.
//!
//!     border measure RUNS WORD   times of the rows whose names have the word, a line each
//!     border report FILE..       the table of such lines; a file for each alignment of the library
//!     border packets FILE        writes the IPv6 packets of the rows of filters for other programs, and their time
mod c;
mod dissect;
mod filter;
// The functions for single headers are used by tests/diff/ only.
#[allow(dead_code)]
#[path = "../../../tests/diff/src/fragment_bits.rs"]
mod fragment_bits;
// The inputs for chains and single headers are used by bench/ only.
#[allow(dead_code)]
#[path = "../../src/inputs.rs"]
mod inputs;
// Limits are used by bench/ only.
#[allow(dead_code)]
#[path = "../../src/measure.rs"]
mod measure;
mod original;
mod package;
#[path = "../../../tests/diff/src/random.rs"]
mod random;
#[path = "../../src/report.rs"]
mod report;
mod rows;
mod sums;

use report::Line;
use std::process::ExitCode;

/// The seed of the packets.
const SEED: u64 = 1;

fn main() -> ExitCode {
    // Refers to the bytes that move the library, so that they are linked.
    std::hint::black_box(c::wolfaren_shift as unsafe extern "C" fn());
    let arguments: Vec<String> = std::env::args().skip(1).collect();
    let words: Vec<&str> = arguments.iter().map(String::as_str).collect();
    match &words[..] {
        ["measure", runs, word] => measure(runs.parse().expect("RUNS is a number"), word),
        ["report", ..] if words.len() > 1 => {
            if !report::report(&arguments[1..]) {
                return ExitCode::FAILURE;
            }
        }
        ["packets", path] => match rows::write_packets(SEED, path) {
            Ok(()) => {}
            Err(error) => {
                eprintln!("border: {path}: {error}");
                return ExitCode::FAILURE;
            }
        },
        _ => {
            eprintln!("border: measure RUNS WORD, report FILE.., or packets FILE");
            return ExitCode::from(2);
        }
    }
    ExitCode::SUCCESS
}

fn measure(runs: usize, word: &str) {
    for row in rows::rows(SEED) {
        if !row.name.contains(word) {
            continue;
        }
        if let Some(limit) = &row.limit {
            assert_eq!(limit(), (row.ours)(), "{}: the walk in C differs", row.name);
        }
        let times = measure::measure(&row, runs);
        let line = Line {
            group: row.group.to_owned(),
            name: row.name,
            unit: row.unit.to_owned(),
            ours: times.ours,
            original: times.original,
            limit: times.limit.map(|limit| limit.least),
        };
        line.print();
    }
}
