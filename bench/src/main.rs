//! Compares the time of this project's calls with those of etherparse 0.19.0: calls of the proved crates or, with the feature
//! `package`, of the Rust package.
//!
//!     bench measure RUNS WORD               times of the rows whose names have the word, a line each
//!     bench tool OURS ORIGINAL FOLDER BYTES times of two programs over lines, which are made in FOLDER
//!     bench report FILE..                   the table of such lines; a file for each alignment of our code
//!     bench cost TOOL FILE RUNS             our time for each byte of inputs that are made to take long
mod cost;
mod dissect_rows;
// The functions for single headers are used by tests/diff/ only.
#[allow(dead_code)]
#[path = "../../tests/diff/src/fragment_bits.rs"]
mod fragment_bits;
// Some functions are used by border/ only.
#[allow(dead_code)]
mod inputs;
mod measure;
mod original;
mod original_ipv4;
mod original_reads;
mod original_slices;
#[cfg_attr(feature = "package", path = "package.rs")]
mod ours;
#[path = "../../tests/diff/src/random.rs"]
mod random;
mod read_rows;
mod report;
mod rows;
mod slice_rows;
mod tool;

use etherparse as parser;
use report::Line;
use std::path::Path;
use std::process::ExitCode;

/// The seed of packets and lines.
const SEED: u64 = 1;

fn main() -> ExitCode {
    // Refers to the bytes that move the library, so that they are linked.
    #[cfg(not(feature = "package"))]
    std::hint::black_box(ours::ipexts_shift as unsafe extern "C" fn());
    let arguments: Vec<String> = std::env::args().skip(1).collect();
    let words: Vec<&str> = arguments.iter().map(String::as_str).collect();
    match &words[..] {
        ["measure", runs, word] => measure(runs.parse().expect("RUNS is a number"), word),
        ["tool", ours, original, folder, bytes] => {
            let (folder, len) = (Path::new(folder), bytes.parse().expect("BYTES is a number"));
            let lines = tool::write_lines(folder, len, SEED).expect("FOLDER can be written to");
            tool::measure(ours, original, &lines, 9).print();
        }
        ["report", ..] if words.len() > 1 => {
            if !report::report(&arguments[1..]) {
                return ExitCode::FAILURE;
            }
        }
        ["cost", tool, file, runs] => {
            if !cost::cost(
                tool,
                Path::new(file),
                runs.parse().expect("RUNS is a number"),
            ) {
                return ExitCode::FAILURE;
            }
        }
        _ => {
            eprintln!(
                "bench: measure RUNS WORD, tool OURS ORIGINAL FOLDER BYTES, report FILE.., or cost TOOL FILE RUNS"
            );
            return ExitCode::from(2);
        }
    }
    ExitCode::SUCCESS
}

fn measure(runs: usize, word: &str) {
    for row in rows::rows(SEED) {
        if !row.name.contains(word) {
            continue;
        }
        let times = measure::measure(&row, runs);
        let line = Line {
            group: row.group.to_owned(),
            name: if cfg!(feature = "package") {
                format!("package, {}", row.name)
            } else {
                row.name
            },
            unit: row.unit.to_owned(),
            ours: times.ours,
            original: times.original,
            limit: times.limit.map(|limit| limit.least),
        };
        line.print();
    }
}
