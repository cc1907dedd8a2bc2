//! Runs both sides on the inputs of a fuzzer, and reports the first difference.
//!
//!     fuzz seeds FOLDER FILE SEED     writes initial inputs, made from the lines of FILE and from a seed
//!     fuzz inputs FOLDER              makes all calls on each input in a folder
//!     fuzz lines TOOL FOLDER          checks the tool with a line of each form for each input in a folder
//!     fuzz calls                      prints the names of the calls
//!
//! Compiled with `--cfg afl`, it takes no arguments, and inputs from AFL++ instead of files.
#[cfg(afl)]
mod afl;
mod asked;
mod calls;
#[cfg(not(afl))]
mod command;
mod compare;
mod every_byte;
mod input;
#[cfg(not(afl))]
mod lines;
#[allow(dead_code)] // Some functions are used by bench/ only.
#[path = "../../../bench/src/ours.rs"]
mod measured;
#[allow(dead_code)]
#[path = "../../../bench/src/original.rs"]
mod original;
#[allow(dead_code)]
#[path = "../../../bench/src/original_ipv4.rs"]
mod original_ipv4;
#[allow(dead_code)]
#[path = "../../../bench/src/original_reads.rs"]
mod original_reads;
#[allow(dead_code)]
#[path = "../../../bench/src/original_slices.rs"]
mod original_slices;
mod ours;
mod plant;
#[cfg(not(afl))]
mod seeds;
mod sources;

use etherparse as parser;
use plant::Plant;

/// Aborts at a difference, which AFL++ keeps as a crash.
#[cfg(afl)]
fn main() {
    let (calls, plant) = (calls::calls(), Plant::from_environment());
    afl::each_input(|input| {
        if let Err(difference) = compare::compare(&calls, &plant, input) {
            eprintln!("{difference}");
            std::process::abort();
        }
    });
}

#[cfg(not(afl))]
fn main() -> std::process::ExitCode {
    let arguments: Vec<String> = std::env::args().skip(1).collect();
    let words: Vec<&str> = arguments.iter().map(String::as_str).collect();
    match command::run(&words, &Plant::from_environment()) {
        Ok(code) => code,
        Err(error) => {
            eprintln!("fuzz: {error}");
            std::process::ExitCode::from(2)
        }
    }
}
