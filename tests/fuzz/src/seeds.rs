//! The initial inputs: bytes from the program's own lines, and from chains and packets made by `diff/`.
use crate::input::Input;
use diff::chains;
use diff::forms::{bytes_of, number_and_bytes};
use diff::ours::Start;
use diff::packets;
use diff::random::Random;
use std::collections::BTreeSet;
use std::io;
use std::path::Path;

/// The maximum length of the bytes that are made. Longer ones are taken from the lines or made by the fuzzer.
const LONGEST: usize = 600;

/// The number of cases of each kind.
const DRAWN: usize = 400;

/// Writes each input to a file in a folder. Returns the number of files.
pub fn write(folder: &Path, lines: &[u8], seed: u64) -> io::Result<usize> {
    let mut random = Random::new(seed);
    let lines = lines.split(|byte| *byte == b'\n');
    let mut asked: Vec<chains::Asked> = lines.filter_map(of_line).collect();
    for _ in 0..DRAWN {
        asked.extend(chains::asked(&mut random, LONGEST).into_iter().take(4));
        let packets = packets::asked(&mut random, LONGEST).into_iter().take(4);
        asked.extend(packets.map(|bytes| (0, bytes)));
    }
    let inputs: BTreeSet<Vec<u8>> = asked
        .iter()
        .map(|(start, bytes)| input(*start, bytes, &mut random))
        .collect();
    std::fs::create_dir_all(folder)?;
    for (index, input) in inputs.iter().enumerate() {
        std::fs::write(folder.join(format!("{index:05}")), input)?;
    }
    Ok(inputs.len())
}

/// Returns the number and the bytes of a line, if it has any.
fn of_line(line: &[u8]) -> Option<chains::Asked> {
    let (form, arguments) = std::str::from_utf8(line).ok()?.split_once(' ')?;
    if matches!(form, "packet" | "dissect") {
        return Some((0, bytes_of(arguments)?));
    }
    number_and_bytes(arguments)
}

/// Makes an input with these bytes, with a limit that is kept or exceeded.
fn input(start: u8, bytes: &[u8], random: &mut Random) -> Vec<u8> {
    let max_len = match random.below(3) {
        0 => bytes.len(),
        1 => random.below(bytes.len() + 1),
        _ => 40,
    };
    let input = Input {
        start,
        last: [17, 6, 44, 0][random.below(4)],
        is_over: random.percent(30),
        limit: Start {
            source: random.below(3) as u8,
            max_len: max_len as u32,
            layer_offset: random.below(60) as u32,
            before: if random.percent(70) {
                0
            } else {
                random.below(20) as u8
            },
        },
        bytes,
    };
    input.to_bytes()
}
