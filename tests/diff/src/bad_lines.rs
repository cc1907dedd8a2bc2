//! Makes invalid lines from a valid one.
use crate::forms::MAX_LINE_LEN;
use crate::random::Random;

/// The number of ways to spoil a line.
const KINDS: usize = 24;

/// Spoils a valid line in one of many ways. A few results are still valid.
pub fn spoilt(line: &str, random: &mut Random) -> Vec<u8> {
    let (word, arguments) = line.split_once(' ').unwrap_or((line, ""));
    let hex = arguments.rsplit(' ').next().unwrap_or("");
    let text = match random.below(KINDS) {
        0 => String::new(),
        1 => word.to_owned(),
        2 => format!("{word} "),
        3 => format!("{word}  {arguments}"),
        4 => format!(" {line}"),
        5 => format!("{line} "),
        6 => format!("{line} 00"),
        7 => format!("{line}\r"),
        8 => format!("{line}0"),
        9 => format!("{line}g0"),
        10 => format!("{word} 256 {hex}"),
        11 => format!("{word} 060 {hex}"),
        12 => format!("{word} -1 {hex}"),
        13 => format!("{word} +6 {hex}"),
        14 => format!("{word}  {hex}"),
        15 => format!("{word} 6a {hex}"),
        16 => format!("{word} 18446744073709551676 {hex}"),
        17 => format!("{word} 60 --"),
        18 => format!("{word} 60 -{hex}"),
        19 => format!("{} {arguments}", word.to_uppercase()),
        20 => format!("{word}x {arguments}"),
        21 => return replaced(line, random),
        22 => return of_length(line, MAX_LINE_LEN - 2 + random.below(5)),
        _ => {
            return random
                .bytes(20)
                .into_iter()
                .filter(|byte| *byte != b'\n')
                .collect()
        }
    };
    text.into_bytes()
}

/// Changes a byte of the line.
fn replaced(line: &str, random: &mut Random) -> Vec<u8> {
    let mut bytes = line.as_bytes().to_vec();
    let at = random.below(bytes.len());
    bytes[at] = match random.next() as u8 {
        b'\n' => 0,
        byte => byte,
    };
    bytes
}

/// Pads the line with digits to about this length, which may be a few bytes too long.
fn of_length(line: &str, len: usize) -> Vec<u8> {
    let mut bytes = line.as_bytes().to_vec();
    bytes.retain(|byte| *byte != b'-');
    bytes.resize(len, b'0');
    bytes
}
