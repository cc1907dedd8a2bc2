//! The forms of a line. To add a form, add a file here and a line in `forms`.
mod dissect;
mod exts4;
mod exts6;
mod packet;
mod rewrite6;
mod rewriteall6;

use crate::chains;
use crate::changes::Changes;
use crate::named::Difference;
use crate::random::Random;

/// The maximum length of a line in bytes.
pub const MAX_LINE_LEN: usize = 8192;

/// A form of a line: how its lines are made, and what the original answers.
pub trait Form {
    /// The first word of its lines.
    fn name(&self) -> &'static str;

    /// Makes the arguments of some related lines, such as a chain truncated at every byte.
    fn arguments(&self, random: &mut Random) -> Vec<String>;

    /// Appends the original's answer with the changes. Returns `None` if the arguments aren't of this form.
    fn answer(
        &self,
        arguments: &str,
        changes: Changes,
        answer: &mut String,
    ) -> Option<Vec<Difference>>;
}

/// Returns all forms.
pub fn forms() -> Vec<Box<dyn Form>> {
    vec![
        Box::new(exts6::Exts6),
        Box::new(exts4::Exts4),
        Box::new(rewrite6::Rewrite6),
        Box::new(rewriteall6::RewriteAll6),
        Box::new(packet::Packet),
        Box::new(dissect::Dissect),
    ]
}

/// Appends the original's answer to a line with the changes. Returns the known differences that occurred.
pub fn answer(
    forms: &[Box<dyn Form>],
    line: &[u8],
    changes: Changes,
    answer: &mut String,
) -> Vec<Difference> {
    let before = answer.len();
    asked(forms, line, changes, answer).unwrap_or_else(|| {
        answer.truncate(before);
        answer.push_str("bad line\n");
        Vec::new()
    })
}

fn asked(
    forms: &[Box<dyn Form>],
    line: &[u8],
    changes: Changes,
    answer: &mut String,
) -> Option<Vec<Difference>> {
    if line.len() > MAX_LINE_LEN {
        return None;
    }
    let (word, arguments) = std::str::from_utf8(line).ok()?.split_once(' ')?;
    forms
        .iter()
        .find(|form| form.name() == word)?
        .answer(arguments, changes, answer)
}

/// Makes a number and hexadecimal digits for a form with this name that parses a chain of IPv6 extension headers.
pub fn chain_arguments(name: &str, random: &mut Random) -> Vec<String> {
    let upper = random.percent(10);
    let longest = MAX_LINE_LEN - name.len() - " 255 ".len();
    chains::asked(random, longest / 2)
        .into_iter()
        .map(|(number, bytes)| format!("{number} {}", hex_of(&bytes, upper)))
        .collect()
}

/// Parses `N HEX`.
pub fn number_and_bytes(arguments: &str) -> Option<(u8, Vec<u8>)> {
    let (number, hex) = arguments.split_once(' ')?;
    Some((number_of(number)?, bytes_of(hex)?))
}

fn number_of(text: &str) -> Option<u8> {
    let plain = text == "0" || !text.starts_with(['0', '+']);
    plain.then(|| text.parse().ok()).flatten()
}

/// Parses hexadecimal digits, or `-` for no bytes.
pub fn bytes_of(hex: &str) -> Option<Vec<u8>> {
    if hex == "-" {
        return Some(Vec::new());
    }
    if hex.is_empty() || hex.len() % 2 != 0 {
        return None;
    }
    let mut bytes = Vec::with_capacity(hex.len() / 2);
    for pair in hex.as_bytes().chunks_exact(2) {
        bytes.push(digit(pair[0])? * 16 + digit(pair[1])?);
    }
    Some(bytes)
}

fn digit(byte: u8) -> Option<u8> {
    match byte {
        b'0'..=b'9' => Some(byte - b'0'),
        b'a'..=b'f' => Some(byte - b'a' + 10),
        b'A'..=b'F' => Some(byte - b'A' + 10),
        _ => None,
    }
}

/// Formats bytes as hexadecimal digits of either case, or `-`.
pub fn hex_of(bytes: &[u8], upper: bool) -> String {
    const LOWER: &[u8; 16] = b"0123456789abcdef";
    const UPPER: &[u8; 16] = b"0123456789ABCDEF";
    if bytes.is_empty() {
        return "-".to_owned();
    }
    let digits = if upper { UPPER } else { LOWER };
    let digit = |value: u8| char::from(digits[usize::from(value)]);
    bytes
        .iter()
        .flat_map(|byte| [digit(byte / 16), digit(byte % 16)])
        .collect()
}
