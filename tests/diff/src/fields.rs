//! Prints what the library reads from fragment headers and writes, for comparison with another program.
use crate::forms::{bytes_of, hex_of};
use crate::headers::{ours, Question};
use std::io::{self, BufRead, Write};

/// Answers each line, the hexadecimal digits of a fragment header, with its next header, the offset in units of 8
/// bytes, the M flag, whether it makes the payload a fragment, the identification, and the header as it is written
/// again.
pub fn answer_lines(input: impl BufRead, mut output: impl Write) -> io::Result<()> {
    for line in input.lines() {
        let line = line?;
        match fields(&line) {
            Some(text) => writeln!(output, "{text}")?,
            None => writeln!(output, "bad line")?,
        }
    }
    output.flush()
}

/// Returns the answer to a line, or `None` if it isn't the digits of a header.
fn fields(line: &str) -> Option<String> {
    let bytes = bytes_of(line).filter(|bytes| bytes.len() == 8)?;
    let (borrowed, owned) = (
        ours(&Question::FragmentBorrowed(bytes.clone())),
        ours(&Question::FragmentOwned(bytes)),
    );
    let parts = |header: &crate::ours::Header| {
        format!(
            "next {} offset {} more {} fragment {} identification {}",
            header.next_header,
            header.second_number,
            header.flags & 1,
            header.flags >> 1,
            header.number
        )
    };
    let (text, other) = (parts(&borrowed.header), parts(&owned.header));
    assert_eq!(text, other, "the two forms of a header differ");
    assert_eq!(owned.spelled, owned.written, "what is written differs");
    Some(format!("{text} written {}", hex_of(&owned.written, false)))
}

#[cfg(test)]
mod tests {
    use super::*;

    /// The figure in RFC 8200, section 4.5: 13 bits of offset, two reserved bits, and the M flag.
    #[test]
    fn the_fields_lie_where_the_standard_has_them() {
        let asked = "110000080000002a\n1100000100000000\n11ffffffffffffff\n1100000000\n";
        let mut told = Vec::new();
        answer_lines(asked.as_bytes(), &mut told).expect("a Vec takes all bytes");
        let expected = "\
            next 17 offset 1 more 0 fragment 1 identification 42 written 110000080000002a\n\
            next 17 offset 0 more 1 fragment 1 identification 0 written 1100000100000000\n\
            next 17 offset 8191 more 1 fragment 1 identification 4294967295 written 1100fff9ffffffff\n\
            bad line\n";
        assert_eq!(String::from_utf8_lossy(&told), expected);
    }
}
