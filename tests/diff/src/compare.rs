//! Runs both sides, and reports the first difference that isn't a known one.
use crate::bad_lines::spoilt;
use crate::chains;
use crate::changes::Changes;
use crate::forms::{answer, forms};
use crate::headers::{original, Answer, Question};
use crate::named::Difference;
use crate::ours::Start;
use crate::random::Random;
use crate::reads::{self, Kind};
use std::collections::BTreeMap;
use std::io::{self, BufRead, BufReader, BufWriter, Write};
use std::process::{Command, Stdio};

/// How often each known difference occurred.
pub type Counts = BTreeMap<Difference, u64>;

/// The result of a comparison.
pub enum Outcome {
    /// The results are the same, except for these known differences.
    Same(Counts),
    /// A description of the first difference.
    Different(String),
}

/// Makes lines from a seed: of random forms, and every tenth is damaged.
fn lines(seed: u64, count: usize) -> impl Iterator<Item = Vec<u8>> {
    let forms = forms();
    let mut random = Random::new(seed);
    let mut waiting: Vec<Vec<u8>> = Vec::new();
    (0..count).map(move |_| {
        if waiting.is_empty() {
            let form = &forms[random.below(forms.len())];
            let good = form
                .arguments(&mut random)
                .into_iter()
                .map(|text| format!("{} {text}", form.name()));
            waiting = good
                .map(|line| {
                    if random.percent(10) {
                        spoilt(&line, &mut random)
                    } else {
                        line.into_bytes()
                    }
                })
                .collect();
        }
        waiting.pop().unwrap_or_default()
    })
}

/// Compares the tool with the original on `count` lines from a seed.
pub fn lines_of_tool(tool: &str, seed: u64, count: usize) -> io::Result<Outcome> {
    answers_of_tool(tool, move || lines(seed, count), seed % 2 == 0)
}

/// Compares the tool with the original on the same lines. The last one may lack its newline if it isn't empty.
pub fn answers_of_tool<L: Iterator<Item = Vec<u8>>>(
    tool: &str,
    lines: impl Fn() -> L + Clone + Send + 'static,
    ends_in_newline: bool,
) -> io::Result<Outcome> {
    let mut child = Command::new(tool)
        .stdin(Stdio::piped())
        .stdout(Stdio::piped())
        .spawn()?;
    let mut asked = BufWriter::new(child.stdin.take().expect("standard input is piped"));
    let mut answers = BufReader::new(child.stdout.take().expect("standard output is piped"));
    let again = lines.clone();
    let writer = std::thread::spawn(move || -> io::Result<()> {
        let mut lines = lines().peekable();
        while let Some(line) = lines.next() {
            asked.write_all(&line)?;
            if lines.peek().is_some() || line.is_empty() || ends_in_newline {
                asked.write_all(b"\n")?;
            }
        }
        asked.flush()
    });
    let outcome = compare_lines(&mut answers, again())?;
    if matches!(outcome, Outcome::Different(_)) {
        // The remaining lines, and the thread that waits to write them, end with this program.
        child.kill()?;
        child.wait()?;
        return Ok(outcome);
    }
    writer.join().expect("the lines are made")?;
    if !child.wait()?.success() {
        return Ok(Outcome::Different(
            "our tool ended with another status than 0".to_owned(),
        ));
    }
    Ok(outcome)
}

fn compare_lines(
    answers: &mut impl BufRead,
    lines: impl Iterator<Item = Vec<u8>>,
) -> io::Result<Outcome> {
    let forms = forms();
    let mut counts = Counts::new();
    let (mut expected, mut ours) = (String::new(), Vec::new());
    for (index, line) in lines.enumerate() {
        expected.clear();
        for difference in answer(&forms, &line, Changes::ALL, &mut expected) {
            *counts.entry(difference).or_default() += 1;
        }
        ours.clear();
        for _ in 0..expected.matches('\n').count() {
            answers.read_until(b'\n', &mut ours)?;
        }
        if ours != expected.as_bytes() {
            let (line, ours) = (
                String::from_utf8_lossy(&line),
                String::from_utf8_lossy(&ours),
            );
            return Ok(Outcome::Different(format!(
                "line {}: {line}\nthe original:\n{expected}ours:\n{ours}",
                index + 1
            )));
        }
    }
    if answers.read_until(b'\n', &mut ours)? > 0 {
        return Ok(Outcome::Different(
            "our tool answers more lines than it was asked".to_owned(),
        ));
    }
    Ok(Outcome::Same(counts))
}

/// Compares `count` single headers. `ours` returns our results.
pub fn single_headers(ours: impl Fn(&Question) -> Answer, seed: u64, count: usize) -> Outcome {
    let mut random = Random::new(seed);
    for index in 0..count {
        let question = question(&mut random);
        let (ours, original) = (ours(&question), original(&question));
        if ours != original {
            return Outcome::Different(format!(
                "header {}: {question:?}\nthe original: {original:?}\nours: {ours:?}",
                index + 1
            ));
        }
    }
    Outcome::Same(Counts::new())
}

/// Compares `count` reads. `ours` returns our results.
pub fn all_reads(
    ours: impl Fn(&reads::Question) -> reads::Answer,
    seed: u64,
    count: usize,
) -> Outcome {
    let mut random = Random::new(seed);
    let mut waiting: Vec<reads::Question> = Vec::new();
    for index in 0..count {
        if waiting.is_empty() {
            waiting = read_questions(&mut random);
        }
        let Some(question) = waiting.pop() else {
            continue;
        };
        let (ours, original) = (ours(&question), reads::original(&question));
        if ours != original {
            return Outcome::Different(format!(
                "read {}: {question:?}\nthe original: {original:?}\nours: {ours:?}",
                index + 1
            ));
        }
    }
    Outcome::Same(Counts::new())
}

/// Makes some related reads: of a header whose length is right, off by a few bytes, or random; or of a chain.
fn read_questions(random: &mut Random) -> Vec<reads::Question> {
    let (raw, auth) = (8 * (1 + units(random)), 4 * (3 + units(random)).min(257));
    let (kind, asked) = match random.below(8) {
        0 => (
            Kind::Raw,
            vec![(0, header_bytes(random, raw, (raw / 8 - 1) as u8))],
        ),
        1 => (
            Kind::Auth,
            vec![(0, header_bytes(random, auth, (auth / 4 - 2) as u8))],
        ),
        2 => (Kind::Fragment, vec![(0, fragment_bytes(random))]),
        3 => (Kind::Ipv4, chains::asked(random, 6000)),
        _ => (Kind::Ipv6, chains::asked(random, 6000)),
    };
    asked
        .into_iter()
        .map(|(number, bytes)| read_question(kind, number, bytes, random))
        .collect()
}

fn read_question(kind: Kind, number: u8, bytes: Vec<u8>, random: &mut Random) -> reads::Question {
    let start = if kind == Kind::Ipv4 && random.percent(70) {
        chains::AUTH
    } else {
        number
    };
    let is_over = random.percent(30);
    if random.percent(40) {
        return reads::Question {
            kind,
            start,
            is_over,
            limit: None,
            bytes,
        };
    }
    let before = if random.percent(50) {
        0
    } else {
        random.below(60)
    };
    let mut all = random.bytes(before);
    all.extend(bytes);
    reads::Question {
        kind,
        start,
        is_over,
        limit: Some(Start {
            source: random.below(3) as u8,
            max_len: limit(before, all.len(), random) as u32,
            layer_offset: if random.percent(80) {
                random.below(100) as u32
            } else {
                random.next() as u32
            },
            before: before as u8,
        }),
        bytes: all,
    }
}

/// Makes a limit that is kept by all the bytes, or exceeded by few or many.
fn limit(before: usize, len: usize, random: &mut Random) -> usize {
    match random.below(10) {
        0..2 => len,
        2..4 => len.saturating_sub(random.below(20)),
        4..6 => before + random.below(40),
        6..8 => random.below(len + 1),
        8 => len + random.below(20),
        _ => random.next() as u32 as usize,
    }
}

/// Makes a case for a single header. Lengths are right, off by a few bytes, or random.
fn question(random: &mut Random) -> Question {
    let raw = 8 * (1 + units(random));
    let auth = 4 * (3 + units(random)).min(257);
    match random.below(8) {
        0 => Question::RawBorrowed(header_bytes(random, raw, (raw / 8 - 1) as u8)),
        1 => Question::RawOwned(header_bytes(random, raw, (raw / 8 - 1) as u8)),
        2 => Question::RawNew(random.next() as u8, part(random, raw - 2)),
        3 => Question::AuthBorrowed(header_bytes(random, auth, (auth / 4 - 2) as u8)),
        4 => Question::AuthOwned(header_bytes(random, auth, (auth / 4 - 2) as u8)),
        5 => {
            let (next, spi, sequence) = (
                random.next() as u8,
                random.next() as u32,
                random.next() as u32,
            );
            Question::AuthNew(next, spi, sequence, part(random, auth - 12))
        }
        6 => Question::FragmentBorrowed(fragment_bytes(random)),
        _ => Question::FragmentOwned(fragment_bytes(random)),
    }
}

/// Chooses how many units a header has in addition to its first.
fn units(random: &mut Random) -> usize {
    match random.below(10) {
        0..7 => random.below(6),
        7..9 => random.below(256),
        _ => 255,
    }
}

/// Makes bytes about as long as a header of this length. The second byte usually states the length, or is 0.
fn header_bytes(random: &mut Random, len: usize, field: u8) -> Vec<u8> {
    let mut bytes = part(random, len);
    if let Some(second) = bytes.get_mut(1) {
        *second = match random.below(20) {
            0..18 => field,
            18 => 0,
            _ => random.next() as u8,
        };
    }
    bytes
}

/// Makes bytes about as long as a fragment header, sometimes with few bits of offset and flag set.
fn fragment_bytes(random: &mut Random) -> Vec<u8> {
    let mut bytes = header_bytes(random, 8, 0);
    if bytes.len() >= 4 && random.percent(40) {
        bytes[2..4].copy_from_slice(&chains::fragment_bits(random));
    }
    bytes
}

/// Chooses this length, a few bytes more or less, or any length up to there.
fn part(random: &mut Random, len: usize) -> Vec<u8> {
    let len = match random.below(10) {
        0..5 => len,
        5..7 => len + random.below(12),
        7..9 => len.saturating_sub(random.below(12)),
        _ => random.below(len + 1),
    };
    random.bytes(len)
}

#[cfg(test)]
mod tests {
    use super::*;
    use crate::fragment_bits::{self, from_the_original, to_the_original};
    use crate::headers::ours;

    #[test]
    fn the_sides_agree() {
        assert!(matches!(single_headers(ours, 1, 10_000), Outcome::Same(_)));
    }

    #[test]
    fn the_sides_read_alike() {
        assert!(matches!(
            all_reads(reads::ours, 1, 10_000),
            Outcome::Same(_)
        ));
    }

    /// Falsifies each part of a read in turn, and checks that the difference is found.
    #[test]
    fn a_planted_difference_in_a_read_is_found() {
        let plants: [fn(&mut reads::Answer); 11] = [
            |answer| answer.read.fault ^= 1,
            |answer| answer.read.source ^= 1,
            |answer| answer.read.layer ^= 1,
            |answer| answer.read.next_header ^= 1,
            |answer| answer.read.places ^= 32,
            |answer| answer.read.required_len ^= 8,
            |answer| answer.read.offset += 1,
            |answer| answer.read.left += 1,
            |answer| answer.read.limit.layer_offset += 1,
            |answer| answer.read.limit.read_len += 1,
            |answer| {
                answer
                    .written
                    .iter_mut()
                    .last()
                    .map_or((), |byte| *byte ^= 1)
            },
        ];
        for plant in plants {
            let wrong = |question: &reads::Question| {
                let mut answer = reads::ours(question);
                plant(&mut answer);
                answer
            };
            assert!(matches!(all_reads(wrong, 1, 10_000), Outcome::Different(_)));
        }
    }

    /// Fragment headers that are read and written with the bits of the original are distinguished from ours.
    #[test]
    fn the_bits_of_the_original_are_found() {
        let header = |question: &Question| match question {
            Question::FragmentBorrowed(bytes) => ours(&Question::FragmentBorrowed(
                fragment_bits::header(bytes, from_the_original),
            )),
            Question::FragmentOwned(bytes) => {
                let bytes = fragment_bits::header(bytes, from_the_original);
                let mut answer = ours(&Question::FragmentOwned(bytes));
                for written in [&mut answer.spelled, &mut answer.written] {
                    *written = fragment_bits::header(written, to_the_original);
                }
                answer
            }
            _ => ours(question),
        };
        assert!(matches!(
            single_headers(header, 1, 10_000),
            Outcome::Different(_)
        ));
        for kind in [Kind::Fragment, Kind::Ipv6] {
            let read = |question: &reads::Question| {
                let mut answer = reads::ours(question);
                if question.kind == kind {
                    answer.written = reads::in_layout(question, &answer.written, to_the_original);
                }
                answer
            };
            assert!(matches!(all_reads(read, 1, 10_000), Outcome::Different(_)));
        }
    }

    /// Among the fragment headers of the cases, each value of the reserved bits occurs with no fragment, with a
    /// last fragment and with one that isn't the last.
    #[test]
    fn each_kind_of_fragment_header_is_asked_for() {
        let met = std::cell::RefCell::new(std::collections::BTreeSet::new());
        let watching = |question: &Question| {
            let answer = ours(question);
            if let Question::FragmentBorrowed(bytes) | Question::FragmentOwned(bytes) = question {
                if answer.header.fault == 0 {
                    met.borrow_mut()
                        .insert((bytes[3] & 0b0000_0110, answer.header.flags));
                }
            }
            answer
        };
        assert!(matches!(
            single_headers(watching, 1, 20_000),
            Outcome::Same(_)
        ));
        let all = [0, 2, 4, 6].map(|reserved| [0, 2, 3].map(|flags| (reserved, flags)));
        assert!(met.borrow().iter().eq(all.as_flattened()));
    }

    /// Each result of a read occurs, for each kind.
    #[test]
    fn each_outcome_of_a_read_comes() {
        let met = std::cell::RefCell::new(std::collections::BTreeSet::new());
        let watching = |question: &reads::Question| {
            let answer = reads::ours(question);
            let (kind, is_limited) = (question.kind as u8, question.limit.is_some());
            met.borrow_mut()
                .insert((kind, is_limited, answer.read.fault));
            answer
        };
        assert!(matches!(all_reads(watching, 2, 20_000), Outcome::Same(_)));
        let faults = |kind: Kind, is_limited: bool| -> Vec<u8> {
            let met = met.borrow();
            let of_kind = met
                .iter()
                .filter(|met| (met.0, met.1) == (kind as u8, is_limited));
            of_kind.map(|met| met.2).collect()
        };
        for kind in [Kind::Raw, Kind::Fragment] {
            assert_eq!(faults(kind, false), [0, 4]);
            assert_eq!(faults(kind, true), [0, 1, 4]);
        }
        for kind in [Kind::Auth, Kind::Ipv4] {
            assert_eq!(faults(kind, false), [0, 2, 4]);
            assert_eq!(faults(kind, true), [0, 1, 2, 4]);
        }
        assert_eq!(faults(Kind::Ipv6, false), [0, 2, 3, 4]);
        assert_eq!(faults(Kind::Ipv6, true), [0, 1, 2, 3, 4]);
    }

    /// Falsifies each part in turn, and checks that the difference is found.
    #[test]
    fn a_planted_difference_in_a_part_is_found() {
        let plants: [fn(&mut Answer); 8] = [
            |answer| answer.header.next_header ^= 1,
            |answer| answer.header.number ^= 1,
            |answer| answer.header.second_number ^= 1,
            |answer| answer.header.flags ^= 2,
            |answer| answer.header.required_len ^= 8,
            |answer| {
                answer
                    .payload
                    .iter_mut()
                    .last()
                    .map_or((), |byte| *byte ^= 1)
            },
            |answer| {
                answer
                    .spelled
                    .iter_mut()
                    .last()
                    .map_or((), |byte| *byte ^= 1)
            },
            |answer| {
                answer
                    .written
                    .iter_mut()
                    .last()
                    .map_or((), |byte| *byte ^= 1)
            },
        ];
        for plant in plants {
            let wrong = |question: &Question| {
                let mut answer = ours(question);
                plant(&mut answer);
                answer
            };
            assert!(matches!(
                single_headers(wrong, 1, 10_000),
                Outcome::Different(_)
            ));
        }
    }
}
