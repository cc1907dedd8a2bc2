//! Compares the tool with a plain Rust program over the original, on lines about the same headers.
use crate::fragment_bits::{self, to_the_original};
use crate::inputs;
use crate::measure::of_runs;
use crate::random::Random;
use crate::report::Line;
use std::fmt::Write as _;
use std::fs::File;
use std::io::{BufWriter, Read, Write};
use std::path::{Path, PathBuf};
use std::process::{Command, Stdio};
use std::time::Instant;

/// The files of lines, with chains like those of real traffic. The original's file has fragment headers in its own
/// layout.
pub struct Lines {
    ours: PathBuf,
    original: PathBuf,
    /// The number of lines in each file.
    count: usize,
}

/// Writes lines with a total of `len` bytes to files in a folder.
pub fn write_lines(folder: &Path, len: usize, seed: u64) -> std::io::Result<Lines> {
    let paths = ["lines.txt", "original-lines.txt"].map(|name| folder.join(name));
    let (mut ours, mut original) = (create(&paths[0])?, create(&paths[1])?);
    let mut random = Random::new(seed);
    let packets = inputs::packets(10_000, seed);
    let (mut written, mut count) = (0, 0);
    while written < len {
        for packet in packets.each() {
            let end = packet.len().min(40 + random.below(100));
            let (start, chain) = (packet[6], packet.get(40..end).unwrap_or(&[]));
            written += write_line(&mut ours, start, chain)?;
            let theirs = fragment_bits::chain(start, chain, to_the_original);
            write_line(&mut original, start, &theirs)?;
            count += 1;
        }
    }
    ours.flush()?;
    original.flush()?;
    let [ours, original] = paths;
    Ok(Lines {
        ours,
        original,
        count,
    })
}

fn create(path: &Path) -> std::io::Result<BufWriter<File>> {
    Ok(BufWriter::new(File::create(path)?))
}

/// Writes the line for a chain, and returns its length.
fn write_line(file: &mut impl Write, start: u8, chain: &[u8]) -> std::io::Result<usize> {
    let mut line = format!("exts6 {start} ");
    if chain.is_empty() {
        line.push('-');
    }
    for byte in chain {
        write!(line, "{byte:02x}").expect("a String takes text");
    }
    line.push('\n');
    file.write_all(line.as_bytes())?;
    Ok(line.len())
}

/// Times both programs on the lines, taking turns.
pub fn measure(ours: &str, original: &str, lines: &Lines, runs: usize) -> Line {
    assert_eq!(
        digest(ours, &lines.ours),
        digest(original, &lines.original),
        "the answers of the tool and of the original differ"
    );
    let (mut our_times, mut original_times) = (Vec::new(), Vec::new());
    for _ in 0..runs {
        our_times.push(once(ours, &lines.ours) / lines.count as f64);
        original_times.push(once(original, &lines.original) / lines.count as f64);
    }
    Line {
        group: "the tool".to_owned(),
        name: format!(
            "the tool: {} MB of lines",
            std::fs::metadata(&lines.ours).map_or(0, |file| file.len() / 1_000_000)
        ),
        unit: "line".to_owned(),
        ours: of_runs(our_times),
        original: of_runs(original_times),
        limit: None,
    }
}

fn command(program: &str, lines: &Path) -> Command {
    let mut command = Command::new(program);
    command.stdin(File::open(lines).expect("the lines were written"));
    command
}

/// Returns how many nanoseconds a program takes to answer the lines.
pub fn once(program: &str, lines: &Path) -> f64 {
    let mut command = command(program, lines);
    let start = Instant::now();
    let status = command
        .stdout(Stdio::null())
        .status()
        .unwrap_or_else(|e| panic!("{program}: {e}"));
    assert!(status.success(), "{program} failed");
    start.elapsed().as_nanos() as f64
}

/// Returns a digest of a program's answers.
fn digest(program: &str, lines: &Path) -> u64 {
    let mut child = command(program, lines)
        .stdout(Stdio::piped())
        .spawn()
        .unwrap_or_else(|e| panic!("{program}: {e}"));
    let mut output = child.stdout.take().expect("standard output is piped");
    let mut chunk = vec![0; 1 << 16];
    let mut sum = 0u64;
    loop {
        match output.read(&mut chunk).expect("a pipe can be read") {
            0 => break,
            n => {
                sum = chunk[..n].iter().fold(sum, |sum, byte| {
                    sum.wrapping_mul(31).wrapping_add(u64::from(*byte))
                })
            }
        }
    }
    assert!(
        child.wait().is_ok_and(|status| status.success()),
        "{program} failed"
    );
    sum
}
