//! Measures our time per byte for inputs designed to be slow, at three lengths. It must be constant: a parse or a
//! run whose time grows faster than the input would show up here.
use crate::inputs::{self, AUTH, DEST_OPTIONS, FRAGMENT, HOP_BY_HOP};
use crate::ours::{self, ChainCall};
use crate::tool;
use std::fs::File;
use std::hint::black_box;
use std::io::Write;
use std::path::Path;
use std::time::Instant;

/// How much more time a byte may take in a longer input.
const GROWTH: f64 = 1.1;

/// How many times as many runs a row that isn't constant gets at most.
const ROUNDS: usize = 8;

/// How many bytes are parsed per measurement, however short the input.
const TIMED_LEN: usize = 1 << 20;

/// How many bytes of lines the tool answers per measurement.
const LINES_LEN: usize = 16 << 20;

/// Lengths of inputs of calls, and of lines.
const LENS: [usize; 3] = [1 << 10, 1 << 16, 1 << 20];

/// Lengths of lines that the tool answers; longer ones are bad lines.
const LINE_LENS: [usize; 3] = [512, 2048, 8192];

/// A row: what is timed, and the minimum time per byte in nanoseconds at each length.
struct Row {
    name: String,
    lens: [usize; 3],
    times: [f64; 3],
}

impl Row {
    /// Whether no length takes more time per byte than the one before it.
    fn is_flat(&self) -> bool {
        self.times
            .windows(2)
            .all(|times| times[1] <= GROWTH * times[0])
    }
}

/// Times all rows and prints them. Returns whether all are constant. `file` is where lines are written.
pub fn cost(tool: &str, file: &Path, runs: usize) -> bool {
    let mut rows = call_rows(runs);
    rows.extend(tool_rows(tool, file, runs));
    println!("| Input | ns a byte |  |  |");
    println!("|---|---|---|---|");
    for row in &rows {
        let cells = row.lens.iter().zip(row.times);
        let cells: Vec<String> = cells
            .map(|(len, time)| format!("{time:.2} at {}", length(*len)))
            .collect();
        let grows = if row.is_flat() { "" } else { " **grows**" };
        println!("| {}{grows} | {} |", row.name, cells.join(" | "));
    }
    rows.iter().all(Row::is_flat)
}

/// Formats a length.
fn length(len: usize) -> String {
    match len {
        0..1024 => format!("{len} bytes"),
        1024..1_048_576 => format!("{} KB", len >> 10),
        _ => format!("{} MB", len >> 20),
    }
}

/// A chain: what it is, its start number, and a function that makes it with about the given length.
type Chain = (&'static str, u8, fn(usize) -> Vec<u8>);

/// Chains of the shortest headers, with and without an error at the end.
const CHAINS: [Chain; 5] = [
    ("options of 8 bytes each", DEST_OPTIONS, |len| {
        same(DEST_OPTIONS, [0; 7], len, 17)
    }),
    ("fragment headers", FRAGMENT, |len| {
        inputs::fragments(len / 8).ours
    }),
    ("authentication headers of 12 bytes", AUTH, |len| {
        let header = [AUTH, 1, 0, 0, 0, 0, 0, 0, 0, 0, 0, 0];
        header.repeat(len / 12)
    }),
    ("options, the last truncated", DEST_OPTIONS, |len| {
        let mut bytes = same(DEST_OPTIONS, [0; 7], len, DEST_OPTIONS);
        bytes.pop();
        bytes
    }),
    ("options, then hop by hop options", DEST_OPTIONS, |len| {
        same(DEST_OPTIONS, [0; 7], len, HOP_BY_HOP)
    }),
];

/// Makes headers of 8 bytes with one number. The next header field of the last is `last`.
fn same(number: u8, after: [u8; 7], len: usize, last: u8) -> Vec<u8> {
    let mut bytes = [&[number][..], &after].concat().repeat(len / 8);
    if let Some(next) = bytes.iter_mut().rev().nth(7) {
        *next = last;
    }
    bytes
}

/// The calls that walk a whole chain.
fn call_rows(runs: usize) -> Vec<Row> {
    let calls: [(&str, ChainCall); 5] = [
        ("lax parse", ours::ipexts_lax),
        ("lax parse and iterator", ours::ipexts_lax_headers),
        ("strict parse", ours::ipexts_strict),
        ("cursor", ours::ipexts_cursor_kinds),
        ("runs", ours::ipexts_runs),
    ];
    let mut rows = Vec::new();
    for (what, call) in calls {
        for (chain, start, make) in CHAINS {
            let inputs = LENS.map(make);
            rows.push(row(format!("{what}: {chain}"), LENS, runs, |index| {
                over_bytes(call, start, &inputs[index])
            }));
        }
    }
    rows
}

/// Times calls one after another. Returns nanoseconds per byte.
fn over_bytes(call: ChainCall, start: u8, bytes: &[u8]) -> f64 {
    let times = TIMED_LEN / bytes.len();
    let begin = Instant::now();
    for _ in 0..times {
        let bytes = black_box(bytes);
        black_box(unsafe { call(start, bytes.as_ptr(), bytes.len()) });
    }
    begin.elapsed().as_nanos() as f64 / (times * bytes.len()) as f64
}

/// Measures a row: the minimum time at each length, with the lengths taking turns. A row that isn't constant is
/// run again, since other load on the machine can only add time.
fn row(name: String, lens: [usize; 3], runs: usize, once: impl Fn(usize) -> f64) -> Row {
    let mut row = Row {
        name,
        lens,
        times: [f64::INFINITY; 3],
    };
    for _ in 0..ROUNDS {
        for _ in 0..runs {
            for (index, time) in row.times.iter_mut().enumerate() {
                *time = time.min(once(index));
            }
        }
        if row.is_flat() {
            break;
        }
    }
    row
}

/// Lines: what they are, and a function that makes them with about the given length.
type Lines = (&'static str, [usize; 3], fn(usize) -> Vec<u8>);

/// Lines that are long, many or expensive to answer.
const LINES: [Lines; 6] = [
    ("lines of digits", LENS, |len| line("exts6 60 ", b"0", len)),
    ("lines of spaces", LENS, |len| line("", b" ", len)),
    (
        "empty lines, and a line of spaces as long as all of them",
        LENS,
        |len| [vec![b'\n'; len / 2], line("", b" ", len / 2)].concat(),
    ),
    ("`exts6` over options of 8 bytes each", LINE_LENS, |len| {
        line("exts6 60 ", b"3c00000000000000", len)
    }),
    (
        "`rewriteall6` over fragment headers, a run each",
        LINE_LENS,
        |len| line("rewriteall6 44 ", b"2c00000000000000", len),
    ),
    (
        "`rewriteall6` that is bad at its last digit",
        LINE_LENS,
        |len| {
            let mut line = line("rewriteall6 44 ", b"2c00000000000000", len);
            if let Some(digit) = line.iter_mut().rev().nth(1) {
                *digit = b'x';
            }
            line
        },
    ),
];

/// Makes a line of at most `len` bytes including its newline: a prefix, and then a part repeated.
fn line(words: &str, again: &[u8], len: usize) -> Vec<u8> {
    let mut line = words.as_bytes().to_vec();
    line.extend(again.repeat((len - words.len() - 1) / again.len()));
    line.push(b'\n');
    line
}

/// Times the tool, on inputs of one length that consist of longer and longer lines.
fn tool_rows(tool: &str, file: &Path, runs: usize) -> Vec<Row> {
    let mut rows = Vec::new();
    for (what, lens, make) in LINES {
        let files = lens.map(|len| {
            let lines = make(len);
            let path = file.with_extension(len.to_string());
            let all = lines.repeat(LINES_LEN / lines.len());
            File::create(&path)
                .and_then(|mut file| file.write_all(&all))
                .expect("the file can be written");
            (path, all.len())
        });
        let runs = runs.div_ceil(4);
        rows.push(row(format!("the tool: {what}"), lens, runs, |index| {
            let (path, len) = &files[index];
            tool::once(tool, path) / *len as f64
        }));
        for (path, _) in files {
            std::fs::remove_file(path).expect("the file was written");
        }
    }
    rows
}
