//! Compares the results of this project with those of etherparse 0.19.0, and of filters with those of a plain program.
//!
//!     diff lines TOOL SEED COUNT    compares the tool's answers to COUNT lines from a seed
//!     diff headers SEED COUNT       compares the parts and the written bytes of COUNT single headers
//!     diff reads SEED COUNT         compares what COUNT reads consume, leave and reject
//!     diff filters SEED COUNT       compares the filters of COUNT texts over packets with those of a plain program
//!     diff fields                   prints the fields of fragment headers, given as a line of digits each
use diff::compare::{all_reads, lines_of_tool, single_headers, Outcome};
use diff::filters::{self, all_filters};
use diff::{fields, headers, reads};
use std::process::ExitCode;

fn main() -> ExitCode {
    let arguments: Vec<String> = std::env::args().skip(1).collect();
    let words: Vec<&str> = arguments.iter().map(String::as_str).collect();
    let number = |text: &str| {
        text.parse()
            .unwrap_or_else(|_| panic!("{text} is not a number"))
    };
    match &words[..] {
        ["lines", tool, seed, count] => {
            match lines_of_tool(tool, number(seed), number(count) as usize) {
                Ok(outcome) => report("lines", seed, count, outcome),
                Err(e) => refused(&format!("{tool}: {e}")),
            }
        }
        ["headers", seed, count] => report(
            "single headers",
            seed,
            count,
            single_headers(headers::ours, number(seed), number(count) as usize),
        ),
        ["reads", seed, count] => report(
            "reads",
            seed,
            count,
            all_reads(reads::ours, number(seed), number(count) as usize),
        ),
        ["filters", seed, count] => report(
            "filters",
            seed,
            count,
            all_filters(filters::ours, number(seed), number(count) as usize),
        ),
        ["fields"] => {
            match fields::answer_lines(std::io::stdin().lock(), std::io::stdout().lock()) {
                Ok(()) => ExitCode::SUCCESS,
                Err(e) => refused(&e.to_string()),
            }
        }
        _ => refused(
            "usage: diff lines TOOL SEED COUNT | headers SEED COUNT | reads SEED COUNT | filters SEED COUNT | fields",
        ),
    }
}

/// Reports why nothing was compared.
fn refused(why: &str) -> ExitCode {
    eprintln!("diff: {why}");
    ExitCode::from(2)
}

/// Prints the result of a comparison.
fn report(what: &str, seed: &str, count: &str, outcome: Outcome) -> ExitCode {
    match outcome {
        Outcome::Same(counts) => {
            println!("{count} {what} from seed {seed}: the answers are the same");
            for (difference, times) in counts {
                println!(
                    "  except for a known difference, {times} times: {}",
                    difference.words()
                );
            }
            ExitCode::SUCCESS
        }
        Outcome::Different(words) => {
            println!("{what} from seed {seed}: a difference\n{words}");
            ExitCode::FAILURE
        }
    }
}
