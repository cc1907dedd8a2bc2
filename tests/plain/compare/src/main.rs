//! Compares COUNT answers of the program PROGRAM, which is tests/plain, with those of etherparse 0.19.0, and COUNT filters
//! of the Rust package with a plain program: compare PROGRAM SEED COUNT
use diff::compare::{lines_of_tool, Outcome};
use diff::filters::{all_filters, Answer};
use wolfaren::filter::Filter;

/// Returns the package's result for a text and a packet.
fn answer(text: &[u8], packet: &[u8]) -> Answer {
    match Filter::parse(text) {
        Ok(filter) => Answer::Matches(filter.matches(packet), filter.matches_other()),
        Err(error) => Answer::Refused(error.offset, error.expected as u8),
    }
}

/// Prints the result of a comparison, and ends the program if there is a difference.
fn report(what: &str, outcome: Outcome) {
    match outcome {
        Outcome::Same(_) => println!("{what}: the answers are the same"),
        Outcome::Different(words) => {
            println!("{what}: a difference\n{words}");
            std::process::exit(1);
        }
    }
}

fn main() {
    let [program, seed, count] = &std::env::args().skip(1).collect::<Vec<_>>()[..] else {
        panic!("usage: compare PROGRAM SEED COUNT");
    };
    let (seed, count) = (
        seed.parse().expect("a number"),
        count.parse().expect("a number"),
    );
    report(
        "lines",
        lines_of_tool(program, seed, count).expect("answers"),
    );
    report("filters", all_filters(answer, seed, count));
}
