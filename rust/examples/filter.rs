//! Prints whether each packet of standard input matches a filter: filter 'TEXT'
mod packets;

use wolfaren::filter::Filter;

fn main() {
    let text = std::env::args().nth(1).unwrap_or_default();
    let filter = match Filter::parse(text.as_bytes()) {
        Ok(filter) => filter,
        Err(error) => {
            eprintln!("{error}");
            std::process::exit(1);
        }
    };
    for packet in packets::of_input() {
        println!("{}", filter.matches(&packet));
    }
}
