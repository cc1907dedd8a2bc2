//! Prints each packet of standard input without the headers of a protocol number: rewrite NUMBER
mod packets;

use wolfaren::IpNumber;
use wolfaren::rewrite::{Authentication, Which, remove_header};

fn main() {
    let number = std::env::args().nth(1).and_then(|it| it.parse().ok());
    let which = Which::Number(IpNumber(number.expect("a protocol number")));
    for packet in packets::of_input() {
        let mut out = vec![0; packet.len()];
        match remove_header(&packet, which, Authentication::Valid, &mut out) {
            Ok(rewritten) => {
                let digits = out[..rewritten.len]
                    .iter()
                    .map(|byte| format!("{byte:02x}"));
                println!("{}", digits.collect::<String>());
            }
            Err(error) => println!("{error}"),
        }
    }
}
