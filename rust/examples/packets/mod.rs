//! Packets in hexadecimal, one on each line of standard input.

/// Returns the bytes of hexadecimal digits.
fn bytes_of(line: &str) -> Vec<u8> {
    let digit = |c: char| c.to_digit(16).expect("a hexadecimal digit") as u8;
    let digits: Vec<u8> = line.trim().chars().map(digit).collect();
    digits
        .chunks(2)
        .map(|pair| pair[0] * 16 + pair[1])
        .collect()
}

/// Returns the packets of all lines.
pub fn of_input() -> Vec<Vec<u8>> {
    let lines = std::io::stdin().lines();
    lines.map(|line| bytes_of(&line.expect("a line"))).collect()
}
