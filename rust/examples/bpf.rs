//! Runs the program that `tcpdump -ddd` prints, such as of `tcpdump -y RAW -ddd ip6`, on the packets of standard input:
//! `bpf PROGRAM`. Prints how many bytes of each packet it accepts.
mod packets;

use wolfaren::bpf::{Instruction, Program};

/// Returns the instruction in a line with its code, its two jumps and its number.
fn instruction(line: &str) -> Option<Instruction> {
    let numbers: Option<Vec<u32>> = line.split(' ').map(|it| it.parse().ok()).collect();
    let [code, if_true, if_false, k] = numbers?[..] else {
        return None;
    };
    let (code, jt) = (code.try_into().ok()?, if_true.try_into().ok()?);
    Some(Instruction {
        code,
        jt,
        jf: if_false.try_into().ok()?,
        k,
    })
}

fn main() {
    let text = std::env::args().nth(1).unwrap_or_default();
    let lines = text.lines().skip(1);
    let instructions: Option<Vec<Instruction>> = lines.map(instruction).collect();
    let instructions = instructions.expect("lines of four numbers after the first line");
    let program = Program::new(&instructions).expect("a program that the kernel accepts");
    for packet in packets::of_input() {
        println!("{}", program.run(&packet));
    }
}
