//! Tests programs of classic BPF. What they return is worked out by bpf(4).
use wolfaren::bpf::{Instruction, Program};

/// `ldb [0]`, `rsh #4`, `jeq #6, 0, 1`, `ret #65535`, `ret #0`: whether a packet of raw IP is of version 6.
const IS_IPV6: [(u16, u8, u8, u32); 5] = [
    (0x30, 0, 0, 0),
    (0x74, 0, 0, 4),
    (0x15, 0, 1, 6),
    (0x06, 0, 0, 65_535),
    (0x06, 0, 0, 0),
];

fn instructions(rows: &[(u16, u8, u8, u32)]) -> Vec<Instruction> {
    let made = rows.iter().map(|(code, jt, jf, k)| Instruction {
        code: *code,
        jt: *jt,
        jf: *jf,
        k: *k,
    });
    made.collect()
}

#[test]
fn programs_run() {
    let instructions = instructions(&IS_IPV6);
    let program = Program::new(&instructions).unwrap();
    let results = [&[0x60, 0][..], &[0x45], &[]].map(|packet| program.run(packet));
    assert_eq!(results, [65_535, 0, 0]);
    assert_eq!(program.instructions().len(), 5);
}

#[test]
fn programs_that_the_kernel_refuses() {
    assert!(Program::new(&[]).is_err());
    assert!(Program::new(&instructions(&IS_IPV6[..3])).is_err());
    let mut too_far = IS_IPV6;
    too_far[2].2 = 9;
    assert!(Program::new(&instructions(&too_far)).is_err());
}
