//! Makes start numbers and bytes for chains of extension headers.
use crate::random::Random;

/// The number of authentication headers.
pub const AUTH: u8 = 51;

/// The numbers of extension headers.
pub const EXTENSIONS: [u8; 5] = [0, 43, 44, AUTH, 60];

/// Adjacent numbers, and others with a meaning to other parsers.
const OTHERS: [u8; 9] = [17, 6, 58, 59, 135, 139, 140, 50, 255];

/// A start number and the bytes that follow.
pub type Asked = (u8, Vec<u8>);

/// Makes some related cases, of at most `most` bytes each.
pub fn asked(random: &mut Random, longest: usize) -> Vec<Asked> {
    match random.below(100) {
        0..30 => vec![linked(random, 12)],
        30..50 => vec![flipped(random)],
        50..65 => vec![lied(random)],
        65..66 => truncated_everywhere(random),
        66..76 => vec![truncated_once(random)],
        76..77 => every_number(random),
        77..78 => vec![long(random, longest)],
        78..88 => vec![noise(random)],
        _ => vec![few_bytes(random)],
    }
}

fn extension(random: &mut Random) -> u8 {
    // Hop-by-hop options end most chains that contain them, so they are rarer.
    match random.below(100) {
        0..4 => 0,
        4..30 => 43,
        30..55 => 44,
        55..77 => 51,
        _ => 60,
    }
}

/// Makes a header with this number and the next header field `next`.
fn header(number: u8, next: u8, random: &mut Random) -> Vec<u8> {
    let units = match random.below(100) {
        0..60 => random.below(3),
        60..97 => random.below(12),
        97..99 => random.below(64),
        _ => 200 + random.below(56),
    };
    let (field, len) = match number {
        44 => (random.next() as u8, 8),
        51 => (units.max(1) as u8, 4 * (units.max(1) + 2)),
        _ => (units as u8, 8 * (units + 1)),
    };
    let mut bytes = vec![next, field];
    bytes.extend(random.bytes(len - 2));
    if number == 44 && random.percent(40) {
        bytes[2..4].copy_from_slice(&fragment_bits(random));
    }
    bytes
}

/// Makes bytes 2 and 3 of a fragment header with few bits set: none; only reserved bits, so that the payload is
/// complete; a single bit; or only bits of byte 3.
pub fn fragment_bits(random: &mut Random) -> [u8; 2] {
    match random.below(4) {
        0 => [0, 0],
        1 => [0, random.next() as u8 & 0b0000_0110],
        2 => (1u16 << random.below(16)).to_be_bytes(),
        _ => [0, random.next() as u8],
    }
}

/// Makes a chain with up to a given number of headers, followed by some bytes.
fn linked(random: &mut Random, most: usize) -> Asked {
    let count = random.below(most + 1);
    let mut numbers: Vec<u8> = (0..count).map(|_| extension(random)).collect();
    if let Some(first) = numbers.first_mut() {
        if random.percent(25) {
            *first = 0;
        }
    }
    let last = match random.below(10) {
        0..7 => OTHERS[random.below(OTHERS.len())],
        7 => extension(random),
        _ => random.next() as u8,
    };
    let mut bytes = Vec::new();
    for (index, number) in numbers.iter().enumerate() {
        let next = *numbers.get(index + 1).unwrap_or(&last);
        bytes.extend(header(*number, next, random));
    }
    let after = random.below(20);
    bytes.extend(random.bytes(after));
    (*numbers.first().unwrap_or(&last), capped(bytes, 3000))
}

fn capped(mut bytes: Vec<u8>, longest: usize) -> Vec<u8> {
    bytes.truncate(longest);
    bytes
}

/// Makes a chain with some bits or bytes changed.
fn flipped(random: &mut Random) -> Asked {
    let (number, mut bytes) = linked(random, 6);
    for _ in 0..=random.below(3) {
        if bytes.is_empty() {
            break;
        }
        let at = random.below(bytes.len());
        bytes[at] ^= 1 << random.below(8);
    }
    (number, bytes)
}

/// Makes a chain with the length field of a header changed.
fn lied(random: &mut Random) -> Asked {
    let (number, mut bytes) = linked(random, 6);
    let mut at = 0;
    for _ in 0..random.below(4) {
        // Moves to the length field of a later header, as if all headers were in the uniform format (RFC 6564).
        let len = bytes
            .get(at + 1)
            .map_or(0, |units| 8 * (usize::from(*units) + 1));
        if at + len + 1 < bytes.len() {
            at += len;
        }
    }
    let lie = [0, 1, 2, 255, random.next() as u8][random.below(5)];
    if let Some(field) = bytes.get_mut(at + 1) {
        *field = lie;
    }
    (number, bytes)
}

/// Truncates a chain at every byte.
fn truncated_everywhere(random: &mut Random) -> Vec<Asked> {
    let (number, bytes) = linked(random, 6);
    let bytes = capped(bytes, 160);
    (0..=bytes.len())
        .map(|end| (number, bytes[..end].to_vec()))
        .collect()
}

fn truncated_once(random: &mut Random) -> Asked {
    let (number, mut bytes) = linked(random, 8);
    let end = random.below(bytes.len() + 1);
    bytes.truncate(end);
    (number, bytes)
}

/// Makes a chain with every start number, and with every next header field.
fn every_number(random: &mut Random) -> Vec<Asked> {
    let before = extension(random);
    let (_, bytes) = linked(random, 3);
    let start = (0..=255).map(|number| (number, bytes.clone()));
    let after = (0..=255).map(|number| {
        let mut all = header(before, number, &mut Random::new(u64::from(number)));
        all.extend(&bytes);
        (before, all)
    });
    start.chain(after.clone()).collect()
}

/// Makes as many bytes as fit into a line, or nearly.
fn long(random: &mut Random, longest: usize) -> Asked {
    let start = extension(random);
    let end = longest - random.below(4);
    let mut number = start;
    let mut bytes = Vec::new();
    while bytes.len() < end {
        let next = if random.percent(99) {
            extension(random).max(43)
        } else {
            17
        };
        bytes.extend(header(number, next, random));
        number = next;
    }
    (start, capped(bytes, end))
}

/// Makes random bytes.
fn noise(random: &mut Random) -> Asked {
    let len = random.below(80);
    (extension(random), random.bytes(len))
}

/// Makes a few small bytes, which are more likely to be valid numbers and lengths.
fn few_bytes(random: &mut Random) -> Asked {
    let len = random.below(40);
    let small = |random: &mut Random| match random.below(4) {
        0 => EXTENSIONS[random.below(5)],
        1 => random.below(3) as u8,
        2 => OTHERS[random.below(OTHERS.len())],
        _ => random.next() as u8,
    };
    (small(random), (0..len).map(|_| small(random)).collect())
}
