//! Makes bytes for IP packets.
use crate::chains;
use crate::random::Random;

/// The length of an IPv6 header in bytes.
const IPV6_LEN: usize = 40;

/// Makes some related packets, of at most `most` bytes each.
pub fn asked(random: &mut Random, longest: usize) -> Vec<Vec<u8>> {
    let mut packets = match random.below(100) {
        0..40 => vec![packet(random)],
        40..52 => vec![lied(random)],
        52..64 => vec![with_length_off(random)],
        64..74 => vec![flipped(random)],
        74..84 => vec![truncated_once(random)],
        84..85 => truncated_everywhere(random),
        85..86 => every_first_byte(random),
        86..87 => every_number(random),
        87..92 => vec![without_a_length(random)],
        92..93 => vec![long(random, longest)],
        _ => vec![noise(random)],
    };
    packets
        .iter_mut()
        .for_each(|packet| packet.truncate(longest));
    packets
}

/// Makes a packet of either version, usually with a correct length and some bytes after it.
fn packet(random: &mut Random) -> Vec<u8> {
    if random.percent(45) {
        ipv4(random)
    } else {
        ipv6(random)
    }
}

/// Makes what follows an IP header, a chain of headers and a payload, and the number of its first part.
fn after(random: &mut Random) -> (u8, Vec<u8>) {
    let asked = chains::asked(random, 2000);
    let at = random.below(asked.len());
    let (number, mut bytes) = asked.into_iter().nth(at).unwrap_or((17, Vec::new()));
    let payload = random.below(30);
    bytes.extend(random.bytes(payload));
    (number, bytes)
}

fn ipv4(random: &mut Random) -> Vec<u8> {
    let words = if random.percent(60) {
        5
    } else {
        5 + random.below(11)
    };
    let (mut number, after) = after(random);
    if random.percent(50) {
        number = chains::AUTH;
    }
    let fragment: u16 = match random.below(8) {
        0..4 => 0,
        // The don't-fragment and the reserved bit don't make the payload a fragment.
        4 => 0x4000,
        5 => 0x2000,
        6 => random.below(0x2000) as u16,
        _ => random.next() as u16,
    };
    let len = 4 * words + after.len();
    let mut bytes = vec![0x40 | words as u8, random.next() as u8];
    bytes.extend((len as u16).to_be_bytes());
    bytes.extend(random.bytes(2));
    bytes.extend(fragment.to_be_bytes());
    bytes.extend([random.next() as u8, number]);
    bytes.extend(random.bytes(4 * words - 10));
    bytes.extend(after);
    trailed(bytes, random)
}

fn ipv6(random: &mut Random) -> Vec<u8> {
    let (number, after) = after(random);
    let mut bytes = vec![0x60 | random.below(16) as u8];
    bytes.extend(random.bytes(3));
    bytes.extend((after.len() as u16).to_be_bytes());
    bytes.extend([number, random.next() as u8]);
    bytes.extend(random.bytes(32));
    bytes.extend(after);
    trailed(bytes, random)
}

/// Appends some bytes to a packet now and then, as a link layer does.
fn trailed(mut packet: Vec<u8>, random: &mut Random) -> Vec<u8> {
    if random.percent(40) {
        let after = random.below(50);
        packet.extend(random.bytes(after));
    }
    packet
}

/// Returns the position of the length field: the total length or the payload length.
fn length_at(packet: &[u8]) -> usize {
    if packet.first().is_some_and(|first| first >> 4 == 4) {
        2
    } else {
        4
    }
}

/// Changes the length field of a packet.
fn with_length(mut packet: Vec<u8>, len: u16) -> Vec<u8> {
    let at = length_at(&packet);
    packet[at..at + 2].copy_from_slice(&len.to_be_bytes());
    packet
}

fn length_of(packet: &[u8]) -> u16 {
    let at = length_at(packet);
    u16::from_be_bytes([packet[at], packet[at + 1]])
}

/// Makes a packet whose length is off by a little.
fn with_length_off(random: &mut Random) -> Vec<u8> {
    let packet = packet(random);
    let len = length_of(&packet);
    let off = 1 + random.below(40) as u16;
    let len = if random.percent(60) {
        len.saturating_sub(off)
    } else {
        len.saturating_add(off)
    };
    with_length(packet, len)
}

/// Makes a packet with any length, or one close to that of its IP header.
fn lied(random: &mut Random) -> Vec<u8> {
    let packet = packet(random);
    let whole = packet.len() + 1;
    let len = match random.below(5) {
        0 => random.next() as u16,
        1 => random.below(70) as u16,
        2 => u16::MAX,
        3 => 0,
        _ => random.below(whole) as u16,
    };
    with_length(packet, len)
}

/// Makes a packet with some bits flipped, most of them in its IP header.
fn flipped(random: &mut Random) -> Vec<u8> {
    let mut bytes = packet(random);
    for _ in 0..=random.below(3) {
        let end = if random.percent(60) { 10 } else { bytes.len() };
        let at = random.below(end);
        bytes[at] ^= 1 << random.below(8);
    }
    bytes
}

fn truncated_once(random: &mut Random) -> Vec<u8> {
    let mut bytes = packet(random);
    let end = if random.percent(40) {
        random.below(70)
    } else {
        random.below(bytes.len() + 1)
    };
    bytes.truncate(end);
    bytes
}

/// Truncates a packet at every byte.
fn truncated_everywhere(random: &mut Random) -> Vec<Vec<u8>> {
    let mut bytes = packet(random);
    bytes.truncate(200);
    (0..=bytes.len()).map(|end| bytes[..end].to_vec()).collect()
}

/// Makes a packet with every first byte: every version, and every length of an IPv4 header.
fn every_first_byte(random: &mut Random) -> Vec<Vec<u8>> {
    let mut bytes = packet(random);
    bytes.truncate(120);
    (0..=255)
        .map(|first| {
            bytes[0] = first;
            bytes.clone()
        })
        .collect()
}

/// Makes a packet with every number after its IP header.
fn every_number(random: &mut Random) -> Vec<Vec<u8>> {
    let mut bytes = packet(random);
    let at = if length_at(&bytes) == 2 { 9 } else { 6 };
    bytes.truncate(200);
    (0..=255)
        .map(|number| {
            bytes[at] = number;
            bytes.clone()
        })
        .collect()
}

/// Makes an IPv6 packet with payload length 0, as for a packet of more than 65,535 bytes, with or without bytes
/// after its IPv6 header, and sometimes truncated within its headers.
fn without_a_length(random: &mut Random) -> Vec<u8> {
    let mut packet = with_length(ipv6(random), 0);
    match random.below(10) {
        0..2 => packet.truncate(IPV6_LEN + random.below(3)),
        2..6 => packet.truncate(IPV6_LEN + random.below(60)),
        _ => {}
    }
    packet
}

/// Makes as many bytes as fit into a line, or nearly.
fn long(random: &mut Random, longest: usize) -> Vec<u8> {
    let mut packet = packet(random);
    let len = longest - random.below(4);
    let more = len.saturating_sub(packet.len());
    packet.extend(random.bytes(more));
    let stated = match length_at(&packet) {
        2 => len,
        _ => len - IPV6_LEN,
    };
    with_length(packet, stated as u16)
}

/// Makes random bytes, of any version.
fn noise(random: &mut Random) -> Vec<u8> {
    let len = random.below(90);
    let mut bytes = random.bytes(len);
    if let Some(first) = bytes.first_mut() {
        if random.percent(50) {
            let version = if random.percent(50) { 0x40 } else { 0x60 };
            *first = version | (*first & 0xf);
        }
    }
    bytes
}
