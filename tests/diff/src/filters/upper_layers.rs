//! Makes packets whose headers lead to ports or to an ICMP message.
use crate::chains::AUTH;
use crate::random::Random;

/// ICMP, TCP, UDP, DCCP, ESP, ICMPv6, SCTP and UDP-Lite.
const NUMBERS: [u8; 8] = [1, 6, 17, 33, 50, 58, 132, 136];

/// Makes a packet with few extension headers and few bytes after them. Some bytes may be missing.
pub fn packet(random: &mut Random) -> Vec<u8> {
    let mut packet = if random.percent(40) {
        ipv4(random)
    } else {
        ipv6(random)
    };
    if random.percent(20) {
        packet.truncate(packet.len() - random.below(10));
    }
    packet
}

/// Makes the start of an upper-layer header, which may lack its ports, and its number. Often the first two bytes, the type
/// and the code of an ICMP message, are small, and the data offsets of DCCP and TCP near their least values.
fn upper_layer(random: &mut Random) -> (u8, Vec<u8>) {
    let len = random.below(40);
    let mut bytes = random.bytes(len);
    if random.percent(30) {
        bytes.iter_mut().take(2).for_each(|byte| *byte %= 4);
    }
    if random.percent(50) {
        let offset = random.below(8) as u8;
        if let Some(byte) = bytes.get_mut(4) {
            *byte = offset;
        }
        if let Some(byte) = bytes.get_mut(12) {
            *byte = offset << 4 | *byte & 15;
        }
    }
    (NUMBERS[random.below(NUMBERS.len())], bytes)
}

fn ipv4(random: &mut Random) -> Vec<u8> {
    let (mut number, mut after) = upper_layer(random);
    if random.percent(40) {
        after.splice(0..0, authentication(number, random));
        number = AUTH;
    }
    let len = if random.percent(5) {
        0
    } else {
        20 + after.len() as u8
    };
    let mut bytes = vec![0x45, random.next() as u8, 0, len];
    bytes.extend(random.bytes(2));
    // The flags come first in an IPv4 header, and last in a fragment header.
    let fragment_bits = u16::from_be_bytes(fragment_bits(random)).rotate_right(3);
    bytes.extend(fragment_bits.to_be_bytes());
    bytes.extend([random.next() as u8, number]);
    bytes.extend(random.bytes(10));
    bytes.extend(after);
    bytes
}

fn ipv6(random: &mut Random) -> Vec<u8> {
    let (mut number, mut after) = upper_layer(random);
    for _ in 0..random.below(4) {
        let (extension, header) = extension(number, random);
        after.splice(0..0, header);
        number = extension;
    }
    let mut bytes = vec![0x60 | random.below(16) as u8];
    bytes.extend(random.bytes(3));
    let len = if random.percent(5) {
        0
    } else {
        after.len() as u8
    };
    bytes.extend([0, len, number, random.next() as u8]);
    bytes.extend(random.bytes(32));
    bytes.extend(after);
    bytes
}

/// Makes an extension header with this next header, and its number.
fn extension(next: u8, random: &mut Random) -> (u8, Vec<u8>) {
    match random.below(4) {
        0 => (60, options(next, 0, random)),
        1 => (43, options(next, 1, random)),
        2 => (44, fragment(next, random)),
        _ => (AUTH, authentication(next, random)),
    }
}

/// Makes a header of `8 * (units + 1)` bytes. Now and then its first option has a type that is in use.
fn options(next: u8, units: u8, random: &mut Random) -> Vec<u8> {
    let mut bytes = vec![next, units];
    bytes.extend(random.bytes(6 + 8 * usize::from(units)));
    if random.percent(20) {
        bytes[2] = [0, 1, 5, 194][random.below(4)];
    }
    bytes
}

fn fragment(next: u8, random: &mut Random) -> Vec<u8> {
    let mut bytes = vec![next, 0];
    bytes.extend(fragment_bits(random));
    bytes.extend(random.bytes(4));
    bytes
}

/// Makes an authentication header without a check value.
fn authentication(next: u8, random: &mut Random) -> Vec<u8> {
    let mut bytes = vec![next, 1];
    bytes.extend(random.bytes(10));
    bytes
}

/// Makes the fragment offset and the flags of a fragment header. The offset is usually 0.
fn fragment_bits(random: &mut Random) -> [u8; 2] {
    match random.below(5) {
        0 => [0, 8],
        1 | 2 => [0, 1],
        _ => [0, 0],
    }
}
