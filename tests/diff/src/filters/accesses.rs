//! Accesses to bytes: how their words are parsed, and what they read.
use super::parse::{icmp6_type, icmp_type, number, upper_layer};
use super::Start;
use crate::dissections::{Dissected, End};

/// Returns where the bytes start that the word names, their offset and their size.
pub fn accessed(word: &str) -> Option<(Start, u64, usize)> {
    let (name, rest) = word.split_once('[')?;
    let place = rest.strip_suffix(']').filter(|it| !it.contains(']'))?;
    let start = match name {
        "ip" => Start::Base(4),
        "ip6" => Start::Base(6),
        _ => Start::Upper(upper_layer(name)? as u8),
    };
    let (offset, size) = place.split_once(':').unwrap_or((place, "1"));
    let offset = match offset {
        "icmptype" | "icmp6type" => 0,
        "icmpcode" | "icmp6code" => 1,
        "tcpflags" => 13,
        _ => number(offset, u32::MAX.into())?,
    };
    let size = ["1", "2", "4"].iter().position(|it| *it == size)?;
    Some((start, offset, 1 << size))
}

/// Returns the bits that the word writes.
pub fn bits(word: &str) -> Option<u64> {
    let names = ["fin", "syn", "rst", "push", "ack", "urg", "ece", "cwr"];
    match word.strip_prefix("tcp-") {
        Some(name) => names
            .iter()
            .position(|it| *it == name)
            .map(|index| 1 << index),
        None => icmp_type(word)
            .or_else(|| icmp6_type(word))
            .or_else(|| number(word, u32::MAX.into())),
    }
}

/// Returns the number that an access reads, if all of its bytes are there.
pub fn read(packet: &Dissected<'_>, start: Start, offset: u64, size: usize) -> Option<u64> {
    let bytes = match start {
        Start::Base(version) if packet.version == version => {
            let headers = packet.headers.iter().map(|(_, bytes)| *bytes);
            let parts: Vec<&[u8]> = [packet.base]
                .into_iter()
                .chain(headers)
                .chain([packet.payload])
                .collect();
            parts.concat()
        }
        Start::Upper(number) if packet.number == number && packet.end == End::Payload => {
            if number == 1 && packet.version != 4 || number == 58 && packet.version != 6 {
                return None;
            }
            packet.payload.to_vec()
        }
        _ => return None,
    };
    let offset = usize::try_from(offset).ok()?;
    let found = bytes.get(offset..offset.checked_add(size)?)?;
    Some(
        found
            .iter()
            .fold(0, |value, byte| value << 8 | u64::from(*byte)),
    )
}
