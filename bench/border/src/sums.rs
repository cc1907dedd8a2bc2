//! Digests of what was read, identical on all sides.
use std::net::{Ipv4Addr, Ipv6Addr};

/// A way to parse and read a packet.
pub trait Digest {
    fn digest(bytes: &[u8]) -> u64;
}

/// The digest of bytes that are not a packet.
pub const NO_PACKET: u64 = 2;

#[inline(always)]
pub fn with(sum: u64, part: u64) -> u64 {
    sum.wrapping_mul(9).wrapping_add(part)
}

#[inline(always)]
pub fn of_bytes(bytes: &[u8]) -> u64 {
    with(
        bytes.len() as u64,
        bytes.first().map_or(256, |byte| u64::from(*byte)),
    )
}

pub fn of_ipv4_addr(address: Ipv4Addr) -> u64 {
    let [first, _, _, last] = address.octets();
    with(u64::from(first), u64::from(last))
}

pub fn of_ipv6_addr(address: Ipv6Addr) -> u64 {
    let octets = address.octets();
    with(u64::from(octets[0]), u64::from(octets[15]))
}

/// The digest of where a header or a payload lies.
#[inline(always)]
pub fn of_place(number: u16, offset: usize, len: usize) -> u64 {
    with(with(u64::from(number), offset as u64), len as u64)
}

/// The digest of the version and of the base header's length.
#[inline(always)]
pub fn of_base(version: u16, len: usize) -> u64 {
    with(u64::from(version), len as u64)
}

/// Parses packets one after another, in one loop.
#[inline(never)]
pub fn one_loop<D: Digest>(packets: &[u8], ends: &[usize]) -> u64 {
    let mut start = 0;
    let mut sum = 0;
    for end in ends {
        let Some(packet) = packets.get(start..*end) else {
            break;
        };
        sum = with(sum, D::digest(packet));
        start = *end;
    }
    sum
}

/// Parses one packet.
#[inline(never)]
pub fn one_call<D: Digest>(packet: &[u8]) -> u64 {
    D::digest(packet)
}
