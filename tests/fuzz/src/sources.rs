//! Strict parses of packets with the original, with the length source corrected in errors: a known difference of
//! docs/DIFFERENCES.md.
use crate::original_slices::{self, of_ip_fault, of_ipv6_fault, Packet};
use diff::changes::Changes;
use etherparse::err::{ip, ipv6};
use etherparse::{IpSlice, Ipv6Slice};

/// The packet of either version.
pub fn ip(bytes: &[u8]) -> Result<IpSlice<'_>, ip::SliceError> {
    IpSlice::from_slice(bytes).map_err(|fault| {
        let changed = Changes::ALL.packet_fault(bytes, &fault);
        changed.unwrap_or(fault)
    })
}

/// The IPv6 packet.
pub fn ipv6(bytes: &[u8]) -> Result<Ipv6Slice<'_>, ipv6::SliceError> {
    Ipv6Slice::from_slice(bytes).map_err(|fault| {
        let changed = Changes::ALL.ipv6_packet_fault(bytes, &fault);
        changed.unwrap_or(fault)
    })
}

/// The digests of `bench/`.
pub struct Ip;
pub struct Ipv6;

impl Packet for Ip {
    fn digest(bytes: &[u8]) -> u64 {
        match ip(bytes) {
            Ok(_) => original_slices::Ip::digest(bytes),
            Err(fault) => of_ip_fault(&fault),
        }
    }
}

impl Packet for Ipv6 {
    fn digest(bytes: &[u8]) -> u64 {
        match ipv6(bytes) {
            Ok(_) => original_slices::Ipv6::digest(bytes),
            Err(fault) => of_ipv6_fault(&fault),
        }
    }
}

#[cfg(test)]
mod tests {
    use super::*;
    use etherparse::LenSource;

    /// Makes an IPv6 packet with a payload length, and a fragment header of which this many bytes are there.
    fn truncated(payload_length: u8, len: usize) -> Vec<u8> {
        let mut packet = vec![0x60, 0, 0, 0, 0, payload_length, 44];
        packet.resize(40 + len, 0);
        packet
    }

    /// Returns the source of the length error of each parse.
    fn sources(packet: &[u8]) -> (LenSource, LenSource) {
        match (ip(packet), ipv6(packet)) {
            (Err(ip::SliceError::Len(one)), Err(ipv6::SliceError::Len(other))) => {
                (one.len_source, other.len_source)
            }
            _ => panic!("both parses return a length error"),
        }
    }

    #[test]
    fn the_slice_is_the_source_where_payload_length_is_0_before_some_bytes() {
        let (slice, payload) = (LenSource::Slice, LenSource::Ipv6HeaderPayloadLen);
        for (payload_length, len, source) in [(0, 7, slice), (7, 7, payload), (0, 0, payload)] {
            let answer = sources(&truncated(payload_length, len));
            assert_eq!(answer, (source, source), "{payload_length} {len}");
        }
    }
}
