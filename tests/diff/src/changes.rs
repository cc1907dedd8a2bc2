//! The intended changes of this project, and how they are applied to results of the original.
use crate::fragment_bits::{self, from_the_original, to_the_original};
use etherparse::err::{ip, ipv6, Layer, LenError};
use etherparse::LenSource;

/// The length of an IPv6 header in bytes.
const IPV6_LEN: usize = 40;

/// The changes that are applied to results of the original.
#[derive(Clone, Copy, Debug)]
pub struct Changes {
    /// Fragment headers have the bits of RFC 8200, in the input and in what is written.
    pub bits: bool,
    /// If only the slice bounds the headers of an IPv6 packet, the error of a strict parse says so.
    pub sources: bool,
}

impl Changes {
    /// The original unchanged.
    pub const NONE: Changes = Changes {
        bits: false,
        sources: false,
    };

    /// The results expected of our side.
    pub const ALL: Changes = Changes {
        bits: true,
        sources: true,
    };

    /// Converts the bytes of a chain to input for the original.
    pub fn asked_chain(self, start: u8, bytes: Vec<u8>) -> Vec<u8> {
        if self.bits {
            fragment_bits::chain(start, &bytes, to_the_original)
        } else {
            bytes
        }
    }

    /// Converts the bytes of a packet to input for the original.
    pub fn asked_packet(self, bytes: Vec<u8>) -> Vec<u8> {
        if self.bits {
            fragment_bits::packet(&bytes, to_the_original)
        } else {
            bytes
        }
    }

    /// Converts the bytes of a chain written by the original to what our side is expected to write.
    pub fn written_chain(self, start: u8, written: Vec<u8>) -> Vec<u8> {
        if self.bits {
            fragment_bits::chain(start, &written, from_the_original)
        } else {
            written
        }
    }

    /// Corrects the length source of an error if the original names the wrong one: the packet is IPv6 and has
    /// payload length 0 but bytes after its header, and a header of its chain is too long for them.
    pub fn packet_fault(self, bytes: &[u8], fault: &ip::SliceError) -> Option<ip::SliceError> {
        match fault {
            ip::SliceError::Len(fault) => self.len_error(bytes, fault).map(ip::SliceError::Len),
            _ => None,
        }
    }

    /// Corrects the length source of an error in a packet that must be IPv6.
    pub fn ipv6_packet_fault(
        self,
        bytes: &[u8],
        fault: &ipv6::SliceError,
    ) -> Option<ipv6::SliceError> {
        match fault {
            ipv6::SliceError::Len(fault) => self.len_error(bytes, fault).map(ipv6::SliceError::Len),
            _ => None,
        }
    }

    fn len_error(self, bytes: &[u8], fault: &LenError) -> Option<LenError> {
        let is_bounded_by_slice =
            bytes.len() > IPV6_LEN && bytes[0] >> 4 == 6 && bytes[4..6] == [0, 0];
        (self.sources && is_bounded_by_slice && is_of_a_header(&fault.layer)).then(|| LenError {
            len_source: LenSource::Slice,
            ..fault.clone()
        })
    }
}

/// Returns whether a layer is one of the headers after an IPv6 header.
fn is_of_a_header(layer: &Layer) -> bool {
    matches!(
        layer,
        Layer::Ipv6ExtHeader
            | Layer::Ipv6HopByHopHeader
            | Layer::Ipv6DestOptionsHeader
            | Layer::Ipv6RouteHeader
            | Layer::Ipv6FragHeader
            | Layer::IpAuthHeader
    )
}
