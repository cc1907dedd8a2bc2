//! Short calls over the proved ones.

use crate::ip_base::err::Layer;
use crate::ip_base::{IpFragOffset, ip_number};
use crate::ip_batches::PacketSpan;
use crate::ip_codes::{kind, layer_code_of};
use crate::ip_defragmenter::{DefragmenterCounts, LossReason, Outcome};
use crate::ip_dissect::{BaseHeader, Dissection, FragmentKind, Packet, WalkVisitor};
use crate::ip_ext_slices::{Ipv6ExtensionSlice, Ipv6ExtensionsSlice};
use crate::ip_filter::{FaultKind, Filter, ParseError};
use crate::ip_statistics::{CaptureStatistics, Statistics};
use core::fmt;
use core::ops::{AddAssign, Range};
use core::str::FromStr;

impl<'a> Dissection<'a> {
    /// Returns an iterator over the extension headers, each with its offset: where it begins, in bytes from the start of
    /// the packet. That of IPv4 is an authentication header.
    ///
    /// ```
    /// let mut bytes = [0; 56];
    /// (bytes[0], bytes[5], bytes[6], bytes[40], bytes[48]) = (0x60, 16, 60, 43, 17);
    /// let packet = wolfaren::dissect::dissect(&bytes);
    /// let found: Vec<_> = packet.headers().map(|(offset, it)| (offset, it.number().0)).collect();
    /// assert_eq!(found, [(40, 60), (48, 43)]);
    /// ```
    pub fn headers(&self) -> impl Iterator<Item = (usize, Ipv6ExtensionSlice<'a>)> + use<'a> {
        let (first, base_len) = match self.base {
            Some(BaseHeader::Ipv4(base)) => (base.protocol(), base.slice().len()),
            Some(BaseHeader::Ipv6(base)) => (base.next_header(), base.slice().len()),
            None => (ip_number::IPV6_NO_NEXT_HEADER, 0),
        };
        let (headers, ..) = Ipv6ExtensionsSlice::from_slice_lax(first, self.extensions);
        headers.into_iter().scan(base_len, |end, header| {
            let offset = *end;
            *end += header.slice().len();
            Some((offset, header))
        })
    }

    /// Returns whether the payload is a fragment. A fragment header that leaves the payload whole doesn't make it one.
    pub fn is_payload_fragmented(&self) -> bool {
        self.fragment
            .is_some_and(|fragment| fragment.kind != FragmentKind::Atomic)
    }
}

/// Filters are equal if their texts have the same tests, as `not (fault or truncated)` and `not fault and not truncated` do.
impl PartialEq for Filter {
    fn eq(&self, other: &Filter) -> bool {
        self.used_tests() == other.used_tests()
    }
}

impl Eq for Filter {}

impl fmt::Debug for Filter {
    fn fmt(&self, f: &mut fmt::Formatter<'_>) -> fmt::Result {
        f.debug_list().entries(self.used_tests()).finish()
    }
}

impl FromStr for Filter {
    type Err = ParseError;

    fn from_str(text: &str) -> Result<Filter, ParseError> {
        Filter::parse(text.as_bytes())
    }
}

impl Statistics {
    /// Counts the packet at the start of the bytes as `count_packet` does, and dissects it as `dissect` does, in one walk
    /// over its extension headers.
    pub fn count_dissection<'a>(&mut self, bytes: &'a [u8]) -> Dissection<'a> {
        let packet = Packet::walk(bytes, self);
        self.end(&packet);
        packet.dissection()
    }

    /// Returns the number of packets with a truncated header of this layer.
    pub fn truncated(&self, layer: Layer) -> u64 {
        self.truncated_headers[usize::from(layer_code_of(layer))]
    }

    /// Returns the number of packets with a fault of this kind in this layer.
    pub fn faulty(&self, fault: FaultKind, layer: Layer) -> u64 {
        let code = match fault {
            FaultKind::TooShort => kind::TOO_SHORT,
            FaultKind::HopByHopNotAtStart => kind::HOP_BY_HOP_NOT_AT_START,
            FaultKind::ZeroPayloadLen => kind::ZERO_PAYLOAD_LEN,
            FaultKind::UnsupportedIpVersion => kind::UNSUPPORTED_IP_VERSION,
            FaultKind::Ipv4HeaderLength => kind::IPV4_HEADER_LENGTH,
        };
        self.faults[16 * usize::from(code) + usize::from(layer_code_of(layer))]
    }

    /// Returns the least length in bytes of the chains that the element of `chain_bytes` with this index counts: each
    /// multiple of 4 below 256 has an element, and then each power of two up to 65,536. The last element counts all
    /// longer chains too. Returns `None` if there is no such element.
    pub const fn least_chain_bytes(index: usize) -> Option<usize> {
        match index {
            0..64 => Some(4 * index),
            64..73 => Some(1 << (index - 56)),
            _ => None,
        }
    }
}

impl Default for Statistics {
    fn default() -> Statistics {
        Statistics::new()
    }
}

impl AddAssign<&Statistics> for Statistics {
    fn add_assign(&mut self, other: &Statistics) {
        self.merge(other);
    }
}

impl Default for CaptureStatistics {
    /// Returns the statistics of no frames.
    fn default() -> CaptureStatistics {
        let mut made = CaptureStatistics {
            version: 0,
            size: 0,
            other_frames: 0,
            truncated_frames: 0,
            packets: Statistics::new(),
        };
        made.clear();
        made
    }
}

impl DefragmenterCounts {
    /// Returns how many packets had this outcome, whatever their slot.
    pub fn of(&self, outcome: Outcome) -> u64 {
        self.outcomes[usize::from(outcome.code())]
    }

    /// Returns how many packets were given up for this reason.
    pub fn lost(&self, reason: LossReason) -> u64 {
        match reason {
            LossReason::TimedOut => self.losses[1],
            LossReason::Displaced => self.losses[2],
        }
    }
}

impl From<Range<usize>> for PacketSpan {
    /// Returns the span of these bytes. If the range ends before it begins, that of no bytes at its start.
    fn from(range: Range<usize>) -> PacketSpan {
        PacketSpan {
            offset: range.start,
            len: range.len(),
        }
    }
}

impl IpFragOffset {
    /// The offset of a first fragment.
    pub const ZERO: IpFragOffset = match IpFragOffset::try_new(0) {
        Ok(offset) => offset,
        Err(_) => panic!("0 has 13 bits"),
    };
}

impl From<IpFragOffset> for u16 {
    fn from(offset: IpFragOffset) -> u16 {
        offset.value()
    }
}
