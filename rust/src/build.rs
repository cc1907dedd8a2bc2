//! Chains of extension headers from headers that are pushed in order.

use crate::err::ip_auth::IcvLenError;
use crate::err::ipv6_exts::ExtPayloadLenError;
use crate::ip_ext_headers::clear_reserved_bits;
use crate::{
    IpAuthHeader, IpFragOffset, IpNumber, Ipv6ExtensionSlice, Ipv6ExtensionsSlice,
    Ipv6FragmentHeader, Ipv6RawExtHeader, ip_number,
};
use alloc::vec::Vec;
use thiserror::Error;

/// A header can't be added to a chain that is being built.
#[derive(Clone, Debug, PartialEq, Eq, Hash, Error)]
#[non_exhaustive]
pub enum BuildError {
    /// Hop-by-hop options aren't the first header (RFC 8200, section 4.1).
    #[error("hop-by-hop options are only allowed as the first extension header")]
    HopByHopNotAtStart,
    /// The length of a payload isn't allowed.
    #[error("{0}")]
    PayloadLen(#[from] ExtPayloadLenError),
    /// The length of an integrity check value isn't allowed.
    #[error("{0}")]
    IcvLen(#[from] IcvLenError),
}

/// Builds a chain of IPv6 extension headers from headers that are pushed in order.
///
/// The headers are always linked: each names the one after it, and the last one the number that
/// [`link`](Self::link) has set, at first 59 (no next header). Reserved bits are written as 0. An authentication header
/// alone is also the chain of an IPv4 packet.
///
/// ```
/// use wolfaren::{IpFragOffset, Ipv6ExtensionsSlice, build::Ipv6ExtensionsBuilder, ip_number};
///
/// let mut chain = Ipv6ExtensionsBuilder::new();
/// chain
///     .push_destination_options(&[1, 4, 0, 0, 0, 0])?
///     .push_fragment(IpFragOffset::try_new(0)?, true, 7);
/// let first = chain.link(ip_number::UDP);
/// assert_eq!(first, ip_number::IPV6_DEST_OPTIONS);
/// assert_eq!(chain.bytes(), [44, 0, 1, 4, 0, 0, 0, 0, 17, 0, 0, 1, 0, 0, 0, 7]);
///
/// let (headers, number, rest) = Ipv6ExtensionsSlice::from_slice(first, chain.bytes())?;
/// assert_eq!((number, rest), (ip_number::UDP, &[][..]));
/// assert_eq!(headers.into_iter().count(), 2);
/// # Ok::<(), Box<dyn core::error::Error>>(())
/// ```
#[derive(Clone, Debug)]
pub struct Ipv6ExtensionsBuilder {
    /// The headers, linked.
    bytes: Vec<u8>,
    /// How many headers there are.
    count: usize,
    /// Where the last header begins.
    last: usize,
    /// The number of the first header, or `next` if there is none.
    first: IpNumber,
    /// What the last header names.
    next: IpNumber,
}

impl Ipv6ExtensionsBuilder {
    /// Creates a chain without headers, which leads to 59 (no next header).
    pub const fn new() -> Ipv6ExtensionsBuilder {
        Ipv6ExtensionsBuilder {
            bytes: Vec::new(),
            count: 0,
            last: 0,
            first: ip_number::IPV6_NO_NEXT_HEADER,
            next: ip_number::IPV6_NO_NEXT_HEADER,
        }
    }

    /// Adds hop-by-hop options (RFC 8200, section 4.3). The payload is everything after the next header and length
    /// fields: the options with their padding. Returns an error, and changes nothing, if the chain has a header already,
    /// or as `Ipv6RawExtHeader::new_raw` does.
    pub fn push_hop_by_hop_options(&mut self, payload: &[u8]) -> Result<&mut Self, BuildError> {
        self.check_place(ip_number::IPV6_HOP_BY_HOP)?;
        self.push_raw(ip_number::IPV6_HOP_BY_HOP, payload)
    }

    /// Adds a routing header (RFC 8200, section 4.4). The payload is everything after the next header and length
    /// fields: the routing type, the segments left and the type's data. Returns an error, and changes nothing, if
    /// `Ipv6RawExtHeader::new_raw` does.
    pub fn push_routing(&mut self, payload: &[u8]) -> Result<&mut Self, BuildError> {
        self.push_raw(ip_number::IPV6_ROUTE, payload)
    }

    /// Adds destination options (RFC 8200, section 4.6). The payload is everything after the next header and length
    /// fields: the options with their padding. Returns an error, and changes nothing, if `Ipv6RawExtHeader::new_raw` does.
    pub fn push_destination_options(&mut self, payload: &[u8]) -> Result<&mut Self, BuildError> {
        self.push_raw(ip_number::IPV6_DEST_OPTIONS, payload)
    }

    /// Adds a fragment header (RFC 8200, section 4.5).
    pub fn push_fragment(
        &mut self,
        fragment_offset: IpFragOffset,
        more_fragments: bool,
        identification: u32,
    ) -> &mut Self {
        let header =
            Ipv6FragmentHeader::new(self.next, fragment_offset, more_fragments, identification);
        self.append(ip_number::IPV6_FRAG, &header.to_bytes())
    }

    /// Adds an authentication header (RFC 4302, section 2). `raw_icv` is the integrity check value with its padding.
    /// Returns an error, and changes nothing, if `IpAuthHeader::new` does.
    pub fn push_authentication(
        &mut self,
        spi: u32,
        sequence_number: u32,
        raw_icv: &[u8],
    ) -> Result<&mut Self, BuildError> {
        let header = IpAuthHeader::new(self.next, spi, sequence_number, raw_icv)?;
        Ok(self.append(ip_number::AUTH, &header.to_bytes()))
    }

    /// Adds a copy of a header. Returns an error, and changes nothing, if it is hop-by-hop options, and the chain has a
    /// header already.
    pub fn push(&mut self, header: &Ipv6ExtensionSlice<'_>) -> Result<&mut Self, BuildError> {
        self.check_place(header.number())?;
        Ok(self.append(header.number(), header.slice()))
    }

    /// Links the last header to `next`, the number of what follows the chain. Returns the number of the first header,
    /// or `next` if there is no header: the value for the next header field before the chain.
    ///
    /// If `next` is the number of an extension header, a parse reads on in the bytes after the chain. After a header,
    /// every parse refuses 0.
    pub fn link(&mut self, next: IpNumber) -> IpNumber {
        self.next = next;
        self.name_in_last(next);
        self.first
    }

    /// Returns the bytes of the chain.
    pub fn bytes(&self) -> &[u8] {
        &self.bytes
    }

    /// Returns the number of headers.
    pub fn len(&self) -> usize {
        self.count
    }

    /// Returns whether there is no header.
    pub fn is_empty(&self) -> bool {
        self.count == 0
    }

    /// Returns an error for hop-by-hop options after another header.
    fn check_place(&self, number: IpNumber) -> Result<(), BuildError> {
        if number == ip_number::IPV6_HOP_BY_HOP && !self.is_empty() {
            return Err(BuildError::HopByHopNotAtStart);
        }
        Ok(())
    }

    /// Adds a header in the uniform format (RFC 6564).
    fn push_raw(&mut self, number: IpNumber, payload: &[u8]) -> Result<&mut Self, BuildError> {
        let header = Ipv6RawExtHeader::new_raw(self.next, payload)?;
        Ok(self.append(number, &header.to_bytes()))
    }

    /// Adds a header, and links the one before it to it.
    fn append(&mut self, number: IpNumber, header: &[u8]) -> &mut Self {
        self.name_in_last(number);
        self.last = self.bytes.len();
        self.count += 1;
        self.bytes.extend_from_slice(header);
        clear_reserved_bits(number, &mut self.bytes[self.last..]);
        self.name_in_last(self.next);
        self
    }

    /// Stores a number in the last header's next header field, or as the first number if there is no header.
    fn name_in_last(&mut self, number: IpNumber) {
        match self.bytes.get_mut(self.last) {
            Some(next_header) => *next_header = number.0,
            None => self.first = number,
        }
    }
}

impl Default for Ipv6ExtensionsBuilder {
    fn default() -> Ipv6ExtensionsBuilder {
        Ipv6ExtensionsBuilder::new()
    }
}

impl From<&Ipv6ExtensionsSlice<'_>> for Ipv6ExtensionsBuilder {
    /// Copies a chain. The copy leads to the number to which the chain leads, or to 59 (no next header) if it has no
    /// headers.
    fn from(chain: &Ipv6ExtensionsSlice<'_>) -> Ipv6ExtensionsBuilder {
        let mut copy = Ipv6ExtensionsBuilder::new();
        let mut headers = chain.clone().into_iter();
        for header in headers.by_ref() {
            copy.append(header.number(), header.slice());
        }
        if !copy.is_empty() {
            copy.link(headers.next_number());
        }
        copy
    }
}
