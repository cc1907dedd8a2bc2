//! Fields that are private here, since an invariant depends on them, and calls that check their condition.

use crate::ip_dissect::{BaseHeader, Summary, Packet, PacketStart};
use crate::ip_filter::Metadata;
use crate::ip_lists::{Links, Table};

impl<'a> Packet<'a> {
    /// Returns all bytes: the base header, the extension headers, the payload and the padding.
    #[inline]
    pub fn bytes(&self) -> &'a [u8] {
        self.bytes
    }

    /// Returns the base header, if the bytes start with a whole one.
    #[inline]
    pub fn base(&self) -> Option<BaseHeader<'a>> {
        self.base
    }

    /// Returns the lengths and numbers of the parts.
    #[inline]
    pub fn summary(&self) -> &Summary {
        &self.summary
    }
}

impl<'a> PacketStart<'a> {
    /// Returns all bytes.
    #[inline]
    pub fn bytes(&self) -> &'a [u8] {
        self.bytes
    }

    /// Returns the base header, if the bytes start with a whole one.
    #[inline]
    pub fn base(&self) -> Option<BaseHeader<'a>> {
        self.base
    }
}

impl<'a> Metadata<'a> {
    /// Returns the bytes that start with the packet.
    #[inline]
    pub fn bytes(&self) -> &'a [u8] {
        self.bytes
    }
}

/// The largest number of places of which each has a number of 32 bits.
const MOST: u64 = 1 << 32;

impl Links<'_> {
    /// Returns whether both arrays have the same length, at most 2^32.
    fn is_clearable(&self) -> bool {
        self.next.len() == self.previous.len() && self.next.len() as u64 <= MOST
    }

    /// Takes each place out of its list, so that it leads to itself. Returns false, and changes nothing, if the arrays
    /// have different lengths or more than 2^32 places.
    pub fn try_clear(&mut self) -> bool {
        let is_clearable = self.is_clearable();
        if is_clearable {
            self.clear();
        }
        is_clearable
    }
}

impl Table<'_> {
    /// Frees all places, in their order, and empties the chains. Returns false, and changes nothing, if an array has more
    /// than 2^32 places or another length than the other of its pair, or if there is no room: of ages, two more than
    /// places; of chains, as many as places.
    pub fn try_clear(&mut self) -> bool {
        let places = u64::from(self.places);
        let has_room =
            self.ages.next.len() as u64 >= places + 2 && self.chains.next.len() as u64 >= places;
        let is_clearable = has_room && self.ages.is_clearable() && self.chains.is_clearable();
        if is_clearable {
            self.clear();
        }
        is_clearable
    }
}
