//! The bytes for a call, for each side: the original gets fragment headers with its own bits.
use diff::fragment_bits::{self, to_the_original};
use std::borrow::Cow;

/// Where the bytes of a call have headers.
#[derive(Clone, Copy)]
pub enum Begins {
    /// A chain that starts at the first byte, with this number.
    Chain(u8),
    /// A single fragment header.
    Fragment,
    /// After the IP header of a packet.
    Packet,
    /// The call reads no fragment header.
    Nowhere,
}

/// The bytes for both sides, of the same length.
pub struct Asked<'a> {
    ours: &'a [u8],
    original: Cow<'a, [u8]>,
}

impl<'a> Asked<'a> {
    /// Makes the bytes for both sides from ours.
    pub fn new(begins: Begins, ours: &'a [u8]) -> Asked<'a> {
        let original = match begins {
            Begins::Chain(start) => fragment_bits::chain(start, ours, to_the_original).into(),
            Begins::Fragment => fragment_bits::header(ours, to_the_original).into(),
            Begins::Packet => fragment_bits::packet(ours, to_the_original).into(),
            Begins::Nowhere => ours.into(),
        };
        Asked { ours, original }
    }

    /// Returns the bytes for the original.
    pub fn original(&self) -> &[u8] {
        &self.original
    }

    /// Returns the part of our bytes at the position of this part of the original's.
    pub fn ours(&self, part: &[u8]) -> &'a [u8] {
        if part.is_empty() {
            return &[];
        }
        let offset = part.as_ptr() as usize - self.original.as_ptr() as usize;
        &self.ours[offset..offset + part.len()]
    }
}

#[cfg(test)]
mod tests {
    use super::*;

    /// A fragment header with only the M flag, and one more byte.
    const FRAGMENT: [u8; 9] = [17, 0, 0, 1, 0, 0, 0, 9, 5];

    #[test]
    fn the_original_is_given_its_own_bits() {
        let given = |begins, bytes| Asked::new(begins, bytes).original().to_vec();
        let mut theirs = FRAGMENT;
        theirs[3] = 0x80;
        assert_eq!(given(Begins::Chain(44), &FRAGMENT), theirs);
        assert_eq!(given(Begins::Fragment, &FRAGMENT), theirs);
        assert_eq!(given(Begins::Chain(17), &FRAGMENT), FRAGMENT);
        assert_eq!(given(Begins::Nowhere, &FRAGMENT), FRAGMENT);
        let base = [&[0x60, 0, 0, 0, 0, 9, 44][..], &[0; 33]].concat();
        let packet = [&base[..], &FRAGMENT].concat();
        assert_eq!(
            given(Begins::Packet, &packet),
            [&base[..], &theirs].concat()
        );
    }

    #[test]
    fn a_part_is_ours_where_it_stands() {
        let asked = Asked::new(Begins::Fragment, &FRAGMENT);
        assert_eq!(asked.ours(&asked.original()[2..4]), [0, 1]);
        assert_eq!(asked.ours(asked.original()), FRAGMENT);
        assert!(asked.ours(&asked.original()[9..]).is_empty());
    }
}
