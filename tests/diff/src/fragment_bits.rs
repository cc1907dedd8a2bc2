//! Converts byte 3 of fragment headers between two layouts. Ours is that of RFC 8200, section 4.5: from the
//! highest bit on, the low five bits of the offset, two reserved bits and the M flag, `ooooorrM`. The original has
//! `Mrrooooo`.
//!
//! The two layouts have the same bits in another order, so both sides can parse the same headers: the original
//! gets bytes whose fragment headers are in its own layout, and what it writes is converted back to ours. Fragment
//! headers are found by the numbers and lengths alone, which are the same in both layouts.

/// The numbers of extension headers.
const HOP_BY_HOP: u8 = 0;
const ROUTE: u8 = 43;
const FRAGMENT: u8 = 44;
const AUTH: u8 = 51;
const DEST_OPTIONS: u8 = 60;

/// The lengths of an IPv6 header and of a fragment header in bytes.
const IPV6_LEN: usize = 40;
const FRAGMENT_LEN: usize = 8;

/// The index of the byte of a fragment header that has the high bits of the offset.
const HIGH_BYTE: usize = 2;

/// The index of the byte of a fragment header that has the low bits of the offset, which the layouts order
/// differently.
const LOW_BYTE: usize = 3;

/// A conversion of byte 3 of a fragment header to the other layout.
pub type Bits = fn(u8) -> u8;

/// Converts our byte to the original's layout.
pub fn to_the_original(byte: u8) -> u8 {
    (byte & 0b0000_0001) << 7 | (byte & 0b0000_0110) << 4 | byte >> 3
}

/// Converts the original's byte to our layout.
pub fn from_the_original(byte: u8) -> u8 {
    byte >> 7 | (byte & 0b0110_0000) >> 4 | (byte & 0b0001_1111) << 3
}

/// Converts the fragment header at the start of the bytes. What follows it is unchanged.
pub fn header(bytes: &[u8], bits: Bits) -> Vec<u8> {
    let mut bytes = bytes.to_vec();
    if bytes.len() >= FRAGMENT_LEN {
        bytes[LOW_BYTE] = bits(bytes[LOW_BYTE]);
    }
    bytes
}

/// Converts each fragment header of the longest chain at the start of the bytes, beginning with a number.
pub fn chain(start: u8, bytes: &[u8], bits: Bits) -> Vec<u8> {
    changed_chain(start, bytes, |header| {
        header[LOW_BYTE] = bits(header[LOW_BYTE])
    })
}

/// Sets the offset of each fragment header of a packet to 0. The chain ends where it does for `packet`.
pub fn first_fragments(bytes: &[u8]) -> Vec<u8> {
    changed_packet(bytes, |header| {
        header[HIGH_BYTE] = 0;
        header[LOW_BYTE] &= 0b0000_0111;
    })
}

/// Changes each fragment header of the longest chain at the start of the bytes, beginning with a number.
fn changed_chain(start: u8, bytes: &[u8], change: impl Fn(&mut [u8])) -> Vec<u8> {
    let mut bytes = bytes.to_vec();
    let (mut number, mut at) = (start, 0);
    // Hop-by-hop options may only come first.
    while number != HOP_BY_HOP || at == 0 {
        let Some(len) = whole_header_len(number, &bytes[at..]) else {
            break;
        };
        if number == FRAGMENT {
            change(&mut bytes[at..at + len]);
        }
        number = bytes[at];
        at += len;
    }
    bytes
}

/// Converts each fragment header in the chain of the packet at the start of the bytes. The chain ends where the
/// packet does: where its payload length says, or at the end of the bytes if that is 0 or more than there are.
/// Packets of other versions than 6 have no such header.
pub fn packet(bytes: &[u8], bits: Bits) -> Vec<u8> {
    changed_packet(bytes, |header| header[LOW_BYTE] = bits(header[LOW_BYTE]))
}

/// Changes each fragment header in the chain of the packet at the start of the bytes.
fn changed_packet(bytes: &[u8], change: impl Fn(&mut [u8])) -> Vec<u8> {
    if bytes.len() < IPV6_LEN || bytes[0] >> 4 != 6 {
        return bytes.to_vec();
    }
    let stated = usize::from(u16::from_be_bytes([bytes[4], bytes[5]]));
    let after = bytes.len() - IPV6_LEN;
    let payload = if stated == 0 {
        after
    } else {
        stated.min(after)
    };
    let (base, rest) = bytes.split_at(IPV6_LEN);
    let (inside, trailer) = rest.split_at(payload);
    [base, &changed_chain(bytes[6], inside, change), trailer].concat()
}

/// Returns the length of the header with this number at the start of the bytes, if it is complete.
fn whole_header_len(number: u8, bytes: &[u8]) -> Option<usize> {
    let field = usize::from(*bytes.get(1)?);
    let len = match number {
        HOP_BY_HOP | ROUTE | DEST_OPTIONS => 8 * (field + 1),
        FRAGMENT => FRAGMENT_LEN,
        AUTH if field > 0 => 4 * (field + 2),
        _ => return None,
    };
    (len <= bytes.len()).then_some(len)
}

#[cfg(test)]
mod tests {
    use super::*;

    /// Offset, reserved bits and flag of byte 3 in each layout.
    #[test]
    fn each_byte_has_the_same_fields_in_both_layouts() {
        for byte in 0..=255 {
            let other = to_the_original(byte);
            assert_eq!(byte >> 3, other & 0x1f);
            assert_eq!(byte >> 1 & 3, other >> 5 & 3);
            assert_eq!(byte & 1, other >> 7);
            assert_eq!(from_the_original(other), byte);
            assert_eq!(to_the_original(from_the_original(byte)), byte);
        }
    }

    /// Options of 16 bytes, a fragment header, an authentication header of 12 bytes, a fragment header, and more
    /// bytes.
    fn asked(after: &[u8]) -> Vec<u8> {
        let options = [44, 1, 0, 1, 0, 0, 0, 0, 0, 0, 0, 1, 0, 0, 0, 0];
        let fragment = [51, 9, 0, 1, 0, 0, 0, 1];
        let auth = [44, 1, 0, 1, 0, 0, 0, 0, 0, 0, 0, 1];
        let last = [44, 9, 7, 8, 0, 0, 0, 1];
        [&options[..], &fragment, &auth, &last, after].concat()
    }

    #[test]
    fn the_fragment_headers_of_a_chain_are_found() {
        let mut expected = asked(&[1; 7]);
        (expected[16 + 3], expected[36 + 3]) = (0x80, 1);
        assert_eq!(
            chain(DEST_OPTIONS, &asked(&[1; 7]), to_the_original),
            expected
        );
        assert_eq!(chain(17, &asked(&[1; 7]), to_the_original), asked(&[1; 7]));
        let late = [
            HOP_BY_HOP, 0, 0, 0, 0, 0, 0, 0, FRAGMENT, 0, 0, 0, 0, 0, 0, 0,
        ];
        let after = [&late[..], &[17, 0, 0, 1, 0, 0, 0, 0]].concat();
        assert_eq!(chain(DEST_OPTIONS, &after, to_the_original), after);
    }

    /// An IPv6 packet with a fragment header that has only the M flag, and a payload length.
    fn fragment(stated: u8) -> Vec<u8> {
        let mut bytes = [&[0x60, 0, 0, 0, 0, stated, FRAGMENT][..], &[0; 33]].concat();
        bytes.extend([17, 0, 0, 1, 0, 0, 0, 0]);
        bytes
    }

    /// The length that a packet states, 0, more than there is; and less, so that it excludes the header.
    #[test]
    fn the_chain_of_a_packet_ends_where_the_packet_does() {
        for (stated, low) in [(8, 0x80), (0, 0x80), (9, 0x80), (7, 1)] {
            assert_eq!(
                packet(&fragment(stated), to_the_original)[43],
                low,
                "{stated}"
            );
        }
        let mut ipv4 = fragment(8);
        ipv4[0] = 0x45;
        assert_eq!(packet(&ipv4, to_the_original), ipv4);
        assert_eq!(packet(&ipv4[..39], to_the_original), &ipv4[..39]);
    }

    /// Offset 3 becomes 0; reserved bits, flag and identification are unchanged.
    #[test]
    fn later_fragments_become_first_ones() {
        let mut later = fragment(8);
        later[41..48].copy_from_slice(&[9, 1, 0b0001_1111, 2, 3, 4, 5]);
        let first = first_fragments(&later);
        assert_eq!(first[40..], [17, 9, 0, 0b0000_0111, 2, 3, 4, 5]);
        assert_eq!(first[..40], later[..40]);
        later[6] = 17;
        assert_eq!(first_fragments(&later), later);
    }

    #[test]
    fn a_truncated_header_is_left_as_it_is() {
        assert_eq!(
            header(&[0, 0, 0, 1, 0, 0, 0], to_the_original),
            [0, 0, 0, 1, 0, 0, 0]
        );
        assert_eq!(
            chain(FRAGMENT, &[0, 0, 0, 1, 0, 0, 0], to_the_original)[3],
            1
        );
        assert_eq!(
            header(&[0, 0, 0, 1, 0, 0, 0, 0, 0], to_the_original)[3],
            0x80
        );
    }
}
