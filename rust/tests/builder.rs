//! Tests building chains: their bytes, the refusals, and that the parse of the bytes returns the headers again.
use wolfaren::err::ip_auth::IcvLenError;
use wolfaren::err::ipv6_exts::ExtPayloadLenError;
use wolfaren::build::{BuildError, Ipv6ExtensionsBuilder};
use wolfaren::{
    IpFragOffset, IpNumber, Ipv4ExtensionsSlice, Ipv6ExtensionSlice, Ipv6ExtensionsSlice,
    Ipv6RawExtHeaderSlice, ip_number,
};

/// A chain that leads from 0 to 6, as scapy writes it: hop-by-hop options with a router alert, destination options, a
/// routing header of type 0 with one address, a fragment header with offset 185, and an authentication header.
const CHAIN: [u8; 72] = [
    0x3c, 0, 5, 2, 0, 0, 1, 0, // Hop-by-hop options.
    0x2b, 0, 1, 4, 0, 0, 0, 0, // Destination options.
    0x2c, 2, 0, 1, 0, 0, 0, 0, // The routing header and its address.
    0x20, 1, 0x0d, 0xb8, 0, 0, 0, 0, 0, 0, 0, 0, 0, 0, 0, 1, //
    0x33, 0, 5, 0xc9, 1, 2, 3, 4, // The fragment header.
    6, 4, 0, 0, 0x11, 0x22, 0x33, 0x44, 0, 0, 0,
    9, // The authentication header and its check value.
    1, 2, 3, 4, 5, 6, 7, 8, 9, 10, 11, 12,
];

/// Builds that chain from its fields.
fn built() -> Result<Ipv6ExtensionsBuilder, BuildError> {
    let mut chain = Ipv6ExtensionsBuilder::new();
    let offset = IpFragOffset::try_new(185).expect("it has 13 bits");
    chain
        .push_hop_by_hop_options(&[5, 2, 0, 0, 1, 0])?
        .push_destination_options(&[1, 4, 0, 0, 0, 0])?
        .push_routing(&CHAIN[18..40])?
        .push_fragment(offset, true, 0x0102_0304)
        .push_authentication(0x1122_3344, 9, &CHAIN[60..])?;
    Ok(chain)
}

#[test]
fn chain_of_all_headers() {
    let mut chain = built().unwrap();
    assert_eq!((chain.len(), chain.bytes().len()), (5, 72));
    assert_eq!(chain.link(IpNumber::TCP), ip_number::IPV6_HOP_BY_HOP);
    assert_eq!(chain.bytes(), CHAIN);
    let (headers, number, rest) =
        Ipv6ExtensionsSlice::from_slice(ip_number::IPV6_HOP_BY_HOP, &CHAIN).unwrap();
    assert_eq!((number, rest), (IpNumber::TCP, &[][..]));
    assert_eq!(Ipv6ExtensionsBuilder::from(&headers).bytes(), CHAIN);
}

#[test]
fn headers_are_linked_before_link_is_called() {
    let mut expected = CHAIN;
    expected[48] = 59;
    assert_eq!(built().unwrap().bytes(), expected);
}

#[test]
fn no_headers() {
    let mut chain = Ipv6ExtensionsBuilder::default();
    assert!(chain.is_empty() && chain.bytes().is_empty());
    assert_eq!(chain.link(IpNumber::UDP), IpNumber::UDP);
    let chain = Ipv6ExtensionsBuilder::from(&Ipv6ExtensionsSlice::default());
    assert!(chain.is_empty());
}

#[test]
fn headers_are_linked_to_another_number_again() {
    let mut chain = Ipv6ExtensionsBuilder::new();
    chain.push_routing(&[0; 6]).unwrap();
    chain.link(IpNumber::UDP);
    assert_eq!(chain.bytes(), [17, 0, 0, 0, 0, 0, 0, 0]);
    chain.push_routing(&[1; 6]).unwrap();
    assert_eq!(chain.bytes()[8..], [17, 0, 1, 1, 1, 1, 1, 1]);
    assert_eq!(chain.bytes()[0], 43);
    assert_eq!(chain.link(IpNumber::TCP), ip_number::IPV6_ROUTE);
    assert_eq!((chain.bytes()[0], chain.bytes()[8]), (43, 6));
}

/// Any length from 6 to 2046 that is a multiple of 8 minus 2 is accepted (RFC 6564).
#[test]
fn payloads_of_all_lengths() {
    for len in 0..=2054 {
        let payload = vec![7; len];
        let expected = match len {
            0..6 => Err(ExtPayloadLenError::TooSmall(len)),
            2047.. => Err(ExtPayloadLenError::TooBig(len)),
            _ if len % 8 != 6 => Err(ExtPayloadLenError::Unaligned(len)),
            _ => Ok(()),
        };
        let mut chain = Ipv6ExtensionsBuilder::new();
        let pushed = chain.push_destination_options(&payload).map(|_| ());
        assert_eq!(pushed, expected.map_err(BuildError::PayloadLen));
        let bytes = chain.bytes();
        match Ipv6RawExtHeaderSlice::from_slice(bytes) {
            Ok(header) => {
                assert_eq!((header.slice(), header.payload()), (bytes, &payload[..]));
            }
            Err(_) => assert!(bytes.is_empty() && pushed.is_err()),
        }
    }
}

/// Any length up to 1016 that is a multiple of 4 is accepted (RFC 4302, section 2.2).
#[test]
fn check_values_of_all_lengths() {
    for len in 0..=1024 {
        let icv = vec![7; len];
        let expected = match len {
            1017.. => Err(IcvLenError::TooBig(len)),
            _ if len % 4 != 0 => Err(IcvLenError::Unaligned(len)),
            _ => Ok(()),
        };
        let mut chain = Ipv6ExtensionsBuilder::new();
        let pushed = chain.push_authentication(1, 2, &icv).map(|_| ());
        assert_eq!(pushed, expected.map_err(BuildError::IcvLen));
        let first = chain.link(IpNumber::UDP);
        let bytes = chain.bytes();
        let (headers, number, rest) = Ipv4ExtensionsSlice::from_slice(first, bytes).unwrap();
        assert_eq!((number, rest), (IpNumber::UDP, &[][..]));
        match headers.auth {
            Some(header) => assert_eq!(header.raw_icv(), icv),
            None => assert!(pushed.is_err()),
        }
    }
}

#[test]
fn hop_by_hop_options_only_at_the_start() {
    let mut chain = Ipv6ExtensionsBuilder::new();
    let options = Ipv6ExtensionSlice::HopByHop(Ipv6RawExtHeaderSlice::from_slice(&[0; 8]).unwrap());
    chain.push(&options).unwrap();
    for _ in 0..2 {
        let refused = chain.push(&options).unwrap_err();
        assert_eq!(refused, BuildError::HopByHopNotAtStart);
        // The place is checked before the length.
        let refused = chain.push_hop_by_hop_options(&[]).unwrap_err();
        assert_eq!(refused, BuildError::HopByHopNotAtStart);
        assert_eq!(chain.bytes(), [59, 0, 0, 0, 0, 0, 0, 0]);
    }
}

/// Bits that RFC 8200, section 4.5 and RFC 4302, section 2 reserve are written as 0.
#[test]
fn reserved_bits_are_cleared() {
    let bytes = [
        51, 0xff, 0xff, 0xff, 1, 2, 3, 4, 17, 1, 0xff, 0xff, 1, 2, 3, 4, 5, 6, 7, 8,
    ];
    let (headers, number, _) =
        Ipv6ExtensionsSlice::from_slice(ip_number::IPV6_FRAG, &bytes).unwrap();
    let mut expected = bytes;
    (expected[1], expected[3], expected[10], expected[11]) = (0, 0xf9, 0, 0);
    assert_eq!(Ipv6ExtensionsBuilder::from(&headers).bytes(), expected);
    let mut pushed = Ipv6ExtensionsBuilder::new();
    for header in headers {
        pushed.push(&header).unwrap();
    }
    pushed.link(number);
    assert_eq!(pushed.bytes(), expected);
}

/// Every offset and both flags are in the bits of RFC 8200, section 4.5.
#[test]
fn fragment_fields() {
    for offset in 0..=IpFragOffset::MAX_U16 {
        for more in [false, true] {
            let mut chain = Ipv6ExtensionsBuilder::new();
            chain.push_fragment(IpFragOffset::try_new(offset).unwrap(), more, 0xffff_0001);
            let bits = u32::from(offset) * 8 + u32::from(more);
            let expected = [
                59,
                0,
                (bits / 256) as u8,
                (bits % 256) as u8,
                0xff,
                0xff,
                0,
                1,
            ];
            assert_eq!(chain.bytes(), expected);
        }
    }
}

#[test]
fn texts_of_refusals() {
    use std::error::Error;
    let errors = [
        BuildError::from(ExtPayloadLenError::TooSmall(5)),
        BuildError::from(IcvLenError::Unaligned(3)),
    ];
    for error in errors {
        let inner = error.source().map(ToString::to_string);
        assert_eq!(inner, Some(error.to_string()));
    }
    let refused = BuildError::HopByHopNotAtStart;
    assert!(refused.source().is_none());
    assert_eq!(
        refused.to_string(),
        "hop-by-hop options are only allowed as the first extension header"
    );
}
