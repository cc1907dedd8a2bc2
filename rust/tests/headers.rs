//! Tests parsing single headers, IP headers and packets of one version: the results, and the order of the errors.
use wolfaren::err::{ip_auth, ipv4, ipv6, ipv6_exts, Layer, LenError};
use wolfaren::dissect::{BaseHeader, dissect};
use wolfaren::{
    IpAuthHeaderSlice, IpNumber, IpSlice, Ipv4HeaderSlice, Ipv4Slice, Ipv6ExtensionSlice,
    Ipv6ExtensionSliceIter, Ipv6ExtensionsSlice, Ipv6FragmentHeaderSlice, Ipv6HeaderSlice,
    Ipv6RawExtHeaderSlice, Ipv6Slice, LenSource,
};

fn too_short(layer: Layer, offset: usize, required: usize, len: usize, by: LenSource) -> LenError {
    LenError {
        required_len: required,
        layer_start_offset: offset,
        len_source: by,
        layer,
        len,
    }
}

/// Returns a length error of a header at the start of a slice.
fn short(layer: Layer, required: usize, len: usize) -> LenError {
    too_short(layer, 0, required, len, LenSource::Slice)
}

/// Returns an IPv4 packet without extension headers, with this header length, total length and protocol.
fn ipv4(ihl: u8, total_len: u8, protocol: u8, len: usize) -> Vec<u8> {
    let mut bytes = vec![0; len.max(20)];
    (bytes[0], bytes[3], bytes[9]) = (0x40 | ihl, total_len, protocol);
    bytes.truncate(len);
    bytes
}

/// Returns an IPv6 packet with zeros after its IPv6 header.
fn ipv6(payload_length: u8, next_header: u8, len: usize) -> Vec<u8> {
    let mut bytes = vec![0; len.max(40)];
    (bytes[0], bytes[5], bytes[6]) = (0x60, payload_length, next_header);
    bytes.truncate(len);
    bytes
}

/// An IPv4 header with each field of RFC 791, section 3.1, set: code point 46, both flags, offset 258, and options.
#[test]
fn fields_of_an_ipv4_header() {
    let bytes = [
        0x46, 0xb9, 0, 24, 0x12, 0x34, 0x61, 0x02, 64, 17, 0xab, 0xcd, 192, 0, 2, 1, 198, 51, 100,
        2, 1, 1, 1, 0,
    ];
    let header = Ipv4HeaderSlice::from_slice(&bytes).unwrap();
    assert_eq!((header.dcp(), header.ecn(), header.ttl()), (46, 1, 64));
    assert!(header.dont_fragment() && header.more_fragments());
    assert_eq!(header.identification(), 0x1234);
    assert_eq!(header.fragments_offset().value(), 258);
    assert_eq!(header.header_checksum(), 0xabcd);
    assert_eq!(header.options(), [1, 1, 1, 0]);
    assert_eq!(header.source(), [192, 0, 2, 1]);
    assert_eq!(header.destination(), [198, 51, 100, 2]);
    let bytes = ipv4(5, 20, 17, 20);
    let header = Ipv4HeaderSlice::from_slice(&bytes).unwrap();
    assert!(!header.dont_fragment() && !header.more_fragments() && header.options().is_empty());
}

/// An IPv6 header with traffic class 184, a flow label and hop limit 7 (RFC 8200, section 3).
#[test]
fn fields_of_an_ipv6_header() {
    let mut bytes = [0; 40];
    bytes[..8].copy_from_slice(&[0x6b, 0x8a, 0xbc, 0xde, 0, 0, 59, 7]);
    let header = Ipv6HeaderSlice::from_slice(&bytes).unwrap();
    assert_eq!(header.traffic_class(), 0xb8);
    assert_eq!(header.flow_label(), 0xa_bcde);
    assert_eq!(header.hop_limit(), 7);
    let mut bytes = ipv6(0, 59, 40);
    bytes[8..40].copy_from_slice(&std::array::from_fn::<u8, 32, _>(|index| index as u8));
    let header = Ipv6HeaderSlice::from_slice(&bytes).unwrap();
    assert_eq!(header.source(), bytes[8..24]);
    assert_eq!(header.destination(), bytes[24..]);
}

#[test]
fn raw_headers() {
    let bytes: Vec<u8> = [43, 1].into_iter().chain(2..24).collect();
    let header = Ipv6RawExtHeaderSlice::from_slice(&bytes).unwrap();
    assert_eq!(
        (header.slice(), header.payload()),
        (&bytes[..16], &bytes[2..16])
    );
    assert_eq!(header.next_header(), IpNumber(43));
    let refused = |len| Ipv6RawExtHeaderSlice::from_slice(&bytes[..len]).unwrap_err();
    assert_eq!(refused(0), short(Layer::Ipv6ExtHeader, 8, 0));
    assert_eq!(refused(7), short(Layer::Ipv6ExtHeader, 8, 7));
    assert_eq!(refused(15), short(Layer::Ipv6ExtHeader, 16, 15));
    let supported = Ipv6RawExtHeaderSlice::header_type_supported;
    let numbers: Vec<u8> = (0..=255)
        .filter(|number| supported(IpNumber(*number)))
        .collect();
    assert_eq!(numbers, [0, 43, 60, 135, 139, 140]);
}

#[test]
fn fragment_headers() {
    for (low, offset, more) in [
        (0x00, 0, false),
        (0x01, 0, true),
        (0x06, 0, false),
        (0xf8, 31, false),
    ] {
        let bytes = [17, 255, 0, low, 1, 2, 3, 4, 5];
        let header = Ipv6FragmentHeaderSlice::from_slice(&bytes).unwrap();
        assert_eq!(header.slice(), &bytes[..8]);
        assert_eq!(header.next_header(), IpNumber(17));
        assert_eq!(header.fragment_offset().value(), offset);
        assert_eq!(header.more_fragments(), more);
        assert_eq!(header.is_fragmenting_payload(), more || offset != 0);
        assert_eq!(header.identification(), 0x0102_0304);
    }
    let high = Ipv6FragmentHeaderSlice::from_slice(&[0, 0, 1, 0, 0, 0, 0, 0]).unwrap();
    assert_eq!(high.fragment_offset().value(), 32);
    let refused = Ipv6FragmentHeaderSlice::from_slice(&[0; 7]).unwrap_err();
    assert_eq!(refused, short(Layer::Ipv6FragHeader, 8, 7));
}

#[test]
fn authentication_headers() {
    use ip_auth::{HeaderError::ZeroPayloadLen, HeaderSliceError};
    let bytes: Vec<u8> = [6, 2].into_iter().chain(2..20).collect();
    let header = IpAuthHeaderSlice::from_slice(&bytes).unwrap();
    assert_eq!(
        (header.slice(), header.raw_icv()),
        (&bytes[..16], &bytes[12..16])
    );
    assert_eq!(header.next_header(), IpNumber(6));
    assert_eq!(
        (header.spi(), header.sequence_number()),
        (0x0405_0607, 0x0809_0a0b)
    );
    let refused = |bytes| IpAuthHeaderSlice::from_slice(bytes).unwrap_err();
    assert_eq!(
        refused(&bytes[..11]),
        HeaderSliceError::Len(short(Layer::IpAuthHeader, 12, 11))
    );
    assert_eq!(
        refused(&bytes[..15]),
        HeaderSliceError::Len(short(Layer::IpAuthHeader, 16, 15))
    );
    assert_eq!(refused(&[0; 12]), HeaderSliceError::Content(ZeroPayloadLen));
    assert_eq!(
        refused(&[0; 11]),
        HeaderSliceError::Len(short(Layer::IpAuthHeader, 12, 11))
    );
}

#[test]
fn ipv4_base_headers() {
    use ipv4::{HeaderError::*, HeaderSliceError::*};
    for (ihl, len) in [(5, 20), (6, 24), (15, 60)] {
        for bytes in [
            ipv4(ihl, 70, 17, 70),
            ipv4(ihl, 0, 51, len),
            ipv4(ihl, 255, 51, len + 1),
        ] {
            let header = Ipv4HeaderSlice::from_slice(&bytes).unwrap();
            assert_eq!(header.slice(), &bytes[..len]);
            assert_eq!(header.total_len(), u16::from(bytes[3]));
            assert_eq!(header.protocol(), IpNumber(bytes[9]));
        }
    }
    let refused = |bytes: &[u8]| Ipv4HeaderSlice::from_slice(bytes).unwrap_err();
    assert_eq!(refused(&[]), Len(short(Layer::Ipv4Header, 20, 0)));
    assert_eq!(
        refused(&ipv4(15, 0, 0, 19)),
        Len(short(Layer::Ipv4Header, 20, 19))
    );
    assert_eq!(refused(&[0x60; 19]), Len(short(Layer::Ipv4Header, 20, 19)));
    assert_eq!(
        refused(&[0x60; 20]),
        Content(UnexpectedVersion { version_number: 6 })
    );
    assert_eq!(
        refused(&ipv4(4, 0, 0, 20)),
        Content(HeaderLengthSmallerThanHeader { ihl: 4 })
    );
    assert_eq!(
        refused(&ipv4(6, 0, 0, 23)),
        Len(short(Layer::Ipv4Header, 24, 23))
    );
    assert_eq!(
        refused(&ipv4(15, 0, 0, 59)),
        Len(short(Layer::Ipv4Header, 60, 59))
    );
}

#[test]
fn ipv4_base_headers_tell_fragments_and_addresses() {
    for (high, low, fragmented) in [
        (0, 0, false),
        (0xc0, 0, false),
        (0x20, 0, true),
        (0x1f, 0, true),
        (0, 1, true),
    ] {
        let mut bytes = ipv4(5, 20, 17, 20);
        (bytes[6], bytes[7]) = (high, low);
        bytes[12..20].copy_from_slice(&[10, 0, 0, 1, 10, 0, 0, 2]);
        let header = Ipv4HeaderSlice::from_slice(&bytes).unwrap();
        assert_eq!(header.is_fragmenting_payload(), fragmented);
        assert_eq!(header.source_addr().octets(), [10, 0, 0, 1]);
        assert_eq!(header.destination_addr().octets(), [10, 0, 0, 2]);
        let packet = IpSlice::from_slice(&bytes).unwrap();
        assert_eq!(packet.is_fragmenting_payload(), fragmented);
        assert_eq!(packet.source_addr(), header.source_addr());
        assert_eq!(packet.destination_addr(), header.destination_addr());
    }
}

#[test]
fn ipv6_base_headers() {
    use ipv6::{HeaderError::*, HeaderSliceError::*};
    for next in 0..=255 {
        for bytes in [ipv6(0, next, 40), ipv6(8, next, 40), ipv6(255, next, 48)] {
            let header = Ipv6HeaderSlice::from_slice(&bytes).unwrap();
            assert_eq!(header.slice(), &bytes[..40]);
            assert_eq!(header.payload_length(), u16::from(bytes[5]));
            assert_eq!(header.next_header(), IpNumber(next));
        }
    }
    let refused = |bytes: &[u8]| Ipv6HeaderSlice::from_slice(bytes).unwrap_err();
    assert_eq!(refused(&[]), Len(short(Layer::Ipv6Header, 40, 0)));
    assert_eq!(refused(&[0x60; 39]), Len(short(Layer::Ipv6Header, 40, 39)));
    assert_eq!(refused(&[0x45; 39]), Len(short(Layer::Ipv6Header, 40, 39)));
    assert_eq!(
        refused(&[0x45; 40]),
        Content(UnexpectedVersion { version_number: 4 })
    );
    let mut bytes = ipv6(0, 59, 40);
    bytes[8..40].copy_from_slice(&std::array::from_fn::<u8, 32, _>(|index| index as u8));
    let packet = IpSlice::from_slice(&bytes).unwrap();
    assert_eq!(
        packet.source_addr().to_string(),
        "1:203:405:607:809:a0b:c0d:e0f"
    );
    assert_eq!(
        packet.destination_addr().to_string(),
        "1011:1213:1415:1617:1819:1a1b:1c1d:1e1f"
    );
}

#[test]
fn ipv4_packets() {
    let bytes = ipv4(6, 25, 17, 30);
    let packet = Ipv4Slice::from_slice(&bytes).unwrap();
    assert_eq!(packet.header().slice(), &bytes[..24]);
    assert!(packet.extensions().is_empty());
    assert_eq!(packet.payload().payload, &bytes[24..25]);
    assert_eq!(packet.payload().len_source, LenSource::Ipv4HeaderTotalLen);
    assert_eq!(IpSlice::from_slice(&bytes), Ok(IpSlice::Ipv4(packet)));
}

#[test]
fn refused_ipv4_packets() {
    use ipv4::{HeaderError::*, SliceError::*};
    let refused = |bytes: &[u8]| Ipv4Slice::from_slice(bytes).unwrap_err();
    assert_eq!(refused(&[0x60; 19]), Len(short(Layer::Ipv4Header, 20, 19)));
    assert_eq!(
        refused(&[0x60; 20]),
        Header(UnexpectedVersion { version_number: 6 })
    );
    assert_eq!(
        refused(&ipv4(4, 0, 0, 20)),
        Header(HeaderLengthSmallerThanHeader { ihl: 4 })
    );
    assert_eq!(
        refused(&ipv4(6, 24, 0, 23)),
        Len(short(Layer::Ipv4Header, 24, 23))
    );
}

#[test]
fn ipv4_packets_that_end_too_early() {
    use ipv4::SliceError::*;
    let refused = |bytes: &[u8]| Ipv4Slice::from_slice(bytes).unwrap_err();
    let by_total = |layer, offset, required, len| {
        Len(too_short(
            layer,
            offset,
            required,
            len,
            LenSource::Ipv4HeaderTotalLen,
        ))
    };
    assert_eq!(
        refused(&ipv4(6, 23, 0, 30)),
        by_total(Layer::Ipv4Packet, 0, 24, 23)
    );
    assert_eq!(
        refused(&ipv4(6, 31, 0, 30)),
        Len(short(Layer::Ipv4Packet, 31, 30))
    );
    assert_eq!(
        refused(&ipv4(5, 31, 51, 40)),
        by_total(Layer::IpAuthHeader, 20, 12, 11)
    );
    assert_eq!(
        refused(&ipv4(5, 32, 51, 40)),
        Exts(ip_auth::HeaderError::ZeroPayloadLen)
    );
}

#[test]
fn ipv6_packets() {
    use ipv6::{HeaderError::*, SliceError::*};
    let bytes = ipv6(9, 60, 60);
    let packet = Ipv6Slice::from_slice(&bytes).unwrap_err();
    assert_eq!(packet, Exts(ipv6_exts::HeaderError::HopByHopNotAtStart));
    let refused = |bytes: &[u8]| {
        let strict = Ipv6Slice::from_slice(bytes).unwrap_err();
        assert_eq!(Ipv6Slice::from_slice_lax(bytes).unwrap_err(), strict);
        strict
    };
    assert_eq!(refused(&[]), Len(short(Layer::Ipv6Header, 40, 0)));
    assert_eq!(refused(&[0x45; 39]), Len(short(Layer::Ipv6Header, 40, 39)));
    assert_eq!(
        refused(&[0x45; 40]),
        Header(UnexpectedVersion { version_number: 4 })
    );
    let by = |source| Len(too_short(Layer::Ipv6FragHeader, 40, 8, 7, source));
    assert_eq!(
        refused(&ipv6(7, 44, 50)),
        by(LenSource::Ipv6HeaderPayloadLen)
    );
    assert_eq!(refused(&ipv6(0, 44, 47)), by(LenSource::Slice));
    let truncated = ipv6(10, 17, 45);
    let packet = Ipv6Slice::from_slice_lax(&truncated).unwrap();
    assert_eq!(
        (packet.payload().payload.len(), packet.payload().len_source),
        (5, LenSource::Slice)
    );
    assert_eq!(
        Ipv6Slice::from_slice(&truncated),
        Err(Len(short(Layer::Ipv6Packet, 50, 45)))
    );
}

#[test]
fn chains_and_their_iterators() {
    let bytes = [
        60, 0, 0, 0, 0, 0, 0, 0, 44, 0, 0, 0, 0, 0, 0, 0, 51, 0, 0, 1, 0, 0, 0, 9, 43, 1,
    ];
    let (chain, number, rest, fault) = Ipv6ExtensionsSlice::from_slice_lax(IpNumber(0), &bytes);
    assert_eq!((number, rest), (IpNumber(51), &bytes[24..]));
    let (fault, layer) = fault.unwrap();
    let expected = too_short(Layer::IpAuthHeader, 24, 12, 2, LenSource::Slice);
    assert_eq!(
        (fault.len_error(), layer),
        (Some(&expected), Layer::IpAuthHeader)
    );
    assert!(chain.is_fragmenting_payload() && !chain.is_empty());
    assert_eq!(chain.first_header(), Some(IpNumber(0)));
    let mut headers = chain.clone().into_iter();
    assert!(matches!(
        headers.next(),
        Some(Ipv6ExtensionSlice::HopByHop(_))
    ));
    assert_eq!(
        (headers.next_number(), headers.rest()),
        (IpNumber(60), &bytes[8..24])
    );
    assert!(matches!(
        headers.next(),
        Some(Ipv6ExtensionSlice::DestinationOptions(_))
    ));
    let (after_first, _, _, _) = Ipv6ExtensionsSlice::from_slice_lax(IpNumber(44), &bytes[16..]);
    assert_eq!(headers, after_first.into_iter());
    assert!(matches!(
        headers.next(),
        Some(Ipv6ExtensionSlice::Fragment(_))
    ));
    assert_eq!((headers.next(), headers.next()), (None, None));
    assert_eq!(headers.next_number(), IpNumber(51));
}

#[test]
fn empty_chains() {
    let none = Ipv6ExtensionsSlice::default();
    assert!(none.is_empty() && none.first_header().is_none());
    assert_eq!(none.clone().into_iter().next_number(), IpNumber(17));
    assert_eq!(
        Ipv6ExtensionSliceIter::default().next_number(),
        IpNumber(59)
    );
    assert_ne!(none.into_iter(), Ipv6ExtensionSliceIter::default());
}

/// The parts of a packet borrow its bytes, so a function can return them without the packet.
#[test]
fn parts_outlive_the_packet_value() {
    fn base_header(bytes: &[u8]) -> Option<&[u8]> {
        let packet = IpSlice::from_slice(bytes).ok()?;
        let header = match packet.ipv4() {
            Some(packet) => packet.header().slice(),
            None => packet.ipv6()?.header().slice(),
        };
        Some(header)
    }
    fn extensions(bytes: &[u8]) -> Option<&[u8]> {
        let packet = IpSlice::from_slice(bytes).ok()?;
        match packet.ipv4() {
            Some(packet) => Some(packet.extensions().auth?.slice()),
            None => Some(packet.ipv6()?.extensions().slice()),
        }
    }
    fn payload(bytes: &[u8]) -> Option<&[u8]> {
        Some(IpSlice::from_slice(bytes).ok()?.payload().payload)
    }
    let mut packet = ipv4(5, 33, 51, 33);
    (packet[20], packet[21]) = (17, 1);
    assert_eq!(base_header(&packet), Some(&packet[..20]));
    assert_eq!(extensions(&packet), Some(&packet[20..32]));
    assert_eq!(payload(&packet), Some(&packet[32..]));
    let mut packet = ipv6(8, 44, 48);
    packet[40] = 17;
    assert_eq!(base_header(&packet), Some(&packet[..40]));
    assert_eq!(extensions(&packet), Some(&packet[40..]));
}

/// The parts of each version's packet, of a chain, and of a dissection borrow the bytes alone.
#[test]
fn parts_outlive_each_value() {
    type Ipv4Parts<'a> = (Ipv4HeaderSlice<'a>, Option<IpAuthHeaderSlice<'a>>, &'a [u8]);
    fn ipv4_parts(bytes: &[u8]) -> Option<Ipv4Parts<'_>> {
        let packet = Ipv4Slice::from_slice(bytes).ok()?;
        Some((
            packet.header(),
            packet.extensions().auth,
            packet.payload().payload,
        ))
    }
    fn ipv6_parts(bytes: &[u8]) -> Option<(Ipv6HeaderSlice<'_>, &[u8], &[u8])> {
        let packet = Ipv6Slice::from_slice(bytes).ok()?;
        Some((
            packet.header(),
            packet.extensions().slice(),
            packet.payload().payload,
        ))
    }
    fn last_header(bytes: &[u8]) -> Option<Ipv6ExtensionSlice<'_>> {
        let (chain, _, _) = Ipv6ExtensionsSlice::from_slice(IpNumber(44), bytes).ok()?;
        chain.into_iter().last()
    }
    fn dissected(bytes: &[u8]) -> (Option<BaseHeader<'_>>, Option<Ipv6ExtensionSlice<'_>>) {
        let packet = dissect(bytes);
        (
            packet.base,
            packet.headers().map(|(_, header)| header).next(),
        )
    }
    let packet = ipv4(6, 25, 17, 25);
    let (header, auth, payload) = ipv4_parts(&packet).unwrap();
    assert_eq!(
        (header.options(), auth, payload),
        (&packet[20..24], None, &packet[24..])
    );
    let mut packet = ipv6(9, 44, 49);
    packet[40] = 17;
    let (header, exts, payload) = ipv6_parts(&packet).unwrap();
    assert_eq!(
        (header.slice(), exts, payload),
        (&packet[..40], &packet[40..48], &packet[48..])
    );
    assert_eq!(last_header(&packet[40..]).unwrap().slice(), &packet[40..48]);
    let (base, header) = dissected(&packet);
    assert_eq!(base.unwrap().slice(), &packet[..40]);
    assert_eq!(header.unwrap().slice(), &packet[40..48]);
}

#[test]
fn protocol_numbers() {
    assert_eq!(u8::from(IpNumber::from(17)), 17);
    assert_eq!(IpNumber::default(), IpNumber(0));
    assert!(IpNumber(6) < IpNumber::UDP);
}
