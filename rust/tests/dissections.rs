//! Tests dissecting packets. The expected values were worked out by hand from RFC 791, RFC 4302 and RFC 8200.
use wolfaren::err::ip::{HeaderError, HeadersError, SliceError};
use wolfaren::err::{ip_auth, ipv6_exts, Layer, LenError};
use wolfaren::LenSource;
use wolfaren::dissect::{BaseHeader, End, Fragment, FragmentKind, dissect};

/// The stated length, the length of the extension headers, their number, the next header, the length of the payload,
/// the number of missing bytes, and the length of the padding.
type Numbers = (Option<usize>, usize, usize, u8, usize, usize, usize);

/// Dissects a packet and checks its parts.
fn check(bytes: &[u8], numbers: Numbers, fragment: impl Into<Option<Fragment>>, end: &End) {
    let packet = dissect(bytes);
    let found = (
        packet.stated_len,
        packet.extensions.len(),
        packet.header_count,
        packet.next_header.0,
        packet.payload.len(),
        packet.missing,
        packet.padding.len(),
    );
    assert_eq!(found, numbers, "{bytes:02x?}");
    assert_eq!(packet.fragment, fragment.into(), "{bytes:02x?}");
    assert_eq!(&packet.end, end, "{bytes:02x?}");
    let base = packet.base.as_ref().map_or(&[][..], BaseHeader::slice);
    let parts = [base, packet.extensions, packet.payload, packet.padding];
    assert_eq!(parts.concat(), bytes);
    let lens: Vec<usize> = packet.headers().map(|(_, it)| it.slice().len()).collect();
    assert_eq!((lens.len(), lens.iter().sum()), (numbers.2, numbers.1));
}

/// Returns an IPv4 packet without options.
fn ipv4(total_len: u8, fragment: u16, protocol: u8, after: &[u8]) -> Vec<u8> {
    let [high, low] = fragment.to_be_bytes();
    let front = [
        0x45, 0, 0, total_len, 0x12, 0x34, high, low, 64, protocol, 0, 0,
    ];
    [&front, &[192, 0, 2, 1, 192, 0, 2, 2][..], after].concat()
}

/// Returns an IPv6 packet.
fn ipv6(payload_length: u8, next_header: u8, after: &[u8]) -> Vec<u8> {
    let front = [0x60, 0, 0, 0, 0, payload_length, next_header, 64];
    [&front, &[0; 32][..], after].concat()
}

fn fragment(identification: u32, offset: u16, kind: FragmentKind) -> Fragment {
    Fragment {
        identification,
        offset,
        kind,
    }
}

/// Returns a length error.
fn short(layer: Layer, offset: usize, required: usize, len: usize, by: LenSource) -> LenError {
    LenError {
        required_len: required,
        layer_start_offset: offset,
        len_source: by,
        layer,
        len,
    }
}

fn truncated(error: LenError, header: Option<Layer>) -> End {
    End::Truncated { error, header }
}

fn fault(error: SliceError, header: Option<Layer>) -> End {
    End::Fault { error, header }
}

/// Returns the number and the offset of each extension header.
fn places(bytes: &[u8]) -> Vec<(u8, usize)> {
    dissect(bytes)
        .headers()
        .map(|(offset, header)| (header.number().0, offset))
        .collect()
}

#[test]
fn offsets_of_headers() {
    let chain = [
        [43, 0, 1, 4, 0, 0, 0, 0], // hop-by-hop options
        [44, 1, 253, 0, 0, 0, 0, 0],
        [0; 8], // the rest of the routing header
        [60, 0, 0, 1, 0, 0, 0, 1],
        [17, 0, 1, 4, 0, 0, 0, 0],
    ];
    let packet = ipv6(40, 0, chain.as_flattened());
    assert_eq!(places(&packet), [(0, 40), (43, 48), (44, 64), (60, 72)]);
    let auth = [&[6, 2, 0, 0][..], &[0; 12]].concat();
    assert_eq!(places(&ipv4(36, 0, 51, &auth)), [(51, 20)]);
    assert_eq!(places(&ipv4(20, 0, 6, &[])), []);
    assert_eq!(places(&[]), []);
}

#[test]
fn ipv6_payloads_and_fragments() {
    let end = &End::Payload;
    let zeros = &[0; 11];
    check(
        &ipv6(8, 17, zeros),
        (Some(48), 0, 0, 17, 8, 0, 3),
        None,
        end,
    );
    check(&ipv6(0, 17, zeros), (None, 0, 0, 17, 11, 0, 0), None, end);
    check(
        &ipv6(20, 17, &[0; 8]),
        (Some(60), 0, 0, 17, 8, 12, 0),
        None,
        end,
    );
    let atomic = ipv6(12, 44, &[17, 0, 0, 0, 0, 0, 0, 9, 1, 2, 3, 4]);
    let kind = fragment(9, 0, FragmentKind::Atomic);
    check(&atomic, (Some(52), 8, 1, 17, 4, 0, 0), kind, end);
    let first = [60, 0, 0, 1, 0, 0, 0, 9, 17, 0, 1, 4, 0, 0, 0, 0];
    let kind = fragment(9, 0, FragmentKind::First);
    check(
        &ipv6(16, 44, &first),
        (Some(56), 16, 2, 17, 0, 0, 0),
        kind,
        end,
    );
    let last = ipv6(8, 44, &[60, 0, 0, 8, 0, 0, 1, 0]);
    let kind = fragment(256, 8, FragmentKind::Last);
    check(
        &last,
        (Some(48), 8, 1, 60, 0, 0, 0),
        kind,
        &End::LaterFragment,
    );
}

/// A middle fragment at 8 * 185 bytes: the bytes after its fragment header aren't destination options.
#[test]
fn a_later_fragment() {
    let digits = "6000000000102c4020010db800000000000000000000000120010db8000000000000000000000002\
                  3c0005c900000007deadbeef00000000";
    let bytes: Vec<u8> = (0..digits.len())
        .step_by(2)
        .map(|at| u8::from_str_radix(&digits[at..at + 2], 16).unwrap())
        .collect();
    let kind = fragment(7, 1480, FragmentKind::Middle);
    let numbers = (Some(56), 8, 1, 60, 8, 0, 0);
    check(&bytes, numbers, kind, &End::LaterFragment);
    let packet = dissect(&bytes);
    assert_eq!(packet.payload, [0xde, 0xad, 0xbe, 0xef, 0, 0, 0, 0]);
    assert!(packet.is_payload_fragmented());
    let headers = packet.ipv6_extensions().unwrap();
    assert!(headers.is_fragmenting_payload() && packet.ipv4_authentication().is_none());
    assert_eq!(
        packet.headers().map(|(_, it)| it.number().0).next(),
        Some(44)
    );
}

#[test]
fn ipv6_truncated_headers() {
    let slice = LenSource::Slice;
    let error = short(Layer::Ipv6ExtHeader, 40, 16, 8, slice);
    let end = truncated(error, Some(Layer::Ipv6DestOptionsHeader));
    let bytes = ipv6(16, 60, &[17, 1, 0, 0, 0, 0, 0, 0]);
    check(&bytes, (Some(56), 0, 0, 60, 8, 8, 0), None, &end);
    let error = short(Layer::Ipv6FragHeader, 40, 8, 3, slice);
    let end = truncated(error, Some(Layer::Ipv6FragHeader));
    let bytes = ipv6(0, 44, &[17, 0, 0]);
    check(&bytes, (None, 0, 0, 44, 3, 0, 0), None, &end);
    // A routing header of 24 bytes after hop-by-hop options of 8, at every length.
    let mut after = [0; 32];
    (after[0], after[8], after[9]) = (43, 17, 2);
    let whole = ipv6(32, 0, &after);
    for len in 48..72 {
        let required = if len < 50 { 8 } else { 24 };
        let error = short(Layer::Ipv6ExtHeader, 48, required, len - 48, slice);
        let end = truncated(error, Some(Layer::Ipv6RouteHeader));
        let numbers = (Some(72), 8, 1, 43, len - 48, 72 - len, 0);
        check(&whole[..len], numbers, None, &end);
    }
}

#[test]
fn ipv6_faults() {
    let stated = LenSource::Ipv6HeaderPayloadLen;
    let error = short(Layer::Ipv6ExtHeader, 40, 16, 8, stated);
    let end = fault(SliceError::Len(error), Some(Layer::Ipv6DestOptionsHeader));
    let bytes = ipv6(8, 60, &[17, 1, 0, 0, 0, 0, 0, 0]);
    check(&bytes, (Some(48), 0, 0, 60, 8, 0, 0), None, &end);
    let error = short(Layer::Ipv6ExtHeader, 40, 24, 16, stated);
    let end = fault(SliceError::Len(error), Some(Layer::Ipv6RouteHeader));
    let bytes = ipv6(16, 43, &[17, 2, 0, 0, 0, 0, 0, 0, 0]);
    check(&bytes, (Some(56), 0, 0, 43, 9, 7, 0), None, &end);
    let content = |error| SliceError::IpHeaders(HeadersError::Ipv6Ext(error));
    let error = content(ipv6_exts::HeaderError::HopByHopNotAtStart);
    let end = fault(error, Some(Layer::Ipv6HopByHopHeader));
    let bytes = ipv6(16, 60, &[0; 16]);
    check(&bytes, (Some(56), 8, 1, 0, 8, 0, 0), None, &end);
    let zero = ipv6_exts::HeaderError::IpAuth(ip_auth::HeaderError::ZeroPayloadLen);
    let end = fault(content(zero), Some(Layer::IpAuthHeader));
    check(
        &ipv6(12, 51, &[0; 12]),
        (Some(52), 0, 0, 51, 12, 0, 0),
        None,
        &end,
    );
}

#[test]
fn ipv4_payloads_and_fragments() {
    let auth = [17, 1, 0, 0, 0, 0, 0, 1, 0, 0, 0, 2, 9, 9, 9];
    let bytes = ipv4(34, 0x4000, 51, &auth);
    check(&bytes, (Some(34), 12, 1, 17, 2, 0, 1), None, &End::Payload);
    let header = dissect(&bytes).ipv4_authentication().unwrap();
    assert_eq!(header.sequence_number(), 2);
    let first = fragment(0x1234, 0, FragmentKind::First);
    let numbers = (Some(24), 0, 0, 17, 4, 0, 0);
    check(
        &ipv4(24, 0x2000, 17, &[0; 4]),
        numbers,
        first,
        &End::Payload,
    );
    let last = fragment(0x1234, 16, FragmentKind::Last);
    let numbers = (Some(35), 0, 0, 51, 15, 0, 0);
    check(&ipv4(35, 2, 51, &auth), numbers, last, &End::LaterFragment);
    let middle = fragment(0x1234, 65528, FragmentKind::Middle);
    let numbers = (None, 0, 0, 17, 4, 0, 0);
    let bytes = ipv4(0, 0x3fff, 17, &[0; 4]);
    check(&bytes, numbers, middle, &End::LaterFragment);
}

#[test]
fn ipv4_headers_that_are_not_whole() {
    let stated = LenSource::Ipv4HeaderTotalLen;
    let error = short(Layer::Ipv4Packet, 0, 20, 19, stated);
    let end = fault(SliceError::Len(error), None);
    let bytes = ipv4(19, 0, 17, &[0; 4]);
    check(&bytes, (Some(19), 0, 0, 17, 0, 0, 4), None, &end);
    let error = short(Layer::IpAuthHeader, 20, 12, 4, LenSource::Slice);
    let bytes = ipv4(32, 0, 51, &[17, 1, 0, 0]);
    let numbers = (Some(32), 0, 0, 51, 4, 8, 0);
    check(&bytes, numbers, None, &truncated(error, None));
    let error = short(Layer::IpAuthHeader, 20, 12, 4, stated);
    let end = fault(SliceError::Len(error), None);
    let bytes = ipv4(24, 0, 51, &[17, 1, 0, 0, 0, 0, 0, 1, 0, 0, 0, 2]);
    check(&bytes, (Some(24), 0, 0, 51, 4, 0, 8), None, &end);
    let zero = HeadersError::Ipv4Ext(ip_auth::HeaderError::ZeroPayloadLen);
    let end = fault(SliceError::IpHeaders(zero), None);
    let bytes = ipv4(32, 0, 51, &[0; 12]);
    check(&bytes, (Some(32), 0, 0, 51, 12, 0, 0), None, &end);
}

#[test]
fn no_base_header() {
    let none = |len| (None, 0, 0, 59, 0, 0, len);
    let slice = LenSource::Slice;
    let end = truncated(short(Layer::IpHeader, 0, 1, 0, slice), None);
    check(&[], none(0), None, &end);
    for len in 1..40 {
        let end = truncated(short(Layer::Ipv6Header, 0, 40, len, slice), None);
        check(&[0x60; 40][..len], none(len), None, &end);
    }
    for len in 1..24 {
        let end = truncated(short(Layer::Ipv4Header, 0, 24, len, slice), None);
        check(&[0x46; 40][..len], none(len), None, &end);
    }
    let malformed = |error| fault(SliceError::IpHeaders(HeadersError::Ip(error)), None);
    let end = malformed(HeaderError::Ipv4HeaderLengthSmallerThanHeader { ihl: 4 });
    check(&[0x44; 40], none(40), None, &end);
    let end = malformed(HeaderError::UnsupportedIpVersion { version_number: 5 });
    check(&[0x50], none(1), None, &end);
}
