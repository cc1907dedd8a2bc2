//! Tests statistics. The expected counts were worked out by hand from RFC 791, RFC 4302 and RFC 8200.
use wolfaren::err::Layer;
use wolfaren::dissect::dissect;
use wolfaren::filter::FaultKind;
use wolfaren::statistics::{CaptureStatistics, Statistics};

/// Returns an IPv6 packet.
fn ipv6(payload_length: u8, next_header: u8, after: &[u8]) -> Vec<u8> {
    let front = [0x60, 0, 0, 0, 0, payload_length, next_header, 64];
    [&front, &[0; 32][..], after].concat()
}

/// Packets of each end: UDP after destination options, a last fragment, a truncated routing header, and two faults.
fn packets() -> [Vec<u8>; 6] {
    [
        ipv6(16, 60, &[17, 0, 1, 4, 0, 0, 0, 0, 1, 2, 3, 4, 5, 6, 7, 8]),
        ipv6(12, 44, &[6, 0, 0, 8, 0, 0, 0, 7, 1, 2, 3, 4]),
        ipv6(24, 43, &[17, 0, 4, 0]),
        ipv6(4, 60, &[17, 0, 1, 4]),
        ipv6(12, 51, &[6, 0, 0, 0, 0, 0, 0, 1, 0, 0, 0, 2]),
        vec![0x45; 19],
    ]
}

#[test]
fn counts() {
    let mut found = Statistics::new();
    for packet in packets() {
        found.count_packet(&packet);
    }
    assert_eq!(
        (found.packets, found.ipv6, found.ipv4, found.without_header),
        (6, 5, 0, 1)
    );
    let ends = (
        found.at_payload,
        found.at_later_fragment,
        found.at_truncated_header,
        found.at_fault,
    );
    assert_eq!(ends, (1, 1, 2, 2));
    assert_eq!(
        (found.last_fragments, found.incomplete, found.payload_bytes),
        (1, 1, 8 + 4)
    );
    assert_eq!((found.chain_headers[0], found.chain_headers[1]), (3, 2));
    assert_eq!((found.chain_bytes[0], found.chain_bytes[2]), (3, 2));
    assert_eq!(
        (found.headers[60], found.headers[44], found.headers[43]),
        (1, 1, 0)
    );
    assert_eq!(
        (found.payload_numbers[17], found.later_fragment_numbers[6]),
        (1, 1)
    );
    assert_eq!(found.truncated(Layer::Ipv6RouteHeader), 1);
    assert_eq!(found.truncated(Layer::Ipv4Header), 1);
    assert_eq!(
        found.faulty(FaultKind::TooShort, Layer::Ipv6DestOptionsHeader),
        1
    );
    assert_eq!(
        found.faulty(FaultKind::ZeroPayloadLen, Layer::IpAuthHeader),
        1
    );
}

#[test]
fn frames() {
    let (mut found, mut other) = (CaptureStatistics::default(), CaptureStatistics::default());
    found.count_other_frame();
    other.count_truncated_frame();
    other.packets.count_packet(&[]);
    assert!(found.merge(&other));
    let counts = (
        found.other_frames,
        found.truncated_frames,
        found.packets.packets,
    );
    assert_eq!(counts, (1, 1, 1));
}

#[test]
fn merges_in_any_order() {
    let (mut all, mut forward, mut backward) =
        (Statistics::new(), Statistics::new(), Statistics::default());
    for packet in packets() {
        let dissection = all.count_dissection(&packet);
        assert_eq!(dissection, dissect(&packet));
        let mut one = Statistics::new();
        one.count_packet(&packet);
        forward += &one;
        one.merge(&backward);
        backward = one;
    }
    assert_eq!(all, forward);
    assert_eq!(all, backward);
}

#[test]
fn counts_stop_at_the_largest() {
    let mut found = Statistics::new();
    found.packets = u64::MAX;
    found.count_packet(&[]);
    let other = found.clone();
    found += &other;
    assert_eq!((found.packets, found.without_header), (u64::MAX, 2));
}

#[test]
fn lengths() {
    let lens = [0, 1, 63, 64, 72, 73].map(Statistics::least_chain_bytes);
    assert_eq!(
        lens,
        [Some(0), Some(4), Some(252), Some(256), Some(65_536), None]
    );
}
