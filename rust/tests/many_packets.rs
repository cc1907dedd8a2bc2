//! Tests calls for many packets in one buffer, against calls for one.
use wolfaren::batches::{Batch, PacketSpan};
use wolfaren::filter::Filter;
use wolfaren::statistics::Statistics;

/// UDP after destination options over IPv6, TCP over IPv4, and bytes that are no packet.
fn buffer() -> Vec<u8> {
    let mut bytes = vec![0; 48 + 20 + 3];
    (bytes[0], bytes[5], bytes[6], bytes[40]) = (0x60, 8, 60, 17);
    (bytes[48], bytes[51], bytes[57]) = (0x45, 20, 6);
    bytes
}

/// Each packet, the first one truncated, no bytes, and all of the buffer.
fn spans() -> Vec<PacketSpan> {
    [0..48, 48..68, 68..71, 0..44, 71..71, 0..71]
        .map(PacketSpan::from)
        .to_vec()
}

#[test]
fn as_single_calls() {
    let (buffer, spans) = (buffer(), spans());
    let packets = || spans.iter().map(|span| &buffer[span.offset..][..span.len]);
    let (mut one, mut many) = (Statistics::new(), Statistics::new());
    packets().for_each(|packet| one.count_packet(packet));
    let batch = Batch::try_new(&buffer, &spans).expect("spans within the buffer");
    batch.count(&mut many);
    assert_eq!(many, one);
    assert_eq!((many.packets, many.ipv6, many.ipv4), (6, 3, 1));
    for text in ["udp", "header dstopts or ip", "truncated", "not fault"] {
        let filter = Filter::parse(text.as_bytes()).unwrap();
        let mut matches = [9; 6];
        batch.filter(&filter, &mut matches);
        let single = packets().map(|packet| u8::from(filter.matches(packet)));
        assert!(single.eq(matches));
    }
}

#[test]
fn as_many_as_fit() {
    let (buffer, spans) = (buffer(), spans());
    let filter = Filter::parse(b"udp").unwrap();
    let of = |spans| Batch::try_new(&buffer, spans).expect("spans within the buffer");
    let mut matches = [9; 8];
    of(&spans[..2]).filter(&filter, &mut matches[1..4]);
    assert_eq!(matches, [9, 1, 0, 9, 9, 9, 9, 9]);
    of(&spans).filter(&filter, &mut matches[..2]);
    assert_eq!(matches[..4], [1, 0, 0, 9]);
}

#[test]
fn spans_outside() {
    let wrong = |offset, len| PacketSpan { offset, len };
    for outside in [
        wrong(0, 72),
        wrong(71, 1),
        wrong(72, 0),
        wrong(usize::MAX, 1),
        wrong(1, usize::MAX),
    ] {
        let mut spans = spans();
        (spans[3], spans[5]) = (outside, outside);
        assert_eq!(Batch::try_new(&buffer(), &spans).err(), Some(3));
    }
}

#[test]
#[allow(clippy::reversed_empty_ranges)]
fn spans_of_ranges() {
    let span = |range: std::ops::Range<usize>| PacketSpan::from(range);
    assert_eq!(span(3..7), PacketSpan { offset: 3, len: 4 });
    assert_eq!(span(7..3), PacketSpan { offset: 7, len: 0 });
}
