//! Tests the calls that rewrite a packet with packets made here, by RFC 8200, section 4, and RFC 791, section 3.1.
use wolfaren::rewrite::{
    Authentication, RewriteError, Rewritten, Which, clear_reserved_bits, has_reserved_bits,
    in_order, is_in_order, recommended_index, remove_header, with_header, with_payload,
};
use wolfaren::{IpNumber, ip_number};

/// An IPv6 packet of headers with these numbers, each of 8 bytes or, for authentication, 16, and 4 bytes of payload.
fn packet(numbers: &[u8]) -> Vec<u8> {
    let next = |index: usize| numbers.get(index).copied().unwrap_or(17);
    let mut bytes = vec![0; 40];
    (bytes[0], bytes[6], bytes[7]) = (0x60, next(0), 64);
    for (index, number) in numbers.iter().enumerate() {
        let start = bytes.len();
        bytes.resize(start + if *number == 51 { 16 } else { 8 }, 0);
        bytes[start] = next(index + 1);
        bytes[start + 1] = if *number == 51 { 2 } else { 0 };
    }
    bytes.extend([0xd0, 0xd1, 0xd2, 0xd3]);
    bytes[5] = u8::try_from(bytes.len() - 40).unwrap();
    bytes
}

type Written = Result<(Vec<u8>, bool), RewriteError>;

/// Returns what a call writes into room for this many bytes.
fn written_by(
    call: impl FnOnce(&mut [u8]) -> Result<Rewritten, RewriteError>,
    room: usize,
) -> Written {
    let mut out = vec![0x5a; room];
    let result = call(&mut out);
    let len = result.map_or(0, |written| written.len);
    assert!(out[len..].iter().all(|byte| *byte == 0x5a));
    let Rewritten {
        keeps_checksums, ..
    } = result?;
    out.truncate(len);
    Ok((out, keeps_checksums))
}

fn written(bytes: &[u8], which: Which, authentication: Authentication, room: usize) -> Written {
    written_by(|out| remove_header(bytes, which, authentication, out), room)
}

/// Returns the packet with a header of 8 bytes, whose first is replaced, and which has segments left if it can.
fn inserted(bytes: &[u8], number: u8, index: usize, authentication: Authentication) -> Written {
    let header = [99, 0, 0, u8::from(number == 43), 0, 0, 0, 0];
    let number = IpNumber(number);
    written_by(
        |out| with_header(bytes, number, &header, index, authentication, out),
        100,
    )
}

/// Returns the packet with the payload of `packet`, of any number.
fn replaced(bytes: &[u8], number: u8, authentication: Authentication) -> Written {
    let (number, payload) = (IpNumber(number), [0xd0, 0xd1, 0xd2, 0xd3]);
    written_by(
        |out| with_payload(bytes, number, &payload, authentication, out),
        100,
    )
}

fn by_index(bytes: &[u8], index: usize) -> Written {
    written(bytes, Which::Index(index), Authentication::Valid, 100)
}

fn by_number(bytes: &[u8], number: IpNumber) -> Written {
    written(bytes, Which::Number(number), Authentication::Valid, 100)
}

#[test]
fn headers() {
    let chain = packet(&[0, 60, 43, 60]);
    let rest = [
        packet(&[60, 43, 60]),
        packet(&[0, 43, 60]),
        packet(&[0, 60, 60]),
        packet(&[0, 60, 43]),
    ];
    for (index, rest) in rest.into_iter().enumerate() {
        assert_eq!(by_index(&chain, index), Ok((rest, true)));
    }
    for (number, rest) in [
        (ip_number::IPV6_HOP_BY_HOP, packet(&[60, 43, 60])),
        (ip_number::IPV6_DEST_OPTIONS, packet(&[0, 43])),
        (ip_number::IPV6_ROUTE, packet(&[0, 60, 60])),
    ] {
        assert_eq!(by_number(&chain, number), Ok((rest, true)));
    }
    let mut with_padding = chain.clone();
    with_padding.extend([1, 2, 3]);
    assert_eq!(by_index(&with_padding, 3), Ok((packet(&[0, 60, 43]), true)));
    let mut with_segments = chain;
    with_segments[59] = 1;
    assert_eq!(
        by_index(&with_segments, 2),
        Ok((packet(&[0, 60, 60]), false))
    );
}

#[test]
fn authentication_headers() {
    let bytes = packet(&[0, 51]);
    let error = Err(RewriteError::Authenticated);
    assert_eq!(by_index(&bytes, 0), error);
    let kept = written(&bytes, Which::Index(0), Authentication::Invalid, 100);
    assert_eq!(kept, Ok((packet(&[51]), true)));
    assert_eq!(by_number(&bytes, ip_number::AUTH), Ok((packet(&[0]), true)));
    // An IPv4 packet from 192.0.2.1 to 192.0.2.2 with an authentication header, and without it.
    let mut ipv4 = vec![
        0x45, 0, 0, 38, 0, 1, 0, 0, 64, 51, 0, 0, 192, 0, 2, 1, 192, 0, 2, 2,
    ];
    ipv4.extend([17, 2, 0, 0, 0, 0, 0, 1, 0, 0, 0, 2, 0, 0, 0, 0, 0xd0, 0xd1]);
    let wanted = [
        0x45, 0, 0, 22, 0, 1, 0, 0, 64, 17, 0xf6, 0xd2, 192, 0, 2, 1, 192, 0, 2, 2, 0xd0, 0xd1,
    ];
    assert_eq!(by_index(&ipv4, 0), Ok((wanted.to_vec(), true)));
    ipv4[20] = 51;
    assert_eq!(by_index(&ipv4, 0), Err(RewriteError::HeaderFollows));
}

#[test]
fn refusals() {
    let mut fragment = packet(&[0, 44, 60]);
    assert_eq!(by_index(&fragment, 1), Ok((packet(&[0, 60]), true)));
    fragment[51] = 1;
    let rows = [
        (
            1,
            RewriteError::FragmentHeader,
            "the header is that of a fragment",
        ),
        (
            2,
            RewriteError::Fragmented,
            "the change is in the part that is fragmented",
        ),
        (3, RewriteError::NoHeader, "the packet has no such header"),
    ];
    for (index, error, text) in rows {
        assert_eq!(by_index(&fragment, index), Err(error));
        assert_eq!(error.to_string(), text);
    }
    fragment[51] = 9;
    let mut plain = packet(&[44, 60]);
    plain[43] = 9;
    assert_eq!(by_index(&fragment, 0), Ok((plain, true)));
    let later = [
        0x45, 0, 0, 20, 0, 1, 0, 1, 64, 17, 0, 0, 192, 0, 2, 1, 192, 0, 2, 2,
    ];
    assert_eq!(by_index(&later, 0), Err(RewriteError::LaterFragment));
    let mut unstated = packet(&[0]);
    unstated[5] = 0;
    assert_eq!(by_index(&unstated, 0), Err(RewriteError::NoLength));
    let text = RewriteError::NoLength.to_string();
    assert_eq!(text, "the packet states no length");
    let mut jumbogram = packet(&[0]);
    jumbogram.resize(40 + 0x1_0050, 0);
    jumbogram[4..6].fill(0);
    // the jumbo payload option (RFC 2675, section 2)
    jumbogram[42..48].copy_from_slice(&[0xc2, 4, 0, 1, 0, 0x50]);
    assert_eq!(by_index(&jumbogram, 0), Err(RewriteError::NotAJumbogram));
    let text = RewriteError::NotAJumbogram.to_string();
    assert_eq!(text, "the packet would no longer be a jumbogram");
    let bytes = packet(&[0]);
    assert_eq!(by_index(&bytes[..51], 0), Err(RewriteError::Missing));
    assert_eq!(by_index(&bytes[..47], 0), Err(RewriteError::Headers));
    assert_eq!(by_index(&[], 0), Err(RewriteError::Headers));
    for room in 0..60 {
        let result = written(&bytes, Which::Index(0), Authentication::Valid, room);
        let wanted = if room < 44 {
            Err(RewriteError::NoRoom)
        } else {
            Ok((packet(&[]), true))
        };
        assert_eq!(result, wanted);
    }
    let error: &dyn std::error::Error = &RewriteError::NoRoom;
    assert_eq!(error.to_string(), "the buffer is too short for the packet");
}

#[test]
fn inserted_headers() {
    let (chain, covered) = (packet(&[0, 60, 43]), packet(&[51]));
    let (valid, invalid) = (Authentication::Valid, Authentication::Invalid);
    for index in 1..4 {
        let mut numbers = vec![0, 60, 43];
        numbers.insert(index, 60);
        assert_eq!(
            inserted(&chain, 60, index, valid),
            Ok((packet(&numbers), true))
        );
    }
    let (_, keeps_checksums) = inserted(&chain, 43, 1, valid).unwrap();
    assert!(!keeps_checksums);
    for (bytes, number, index, error) in [
        (&chain, 17, 1, RewriteError::NotAHeader),
        (&chain, 60, 0, RewriteError::Misplaced),
        (&chain, 0, 1, RewriteError::Misplaced),
        (&chain, 60, 4, RewriteError::Misplaced),
        (&covered, 60, 1, RewriteError::Authenticated),
    ] {
        assert_eq!(inserted(bytes, number, index, valid), Err(error));
    }
    assert_eq!(
        inserted(&covered, 60, 1, invalid),
        Ok((packet(&[51, 60]), true))
    );
    let insert = |header: &[u8], room| {
        let number = ip_number::IPV6_FRAG;
        written_by(
            |out| with_header(&chain, number, header, 1, valid, out),
            room,
        )
    };
    assert_eq!(
        insert(&[0, 0, 0, 8, 0, 0, 0, 0], 100),
        Err(RewriteError::FragmentHeader)
    );
    for (len, room) in [(7, 100), (8, 76), (8, 75)] {
        let found = insert(&[0; 8][..len], room);
        let wanted = match (len, room) {
            (7, _) => Err(RewriteError::NotAHeader),
            (_, 76) => Ok((packet(&[0, 44, 60, 43]), true)),
            _ => Err(RewriteError::NoRoom),
        };
        assert_eq!(found, wanted);
    }
    let texts = [RewriteError::NotAHeader, RewriteError::Misplaced].map(|it| it.to_string());
    assert_eq!(texts[0], "the bytes are no extension header for the packet");
    assert_eq!(texts[1], "the header can't be at this place");
}

#[test]
fn payloads() {
    let (mut chain, covered, mut fragment) = (packet(&[0, 60]), packet(&[51]), packet(&[44]));
    let (valid, invalid) = (Authentication::Valid, Authentication::Invalid);
    fragment[43] = 1;
    let longest = vec![0xd0; 65535 - 16];
    let payloads = [(&longest[..], 70_000), (&longest[..5], 61), (&[], 56)];
    for (payload, room) in payloads {
        let mut wanted = packet(&[0, 60])[..56].to_vec();
        wanted.extend(payload);
        wanted[48] = 6;
        wanted[4..6].copy_from_slice(&u16::try_from(16 + payload.len()).unwrap().to_be_bytes());
        let replace = |room| {
            let number = ip_number::TCP;
            written_by(
                |out| with_payload(&chain, number, payload, valid, out),
                room,
            )
        };
        assert_eq!(replace(room), Ok((wanted.clone(), false)));
        assert_eq!(replace(wanted.len() - 1), Err(RewriteError::NoRoom));
    }
    for (bytes, number, error) in [
        (&chain, 60, RewriteError::HeaderFollows),
        (&covered, 6, RewriteError::Authenticated),
        (&fragment, 6, RewriteError::Fragmented),
    ] {
        assert_eq!(replaced(bytes, number, valid), Err(error));
    }
    assert_eq!(
        replaced(&covered, 17, invalid),
        Ok((covered.clone(), false))
    );
    let too_long = [&longest[..], &[1]].concat();
    let mut out = vec![0; 70_000];
    let result = with_payload(&chain, ip_number::TCP, &too_long, valid, &mut out);
    assert_eq!(result, Err(RewriteError::TooLong));
    chain[48] = 6;
    assert_eq!(replaced(&packet(&[0, 60]), 6, valid), Ok((chain, false)));
}

#[test]
fn reserved_bits() {
    let clear = |bytes: &[u8], authentication, room| {
        written_by(|out| clear_reserved_bits(bytes, authentication, out), room)
    };
    let (mut fragment, mut covered) = (packet(&[60, 44]), packet(&[51]));
    (fragment[49], fragment[51]) = (0xff, 6);
    covered[43] = 1;
    let (valid, invalid) = (Authentication::Valid, Authentication::Invalid);
    let plain = Ok((packet(&[51]), true));
    assert_eq!(clear(&fragment, valid, 60), Ok((packet(&[60, 44]), true)));
    assert_eq!(clear(&fragment, valid, 59), Err(RewriteError::NoRoom));
    assert_eq!(clear(&packet(&[51]), valid, 100), plain);
    let refused = clear(&covered, valid, 100);
    assert_eq!(refused, Err(RewriteError::Authenticated));
    assert_eq!(clear(&covered, invalid, 100), plain);
    assert!(has_reserved_bits(&fragment) && has_reserved_bits(&covered));
    fragment[49] = 0;
    assert!(has_reserved_bits(&fragment));
    fragment[51] = 0xf9;
    assert!(!has_reserved_bits(&fragment) && !has_reserved_bits(&[]));
}

#[test]
fn orders() {
    let order = |bytes: &[u8], authentication, room| {
        written_by(|out| in_order(bytes, authentication, out), room)
    };
    let (valid, invalid) = (Authentication::Valid, Authentication::Invalid);
    let mixed = packet(&[0, 60, 44, 43, 60]);
    let wanted = packet(&[0, 60, 43, 44, 60]);
    assert_eq!(order(&mixed, valid, 84), Ok((wanted.clone(), true)));
    assert_eq!(order(&mixed, valid, 83), Err(RewriteError::NoRoom));
    assert_eq!(order(&wanted, valid, 84), Ok((wanted.clone(), true)));
    let covered = packet(&[60, 51]);
    assert_eq!(
        order(&covered, valid, 100),
        Err(RewriteError::Authenticated)
    );
    assert_eq!(order(&covered, invalid, 100), Ok((packet(&[51, 60]), true)));
    assert!(is_in_order(&wanted) && is_in_order(&packet(&[51, 60])) && is_in_order(&[]));
    assert!(!is_in_order(&mixed) && !is_in_order(&covered));
    let mut fragment = mixed;
    fragment[59] = 1;
    assert_eq!(order(&fragment, valid, 100), Err(RewriteError::Fragmented));
}

#[test]
fn recommended_indices() {
    let chain = packet(&[0, 60, 43, 44, 51, 60]);
    for (number, index) in [(0, 1), (43, 3), (44, 4), (51, 5), (60, 6)] {
        assert_eq!(recommended_index(&chain, IpNumber(number)), index);
        assert_eq!(recommended_index(&packet(&[]), IpNumber(number)), 0);
    }
    assert_eq!(recommended_index(&[], IpNumber(0)), 0);
}
