//! Tests reads from readers of the standard library, writes to writers, and the sources of errors, with headers made here by
//! RFC 8200, section 4, and RFC 4302, section 2.
#![cfg(feature = "std")]

use std::error::Error;
use std::io::{self, ErrorKind, Read, Write};
use wolfaren::err::{LenError, ip_auth, ipv6_exts};
use wolfaren::io::LimitedReader;
use wolfaren::{
    IpAuthHeader, IpNumber, Ipv4Extensions, Ipv6Extensions, Ipv6FragmentHeader, Ipv6RawExtHeader,
    LenSource, err::Layer, ip_number,
};

/// Hop-by-hop options, a fragment header of offset 1 with more fragments, and an authentication header of 16 bytes. UDP
/// follows.
const CHAIN: [u8; 32] = [
    44, 0, 1, 4, 0, 0, 0, 0, 51, 0, 0, 9, 0, 0, 0, 7, 17, 2, 0, 0, 0, 0, 0, 1, 0, 0, 0, 2, 1, 2, 3,
    4,
];

/// A reader that can't seek, and returns one byte at a time.
struct OneByOne<'a>(&'a [u8]);

impl Read for OneByOne<'_> {
    fn read(&mut self, buf: &mut [u8]) -> io::Result<usize> {
        let len = buf.len().min(1);
        self.0.read(&mut buf[..len])
    }
}

/// A reader and writer that always fails.
struct Failing;

impl Read for Failing {
    fn read(&mut self, _: &mut [u8]) -> io::Result<usize> {
        Err(ErrorKind::ConnectionReset.into())
    }
}

impl Write for Failing {
    fn write(&mut self, _: &[u8]) -> io::Result<usize> {
        Err(ErrorKind::BrokenPipe.into())
    }

    fn flush(&mut self) -> io::Result<()> {
        Ok(())
    }
}

#[test]
fn reads_consume_the_headers_alone() {
    let bytes = [&CHAIN[..], &[9; 5]].concat();
    let mut reader = OneByOne(&bytes);
    let (read, next) = Ipv6Extensions::read(&mut reader, IpNumber(0)).expect("headers");
    assert_eq!((next, reader.0), (ip_number::UDP, &[9; 5][..]));
    let (parsed, _, _) = Ipv6Extensions::from_slice(IpNumber(0), &CHAIN).expect("headers");
    assert_eq!(read, parsed);

    let fragment = Ipv6FragmentHeader::read(&mut OneByOne(&CHAIN[8..])).expect("a header");
    assert_eq!(fragment.fragment_offset.value(), 1);
    assert!(fragment.more_fragments);
    assert_eq!(fragment.identification, 7);
}

#[test]
fn limited_reads_end_at_the_limit() {
    for (limit, is_read) in [(31, false), (32, true), (usize::MAX, true)] {
        let source = LenSource::Ipv6HeaderPayloadLen;
        let reader = OneByOne(&CHAIN);
        let mut reader = LimitedReader::new(reader, limit, source, 40, Layer::Ipv6Header);
        match Ipv6Extensions::read_limited(&mut reader, IpNumber(0)) {
            Ok((_, next)) => assert!(is_read && next == ip_number::UDP),
            Err(ipv6_exts::HeaderLimitedReadError::Len(e)) => {
                assert!(!is_read);
                assert_eq!((e.layer_start_offset, e.len_source), (56, source));
            }
            Err(e) => panic!("{e}"),
        }
    }
}

#[test]
fn failures_of_readers() {
    let error = Ipv6Extensions::read(&mut Failing, IpNumber(0)).expect_err("a failure");
    let kind = error.io_error().map(|it| it.kind());
    assert_eq!(kind, Some(ErrorKind::ConnectionReset));
    let error = Ipv6FragmentHeader::read(&mut OneByOne(&CHAIN[..7])).expect_err("7 bytes");
    assert_eq!(error.kind(), ErrorKind::UnexpectedEof);
}

#[test]
fn writes_are_the_bytes_that_were_parsed() {
    let (headers, _, _) = Ipv6Extensions::from_slice(IpNumber(0), &CHAIN).expect("headers");
    let (mut written, mut appended) = (Vec::new(), vec![5]);
    headers.write(&mut written, IpNumber(0)).expect("room");
    headers.append_to(&mut appended, IpNumber(0)).expect("room");
    assert_eq!((&written[..], &appended[1..]), (&CHAIN[..], &CHAIN[..]));

    let (raw, auth) = (headers.hop_by_hop_options, headers.auth);
    let (raw, auth) = (raw.expect("options"), auth.expect("a header"));
    let fragment = headers.fragment.expect("a header");
    let mut each = Vec::new();
    raw.write(&mut each).expect("room");
    fragment.write(&mut each).expect("room");
    auth.write(&mut each).expect("room");
    assert_eq!(each, CHAIN);
    assert_eq!(auth.to_bytes()[..], CHAIN[16..]);
    assert_eq!(raw.to_bytes()[..], CHAIN[..8]);
    assert_eq!(fragment.to_bytes()[..], CHAIN[8..16]);

    let mut bytes = Vec::new();
    let ipv4 = Ipv4Extensions { auth: Some(auth) };
    ipv4.write(&mut bytes, IpNumber(51)).expect("room");
    assert_eq!(bytes, CHAIN[16..]);
}

#[test]
fn writes_follow_the_links() {
    // an authentication header, a fragment header and destination options
    let chain = [
        44, 1, 0, 0, 0, 0, 0, 1, 0, 0, 0, 2, 60, 0, 0, 0, 0, 0, 0, 7, 17, 0, 1, 4, 0, 0, 0, 0,
    ];
    let (headers, number, _) = Ipv6Extensions::from_slice(IpNumber(51), &chain).expect("headers");
    let mut written = Vec::new();
    headers.write(&mut written, IpNumber(51)).expect("room");
    assert_eq!((number, &written[..]), (ip_number::UDP, &chain[..]));
}

#[test]
fn failures_of_writers() {
    let (mut headers, _, _) = Ipv6Extensions::from_slice(IpNumber(0), &CHAIN).expect("headers");
    let error = headers
        .write(&mut Failing, IpNumber(0))
        .expect_err("a failure");
    assert_eq!(error.io().map(|it| it.kind()), Some(ErrorKind::BrokenPipe));
    assert_eq!(error.to_string(), "broken pipe");
    // The fragment header leads past the authentication header.
    if let Some(fragment) = &mut headers.fragment {
        fragment.next_header = ip_number::UDP;
    }
    let mut written = Vec::new();
    let error = headers
        .write(&mut written, IpNumber(0))
        .expect_err("left out");
    assert!(error.content().is_some() && written.is_empty());
    let raw = Ipv6RawExtHeader::new_raw(ip_number::UDP, &[0; 6]).expect("8 bytes");
    assert!(raw.write(&mut Failing).is_err());
}

#[test]
fn sources_are_the_errors_inside() {
    let error = IpAuthHeader::from_slice(&CHAIN[16..30]).expect_err("14 bytes");
    let source = error.source().and_then(|it| it.downcast_ref::<LenError>());
    assert_eq!(source.map(|it| it.required_len), Some(16));
    let error = ip_auth::HeaderReadError::Io(ErrorKind::TimedOut.into());
    let source = error.source().and_then(|it| it.downcast_ref::<io::Error>());
    assert_eq!(source.map(|it| it.kind()), Some(ErrorKind::TimedOut));
    let error = ip_auth::HeaderError::ZeroPayloadLen;
    assert!(error.source().is_none());
}
