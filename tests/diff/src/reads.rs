//! Headers and chains read from bytes in memory, with and without a limit: what is consumed, what is left, and
//! what is rejected.
use crate::fragment_bits::{self, from_the_original, to_the_original, Bits};
use crate::headers::{layer_code, len_source_code};
use crate::ours::{self, Limit, Read, Start};
use etherparse::err::io::LimitedReadError;
use etherparse::err::{ip_auth, ipv6_exts, Layer, LenError};
use etherparse::io::LimitedReader;
use etherparse::{
    IpAuthHeader, IpNumber, Ipv4Extensions, Ipv6Extensions, Ipv6FragmentHeader, Ipv6RawExtHeader,
    LenSource,
};
use std::io::Cursor;

/// Room for the longest headers of a struct and one more byte.
const ROOM: usize = 4 * 2048 + 1028 + 8 + 1;

/// The code for a failure of the reader.
const IO: u8 = 4;

/// The kinds of reads.
#[derive(Clone, Copy, Debug, PartialEq, Eq)]
pub enum Kind {
    Raw,
    Auth,
    Fragment,
    Ipv4,
    Ipv6,
}

/// A case for both sides.
#[derive(Clone, Debug)]
pub struct Question {
    pub kind: Kind,
    /// The number of the first header of a chain.
    pub start: u8,
    /// Whether our side reads through the standard library's reader over bytes.
    pub is_over: bool,
    pub limit: Option<Start>,
    pub bytes: Vec<u8>,
}

/// The result of a read, and the value as it is written.
#[derive(Clone, Debug, Default, PartialEq, Eq)]
pub struct Answer {
    pub read: Read,
    pub written: Vec<u8>,
}

/// Returns the library's result.
pub fn ours(question: &Question) -> Answer {
    let Question {
        kind,
        start,
        is_over,
        limit,
        bytes,
    } = question;
    let (kind, mut written, mut read) = (*kind as u8, vec![0; ROOM], Read::default());
    let (b, len, w) = (bytes.as_ptr(), bytes.len(), written.as_mut_ptr());
    let out = &raw mut read;
    // SAFETY: each pointer is valid for its length.
    unsafe {
        match limit {
            None => ours::ipexts_read_fields(kind, *start, *is_over, b, len, w, ROOM, out),
            Some(limit) => ours::ipexts_read_limited_fields(
                kind, *start, *is_over, limit, b, len, w, ROOM, out,
            ),
        }
    }
    written.truncate(read.written_len);
    Answer { read, written }
}

/// Returns the original's result, with the bits of fragment headers in our layout.
pub fn original(question: &Question) -> Answer {
    let before = question.limit.map_or(0, |limit| limit.before.into());
    let (before, headers) = question.bytes.split_at(before.min(question.bytes.len()));
    let bytes = [before, &in_layout(question, headers, to_the_original)].concat();
    let mut answer = read_of(question, &bytes);
    answer.written = in_layout(question, &answer.written, from_the_original);
    answer
}

/// Converts the headers that a case reads, or that were written from its result, to the other layout.
pub fn in_layout(question: &Question, bytes: &[u8], bits: Bits) -> Vec<u8> {
    match question.kind {
        Kind::Fragment => fragment_bits::header(bytes, bits),
        Kind::Ipv6 => fragment_bits::chain(question.start, bytes, bits),
        Kind::Raw | Kind::Auth | Kind::Ipv4 => bytes.to_vec(),
    }
}

/// Returns the original's result for these bytes.
fn read_of(question: &Question, bytes: &[u8]) -> Answer {
    match &question.limit {
        None => {
            let mut reader = Cursor::new(bytes);
            let answer = read(question, &mut reader);
            with_left(answer, &reader, bytes.len())
        }
        Some(limit) => {
            let mut reader = LimitedReader::new(
                Cursor::new(bytes),
                limit.max_len as usize,
                match limit.source {
                    0 => LenSource::Slice,
                    1 => LenSource::Ipv4HeaderTotalLen,
                    _ => LenSource::Ipv6HeaderPayloadLen,
                },
                limit.layer_offset as usize,
                Layer::Ipv6Header,
            );
            let mut answer = match reader.read_exact(&mut vec![0; usize::from(limit.before)]) {
                Ok(()) => read_limited(question, &mut reader),
                Err(fault) => limited_fault(fault),
            };
            answer.read.limit = Limit {
                source: len_source_code(&reader.len_source()),
                layer: layer_code(&reader.layer()),
                max_len: reader.max_len(),
                layer_offset: reader.layer_offset(),
                read_len: reader.read_len(),
            };
            with_left(answer, &reader.take_reader(), bytes.len())
        }
    }
}

/// Adds the number of bytes left, if the reader didn't fail.
fn with_left(mut answer: Answer, reader: &Cursor<&[u8]>, len: usize) -> Answer {
    if answer.read.fault != IO {
        answer.read.left = len - reader.position() as usize;
    }
    answer
}

fn read(question: &Question, reader: &mut Cursor<&[u8]>) -> Answer {
    let start = IpNumber(question.start);
    match question.kind {
        Kind::Raw => {
            Ipv6RawExtHeader::read(reader).map_or_else(|_| refused(IO), |header| raw(&header))
        }
        Kind::Fragment => Ipv6FragmentHeader::read(reader)
            .map_or_else(|_| refused(IO), |header| fragment(&header)),
        Kind::Auth => {
            IpAuthHeader::read(reader).map_or_else(auth_read_fault, |header| auth(&header))
        }
        Kind::Ipv4 => Ipv4Extensions::read(reader, start)
            .map_or_else(auth_read_fault, |(headers, next)| {
                ipv4(&headers, start, next)
            }),
        Kind::Ipv6 => match Ipv6Extensions::read(reader, start) {
            Ok((exts, next)) => ipv6(&exts, start, next),
            Err(ipv6_exts::HeaderReadError::Io(_)) => refused(IO),
            Err(ipv6_exts::HeaderReadError::Content(fault)) => content(&fault),
        },
    }
}

fn read_limited(question: &Question, reader: &mut LimitedReader<Cursor<&[u8]>>) -> Answer {
    let start = IpNumber(question.start);
    match question.kind {
        Kind::Raw => {
            Ipv6RawExtHeader::read_limited(reader).map_or_else(limited_fault, |header| raw(&header))
        }
        Kind::Fragment => Ipv6FragmentHeader::read_limited(reader)
            .map_or_else(limited_fault, |header| fragment(&header)),
        Kind::Auth => {
            IpAuthHeader::read_limited(reader).map_or_else(auth_fault, |header| auth(&header))
        }
        Kind::Ipv4 => Ipv4Extensions::read_limited(reader, start)
            .map_or_else(auth_fault, |(headers, next)| ipv4(&headers, start, next)),
        Kind::Ipv6 => match Ipv6Extensions::read_limited(reader, start) {
            Ok((exts, next)) => ipv6(&exts, start, next),
            Err(ipv6_exts::HeaderLimitedReadError::Io(_)) => refused(IO),
            Err(ipv6_exts::HeaderLimitedReadError::Len(fault)) => too_few(&fault),
            Err(ipv6_exts::HeaderLimitedReadError::Content(fault)) => content(&fault),
        },
    }
}

fn refused(fault: u8) -> Answer {
    let mut answer = Answer::default();
    answer.read.fault = fault;
    answer
}

fn too_few(fault: &LenError) -> Answer {
    let read = Read {
        fault: 1,
        source: len_source_code(&fault.len_source),
        layer: layer_code(&fault.layer),
        required_len: fault.required_len,
        found_len: fault.len,
        offset: fault.layer_start_offset,
        ..Read::default()
    };
    Answer {
        read,
        ..Answer::default()
    }
}

fn limited_fault(fault: LimitedReadError) -> Answer {
    match fault {
        LimitedReadError::Io(_) => refused(IO),
        LimitedReadError::Len(fault) => too_few(&fault),
    }
}

fn content(fault: &ipv6_exts::HeaderError) -> Answer {
    match fault {
        ipv6_exts::HeaderError::HopByHopNotAtStart => refused(3),
        ipv6_exts::HeaderError::IpAuth(ip_auth::HeaderError::ZeroPayloadLen) => refused(2),
    }
}

fn auth_fault(fault: ip_auth::HeaderLimitedReadError) -> Answer {
    match fault {
        ip_auth::HeaderLimitedReadError::Io(_) => refused(IO),
        ip_auth::HeaderLimitedReadError::Len(fault) => too_few(&fault),
        ip_auth::HeaderLimitedReadError::Content(ip_auth::HeaderError::ZeroPayloadLen) => {
            refused(2)
        }
    }
}

fn auth_read_fault(fault: ip_auth::HeaderReadError) -> Answer {
    match fault {
        ip_auth::HeaderReadError::Io(_) => refused(IO),
        ip_auth::HeaderReadError::Content(ip_auth::HeaderError::ZeroPayloadLen) => refused(2),
    }
}

/// Returns the value as it is written, the number after it, and the places that it occupies.
fn value(next: IpNumber, places: u8, written: Vec<u8>) -> Answer {
    let read = Read {
        next_header: next.0,
        places,
        written_len: written.len(),
        ..Read::default()
    };
    Answer { read, written }
}

fn raw(header: &Ipv6RawExtHeader) -> Answer {
    value(header.next_header, 0, header.to_bytes().to_vec())
}

fn auth(header: &IpAuthHeader) -> Answer {
    value(header.next_header, 0, header.to_bytes().to_vec())
}

fn fragment(header: &Ipv6FragmentHeader) -> Answer {
    value(header.next_header, 0, header.to_bytes().to_vec())
}

fn ipv4(headers: &Ipv4Extensions, start: IpNumber, next: IpNumber) -> Answer {
    let mut written = Vec::new();
    headers
        .write(&mut written, start)
        .expect("headers that were read are linked");
    value(next, u8::from(headers.auth.is_some()), written)
}

fn ipv6(exts: &Ipv6Extensions, start: IpNumber, next: IpNumber) -> Answer {
    let mut written = Vec::new();
    exts.write(&mut written, start)
        .expect("headers that were read are linked");
    let routing = exts.routing.as_ref();
    let last = routing.is_some_and(|routing| routing.final_destination_options.is_some());
    let places = [
        exts.hop_by_hop_options.is_some(),
        exts.destination_options.is_some(),
        routing.is_some(),
        exts.fragment.is_some(),
        exts.auth.is_some(),
        last,
    ];
    let bits = places
        .iter()
        .rev()
        .fold(0, |bits, is_there| bits << 1 | u8::from(*is_there));
    value(next, bits, written)
}
