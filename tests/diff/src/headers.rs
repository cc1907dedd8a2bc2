//! Single headers: the parts that each side reads, and the bytes that it writes.
use crate::fragment_bits::{self, from_the_original, to_the_original};
use crate::ours::{self, Header};
use etherparse::err::ipv6_exts::ExtPayloadLenError;
use etherparse::err::{ip_auth, Layer, LenError};
use etherparse::{
    IpAuthHeader, IpAuthHeaderSlice, IpNumber, Ipv6FragmentHeader, Ipv6FragmentHeaderSlice,
    Ipv6RawExtHeader, Ipv6RawExtHeaderSlice, LenSource,
};

/// Room for the longest header and one more byte.
const ROOM: usize = 2049;

/// A header with its payload or check value, the result of `to_bytes`, and what `write` appended.
#[derive(Clone, Debug, Default, PartialEq, Eq)]
pub struct Answer {
    pub header: Header,
    pub payload: Vec<u8>,
    pub spelled: Vec<u8>,
    pub written: Vec<u8>,
}

/// A case for both sides.
#[derive(Clone, Debug)]
pub enum Question {
    RawBorrowed(Vec<u8>),
    RawOwned(Vec<u8>),
    RawNew(u8, Vec<u8>),
    AuthBorrowed(Vec<u8>),
    AuthOwned(Vec<u8>),
    AuthNew(u8, u32, u32, Vec<u8>),
    FragmentBorrowed(Vec<u8>),
    FragmentOwned(Vec<u8>),
}

/// Returns the library's result.
pub fn ours(question: &Question) -> Answer {
    let (mut payload, mut spelled, mut written) = (vec![0; ROOM], vec![0; ROOM], vec![0; ROOM]);
    let (p, s, w) = (
        payload.as_mut_ptr(),
        spelled.as_mut_ptr(),
        written.as_mut_ptr(),
    );
    let mut header = Header::default();
    let out = &raw mut header;
    // SAFETY: each pointer is valid for ROOM bytes, and the inputs for their own lengths.
    unsafe {
        match question {
            Question::RawBorrowed(b) => {
                ours::ipexts_raw_borrowed_fields(b.as_ptr(), b.len(), p, ROOM, out)
            }
            Question::RawOwned(b) => {
                ours::ipexts_raw_owned_fields(b.as_ptr(), b.len(), p, ROOM, s, ROOM, w, ROOM, out);
            }
            Question::RawNew(next, b) => {
                ours::ipexts_raw_new(*next, b.as_ptr(), b.len(), p, ROOM, s, ROOM, w, ROOM, out);
            }
            Question::AuthBorrowed(b) => {
                ours::ipexts_auth_borrowed_fields(b.as_ptr(), b.len(), p, ROOM, out)
            }
            Question::AuthOwned(b) => {
                ours::ipexts_auth_owned_fields(b.as_ptr(), b.len(), p, ROOM, s, ROOM, w, ROOM, out);
            }
            Question::AuthNew(next, spi, sequence, b) => {
                let (b, len) = (b.as_ptr(), b.len());
                ours::ipexts_auth_new(
                    *next, *spi, *sequence, b, len, p, ROOM, s, ROOM, w, ROOM, out,
                );
            }
            Question::FragmentBorrowed(b) => {
                ours::ipexts_fragment_borrowed_fields(b.as_ptr(), b.len(), out)
            }
            Question::FragmentOwned(b) => {
                ours::ipexts_fragment_owned_fields(b.as_ptr(), b.len(), s, ROOM, w, ROOM, out);
            }
        }
    }
    payload.truncate(header.payload_len);
    spelled.truncate(header.spelled_len);
    written.truncate(header.written_len);
    Answer {
        header,
        payload,
        spelled,
        written,
    }
}

/// Returns the original's result, with the bits of fragment headers in our layout.
pub fn original(question: &Question) -> Answer {
    match question {
        Question::RawBorrowed(bytes) => {
            Ipv6RawExtHeaderSlice::from_slice(bytes).map_or_else(too_few, raw_slice)
        }
        Question::RawOwned(bytes) => Ipv6RawExtHeader::from_slice(bytes)
            .map_or_else(too_few, |(header, rest)| raw(&header, rest.len())),
        Question::RawNew(next, payload) => {
            match Ipv6RawExtHeader::new_raw(IpNumber(*next), payload) {
                Ok(header) => raw(&header, 0),
                Err(ExtPayloadLenError::TooSmall(len)) => refused(3, len),
                Err(ExtPayloadLenError::TooBig(len)) => refused(4, len),
                Err(ExtPayloadLenError::Unaligned(len)) => refused(5, len),
            }
        }
        Question::AuthBorrowed(bytes) => {
            IpAuthHeaderSlice::from_slice(bytes).map_or_else(no_auth, auth_slice)
        }
        Question::AuthOwned(bytes) => IpAuthHeader::from_slice(bytes)
            .map_or_else(no_auth, |(header, rest)| auth(&header, rest.len())),
        Question::AuthNew(next, spi, sequence, icv) => {
            use ip_auth::IcvLenError;
            match IpAuthHeader::new(IpNumber(*next), *spi, *sequence, icv) {
                Ok(header) => auth(&header, 0),
                Err(IcvLenError::TooBig(len)) => refused(4, len),
                Err(IcvLenError::Unaligned(len)) => refused(5, len),
            }
        }
        Question::FragmentBorrowed(bytes) => {
            let bytes = fragment_bits::header(bytes, to_the_original);
            Ipv6FragmentHeaderSlice::from_slice(&bytes).map_or_else(too_few, fragment_slice)
        }
        Question::FragmentOwned(bytes) => fragment_owned(bytes),
    }
}

fn fragment_owned(bytes: &[u8]) -> Answer {
    let bytes = fragment_bits::header(bytes, to_the_original);
    Ipv6FragmentHeader::from_slice(&bytes)
        .map_or_else(too_few, |(header, rest)| fragment(&header, rest.len()))
}

fn raw_slice(header: Ipv6RawExtHeaderSlice<'_>) -> Answer {
    Answer {
        header: Header {
            next_header: header.next_header().0,
            header_len: header.slice().len(),
            payload_len: header.payload().len(),
            ..Header::default()
        },
        payload: header.payload().to_vec(),
        ..Answer::default()
    }
}

fn auth_slice(header: IpAuthHeaderSlice<'_>) -> Answer {
    Answer {
        header: Header {
            next_header: header.next_header().0,
            number: header.spi(),
            second_number: header.sequence_number(),
            header_len: header.slice().len(),
            payload_len: header.raw_icv().len(),
            ..Header::default()
        },
        payload: header.raw_icv().to_vec(),
        ..Answer::default()
    }
}

fn fragment_slice(header: Ipv6FragmentHeaderSlice<'_>) -> Answer {
    let header = Header {
        next_header: header.next_header().0,
        flags: flags(header.more_fragments(), header.is_fragmenting_payload()),
        number: header.identification(),
        second_number: u32::from(header.fragment_offset().value()),
        header_len: header.slice().len(),
        ..Header::default()
    };
    Answer {
        header,
        ..Answer::default()
    }
}

fn flags(more_fragments: bool, is_fragmenting: bool) -> u8 {
    u8::from(more_fragments) | u8::from(is_fragmenting) << 1
}

fn raw(header: &Ipv6RawExtHeader, rest_len: usize) -> Answer {
    let mut written = Vec::new();
    header.write(&mut written).expect("a Vec takes all bytes");
    let spelled = header.to_bytes().to_vec();
    Answer {
        header: Header {
            next_header: header.next_header.0,
            header_len: header.header_len(),
            payload_len: header.payload().len(),
            rest_len,
            spelled_len: spelled.len(),
            written_len: written.len(),
            ..Header::default()
        },
        payload: header.payload().to_vec(),
        spelled,
        written,
    }
}

fn auth(header: &IpAuthHeader, rest_len: usize) -> Answer {
    let mut written = Vec::new();
    header.write(&mut written).expect("a Vec takes all bytes");
    let spelled = header.to_bytes().to_vec();
    Answer {
        header: Header {
            next_header: header.next_header.0,
            number: header.spi,
            second_number: header.sequence_number,
            header_len: header.header_len(),
            payload_len: header.raw_icv().len(),
            rest_len,
            spelled_len: spelled.len(),
            written_len: written.len(),
            ..Header::default()
        },
        payload: header.raw_icv().to_vec(),
        spelled,
        written,
    }
}

fn fragment(header: &Ipv6FragmentHeader, rest_len: usize) -> Answer {
    let mut written = Vec::new();
    header.write(&mut written).expect("a Vec takes all bytes");
    let written = fragment_bits::header(&written, from_the_original);
    let spelled = fragment_bits::header(&header.to_bytes(), from_the_original);
    Answer {
        header: Header {
            next_header: header.next_header.0,
            flags: flags(header.more_fragments, header.is_fragmenting_payload()),
            number: header.identification,
            second_number: u32::from(header.fragment_offset.value()),
            header_len: header.header_len(),
            rest_len,
            spelled_len: spelled.len(),
            written_len: written.len(),
            ..Header::default()
        },
        payload: Vec::new(),
        spelled,
        written,
    }
}

fn too_few(fault: LenError) -> Answer {
    let header = Header {
        fault: 1,
        source: len_source_code(&fault.len_source),
        layer: layer_code(&fault.layer),
        required_len: fault.required_len,
        found_len: fault.len,
        offset: fault.layer_start_offset,
        ..Header::default()
    };
    Answer {
        header,
        ..Answer::default()
    }
}

fn no_auth(fault: ip_auth::HeaderSliceError) -> Answer {
    match fault {
        ip_auth::HeaderSliceError::Len(fault) => too_few(fault),
        ip_auth::HeaderSliceError::Content(ip_auth::HeaderError::ZeroPayloadLen) => refused(2, 0),
    }
}

fn refused(fault: u8, found_len: usize) -> Answer {
    Answer {
        header: Header {
            fault,
            found_len,
            ..Header::default()
        },
        ..Answer::default()
    }
}

pub fn layer_code(layer: &Layer) -> u8 {
    match layer {
        Layer::Ipv4Header => 1,
        Layer::Ipv4Packet => 2,
        Layer::IpAuthHeader => 3,
        Layer::Ipv6Header => 4,
        Layer::Ipv6Packet => 5,
        Layer::Ipv6ExtHeader => 6,
        Layer::Ipv6HopByHopHeader => 7,
        Layer::Ipv6DestOptionsHeader => 8,
        Layer::Ipv6RouteHeader => 9,
        Layer::Ipv6FragHeader => 10,
        _ => 0,
    }
}

#[allow(unreachable_patterns)]
pub fn len_source_code(source: &LenSource) -> u8 {
    match source {
        LenSource::Slice => 0,
        LenSource::Ipv4HeaderTotalLen => 1,
        LenSource::Ipv6HeaderPayloadLen => 2,
        _ => 255,
    }
}
