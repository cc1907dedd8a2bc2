//! Reads with etherparse 0.19.0, with the same digests. Types whose reads need `Seek` in the original are read
//! from a cursor over the bytes, the others from the bytes themselves.
use super::original::{
    from_c, of_answer, of_bytes, of_content, of_len_error, of_owned_auth, of_owned_fragment,
    of_owned_raw, with, Parse,
};
use super::parser::err::ipv6_exts::{HeaderLimitedReadError, HeaderReadError};
use super::parser::err::Layer;
use super::parser::io::LimitedReader;
use super::parser::{
    IpAuthHeader, IpNumber, Ipv4Extensions, Ipv6Extensions, Ipv6FragmentHeader, Ipv6RawExtHeader,
    LenSource,
};
use std::hint::black_box;
use std::io::Cursor;

const LAYER_OFFSET: usize = 40;
const LIMIT: usize = 1_048_576;
const REFUSED: u64 = 2;

pub struct StructRead;
pub struct StructReadLimited;

impl Parse for StructRead {
    fn digest(start: IpNumber, bytes: &[u8]) -> u64 {
        let mut reader = Cursor::new(bytes);
        match Ipv6Extensions::read(&mut reader, start) {
            Ok((exts, number)) => of_answer(&exts, number, left(&reader)),
            Err(e) => of_refused(&e),
        }
    }
}

impl Parse for StructReadLimited {
    fn digest(start: IpNumber, bytes: &[u8]) -> u64 {
        let mut reader = limited(Cursor::new(bytes));
        match Ipv6Extensions::read_limited(&mut reader, start) {
            Ok((exts, number)) => {
                let read = with(reader.layer_offset() as u64, reader.read_len() as u64);
                with(of_answer(&exts, number, left(&reader.take_reader())), read)
            }
            Err(e) => of_refused_limited(&e),
        }
    }
}

#[inline(never)]
fn of_refused(error: &HeaderReadError) -> u64 {
    match error {
        HeaderReadError::Io(_) => REFUSED,
        HeaderReadError::Content(e) => with(REFUSED, of_content(e)),
    }
}

#[inline(never)]
fn of_refused_limited(error: &HeaderLimitedReadError) -> u64 {
    match error {
        HeaderLimitedReadError::Io(_) => REFUSED,
        HeaderLimitedReadError::Len(e) => with(REFUSED, of_len_error(e)),
        HeaderLimitedReadError::Content(e) => with(REFUSED, of_content(e)),
    }
}

/// Returns the number of bytes left in a cursor.
#[inline(always)]
fn left<'a>(reader: &Cursor<&'a [u8]>) -> &'a [u8] {
    reader
        .get_ref()
        .get(reader.position() as usize..)
        .unwrap_or(&[])
}

#[inline(always)]
fn limited<T: std::io::Read>(reader: T) -> LimitedReader<T> {
    LimitedReader::new(
        reader,
        LIMIT,
        LenSource::Ipv6HeaderPayloadLen,
        LAYER_OFFSET,
        Layer::Ipv6Header,
    )
}

#[inline(always)]
fn of_limits<T: std::io::Read>(reader: &LimitedReader<T>) -> u64 {
    with(reader.max_len() as u64, reader.read_len() as u64)
}

#[inline(never)]
pub unsafe extern "C" fn raw_read(bytes: *const u8, len: usize, at: usize) -> u64 {
    let mut reader = Cursor::new(unsafe { from_c(bytes, len) });
    match Ipv6RawExtHeader::read(&mut reader) {
        Ok(header) => with(
            of_owned_raw(black_box(&header), at),
            of_bytes(left(&reader)),
        ),
        Err(_) => REFUSED,
    }
}

#[inline(never)]
pub unsafe extern "C" fn auth_read(bytes: *const u8, len: usize, at: usize) -> u64 {
    let mut reader = unsafe { from_c(bytes, len) };
    match IpAuthHeader::read(&mut reader) {
        Ok(header) => with(of_owned_auth(black_box(&header), at), of_bytes(reader)),
        Err(_) => REFUSED,
    }
}

#[inline(never)]
pub unsafe extern "C" fn fragment_read(bytes: *const u8, len: usize, _at: usize) -> u64 {
    let mut reader = Cursor::new(unsafe { from_c(bytes, len) });
    match Ipv6FragmentHeader::read(&mut reader) {
        Ok(header) => with(of_owned_fragment(&header), of_bytes(left(&reader))),
        Err(_) => REFUSED,
    }
}

#[inline(never)]
pub unsafe extern "C" fn raw_read_limited(bytes: *const u8, len: usize, at: usize) -> u64 {
    let mut reader = limited(Cursor::new(unsafe { from_c(bytes, len) }));
    match Ipv6RawExtHeader::read_limited(&mut reader) {
        Ok(header) => {
            let limits = of_limits(&reader);
            let end = with(limits, of_bytes(left(&reader.take_reader())));
            with(of_owned_raw(black_box(&header), at), end)
        }
        Err(_) => REFUSED,
    }
}

#[inline(never)]
pub unsafe extern "C" fn auth_read_limited(bytes: *const u8, len: usize, at: usize) -> u64 {
    let mut reader = limited(unsafe { from_c(bytes, len) });
    match IpAuthHeader::read_limited(&mut reader) {
        Ok(header) => {
            let limits = of_limits(&reader);
            let end = with(limits, of_bytes(reader.take_reader()));
            with(of_owned_auth(black_box(&header), at), end)
        }
        Err(_) => REFUSED,
    }
}

#[inline(never)]
pub unsafe extern "C" fn fragment_read_limited(bytes: *const u8, len: usize, _at: usize) -> u64 {
    let mut reader = limited(Cursor::new(unsafe { from_c(bytes, len) }));
    match Ipv6FragmentHeader::read_limited(&mut reader) {
        Ok(header) => {
            let limits = of_limits(&reader);
            let end = with(limits, of_bytes(left(&reader.take_reader())));
            with(of_owned_fragment(&header), end)
        }
        Err(_) => REFUSED,
    }
}

#[inline(never)]
pub unsafe extern "C" fn ipv4_read(start: u8, bytes: *const u8, len: usize) -> u64 {
    let mut reader = unsafe { from_c(bytes, len) };
    match Ipv4Extensions::read(&mut reader, IpNumber(start)) {
        Ok((headers, number)) => {
            let header = match &headers.auth {
                Some(header) => of_owned_auth(header, 0),
                None => 1,
            };
            with(with(header, u64::from(number.0)), of_bytes(reader))
        }
        Err(_) => REFUSED,
    }
}
