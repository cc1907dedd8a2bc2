//! A program that uses the original. `crates/check_uses/src/from_etherparse.rt` is the same program with this
//! project, and `docs/from-etherparse.md` explains the changes.
use etherparse::err::ipv6_exts::{HeaderLimitedReadError, HeaderWriteError};
use etherparse::err::{Layer, LenError};
use etherparse::io::LimitedReader;
use etherparse::{IpNumber, Ipv6Extensions, LenSource};
use std::error::Error;
use std::io::{Read, Seek};

/// Reads the extension headers after an IPv6 header that states how many bytes follow it.
pub fn read<R: Read + Seek>(
    reader: R,
    first: IpNumber,
    payload_length: u16,
) -> Result<(Ipv6Extensions, IpNumber), HeaderLimitedReadError> {
    let mut limited = LimitedReader::new(
        reader,
        payload_length.into(),
        LenSource::Ipv6HeaderPayloadLen,
        40,
        Layer::Ipv6ExtHeader,
    );
    Ipv6Extensions::read_limited(&mut limited, first)
}

/// Links the headers in the order of the standard and appends `payload`. Returns the number of the first header,
/// and the bytes.
pub fn relinked(
    headers: &Ipv6Extensions,
    payload: IpNumber,
) -> Result<(IpNumber, Vec<u8>), HeaderWriteError> {
    let mut linked = headers.clone();
    let first = linked.set_next_headers(payload);
    let mut out = Vec::with_capacity(linked.header_len());
    linked.write(&mut out, first)?;
    Ok((first, out))
}

/// Returns how many bytes were missing and where, if that is why reading the headers failed.
pub fn missing_bytes(error: &HeaderLimitedReadError) -> Option<&LenError> {
    error.source()?.downcast_ref()
}
