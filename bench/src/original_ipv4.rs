//! IPv4 extension headers with etherparse 0.19.0, with the same digests.
use super::original::{from_c, of_auth, of_auth_fault, of_bytes, of_owned_auth, of_written, with};
use super::parser::err::ip_auth::HeaderSliceError;
use super::parser::{ip_number, IpNumber, Ipv4Extensions, Ipv4ExtensionsSlice};

#[inline(never)]
fn of_slices(
    headers: &Ipv4ExtensionsSlice<'_>,
    number: IpNumber,
    rest: &[u8],
    fault: &Option<HeaderSliceError>,
) -> u64 {
    let header = headers.auth.as_ref().map_or(1, of_auth);
    with(header, of_end(number, rest, fault))
}

#[inline(never)]
fn of_headers(
    headers: &Ipv4Extensions,
    number: IpNumber,
    rest: &[u8],
    fault: &Option<HeaderSliceError>,
) -> u64 {
    let header = headers.auth.as_ref().map_or(1, |header| {
        of_owned_auth(header, header.raw_icv().len().saturating_sub(1))
    });
    with(header, of_end(number, rest, fault))
}

fn of_end(number: IpNumber, rest: &[u8], fault: &Option<HeaderSliceError>) -> u64 {
    let end = with(u64::from(number.0), of_bytes(rest));
    match fault {
        Some(fault) => with(end, of_auth_fault(fault)),
        None => end,
    }
}

#[inline(never)]
pub unsafe extern "C" fn lax(start: u8, bytes: *const u8, len: usize) -> u64 {
    let bytes = unsafe { from_c(bytes, len) };
    let (headers, number, rest, fault) =
        Ipv4ExtensionsSlice::from_slice_lax(IpNumber(start), bytes);
    of_slices(&headers, number, rest, &fault)
}

#[inline(never)]
pub unsafe extern "C" fn strict(start: u8, bytes: *const u8, len: usize) -> u64 {
    let bytes = unsafe { from_c(bytes, len) };
    match Ipv4ExtensionsSlice::from_slice(IpNumber(start), bytes) {
        Ok((headers, number, rest)) => of_slices(&headers, number, rest, &None),
        Err(fault) => of_auth_fault(&fault),
    }
}

#[inline(never)]
pub unsafe extern "C" fn filter(start: u8, bytes: *const u8, len: usize) -> u64 {
    let bytes = unsafe { from_c(bytes, len) };
    let (_, number, rest, fault) = Ipv4ExtensionsSlice::from_slice_lax(IpNumber(start), bytes);
    let place = with(u64::from(number.0), rest.len() as u64);
    with(u64::from(fault.is_none()), place)
}

#[inline(never)]
pub unsafe extern "C" fn owned_lax(start: u8, bytes: *const u8, len: usize) -> u64 {
    let bytes = unsafe { from_c(bytes, len) };
    let (headers, number, rest, fault) = Ipv4Extensions::from_slice_lax(IpNumber(start), bytes);
    of_headers(&headers, number, rest, &fault)
}

#[inline(never)]
pub unsafe extern "C" fn owned_strict(start: u8, bytes: *const u8, len: usize) -> u64 {
    let bytes = unsafe { from_c(bytes, len) };
    match Ipv4Extensions::from_slice(IpNumber(start), bytes) {
        Ok((headers, number, rest)) => of_headers(&headers, number, rest, &None),
        Err(fault) => of_auth_fault(&fault),
    }
}

#[inline(never)]
pub unsafe extern "C" fn write(bytes: *const u8, len: usize, at: usize, times: u32) -> u64 {
    let bytes = unsafe { from_c(bytes, len) };
    let (mut headers, _, _, _) = Ipv4Extensions::from_slice_lax(ip_number::AUTH, bytes);
    let mut out = Vec::new();
    let mut sum = 0;
    for time in 0..times {
        let first = headers.set_next_headers(IpNumber((time % 256) as u8));
        let leads = headers
            .next_header(first)
            .map_or(256, |number| u64::from(number.0));
        out.clear();
        if headers.write(&mut out, first).is_err() {
            return 0;
        }
        sum = with(with(sum, leads), of_written(&out, at));
    }
    sum
}
