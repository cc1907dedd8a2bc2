//! Whole packets with etherparse 0.19.0, with the same digests.
use super::original::{from_c, len_source_code, of_auth, of_bytes, of_content, of_len_error, with};
use super::parser::err::ip::{HeaderError, HeadersError, SliceError};
use super::parser::err::{ip_auth, ipv4, ipv6};
use super::parser::{IpPayloadSlice, IpSlice, Ipv4Slice, Ipv6Slice};
use std::net::{Ipv4Addr, Ipv6Addr};

/// A way to parse a packet.
pub trait Packet {
    fn digest(bytes: &[u8]) -> u64;
}

pub struct Ip;
pub struct IpFilter;
pub struct IpPlace;
pub struct Ipv4;
pub struct Ipv4Filter;
pub struct Ipv6;
pub struct Ipv6Filter;
pub struct Ipv6Lax;
pub struct Ipv6LaxFilter;

pub const NO_PACKET: u64 = 2;

impl Packet for Ip {
    fn digest(bytes: &[u8]) -> u64 {
        match IpSlice::from_slice(bytes) {
            Ok(packet) => of_ip(&packet),
            Err(fault) => of_ip_fault(&fault),
        }
    }
}

impl Packet for IpFilter {
    fn digest(bytes: &[u8]) -> u64 {
        match IpSlice::from_slice(bytes) {
            Ok(packet) => of_place(packet.payload()),
            Err(_) => NO_PACKET,
        }
    }
}

/// Reads where the payload lies.
impl Packet for IpPlace {
    fn digest(bytes: &[u8]) -> u64 {
        let Ok(packet) = IpSlice::from_slice(bytes) else {
            return NO_PACKET;
        };
        let extensions_len = match &packet {
            IpSlice::Ipv4(packet) => packet
                .extensions()
                .auth
                .as_ref()
                .map_or(0, |auth| auth.slice().len()),
            IpSlice::Ipv6(packet) => packet.extensions().slice().len(),
        };
        let payload = packet.payload();
        let place = with(u64::from(payload.ip_number.0), extensions_len as u64);
        with(place, payload.payload.len() as u64)
    }
}

impl Packet for Ipv4 {
    fn digest(bytes: &[u8]) -> u64 {
        match Ipv4Slice::from_slice(bytes) {
            Ok(packet) => of_ipv4(&packet),
            Err(fault) => of_ipv4_fault(&fault),
        }
    }
}

impl Packet for Ipv4Filter {
    fn digest(bytes: &[u8]) -> u64 {
        match Ipv4Slice::from_slice(bytes) {
            Ok(packet) => of_place(packet.payload()),
            Err(_) => NO_PACKET,
        }
    }
}

impl Packet for Ipv6 {
    fn digest(bytes: &[u8]) -> u64 {
        match Ipv6Slice::from_slice(bytes) {
            Ok(packet) => of_ipv6(&packet),
            Err(fault) => of_ipv6_fault(&fault),
        }
    }
}

impl Packet for Ipv6Filter {
    fn digest(bytes: &[u8]) -> u64 {
        match Ipv6Slice::from_slice(bytes) {
            Ok(packet) => of_place(packet.payload()),
            Err(_) => NO_PACKET,
        }
    }
}

impl Packet for Ipv6Lax {
    fn digest(bytes: &[u8]) -> u64 {
        match Ipv6Slice::from_slice_lax(bytes) {
            Ok(packet) => of_ipv6(&packet),
            Err(fault) => of_ipv6_fault(&fault),
        }
    }
}

impl Packet for Ipv6LaxFilter {
    fn digest(bytes: &[u8]) -> u64 {
        match Ipv6Slice::from_slice_lax(bytes) {
            Ok(packet) => of_place(packet.payload()),
            Err(_) => NO_PACKET,
        }
    }
}

#[inline(always)]
fn of_place(payload: &IpPayloadSlice<'_>) -> u64 {
    with(
        with(
            u64::from(payload.fragmented),
            u64::from(payload.ip_number.0),
        ),
        payload.payload.len() as u64,
    )
}

#[inline(never)]
fn of_ip(packet: &IpSlice<'_>) -> u64 {
    match packet {
        IpSlice::Ipv4(packet) => of_ipv4(packet),
        IpSlice::Ipv6(packet) => of_ipv6(packet),
    }
}

#[inline(never)]
fn of_ipv4(packet: &Ipv4Slice<'_>) -> u64 {
    let header = packet.header();
    let ends = with(
        of_ipv4_addr(header.source_addr()),
        of_ipv4_addr(header.destination_addr()),
    );
    let exts = match &packet.extensions().auth {
        Some(header) => of_auth(header),
        None => 1,
    };
    let headers = with(with(of_bytes(header.slice()), ends), exts);
    with(headers, of_payload(packet.payload()))
}

#[inline(never)]
fn of_ipv6(packet: &Ipv6Slice<'_>) -> u64 {
    let header = packet.header();
    let ends = with(
        of_ipv6_addr(header.source_addr()),
        of_ipv6_addr(header.destination_addr()),
    );
    let exts = packet.extensions();
    let first = exts.first_header().map_or(256, |first| u64::from(first.0));
    let chain = with(first, of_bytes(exts.slice()));
    let headers = with(with(of_bytes(header.slice()), ends), chain);
    with(headers, of_payload(packet.payload()))
}

fn of_ipv4_addr(address: Ipv4Addr) -> u64 {
    let [first, _, _, last] = address.octets();
    with(u64::from(first), u64::from(last))
}

fn of_ipv6_addr(address: Ipv6Addr) -> u64 {
    let octets = address.octets();
    with(u64::from(octets[0]), u64::from(octets[15]))
}

fn of_payload(payload: &IpPayloadSlice<'_>) -> u64 {
    let kind = with(
        u64::from(payload.ip_number.0),
        u64::from(payload.fragmented),
    );
    let source = u64::from(len_source_code(&payload.len_source));
    with(with(kind, source), of_bytes(payload.payload))
}

#[inline(never)]
pub fn of_ip_fault(fault: &SliceError) -> u64 {
    match fault {
        SliceError::Len(fault) => of_len_error(fault),
        SliceError::IpHeaders(HeadersError::Ip(fault)) => match fault {
            HeaderError::UnsupportedIpVersion { version_number } => {
                with(3, u64::from(*version_number))
            }
            HeaderError::Ipv4HeaderLengthSmallerThanHeader { ihl } => with(4, u64::from(*ihl)),
        },
        SliceError::IpHeaders(HeadersError::Ipv4Ext(ip_auth::HeaderError::ZeroPayloadLen)) => 2,
        SliceError::IpHeaders(HeadersError::Ipv6Ext(fault)) => of_content(fault),
    }
}

#[inline(never)]
pub fn of_ipv4_fault(fault: &ipv4::SliceError) -> u64 {
    match fault {
        ipv4::SliceError::Len(fault) => of_len_error(fault),
        ipv4::SliceError::Header(fault) => match fault {
            ipv4::HeaderError::UnexpectedVersion { version_number } => {
                with(3, u64::from(*version_number))
            }
            ipv4::HeaderError::HeaderLengthSmallerThanHeader { ihl } => with(4, u64::from(*ihl)),
        },
        ipv4::SliceError::Exts(ip_auth::HeaderError::ZeroPayloadLen) => 2,
    }
}

#[inline(never)]
pub fn of_ipv6_fault(fault: &ipv6::SliceError) -> u64 {
    match fault {
        ipv6::SliceError::Len(fault) => of_len_error(fault),
        ipv6::SliceError::Header(ipv6::HeaderError::UnexpectedVersion { version_number }) => {
            with(3, u64::from(*version_number))
        }
        ipv6::SliceError::Exts(fault) => of_content(fault),
    }
}

/// Parses the packet at the start of the bytes.
#[inline(never)]
pub unsafe extern "C" fn packet<P: Packet>(bytes: *const u8, len: usize) -> u64 {
    P::digest(unsafe { from_c(bytes, len) })
}

/// Parses packets one after another.
#[inline(never)]
pub unsafe extern "C" fn packets<P: Packet>(
    p: *const u8,
    len: usize,
    ends: *const usize,
    count: usize,
) -> u64 {
    let (packets, ends) = unsafe { (from_c(p, len), from_c(ends, count)) };
    let mut start = 0;
    let mut sum = 0;
    for end in ends {
        let Some(packet) = packets.get(start..*end) else {
            break;
        };
        sum = with(sum, P::digest(packet));
        start = *end;
    }
    sum
}
