//! Parses packets with the original.
use crate::sums::{of_place, with, Digest, NO_PACKET};
use etherparse as parser;
use etherparse::{IpPayloadSlice, IpSlice, Ipv6ExtensionSlice};

#[allow(clippy::duplicate_mod)] // It is compiled for both crates.
#[path = "digest.rs"]
mod digest;
// Only compiled: the package's tests compile it too.
#[allow(dead_code)]
#[path = "../../../rust/tests/etherparse/names.rs"]
mod names;

pub use digest::{Filter, Full};

/// Reads where the payload lies.
pub struct Place;

/// Reads where the payload and each header lie.
pub struct Headers;

impl Digest for Place {
    #[inline(always)]
    fn digest(bytes: &[u8]) -> u64 {
        match IpSlice::from_slice(bytes) {
            Ok(packet) => of_payload(packet.payload(), bytes),
            Err(_) => NO_PACKET,
        }
    }
}

impl Digest for Headers {
    #[inline(always)]
    fn digest(bytes: &[u8]) -> u64 {
        match IpSlice::from_slice(bytes) {
            Ok(packet) => with(
                of_payload(packet.payload(), bytes),
                of_headers(&packet, bytes),
            ),
            Err(_) => NO_PACKET,
        }
    }
}

#[inline(always)]
fn of_payload(payload: &IpPayloadSlice<'_>, packet: &[u8]) -> u64 {
    let number = u16::from(payload.ip_number.0);
    of_place(
        number,
        offset(payload.payload, packet),
        payload.payload.len(),
    )
}

#[inline(always)]
fn of_headers(packet: &IpSlice<'_>, bytes: &[u8]) -> u64 {
    let of_slice = |number, slice: &[u8]| of_place(number, offset(slice, bytes), slice.len());
    match packet {
        IpSlice::Ipv4(packet) => match &packet.extensions().auth {
            Some(header) => with(0, of_slice(51, header.slice())),
            None => 0,
        },
        IpSlice::Ipv6(packet) => packet
            .extensions()
            .clone()
            .into_iter()
            .fold(0, |sum, header| {
                with(
                    sum,
                    match &header {
                        Ipv6ExtensionSlice::HopByHop(header) => of_slice(0, header.slice()),
                        Ipv6ExtensionSlice::Routing(header) => of_slice(43, header.slice()),
                        Ipv6ExtensionSlice::DestinationOptions(header) => {
                            of_slice(60, header.slice())
                        }
                        Ipv6ExtensionSlice::Fragment(header) => of_slice(44, header.slice()),
                        Ipv6ExtensionSlice::Authentication(header) => of_slice(51, header.slice()),
                    },
                )
            }),
    }
}

/// Returns the offset of a part of the bytes.
#[inline(always)]
fn offset(part: &[u8], bytes: &[u8]) -> usize {
    part.as_ptr() as usize - bytes.as_ptr() as usize
}
