//! Computes digests of packets. This file is compiled for two crates: `super::parser` is one of them.
use super::parser::{
    IpAuthHeaderSlice, IpPayloadSlice, IpSlice, Ipv4Slice, Ipv6ExtensionSlice,
    Ipv6FragmentHeaderSlice, Ipv6RawExtHeaderSlice, Ipv6Slice, LenSource,
};
use crate::sums::{of_bytes, of_ipv4_addr, of_ipv6_addr, with, Digest, NO_PACKET};

/// Reads the fields that a filter needs: the payload's number, whether it is a fragment, and its length.
pub struct Filter;

/// Reads every part of a packet and every header of its chain.
pub struct Full;

impl Digest for Filter {
    #[inline(always)]
    fn digest(bytes: &[u8]) -> u64 {
        match IpSlice::from_slice(bytes) {
            Ok(packet) => {
                let payload = packet.payload();
                let flags = with(
                    u64::from(payload.fragmented),
                    u64::from(payload.ip_number.0),
                );
                with(flags, payload.payload.len() as u64)
            }
            Err(_) => NO_PACKET,
        }
    }
}

impl Digest for Full {
    #[inline(always)]
    fn digest(bytes: &[u8]) -> u64 {
        match IpSlice::from_slice(bytes) {
            Ok(IpSlice::Ipv4(packet)) => of_ipv4(&packet),
            Ok(IpSlice::Ipv6(packet)) => of_ipv6(&packet),
            Err(_) => NO_PACKET,
        }
    }
}

#[inline(never)]
fn of_ipv4(packet: &Ipv4Slice<'_>) -> u64 {
    let header = packet.header();
    let ends = with(
        of_ipv4_addr(header.source_addr()),
        of_ipv4_addr(header.destination_addr()),
    );
    let mut sum = with(of_bytes(header.slice()), ends);
    if let Some(header) = &packet.extensions().auth {
        sum = with(sum, of_auth(header));
    }
    with(sum, of_payload(packet.payload()))
}

#[inline(never)]
fn of_ipv6(packet: &Ipv6Slice<'_>) -> u64 {
    let header = packet.header();
    let ends = with(
        of_ipv6_addr(header.source_addr()),
        of_ipv6_addr(header.destination_addr()),
    );
    let mut sum = with(of_bytes(header.slice()), ends);
    for header in packet.extensions().clone() {
        sum = with(sum, of_header(&header));
    }
    with(sum, of_payload(packet.payload()))
}

fn of_payload(payload: &IpPayloadSlice<'_>) -> u64 {
    let kind = with(
        u64::from(payload.ip_number.0),
        u64::from(payload.fragmented),
    );
    let source = match payload.len_source {
        LenSource::Slice => 1,
        LenSource::Ipv4HeaderTotalLen => 2,
        LenSource::Ipv6HeaderPayloadLen => 3,
        #[allow(unreachable_patterns)]
        _ => 0,
    };
    with(with(kind, source), of_bytes(payload.payload))
}

#[inline(never)]
fn of_header(header: &Ipv6ExtensionSlice<'_>) -> u64 {
    match header {
        Ipv6ExtensionSlice::HopByHop(header) => with(0, of_raw(header)),
        Ipv6ExtensionSlice::Routing(header) => with(43, of_raw(header)),
        Ipv6ExtensionSlice::DestinationOptions(header) => with(60, of_raw(header)),
        Ipv6ExtensionSlice::Fragment(header) => with(44, of_fragment(header)),
        Ipv6ExtensionSlice::Authentication(header) => with(51, of_auth(header)),
    }
}

fn of_raw(header: &Ipv6RawExtHeaderSlice<'_>) -> u64 {
    let bytes = with(of_bytes(header.slice()), u64::from(header.next_header().0));
    with(bytes, of_bytes(header.payload()))
}

fn of_fragment(header: &Ipv6FragmentHeaderSlice<'_>) -> u64 {
    let offset = u64::from(header.fragment_offset().value());
    let flags = with(u64::from(header.more_fragments()), offset);
    let fields = with(flags, u64::from(header.identification()));
    let bytes = with(of_bytes(header.slice()), u64::from(header.next_header().0));
    with(bytes, fields)
}

fn of_auth(header: &IpAuthHeaderSlice<'_>) -> u64 {
    let numbers = with(u64::from(header.spi()), u64::from(header.sequence_number()));
    let fields = with(numbers, of_bytes(header.raw_icv()));
    let bytes = with(of_bytes(header.slice()), u64::from(header.next_header().0));
    with(bytes, fields)
}
