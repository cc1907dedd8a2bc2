//! Tests the longest slices of a machine with 32 bits: no sum of lengths overflows.
#![cfg(target_pointer_width = "32")]

use wolfaren::captures::{ClassicCapture, Next};
use wolfaren::rewrite::{Authentication, RewriteError, with_header, with_payload};
use wolfaren::statistics::Statistics;
use wolfaren::{IpSlice, ip_number};

/// A slice's largest length.
const MOST: usize = isize::MAX as usize;

/// Returns a jumbogram of so many bytes (RFC 2675), with zeros as its payload.
fn jumbogram() -> Vec<u8> {
    let mut bytes = vec![0; MOST];
    bytes[0] = 0x60;
    bytes[40..44].copy_from_slice(&[ip_number::UDP.0, 0, 0xc2, 4]);
    bytes[44..48].copy_from_slice(&((MOST - 40) as u32).to_be_bytes());
    bytes
}

#[test]
fn sums_of_the_longest_slices() {
    let packet = jumbogram();
    let valid = Authentication::Valid;
    let ip = IpSlice::from_slice(&packet).expect("a packet");
    assert_eq!(ip.payload().payload.len(), MOST - 48);
    let mut statistics = Statistics::new();
    statistics.count_packet(&packet);
    statistics.count_packet(&packet);
    assert_eq!(statistics.payload_bytes, 2 * (MOST as u64 - 48));
    let mut out = [0; 48];
    let longer = with_payload(&packet, ip_number::UDP, &packet, valid, &mut out);
    assert_eq!(longer.err(), Some(RewriteError::NoRoom));
    let mut options = [0; 2048];
    options[1] = 255;
    let other = with_header(
        &packet,
        ip_number::IPV6_DEST_OPTIONS,
        &options,
        1,
        valid,
        &mut out,
    );
    assert_eq!(other.err(), Some(RewriteError::NoRoom));
    let other = with_header(
        &packet,
        ip_number::IPV6_DEST_OPTIONS,
        &packet,
        1,
        valid,
        &mut out,
    );
    assert_eq!(other.err(), Some(RewriteError::NotAHeader));
}

#[test]
fn a_record_that_no_memory_holds() {
    let mut file = [0; 40];
    file[..8].copy_from_slice(&[0xd4, 0xc3, 0xb2, 0xa1, 2, 0, 4, 0]);
    file[32..36].copy_from_slice(&[0xff; 4]);
    let mut capture = ClassicCapture::begin(&file, u32::MAX)
        .expect("a capture file")
        .expect("its header");
    assert_eq!(capture.next(&file[24..]), Next::Needs(usize::MAX));
}
