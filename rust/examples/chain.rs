//! Prints the parts of an IP packet given as hexadecimal digits:
//!
//!     chain 6000000000103c40..
//!
//! There is one line each for the IP header, every extension header and the payload, with its offset, name and length
//! in bytes. If the bytes are not a valid packet, prints the error and exits with status 1.
use std::process::ExitCode;
use wolfaren::{IpSlice, Ipv6ExtensionSlice};

fn main() -> ExitCode {
    let arguments: Vec<String> = std::env::args().skip(1).collect();
    let [digits] = &arguments[..] else {
        eprintln!("usage: chain PACKET (in hexadecimal digits)");
        return ExitCode::from(2);
    };
    let Some(bytes) = bytes_in(digits) else {
        eprintln!("chain: the packet must be an even number of hexadecimal digits");
        return ExitCode::from(2);
    };
    match IpSlice::from_slice(&bytes) {
        Ok(packet) => {
            print(&packet);
            ExitCode::SUCCESS
        }
        Err(error) => {
            eprintln!("chain: {error}");
            ExitCode::FAILURE
        }
    }
}

/// Parses an even number of digits.
fn bytes_in(digits: &str) -> Option<Vec<u8>> {
    let values: Option<Vec<u32>> = digits.chars().map(|digit| digit.to_digit(16)).collect();
    let values = values.filter(|values| values.len() % 2 == 0)?;
    Some(
        values
            .chunks(2)
            .map(|pair| (16 * pair[0] + pair[1]) as u8)
            .collect(),
    )
}

fn print(packet: &IpSlice<'_>) {
    let mut offset = 0;
    let mut part = |name: &str, len: usize| {
        println!("{offset:>5} {name}, {len} bytes");
        offset += len;
    };
    match packet {
        IpSlice::Ipv4(packet) => {
            part("IPv4 header", packet.header().slice().len());
            if let Some(header) = packet.extensions().auth {
                part("authentication header", header.slice().len());
            }
        }
        IpSlice::Ipv6(packet) => {
            part("IPv6 header", packet.header().slice().len());
            for header in packet.extensions().clone() {
                part(name(&header), header.slice().len());
            }
        }
    }
    let fragment = if packet.is_fragmenting_payload() {
        "fragment of a payload"
    } else {
        "payload"
    };
    let number = packet.payload_ip_number().0;
    part(
        &format!("{fragment} with number {number}"),
        packet.payload().payload.len(),
    );
}

fn name(header: &Ipv6ExtensionSlice<'_>) -> &'static str {
    match header {
        Ipv6ExtensionSlice::HopByHop(_) => "hop-by-hop options",
        Ipv6ExtensionSlice::Routing(_) => "routing header",
        Ipv6ExtensionSlice::Fragment(_) => "fragment header",
        Ipv6ExtensionSlice::DestinationOptions(_) => "destination options",
        Ipv6ExtensionSlice::Authentication(_) => "authentication header",
    }
}
