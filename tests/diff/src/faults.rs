//! The tool's texts for the original's errors.
use etherparse::err::ipv6_exts::{HeaderError, HeaderSliceError};
use etherparse::err::{ip, ip_auth, LenError};
use std::fmt::Write;

/// Formats a length error.
pub fn push_len_fault(fault: &LenError, answer: &mut String) {
    answer.push_str("fault ");
    push_len(fault, answer);
}

/// Formats the lengths and the place of a length error.
pub fn push_len(fault: &LenError, answer: &mut String) {
    let LenError {
        required_len,
        len,
        len_source,
        layer,
        layer_start_offset,
    } = fault;
    push(
        answer,
        format_args!(
            "len {required_len} of {len} {len_source:?} {layer:?} at {layer_start_offset}"
        ),
    );
}

/// Formats an error of an authentication header.
pub fn push_auth_fault(fault: &ip_auth::HeaderSliceError, answer: &mut String) {
    match fault {
        ip_auth::HeaderSliceError::Len(fault) => push_len_fault(fault, answer),
        ip_auth::HeaderSliceError::Content(ip_auth::HeaderError::ZeroPayloadLen) => {
            answer.push_str("fault ZeroPayloadLen");
        }
    }
}

/// Formats an error of an IPv6 chain.
pub fn push_ipv6_fault(fault: &HeaderSliceError, answer: &mut String) {
    match fault {
        HeaderSliceError::Len(fault) => push_len_fault(fault, answer),
        HeaderSliceError::Content(fault) => answer.push_str(ipv6_content(fault)),
    }
}

/// Formats an error in the content of an IPv6 chain.
fn ipv6_content(fault: &HeaderError) -> &'static str {
    match fault {
        HeaderError::HopByHopNotAtStart => "fault HopByHopNotAtStart",
        HeaderError::IpAuth(ip_auth::HeaderError::ZeroPayloadLen) => "fault ZeroPayloadLen",
    }
}

/// Formats the line for an error of a packet.
pub fn push_packet_fault(fault: &ip::SliceError, answer: &mut String) {
    push_packet_error(fault, answer);
    answer.push('\n');
}

/// Formats an error of a packet.
pub fn push_packet_error(fault: &ip::SliceError, answer: &mut String) {
    use ip::HeaderError::{Ipv4HeaderLengthSmallerThanHeader, UnsupportedIpVersion};
    match fault {
        ip::SliceError::Len(fault) => push_len_fault(fault, answer),
        ip::SliceError::IpHeaders(fault) => match fault {
            ip::HeadersError::Ip(UnsupportedIpVersion { version_number }) => push(
                answer,
                format_args!("fault UnsupportedIpVersion {version_number}"),
            ),
            ip::HeadersError::Ip(Ipv4HeaderLengthSmallerThanHeader { ihl }) => push(
                answer,
                format_args!("fault Ipv4HeaderLengthSmallerThanHeader {ihl}"),
            ),
            ip::HeadersError::Ipv4Ext(ip_auth::HeaderError::ZeroPayloadLen) => {
                answer.push_str("fault ZeroPayloadLen");
            }
            ip::HeadersError::Ipv6Ext(fault) => answer.push_str(ipv6_content(fault)),
        },
    }
}

/// Appends what `format_args!` formats.
pub fn push(answer: &mut String, text: std::fmt::Arguments<'_>) {
    answer.write_fmt(text).expect("a String takes all text");
}
