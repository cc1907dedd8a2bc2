//! The types of names that etherparse has too. This file is compiled for this package, by `tests/same_types.rs`, and for
//! etherparse, by `bench/border`: `super::parser` is one of them.
use super::parser::err::{self, Layer, LenError, ip, ip_auth, ipv4, ipv4_exts, ipv6, ipv6_exts};
use super::parser::io::LimitedReader;
use super::parser::{
    IpAuthHeader, IpAuthHeaderSlice, IpFragOffset, IpNumber, IpPayloadSlice, IpSlice,
    Ipv4Extensions, Ipv4ExtensionsSlice, Ipv4Header, Ipv4HeaderSlice, Ipv4Slice,
    Ipv6ExtensionSlice, Ipv6ExtensionSliceIter, Ipv6Extensions, Ipv6ExtensionsSlice,
    Ipv6FragmentHeader, Ipv6FragmentHeaderSlice, Ipv6Header, Ipv6HeaderSlice, Ipv6RawExtHeader,
    Ipv6RawExtHeaderSlice, Ipv6RoutingExtensions, Ipv6Slice, LenSource, ip_number,
};
use core::fmt::Debug;
use core::net::{IpAddr, Ipv4Addr, Ipv6Addr};
use std::io::{self, Cursor};

/// A reader, which can seek, as etherparse asks.
type Reader<'a> = Cursor<&'a [u8]>;

type Bytes<'a> = &'a [u8];

/// What a parse of IPv6 extension headers returns.
type Chain<'a> = (Ipv6ExtensionsSlice<'a>, IpNumber, Bytes<'a>);

/// What a parse of IPv4 extension headers returns.
type Ipv4Chain<'a> = (Ipv4ExtensionsSlice<'a>, IpNumber, Bytes<'a>);

/// What a lax parse of IPv6 extension headers returns.
type LaxChain<'a> = (
    Ipv6ExtensionsSlice<'a>,
    IpNumber,
    Bytes<'a>,
    Option<(ipv6_exts::HeaderSliceError, Layer)>,
);

/// What a lax parse of IPv4 extension headers returns.
type LaxIpv4Chain<'a> = (
    Ipv4ExtensionsSlice<'a>,
    IpNumber,
    Bytes<'a>,
    Option<ip_auth::HeaderSliceError>,
);

/// Defines a function in which each call has this type. Packets borrow bytes for `'a`, and are borrowed for `'b`.
macro_rules! types {
    ($name:ident: $($call:path: $type:ty;)+) => {
        pub fn $name<'a: 'b, 'b>() {
            $(let _: $type = $call;)+
        }
    };
}

types! {
    packets:
    IpSlice::from_slice: fn(Bytes<'a>) -> Result<IpSlice<'a>, ip::SliceError>;
    IpSlice::ipv4: fn(&'b IpSlice<'b>) -> Option<&'b Ipv4Slice<'b>>;
    IpSlice::ipv6: fn(&'b IpSlice<'b>) -> Option<&'b Ipv6Slice<'b>>;
    IpSlice::is_fragmenting_payload: fn(&'b IpSlice<'a>) -> bool;
    IpSlice::source_addr: fn(&'b IpSlice<'a>) -> IpAddr;
    IpSlice::destination_addr: fn(&'b IpSlice<'a>) -> IpAddr;
    IpSlice::payload: fn(&'b IpSlice<'a>) -> &'b IpPayloadSlice<'a>;
    IpSlice::payload_ip_number: fn(&'b IpSlice<'a>) -> IpNumber;
    Ipv4Slice::from_slice: fn(Bytes<'a>) -> Result<Ipv4Slice<'a>, ipv4::SliceError>;
    Ipv4Slice::header: fn(&'b Ipv4Slice<'b>) -> Ipv4HeaderSlice<'b>;
    Ipv4Slice::extensions: fn(&'b Ipv4Slice<'b>) -> Ipv4ExtensionsSlice<'b>;
    Ipv4Slice::payload: fn(&'b Ipv4Slice<'a>) -> &'b IpPayloadSlice<'a>;
    Ipv4Slice::payload_ip_number: fn(&'b Ipv4Slice<'a>) -> IpNumber;
    Ipv4Slice::is_payload_fragmented: fn(&'b Ipv4Slice<'a>) -> bool;
    Ipv6Slice::from_slice: fn(Bytes<'a>) -> Result<Ipv6Slice<'a>, ipv6::SliceError>;
    Ipv6Slice::from_slice_lax: fn(Bytes<'a>) -> Result<Ipv6Slice<'a>, ipv6::SliceError>;
    Ipv6Slice::header: fn(&'b Ipv6Slice<'a>) -> Ipv6HeaderSlice<'a>;
    Ipv6Slice::extensions: fn(&'b Ipv6Slice<'a>) -> &'b Ipv6ExtensionsSlice<'a>;
    Ipv6Slice::payload: fn(&'b Ipv6Slice<'a>) -> &'b IpPayloadSlice<'a>;
    Ipv6Slice::is_payload_fragmented: fn(&'b Ipv6Slice<'a>) -> bool;
    Ipv4HeaderSlice::from_slice: fn(Bytes<'a>) -> Result<Ipv4HeaderSlice<'a>, ipv4::HeaderSliceError>;
    Ipv4HeaderSlice::slice: fn(&'b Ipv4HeaderSlice<'a>) -> Bytes<'a>;
    Ipv4HeaderSlice::total_len: fn(&'b Ipv4HeaderSlice<'a>) -> u16;
    Ipv4HeaderSlice::protocol: fn(&'b Ipv4HeaderSlice<'a>) -> IpNumber;
    Ipv4HeaderSlice::more_fragments: fn(&'b Ipv4HeaderSlice<'a>) -> bool;
    Ipv4HeaderSlice::fragments_offset: fn(&'b Ipv4HeaderSlice<'a>) -> IpFragOffset;
    Ipv4HeaderSlice::is_fragmenting_payload: fn(&'b Ipv4HeaderSlice<'a>) -> bool;
    Ipv4HeaderSlice::source_addr: fn(&'b Ipv4HeaderSlice<'a>) -> Ipv4Addr;
    Ipv4HeaderSlice::destination_addr: fn(&'b Ipv4HeaderSlice<'a>) -> Ipv4Addr;
    Ipv6HeaderSlice::from_slice: fn(Bytes<'a>) -> Result<Ipv6HeaderSlice<'a>, ipv6::HeaderSliceError>;
    Ipv6HeaderSlice::slice: fn(&'b Ipv6HeaderSlice<'a>) -> Bytes<'a>;
    Ipv6HeaderSlice::payload_length: fn(&'b Ipv6HeaderSlice<'a>) -> u16;
    Ipv6HeaderSlice::next_header: fn(&'b Ipv6HeaderSlice<'a>) -> IpNumber;
    Ipv6HeaderSlice::source_addr: fn(&'b Ipv6HeaderSlice<'a>) -> Ipv6Addr;
    Ipv6HeaderSlice::destination_addr: fn(&'b Ipv6HeaderSlice<'a>) -> Ipv6Addr;
}

types! {
    headers_and_errors:
    Ipv4ExtensionsSlice::from_slice: fn(IpNumber, Bytes<'a>) -> Result<Ipv4Chain<'a>, ip_auth::HeaderSliceError>;
    Ipv4ExtensionsSlice::from_slice_lax: fn(IpNumber, Bytes<'a>) -> LaxIpv4Chain<'a>;
    Ipv4ExtensionsSlice::is_empty: fn(&'b Ipv4ExtensionsSlice<'a>) -> bool;
    Ipv6ExtensionsSlice::from_slice: fn(IpNumber, Bytes<'a>) -> Result<Chain<'a>, ipv6_exts::HeaderSliceError>;
    Ipv6ExtensionsSlice::from_slice_lax: fn(IpNumber, Bytes<'a>) -> LaxChain<'a>;
    Ipv6ExtensionsSlice::is_fragmenting_payload: fn(&'b Ipv6ExtensionsSlice<'a>) -> bool;
    Ipv6ExtensionsSlice::first_header: fn(&'b Ipv6ExtensionsSlice<'a>) -> Option<IpNumber>;
    Ipv6ExtensionsSlice::slice: fn(&'b Ipv6ExtensionsSlice<'a>) -> Bytes<'a>;
    Ipv6ExtensionsSlice::is_empty: fn(&'b Ipv6ExtensionsSlice<'a>) -> bool;
    Ipv6ExtensionsSlice::into_iter: fn(Ipv6ExtensionsSlice<'a>) -> Ipv6ExtensionSliceIter<'a>;
    Ipv6ExtensionSliceIter::next: fn(&'b mut Ipv6ExtensionSliceIter<'a>) -> Option<Ipv6ExtensionSlice<'a>>;
    IpAuthHeaderSlice::from_slice: fn(Bytes<'a>) -> Result<IpAuthHeaderSlice<'a>, ip_auth::HeaderSliceError>;
    IpAuthHeaderSlice::slice: fn(&'b IpAuthHeaderSlice<'a>) -> Bytes<'a>;
    IpAuthHeaderSlice::next_header: fn(&'b IpAuthHeaderSlice<'a>) -> IpNumber;
    IpAuthHeaderSlice::spi: fn(&'b IpAuthHeaderSlice<'a>) -> u32;
    IpAuthHeaderSlice::sequence_number: fn(&'b IpAuthHeaderSlice<'a>) -> u32;
    IpAuthHeaderSlice::raw_icv: fn(&'b IpAuthHeaderSlice<'a>) -> Bytes<'a>;
    Ipv6RawExtHeaderSlice::header_type_supported: fn(IpNumber) -> bool;
    Ipv6RawExtHeaderSlice::from_slice: fn(Bytes<'a>) -> Result<Ipv6RawExtHeaderSlice<'a>, LenError>;
    Ipv6RawExtHeaderSlice::slice: fn(&'b Ipv6RawExtHeaderSlice<'a>) -> Bytes<'a>;
    Ipv6RawExtHeaderSlice::next_header: fn(&'b Ipv6RawExtHeaderSlice<'a>) -> IpNumber;
    Ipv6RawExtHeaderSlice::payload: fn(&'b Ipv6RawExtHeaderSlice<'a>) -> Bytes<'a>;
    Ipv6FragmentHeaderSlice::from_slice: fn(Bytes<'a>) -> Result<Ipv6FragmentHeaderSlice<'a>, LenError>;
    Ipv6FragmentHeaderSlice::slice: fn(&'b Ipv6FragmentHeaderSlice<'a>) -> Bytes<'a>;
    Ipv6FragmentHeaderSlice::next_header: fn(&'b Ipv6FragmentHeaderSlice<'a>) -> IpNumber;
    Ipv6FragmentHeaderSlice::fragment_offset: fn(&'b Ipv6FragmentHeaderSlice<'a>) -> IpFragOffset;
    Ipv6FragmentHeaderSlice::more_fragments: fn(&'b Ipv6FragmentHeaderSlice<'a>) -> bool;
    Ipv6FragmentHeaderSlice::identification: fn(&'b Ipv6FragmentHeaderSlice<'a>) -> u32;
    Ipv6FragmentHeaderSlice::is_fragmenting_payload: fn(&'b Ipv6FragmentHeaderSlice<'a>) -> bool;
    ipv6_exts::HeaderSliceError::len_error: fn(&ipv6_exts::HeaderSliceError) -> Option<&LenError>;
    ipv6_exts::HeaderSliceError::content: fn(&ipv6_exts::HeaderSliceError) -> Option<&ipv6_exts::HeaderError>;
    ipv6_exts::HeaderSliceError::add_slice_offset: fn(ipv6_exts::HeaderSliceError, usize) -> ipv6_exts::HeaderSliceError;
    ip_auth::HeaderSliceError::add_slice_offset: fn(ip_auth::HeaderSliceError, usize) -> ip_auth::HeaderSliceError;
    LenError::add_offset: fn(LenError, usize) -> LenError;
    IpFragOffset::value: fn(IpFragOffset) -> u16;
    IpFragOffset::MAX_U16: u16;
    IpFragOffset::ZERO: IpFragOffset;
    Ipv4Header::MIN_LEN: usize;
    Ipv6Header::LEN: usize;
}

types! {
    owned:
    IpAuthHeader::new: fn(IpNumber, u32, u32, Bytes<'b>) -> Result<IpAuthHeader, ip_auth::IcvLenError>;
    IpAuthHeader::from_slice: fn(Bytes<'a>) -> Result<(IpAuthHeader, Bytes<'a>), ip_auth::HeaderSliceError>;
    IpAuthHeader::read::<Reader<'a>>: fn(&'b mut Reader<'a>) -> Result<IpAuthHeader, ip_auth::HeaderReadError>;
    IpAuthHeader::read_limited::<Reader<'a>>: fn(&'b mut LimitedReader<Reader<'a>>) -> Result<IpAuthHeader, ip_auth::HeaderLimitedReadError>;
    IpAuthHeader::raw_icv: fn(&'b IpAuthHeader) -> Bytes<'b>;
    IpAuthHeader::set_raw_icv: fn(&'b mut IpAuthHeader, Bytes<'b>) -> Result<(), ip_auth::IcvLenError>;
    IpAuthHeader::write::<Vec<u8>>: fn(&'b IpAuthHeader, &'b mut Vec<u8>) -> io::Result<()>;
    IpAuthHeader::header_len: fn(&'b IpAuthHeader) -> usize;
    IpAuthHeaderSlice::to_header: fn(&'b IpAuthHeaderSlice<'a>) -> IpAuthHeader;
    Ipv6FragmentHeader::from_slice: fn(Bytes<'a>) -> Result<(Ipv6FragmentHeader, Bytes<'a>), LenError>;
    Ipv6FragmentHeader::read::<Reader<'a>>: fn(&'b mut Reader<'a>) -> io::Result<Ipv6FragmentHeader>;
    Ipv6FragmentHeader::read_limited::<Reader<'a>>: fn(&'b mut LimitedReader<Reader<'a>>) -> Result<Ipv6FragmentHeader, err::io::LimitedReadError>;
    Ipv6FragmentHeader::write::<Vec<u8>>: fn(&'b Ipv6FragmentHeader, &'b mut Vec<u8>) -> io::Result<()>;
    Ipv6FragmentHeader::to_bytes: fn(&'b Ipv6FragmentHeader) -> [u8; 8];
    Ipv6FragmentHeader::header_len: fn(&'b Ipv6FragmentHeader) -> usize;
    Ipv6FragmentHeader::is_fragmenting_payload: fn(&'b Ipv6FragmentHeader) -> bool;
    Ipv6FragmentHeaderSlice::to_header: fn(&'b Ipv6FragmentHeaderSlice<'a>) -> Ipv6FragmentHeader;
    Ipv6RawExtHeader::header_type_supported: fn(IpNumber) -> bool;
    Ipv6RawExtHeader::new_raw: fn(IpNumber, Bytes<'b>) -> Result<Ipv6RawExtHeader, ipv6_exts::ExtPayloadLenError>;
    Ipv6RawExtHeader::from_slice: fn(Bytes<'a>) -> Result<(Ipv6RawExtHeader, Bytes<'a>), LenError>;
    Ipv6RawExtHeader::read::<Reader<'a>>: fn(&'b mut Reader<'a>) -> io::Result<Ipv6RawExtHeader>;
    Ipv6RawExtHeader::read_limited::<Reader<'a>>: fn(&'b mut LimitedReader<Reader<'a>>) -> Result<Ipv6RawExtHeader, err::io::LimitedReadError>;
    Ipv6RawExtHeader::payload: fn(&'b Ipv6RawExtHeader) -> Bytes<'b>;
    Ipv6RawExtHeader::set_payload: fn(&'b mut Ipv6RawExtHeader, Bytes<'b>) -> Result<(), ipv6_exts::ExtPayloadLenError>;
    Ipv6RawExtHeader::write::<Vec<u8>>: fn(&'b Ipv6RawExtHeader, &'b mut Vec<u8>) -> io::Result<()>;
    Ipv6RawExtHeader::header_len: fn(&'b Ipv6RawExtHeader) -> usize;
    Ipv6RawExtHeaderSlice::to_header: fn(&'b Ipv6RawExtHeaderSlice<'a>) -> Ipv6RawExtHeader;
    Ipv4ExtensionsSlice::to_header: fn(&'b Ipv4ExtensionsSlice<'a>) -> Ipv4Extensions;
}

types! {
    owned_chains:
    Ipv6Extensions::from_slice: fn(IpNumber, Bytes<'a>) -> Result<(Ipv6Extensions, IpNumber, Bytes<'a>), ipv6_exts::HeaderSliceError>;
    Ipv6Extensions::from_slice_lax: fn(IpNumber, Bytes<'a>) -> (Ipv6Extensions, IpNumber, Bytes<'a>, Option<(ipv6_exts::HeaderSliceError, Layer)>);
    Ipv6Extensions::read::<Reader<'a>>: fn(&'b mut Reader<'a>, IpNumber) -> Result<(Ipv6Extensions, IpNumber), ipv6_exts::HeaderReadError>;
    Ipv6Extensions::read_limited::<Reader<'a>>: fn(&'b mut LimitedReader<Reader<'a>>, IpNumber) -> Result<(Ipv6Extensions, IpNumber), ipv6_exts::HeaderLimitedReadError>;
    Ipv6Extensions::write::<Vec<u8>>: fn(&'b Ipv6Extensions, &'b mut Vec<u8>, IpNumber) -> Result<(), ipv6_exts::HeaderWriteError>;
    Ipv6Extensions::header_len: fn(&'b Ipv6Extensions) -> usize;
    Ipv6Extensions::set_next_headers: fn(&'b mut Ipv6Extensions, IpNumber) -> IpNumber;
    Ipv6Extensions::next_header: fn(&'b Ipv6Extensions, IpNumber) -> Result<IpNumber, ipv6_exts::ExtsWalkError>;
    Ipv6Extensions::is_fragmenting_payload: fn(&'b Ipv6Extensions) -> bool;
    Ipv6Extensions::is_empty: fn(&'b Ipv6Extensions) -> bool;
    Ipv6RoutingExtensions::header_len: fn(&'b Ipv6RoutingExtensions) -> usize;
    Ipv4Extensions::from_slice: fn(IpNumber, Bytes<'a>) -> Result<(Ipv4Extensions, IpNumber, Bytes<'a>), ip_auth::HeaderSliceError>;
    Ipv4Extensions::from_slice_lax: fn(IpNumber, Bytes<'a>) -> (Ipv4Extensions, IpNumber, Bytes<'a>, Option<ip_auth::HeaderSliceError>);
    Ipv4Extensions::read::<Reader<'a>>: fn(&'b mut Reader<'a>, IpNumber) -> Result<(Ipv4Extensions, IpNumber), ip_auth::HeaderReadError>;
    Ipv4Extensions::read_limited::<Reader<'a>>: fn(&'b mut LimitedReader<Reader<'a>>, IpNumber) -> Result<(Ipv4Extensions, IpNumber), ip_auth::HeaderLimitedReadError>;
    Ipv4Extensions::write::<Vec<u8>>: fn(&'b Ipv4Extensions, &'b mut Vec<u8>, IpNumber) -> Result<(), ipv4_exts::HeaderWriteError>;
    Ipv4Extensions::header_len: fn(&'b Ipv4Extensions) -> usize;
    Ipv4Extensions::set_next_headers: fn(&'b mut Ipv4Extensions, IpNumber) -> IpNumber;
    Ipv4Extensions::next_header: fn(&'b Ipv4Extensions, IpNumber) -> Result<IpNumber, ipv4_exts::ExtsWalkError>;
    Ipv4Extensions::is_empty: fn(&'b Ipv4Extensions) -> bool;
}

/// A header that a program may make in a constant.
pub const FRAGMENT: Ipv6FragmentHeader =
    Ipv6FragmentHeader::new(ip_number::UDP, IpFragOffset::ZERO, true, 7);

/// Calls that a program may make in constants.
pub const OFFSET: bool = matches!(IpFragOffset::try_new(185), Ok(offset) if offset.value() == 185);

/// The numbers, which a program may match.
pub fn name(number: IpNumber) -> &'static str {
    match number {
        IpNumber::IPV6_HEADER_HOP_BY_HOP => "hop-by-hop",
        ip_number::IPV6_ROUTE => "routing",
        ip_number::IPV6_FRAG => "fragment",
        ip_number::AUTH => "authentication",
        IpNumber::IPV6_DESTINATION_OPTIONS => "options",
        ip_number::MOBILITY | ip_number::HIP | ip_number::SHIM6 => "other",
        ip_number::IPV6_NO_NEXT_HEADER => "none",
        ip_number::UDP => "UDP",
        _ => "",
    }
}

/// Matches all variants of the errors of a packet.
pub fn is_about_version(error: &ip::SliceError) -> bool {
    match error {
        ip::SliceError::Len(LenError {
            required_len: _,
            layer_start_offset: _,
            len_source: LenSource::Slice,
            layer: Layer::IpHeader,
            len: 0,
        }) => true,
        ip::SliceError::Len(_) => false,
        ip::SliceError::IpHeaders(error) => match error {
            ip::HeadersError::Ip(ip::HeaderError::UnsupportedIpVersion { version_number }) => {
                *version_number != 4
            }
            ip::HeadersError::Ip(ip::HeaderError::Ipv4HeaderLengthSmallerThanHeader { ihl: _ })
            | ip::HeadersError::Ipv4Ext(ip_auth::HeaderError::ZeroPayloadLen) => false,
            ip::HeadersError::Ipv6Ext(error) => match error {
                ipv6_exts::HeaderError::HopByHopNotAtStart
                | ipv6_exts::HeaderError::IpAuth(ip_auth::HeaderError::ZeroPayloadLen) => false,
            },
        },
    }
}

/// Matches all variants of the errors of a version's packet, of its header, and of single headers.
pub fn are_lengths(
    (v4, v6): (&ipv4::SliceError, &ipv6::SliceError),
    (header4, header6): (&ipv4::HeaderSliceError, &ipv6::HeaderSliceError),
    (auth, chain): (&ip_auth::HeaderSliceError, &ipv6_exts::HeaderSliceError),
) -> [bool; 6] {
    let v4 = match v4 {
        ipv4::SliceError::Len(_) => true,
        ipv4::SliceError::Header(_) | ipv4::SliceError::Exts(_) => false,
    };
    let v6 = match v6 {
        ipv6::SliceError::Len(_) => true,
        ipv6::SliceError::Header(_) | ipv6::SliceError::Exts(_) => false,
    };
    let header4 = match header4 {
        ipv4::HeaderSliceError::Len(_) => true,
        ipv4::HeaderSliceError::Content(_) => false,
    };
    let header6 = match header6 {
        ipv6::HeaderSliceError::Len(_) => true,
        ipv6::HeaderSliceError::Content(ipv6::HeaderError::UnexpectedVersion { .. }) => false,
    };
    let auth = match auth {
        ip_auth::HeaderSliceError::Len(_) => true,
        ip_auth::HeaderSliceError::Content(_) => false,
    };
    let chain = match chain {
        ipv6_exts::HeaderSliceError::Len(_) => true,
        ipv6_exts::HeaderSliceError::Content(_) => false,
    };
    [v4, v6, header4, header6, auth, chain]
}

/// Matches all variants of the headers, packets and lengths.
pub fn payload_of<'a>(
    packet: &IpSlice<'a>,
    header: &Ipv6ExtensionSlice<'a>,
) -> (Bytes<'a>, Bytes<'a>) {
    let IpPayloadSlice {
        ip_number: _,
        fragmented: _,
        len_source: _,
        payload,
    } = match packet {
        IpSlice::Ipv4(packet) => packet.payload(),
        IpSlice::Ipv6(packet) => packet.payload(),
    };
    let header = match header {
        Ipv6ExtensionSlice::HopByHop(header)
        | Ipv6ExtensionSlice::Routing(header)
        | Ipv6ExtensionSlice::DestinationOptions(header) => header.slice(),
        Ipv6ExtensionSlice::Fragment(header) => header.slice(),
        Ipv6ExtensionSlice::Authentication(header) => header.slice(),
    };
    (payload, header)
}

/// Errors of lengths that a header can't have.
pub fn lengths(
    value: &ip_auth::IcvLenError,
    payload: &ipv6_exts::ExtPayloadLenError,
) -> [usize; 2] {
    let value = match value {
        ip_auth::IcvLenError::TooBig(len) | ip_auth::IcvLenError::Unaligned(len) => *len,
    };
    let payload = match payload {
        ipv6_exts::ExtPayloadLenError::TooSmall(len)
        | ipv6_exts::ExtPayloadLenError::TooBig(len)
        | ipv6_exts::ExtPayloadLenError::Unaligned(len) => *len,
    };
    [value, payload]
}

fn is_copy<T: Copy + Debug + Eq>() {}

fn is_clone<T: Clone + Debug + Eq>() {}

fn is_error<T: core::error::Error + Clone + Eq + core::hash::Hash>() {}

fn has_default<T: Default>() {}

/// The traits of the types.
pub fn traits() {
    is_copy::<Ipv4ExtensionsSlice<'_>>();
    is_copy::<IpAuthHeaderSlice<'_>>();
    is_copy::<IpNumber>();
    is_copy::<IpFragOffset>();
    is_copy::<LenSource>();
    is_copy::<Layer>();
    is_clone::<IpSlice<'_>>();
    is_clone::<Ipv4Slice<'_>>();
    is_clone::<Ipv6Slice<'_>>();
    is_clone::<IpPayloadSlice<'_>>();
    is_clone::<Ipv6ExtensionsSlice<'_>>();
    is_clone::<Ipv6ExtensionSlice<'_>>();
    is_clone::<Ipv6ExtensionSliceIter<'_>>();
    is_clone::<Ipv6RawExtHeaderSlice<'_>>();
    is_clone::<Ipv6FragmentHeaderSlice<'_>>();
    has_default::<Ipv4ExtensionsSlice<'_>>();
    has_default::<Ipv6ExtensionsSlice<'_>>();
    has_default::<Ipv6ExtensionSliceIter<'_>>();
    is_error::<LenError>();
    is_error::<ip::SliceError>();
    is_error::<ip::HeadersError>();
    is_error::<ip::HeaderError>();
    is_error::<ipv4::SliceError>();
    is_error::<ipv6::SliceError>();
    is_error::<ip_auth::HeaderSliceError>();
    is_error::<ip_auth::HeaderError>();
    is_error::<ip_auth::IcvLenError>();
    is_error::<ipv6_exts::HeaderSliceError>();
    is_error::<ipv6_exts::HeaderError>();
    is_error::<ipv6_exts::ExtPayloadLenError>();
    is_error::<err::ipv6_exts::HeaderError>();
}
