//! Digests of the original's results that cover every byte, like those of `ipexts_calls` for ours.
use crate::asked::{Asked, Begins};
use crate::original::{layer_code, of_answer, of_auth, of_fault, of_header, of_len_error, with};
use crate::original_slices::{of_ip_fault, of_ipv4_fault, of_ipv6_fault};
use crate::sources;
use diff::chains::EXTENSIONS;
use diff::changes::Changes;
use diff::dissections::{dissected, End, Fragment};
use etherparse::err::Layer;
use etherparse::{
    IpNumber, IpPayloadSlice, IpSlice, Ipv4Extensions, Ipv4ExtensionsSlice, Ipv4Slice,
    Ipv6ExtensionSlice, Ipv6Extensions, Ipv6ExtensionsSlice, Ipv6RawExtHeader, Ipv6Slice,
};

const REFUSED: u64 = 256;

fn with_bytes(sum: u64, bytes: &[u8]) -> u64 {
    bytes
        .iter()
        .fold(with(sum, bytes.len() as u64), |sum, byte| {
            sum.wrapping_mul(65_599).wrapping_add(u64::from(*byte))
        })
}

/// Adds the bytes of a header, and those after its fixed fields.
fn parts<'a>(header: &Ipv6ExtensionSlice<'a>) -> (&'a [u8], Option<&'a [u8]>) {
    use Ipv6ExtensionSlice::{Authentication, DestinationOptions, Fragment, HopByHop, Routing};
    match header {
        HopByHop(header) | Routing(header) | DestinationOptions(header) => {
            let bytes = header.slice();
            (bytes, Some(&bytes[bytes.len() - header.payload().len()..]))
        }
        Fragment(header) => (header.slice(), None),
        Authentication(header) => {
            let bytes = header.slice();
            (bytes, Some(&bytes[bytes.len() - header.raw_icv().len()..]))
        }
    }
}

fn with_header(asked: &Asked<'_>, sum: u64, header: &Ipv6ExtensionSlice<'_>) -> u64 {
    let (bytes, after) = parts(header);
    let sum = with_bytes(with(sum, of_header(header)), asked.ours(bytes));
    after.map_or(sum, |after| with_bytes(sum, asked.ours(after)))
}

/// Adds the headers of a chain. The original's iterator reads past the end of a chain that a lax parse ended at an
/// error, so it is stopped at the end of the chain.
fn with_headers(asked: &Asked<'_>, mut sum: u64, headers: Ipv6ExtensionsSlice<'_>) -> u64 {
    let mut left = headers.slice().len();
    let mut headers = headers.into_iter();
    while left > 0 {
        let header = headers
            .next()
            .expect("a header for the bytes that are left");
        left -= parts(&header).0.len();
        sum = with_header(asked, sum, &header);
    }
    sum
}

fn of_chain(
    asked: &Asked<'_>,
    headers: Ipv6ExtensionsSlice<'_>,
    number: IpNumber,
    rest: &[u8],
) -> u64 {
    let sum = with_bytes(u64::from(number.0), asked.ours(headers.slice()));
    with_headers(asked, with_bytes(sum, asked.ours(rest)), headers)
}

pub fn lax(start: u8, bytes: &[u8]) -> u64 {
    let asked = Asked::new(Begins::Chain(start), bytes);
    let (headers, number, rest, _) =
        Ipv6ExtensionsSlice::from_slice_lax(IpNumber(start), asked.original());
    of_chain(&asked, headers, number, rest)
}

pub fn strict(start: u8, bytes: &[u8]) -> u64 {
    let asked = Asked::new(Begins::Chain(start), bytes);
    match Ipv6ExtensionsSlice::from_slice(IpNumber(start), asked.original()) {
        Ok((headers, number, rest)) => of_chain(&asked, headers, number, rest),
        Err(fault) => of_fault(&fault),
    }
}

/// The counterpart of our cursor: the original has none, but a lax parse and its iterator.
pub fn cursor(start: u8, bytes: &[u8]) -> u64 {
    let asked = Asked::new(Begins::Chain(start), bytes);
    let (headers, number, rest, fault) =
        Ipv6ExtensionsSlice::from_slice_lax(IpNumber(start), asked.original());
    let sum = with(with_headers(&asked, 0, headers), u64::from(number.0));
    let place = with_bytes(sum, asked.ours(rest));
    fault.map_or(place, |(fault, layer)| {
        with(with(place, of_fault(&fault)), layer_code(&layer).into())
    })
}

fn with_payload(sum: u64, header: &Option<Ipv6RawExtHeader>) -> u64 {
    match header {
        Some(header) => with_bytes(sum, header.payload()),
        None => with(sum, REFUSED),
    }
}

fn with_held(sum: u64, exts: &Ipv6Extensions) -> u64 {
    let options = with_payload(sum, &exts.hop_by_hop_options);
    let options = with_payload(options, &exts.destination_options);
    let routing = exts.routing.as_ref().map_or(options, |headers| {
        let sum = with_bytes(options, headers.routing.payload());
        with_payload(sum, &headers.final_destination_options)
    });
    let auth = exts.auth.as_ref();
    auth.map_or(routing, |header| with_bytes(routing, header.raw_icv()))
}

/// Adds a struct as it is written. From number 0 the original panics if there are no hop-by-hop options. It isn't
/// called then, and the expected result is that of `next_header` with nothing written.
fn written(exts: &Ipv6Extensions, start: IpNumber) -> Option<Vec<u8>> {
    let mut out = Vec::new();
    if start.0 == 0 && exts.hop_by_hop_options.is_none() {
        exts.next_header(start).ok()?;
        return Some(out);
    }
    exts.write(&mut out, start).ok()?;
    Some(Changes::ALL.written_chain(start.0, out))
}

fn with_written(sum: u64, exts: &Ipv6Extensions, start: IpNumber) -> u64 {
    let leads = exts
        .next_header(start)
        .map_or(REFUSED, |number| number.0.into());
    let sum = with(with(sum, leads), exts.header_len() as u64);
    written(exts, start).map_or_else(|| with(sum, REFUSED), |out| with_bytes(sum, &out))
}

pub fn lax_struct(start: u8, bytes: &[u8]) -> u64 {
    let asked = Asked::new(Begins::Chain(start), bytes);
    let (exts, number, rest, _) = Ipv6Extensions::from_slice_lax(IpNumber(start), asked.original());
    let held = with_held(of_answer(&exts, number, rest), &exts);
    with_written(with_bytes(held, asked.ours(rest)), &exts, IpNumber(start))
}

pub fn linked_struct(start: u8, last: u8, bytes: &[u8]) -> u64 {
    let asked = Asked::new(Begins::Chain(start), bytes);
    let (mut exts, _, _, _) = Ipv6Extensions::from_slice_lax(IpNumber(start), asked.original());
    let first = exts.set_next_headers(IpNumber(last));
    with_written(u64::from(first.0), &exts, first)
}

/// Calls the struct parse repeatedly, as a caller of the original does to get all headers.
pub fn runs(start: u8, bytes: &[u8]) -> u64 {
    let asked = Asked::new(Begins::Chain(start), bytes);
    let (mut number, mut rest, mut sum) = (IpNumber(start), asked.original(), 0);
    loop {
        let (exts, next, left, fault) = Ipv6Extensions::from_slice_lax(number, rest);
        sum = with_held(sum, &exts);
        (number, rest) = (next, left);
        if fault.is_some() || !EXTENSIONS.contains(&number.0) {
            return with_bytes(with(sum, number.0.into()), asked.ours(rest));
        }
    }
}

pub fn ipv4(start: u8, bytes: &[u8]) -> u64 {
    let (headers, number, rest, _) = Ipv4ExtensionsSlice::from_slice_lax(IpNumber(start), bytes);
    let sum = with_bytes(number.0.into(), rest);
    let sum = headers.auth.map_or(sum, |header| {
        with_bytes(with_bytes(sum, header.slice()), header.raw_icv())
    });
    let (headers, number, rest, _) = Ipv4Extensions::from_slice_lax(IpNumber(start), bytes);
    let sum = with_bytes(with(sum, number.0.into()), rest);
    let auth = headers.auth.as_ref();
    let sum = auth.map_or(sum, |header| with_bytes(sum, header.raw_icv()));
    let mut out = Vec::new();
    match headers.write(&mut out, IpNumber(start)) {
        Ok(()) => with_bytes(sum, &out),
        Err(_) => with(sum, REFUSED),
    }
}

fn with_payload_of(asked: &Asked<'_>, sum: u64, payload: &IpPayloadSlice<'_>) -> u64 {
    let number = u64::from(payload.ip_number.0);
    with_bytes(with(sum, number), asked.ours(payload.payload))
}

fn of_ipv4(asked: &Asked<'_>, packet: &Ipv4Slice<'_>) -> u64 {
    let header = packet.header();
    let sum = with_bytes(
        with_bytes(4, header.slice()),
        &header.source_addr().octets(),
    );
    let sum = with_bytes(sum, &header.destination_addr().octets());
    let exts = packet.extensions().auth.map_or(sum, |header| {
        with(with_bytes(sum, header.slice()), of_auth(&header))
    });
    with_payload_of(asked, exts, packet.payload())
}

fn of_ipv6(asked: &Asked<'_>, packet: &Ipv6Slice<'_>) -> u64 {
    let header = packet.header();
    let sum = with_bytes(
        with_bytes(6, header.slice()),
        &header.source_addr().octets(),
    );
    let sum = with_bytes(sum, &header.destination_addr().octets());
    let exts = with_bytes(sum, asked.ours(packet.extensions().slice()));
    with_payload_of(asked, exts, packet.payload())
}

pub fn ip(bytes: &[u8]) -> u64 {
    let asked = Asked::new(Begins::Packet, bytes);
    match sources::ip(asked.original()) {
        Ok(IpSlice::Ipv4(packet)) => of_ipv4(&asked, &packet),
        Ok(IpSlice::Ipv6(packet)) => of_ipv6(&asked, &packet),
        Err(fault) => of_ip_fault(&fault),
    }
}

pub fn ipv4_slice(bytes: &[u8]) -> u64 {
    let asked = Asked::new(Begins::Packet, bytes);
    Ipv4Slice::from_slice(asked.original()).map_or_else(
        |fault| of_ipv4_fault(&fault),
        |packet| of_ipv4(&asked, &packet),
    )
}

pub fn ipv6_slice(bytes: &[u8]) -> u64 {
    let asked = Asked::new(Begins::Packet, bytes);
    sources::ipv6(asked.original()).map_or_else(
        |fault| of_ipv6_fault(&fault),
        |packet| of_ipv6(&asked, &packet),
    )
}

pub fn ipv6_slice_lax(bytes: &[u8]) -> u64 {
    let asked = Asked::new(Begins::Packet, bytes);
    Ipv6Slice::from_slice_lax(asked.original()).map_or_else(
        |fault| of_ipv6_fault(&fault),
        |packet| of_ipv6(&asked, &packet),
    )
}

/// The counterpart of our dissection: parts made from results of the original.
pub fn dissection(bytes: &[u8]) -> u64 {
    let asked = Asked::new(Begins::Packet, bytes);
    let packet = dissected(asked.original());
    let sum = match packet.version {
        0 => REFUSED,
        version => with_bytes(version.into(), asked.ours(packet.base)),
    };
    let sum = with(sum, packet.stated.map_or(REFUSED, |stated| stated as u64));
    let headers = &packet.headers;
    let all = headers.iter().flat_map(|(_, header)| asked.ours(header));
    let all: Vec<u8> = all.copied().collect();
    let sum = with_bytes(with(sum, headers.len() as u64), &all);
    let sum = headers.iter().fold(sum, |sum, (number, header)| {
        with_bytes(with(sum, (*number).into()), asked.ours(header))
    });
    let sum = with_fragment(sum, packet.fragment);
    let sum = with_bytes(with(sum, packet.number.into()), asked.ours(packet.payload));
    let sum = with_bytes(with(sum, packet.missing as u64), asked.ours(packet.padding));
    with_end(sum, &packet.end)
}

fn with_fragment(sum: u64, fragment: Option<Fragment>) -> u64 {
    let Some(fragment) = fragment else {
        return with(sum, REFUSED);
    };
    let kind = match (fragment.has_more, fragment.offset) {
        (false, 0) => 1,
        (true, 0) => 2,
        (true, _) => 3,
        (false, _) => 4,
    };
    let place = with(fragment.identification.into(), fragment.offset.into());
    with(with(sum, place), kind)
}

fn with_end(sum: u64, end: &End) -> u64 {
    let with_layer = |sum, header: &Option<Layer>| {
        with(
            sum,
            header
                .as_ref()
                .map_or(REFUSED, |layer| layer_code(layer).into()),
        )
    };
    match end {
        End::Payload => with(sum, 1),
        End::LaterFragment => with(sum, 2),
        End::Truncated(error, header) => {
            with_layer(with(with(sum, 3), of_len_error(error)), header)
        }
        End::Fault(error, header) => with_layer(with(with(sum, 4), of_ip_fault(error)), header),
    }
}
