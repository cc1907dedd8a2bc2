//! The plain evaluation over the parts of a packet.
use super::{accesses, Comparison, FaultKind, Formula, Network, Ports, Quantity, Term};
use crate::dissections::{fragment_of, Dissected, End, Fragment};
use etherparse::err::{ip, ipv6_exts, Layer};

/// Hop-by-hop options and destination options.
const OPTIONS: [u8; 2] = [0, 60];

const ROUTING: u8 = 43;

const AUTH: u8 = 51;

const TCP: u8 = 6;

const DCCP: u8 = 33;

const ESP: u8 = 50;

/// The protocols whose headers begin with the source and the destination port, of 2 bytes each: TCP, UDP, DCCP, SCTP and
/// UDP-Lite.
const WITH_PORTS: [u8; 5] = [6, 17, 33, 132, 136];

/// ICMP of IPv4 and ICMPv6 of IPv6, whose messages begin with their type and code, of 1 byte each: the version and the protocol.
const ICMP: (u8, u8) = (4, 1);

const ICMP6: (u8, u8) = (6, 58);

/// Returns whether the formula holds of a packet, or of a frame that is not IP.
pub fn holds(formula: &Formula, packet: Option<&Dissected<'_>>) -> bool {
    match formula {
        Formula::Term(term) => packet.is_some_and(|packet| is_met(term, packet)),
        Formula::Not(formula) => !holds(formula, packet),
        Formula::And(left, right) => holds(left, packet) && holds(right, packet),
        Formula::Or(left, right) => holds(left, packet) || holds(right, packet),
    }
}

fn is_met(term: &Term, packet: &Dissected<'_>) -> bool {
    let has_base = packet.version != 0;
    match term {
        Term::Version(version) => has_base && u64::from(packet.version) == *version,
        Term::Header(number) => packet
            .headers
            .iter()
            .any(|(it, _)| u64::from(*it) == *number),
        Term::LeadsTo(number) => has_base && u64::from(packet.number) == *number,
        Term::Fragment => has_fragment(packet, |it| it.has_more || it.offset != 0),
        Term::FirstFragment => has_fragment(packet, |it| it.has_more && it.offset == 0),
        Term::LaterFragment => has_fragment(packet, |it| it.offset != 0),
        Term::Truncated(layer) => match &packet.end {
            End::Truncated(error, header) => {
                layer.is_none_or(|layer| is_in(packet, header.unwrap_or(error.layer), layer))
            }
            _ => false,
        },
        Term::Incomplete => packet.missing > 0,
        Term::Fault(kind, layer) => match &packet.end {
            End::Fault(error, header) => {
                kind.is_none_or(|kind| kind == kind_of(error))
                    && layer
                        .is_none_or(|layer| is_in(packet, header.unwrap_or(layer_of(error)), layer))
            }
            _ => false,
        },
        Term::Compared(quantity, comparison) => {
            value(*quantity, packet).is_some_and(|value| compares(value, comparison))
        }
        Term::Spi(index) => {
            let indices = packet
                .headers
                .iter()
                .filter(|(number, _)| *number == AUTH)
                .map(|(_, bytes)| &bytes[4..8]);
            let esp = upper_layer(packet, &[ESP]).and_then(|bytes| bytes.get(..4));
            indices.chain(esp).any(|it| {
                it.iter()
                    .fold(0, |index, byte| index << 8 | u64::from(*byte))
                    == *index
            })
        }
        Term::Option(number) => packet
            .headers
            .iter()
            .any(|(it, bytes)| OPTIONS.contains(it) && has_option(&bytes[2..], *number)),
        Term::RoutingType(number) => packet
            .headers
            .iter()
            .any(|(it, bytes)| *it == ROUTING && u64::from(bytes[2]) == *number),
        Term::SegmentsLeft(comparison) => packet
            .headers
            .iter()
            .any(|(it, bytes)| *it == ROUTING && compares(bytes[3].into(), comparison)),
        Term::Id(number) => has_fragment(packet, |it| u64::from(it.identification) == *number),
        Term::Source(network) => lies_in(source(packet), network),
        Term::Destination(network) => lies_in(destination(packet), network),
        Term::Either(network) => {
            lies_in(source(packet), network) || lies_in(destination(packet), network)
        }
        Term::SourcePort(ports) => is_among(port(packet, 0), ports),
        Term::DestinationPort(ports) => is_among(port(packet, 2), ports),
        Term::Port(ports) => is_among(port(packet, 0), ports) || is_among(port(packet, 2), ports),
        Term::NoTransport => lacks_upper_layer(packet),
        Term::NoLength => has_base && packet.stated.is_none() && after_base(packet) > 0,
        Term::Icmp => is_of(packet, ICMP),
        Term::Icmp6 => is_of(packet, ICMP6),
        Term::IcmpType(number) => message_byte(packet, ICMP, 0) == Some(*number),
        Term::IcmpCode(number) => message_byte(packet, ICMP, 1) == Some(*number),
        Term::Icmp6Type(number) => message_byte(packet, ICMP6, 0) == Some(*number),
        Term::Icmp6Code(number) => message_byte(packet, ICMP6, 1) == Some(*number),
        Term::TcpFlags(flags) => upper_layer(packet, &[TCP])
            .and_then(|bytes| bytes.get(13))
            .is_some_and(|found| found & flags.mask == flags.set),
        // of a packet alone
        Term::WireLength(comparison) => {
            value(Quantity::Length, packet).is_some_and(|value| compares(value, comparison))
        }
        Term::Vlan(_) | Term::Arp | Term::Mismatched => false,
        Term::Access(access) => accesses::read(packet, access.start, access.offset, access.size)
            .is_some_and(|found| compares((found & access.mask) as usize, &access.comparison)),
    }
}

/// Returns whether an option has this type, none before it being malformed.
fn has_option(options: &[u8], number: u64) -> bool {
    let Some(option) = options.first() else {
        return false;
    };
    let len = match (option, options.get(1)) {
        (0, _) => 1,
        (_, Some(len)) => 2 + usize::from(*len),
        (_, None) => return false,
    };
    match options.get(len..) {
        Some(after) => u64::from(*option) == number || has_option(after, number),
        None => false,
    }
}

/// Returns whether this is true of what one of the fragment headers says, or the base header of an IPv4 fragment.
fn has_fragment(packet: &Dissected<'_>, holds: impl Fn(&Fragment) -> bool) -> bool {
    if packet.version == 4 {
        packet.fragment.is_some_and(|it| holds(&it))
    } else {
        packet
            .headers
            .iter()
            .filter_map(fragment_of)
            .any(|it| holds(&it))
    }
}

/// Returns a number of the packet, if it has this one.
fn value(quantity: Quantity, packet: &Dissected<'_>) -> Option<usize> {
    let of_version = |ipv4: usize, ipv6: usize| match packet.version {
        4 => Some(usize::from(packet.base[ipv4])),
        6 => Some(usize::from(packet.base[ipv6])),
        _ => None,
    };
    match quantity {
        Quantity::Length if packet.version == 0 => None,
        Quantity::Length => Some(
            packet
                .stated
                .unwrap_or(packet.base.len() + after_base(packet)),
        ),
        Quantity::HopLimit => of_version(8, 7),
        Quantity::Dscp => traffic_class(packet).map(|class| class >> 2),
        Quantity::Ecn => traffic_class(packet).map(|class| class & 3),
        Quantity::FlowLabel if packet.version == 6 => Some(flow_label(packet.base)),
        Quantity::FlowLabel => None,
        _ if packet.version == 0 => None,
        Quantity::Headers => Some(packet.headers.len()),
        Quantity::ChainBytes => Some(after_base(packet) - packet.payload.len()),
        Quantity::Payload => Some(packet.payload.len()),
    }
}

/// Returns how many bytes of the packet follow its base header.
fn after_base(packet: &Dissected<'_>) -> usize {
    let headers: usize = packet.headers.iter().map(|(_, bytes)| bytes.len()).sum();
    headers + packet.payload.len()
}

/// Returns the traffic class: byte 1 of an IPv4 header, and the 8 bits after the version of an IPv6 header.
fn traffic_class(packet: &Dissected<'_>) -> Option<usize> {
    let class = match packet.version {
        4 => packet.base[1],
        6 => packet.base[0] << 4 | packet.base[1] >> 4,
        _ => return None,
    };
    Some(class.into())
}

/// Returns the last 20 bits of the first 4 bytes of an IPv6 header.
fn flow_label(base: &[u8]) -> usize {
    base[1..4]
        .iter()
        .fold(0, |label, byte| label << 8 | usize::from(*byte))
        & 0xf_ffff
}

/// Returns the payload if it begins with the header of one of the protocols.
fn upper_layer<'a>(packet: &Dissected<'a>, protocols: &[u8]) -> Option<&'a [u8]> {
    (packet.end == End::Payload && protocols.contains(&packet.number)).then_some(packet.payload)
}

/// Returns whether the payload should begin with the header of an upper layer, but has only a part of it.
fn lacks_upper_layer(packet: &Dissected<'_>) -> bool {
    let Some(bytes) = upper_layer(packet, &[packet.number]) else {
        return false;
    };
    let word = |at: usize| bytes.get(at).copied().unwrap_or(0);
    let (least, stated) = match (packet.version, packet.number) {
        (_, TCP) => (20, usize::from(word(12) >> 4) * 4),
        (_, DCCP) if word(8) & 1 == 1 => (16, usize::from(word(4)) * 4),
        (_, DCCP) => (12, usize::from(word(4)) * 4),
        (_, 132) => (12, 12),
        (_, 17 | 136) => (8, 8),
        ICMP => (8, 8),
        ICMP6 => (4, 4),
        _ => return false,
    };
    bytes.len() < least || bytes.len() < stated || stated < least
}

/// Returns the port at an offset in the payload, if the packet has it.
fn port(packet: &Dissected<'_>, offset: usize) -> Option<u64> {
    match upper_layer(packet, &WITH_PORTS)?.get(offset..offset + 2)? {
        [high, low] => Some(u64::from(*high) << 8 | u64::from(*low)),
        _ => None,
    }
}

fn is_among(port: Option<u64>, ports: &Ports) -> bool {
    port.is_some_and(|port| ports.first <= port && port <= ports.last)
}

/// Returns whether the packet has this version and leads to this protocol.
fn is_of(packet: &Dissected<'_>, (version, protocol): (u8, u8)) -> bool {
    packet.version == version && packet.number == protocol
}

/// Returns the byte at an offset in a message of ICMP or ICMPv6, if the packet has it.
fn message_byte(packet: &Dissected<'_>, icmp: (u8, u8), offset: usize) -> Option<u64> {
    if !is_of(packet, icmp) {
        return None;
    }
    upper_layer(packet, &[icmp.1])?
        .get(offset)
        .map(|byte| u64::from(*byte))
}

fn kind_of(error: &ip::SliceError) -> FaultKind {
    match error {
        ip::SliceError::Len(_) => FaultKind::TooShort,
        ip::SliceError::IpHeaders(ip::HeadersError::Ip(error)) => match error {
            ip::HeaderError::UnsupportedIpVersion { .. } => FaultKind::UnsupportedVersion,
            ip::HeaderError::Ipv4HeaderLengthSmallerThanHeader { .. } => FaultKind::HeaderLength,
        },
        ip::SliceError::IpHeaders(ip::HeadersError::Ipv4Ext(_)) => FaultKind::ZeroLength,
        ip::SliceError::IpHeaders(ip::HeadersError::Ipv6Ext(error)) => match error {
            ipv6_exts::HeaderError::HopByHopNotAtStart => FaultKind::NotAtStart,
            ipv6_exts::HeaderError::IpAuth(_) => FaultKind::ZeroLength,
        },
    }
}

/// Returns whether the layer of a header is the one that is asked for, which may be any extension header of IPv6.
fn is_in(packet: &Dissected<'_>, layer: Layer, asked: Layer) -> bool {
    let is_extension = packet.version == 6 && layer != Layer::Ipv6Header;
    layer == asked || asked == Layer::Ipv6ExtHeader && is_extension
}

/// Returns the layer that an error names.
fn layer_of(error: &ip::SliceError) -> Layer {
    match error {
        ip::SliceError::Len(error) => error.layer,
        ip::SliceError::IpHeaders(ip::HeadersError::Ip(error)) => match error {
            ip::HeaderError::UnsupportedIpVersion { .. } => Layer::IpHeader,
            ip::HeaderError::Ipv4HeaderLengthSmallerThanHeader { .. } => Layer::Ipv4Header,
        },
        ip::SliceError::IpHeaders(ip::HeadersError::Ipv4Ext(_)) => Layer::IpAuthHeader,
        ip::SliceError::IpHeaders(ip::HeadersError::Ipv6Ext(error)) => match error {
            ipv6_exts::HeaderError::HopByHopNotAtStart => Layer::Ipv6HopByHopHeader,
            ipv6_exts::HeaderError::IpAuth(_) => Layer::IpAuthHeader,
        },
    }
}

fn compares(count: usize, comparison: &Comparison) -> bool {
    let (count, number) = (count as u64, comparison.number);
    match comparison.sign.as_str() {
        "=" | "==" => count == number,
        "!=" => count != number,
        "<" => count < number,
        "<=" => count <= number,
        ">" => count > number,
        _ => count >= number,
    }
}

fn source<'a>(packet: &Dissected<'a>) -> &'a [u8] {
    match packet.version {
        4 => &packet.base[12..16],
        6 => &packet.base[8..24],
        _ => &[],
    }
}

fn destination<'a>(packet: &Dissected<'a>) -> &'a [u8] {
    match packet.version {
        4 => &packet.base[16..20],
        6 => &packet.base[24..40],
        _ => &[],
    }
}

/// Returns whether the address begins with the network's bits.
fn lies_in(address: &[u8], network: &Network) -> bool {
    let bit = |bytes: &[u8], at: usize| bytes[at / 8] >> (7 - at % 8) & 1;
    address.len() == network.address.len()
        && (0..network.bits).all(|at| bit(address, at) == bit(&network.address, at))
}
