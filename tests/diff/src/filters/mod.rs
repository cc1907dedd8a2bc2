//! Filters: a plain parser of their texts and a plain evaluation over dissected packets, which share nothing with the
//! library, and a comparison of both sides on random texts and packets.
mod accesses;
mod parse;
mod texts;
mod truth;
mod upper_layers;

use crate::changes::Changes;
use crate::compare::{Counts, Outcome};
use crate::dissections::dissected;
use crate::ours::ipexts_filter;
use crate::packets;
use crate::random::Random;
use etherparse::err::Layer;

/// The largest packet.
const LONGEST: usize = 2000;

/// A formula of terms.
#[derive(Debug)]
pub enum Formula {
    Term(Term),
    Not(Box<Formula>),
    And(Box<Formula>, Box<Formula>),
    Or(Box<Formula>, Box<Formula>),
}

/// A condition on one packet.
#[derive(Debug)]
pub enum Term {
    Version(u64),
    Header(u64),
    LeadsTo(u64),
    Fragment,
    FirstFragment,
    LaterFragment,
    Truncated(Option<Layer>),
    Incomplete,
    Fault(Option<FaultKind>, Option<Layer>),
    Compared(Quantity, Comparison),
    Spi(u64),
    Option(u64),
    RoutingType(u64),
    SegmentsLeft(Comparison),
    Id(u64),
    Source(Network),
    Destination(Network),
    Either(Network),
    SourcePort(Ports),
    DestinationPort(Ports),
    Port(Ports),
    NoTransport,
    NoLength,
    Icmp,
    Icmp6,
    IcmpType(u64),
    IcmpCode(u64),
    Icmp6Type(u64),
    Icmp6Code(u64),
    TcpFlags(TcpFlags),
    Access(Access),
    WireLength(Comparison),
    Vlan(Option<u64>),
    Arp,
    Mismatched,
}

/// A number of a packet, which terms compare.
#[derive(Clone, Copy, Debug)]
pub enum Quantity {
    Headers,
    ChainBytes,
    Payload,
    Length,
    HopLimit,
    Dscp,
    Ecn,
    FlowLabel,
}

/// The ports from the first to the last.
#[derive(Debug)]
pub struct Ports {
    pub first: u64,
    pub last: u64,
}

/// The flags of TCP that are set, and those that count.
#[derive(Debug)]
pub struct TcpFlags {
    pub set: u8,
    pub mask: u8,
}

/// Bytes of the packet, the bits of them that count, and how they compare.
#[derive(Debug)]
pub struct Access {
    pub start: Start,
    pub offset: u64,
    pub size: usize,
    pub mask: u64,
    pub comparison: Comparison,
}

/// Where the offset of an access counts from: the base header of a version, or the header of a protocol.
#[derive(Clone, Copy, Debug)]
pub enum Start {
    Base(u8),
    Upper(u8),
}

#[derive(Clone, Copy, Debug, PartialEq, Eq)]
pub enum FaultKind {
    TooShort,
    NotAtStart,
    ZeroLength,
    UnsupportedVersion,
    HeaderLength,
}

/// A comparison with a number.
#[derive(Debug)]
pub struct Comparison {
    pub sign: String,
    pub number: u64,
}

/// The bytes of an address, and how many of its bits count.
#[derive(Debug)]
pub struct Network {
    pub address: Vec<u8>,
    pub bits: usize,
}

/// What a text needs, with the codes of `ipexts_filter`.
#[derive(Clone, Copy, Debug, PartialEq, Eq)]
pub enum Expected {
    Operand,
    OperatorOrEnd,
    OperatorOrClose,
    Version,
    Header,
    Protocol,
    Comparison,
    Count,
    Number,
    Network,
    Mask,
    Byte,
    NetworkOrPort,
    Source,
    Destination,
    Address,
    Ports,
    IcmpType,
    Icmp6Type,
    TcpFlags,
    MaskOrComparison,
    Bits,
    JoinedBits,
    JoinedBitsEnd,
    FewerTerms,
    LessNesting,
}

/// The result for a text and a packet: whether the filter matches the packet and whether it matches a frame that is not
/// IP, or where the text is wrong.
#[derive(Debug, PartialEq, Eq)]
pub enum Answer {
    Matches(bool, bool),
    Refused(usize, u8),
}

/// Returns the library's result.
pub fn ours(text: &[u8], packet: &[u8]) -> Answer {
    // SAFETY: each pointer is valid for its length.
    let answer = unsafe { ipexts_filter(text.as_ptr(), text.len(), packet.as_ptr(), packet.len()) };
    match answer {
        0..4 => Answer::Matches(answer % 2 == 1, answer / 2 == 1),
        _ => Answer::Refused((answer / 32) as usize - 1, (answer % 32) as u8),
    }
}

/// Returns the result of the plain parser and the plain evaluation. The original dissects the packet.
pub fn plain(text: &[u8], packet: &[u8]) -> Answer {
    match parse::parse(text) {
        Ok(formula) => {
            let bytes = Changes::ALL.asked_packet(packet.to_vec());
            let parts = dissected(&bytes);
            Answer::Matches(
                truth::holds(&formula, Some(&parts)),
                truth::holds(&formula, None),
            )
        }
        Err((offset, expected)) => Answer::Refused(offset, expected as u8),
    }
}

/// Makes a packet with an upper layer, or takes one of those that wait.
fn next_packet(waiting: &mut Vec<Vec<u8>>, random: &mut Random) -> Vec<u8> {
    if random.percent(40) {
        return upper_layers::packet(random);
    }
    if waiting.is_empty() {
        *waiting = packets::asked(random, LONGEST);
    }
    waiting.pop().unwrap_or_default()
}

/// Compares `count` texts of filters on random packets. `ours` returns our results.
pub fn all_filters(ours: impl Fn(&[u8], &[u8]) -> Answer, seed: u64, count: usize) -> Outcome {
    let mut random = Random::new(seed);
    let mut waiting: Vec<Vec<u8>> = Vec::new();
    for index in 0..count {
        let packet = next_packet(&mut waiting, &mut random);
        let text = texts::text(&packet, &mut random);
        let (ours, plain) = (ours(&text, &packet), plain(&text, &packet));
        if ours != plain {
            return Outcome::Different(format!(
                "filter {}: {:?} over {packet:02x?}\nthe plain program: {plain:?}\nours: {ours:?}",
                index + 1,
                String::from_utf8_lossy(&text)
            ));
        }
    }
    Outcome::Same(Counts::new())
}

#[cfg(test)]
mod tests {
    use super::*;

    #[test]
    fn the_sides_filter_alike() {
        assert!(matches!(all_filters(ours, 1, 20_000), Outcome::Same(_)));
    }

    /// Half of the texts must be filters, and of these each result must occur.
    #[test]
    fn texts_and_results_vary() {
        let mut random = Random::new(2);
        let mut counts = [0; 4];
        for _ in 0..4000 {
            for packet in packets::asked(&mut random, LONGEST) {
                if let Answer::Matches(packet, other) =
                    plain(&texts::text(&packet, &mut random), &packet)
                {
                    counts[usize::from(packet) + 2 * usize::from(other)] += 1;
                }
            }
        }
        assert!(counts.iter().all(|&count| count > 200), "{counts:?}");
    }

    /// Each of these terms must hold of some packets, and not of others.
    #[test]
    fn upper_layers_vary() {
        let texts = [
            "port 0-32767",
            "src port 0-32767",
            "dst port 0-32767 and header frag",
            "no-transport",
            "no-transport and header ah",
            "no-transport and src port 0-65535",
            "tcp and not no-transport and not later-fragment",
            "dccp and not no-transport and not later-fragment",
            "no-transport and tcp and tcp-flags fin/fin",
            "no-transport and icmp",
            "no-transport and icmp6",
            "no-length and ip",
            "no-length and ip6",
            "no-length and length > 50",
            "icmp-type 0 or icmp-type 1 or icmp-type 2 or icmp-type 3",
            "icmp-code 0 or icmp-code 1 or icmp-code 2 or icmp-code 3",
            "icmp6-type 0 or icmp6-type 1 or icmp6-type 2 or icmp6-type 3",
            "icmp6-code 0 or icmp6-code 1 or icmp6-code 2 or icmp6-code 3",
            "option 0 or option 1 or option 5 or option 194",
            "routing-type 0 or routing-type 2 or segments-left = 0 or segments-left > 3",
            "tcp-flags syn/syn,ack or tcp-flags rst or tcp-flags ece,cwr/ece,cwr,urg",
            "udp-lite and later-fragment",
            "tcp[13] & (tcp-syn|tcp-ack) != 0",
            "tcp[13] & 2 = 0 and header dstopts",
            "udp[0:2] > 0x7fff",
            "icmp6[icmp6type] < 128",
            "ip[6:2] & 0x1fff = 0 and not tcp[4:4] >= 0",
            "ip6[40] > 1",
        ];
        let mut random = Random::new(4);
        for text in texts {
            let count = (0..4000)
                .map(|_| upper_layers::packet(&mut random))
                .filter(|packet| plain(text.as_bytes(), packet) == Answer::Matches(true, false))
                .count();
            assert!((5..3000).contains(&count), "{text}: {count}");
        }
    }

    fn is_found(planted: impl Fn(&[u8], &[u8]) -> Answer) -> bool {
        matches!(all_filters(planted, 3, 20_000), Outcome::Different(_))
    }

    #[test]
    fn planted_differences_are_found() {
        let replaced = |text: &[u8], old: &str, new: &str| {
            String::from_utf8_lossy(text).replace(old, new).into_bytes()
        };
        assert!(is_found(|text, packet| ours(
            &replaced(text, " or ", " and "),
            packet
        )));
        assert!(is_found(|text, packet| ours(
            &replaced(text, "<=", "< "),
            packet
        )));
        assert!(is_found(|text, packet| ours(
            &replaced(text, "first-", ""),
            packet
        )));
        assert!(is_found(|text, packet| ours(
            &replaced(text, "src port", "dst port"),
            packet
        )));
        assert!(is_found(|text, packet| ours(
            &replaced(text, "no-transport", "later-fragment"),
            packet
        )));
        assert!(is_found(|text, packet| ours(
            &replaced(text, "icmp-type", "icmp-code"),
            packet
        )));
        assert!(is_found(|text, packet| ours(
            &replaced(text, "dscp", "ecn"),
            packet
        )));
        assert!(is_found(|text, packet| ours(
            &replaced(text, ":2]", "]"),
            packet
        )));
        assert!(is_found(|text, packet| ours(
            &replaced(text, "[1", "[2"),
            packet
        )));
        assert!(is_found(|text, packet| match ours(text, packet) {
            Answer::Refused(offset, expected) => Answer::Refused(offset + 1, expected),
            answer => answer,
        }));
        assert!(is_found(|text, packet| match ours(text, packet) {
            Answer::Matches(packet, _) => Answer::Matches(packet, packet),
            answer => answer,
        }));
    }
}
