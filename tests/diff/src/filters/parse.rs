//! The plain parser: recursive descent over words.
use super::accesses::{accessed, bits};
use super::{Access, Comparison, Expected, FaultKind, Formula, Network, Ports, Quantity, TcpFlags, Term};
use etherparse::err::Layer;
use std::net::IpAddr;

/// The offset of the word that isn't expected, and what is.
type Refusal = (usize, Expected);

const MOST_TERMS: usize = 64;

const MOST_LEVELS: usize = 16;

/// Parses the text of a filter.
pub fn parse(text: &[u8]) -> Result<Formula, Refusal> {
    let mut parser = Parser {
        words: words(text),
        at: 0,
        end: text.len(),
        terms: 0,
        level: 0,
        qualifiers: Vec::new(),
    };
    let formula = parser.disjunction()?;
    match parser.words.get(parser.at) {
        Some((offset, _)) => Err((*offset, Expected::OperatorOrEnd)),
        None => Ok(formula),
    }
}

/// Splits a text into words with their offsets: signs, and runs of other bytes that aren't white space.
fn words(text: &[u8]) -> Vec<(usize, String)> {
    let mut words: Vec<(usize, Vec<u8>)> = Vec::new();
    let mut is_open = false;
    for (offset, byte) in text.iter().enumerate() {
        if b" \t\n\r".contains(byte) {
            is_open = false;
            continue;
        }
        let last = words.last().and_then(|(_, word)| word.last()).copied();
        let goes_on = match last {
            Some(before) if is_open => {
                if is_sign(before) {
                    is_pair(before, *byte)
                } else {
                    !is_sign(*byte)
                }
            }
            _ => false,
        };
        match words.last_mut() {
            Some((_, word)) if goes_on => word.push(*byte),
            _ => words.push((offset, vec![*byte])),
        }
        is_open = true;
    }
    words
        .into_iter()
        .map(|(offset, word)| (offset, word.iter().map(|&byte| char::from(byte)).collect()))
        .collect()
}

fn is_sign(byte: u8) -> bool {
    b"!&()<=>|".contains(&byte)
}

fn is_pair(first: u8, second: u8) -> bool {
    [*b"&&", *b"||", *b"!=", *b"<=", *b"==", *b">="].contains(&[first, second])
}

struct Parser {
    words: Vec<(usize, String)>,
    at: usize,
    end: usize,
    terms: usize,
    level: usize,
    /// The words of the last primitive before its identifier; none if it had no identifier.
    qualifiers: Vec<String>,
}

impl Parser {
    fn word(&self) -> Option<&str> {
        self.words.get(self.at).map(|(_, word)| word.as_str())
    }

    fn is_at(&self, wanted: &[&str]) -> bool {
        self.word().is_some_and(|word| wanted.contains(&word))
    }

    fn refuse<T>(&self, expected: Expected) -> Result<T, Refusal> {
        let offset = self
            .words
            .get(self.at)
            .map_or(self.end, |(offset, _)| *offset);
        Err((offset, expected))
    }

    /// Takes the word if the function accepts it.
    fn take<T>(
        &mut self,
        read: impl Fn(&str) -> Option<T>,
        expected: Expected,
    ) -> Result<T, Refusal> {
        match self.word().and_then(read) {
            Some(value) => {
                self.at += 1;
                Ok(value)
            }
            None => self.refuse(expected),
        }
    }

    fn disjunction(&mut self) -> Result<Formula, Refusal> {
        let mut formula = self.conjunction()?;
        while self.is_at(&["or", "||"]) {
            self.operator()?;
            formula = Formula::Or(Box::new(formula), Box::new(self.conjunction()?));
        }
        Ok(formula)
    }

    fn conjunction(&mut self) -> Result<Formula, Refusal> {
        let mut formula = self.operand()?;
        while self.is_at(&["and", "&&"]) {
            self.operator()?;
            formula = Formula::And(Box::new(formula), Box::new(self.operand()?));
        }
        Ok(formula)
    }

    /// Takes an operator, which another term must be able to follow.
    fn operator(&mut self) -> Result<(), Refusal> {
        if self.terms == MOST_TERMS {
            return self.refuse(Expected::FewerTerms);
        }
        self.at += 1;
        Ok(())
    }

    fn operand(&mut self) -> Result<Formula, Refusal> {
        let mut nots = 0;
        while self.is_at(&["not", "!"]) {
            self.at += 1;
            nots += 1;
        }
        let formula = if self.is_at(&["("]) {
            self.group()?
        } else {
            self.primitive()?
        };
        Ok((0..nots).fold(formula, |formula, _| Formula::Not(Box::new(formula))))
    }

    fn group(&mut self) -> Result<Formula, Refusal> {
        if self.level == MOST_LEVELS {
            return self.refuse(Expected::LessNesting);
        }
        self.at += 1;
        self.level += 1;
        let formula = self.disjunction()?;
        self.level -= 1;
        self.take(
            |word| (word == ")").then_some(()),
            Expected::OperatorOrClose,
        )?;
        Ok(formula)
    }

    /// Takes qualifiers and an identifier, an identifier alone, or a term.
    fn primitive(&mut self) -> Result<Formula, Refusal> {
        let names_protocol = self
            .word()
            .is_some_and(|word| protocol_term(word).is_some());
        let next = self.words.get(self.at + 1).map(|(_, word)| word.as_str());
        if names_protocol && next.is_some_and(is_qualifier) {
            let protocol = self.words[self.at].1.clone();
            self.at += 1;
            if self.terms + 2 > MOST_TERMS {
                return self.refuse(Expected::FewerTerms);
            }
            return self.qualified(vec![protocol]);
        }
        if self.word().is_some_and(is_qualifier) {
            return self.qualified(Vec::new());
        }
        let at = self.at;
        match self.term() {
            Ok(term) => {
                self.terms += 1;
                self.qualifiers.clear();
                Ok(Formula::Term(term))
            }
            Err((_, Expected::Operand)) if at < self.words.len() => {
                self.identifier(Expected::Operand)
            }
            Err(refusal) => Err(refusal),
        }
    }

    /// Takes qualifiers, after that of a protocol if there is one, and an identifier.
    fn qualified(&mut self, mut qualifiers: Vec<String>) -> Result<Formula, Refusal> {
        let first = self.words[self.at].1.clone();
        let is_side = first == "src" || first == "dst";
        self.at += 1;
        let mut last = first.clone();
        qualifiers.push(first);
        if is_side {
            self.other_side(&mut qualifiers)?;
        }
        if is_side && self.is_at(&["host", "net", "port", "portrange"]) {
            last = self.words[self.at].1.clone();
            qualifiers.push(last.clone());
            self.at += 1;
        }
        self.qualifiers = qualifiers;
        self.identifier(match last.as_str() {
            "host" => Expected::Address,
            "net" => Expected::Network,
            "port" | "portrange" => Expected::Ports,
            "proto" => Expected::Protocol,
            _ => Expected::NetworkOrPort,
        })
    }

    /// Takes an operator and the other one of `src` and `dst`, if an operator follows one.
    fn other_side(&mut self, qualifiers: &mut Vec<String>) -> Result<(), Refusal> {
        let is_and = self.is_at(&["and", "&&"]);
        if !is_and && !self.is_at(&["or", "||"]) {
            return Ok(());
        }
        if is_and && self.terms + qualifiers.len() + 1 > MOST_TERMS {
            return self.refuse(Expected::FewerTerms);
        }
        self.at += 1;
        let (other, expected) = match qualifiers.last().map(String::as_str) {
            Some("src") => ("dst", Expected::Destination),
            _ => ("src", Expected::Source),
        };
        self.take(|word| (word == other).then_some(()), expected)?;
        qualifiers.push(if is_and { "and" } else { "or" }.to_owned());
        qualifiers.push(other.to_owned());
        Ok(())
    }

    /// Takes an identifier after the qualifiers.
    fn identifier(&mut self, expected: Expected) -> Result<Formula, Refusal> {
        let found = self.word().and_then(|word| said(&self.qualifiers, word));
        let Some(formula) = found else {
            return self.refuse(expected);
        };
        let terms = count(&formula);
        if self.terms + terms > MOST_TERMS {
            return self.refuse(Expected::FewerTerms);
        }
        let address = self.words[self.at].1.clone();
        self.terms += terms;
        self.at += 1;
        if expected == Expected::Network && self.is_at(&["mask"]) && is_maskable(&address) {
            self.at += 1;
            let bits = self.take(mask, Expected::Mask)?;
            return Ok(with_bits(formula, bits));
        }
        Ok(formula)
    }

    fn term(&mut self) -> Result<Term, Refusal> {
        let word = match self.word() {
            Some(word) => word.to_owned(),
            None => return self.refuse(Expected::Operand),
        };
        self.at += 1;
        let number = |word: &str| number(word, u32::MAX.into());
        Ok(match word.as_str() {
            "version" => Term::Version(self.take(version, Expected::Version)?),
            "header" => Term::Header(self.take(header, Expected::Header)?),
            "leads-to" => Term::LeadsTo(self.take(protocol, Expected::Protocol)?),
            "fragment" => Term::Fragment,
            "first-fragment" => Term::FirstFragment,
            "later-fragment" => Term::LaterFragment,
            "truncated" => {
                let truncated =
                    |word: &str| layer(word).filter(|layer| *layer != Layer::Ipv4Packet);
                Term::Truncated(self.take(truncated, Expected::Operand).ok())
            }
            "incomplete" => Term::Incomplete,
            "fault" => match self.take(fault_kind, Expected::Operand) {
                Ok(kind) => {
                    let faulty = |word: &str| layer(word).filter(|layer| can_have(kind, *layer));
                    Term::Fault(Some(kind), self.take(faulty, Expected::Operand).ok())
                }
                Err(_) => Term::Fault(None, None),
            },
            "spi" => Term::Spi(self.take(number, Expected::Number)?),
            "id" => Term::Id(self.take(number, Expected::Number)?),
            "no-transport" => Term::NoTransport,
            "no-length" => Term::NoLength,
            "less" => self.wire_length("<=")?,
            "greater" => self.wire_length(">=")?,
            "vlan" => {
                let identifier = |word: &str| self::number(word, 4095);
                Term::Vlan(self.take(identifier, Expected::Operand).ok())
            }
            "arp" => Term::Arp,
            "mismatched" => Term::Mismatched,
            "option" => Term::Option(self.take(byte, Expected::Byte)?),
            "routing-type" => Term::RoutingType(self.take(byte, Expected::Byte)?),
            "segments-left" => Term::SegmentsLeft(self.comparison()?),
            "icmp6-type" => Term::Icmp6Type(self.take(icmp6_type, Expected::Icmp6Type)?),
            "icmp6-code" => Term::Icmp6Code(self.take(byte, Expected::Byte)?),
            "icmp-type" => Term::IcmpType(self.take(icmp_type, Expected::IcmpType)?),
            "icmp-code" => Term::IcmpCode(self.take(byte, Expected::Byte)?),
            "tcp-flags" => Term::TcpFlags(self.take(tcp_flags, Expected::TcpFlags)?),
            word => return self.named_term(word),
        })
    }

    /// Takes the rest of a term that begins with the name of a protocol or of a number of packets.
    fn named_term(&mut self, word: &str) -> Result<Term, Refusal> {
        if let Some(term) = protocol_term(word) {
            let multicast = if self.is_at(&["multicast"]) {
                multicast(word)
            } else {
                None
            };
            self.at += usize::from(multicast.is_some());
            return Ok(multicast.unwrap_or(term));
        }
        if accessed(word).is_some() {
            return self.access(word);
        }
        match quantity(word) {
            Some(quantity) => Ok(Term::Compared(quantity, self.comparison()?)),
            None => {
                self.at -= 1;
                self.refuse(Expected::Operand)
            }
        }
    }

    /// Takes the length on the wire that a frame's is compared with.
    fn wire_length(&mut self, sign: &str) -> Result<Term, Refusal> {
        let number = self.take(|word| number(word, u32::MAX.into()), Expected::Number)?;
        let sign = sign.to_owned();
        Ok(Term::WireLength(Comparison { sign, number }))
    }

    fn comparison(&mut self) -> Result<Comparison, Refusal> {
        let sign = self.sign(Expected::Comparison)?;
        let number = self.take(|word| number(word, u64::MAX), Expected::Count)?;
        Ok(Comparison { sign, number })
    }

    fn sign(&mut self, expected: Expected) -> Result<String, Refusal> {
        let signs = ["=", "==", "!=", "<", "<=", ">", ">="];
        self.take(
            |word| signs.contains(&word).then(|| word.to_owned()),
            expected,
        )
    }

    /// Takes the rest of an access that begins with the word.
    fn access(&mut self, word: &str) -> Result<Term, Refusal> {
        let Some((start, offset, size)) = accessed(word) else {
            return self.refuse(Expected::Operand);
        };
        let has_mask = self.is_at(&["&"]);
        self.at += usize::from(has_mask);
        let (mask, expected) = match has_mask {
            true => (self.bits()?, Expected::Comparison),
            false => (u32::MAX.into(), Expected::MaskOrComparison),
        };
        let sign = self.sign(expected)?;
        let number = self.bits()?;
        Ok(Term::Access(Access {
            start,
            offset,
            size,
            mask,
            comparison: Comparison { sign, number },
        }))
    }

    /// Takes a name or a number, or several in parentheses.
    fn bits(&mut self) -> Result<u64, Refusal> {
        if !self.is_at(&["("]) {
            return self.take(bits, Expected::Bits);
        }
        self.at += 1;
        let mut found = 0;
        loop {
            found |= self.take(bits, Expected::JoinedBits)?;
            let ends = self.is_at(&[")"]);
            if !ends && !self.is_at(&["|"]) {
                return self.refuse(Expected::JoinedBitsEnd);
            }
            self.at += 1;
            if ends {
                return Ok(found);
            }
        }
    }
}

fn is_qualifier(word: &str) -> bool {
    ["src", "dst", "host", "net", "port", "portrange", "proto"].contains(&word)
}

/// Returns the term that the name of a version or a protocol is by itself.
fn protocol_term(word: &str) -> Option<Term> {
    match word {
        "ip" => Some(Term::Version(4)),
        "ip6" => Some(Term::Version(6)),
        "icmp" => Some(Term::Icmp),
        "icmp6" => Some(Term::Icmp6),
        _ => upper_layer(word).map(Term::LeadsTo),
    }
}

/// Returns the term that `multicast` is after the name of a version.
fn multicast(word: &str) -> Option<Term> {
    let mut address = vec![0; if word == "ip" { 4 } else { 16 }];
    let (first, bits) = match word {
        "ip" => (224, 3),
        "ip6" => (255, 8),
        _ => return None,
    };
    address[0] = first;
    Some(Term::Destination(Network { address, bits }))
}

/// Returns what the words say with an identifier, if it is one for them.
fn said(qualifiers: &[String], identifier: &str) -> Option<Formula> {
    if let Some(term) = qualifiers.first().and_then(|word| protocol_term(word)) {
        let formula = said(&qualifiers[1..], identifier)?;
        return Some(Formula::And(
            Box::new(Formula::Term(term)),
            Box::new(formula),
        ));
    }
    let has = |wanted: &str| qualifiers.iter().any(|word| word == wanted);
    if qualifiers.is_empty() {
        return None;
    }
    if has("proto") {
        let number = protocol(identifier)?;
        let leads = Formula::Term(Term::LeadsTo(number));
        return Some(match [0, 43, 44, 51, 60].contains(&number) {
            true => Formula::Or(
                Box::new(Formula::Term(Term::Header(number))),
                Box::new(leads),
            ),
            false => leads,
        });
    }
    let side = |source: Term, destination: Term, either: Term| match (has("src"), has("dst")) {
        (true, true) if has("and") => Formula::And(
            Box::new(Formula::Term(source)),
            Box::new(Formula::Term(destination)),
        ),
        (true, false) => Formula::Term(source),
        (false, true) => Formula::Term(destination),
        _ => Formula::Term(either),
    };
    Some(if has("port") || has("portrange") {
        let made = || ports(identifier);
        side(
            Term::SourcePort(made()?),
            Term::DestinationPort(made()?),
            Term::Port(made()?),
        )
    } else {
        let made = || {
            if has("host") {
                host(identifier)
            } else if has("net") {
                network(identifier).or_else(|| front(identifier))
            } else {
                network(identifier)
            }
        };
        side(
            Term::Source(made()?),
            Term::Destination(made()?),
            Term::Either(made()?),
        )
    })
}

/// Returns the number of terms.
fn count(formula: &Formula) -> usize {
    match formula {
        Formula::Term(_) => 1,
        Formula::Not(formula) => count(formula),
        Formula::And(first, second) | Formula::Or(first, second) => count(first) + count(second),
    }
}

/// Returns the number that the word writes in decimal, without leading zeros, or after `0x` in hexadecimal.
pub(super) fn number(word: &str, most: u64) -> Option<u64> {
    let (digits, radix) = match word.strip_prefix("0x") {
        Some(digits) => (digits, 16),
        None if word.len() > 1 && word.starts_with('0') => return None,
        None => (word, 10),
    };
    if digits.is_empty() {
        return None;
    }
    let mut value = 0u128;
    for digit in digits.chars() {
        let digit = digit.to_digit(radix)?;
        value = value
            .saturating_mul(radix.into())
            .saturating_add(digit.into());
    }
    u64::try_from(value).ok().filter(|&value| value <= most)
}

fn byte(word: &str) -> Option<u64> {
    number(word, 255)
}

fn version(word: &str) -> Option<u64> {
    match word {
        "4" => Some(4),
        "6" => Some(6),
        _ => None,
    }
}

fn quantity(word: &str) -> Option<Quantity> {
    match word {
        "headers" => Some(Quantity::Headers),
        "chain-bytes" => Some(Quantity::ChainBytes),
        "payload" => Some(Quantity::Payload),
        "length" => Some(Quantity::Length),
        "hop-limit" | "ttl" => Some(Quantity::HopLimit),
        "dscp" => Some(Quantity::Dscp),
        "ecn" => Some(Quantity::Ecn),
        "flow" => Some(Quantity::FlowLabel),
        _ => None,
    }
}

/// Returns the ports that the word writes: one port, or the first and the last of a range.
fn ports(word: &str) -> Option<Ports> {
    let (first, last) = word.split_once('-').unwrap_or((word, word));
    let ports = Ports {
        first: number(first, 65535)?,
        last: number(last, 65535)?,
    };
    (ports.first <= ports.last).then_some(ports)
}

/// Returns the flags of TCP that the word writes, the least significant first: those that are set, and after a slash all
/// that count.
fn tcp_flags(word: &str) -> Option<TcpFlags> {
    let names = ["fin", "syn", "rst", "psh", "ack", "urg", "ece", "cwr"];
    let list = |text: &str| {
        text.split(',').try_fold(0, |flags, name| {
            let bit = names.iter().position(|it| *it == name)?;
            Some(flags | 1 << bit)
        })
    };
    let (set, mask) = word.split_once('/').unwrap_or((word, word));
    let flags = TcpFlags {
        set: list(set)?,
        mask: list(mask)?,
    };
    (flags.set & !flags.mask == 0).then_some(flags)
}

/// Returns the extension header that the word names, or whose number it is.
fn header(word: &str) -> Option<u64> {
    let is_header = |number: &u64| [0, 43, 44, 51, 60].contains(number);
    header_name(word).or_else(|| byte(word).filter(is_header))
}

fn header_name(word: &str) -> Option<u64> {
    match word {
        "hop-by-hop" | "hopopt" => Some(0),
        "routing" | "route" => Some(43),
        "fragment" | "frag" => Some(44),
        "authentication" | "ah" => Some(51),
        "destination-options" | "dstopts" => Some(60),
        _ => None,
    }
}

fn protocol(word: &str) -> Option<u64> {
    upper_layer(word)
        .or_else(|| header_name(word))
        .or_else(|| byte(word))
}

pub(super) fn upper_layer(word: &str) -> Option<u64> {
    match word {
        "icmp" => Some(1),
        "tcp" => Some(6),
        "udp" => Some(17),
        "dccp" => Some(33),
        "gre" => Some(47),
        "esp" => Some(50),
        "icmp6" => Some(58),
        "no-next" => Some(59),
        "sctp" => Some(132),
        "udp-lite" => Some(136),
        _ => None,
    }
}

/// Returns the type of ICMP by its name in libpcap's expressions, or by its number.
pub(super) fn icmp_type(word: &str) -> Option<u64> {
    match word {
        "icmp-echoreply" => Some(0),
        "icmp-unreach" => Some(3),
        "icmp-sourcequench" => Some(4),
        "icmp-redirect" => Some(5),
        "icmp-echo" => Some(8),
        "icmp-routeradvert" => Some(9),
        "icmp-routersolicit" => Some(10),
        "icmp-timxceed" => Some(11),
        "icmp-paramprob" => Some(12),
        "icmp-tstamp" => Some(13),
        "icmp-tstampreply" => Some(14),
        "icmp-ireq" => Some(15),
        "icmp-ireqreply" => Some(16),
        "icmp-maskreq" => Some(17),
        "icmp-maskreply" => Some(18),
        _ => byte(word),
    }
}

/// Returns the type of ICMPv6 by its name in libpcap's expressions, or by its number.
pub(super) fn icmp6_type(word: &str) -> Option<u64> {
    match word {
        "icmp6-destinationunreach" => Some(1),
        "icmp6-packettoobig" => Some(2),
        "icmp6-timeexceeded" => Some(3),
        "icmp6-parameterproblem" => Some(4),
        "icmp6-echo" => Some(128),
        "icmp6-echoreply" => Some(129),
        "icmp6-multicastlistenerquery" => Some(130),
        "icmp6-multicastlistenerreportv1" => Some(131),
        "icmp6-multicastlistenerdone" => Some(132),
        "icmp6-routersolicit" => Some(133),
        "icmp6-routeradvert" => Some(134),
        "icmp6-neighborsolicit" => Some(135),
        "icmp6-neighboradvert" => Some(136),
        "icmp6-redirect" => Some(137),
        "icmp6-routerrenum" => Some(138),
        "icmp6-nodeinformationquery" => Some(139),
        "icmp6-nodeinformationresponse" => Some(140),
        "icmp6-ineighbordiscoverysolicit" => Some(141),
        "icmp6-ineighbordiscoveryadvert" => Some(142),
        "icmp6-multicastlistenerreportv2" => Some(143),
        "icmp6-homeagentdiscoveryrequest" => Some(144),
        "icmp6-homeagentdiscoveryreply" => Some(145),
        "icmp6-mobileprefixsolicit" => Some(146),
        "icmp6-mobileprefixadvert" => Some(147),
        "icmp6-certpathsolicit" => Some(148),
        "icmp6-certpathadvert" => Some(149),
        "icmp6-multicastrouteradvert" => Some(151),
        "icmp6-multicastroutersolicit" => Some(152),
        "icmp6-multicastrouterterm" => Some(153),
        _ => byte(word),
    }
}

fn fault_kind(word: &str) -> Option<FaultKind> {
    match word {
        "too-short" => Some(FaultKind::TooShort),
        "not-at-start" => Some(FaultKind::NotAtStart),
        "zero-length" => Some(FaultKind::ZeroLength),
        "unsupported-version" => Some(FaultKind::UnsupportedVersion),
        "header-length" => Some(FaultKind::HeaderLength),
        _ => None,
    }
}

fn layer(word: &str) -> Option<Layer> {
    match word {
        "IP-header" => Some(Layer::IpHeader),
        "IPv4-header" => Some(Layer::Ipv4Header),
        "IPv4-packet" => Some(Layer::Ipv4Packet),
        "authentication" => Some(Layer::IpAuthHeader),
        "IPv6-header" => Some(Layer::Ipv6Header),
        "IPv6-extension" => Some(Layer::Ipv6ExtHeader),
        "hop-by-hop" => Some(Layer::Ipv6HopByHopHeader),
        "destination-options" => Some(Layer::Ipv6DestOptionsHeader),
        "routing" => Some(Layer::Ipv6RouteHeader),
        "fragment" => Some(Layer::Ipv6FragHeader),
        _ => None,
    }
}

/// Returns whether a header of the layer can be faulty in this way.
fn can_have(kind: FaultKind, layer: Layer) -> bool {
    match layer {
        Layer::IpHeader => kind == FaultKind::UnsupportedVersion,
        Layer::Ipv4Header => kind == FaultKind::HeaderLength,
        Layer::Ipv6Header => false,
        Layer::IpAuthHeader => [FaultKind::TooShort, FaultKind::ZeroLength].contains(&kind),
        Layer::Ipv6HopByHopHeader => [FaultKind::TooShort, FaultKind::NotAtStart].contains(&kind),
        Layer::Ipv6ExtHeader => {
            ![FaultKind::UnsupportedVersion, FaultKind::HeaderLength].contains(&kind)
        }
        _ => kind == FaultKind::TooShort,
    }
}

fn host(word: &str) -> Option<Network> {
    if word.contains('/') {
        return None;
    }
    network(word)
}

/// Returns the network of the IPv4 addresses that begin with one, two or three numbers.
fn front(word: &str) -> Option<Network> {
    let (numbers, bits) = match word.split_once('/') {
        Some((numbers, bits)) => (numbers, Some(bits)),
        None => (word, None),
    };
    let mut address = Vec::new();
    for part in numbers.split('.') {
        address.push(byte(part)? as u8);
    }
    if address.len() > 3 {
        return None;
    }
    let bits = match bits {
        Some(bits) => number(bits, 32)? as usize,
        None => 8 * address.len(),
    };
    address.resize(4, 0);
    Some(Network { address, bits })
}

/// Returns whether the word is an IPv4 address or the front of one, which a mask may follow.
fn is_maskable(word: &str) -> bool {
    let ipv4 = |network: Network| network.address.len() == 4;
    !word.contains('/') && network(word).or_else(|| front(word)).is_some_and(ipv4)
}

/// Returns the number of ones of a mask that has no zero before a one.
fn mask(word: &str) -> Option<usize> {
    if !is_maskable(word) {
        return None;
    }
    let address = network(word).or_else(|| front(word))?.address;
    let bits: String = address.iter().map(|byte| format!("{byte:08b}")).collect();
    let ones = bits.trim_end_matches('0');
    (!ones.contains('0')).then_some(ones.len())
}

/// Returns the formula with this number of bits of each network.
fn with_bits(formula: Formula, bits: usize) -> Formula {
    let with = |network: Network| Network { bits, ..network };
    match formula {
        Formula::Term(Term::Source(network)) => Formula::Term(Term::Source(with(network))),
        Formula::Term(Term::Destination(network)) => {
            Formula::Term(Term::Destination(with(network)))
        }
        Formula::Term(Term::Either(network)) => Formula::Term(Term::Either(with(network))),
        Formula::And(first, second) => Formula::And(
            Box::new(with_bits(*first, bits)),
            Box::new(with_bits(*second, bits)),
        ),
        other => other,
    }
}

fn network(word: &str) -> Option<Network> {
    let (address, bits) = match word.split_once('/') {
        Some((address, bits)) => (address, Some(bits)),
        None => (word, None),
    };
    let address = match address.parse().ok()? {
        IpAddr::V4(address) => address.octets().to_vec(),
        IpAddr::V6(address) => address.octets().to_vec(),
    };
    let all = 8 * address.len();
    let bits = match bits {
        Some(bits) => number(bits, all as u64)? as usize,
        None => all,
    };
    Some(Network { address, bits })
}
