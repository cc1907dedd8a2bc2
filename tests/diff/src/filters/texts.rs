//! Makes texts of filters, most of them valid, with terms that hold of a packet about as often as not.
use crate::random::Random;
use std::net::{Ipv4Addr, Ipv6Addr};

/// Makes a text for a packet. Every fifth is damaged.
pub fn text(packet: &[u8], random: &mut Random) -> Vec<u8> {
    let mut words = Vec::new();
    match random.below(40) {
        0 => nested(packet, random, &mut words),
        1 => long(packet, random, &mut words),
        _ => disjunction(packet, random, 3, &mut words),
    }
    if random.percent(10) {
        spoil_words(&mut words, random);
    }
    let mut text = spaced(&words, random);
    if random.percent(10) {
        spoil_bytes(&mut text, random);
    }
    text
}

/// The names of protocols.
const NAMES: [&str; 10] = [
    "icmp", "tcp", "udp", "dccp", "gre", "esp", "icmp6", "no-next", "sctp", "udp-lite",
];

fn word(words: &mut Vec<String>, text: impl Into<String>) {
    words.push(text.into());
}

fn one_of(choices: &[&str], random: &mut Random) -> String {
    choices[random.below(choices.len())].to_owned()
}

/// Appends about as many levels of parentheses as are allowed.
fn nested(packet: &[u8], random: &mut Random, words: &mut Vec<String>) {
    let levels = 14 + random.below(5);
    for _ in 0..levels {
        if random.percent(20) {
            word(words, one_of(&["not", "!"], random));
        }
        word(words, "(");
    }
    disjunction(packet, random, 0, words);
    for _ in 0..levels {
        word(words, ")");
    }
}

/// Appends about as many terms as are allowed.
fn long(packet: &[u8], random: &mut Random, words: &mut Vec<String>) {
    for _ in 0..62 + random.below(4) {
        term(packet, random, words);
        word(words, one_of(&["and", "or", "&&", "||"], random));
    }
    term(packet, random, words);
}

/// The layers of headers that may be truncated or faulty.
const LAYERS: [&str; 11] = [
    "IP-header",
    "IPv4-header",
    "IPv4-packet",
    "authentication",
    "IPv6-header",
    "IPv6-packet",
    "IPv6-extension",
    "hop-by-hop",
    "destination-options",
    "routing",
    "fragment",
];

fn disjunction(packet: &[u8], random: &mut Random, depth: usize, words: &mut Vec<String>) {
    conjunction(packet, random, depth, words);
    while random.percent(30) {
        word(words, one_of(&["or", "||"], random));
        conjunction(packet, random, depth, words);
    }
}

fn conjunction(packet: &[u8], random: &mut Random, depth: usize, words: &mut Vec<String>) {
    operand(packet, random, depth, words);
    while random.percent(30) {
        word(words, one_of(&["and", "&&"], random));
        operand(packet, random, depth, words);
    }
}

fn operand(packet: &[u8], random: &mut Random, depth: usize, words: &mut Vec<String>) {
    while random.percent(25) {
        word(words, one_of(&["not", "!"], random));
    }
    if depth > 0 && random.percent(30) {
        word(words, "(");
        disjunction(packet, random, depth - 1, words);
        word(words, ")");
    } else {
        term(packet, random, words);
    }
}

fn term(packet: &[u8], random: &mut Random, words: &mut Vec<String>) {
    let plain = [
        "fragment",
        "first-fragment",
        "later-fragment",
        "truncated",
        "incomplete",
        "fault",
        "no-transport",
        "no-length",
        "ip",
        "ip6",
        "arp",
        "mismatched",
        "vlan",
    ];
    match random.below(20) {
        0..4 => {
            let plain = one_of(&plain, random);
            let has_layer = plain == "truncated" && random.percent(50);
            word(words, plain);
            if has_layer {
                word(words, one_of(&LAYERS, random));
            }
        }
        4 => {
            word(words, "fault");
            let kinds = [
                "too-short",
                "not-at-start",
                "zero-length",
                "unsupported-version",
                "header-length",
            ];
            word(words, one_of(&kinds, random));
            if random.percent(50) {
                word(words, one_of(&LAYERS, random));
            }
        }
        5 => {
            word(words, "version");
            word(words, one_of(&["4", "6"], random));
        }
        6 => {
            word(words, "header");
            let numbers = [
                "hop-by-hop",
                "routing",
                "fragment",
                "authentication",
                "destination-options",
                "hopopt",
                "route",
                "frag",
                "ah",
                "dstopts",
                "0",
                "43",
                "44",
                "51",
                "60",
                "50",
                "135",
                "0x2c",
                "0X2C",
                "044",
            ];
            word(words, one_of(&numbers, random));
        }
        7 if random.percent(50) => {
            protocol_before(random, words);
            word(words, "proto");
            word(words, protocol(random));
            alone(random, words, protocol);
        }
        7 if random.percent(20) => {
            word(words, one_of(&["less", "greater", "vlan"], random));
            word(words, count(random));
        }
        7 => {
            word(words, "leads-to");
            word(words, protocol(random));
        }
        8 => {
            word(words, one_of(&["spi", "id"], random));
            word(words, field(packet, random));
        }
        9..11 => {
            protocol_before(random, words);
            let side = one_of(&["src", "dst", "net"], random);
            let is_side = side != "net";
            word(words, side.clone());
            if is_side {
                other_side(&side, random, words);
            }
            if is_side && random.percent(30) {
                word(words, one_of(&["net", "host"], random));
            }
            let is_network = words.last().is_some_and(|word| word == "net");
            if random.percent(if is_network { 30 } else { 3 }) {
                masked(packet, random, words);
            } else {
                word(words, network(packet, random));
            }
            alone(random, words, |random| network(packet, random));
        }
        11..14 => {
            let names = ["headers", "chain-bytes", "payload"];
            word(words, one_of(&names, random));
            word(words, comparison(random));
            word(words, count(random));
        }
        14 if random.percent(30) => {
            word(words, one_of(&["ip", "ip6", "tcp"], random));
            word(words, "multicast");
        }
        14 if random.percent(60) => access(packet, random, words),
        14 => word(words, one_of(&NAMES, random)),
        15 => base_field(packet, random, words),
        16..18 => {
            protocol_before(random, words);
            let side = one_of(&["src", "dst", ""], random);
            if !side.is_empty() {
                word(words, side.clone());
                other_side(&side, random, words);
            }
            word(words, one_of(&["port", "port", "portrange"], random));
            word(words, ports(packet, random));
            alone(random, words, |random| ports(packet, random));
        }
        18 if random.percent(30) => {
            word(words, "option");
            let at = 2 + random.below(6);
            word(words, field_of_header(packet, random, at));
        }
        18 if random.percent(30) => {
            word(words, "routing-type");
            word(words, field_of_header(packet, random, 2));
        }
        18 if random.percent(30) => {
            word(words, "segments-left");
            word(words, comparison(random));
            word(words, field_of_header(packet, random, 3));
        }
        18 if random.percent(50) => {
            word(words, "tcp-flags");
            word(words, tcp_flags(packet, random));
        }
        18 => {
            word(
                words,
                one_of(
                    &["icmp-type", "icmp-code", "icmp6-type", "icmp6-code"],
                    random,
                ),
            );
            let types = [
                "icmp-echo",
                "icmp-unreach",
                "icmp6-echo",
                "icmp6-neighboradvert",
            ];
            let is_named = random.percent(20);
            word(
                words,
                if is_named {
                    one_of(&types, random)
                } else {
                    byte(packet, random)
                },
            );
        }
        _ => {
            word(words, "host");
            let network = network(packet, random);
            let address = network.split('/').next().unwrap_or_default().to_owned();
            word(words, if random.percent(90) { address } else { network });
        }
    }
}

/// Appends an operator and mostly the other one of `src` and `dst`, or nothing.
fn other_side(side: &str, random: &mut Random, words: &mut Vec<String>) {
    if random.percent(80) {
        return;
    }
    word(words, one_of(&["and", "or", "&&", "||"], random));
    let other = if side == "src" { "dst" } else { "src" };
    word(words, if random.percent(90) { other } else { side });
}

/// Appends the name of a version or a protocol, which the packet has to have, too.
fn protocol_before(random: &mut Random, words: &mut Vec<String>) {
    match random.below(8) {
        0 => word(words, one_of(&["ip", "ip6"], random)),
        1 => word(words, one_of(&NAMES, random)),
        2 => word(words, one_of(&["tcp", "udp", "sctp"], random)),
        _ => {}
    }
}

/// Appends identifiers that take the qualifiers before them.
fn alone(random: &mut Random, words: &mut Vec<String>, made: impl Fn(&mut Random) -> String) {
    while random.percent(20) {
        word(words, one_of(&["and", "or", "&&", "||"], random));
        if random.percent(20) {
            word(words, "not");
        }
        word(words, made(random));
    }
}

fn comparison(random: &mut Random) -> String {
    one_of(&["=", "==", "!=", "<", "<=", ">", ">="], random)
}

/// Appends an access, perhaps with a mask, and a value that the packet may have.
fn access(packet: &[u8], random: &mut Random, words: &mut Vec<String>) {
    let is_ipv6 = packet.first().is_some_and(|byte| byte >> 4 == 6);
    let name = match random.below(4) {
        0 => one_of(&["ip", "ip6"], random),
        1 => one_of(&[if is_ipv6 { "ip6" } else { "ip" }], random),
        2 => one_of(&["tcp", "udp", "icmp", "icmp6"], random),
        _ => one_of(&NAMES, random),
    };
    let offset = match random.below(8) {
        0 => one_of(
            &["tcpflags", "icmptype", "icmp6code", "4294967295", ""],
            random,
        ),
        1 => random.below(100).to_string(),
        _ => random.below(24).to_string(),
    };
    let size = one_of(&["", "", ":1", ":2", ":4", ":2", ":4", ":3"], random);
    word(words, format!("{name}[{offset}{size}]"));
    if random.percent(40) {
        word(words, "&");
        bits(packet, random, words);
    }
    word(words, comparison(random));
    if random.percent(50) {
        word(words, number_at(packet, &offset, &size));
    } else {
        bits(packet, random, words);
    }
}

/// Returns the number that an access of this offset and size reads in the packet, or that of the bytes which are there.
fn number_at(packet: &[u8], offset: &str, size: &str) -> String {
    let offset = offset.parse().unwrap_or(0);
    let size = size.trim_start_matches(':').parse().unwrap_or(1);
    let bytes = packet.iter().skip(offset).take(size);
    let number = bytes.fold(0u32, |number, byte| number << 8 | u32::from(*byte));
    number.to_string()
}

/// Appends bits of an access: bytes of the packet, a name or any number, or several in parentheses.
fn bits(packet: &[u8], random: &mut Random, words: &mut Vec<String>) {
    let names = [
        "tcp-syn",
        "tcp-ack",
        "tcp-push",
        "tcp-psh",
        "icmp-echo",
        "icmp6-echo",
    ];
    let one = |random: &mut Random| match random.below(4) {
        0 => one_of(&names, random),
        1 => format!("0x{:x}", random.next() as u32),
        2 => byte(packet, random),
        _ => field(packet, random),
    };
    if random.percent(70) {
        return word(words, one(random));
    }
    word(words, "(");
    word(words, one(random));
    while random.percent(40) {
        word(words, "|");
        word(words, one(random));
    }
    word(words, ")");
}

/// Makes the name or number of a protocol or extension header.
fn protocol(random: &mut Random) -> String {
    match random.below(10) {
        0..2 => one_of(&["frag", "ah", "route", "dstopts"], random),
        2..7 => one_of(&NAMES, random),
        _ => random.below(300).to_string(),
    }
}

/// Appends a comparison of a field of the base header, with a value that the packet may have.
fn base_field(packet: &[u8], random: &mut Random, words: &mut Vec<String>) {
    let at = |index: usize| packet.get(index).map_or(0, |byte| u64::from(*byte));
    let class = match packet.first() {
        Some(first) if first >> 4 == 4 => at(1),
        _ => at(0) << 4 & 0xff | at(1) >> 4,
    };
    let fields = [
        ("length", packet.len() as u64),
        ("length", at(2) << 8 | at(3)),
        ("hop-limit", at(7)),
        ("ttl", at(8)),
        ("dscp", class >> 2),
        ("ecn", class & 3),
        ("flow", (at(1) << 16 | at(2) << 8 | at(3)) & 0xf_ffff),
    ];
    let (name, value) = fields[random.below(fields.len())];
    word(words, name);
    word(words, comparison(random));
    word(
        words,
        if random.percent(60) {
            value.to_string()
        } else {
            count(random)
        },
    );
}

/// Returns the offset of the payload of a packet without extension headers, or a later offset that a payload may have.
fn place(packet: &[u8], random: &mut Random) -> usize {
    let len = match packet.first() {
        Some(first) if first >> 4 == 4 => 4 * usize::from(first & 15),
        _ => 40,
    };
    if random.percent(50) {
        len
    } else {
        len + 4 * random.below(10)
    }
}

/// Makes a byte of the packet near its payload, or any number of about 8 bits.
fn byte(packet: &[u8], random: &mut Random) -> String {
    let at = place(packet, random) + random.below(2);
    match packet.get(at) {
        Some(byte) if random.percent(80) => byte.to_string(),
        _ => random.below(260).to_string(),
    }
}

/// Makes a byte of the packet that may be this byte of an extension header, or any number of about 8 bits.
fn field_of_header(packet: &[u8], random: &mut Random, byte: usize) -> String {
    let most = if random.percent(50) { 5 } else { 260 };
    match packet.get(40 + 8 * random.below(4) + byte) {
        Some(byte) if random.percent(70) => byte.to_string(),
        _ => random.below(most).to_string(),
    }
}

/// Makes flags of TCP: those of a byte of the packet near its payload, some of them, or others, and after a slash more.
fn tcp_flags(packet: &[u8], random: &mut Random) -> String {
    let names = [
        "fin", "syn", "rst", "psh", "ack", "urg", "ece", "cwr", "sin",
    ];
    let at = place(packet, random) + 13;
    let mut bits = packet.get(at).map_or(0, |byte| usize::from(*byte));
    let list = |bits: usize| {
        let named: Vec<&str> = (0..9)
            .filter(|bit| bits >> bit & 1 == 1)
            .map(|bit| names[bit])
            .collect();
        named.join(",")
    };
    match random.below(10) {
        0..3 => list(bits & random.next() as usize),
        3..6 => list(1 << random.below(8)),
        6 => list(random.below(512)),
        _ => {
            let mask = random.next() as usize & 0xff;
            bits = if random.percent(80) {
                bits & mask
            } else {
                bits
            };
            format!("{}/{}", list(bits), list(mask))
        }
    }
}

/// Makes ports: two bytes of the packet near its payload, or a range that may be empty or too large.
fn ports(packet: &[u8], random: &mut Random) -> String {
    let at = place(packet, random) + 2 * random.below(2);
    let port = match packet.get(at..at + 2) {
        Some(bytes) => u16::from_be_bytes([bytes[0], bytes[1]]),
        None => random.next() as u16,
    };
    let other = random.next() as u16;
    match random.below(10) {
        0..4 => port.to_string(),
        4 => format!("0-{port}"),
        5 => format!("{port}-65535"),
        6 => format!("{}-0x{:x}", port.min(other), port.max(other)),
        7 => "0-65535".to_owned(),
        8 => format!("{port}-{other}"),
        _ => one_of(&["65536", "1-", "-1", "1-2-3", "0-65536", "0x"], random),
    }
}

fn count(random: &mut Random) -> String {
    match random.below(12) {
        0 => u64::MAX.to_string(),
        1 => "18446744073709551616".to_owned(),
        2 => format!("0x{:x}", random.below(100)),
        3..8 => random.below(4).to_string(),
        _ => random.below(200).to_string(),
    }
}

/// Makes a number of 32 bits: four bytes of the packet, two of them, or any.
fn field(packet: &[u8], random: &mut Random) -> String {
    let at = [4, 44, 24, 20 + 4 * random.below(20)][random.below(4)];
    match (packet.get(at..at + 4), random.below(6)) {
        (Some(bytes), 0..3) => {
            u32::from_be_bytes([bytes[0], bytes[1], bytes[2], bytes[3]]).to_string()
        }
        (Some(bytes), 3) => u16::from_be_bytes([bytes[0], bytes[1]]).to_string(),
        (_, 4) => (u64::from(u32::MAX) + random.below(2) as u64).to_string(),
        _ => format!("0x{:X}", random.next() as u32),
    }
}

/// Makes a network: an address of the packet, with some bits changed, and a length that may be too large.
fn network(packet: &[u8], random: &mut Random) -> String {
    let is_ipv4 = packet.first().is_some_and(|first| first >> 4 == 4) != random.percent(10);
    let (at, len) = if is_ipv4 {
        (12 + 4 * random.below(2), 4)
    } else {
        (8 + 16 * random.below(2), 16)
    };
    let mut bytes = packet
        .get(at..at + len)
        .map_or_else(|| random.bytes(len), <[u8]>::to_vec);
    if random.percent(40) {
        let bit = random.below(8 * len);
        bytes[bit / 8] ^= 0x80 >> (bit % 8);
    }
    let address = match bytes[..] {
        [a, b, c, d] => Ipv4Addr::new(a, b, c, d).to_string(),
        _ => bytes.try_into().map_or(String::new(), |bytes: [u8; 16]| {
            Ipv6Addr::from(bytes).to_string()
        }),
    };
    match random.below(11) {
        0..2 => address,
        2 => format!("{address}/"),
        10 => {
            let parts: Vec<&str> = address.split('.').collect();
            let front = parts[..parts.len().min(1 + random.below(4))].join(".");
            let bits = ["", "/8", "/16", "/33", "/"][random.below(5)];
            format!("{front}{bits}")
        }
        3 => format!("{address}/0"),
        _ => format!("{address}/{}", random.below(8 * len + 2)),
    }
}

/// Appends an address, rarely a network, and a mask, which may have zeros before its ones.
fn masked(packet: &[u8], random: &mut Random, words: &mut Vec<String>) {
    let network = network(packet, random);
    let address = network.split('/').next().unwrap_or_default().to_owned();
    word(words, if random.percent(90) { address } else { network });
    word(words, "mask");
    let mut bits = u32::MAX.checked_shl(random.below(33) as u32).unwrap_or(0);
    if random.percent(20) {
        bits ^= 1 << random.below(32);
    }
    word(words, Ipv4Addr::from(bits).to_string());
}

/// Joins words. A sign may touch its neighbours.
fn spaced(words: &[String], random: &mut Random) -> Vec<u8> {
    let mut text = Vec::new();
    let is_sign = |byte: Option<&u8>| byte.is_some_and(|byte| b"!&()<=>|".contains(byte));
    for word in words {
        let may_touch = is_sign(text.last()) || is_sign(word.as_bytes().first());
        if !may_touch || random.percent(60) {
            text.push(b' ');
            while random.percent(10) {
                text.push(b" \t\n\r"[random.below(4)]);
            }
        }
        text.extend(word.as_bytes());
    }
    while random.percent(10) {
        text.push(b' ');
    }
    text
}

/// Removes, repeats, swaps or replaces a word.
fn spoil_words(words: &mut Vec<String>, random: &mut Random) {
    let at = random.below(words.len());
    match random.below(5) {
        0 => drop(words.remove(at)),
        1 => words.insert(at, words[at].clone()),
        2 => words.swap(at, 0),
        3 => words.truncate(at),
        _ => {
            let others = [
                "(",
                ")",
                "not",
                "and",
                "or",
                "fault",
                "4",
                "=",
                "too-short",
                "headers",
                "fragments",
                "port",
                "host",
                "tcp",
                "src",
                "proto",
                "&",
                "|||",
            ];
            words[at] = one_of(&others, random);
        }
    }
}

/// Changes, removes or inserts a byte.
fn spoil_bytes(text: &mut Vec<u8>, random: &mut Random) {
    if text.is_empty() {
        return;
    }
    let at = random.below(text.len());
    match random.below(3) {
        0 => text[at] = random.next() as u8,
        1 => drop(text.remove(at)),
        _ => text.insert(at, b"()!&|=<> x0/"[random.below(12)]),
    }
}
