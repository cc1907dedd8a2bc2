//! Makes the inputs: packets like real traffic, regular chains, and bytes that are rejected. The original gets the
//! same headers with the bits of fragment headers in its own layout, converted when the inputs are made.
use crate::fragment_bits::{self, to_the_original};
use crate::random::Random;

pub const HOP_BY_HOP: u8 = 0;
pub const ROUTE: u8 = 43;
pub const FRAGMENT: u8 = 44;
pub const AUTH: u8 = 51;
pub const DEST_OPTIONS: u8 = 60;
const UDP: u8 = 17;

/// The header numbers of the six places, in order.
const PLACES: [u8; 6] = [
    HOP_BY_HOP,
    DEST_OPTIONS,
    ROUTE,
    FRAGMENT,
    AUTH,
    DEST_OPTIONS,
];

/// A chain of headers with its start number, followed by some bytes, for both sides.
#[derive(Clone)]
pub struct Chain {
    pub start: u8,
    pub ours: Vec<u8>,
    pub original: Vec<u8>,
}

impl Chain {
    pub fn new(start: u8, ours: Vec<u8>) -> Chain {
        let original = fragment_bits::chain(start, &ours, to_the_original);
        Chain {
            start,
            ours,
            original,
        }
    }
}

/// The same packets for both sides.
#[derive(Clone, Copy)]
pub struct Sides {
    pub ours: &'static Packets,
    pub original: &'static Packets,
}

impl Sides {
    /// The packets, which live until the program ends.
    pub fn new(packets: Packets) -> Sides {
        let original = packets.for_the_original();
        Sides::pair(packets, original)
    }

    /// Different packets for each side.
    pub fn pair(ours: Packets, original: Packets) -> Sides {
        Sides {
            ours: Box::leak(Box::new(ours)),
            original: Box::leak(Box::new(original)),
        }
    }
}

/// Packets, one after another.
#[derive(Default)]
pub struct Packets {
    pub bytes: Vec<u8>,
    pub ends: Vec<usize>,
    /// The length of each packet's chain in bytes.
    chain_lens: Vec<usize>,
}

impl Packets {
    fn push(&mut self, packet: &[u8], chain_len: usize) {
        self.bytes.extend(packet);
        self.ends.push(self.bytes.len());
        self.chain_lens.push(chain_len);
    }

    pub fn each(&self) -> Vec<&[u8]> {
        let starts = std::iter::once(0).chain(self.ends.iter().copied());
        starts
            .zip(&self.ends)
            .map(|(start, end)| &self.bytes[start..*end])
            .collect()
    }

    /// Changes each packet. The function gets the packet and the length of its base header and of its chain.
    fn changed(&self, mut change: impl FnMut(&[u8], usize, usize) -> Vec<u8>) -> Packets {
        let mut changed = Packets::default();
        for (packet, chain_len) in self.each().into_iter().zip(&self.chain_lens) {
            changed.push(&change(packet, base_len(packet), *chain_len), *chain_len);
        }
        changed
    }

    /// Returns the packets that pass the test.
    #[allow(dead_code)] // Only border/ leaves packets out.
    pub fn kept(&self, test: impl Fn(&[u8]) -> bool) -> Packets {
        let mut kept = Packets::default();
        for (packet, chain_len) in self.each().into_iter().zip(&self.chain_lens) {
            if test(packet) {
                kept.push(packet, *chain_len);
            }
        }
        kept
    }

    /// Converts the packets to the layout of the original.
    fn for_the_original(&self) -> Packets {
        self.changed(|packet, _, _| fragment_bits::packet(packet, to_the_original))
    }

    /// Sets all fragment offsets to 0.
    fn without_later_fragments(&self) -> Packets {
        self.changed(|packet, _, _| {
            let mut packet = fragment_bits::first_fragments(packet);
            if packet[0] >> 4 == 4 {
                (packet[6], packet[7]) = (packet[6] & 0b1110_0000, 0);
            }
            packet
        })
    }

    /// Sets all fragment offsets to 0, and leaves out packets without extension headers.
    fn first_with_headers(&self) -> Packets {
        let first = self.without_later_fragments();
        let mut kept = Packets::default();
        for (packet, chain_len) in first.each().into_iter().zip(&first.chain_lens) {
            if *chain_len > 0 {
                kept.push(packet, *chain_len);
            }
        }
        kept
    }

    /// Truncates each packet within its chain.
    fn truncated(&self, random: &mut Random) -> Packets {
        self.changed(|packet, base_len, chain_len| {
            packet[..base_len + random.below(chain_len)].to_vec()
        })
    }

    /// Lets each packet state a length that ends within its chain.
    fn ending_early(&self, random: &mut Random) -> Packets {
        self.changed(|packet, base_len, chain_len| {
            let mut packet = packet.to_vec();
            // Of IPv6 packets, a payload length of 0 states no length.
            let rest = 1 + random.below(chain_len - 1);
            let (at, len) = match packet[0] >> 4 {
                4 => (2, base_len + rest),
                _ => (4, rest),
            };
            packet[at..at + 2].copy_from_slice(&(len as u16).to_be_bytes());
            packet
        })
    }
}

/// Returns the length of a packet's base header.
fn base_len(packet: &[u8]) -> usize {
    match packet[0] >> 4 {
        4 => 4 * usize::from(packet[0] & 0b1111),
        _ => 40,
    }
}

/// Makes valid IPv6 packets with 0 to 4 extension headers in the order of RFC 8200, section 4.1. Fewer headers are
/// more frequent. Payloads have some hundred bytes.
pub fn packets(count: usize, seed: u64) -> Packets {
    packets_to(payload_number, count, seed)
}

/// Makes IPv6 packets as `packets` does, whose chains lead to numbers that the function chooses.
fn packets_to(payload_number: fn(&mut Random) -> u8, count: usize, seed: u64) -> Packets {
    let mut random = Random::new(seed);
    let mut packets = Packets::default();
    for _ in 0..count {
        let numbers = numbers(&mut random);
        let payload = payload_number(&mut random);
        let chain = chain_of(&numbers, payload, &mut random);
        let rest = payload_len(&mut random);
        let mut packet = vec![0x60, 0, 0, 0];
        packet.extend(((chain.len() + rest) as u16).to_be_bytes());
        packet.extend([*numbers.first().unwrap_or(&payload), 64]);
        packet.extend(random.bytes(32));
        packet.extend(&chain);
        packet.extend(random.bytes(rest));
        packets.push(&packet, chain.len());
    }
    packets
}

/// Chooses the headers of a packet: a subset of the six places, in order.
fn numbers(random: &mut Random) -> Vec<u8> {
    let count = match random.below(100) {
        0..40 => 0,
        40..70 => 1,
        70..85 => 2,
        85..95 => 3,
        _ => 4,
    };
    let mut chosen = [false; 6];
    while chosen.iter().filter(|chosen| **chosen).count() < count {
        // Authentication headers and final destination options are rarer than the others.
        let place = random.below(6);
        chosen[place] |= place < 4 || random.percent(50);
    }
    PLACES
        .iter()
        .zip(chosen)
        .filter(|(_, chosen)| *chosen)
        .map(|(number, _)| *number)
        .collect()
}

fn payload_number(random: &mut Random) -> u8 {
    match random.below(100) {
        0..40 => 6,
        40..80 => UDP,
        _ => 58,
    }
}

fn payload_len(random: &mut Random) -> usize {
    match random.below(100) {
        0..55 => 20 + random.below(80),
        55..80 => 400 + random.below(200),
        _ => 1200 + random.below(200),
    }
}

/// Makes linked headers with these numbers, with realistic lengths.
pub fn chain_of(numbers: &[u8], last: u8, random: &mut Random) -> Vec<u8> {
    let mut bytes = Vec::new();
    for (index, number) in numbers.iter().enumerate() {
        let next = *numbers.get(index + 1).unwrap_or(&last);
        let (len, field) = match *number {
            FRAGMENT => (8, 0),
            AUTH if random.percent(67) => (24, 4),
            AUTH => (28, 5),
            HOP_BY_HOP if random.percent(75) => (8, 0),
            HOP_BY_HOP => (16, 1),
            ROUTE => [(24, 2), (24, 2), (40, 4), (56, 6), (72, 8)][random.below(5)],
            _ => [(8, 0), (8, 0), (16, 1), (24, 2)][random.below(4)],
        };
        bytes.extend([next, field]);
        bytes.extend(random.bytes(len - 2));
    }
    bytes
}

/// Makes a regular chain of `count` headers, followed by 16 bytes: destination options, routing and fragment
/// headers in turn.
pub fn regular(count: usize) -> Chain {
    let mut random = Random::new(7);
    let numbers: Vec<u8> = (0..count)
        .map(|i| [DEST_OPTIONS, ROUTE, FRAGMENT][i % 3])
        .collect();
    let mut bytes = Vec::new();
    for (index, number) in numbers.iter().enumerate() {
        let next = *numbers.get(index + 1).unwrap_or(&UDP);
        let units = if *number == FRAGMENT {
            0
        } else {
            (index / 3 % 2) as u8
        };
        bytes.extend([next, units]);
        bytes.extend(random.bytes(8 * (usize::from(units) + 1) - 2));
    }
    bytes.extend(random.bytes(16));
    Chain::new(*numbers.first().unwrap_or(&UDP), bytes)
}

/// Makes a chain that fills all six places, followed by 16 bytes. Headers in the uniform format (RFC 6564) have
/// `len` bytes, the authentication header half of that plus 8.
pub fn full(len: usize) -> Chain {
    let mut random = Random::new(13);
    let mut bytes = Vec::new();
    for (index, number) in PLACES.iter().enumerate() {
        let next = *PLACES.get(index + 1).unwrap_or(&UDP);
        let (len, field) = match *number {
            FRAGMENT => (8, 0),
            AUTH => (len / 2 + 8, len / 8),
            _ => (len, len / 8 - 1),
        };
        bytes.extend([next, field as u8]);
        bytes.extend(random.bytes(len - 2));
    }
    bytes.extend(random.bytes(16));
    Chain::new(HOP_BY_HOP, bytes)
}

/// Makes `count` fragment headers, followed by UDP.
pub fn fragments(count: usize) -> Chain {
    let mut random = Random::new(17);
    let mut bytes = Vec::new();
    for index in 0..count {
        bytes.push(if index + 1 == count { UDP } else { FRAGMENT });
        bytes.extend(random.bytes(7));
    }
    Chain::new(FRAGMENT, bytes)
}

/// Bytes that are rejected: the reason, the number of the faulty header, and its bytes. None contains a complete
/// fragment header.
pub fn refusals() -> Vec<(&'static str, u8, Vec<u8>)> {
    vec![
        ("options of 7 bytes", DEST_OPTIONS, vec![UDP; 7]),
        ("options that end early", DEST_OPTIONS, long(UDP, 3, 31)),
        ("routing header that ends early", ROUTE, long(UDP, 3, 31)),
        ("fragment header of 7 bytes", FRAGMENT, vec![UDP; 7]),
        ("authentication header of 11 bytes", AUTH, vec![UDP; 11]),
        ("authentication header of length 0", AUTH, long(UDP, 0, 16)),
        (
            "authentication header that ends early",
            AUTH,
            long(UDP, 4, 23),
        ),
        ("late hop by hop options", HOP_BY_HOP, vec![UDP; 8]),
    ]
}

/// Makes the start of a header: the next header field, the length field, then zeros.
fn long(next: u8, field: u8, len: usize) -> Vec<u8> {
    let mut bytes = vec![next, field];
    bytes.resize(len, 0);
    bytes
}

/// Makes four headers, the last of which names `number`, followed by these bytes.
pub fn after_four(number: u8, bytes: &[u8]) -> Chain {
    let mut random = Random::new(9);
    let mut all = chain_of(
        &[HOP_BY_HOP, DEST_OPTIONS, ROUTE, FRAGMENT],
        number,
        &mut random,
    );
    all.extend(bytes);
    Chain::new(HOP_BY_HOP, all)
}

/// Makes a single header of this length, followed by 16 bytes.
pub fn single(number: u8, len: usize) -> Chain {
    // With this seed, the digest of a fragment header differs between the two layouts of its byte 3.
    let mut random = Random::new(19);
    let field = if number == AUTH {
        len / 4 - 2
    } else {
        len / 8 - 1
    };
    let mut bytes = vec![UDP, field as u8];
    bytes.extend(random.bytes(len + 14));
    Chain::new(number, bytes)
}

/// Makes a truncated header of 7 bytes with this number.
pub fn truncated(number: u8) -> Chain {
    Chain::new(number, vec![UDP; 7])
}

/// Makes valid IPv4 packets: some with options, some with an authentication header, some that are fragments.
/// Payloads have some hundred bytes.
pub fn ipv4_packets(count: usize, seed: u64) -> Packets {
    let mut random = Random::new(seed);
    let mut packets = Packets::default();
    for _ in 0..count {
        let payload = payload_number(&mut random);
        let numbers: &[u8] = if random.percent(20) { &[AUTH] } else { &[] };
        let chain = chain_of(numbers, payload, &mut random);
        let words = if random.percent(90) {
            5
        } else {
            6 + random.below(10)
        };
        let fragment: u16 = match random.below(100) {
            0..60 => 0x4000,
            60..90 => 0,
            _ => 0x2000 | random.below(0x100) as u16,
        };
        let rest = payload_len(&mut random);
        let mut packet = vec![0x40 | words as u8, 0];
        packet.extend(((4 * words + chain.len() + rest) as u16).to_be_bytes());
        packet.extend(random.bytes(2));
        packet.extend(fragment.to_be_bytes());
        packet.extend([64, *numbers.first().unwrap_or(&payload)]);
        packet.extend(random.bytes(4 * words - 10));
        packet.extend(&chain);
        packet.extend(random.bytes(rest));
        packets.push(&packet, chain.len());
    }
    packets
}

/// Interleaves the packets of both, half of each.
pub fn alternating(one: &Packets, other: &Packets) -> Packets {
    let mut packets = Packets::default();
    let each = one.each().into_iter().zip(other.each());
    for (index, (one_packet, other_packet)) in each.enumerate() {
        if index % 2 == 0 {
            packets.push(one_packet, one.chain_lens[index]);
        } else {
            packets.push(other_packet, other.chain_lens[index]);
        }
    }
    packets
}

/// Makes whole packets without later fragments, in which a dissection goes as far as a parse.
pub fn first_fragments(count: usize, seed: u64) -> [(&'static str, Packets); 3] {
    let ipv6 = packets(count, seed).without_later_fragments();
    let ipv4 = ipv4_packets(count, seed).without_later_fragments();
    let both = alternating(&ipv4, &ipv6);
    [
        ("IPv6", ipv6),
        ("IPv4", ipv4),
        ("either version in turn", both),
    ]
}

/// Packets with an error in or after their extension headers, and the same packets without it.
pub struct Broken {
    pub what: &'static str,
    pub packets: Packets,
    pub whole: Packets,
}

/// Makes packets that have an error and no later fragments.
pub fn broken(count: usize, seed: u64) -> [Broken; 5] {
    let to_late_options = |random: &mut Random| {
        payload_number(random);
        HOP_BY_HOP
    };
    let ipv6 = |to: fn(&mut Random) -> u8| packets_to(to, count, seed).first_with_headers();
    let ipv4 = || ipv4_packets(count, seed).first_with_headers();
    let (whole_ipv6, whole_ipv4) = (ipv6(payload_number), ipv4());
    let broken = |what, packets, whole| Broken {
        what,
        packets,
        whole,
    };
    let random = &mut Random::new(seed);
    [
        broken(
            "IPv6, truncated in a header",
            whole_ipv6.truncated(random),
            ipv6(payload_number),
        ),
        broken(
            "IPv6, header beyond the payload length",
            whole_ipv6.ending_early(random),
            ipv6(payload_number),
        ),
        broken(
            "IPv6, late hop by hop options",
            ipv6(to_late_options),
            whole_ipv6,
        ),
        broken(
            "IPv4, truncated in a header",
            whole_ipv4.truncated(random),
            ipv4(),
        ),
        broken(
            "IPv4, header beyond the total length",
            whole_ipv4.ending_early(random),
            whole_ipv4,
        ),
    ]
}

/// A packet that is rejected, and why.
pub struct Refused {
    pub why: &'static str,
    /// The version that the packet states.
    pub version: u8,
    /// Whether it is rejected because there are fewer bytes than it states. A lax parse accepts it.
    pub truncated: bool,
    pub ours: Vec<u8>,
    pub original: Vec<u8>,
}

impl Refused {
    fn new(why: &'static str, bytes: Vec<u8>) -> Refused {
        Refused {
            why,
            version: bytes[0] >> 4,
            truncated: false,
            original: fragment_bits::packet(&bytes, to_the_original),
            ours: bytes,
        }
    }

    /// Sets the fragment offsets of its chain to 0.
    pub fn without_later_fragments(&self) -> Refused {
        Refused {
            truncated: self.truncated,
            ..Refused::new(self.why, fragment_bits::first_fragments(&self.ours))
        }
    }
}

/// Packets that are rejected for their IP header, their length, or an extension header.
pub fn refused_packets() -> Vec<Refused> {
    let truncated_auth = [UDP; 11];
    let zero_auth = [UDP, 0, 0, 0, 0, 0, 0, 0, 0, 0, 0, 0];
    let late = after_four(HOP_BY_HOP, &[UDP; 8]).ours;
    let truncated = after_four(FRAGMENT, &[UDP; 7]).ours;
    let refused = Refused::new;
    let (short_ipv4, short_ipv6) = (
        ipv4(UDP, &[0; 30])[..49].to_vec(),
        ipv6(UDP, &[0; 30])[..69].to_vec(),
    );
    let mut small_ihl = ipv4(UDP, &[0; 30]);
    small_ihl[0] = 0x44;
    let mut small_total = ipv4(UDP, &[0; 30]);
    small_total[3] = 19;
    let mut other = ipv4(UDP, &[0; 30]);
    other[0] = 0x55;
    vec![
        refused("version 5", other),
        refused("IPv4 header of 19 bytes", ipv4(UDP, &[])[..19].to_vec()),
        refused("IPv4 header length 4", small_ihl),
        refused("IPv4 total length of 19 bytes", small_total),
        refused("IPv4 total length beyond the bytes", short_ipv4),
        refused(
            "IPv4, authentication header truncated",
            ipv4(AUTH, &truncated_auth),
        ),
        refused(
            "IPv4, authentication header of length 0",
            ipv4(AUTH, &zero_auth),
        ),
        refused("IPv6 header of 39 bytes", ipv6(UDP, &[])[..39].to_vec()),
        Refused {
            truncated: true,
            ..refused("IPv6 payload length beyond the bytes", short_ipv6)
        },
        refused("IPv6, fragment header truncated", ipv6(FRAGMENT, &[UDP; 7])),
        refused(
            "IPv6, authentication header truncated",
            ipv6(AUTH, &truncated_auth),
        ),
        refused(
            "IPv6, authentication header of length 0",
            ipv6(AUTH, &zero_auth),
        ),
        refused(
            "IPv6, fragment header truncated after four",
            ipv6(HOP_BY_HOP, &truncated),
        ),
        refused(
            "IPv6, late hop by hop options after four",
            ipv6(HOP_BY_HOP, &late),
        ),
    ]
}

/// Makes an IPv4 packet without options.
fn ipv4(number: u8, after: &[u8]) -> Vec<u8> {
    let mut bytes = vec![0x45, 0];
    bytes.extend((20 + after.len() as u16).to_be_bytes());
    bytes.extend([0, 0, 0, 0, 64, number]);
    bytes.extend([0; 10]);
    bytes.extend(after);
    bytes
}

/// Makes an IPv6 packet.
fn ipv6(number: u8, after: &[u8]) -> Vec<u8> {
    let mut bytes = vec![0x60, 0, 0, 0];
    bytes.extend((after.len() as u16).to_be_bytes());
    bytes.extend([number, 64]);
    bytes.extend([0; 32]);
    bytes.extend(after);
    bytes
}
