//! The rows of the table: packets parsed through C or with the package, compared with the original, and dissected
//! through C, compared with the original and with other calls of the library.
use crate::inputs::{self, Packets, Refused, Sides};
use crate::sums::{one_call, one_loop, Digest};
use crate::{c, dissect, filter, original, package};
use std::hint::black_box;

/// How many calls are made in one run of a row with a single packet.
const CALLS: usize = 1000;

/// The number of packets.
const PACKETS: usize = 10_000;

/// A piece of work to be timed. Returns a digest.
pub type Work = Box<dyn Fn() -> u64>;

/// Returns the bytes that a row writes. No row here writes any.
pub type Written = Box<dyn Fn() -> (Vec<u8>, Vec<u8>)>;

/// A row: the same work on both sides.
pub struct Row {
    pub group: &'static str,
    pub name: String,
    /// The unit of the times.
    pub unit: &'static str,
    /// The number of units per run.
    pub units: usize,
    pub ours: Work,
    pub original: Work,
    pub limit: Option<Work>,
    pub written: Option<Written>,
}

type Loop = fn(&[u8], &[usize]) -> u64;
type Call = fn(&[u8]) -> u64;

/// A way to parse and read packets, on both sides.
struct Form {
    group: &'static str,
    reading: &'static str,
    ours: Calls,
    other: Calls,
    /// A bare walk in C.
    limit: Option<Calls>,
    /// Whether the other side is also ours, and gets the same bytes.
    is_against_ours: bool,
}

/// The calls of one side.
#[derive(Clone, Copy)]
struct Calls {
    all: Loop,
    one: Call,
}

impl Calls {
    fn of<D: Digest>() -> Calls {
        Calls {
            all: one_loop::<D>,
            one: one_call::<D>,
        }
    }

    fn in_one_loop(self, packets: &'static Packets) -> Work {
        Box::new(move || black_box(self.all)(&packets.bytes, &packets.ends))
    }

    fn a_call_each(self, packets: &'static Packets) -> Work {
        let each = packets.each();
        Box::new(move || {
            let call = black_box(self.one);
            each.iter()
                .fold(0u64, |sum, packet| sum.rotate_left(1) ^ call(packet))
        })
    }

    fn again(self, bytes: Vec<u8>) -> Work {
        Box::new(move || {
            let call = black_box(self.one);
            (0..CALLS).fold(0u64, |sum, _| sum.rotate_left(1) ^ call(black_box(&bytes)))
        })
    }
}

impl Form {
    /// Compares with the original.
    fn new<Ours: Digest, Original: Digest>(group: &'static str, reading: &'static str) -> Form {
        Form {
            group,
            reading,
            ours: Calls::of::<Ours>(),
            other: Calls::of::<Original>(),
            limit: None,
            is_against_ours: false,
        }
    }

    /// Compares with another call of ours.
    fn against<Ours: Digest, Other: Digest>(group: &'static str, reading: &'static str) -> Form {
        Form {
            is_against_ours: true,
            ..Form::new::<Ours, Other>(group, reading)
        }
    }

    fn with_walk(self) -> Form {
        Form {
            limit: Some(Calls::of::<dissect::Walk>()),
            ..self
        }
    }

    fn other_packets(&self, packets: Sides) -> &'static Packets {
        if self.is_against_ours {
            packets.ours
        } else {
            packets.original
        }
    }

    /// Makes a row of the work that the function makes of each side's calls and packets.
    fn row(&self, what: String, packets: Sides, work: fn(Calls, &'static Packets) -> Work) -> Row {
        Row {
            group: self.group,
            name: format!("{}, {}: {what}", self.group, self.reading),
            unit: "packet",
            units: packets.ours.ends.len(),
            ours: work(self.ours, packets.ours),
            original: work(self.other, self.other_packets(packets)),
            limit: self.limit.map(|limit| work(limit, packets.ours)),
            written: None,
        }
    }

    fn in_one_loop(&self, what: &str, packets: Sides) -> Row {
        self.row(format!("{what}, one loop"), packets, Calls::in_one_loop)
    }

    fn a_call_each(&self, what: &str, packets: Sides) -> Row {
        self.row(format!("{what}, a call each"), packets, Calls::a_call_each)
    }

    fn refused(&self, refused: Refused) -> Row {
        let other = if self.is_against_ours {
            refused.ours.clone()
        } else {
            refused.original
        };
        Row {
            group: self.group,
            name: format!("{}, {}: refused, {}", self.group, self.reading, refused.why),
            unit: "call",
            units: CALLS,
            limit: self.limit.map(|limit| limit.again(refused.ours.clone())),
            ours: self.ours.again(refused.ours),
            original: self.other.again(other),
            written: None,
        }
    }
}

/// Returns all rows, with packets from the seed.
pub fn rows(seed: u64) -> Vec<Row> {
    let mut rows = parses(seed);
    rows.extend(dissections(seed));
    rows.extend(errors_against_whole(seed));
    rows.extend(filters(seed));
    rows
}

/// Packets filtered through C by `header 44`, compared with their dissection, and with libpcap if it is here. On packets
/// with two authentication headers libpcap's `protochain` doesn't end, so they are left out there.
fn filters(seed: u64) -> Vec<Row> {
    let whole = inputs::first_fragments(PACKETS, seed);
    let form = Form::against::<filter::Header44, dissect::Fragmented>(
        "C, header 44 against dissect",
        "filter",
    );
    #[cfg(feature = "libpcap")]
    let libpcap = against_libpcap(&whole[0].1);
    let broken = inputs::broken(PACKETS, seed).map(|it| (it.what, Sides::new(it.packets)));
    let mut rows = Vec::new();
    for (what, packets) in whole.map(|(what, packets)| (what, Sides::new(packets))) {
        rows.push(form.in_one_loop(what, packets));
        rows.push(form.a_call_each(what, packets));
    }
    rows.extend(broken.map(|(what, packets)| form.in_one_loop(what, packets)));
    #[cfg(feature = "libpcap")]
    rows.extend(libpcap);
    rows
}

/// IPv6 packets filtered through C and by libpcap's expressions for the same packets.
#[cfg(feature = "libpcap")]
fn against_libpcap(packets: &inputs::Packets) -> Vec<Row> {
    use filter::{hop_limit, net, other_net};
    let has = |packet: &[u8], is_asked: fn(u8) -> bool| {
        let mut headers = wolfaren::dissect::dissect(packet).headers();
        headers.any(|(_, header)| is_asked(header.number().0))
    };
    let unauthenticated = packets.kept(|packet| !has(packet, |number| number == 51));
    let with_headers = Sides::new(packets.kept(|packet| has(packet, |_| true)));
    let mixed = Sides::new(packets.kept(|_| true));
    let protochain = Form::against::<filter::Header44, filter::Protochain44>(
        "C, header 44 against libpcap",
        "filter",
    );
    let mut rows = vec![protochain.in_one_loop("IPv6", Sides::new(unauthenticated))];
    for form in [
        Form::against::<net::Ours, net::Libpcap>("C, net against libpcap", "filter"),
        Form::against::<hop_limit::Ours, hop_limit::Libpcap>("C, ttl against libpcap", "filter"),
        Form::against::<other_net::Ours, other_net::Libpcap>(
            "C, another net, tcp and a port against libpcap",
            "filter",
        ),
    ] {
        rows.push(form.in_one_loop("IPv6", mixed));
        rows.push(form.in_one_loop("IPv6, 1 to 4 headers", with_headers));
    }
    rows
}

/// Packets dissected through C. None is a later fragment, so all sides find the same payload.
fn dissections(seed: u64) -> Vec<Row> {
    let forms = [
        Form::new::<dissect::Place, original::Place>("C, dissect", "filter").with_walk(),
        Form::new::<dissect::Headers, original::Headers>("C, dissect", "16 headers"),
        Form::against::<dissect::Place, c::Place>("C, dissect against find_payload", "filter")
            .with_walk(),
        Form::against::<dissect::Headers, c::Headers>(
            "C, dissect against parse_packet",
            "16 headers",
        ),
    ];
    let whole =
        inputs::first_fragments(PACKETS, seed).map(|(what, packets)| (what, Sides::new(packets)));
    let broken = inputs::broken(PACKETS, seed).map(|it| (it.what, Sides::new(it.packets)));
    let mut rows = Vec::new();
    for form in &forms {
        for (what, packets) in whole {
            rows.push(form.in_one_loop(what, packets));
            rows.push(form.a_call_each(what, packets));
        }
        rows.extend(
            broken
                .iter()
                .map(|(what, packets)| form.in_one_loop(what, *packets)),
        );
        if form.reading == "filter" {
            rows.extend(
                inputs::refused_packets()
                    .iter()
                    .map(|refused| form.refused(refused.without_later_fragments())),
            );
        }
    }
    rows
}

/// Packets with an error dissected through C, compared with the same packets without it.
fn errors_against_whole(seed: u64) -> Vec<Row> {
    let group = "C, dissect, errors against whole packets";
    let forms = [
        Form::new::<dissect::Base<0>, dissect::Base<0>>(group, "filter"),
        Form::new::<dissect::Base<{ c::ROOM }>, dissect::Base<{ c::ROOM }>>(group, "16 headers"),
    ];
    let broken =
        inputs::broken(PACKETS, seed).map(|it| (it.what, Sides::pair(it.packets, it.whole)));
    let rows_of = |form: &Form| broken.map(|(what, sides)| form.in_one_loop(what, sides));
    forms.iter().flat_map(rows_of).collect()
}

/// Packets parsed through C or with the package.
fn parses(seed: u64) -> Vec<Row> {
    let ipv6 = Sides::new(inputs::packets(PACKETS, seed));
    let ipv4 = Sides::new(inputs::ipv4_packets(PACKETS, seed));
    let both = Sides::new(inputs::alternating(ipv4.ours, ipv6.ours));
    let forms = [
        Form::new::<package::Filter, original::Filter>("the package", "filter"),
        Form::new::<package::Full, original::Full>("the package", "in full"),
        Form::new::<c::Filter, original::Filter>("C, 16 headers", "filter"),
        Form::new::<c::Full, original::Full>("C, 16 headers", "in full"),
    ];
    let mut rows = Vec::new();
    for form in &forms {
        for (what, packets) in [
            ("IPv6", ipv6),
            ("IPv4", ipv4),
            ("either version in turn", both),
        ] {
            rows.push(form.in_one_loop(what, packets));
            rows.push(form.a_call_each(what, packets));
        }
        if form.reading == "filter" {
            rows.extend(
                inputs::refused_packets()
                    .into_iter()
                    .map(|refused| form.refused(refused)),
            );
        }
    }
    rows
}

/// Writes the IPv6 packets that are filtered, each after its length in four bytes, in network byte order. Prints how
/// many have a fragment header, and the least time of 40 runs of the filter.
pub fn write_packets(seed: u64, path: &str) -> std::io::Result<()> {
    let [(_, packets), ..] = inputs::first_fragments(PACKETS, seed);
    let mut bytes = Vec::new();
    for packet in packets.each() {
        bytes.extend((packet.len() as u32).to_be_bytes());
        bytes.extend(packet);
    }
    std::fs::write(path, bytes)?;
    let mut least = f64::INFINITY;
    for _ in 0..40 {
        let start = std::time::Instant::now();
        black_box(one_loop::<filter::Header44>(&packets.bytes, &packets.ends));
        least = least.min(start.elapsed().as_nanos() as f64);
    }
    let has_one = |packet: &&[u8]| filter::Header44::digest(packet) == 1;
    let found = packets.each().into_iter().filter(|it| has_one(it)).count();
    println!(
        "header 44: {:.1} ns per packet, {found} of {} have a fragment header",
        least / packets.ends.len() as f64,
        packets.ends.len()
    );
    Ok(())
}
