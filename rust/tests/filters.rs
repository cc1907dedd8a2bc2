//! Tests filters. Which packets a filter matches was worked out by hand from RFC 791, RFC 4302 and RFC 8200.
use wolfaren::filter::{Expected, Filter, Frame, ParseError, TextFilter};

/// Returns an IPv6 packet from `2001:db8::1` to `2001:db8::2`.
fn ipv6(payload_length: u8, next_header: u8, after: &[u8]) -> Vec<u8> {
    let front = [0x60, 0, 0, 0, 0, payload_length, next_header, 64];
    let address = |last: u8| [0x20, 1, 0x0d, 0xb8, 0, 0, 0, 0, 0, 0, 0, 0, 0, 0, 0, last];
    [&front[..], &address(1), &address(2), after].concat()
}

/// Returns an IPv4 packet from 192.0.2.1 to 192.0.2.2.
fn ipv4(protocol: u8, after: &[u8]) -> Vec<u8> {
    let total_len = 20 + after.len() as u8;
    let front = [
        0x45, 0, 0, total_len, 0x12, 0x34, 0, 0, 64, protocol, 0, 0, 192, 0, 2, 1, 192, 0, 2, 2,
    ];
    [&front, after].concat()
}

/// Checks which of the texts are filters that match the packet.
fn check(packet: &[u8], matching: &[&str], others: &[&str]) {
    let matches = |text: &str| text.parse::<Filter>().map(|filter| filter.matches(packet));
    for text in matching {
        assert_eq!(matches(text), Ok(true), "{text}");
        assert_eq!(matches(&format!("not ({text})")), Ok(false), "{text}");
    }
    for text in others {
        assert_eq!(matches(text), Ok(false), "{text}");
    }
}

/// Returns the filter of a text that is one.
fn parsed(text: &str) -> Filter {
    text.parse()
        .unwrap_or_else(|error| panic!("{text}: {error}"))
}

#[test]
fn fragments() {
    let middle = ipv6(
        16,
        44,
        &[60, 0, 0x05, 0xc9, 0, 0, 0, 7, 1, 2, 3, 4, 5, 6, 7, 8],
    );
    let matching = [
        "fragment",
        "later-fragment",
        "header frag",
        "header 0x2c && leads-to dstopts",
        "id 7",
        "headers = 1",
        "chain-bytes >= 8",
        "payload < 9",
        "version 6",
        "src 2001:db8::/127",
        "dst 2001:db8::2",
        "net 2001:db8::1/128",
    ];
    let others = [
        "first-fragment",
        "header 60",
        "id 8",
        "headers != 1",
        "truncated or incomplete or fault",
        "src 2001:db8::2",
        "net 192.0.2.0/24",
    ];
    check(&middle, &matching, &others);
    let atomic = ipv6(8, 44, &[17, 0, 0, 0, 0, 0, 0, 9]);
    check(&atomic, &["id 9"], &["fragment"]);
}

#[test]
fn authentication() {
    let auth = ipv4(51, &[6, 1, 0, 0, 0, 0, 1, 2, 0, 0, 0, 3, 9, 9]);
    let matching = [
        "version 4 and header ah",
        "spi 258",
        "leads-to tcp",
        "dst 192.0.2.2/31",
        "chain-bytes > 11",
    ];
    check(
        &auth,
        &matching,
        &["spi 3", "src 192.0.2.2/31", "payload > 2"],
    );
}

/// Ports 443 and 50000.
const PORTS: [u8; 8] = [0x01, 0xbb, 0xc3, 0x50, 0, 8, 0, 0];

#[test]
fn ports_after_extension_headers() {
    let matching = [
        "src port 443 and dst port 50000",
        "port 443",
        "port 50000-50001",
    ];
    let others = ["src port 50000", "port 444-0xc34f"];
    let options = [&[17, 0, 1, 4, 0, 0, 0, 0][..], &PORTS].concat();
    check(&ipv6(16, 60, &options), &matching, &others);
    check(&ipv6(16, 60, &options), &[], &["no-transport", "no-length"]);
    let first = [&[6, 0, 0, 1, 0, 0, 0, 7][..], &PORTS].concat();
    check(&ipv6(16, 44, &first), &matching, &others);
    check(&ipv6(16, 44, &first), &["no-transport"], &[]);
    check(&ipv6(0, 44, &first), &["no-length and length = 56"], &[]);
    let auth = [&[132, 1, 0, 80, 0, 0, 1, 2, 0, 0, 0, 3][..], &PORTS].concat();
    check(&ipv4(51, &auth), &matching, &others);
    let later = [&[17, 0, 0, 8, 0, 0, 0, 7][..], &PORTS].concat();
    let others = ["port 0-65535", "no-transport"];
    check(&ipv6(16, 44, &later), &["udp and later-fragment"], &others);
    check(&ipv6(8, 47, &PORTS), &["gre"], &others);
    let short = [&[6, 0, 0, 1, 0, 0, 0, 7][..], &PORTS[..3]].concat();
    check(
        &ipv6(11, 44, &short),
        &["no-transport and src port 443"],
        &["dst port 0-65535"],
    );
}

#[test]
fn messages_of_icmp() {
    let message = [60, 0, 1, 4, 0, 0, 0, 0, 3, 4];
    let options = [&[58][..], &message[1..]].concat();
    check(
        &ipv6(10, 60, &options),
        &["icmp6 and icmp6-type 3 and icmp6-code 4"],
        &["icmp6-type 58", "icmp6-code 3", "icmp", "icmp-type 3"],
    );
    check(
        &ipv4(1, &message[8..9]),
        &["icmp and icmp-type 3"],
        &["icmp-code 4", "icmp6", "icmp6-type 3"],
    );
    check(
        &ipv6(2, 1, &message[8..]),
        &["leads-to icmp"],
        &["icmp", "icmp6", "icmp-type 3", "icmp6-type 3"],
    );
}

#[test]
fn indices_of_esp() {
    let options = [50, 0, 1, 4, 0, 0, 0, 0, 1, 2, 3, 4];
    check(&ipv6(12, 60, &options), &["spi 0x01020304"], &["spi 258"]);
    check(&ipv4(50, &options[8..11]), &["esp"], &["spi 0x010203"]);
}

#[test]
fn options() {
    let headers = [60, 0, 0, 5, 2, 0, 9, 0, 59, 0, 30, 0, 31, 3, 0, 0];
    let matching = ["option 0 and option 5", "option 30"];
    let others = ["option 31", "option 2", "option 9", "option 3"];
    check(&ipv6(16, 0, &headers), &matching, &others);
    let routing = [59, 0, 5, 0, 5, 0, 5, 0];
    check(
        &ipv6(8, 43, &routing),
        &["header 43"],
        &["option 5", "option 0"],
    );
}

#[test]
fn two_fragment_headers() {
    let headers = [44, 0, 0, 1, 0, 0, 0, 7, 17, 0, 3, 0x20, 0, 0, 0, 9];
    let matching = [
        "fragment and first-fragment and later-fragment",
        "id 7 and id 9",
    ];
    check(
        &ipv6(16, 44, &headers),
        &matching,
        &["id 8", "not fragment"],
    );
    let later = [44, 0, 3, 0x20, 0, 0, 0, 7, 17, 0, 0, 1, 0, 0, 0, 9];
    let others = ["first-fragment", "id 9"];
    check(&ipv6(16, 44, &later), &["later-fragment and id 7"], &others);
}

#[test]
fn routing_headers() {
    let headers = [43, 0, 2, 1, 0, 0, 0, 0, 59, 0, 0, 5, 0, 0, 0, 0];
    let matching = [
        "routing-type 2 and routing-type 0",
        "segments-left = 1 and segments-left >= 5",
        "segments-left != 1",
    ];
    let others = ["routing-type 1", "segments-left > 5", "segments-left = 2"];
    check(&ipv6(16, 43, &headers), &matching, &others);
    let options = [59, 0, 0, 5, 0, 0, 0, 0];
    check(
        &ipv6(8, 60, &options),
        &["header 60"],
        &["routing-type 0", "segments-left = 5"],
    );
}

#[test]
fn flags_of_tcp() {
    let segment = [
        1, 0xbb, 0xc3, 0x50, 0, 0, 0, 1, 0, 0, 0, 2, 0x50, 0x12, 0, 0, 0, 0, 0, 0,
    ];
    let matching = [
        "tcp-flags syn",
        "tcp-flags ack,syn",
        "tcp-flags syn,ack/fin,syn,rst,ack",
    ];
    let others = [
        "tcp-flags syn/syn,ack",
        "tcp-flags fin",
        "tcp-flags syn,ece",
    ];
    let auth = [&[6, 1, 0, 80, 0, 0, 1, 2, 0, 0, 0, 3][..], &segment].concat();
    check(&ipv4(51, &auth), &matching, &others);
    let first = [&[6, 0, 0, 1, 0, 0, 0, 7][..], &segment].concat();
    check(&ipv6(28, 44, &first), &matching, &others);
    let later = [&[6, 0, 0, 8, 0, 0, 0, 7][..], &segment].concat();
    check(&ipv6(28, 44, &later), &["tcp"], &matching);
    check(&ipv6(20, 17, &segment), &["udp"], &matching);
    check(&ipv6(13, 6, &segment[..13]), &["tcp"], &matching);
    check(&ipv6(14, 6, &segment[..14]), &matching, &others);
}

#[test]
fn fields_of_base_headers() {
    let mut packet = ipv6(8, 59, &PORTS);
    packet[..4].copy_from_slice(&[0x6b, 0x9c, 0xde, 0xf1]);
    let matching = [
        "ip6 and no-next and length = 48",
        "hop-limit = 64 and ttl = 64",
        "dscp = 46 and ecn = 1 and flow = 0xcdef1",
        "host 2001:db8::2",
    ];
    check(
        &packet,
        &matching,
        &["ip", "length > 48", "host 2001:db8::3"],
    );
    let mut packet = ipv4(59, &PORTS);
    packet[1] = 0xba;
    let matching = [
        "ip and length = 28 and ttl = 64",
        "dscp = 46 and ecn = 2",
        "host 192.0.2.2",
    ];
    check(&packet, &matching, &["ip6", "flow >= 0", "hop-limit != 64"]);
}

#[test]
fn errors_in_packets() {
    let truncated = ipv6(24, 43, &[17, 2, 0, 0, 0, 0, 0, 0]);
    check(
        &truncated,
        &["truncated", "incomplete", "leads-to route"],
        &["fault", "header route"],
    );
    let beyond = ipv6(8, 43, &[17, 2, 0, 0, 0, 0, 0, 0]);
    check(
        &beyond,
        &["fault", "fault too-short"],
        &["truncated", "fault zero-length"],
    );
    check(
        &[0x50],
        &["fault unsupported-version"],
        &["version 4", "headers = 0", "truncated"],
    );
    check(&[], &["truncated", "not version 6"], &["fault"]);
}

#[test]
fn precedence() {
    let packet = ipv6(0, 17, &[]);
    let matching = [
        "version 6 or fault and fault",
        "! fault and ! ! version 6",
        "not not not fault",
    ];
    check(&packet, &matching, &["(version 6 or fault) and fault"]);
}

#[test]
fn filters_display_their_texts() {
    for text in ["version 4", " header  0x2c ", "!(fault||truncated)"] {
        let filter: TextFilter = text.parse().expect("a filter");
        assert_eq!(filter.to_string(), text);
        assert_eq!(filter.filter(), &parsed(text));
    }
    let filter: TextFilter = "fault".parse().expect("a filter");
    assert_eq!(format!("{filter:>6}"), " fault");
}

/// The texts in a row have terms with the same tests, which lead to the same tests.
#[test]
fn equal_filters() {
    let rows: [&[&str]; 10] = [
        &[
            "fragment",
            "first-fragment or later-fragment",
            "later-fragment or first-fragment",
        ],
        &["udp or ip6", "leads-to 17 or version 6"],
        &["ttl < 2", "hop-limit < 2"],
        &["host ::1 and port 53", "net ::1/128 and port 53-0x35"],
        &["header frag", " (header  0x2c)", "not not header 44"],
        &["src 192.0.2.1", "src 192.0.2.1/32"],
        &["not (fault or truncated)", "!fault && !truncated"],
        &["not (fault and truncated)", "not fault or not truncated"],
        &[
            "fault and (truncated and incomplete)",
            "fault and truncated and incomplete",
        ],
        &[
            "fault or truncated and incomplete",
            "fault or (truncated and incomplete)",
            "not (not fault and not (truncated and incomplete))",
        ],
    ];
    for (row, texts) in rows.iter().enumerate() {
        for text in *texts {
            assert_eq!(parsed(text), parsed(texts[0]), "{text}");
            for other in &rows[..row] {
                assert_ne!(parsed(text), parsed(other[0]), "{text}");
            }
        }
    }
    for (one, other) in [
        ("fault", "not fault"),
        ("fault and truncated", "truncated and fault"),
        ("fault and truncated", "fault or truncated"),
        ("fault and fault", "fault"),
        (
            "(fault or truncated) and incomplete",
            "fault or truncated and incomplete",
        ),
    ] {
        assert_ne!(parsed(one), parsed(other), "{one}, {other}");
    }
}

/// What a frame was is asked with it, and of a packet alone nothing is known but its length.
#[test]
fn frames() {
    let packet = ipv4(17, &[0, 53, 0, 53, 0, 8, 0, 0]);
    let frame = Frame {
        wire_len: 1500,
        ether_type: Some(0x0800),
        version: Some(6),
        outer_vlan: Some(100),
        inner_vlan: None,
    };
    for (text, alone, framed, without) in [
        ("less 28", true, false, false),
        ("greater 1500", false, true, true),
        ("vlan and vlan 100", false, true, true),
        ("vlan 0", false, false, false),
        ("mismatched and udp", false, true, false),
        ("arp or fault", false, false, false),
        ("udp and not header 60", true, true, false),
    ] {
        let filter = parsed(text);
        assert_eq!(filter.matches(&packet), alone, "{text}");
        assert_eq!(filter.matches_frame(&frame, &packet), framed, "{text}");
        assert_eq!(filter.matches_other_frame(&frame), without, "{text}");
    }
}

/// Filters of different terms, alone and in each place of formulas of three terms, aren't equal.
#[test]
fn different_filters() {
    let kinds = "too-short not-at-start zero-length unsupported-version header-length";
    let mut terms: Vec<String> =
        "fragment first-fragment later-fragment truncated incomplete fault"
            .split(' ')
            .map(str::to_owned)
            .collect();
    terms.extend(kinds.split(' ').map(|kind| format!("fault {kind}")));
    terms.extend(
        [
            "no-transport",
            "no-length",
            "icmp",
            "icmp6",
            "leads-to icmp",
            "vlan",
            "vlan 0",
            "vlan 1",
            "arp",
            "mismatched",
            "less 60",
            "greater 60",
        ]
        .map(str::to_owned),
    );
    for name in [
        "src port",
        "dst port",
        "port",
        "icmp-type",
        "icmp-code",
        "icmp6-type",
        "icmp6-code",
        "routing-type",
        "option",
    ] {
        terms.push(format!("{name} 6"));
    }
    terms.push("port 6-7".to_owned());
    terms.extend(["syn", "syn/syn,ack", "ack"].map(|it| format!("tcp-flags {it}")));
    let quantities =
        "headers chain-bytes payload length hop-limit dscp ecn flow segments-left".split(' ');
    for name in quantities {
        terms.extend(["=", "!=", "<", "<=", ">", ">="].map(|it| format!("{name} {it} 7")));
    }
    terms.push("header 60".to_owned());
    terms.extend(["version", "leads-to", "spi", "id"].map(|name| format!("{name} 6")));
    for name in ["src", "dst", "net"] {
        terms.extend(["192.0.2.0/24", "2001:db8:0:1::5/127"].map(|it| format!("{name} {it}")));
    }
    let mut found: Vec<Filter> = Vec::new();
    for term in &terms {
        for form in [
            "T",
            "not T",
            "T and id 1 or id 2",
            "(id 1 or T) and id 2",
            "id 1 and (id 2 and T)",
        ] {
            let text = form.replace('T', term);
            let filter = parsed(&text);
            assert!(!found.contains(&filter), "{text}");
            found.push(filter);
        }
    }
}

#[test]
fn frames_that_are_not_ip() {
    let matches = |text: &str| text.parse::<Filter>().map(|filter| filter.matches_other());
    assert_eq!(matches("not fault"), Ok(true));
    assert_eq!(matches("truncated or version 6 or headers = 0"), Ok(false));
}

#[test]
fn other_bytes_after_a_packet_change_nothing() {
    let filter: Filter = "payload = 4 and leads-to 17"
        .parse()
        .expect("it is a filter");
    let packet = ipv6(4, 17, &[1, 2, 3, 4]);
    assert!(filter.matches(&packet));
    assert!(filter.matches(&[&packet[..], &[44; 9]].concat()));
}

#[test]
fn refused_texts() {
    let header = "0 (`hop-by-hop`), 43 (`routing`), 44 (`fragment`), 51 (`authentication`), 60 (`destination-options`), or `leads-to N` in place of `header N`";
    let rows = [
        ("", 0, Expected::Operand, "a term, `not` or `(`"),
        (
            "fault fault",
            6,
            Expected::OperatorOrEnd,
            "`and`, `or` or the end",
        ),
        ("(fault", 6, Expected::OperatorOrClose, "`and`, `or` or `)`"),
        ("version 5", 8, Expected::Version, "4 or 6"),
        ("header 256", 7, Expected::Header, header),
        ("header 50", 7, Expected::Header, header),
        ("fault or header 135", 16, Expected::Header, header),
        (
            "leads-to arp",
            9,
            Expected::Protocol,
            "a number from 0 to 255 or the name of a protocol",
        ),
        (
            "headers 1",
            8,
            Expected::Comparison,
            "`=`, `!=`, `<`, `<=`, `>` or `>=`",
        ),
        (
            "payload < x",
            10,
            Expected::Count,
            "a number from 0 to 18446744073709551615",
        ),
        (
            "spi -1",
            4,
            Expected::Number,
            "a number from 0 to 4294967295",
        ),
        (
            "net 1.2.3.4/33",
            4,
            Expected::Network,
            "an address or a prefix",
        ),
        (
            "src 1.2.3.4/33",
            4,
            Expected::NetworkOrPort,
            "an address, a prefix or `port`",
        ),
        ("host ::/0", 5, Expected::Address, "an address"),
        ("dst or ::1", 7, Expected::Source, "`src`"),
        ("src and ::1", 8, Expected::Destination, "`dst`"),
        (
            "net 10.0.0.0 mask 255.0.255.0",
            18,
            Expected::Mask,
            "a mask that begins with its ones, as 255.255.255.0",
        ),
        (
            "dst port 65536",
            9,
            Expected::Ports,
            "a port or a range of ports, as 1024-65535",
        ),
        ("icmp-code x", 10, Expected::Byte, "a number from 0 to 255"),
        (
            "icmp-type x",
            10,
            Expected::IcmpType,
            "a number from 0 to 255 or the name of a type, as icmp-echo",
        ),
        (
            "icmp6-type 256",
            11,
            Expected::Icmp6Type,
            "a number from 0 to 255 or the name of a type, as icmp6-echo",
        ),
        (
            "tcp-flags syn/",
            10,
            Expected::TcpFlags,
            "`fin`, `syn`, `rst`, `psh`, `ack`, `urg`, `ece` or `cwr`, or a list as syn,ack or syn/syn,ack",
        ),
    ];
    for (text, offset, expected, words) in rows {
        assert_eq!(
            text.parse::<Filter>(),
            Err(ParseError { offset, expected }),
            "{text}"
        );
        assert_eq!(expected.to_string(), words);
    }
}

#[test]
fn refused_bytes_and_sizes() {
    for text in ["fault\0", "fault\0 and fragment"] {
        let error = text.parse::<Filter>().expect_err("no term has a null byte");
        assert_eq!(error.offset, 0);
    }
    let error = "fault and "
        .repeat(65)
        .parse::<Filter>()
        .expect_err("there are 65 terms");
    assert_eq!(
        error.to_string(),
        "expected no more than 64 terms at byte 636"
    );
    let error = "("
        .repeat(17)
        .parse::<Filter>()
        .expect_err("there are 17 levels");
    assert_eq!((error.offset, error.expected), (16, Expected::LessNesting));
    assert_eq!(
        error.expected.to_string(),
        "no more than 16 levels of parentheses"
    );
}
