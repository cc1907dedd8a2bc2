//! Tests what is in headers: options of RFC 8200, section 4.2, and addresses of routing headers.
use std::net::Ipv6Addr;
use wolfaren::Ipv6RawExtHeaderSlice;
use wolfaren::contents::{
    HeaderOption, HeaderOptions, RoutingAddresses, UnknownOption, routing_type, segments_left,
};

fn header(bytes: &[u8]) -> Ipv6RawExtHeaderSlice<'_> {
    Ipv6RawExtHeaderSlice::from_slice(bytes).expect("a header")
}

/// Pad1, router alert (RFC 2711), the RPL option (RFC 6553), Jumbo Payload (RFC 2675) and `PadN`.
#[test]
fn options_of_a_header() {
    let bytes = [
        59, 2, 0, 5, 2, 0, 0, 0x63, 4, 1, 2, 3, 4, 0xc2, 4, 0, 1, 0, 0, 1, 3, 0, 0, 0, 9, 9,
    ];
    let mut options = HeaderOptions::of(&header(&bytes));
    let said: Vec<_> = options
        .by_ref()
        .map(|it| (it.option_type, it.data, it.if_unknown(), it.may_change()))
        .collect();
    let wanted: [(u8, &[u8], UnknownOption, bool); 5] = [
        (0, &[], UnknownOption::Skip, false),
        (5, &[0, 0], UnknownOption::Skip, false),
        (0x63, &[1, 2, 3, 4], UnknownOption::Discard, true),
        (
            0xc2,
            &[0, 1, 0, 0],
            UnknownOption::ReportUnlessMulticast,
            false,
        ),
        (1, &[0, 0, 0], UnknownOption::Skip, false),
    ];
    assert_eq!(said, wanted);
    assert_eq!(
        (options.next(), options.offset(), options.malformed()),
        (None, 24, None)
    );
}

#[test]
fn malformed_options() {
    let bytes = [59, 0, 1, 0, 0x8a, 3, 0, 0, 0, 0, 0, 0];
    let mut options = HeaderOptions::of(&header(&bytes));
    assert_eq!(options.malformed(), None);
    let padding = HeaderOption {
        option_type: 1,
        data: &[],
    };
    assert_eq!(options.next(), Some(padding));
    assert_eq!((options.next(), options.next()), (None, None));
    assert_eq!((options.offset(), options.malformed()), (4, Some(4)));
}

#[test]
fn addresses_of_each_type() {
    let [first, last] = ["2001:db8::1", "2001:db8::2"].map(|it| it.parse::<Ipv6Addr>().unwrap());
    let destination: Ipv6Addr = "fe80::3".parse().unwrap();
    let home = [&[59, 2, 2, 1, 0, 0, 0, 0][..], &first.octets()].concat();
    let segments = [
        &[59, 5, 4, 9, 1, 0, 0, 0][..],
        &first.octets(),
        &last.octets(),
        &[0; 8],
    ]
    .concat();
    let compressed = [59, 1, 3, 2, 0xef, 0x50, 0, 0, 7, 8, 9, 0, 0, 0, 0, 0];
    for (bytes, wanted) in [
        (&home[..], vec![first]),
        (&segments, vec![first, last]),
        (
            &compressed,
            vec!["fe80::708".parse().unwrap(), "fe80::9".parse().unwrap()],
        ),
    ] {
        let addresses = RoutingAddresses::of(&header(bytes)).expect("addresses");
        let found: Vec<Ipv6Addr> = addresses
            .map(|it| it.expanded(&destination.octets()).into())
            .collect();
        assert_eq!(found, wanted);
    }
    let addresses = RoutingAddresses::of(&header(&compressed)).expect("addresses");
    let suffixes: Vec<_> = addresses.map(|it| it.suffix()).collect();
    assert_eq!(suffixes, [&[7, 8][..], &[9]]);
    let routing = header(&segments);
    assert_eq!((routing_type(&routing), segments_left(&routing)), (4, 9));
}

#[test]
fn no_addresses() {
    let mut bytes = [0; 40];
    for (start, what) in [
        ([59, 4, 0, 1, 0, 0], "another type"),
        ([59, 4, 2, 1, 0, 0], "two addresses in type 2"),
        ([59, 4, 4, 1, 2, 0], "a last entry that doesn't fit"),
        ([59, 4, 3, 1, 0, 0x10], "a remainder"),
        ([59, 0, 3, 1, 0, 0], "no room for one address"),
    ] {
        bytes[..6].copy_from_slice(&start);
        assert!(RoutingAddresses::of(&header(&bytes)).is_none(), "{what}");
    }
}
