//! Headers, errors, statistics and filters as JSON.

use serde::Serialize;
use serde::de::DeserializeOwned;
use std::fmt::Debug;
use wolfaren::err::{Layer, LenError, ip};
use wolfaren::filter::TextFilter;
use wolfaren::statistics::{CaptureStatistics, Statistics};
use wolfaren::{
    IpAuthHeader, IpFragOffset, IpNumber, IpSlice, Ipv4Extensions, Ipv6Extensions,
    Ipv6FragmentHeader, Ipv6RawExtHeader, Ipv6RoutingExtensions, LenSource,
};

/// Checks that a value is serialized as this text, and made of it again.
fn check<T: Serialize + DeserializeOwned + PartialEq + Debug>(value: &T, text: &str) {
    assert_eq!(serde_json::to_string(value).expect("a text"), text);
    assert_eq!(&serde_json::from_str::<T>(text).expect("a value"), value);
}

/// Checks that a text is refused, and that the error says why.
fn check_refused<T: DeserializeOwned + Debug>(text: &str, why: &str) {
    let error = serde_json::from_str::<T>(text).expect_err("an error");
    assert!(error.to_string().contains(why), "{error}");
}

fn options(next_header: u8) -> Ipv6RawExtHeader {
    Ipv6RawExtHeader::new_raw(IpNumber(next_header), &[1, 4, 0, 0, 0, 0]).expect("a header")
}

fn auth() -> IpAuthHeader {
    IpAuthHeader::new(IpNumber(17), 7, 8, &[9, 8, 7, 6]).expect("a header")
}

const AUTH: &str = r#"{"next_header":17,"spi":7,"sequence_number":8,"raw_icv":[9,8,7,6]}"#;

#[test]
fn headers() {
    check(&auth(), AUTH);
    let text = r#"{"next_header":43,"payload":[1,4,0,0,0,0]}"#;
    check(&options(43), text);
    let offset = IpFragOffset::try_new(8191).expect("an offset");
    let fragment = Ipv6FragmentHeader::new(IpNumber(6), offset, true, 0xffff_ffff);
    let text = r#"{"next_header":6,"fragment_offset":8191,"more_fragments":true,"identification":4294967295}"#;
    check(&fragment, text);
}

#[test]
fn chains() {
    let chain = Ipv6Extensions {
        hop_by_hop_options: Some(options(43)),
        routing: Some(Ipv6RoutingExtensions {
            routing: options(51),
            final_destination_options: None,
        }),
        auth: Some(auth()),
        ..Default::default()
    };
    let raw = |number| format!(r#"{{"next_header":{number},"payload":[1,4,0,0,0,0]}}"#);
    let (first, routing) = (raw(43), raw(51));
    let text = format!(
        r#"{{"hop_by_hop_options":{first},"destination_options":null,"routing":{{"routing":{routing},"final_destination_options":null}},"fragment":null,"auth":{AUTH}}}"#
    );
    check(&chain, &text);
    check(
        &Ipv4Extensions { auth: Some(auth()) },
        &format!(r#"{{"auth":{AUTH}}}"#),
    );
    let missing: Ipv6Extensions = serde_json::from_str("{}").expect("a chain");
    assert_eq!(missing, Ipv6Extensions::default());
}

#[test]
fn errors() {
    let error = LenError {
        required_len: 8,
        len: 7,
        len_source: LenSource::Ipv6HeaderPayloadLen,
        layer: Layer::Ipv6FragHeader,
        layer_start_offset: 40,
    };
    let text = r#"{"required_len":8,"layer_start_offset":40,"len_source":"Ipv6HeaderPayloadLen","layer":"Ipv6FragHeader","len":7}"#;
    check(&error, text);
    let version = IpSlice::from_slice(&[0x50; 20]).expect_err("an error");
    let text = r#"{"IpHeaders":{"Ip":{"UnsupportedIpVersion":{"version_number":5}}}}"#;
    check::<ip::SliceError>(&version, text);
    check_refused::<LenError>("{}", "missing field");
    check_refused::<Layer>(r#""Udp""#, "unknown variant");
}

#[test]
fn statistics() {
    let mut statistics = CaptureStatistics {
        version: 0,
        size: 0,
        other_frames: 0,
        truncated_frames: 0,
        packets: Statistics::new(),
    };
    statistics.clear();
    statistics.packets.count_packet(&[0x60; 40]);
    statistics.count_other_frame();
    let text = serde_json::to_string(&statistics).expect("a text");
    assert_eq!(
        serde_json::from_str::<CaptureStatistics>(&text).expect("statistics"),
        statistics
    );
    assert!(text.contains(r#""other_frames":1,"truncated_frames":0,"packets":{"packets":1,"#));
    let text = serde_json::to_string(&Statistics::new()).expect("a text");
    let zeros = "0,".repeat(127);
    assert!(text.ends_with(&format!(r#""faults":[{zeros}0]}}"#)));
    let shorter = text.replace(
        &format!(r#""faults":[{zeros}0]"#),
        &format!(r#""faults":[{}0]"#, &zeros[2..]),
    );
    check_refused::<Statistics>(&shorter, "expected 128 counts, found 127");
}

#[test]
fn filters() {
    let text = "header 60 and udp";
    let filter = TextFilter::parse(text.into()).expect("a filter");
    check(&filter, r#""header 60 and udp""#);
    assert_eq!(filter.text(), text);
    let mut packet = [0; 48];
    (packet[0], packet[5], packet[6], packet[40]) = (0x60, 8, 60, 17);
    assert!(filter.filter().matches(&packet));
    packet[40] = 6;
    assert!(!filter.filter().matches(&packet));
    check_refused::<TextFilter>(r#""header 60 and""#, "at byte 13");
}

#[test]
fn values_that_break_an_invariant_are_refused() {
    check_refused::<IpFragOffset>("8192", "8191");
    for icv in ["9,8,7", "9,8,7,6,5"] {
        check_refused::<IpAuthHeader>(&AUTH.replace("9,8,7,6", icv), "length");
    }
    let longest = |len: usize| AUTH.replace("9,8,7,6", &format!("{}1", "0,".repeat(len - 1)));
    assert!(serde_json::from_str::<IpAuthHeader>(&longest(1016)).is_ok());
    check_refused::<IpAuthHeader>(&longest(1020), "too large");
    let raw = |len: usize| {
        format!(
            r#"{{"next_header":0,"payload":[{}1]}}"#,
            "0,".repeat(len - 1)
        )
    };
    assert!(serde_json::from_str::<Ipv6RawExtHeader>(&raw(2046)).is_ok());
    check_refused::<Ipv6RawExtHeader>(&raw(5), "too small");
    check_refused::<Ipv6RawExtHeader>(&raw(8), "multiple of 8");
    check_refused::<Ipv6RawExtHeader>(&raw(2054), "too large");
    check_refused::<IpNumber>("256", "256");
}
