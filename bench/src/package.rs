//! The measured calls of the Rust package, under the names of those of `ipexts_calls`. Except for dissections and filters,
//! they are the calls of the original's side, compiled for the package.
use wolfaren as parser;
use wolfaren::dissect::{dissect, summarize_packet, BaseHeader, Dissection, End};
use wolfaren::filter::Filter;

// The calls of `ipexts_calls` aren't linked.
#[allow(dead_code)]
#[path = "ours.rs"]
mod declared;
#[path = "original.rs"]
mod original;
#[path = "original_ipv4.rs"]
mod original_ipv4;
#[path = "original_reads.rs"]
mod original_reads;
#[path = "original_slices.rs"]
mod original_slices;

pub use declared::{walk_chain, walk_packets};
pub use declared::{ChainCall, HeaderCall, PacketCall, PacketLoop, RepeatedCall};
use original::{chain, from_c, packets, with};
use original::{
    Lax, LaxFilter, LaxFragment, LaxHeaders, LaxHeadersFilter, LaxKinds, LaxStruct, Strict,
    StrictFilter, StrictStruct,
};
use original_reads::{StructRead, StructReadLimited};
use original_slices::{
    Ip, IpFilter, IpPlace, Ipv4, Ipv4Filter, Ipv6, Ipv6Filter, Ipv6Lax, Ipv6LaxFilter, Packet,
    NO_PACKET,
};

/// Defines each call as a constant of its type.
macro_rules! calls {
    ($type:ty: $($name:ident = $call:expr;)+) => {
        $(#[allow(non_upper_case_globals)]
        pub const $name: $type = $call;)+
    };
}

calls! { ChainCall:
    ipexts_lax = chain::<Lax>;
    ipexts_lax_headers = chain::<LaxHeaders>;
    ipexts_strict = chain::<Strict>;
    ipexts_lax_filter = chain::<LaxFilter>;
    ipexts_lax_headers_filter = chain::<LaxHeadersFilter>;
    ipexts_strict_filter = chain::<StrictFilter>;
    ipexts_cursor_kinds = chain::<LaxKinds>;
    ipexts_lax_kinds = chain::<LaxKinds>;
    ipexts_cursor_fragment = chain::<LaxFragment>;
    ipexts_lax_fragment = chain::<LaxFragment>;
    ipexts_lax_struct = chain::<LaxStruct>;
    ipexts_strict_struct = chain::<StrictStruct>;
    ipexts_runs = original::runs;
    ipexts_ipv4_lax = original_ipv4::lax;
    ipexts_ipv4_strict = original_ipv4::strict;
    ipexts_ipv4_filter = original_ipv4::filter;
    ipexts_ipv4_owned_lax = original_ipv4::owned_lax;
    ipexts_ipv4_owned_strict = original_ipv4::owned_strict;
    ipexts_ipv4_read = original_reads::ipv4_read;
    ipexts_struct_read = chain::<StructRead>;
    ipexts_struct_read_limited = chain::<StructReadLimited>;
}

calls! { PacketLoop:
    ipexts_lax_packets = packets::<Lax>;
    ipexts_lax_headers_packets = packets::<LaxHeaders>;
    ipexts_strict_packets = packets::<Strict>;
    ipexts_lax_filter_packets = packets::<LaxFilter>;
    ipexts_lax_headers_filter_packets = packets::<LaxHeadersFilter>;
    ipexts_strict_filter_packets = packets::<StrictFilter>;
    ipexts_cursor_kinds_packets = packets::<LaxKinds>;
    ipexts_lax_kinds_packets = packets::<LaxKinds>;
    ipexts_cursor_fragment_packets = packets::<LaxFragment>;
    ipexts_lax_fragment_packets = packets::<LaxFragment>;
    ipexts_lax_struct_packets = packets::<LaxStruct>;
    ipexts_strict_struct_packets = packets::<StrictStruct>;
    ipexts_ip_packets = original_slices::packets::<Ip>;
    ipexts_ip_filter_packets = original_slices::packets::<IpFilter>;
    ipexts_ipv4_slice_packets = original_slices::packets::<Ipv4>;
    ipexts_ipv4_slice_filter_packets = original_slices::packets::<Ipv4Filter>;
    ipexts_ipv6_slice_packets = original_slices::packets::<Ipv6>;
    ipexts_ipv6_slice_filter_packets = original_slices::packets::<Ipv6Filter>;
    ipexts_ipv6_slice_lax_packets = original_slices::packets::<Ipv6Lax>;
    ipexts_ipv6_slice_lax_filter_packets = original_slices::packets::<Ipv6LaxFilter>;
    ipexts_dissect_packets = original_slices::packets::<Dissected>;
    ipexts_summarize_packets = original_slices::packets::<Summarized>;
    ipexts_find_payload_packets = original_slices::packets::<IpPlace>;
    ipexts_fragmented_packets = original_slices::packets::<Fragmented>;
    ipexts_struct_read_packets = packets::<StructRead>;
    ipexts_struct_read_limited_packets = packets::<StructReadLimited>;
}

calls! { PacketCall:
    ipexts_ip = original_slices::packet::<Ip>;
    ipexts_ip_filter = original_slices::packet::<IpFilter>;
    ipexts_ipv4_slice = original_slices::packet::<Ipv4>;
    ipexts_ipv4_slice_filter = original_slices::packet::<Ipv4Filter>;
    ipexts_ipv6_slice = original_slices::packet::<Ipv6>;
    ipexts_ipv6_slice_filter = original_slices::packet::<Ipv6Filter>;
    ipexts_ipv6_slice_lax = original_slices::packet::<Ipv6Lax>;
    ipexts_ipv6_slice_lax_filter = original_slices::packet::<Ipv6LaxFilter>;
}

calls! { HeaderCall:
    ipexts_raw_borrowed = original::raw_borrowed;
    ipexts_raw_owned = original::raw_owned;
    ipexts_auth_borrowed = original::auth_borrowed;
    ipexts_auth_owned = original::auth_owned;
    ipexts_fragment_borrowed = original::fragment_borrowed;
    ipexts_fragment_owned = original::fragment_owned;
    ipexts_raw_filter = original::raw_filter;
    ipexts_auth_filter = original::auth_filter;
    ipexts_fragment_filter = original::fragment_filter;
    ipexts_raw_read = original_reads::raw_read;
    ipexts_raw_read_limited = original_reads::raw_read_limited;
    ipexts_auth_read = original_reads::auth_read;
    ipexts_auth_read_limited = original_reads::auth_read_limited;
    ipexts_fragment_read = original_reads::fragment_read;
    ipexts_fragment_read_limited = original_reads::fragment_read_limited;
}

calls! { RepeatedCall:
    ipexts_struct_next_header = original::struct_next_header;
    ipexts_struct_set_next_headers = original::struct_set_next_headers;
    ipexts_struct_write = original::struct_write;
    ipexts_struct_write_new = original::struct_write_new;
    ipexts_raw_to_bytes = original::raw_to_bytes;
    ipexts_auth_to_bytes = original::auth_to_bytes;
    ipexts_fragment_to_bytes = original::fragment_to_bytes;
    ipexts_raw_write = original::raw_write;
    ipexts_auth_write = original::auth_write;
    ipexts_fragment_write = original::fragment_write;
    ipexts_ipv4_write = original_ipv4::write;
}

/// A packet, dissected with its errors.
struct Dissected;

/// A packet, dissected without its errors.
struct Summarized;

/// A packet that is dissected; whether it has a fragment header is read beside the parts that a filter needs.
struct Fragmented;

impl Packet for Dissected {
    fn digest(bytes: &[u8]) -> u64 {
        of_dissection(&dissect(bytes))
    }
}

impl Packet for Summarized {
    fn digest(bytes: &[u8]) -> u64 {
        match summarize_packet(bytes) {
            Some(packet) if packet.missing == 0 => {
                let place = with(
                    u64::from(packet.next_header.0),
                    packet.extensions_len as u64,
                );
                with(place, packet.payload_len as u64)
            }
            _ => NO_PACKET,
        }
    }
}

impl Packet for Fragmented {
    fn digest(bytes: &[u8]) -> u64 {
        let packet = dissect(bytes);
        let is_ipv6 = matches!(packet.base, Some(BaseHeader::Ipv6(_)));
        if of_dissection(&packet) == u64::MAX {
            return u64::MAX;
        }
        u64::from(is_ipv6 && packet.fragment.is_some())
    }
}

/// Reads where the payload lies.
#[inline(always)]
fn of_dissection(packet: &Dissection<'_>) -> u64 {
    match packet.end {
        End::Payload | End::LaterFragment if packet.missing == 0 => {
            let place = with(
                u64::from(packet.next_header.0),
                packet.extensions.len() as u64,
            );
            with(place, packet.payload.len() as u64)
        }
        _ => NO_PACKET,
    }
}

/// Filters packets by `header 44`. The packets follow one another, and end at `ends`.
pub unsafe extern "C" fn ipexts_filter_packets(
    p: *const u8,
    len: usize,
    ends: *const usize,
    count: usize,
) -> u64 {
    let (packets, ends) = unsafe { (from_c(p, len), from_c(ends, count)) };
    let filter = Filter::parse(b"header 44").expect("it is a filter");
    let (mut start, mut sum) = (0, 0);
    for end in ends {
        let Some(packet) = packets.get(start..*end) else {
            break;
        };
        sum = with(sum, u64::from(filter.matches(packet)));
        start = *end;
    }
    sum
}
