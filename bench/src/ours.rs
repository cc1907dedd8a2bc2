//! The measured calls of the static library `ipexts_calls`, and those of the walk in C.

/// A call for the chain at the start of the bytes, beginning with a number.
pub type ChainCall = unsafe extern "C" fn(u8, *const u8, usize) -> u64;

/// A call for packets one after another, with the end of each.
pub type PacketLoop = unsafe extern "C" fn(*const u8, usize, *const usize, usize) -> u64;

/// A call for the packet at the start of the bytes.
pub type PacketCall = unsafe extern "C" fn(*const u8, usize) -> u64;

/// A call for a single header, with the index of the byte to read.
pub type HeaderCall = unsafe extern "C" fn(*const u8, usize, usize) -> u64;

/// A call for a single header, with the index of the byte to read and the number of repetitions.
pub type RepeatedCall = unsafe extern "C" fn(*const u8, usize, usize, u32) -> u64;

unsafe extern "C" {
    pub fn ipexts_lax(start: u8, bytes: *const u8, len: usize) -> u64;
    pub fn ipexts_lax_headers(start: u8, bytes: *const u8, len: usize) -> u64;
    pub fn ipexts_strict(start: u8, bytes: *const u8, len: usize) -> u64;
    pub fn ipexts_lax_filter(start: u8, bytes: *const u8, len: usize) -> u64;
    pub fn ipexts_lax_headers_filter(start: u8, bytes: *const u8, len: usize) -> u64;
    pub fn ipexts_strict_filter(start: u8, bytes: *const u8, len: usize) -> u64;
    pub fn ipexts_cursor_kinds(start: u8, bytes: *const u8, len: usize) -> u64;
    pub fn ipexts_lax_kinds(start: u8, bytes: *const u8, len: usize) -> u64;
    pub fn ipexts_cursor_fragment(start: u8, bytes: *const u8, len: usize) -> u64;
    pub fn ipexts_lax_fragment(start: u8, bytes: *const u8, len: usize) -> u64;

    pub fn ipexts_lax_packets(p: *const u8, len: usize, ends: *const usize, count: usize) -> u64;
    pub fn ipexts_lax_headers_packets(
        p: *const u8,
        len: usize,
        ends: *const usize,
        count: usize,
    ) -> u64;
    pub fn ipexts_strict_packets(p: *const u8, len: usize, ends: *const usize, count: usize)
        -> u64;
    pub fn ipexts_lax_filter_packets(
        p: *const u8,
        len: usize,
        ends: *const usize,
        count: usize,
    ) -> u64;
    pub fn ipexts_lax_headers_filter_packets(
        p: *const u8,
        len: usize,
        ends: *const usize,
        count: usize,
    ) -> u64;
    pub fn ipexts_strict_filter_packets(
        p: *const u8,
        len: usize,
        ends: *const usize,
        count: usize,
    ) -> u64;

    pub fn ipexts_cursor_kinds_packets(
        p: *const u8,
        len: usize,
        ends: *const usize,
        count: usize,
    ) -> u64;
    pub fn ipexts_lax_kinds_packets(
        p: *const u8,
        len: usize,
        ends: *const usize,
        count: usize,
    ) -> u64;
    pub fn ipexts_cursor_fragment_packets(
        p: *const u8,
        len: usize,
        ends: *const usize,
        count: usize,
    ) -> u64;
    pub fn ipexts_lax_fragment_packets(
        p: *const u8,
        len: usize,
        ends: *const usize,
        count: usize,
    ) -> u64;

    pub fn ipexts_lax_struct(start: u8, bytes: *const u8, len: usize) -> u64;
    pub fn ipexts_strict_struct(start: u8, bytes: *const u8, len: usize) -> u64;
    pub fn ipexts_lax_struct_packets(
        p: *const u8,
        len: usize,
        ends: *const usize,
        count: usize,
    ) -> u64;
    pub fn ipexts_strict_struct_packets(
        p: *const u8,
        len: usize,
        ends: *const usize,
        count: usize,
    ) -> u64;

    pub fn ipexts_runs(start: u8, bytes: *const u8, len: usize) -> u64;
    pub fn ipexts_struct_next_header(bytes: *const u8, len: usize, at: usize, times: u32) -> u64;
    pub fn ipexts_struct_set_next_headers(
        bytes: *const u8,
        len: usize,
        at: usize,
        times: u32,
    ) -> u64;
    pub fn ipexts_struct_write(bytes: *const u8, len: usize, at: usize, times: u32) -> u64;
    pub fn ipexts_struct_write_new(bytes: *const u8, len: usize, at: usize, times: u32) -> u64;

    pub fn ipexts_raw_borrowed(bytes: *const u8, len: usize, at: usize) -> u64;
    pub fn ipexts_raw_owned(bytes: *const u8, len: usize, at: usize) -> u64;
    pub fn ipexts_auth_borrowed(bytes: *const u8, len: usize, at: usize) -> u64;
    pub fn ipexts_auth_owned(bytes: *const u8, len: usize, at: usize) -> u64;
    pub fn ipexts_fragment_borrowed(bytes: *const u8, len: usize, at: usize) -> u64;
    pub fn ipexts_fragment_owned(bytes: *const u8, len: usize, at: usize) -> u64;

    pub fn ipexts_raw_filter(bytes: *const u8, len: usize, at: usize) -> u64;
    pub fn ipexts_auth_filter(bytes: *const u8, len: usize, at: usize) -> u64;
    pub fn ipexts_fragment_filter(bytes: *const u8, len: usize, at: usize) -> u64;

    pub fn ipexts_raw_to_bytes(bytes: *const u8, len: usize, at: usize, times: u32) -> u64;
    pub fn ipexts_auth_to_bytes(bytes: *const u8, len: usize, at: usize, times: u32) -> u64;
    pub fn ipexts_fragment_to_bytes(bytes: *const u8, len: usize, at: usize, times: u32) -> u64;
    pub fn ipexts_raw_write(bytes: *const u8, len: usize, at: usize, times: u32) -> u64;
    pub fn ipexts_auth_write(bytes: *const u8, len: usize, at: usize, times: u32) -> u64;
    pub fn ipexts_fragment_write(bytes: *const u8, len: usize, at: usize, times: u32) -> u64;

    pub fn ipexts_ipv4_lax(start: u8, bytes: *const u8, len: usize) -> u64;
    pub fn ipexts_ipv4_strict(start: u8, bytes: *const u8, len: usize) -> u64;
    pub fn ipexts_ipv4_filter(start: u8, bytes: *const u8, len: usize) -> u64;
    pub fn ipexts_ipv4_owned_lax(start: u8, bytes: *const u8, len: usize) -> u64;
    pub fn ipexts_ipv4_owned_strict(start: u8, bytes: *const u8, len: usize) -> u64;
    pub fn ipexts_ipv4_write(bytes: *const u8, len: usize, at: usize, times: u32) -> u64;

    pub fn ipexts_ip(packet: *const u8, len: usize) -> u64;
    pub fn ipexts_ip_filter(packet: *const u8, len: usize) -> u64;
    pub fn ipexts_ipv4_slice(packet: *const u8, len: usize) -> u64;
    pub fn ipexts_ipv4_slice_filter(packet: *const u8, len: usize) -> u64;
    pub fn ipexts_ipv6_slice(packet: *const u8, len: usize) -> u64;
    pub fn ipexts_ipv6_slice_filter(packet: *const u8, len: usize) -> u64;
    pub fn ipexts_ipv6_slice_lax(packet: *const u8, len: usize) -> u64;
    pub fn ipexts_ipv6_slice_lax_filter(packet: *const u8, len: usize) -> u64;

    pub fn ipexts_ip_packets(p: *const u8, len: usize, ends: *const usize, count: usize) -> u64;
    pub fn ipexts_ip_filter_packets(
        p: *const u8,
        len: usize,
        ends: *const usize,
        count: usize,
    ) -> u64;
    pub fn ipexts_ipv4_slice_packets(
        p: *const u8,
        len: usize,
        ends: *const usize,
        count: usize,
    ) -> u64;
    pub fn ipexts_ipv4_slice_filter_packets(
        p: *const u8,
        len: usize,
        ends: *const usize,
        count: usize,
    ) -> u64;
    pub fn ipexts_ipv6_slice_packets(
        p: *const u8,
        len: usize,
        ends: *const usize,
        count: usize,
    ) -> u64;
    pub fn ipexts_ipv6_slice_filter_packets(
        p: *const u8,
        len: usize,
        ends: *const usize,
        count: usize,
    ) -> u64;
    pub fn ipexts_ipv6_slice_lax_packets(
        p: *const u8,
        len: usize,
        ends: *const usize,
        count: usize,
    ) -> u64;
    pub fn ipexts_ipv6_slice_lax_filter_packets(
        p: *const u8,
        len: usize,
        ends: *const usize,
        count: usize,
    ) -> u64;

    pub fn ipexts_dissect_packets(
        p: *const u8,
        len: usize,
        ends: *const usize,
        count: usize,
    ) -> u64;
    pub fn ipexts_summarize_packets(
        p: *const u8,
        len: usize,
        ends: *const usize,
        count: usize,
    ) -> u64;
    pub fn ipexts_find_payload_packets(
        p: *const u8,
        len: usize,
        ends: *const usize,
        count: usize,
    ) -> u64;
    pub fn ipexts_filter_packets(p: *const u8, len: usize, ends: *const usize, count: usize)
        -> u64;
    pub fn ipexts_fragmented_packets(
        p: *const u8,
        len: usize,
        ends: *const usize,
        count: usize,
    ) -> u64;

    pub fn ipexts_raw_read(bytes: *const u8, len: usize, at: usize) -> u64;
    pub fn ipexts_raw_read_limited(bytes: *const u8, len: usize, at: usize) -> u64;
    pub fn ipexts_auth_read(bytes: *const u8, len: usize, at: usize) -> u64;
    pub fn ipexts_auth_read_limited(bytes: *const u8, len: usize, at: usize) -> u64;
    pub fn ipexts_fragment_read(bytes: *const u8, len: usize, at: usize) -> u64;
    pub fn ipexts_fragment_read_limited(bytes: *const u8, len: usize, at: usize) -> u64;
    pub fn ipexts_ipv4_read(start: u8, bytes: *const u8, len: usize) -> u64;
    pub fn ipexts_struct_read(start: u8, bytes: *const u8, len: usize) -> u64;
    pub fn ipexts_struct_read_limited(start: u8, bytes: *const u8, len: usize) -> u64;
    pub fn ipexts_struct_read_packets(
        p: *const u8,
        len: usize,
        ends: *const usize,
        count: usize,
    ) -> u64;
    pub fn ipexts_struct_read_limited_packets(
        p: *const u8,
        len: usize,
        ends: *const usize,
        count: usize,
    ) -> u64;

    pub fn walk_chain(start: u8, bytes: *const u8, len: usize) -> u64;
    pub fn walk_packets(p: *const u8, len: usize, ends: *const usize, count: usize) -> u64;

    /// Links the bytes that move the library.
    pub fn ipexts_shift();
}
