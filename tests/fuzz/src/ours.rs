//! The calls of the static library `ipexts_calls` whose digests cover every byte.
unsafe extern "C" {
    pub fn ipexts_lax_bytes(start: u8, bytes: *const u8, len: usize) -> u64;
    pub fn ipexts_strict_bytes(start: u8, bytes: *const u8, len: usize) -> u64;
    pub fn ipexts_cursor_bytes(start: u8, bytes: *const u8, len: usize) -> u64;
    pub fn ipexts_struct_bytes(start: u8, bytes: *const u8, len: usize) -> u64;
    pub fn ipexts_struct_linked_bytes(start: u8, last: u8, bytes: *const u8, len: usize) -> u64;
    pub fn ipexts_runs_bytes(start: u8, bytes: *const u8, len: usize) -> u64;
    pub fn ipexts_ipv4_bytes(start: u8, bytes: *const u8, len: usize) -> u64;
    pub fn ipexts_ip_bytes(packet: *const u8, len: usize) -> u64;
    pub fn ipexts_ipv4_slice_bytes(packet: *const u8, len: usize) -> u64;
    pub fn ipexts_ipv6_slice_bytes(packet: *const u8, len: usize) -> u64;
    pub fn ipexts_ipv6_slice_lax_bytes(packet: *const u8, len: usize) -> u64;
    pub fn ipexts_dissect_bytes(packet: *const u8, len: usize) -> u64;
}
