//! The calls of the static library `ipexts_calls` that return the parts of single headers.

/// A header, or the error, as returned by the library.
#[repr(C)]
#[derive(Clone, Copy, Debug, Default, PartialEq, Eq)]
pub struct Header {
    /// 0: none; 1: too few bytes; 2: the length field of an authentication header is 0; 3 to 5: a payload or check
    /// value is too short, too long, or not a whole number of units.
    pub fault: u8,
    pub source: u8,
    pub layer: u8,
    pub next_header: u8,
    /// 1: more fragments; 2: the payload is a fragment.
    pub flags: u8,
    /// The security parameters index, or the identification.
    pub number: u32,
    /// The sequence number, or the fragment offset.
    pub second_number: u32,
    pub required_len: usize,
    pub found_len: usize,
    pub offset: usize,
    pub header_len: usize,
    /// The length of the payload or of the check value.
    pub payload_len: usize,
    pub rest_len: usize,
    /// The number of bytes that `to_bytes` returned.
    pub spelled_len: usize,
    /// The number of bytes that `write` appended.
    pub written_len: usize,
}

unsafe extern "C" {
    pub fn ipexts_raw_borrowed_fields(
        bytes: *const u8,
        len: usize,
        payload: *mut u8,
        payload_room: usize,
        out: *mut Header,
    );
    pub fn ipexts_auth_borrowed_fields(
        bytes: *const u8,
        len: usize,
        icv: *mut u8,
        icv_room: usize,
        out: *mut Header,
    );
    pub fn ipexts_fragment_borrowed_fields(bytes: *const u8, len: usize, out: *mut Header);
    pub fn ipexts_raw_owned_fields(
        bytes: *const u8,
        len: usize,
        payload: *mut u8,
        payload_room: usize,
        spelled: *mut u8,
        spelled_room: usize,
        written: *mut u8,
        written_room: usize,
        out: *mut Header,
    );
    pub fn ipexts_auth_owned_fields(
        bytes: *const u8,
        len: usize,
        icv: *mut u8,
        icv_room: usize,
        spelled: *mut u8,
        spelled_room: usize,
        written: *mut u8,
        written_room: usize,
        out: *mut Header,
    );
    pub fn ipexts_fragment_owned_fields(
        bytes: *const u8,
        len: usize,
        spelled: *mut u8,
        spelled_room: usize,
        written: *mut u8,
        written_room: usize,
        out: *mut Header,
    );
    pub fn ipexts_raw_new(
        next_header: u8,
        payload: *const u8,
        payload_len: usize,
        kept: *mut u8,
        kept_room: usize,
        spelled: *mut u8,
        spelled_room: usize,
        written: *mut u8,
        written_room: usize,
        out: *mut Header,
    );
    pub fn ipexts_auth_new(
        next_header: u8,
        spi: u32,
        sequence_number: u32,
        raw_icv: *const u8,
        icv_len: usize,
        kept: *mut u8,
        kept_room: usize,
        spelled: *mut u8,
        spelled_room: usize,
        written: *mut u8,
        written_room: usize,
        out: *mut Header,
    );
}

/// The result of a read, as returned by the library.
#[repr(C)]
#[derive(Clone, Copy, Debug, Default, PartialEq, Eq)]
pub struct Read {
    /// 0: none; 1: the limit leaves too few bytes; 2: the length field of an authentication header is 0; 3:
    /// hop-by-hop options aren't first; 4: the reader failed.
    pub fault: u8,
    pub source: u8,
    pub layer: u8,
    /// The number after the headers.
    pub next_header: u8,
    /// The places that have a header, one bit for each.
    pub places: u8,
    pub required_len: usize,
    pub found_len: usize,
    pub offset: usize,
    /// The number of bytes that `write` appends for the value.
    pub written_len: usize,
    /// The number of bytes not yet read; not set if the reader failed.
    pub left: usize,
    pub limit: Limit,
}

/// The state of a limited reader.
#[repr(C)]
#[derive(Clone, Copy, Debug, Default, PartialEq, Eq)]
pub struct Limit {
    pub source: u8,
    pub layer: u8,
    pub max_len: usize,
    pub layer_offset: usize,
    pub read_len: usize,
}

/// The initial state of a limited reader.
#[repr(C)]
#[derive(Clone, Copy, Debug)]
pub struct Start {
    /// 0: the slice; 1: an IPv4 header; 2: an IPv6 header.
    pub source: u8,
    pub max_len: u32,
    pub layer_offset: u32,
    /// The number of bytes that are read before the header, in the layer in which the reader begins.
    pub before: u8,
}

unsafe extern "C" {
    pub fn ipexts_read_fields(
        kind: u8,
        start: u8,
        is_over: bool,
        bytes: *const u8,
        len: usize,
        written: *mut u8,
        written_room: usize,
        out: *mut Read,
    );
    pub fn ipexts_read_limited_fields(
        kind: u8,
        start: u8,
        is_over: bool,
        limit: *const Start,
        bytes: *const u8,
        len: usize,
        written: *mut u8,
        written_room: usize,
        out: *mut Read,
    );

    pub fn ipexts_filter(
        text: *const u8,
        text_len: usize,
        packet: *const u8,
        packet_len: usize,
    ) -> u64;
}
