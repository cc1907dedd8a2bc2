//! Calls the library directly, as a C program does: one call per packet, with room for 16 headers.
use crate::sums::{of_bytes, of_ipv4_addr, of_ipv6_addr, of_place, with, Digest, NO_PACKET};
use std::mem::MaybeUninit;
use std::net::{Ipv4Addr, Ipv6Addr};
use std::slice;

/// The length of the array for headers.
pub const ROOM: usize = 16;

#[repr(C)]
pub struct Fault {
    required_len: usize,
    len: usize,
    offset: usize,
    kind: u8,
    header: u8,
    layer: u8,
    len_source: u8,
    value: u32,
}

#[repr(C)]
pub struct Header {
    offset: usize,
    len: usize,
    number: u8,
    next_header: u8,
}

#[repr(C)]
struct Payload {
    base_len: usize,
    offset: usize,
    len: usize,
    version: u16,
    number: u16,
    fragmented: u16,
    len_source: u16,
}

#[repr(C)]
struct Packet {
    base_len: usize,
    headers: usize,
    payload_offset: usize,
    payload_len: usize,
    version: u16,
    payload_number: u16,
    fragmented: u16,
    len_source: u16,
}

unsafe extern "C" {
    fn wolfaren_find_payload(
        bytes: *const u8,
        len: usize,
        payload: *mut Payload,
        fault: *mut Fault,
    ) -> bool;

    fn wolfaren_parse_packet(
        bytes: *const u8,
        len: usize,
        headers: *mut Header,
        room: usize,
        packet: *mut Packet,
        fault: *mut Fault,
    ) -> bool;

    /// Links the bytes that move the library.
    pub fn wolfaren_shift();
}

/// A packet, and room for its first headers.
struct Room {
    packet: MaybeUninit<Packet>,
    fault: MaybeUninit<Fault>,
    headers: [MaybeUninit<Header>; ROOM],
}

impl Room {
    #[inline(always)]
    fn new() -> Room {
        Room {
            packet: MaybeUninit::uninit(),
            fault: MaybeUninit::uninit(),
            headers: [const { MaybeUninit::uninit() }; ROOM],
        }
    }

    /// Parses the packet at the start of the bytes.
    #[inline(always)]
    fn parse(&mut self, bytes: &[u8]) -> Option<(&Packet, &[Header])> {
        // SAFETY: all pointers and lengths are those of borrowed values. If the library returns true, it has
        // filled in the packet, and as many headers as it counts or as fit.
        unsafe {
            if !wolfaren_parse_packet(
                bytes.as_ptr(),
                bytes.len(),
                self.headers.as_mut_ptr().cast(),
                ROOM,
                self.packet.as_mut_ptr(),
                self.fault.as_mut_ptr(),
            ) {
                return None;
            }
            let packet = self.packet.assume_init_ref();
            Some((packet, written(&self.headers, packet.headers)))
        }
    }
}

/// Returns the headers that were written, as many of the counted ones as fit.
///
/// # Safety
///
/// The library must have written them.
#[inline(always)]
pub unsafe fn written(headers: &[MaybeUninit<Header>], count: usize) -> &[Header] {
    // SAFETY: as above; there are at least as many elements.
    unsafe { slice::from_raw_parts(headers.as_ptr().cast(), count.min(headers.len())) }
}

/// Reads the fields that a filter needs.
pub struct Filter;

/// Reads where the payload lies.
pub struct Place;

/// Reads where the payload and each header lie.
pub struct Headers;

/// Reads every part of a packet and every header of its chain.
pub struct Full;

/// Finds the payload of the packet at the start of the bytes.
#[inline(always)]
fn find_payload<'a>(bytes: &[u8], room: &'a mut MaybeUninit<Payload>) -> Option<&'a Payload> {
    let mut fault = MaybeUninit::uninit();
    // SAFETY: all pointers and lengths are those of borrowed values. If the library returns true, it has
    // filled in the payload.
    unsafe {
        let is_found = wolfaren_find_payload(
            bytes.as_ptr(),
            bytes.len(),
            room.as_mut_ptr(),
            fault.as_mut_ptr(),
        );
        is_found.then(|| room.assume_init_ref())
    }
}

impl Digest for Filter {
    #[inline(always)]
    fn digest(bytes: &[u8]) -> u64 {
        let mut room = MaybeUninit::uninit();
        let Some(payload) = find_payload(bytes, &mut room) else {
            return NO_PACKET;
        };
        let flags = with(u64::from(payload.fragmented), u64::from(payload.number));
        with(flags, payload.len as u64)
    }
}

impl Digest for Place {
    #[inline(always)]
    fn digest(bytes: &[u8]) -> u64 {
        match find_payload(bytes, &mut MaybeUninit::uninit()) {
            Some(payload) => of_place(payload.number, payload.offset, payload.len),
            None => NO_PACKET,
        }
    }
}

impl Digest for Headers {
    #[inline(always)]
    fn digest(bytes: &[u8]) -> u64 {
        let mut room = Room::new();
        let Some((packet, headers)) = room.parse(bytes) else {
            return NO_PACKET;
        };
        let payload = of_place(
            packet.payload_number,
            packet.payload_offset,
            packet.payload_len,
        );
        with(payload, of_headers(headers))
    }
}

/// Returns the digest of where headers lie.
#[inline(always)]
pub fn of_headers(headers: &[Header]) -> u64 {
    headers.iter().fold(0, |sum, header| {
        with(
            sum,
            of_place(u16::from(header.number), header.offset, header.len),
        )
    })
}

impl Digest for Full {
    #[inline(always)]
    fn digest(bytes: &[u8]) -> u64 {
        let mut room = Room::new();
        match room.parse(bytes) {
            Some((packet, headers)) => of_packet(packet, headers, bytes),
            None => NO_PACKET,
        }
    }
}

/// Bytes from an offset on. As in C, there are no bounds checks: the library has checked the bounds.
#[derive(Clone, Copy)]
struct At<'a>(&'a [u8]);

impl<'a> At<'a> {
    #[inline(always)]
    fn byte(self, at: usize) -> u8 {
        debug_assert!(at < self.0.len());
        // SAFETY: the library has checked that the bytes exist.
        unsafe { *self.0.get_unchecked(at) }
    }

    #[inline(always)]
    fn array<const LEN: usize>(self, at: usize) -> [u8; LEN] {
        debug_assert!(at + LEN <= self.0.len());
        // SAFETY: as above; an array of bytes has no alignment.
        unsafe { self.0.as_ptr().add(at).cast::<[u8; LEN]>().read() }
    }

    #[inline(always)]
    fn bytes(self, at: usize, len: usize) -> At<'a> {
        debug_assert!(at + len <= self.0.len());
        // SAFETY: as above.
        At(unsafe { slice::from_raw_parts(self.0.as_ptr().add(at), len) })
    }
}

#[inline(never)]
fn of_packet(packet: &Packet, headers: &[Header], bytes: &[u8]) -> u64 {
    let bytes = At(bytes);
    let base = bytes.bytes(0, packet.base_len);
    let mut sum = with(of_bytes(base.0), of_ends(packet.version, base));
    for header in headers {
        let slice = bytes.bytes(header.offset, header.len);
        sum = match packet.version {
            4 => with(sum, of_auth(header, slice)),
            _ => with(sum, of_header(header, slice)),
        };
    }
    let kind = with(
        u64::from(packet.payload_number),
        u64::from(packet.fragmented),
    );
    let payload = bytes.bytes(packet.payload_offset, packet.payload_len);
    with(
        sum,
        with(
            with(kind, u64::from(packet.len_source)),
            of_bytes(payload.0),
        ),
    )
}

fn of_ends(version: u16, base: At<'_>) -> u64 {
    let ipv4 = |at: usize| of_ipv4_addr(Ipv4Addr::from(base.array::<4>(at)));
    let ipv6 = |at: usize| of_ipv6_addr(Ipv6Addr::from(base.array::<16>(at)));
    match version {
        4 => with(ipv4(12), ipv4(16)),
        _ => with(ipv6(8), ipv6(24)),
    }
}

#[inline(never)]
fn of_header(header: &Header, bytes: At<'_>) -> u64 {
    let fields = match header.number {
        44 => of_fragment(header, bytes),
        51 => of_auth(header, bytes),
        _ => with(
            of_front(header, bytes),
            of_bytes(bytes.bytes(2, header.len - 2).0),
        ),
    };
    with(u64::from(header.number), fields)
}

/// The bytes of a header, and its next header field.
fn of_front(header: &Header, bytes: At<'_>) -> u64 {
    with(of_bytes(bytes.0), u64::from(header.next_header))
}

fn of_fragment(header: &Header, bytes: At<'_>) -> u64 {
    let offset = u64::from(u16::from_be_bytes(bytes.array(2)) >> 3);
    let flags = with(u64::from(bytes.byte(3) & 1), offset);
    let identification = u32::from_be_bytes(bytes.array(4));
    with(
        of_front(header, bytes),
        with(flags, u64::from(identification)),
    )
}

fn of_auth(header: &Header, bytes: At<'_>) -> u64 {
    let field = |at: usize| u64::from(u32::from_be_bytes(bytes.array(at)));
    let numbers = with(field(4), field(8));
    let check_value = bytes.bytes(12, header.len - 12);
    with(
        of_front(header, bytes),
        with(numbers, of_bytes(check_value.0)),
    )
}
