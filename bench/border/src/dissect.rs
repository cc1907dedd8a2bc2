//! Dissects packets with the library, as a C program does, and walks them in C.
use crate::c::{of_headers, written, Fault, Header, ROOM};
use crate::sums::{of_base, of_place, with, Digest, NO_PACKET};
use std::mem::MaybeUninit;

/// The greatest `end` of a packet without an error: `WOLFAREN_AT_LATER_FRAGMENT`.
const AT_LATER_FRAGMENT: u16 = 1;

#[repr(C)]
struct Dissection {
    base_len: usize,
    stated_len: usize,
    headers: usize,
    payload_offset: usize,
    payload_len: usize,
    missing: usize,
    padding: usize,
    fault: Fault,
    identification: u32,
    fragment_offset: u32,
    version: u16,
    payload_number: u16,
    fragment: u16,
    end: u16,
}

unsafe extern "C" {
    fn wolfaren_dissect(
        bytes: *const u8,
        len: usize,
        headers: *mut Header,
        room: usize,
        dissection: *mut Dissection,
    );

    fn walk_packet(bytes: *const u8, len: usize) -> u64;
}

/// Room for a dissection and the first headers.
struct Room<const LEN: usize> {
    dissection: MaybeUninit<Dissection>,
    headers: [MaybeUninit<Header>; LEN],
}

impl<const LEN: usize> Room<LEN> {
    #[inline(always)]
    fn new() -> Room<LEN> {
        Room {
            dissection: MaybeUninit::uninit(),
            headers: [const { MaybeUninit::uninit() }; LEN],
        }
    }

    /// Dissects the packet at the start of the bytes.
    #[inline(always)]
    fn dissect(&mut self, bytes: &[u8]) -> (&Dissection, &[Header]) {
        // SAFETY: all pointers and lengths are those of borrowed values. The library fills in the dissection, and as
        // many headers as it counts or as fit.
        unsafe {
            wolfaren_dissect(
                bytes.as_ptr(),
                bytes.len(),
                self.headers.as_mut_ptr().cast(),
                LEN,
                self.dissection.as_mut_ptr(),
            );
            let dissection = self.dissection.assume_init_ref();
            (dissection, written(&self.headers, dissection.headers))
        }
    }
}

/// Reads where the payload of a complete packet lies, without room for headers.
pub struct Place;

/// Reads where the payload of a complete packet and each of its headers lie.
pub struct Headers;

/// Reads what packets with an error and without one have in common, the version and the length of the base header, with
/// room for this many headers.
pub struct Base<const LEN: usize>;

/// Reads whether an IPv6 packet has a fragment header, without room for headers.
pub struct Fragmented;

/// Finds the payload of a complete packet in C.
pub struct Walk;

impl Digest for Place {
    #[inline(always)]
    fn digest(bytes: &[u8]) -> u64 {
        of_payload(Room::<0>::new().dissect(bytes).0).unwrap_or(NO_PACKET)
    }
}

impl Digest for Headers {
    #[inline(always)]
    fn digest(bytes: &[u8]) -> u64 {
        let mut room = Room::<ROOM>::new();
        let (dissection, headers) = room.dissect(bytes);
        match of_payload(dissection) {
            Some(payload) => with(payload, of_headers(headers)),
            None => NO_PACKET,
        }
    }
}

impl<const LEN: usize> Digest for Base<LEN> {
    #[inline(always)]
    fn digest(bytes: &[u8]) -> u64 {
        let mut room = Room::<LEN>::new();
        let (dissection, _) = room.dissect(bytes);
        of_base(dissection.version, dissection.base_len)
    }
}

impl Digest for Fragmented {
    #[inline(always)]
    fn digest(bytes: &[u8]) -> u64 {
        let mut room = Room::<0>::new();
        let (dissection, _) = room.dissect(bytes);
        u64::from(dissection.version == 6 && dissection.fragment != 0)
    }
}

impl Digest for Walk {
    #[inline(always)]
    fn digest(bytes: &[u8]) -> u64 {
        // SAFETY: the pointer and the length are those of a borrowed value.
        unsafe { walk_packet(bytes.as_ptr(), bytes.len()) }
    }
}

/// Returns the digest of where the payload lies, if the headers end without an error and no byte is missing.
#[inline(always)]
fn of_payload(dissection: &Dissection) -> Option<u64> {
    if dissection.end > AT_LATER_FRAGMENT || dissection.missing != 0 {
        return None;
    }
    Some(of_place(
        dissection.payload_number,
        dissection.payload_offset,
        dissection.payload_len,
    ))
}
