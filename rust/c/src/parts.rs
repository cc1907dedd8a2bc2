//! What C passes, as Rust has it.

use core::slice::{from_raw_parts, from_raw_parts_mut};
use wolfaren::captures::{CaptureFields, EnhancedPacket, Interface};
use wolfaren::chains::{CountedKey, KeyCounts};
use wolfaren::defragment::{
    Defragmenter, DefragmenterCounts, Links, PacketMemory, Settings, Slot, SlotTable, Table,
};

/// Returns the elements at a pointer, which may be null if there are none.
///
/// # Safety
///
/// So many elements are there, and nothing writes them.
pub(crate) unsafe fn slice<'a, T>(first: *const T, count: usize) -> &'a [T] {
    if count == 0 {
        return &[];
    }
    // SAFETY: the caller says so.
    unsafe { from_raw_parts(first, count) }
}

/// Returns the elements at a pointer, which may be null if there are none.
///
/// # Safety
///
/// So many elements are there, and nothing else reads or writes them.
pub(crate) unsafe fn slice_mut<'a, T>(first: *mut T, count: usize) -> &'a mut [T] {
    if count == 0 {
        return &mut [];
    }
    // SAFETY: the caller says so.
    unsafe { from_raw_parts_mut(first, count) }
}

/// `struct wolfaren_name`.
#[repr(C)]
pub struct Name {
    text: *const u8,
    size: usize,
}

/// Stores a name that a call finds.
///
/// # Safety
///
/// A name may be written at the pointer.
pub(crate) unsafe fn put_name(name: *mut Name, find: impl FnOnce(&mut &'static [u8])) {
    let mut found: &'static [u8] = &[];
    find(&mut found);
    let (text, size) = (found.as_ptr(), found.len());
    // SAFETY: the caller says so.
    unsafe { name.write(Name { text, size }) }
}

/// `struct wolfaren_capture`.
#[repr(C)]
pub struct CCapture {
    interfaces: *mut Interface,
    room: usize,
    interface_count: usize,
    offset: u64,
    limit: u32,
    snap_len: u32,
    link_type: u16,
    form: u8,
    byte_order: u8,
}

/// `struct wolfaren_enhanced_packet`.
#[repr(C)]
pub struct CEnhancedPacket {
    captured: *const u8,
    captured_len: usize,
    options: *const u8,
    options_len: usize,
    ticks: u64,
    original_len: u32,
    interface: u32,
}

impl CEnhancedPacket {
    /// Returns the packet.
    ///
    /// # Safety
    ///
    /// The bytes are there, and nothing writes them.
    pub(crate) unsafe fn packet(&self) -> EnhancedPacket<'_> {
        // SAFETY: the caller says so.
        let (captured, options) = unsafe {
            (
                slice(self.captured, self.captured_len),
                slice(self.options, self.options_len),
            )
        };
        EnhancedPacket {
            captured,
            options,
            ticks: self.ticks,
            original_len: self.original_len,
            interface: self.interface,
        }
    }
}

/// Makes a call with a reader of a capture, and stores the reader as the call leaves it.
///
/// # Safety
///
/// The reader and its interfaces are there, and nothing else reads or writes them.
pub(crate) unsafe fn with_capture<T>(
    place: *mut CCapture,
    call: impl FnOnce(&mut CaptureFields<'_>) -> T,
) -> T {
    // SAFETY: the caller says so.
    let (reader, interfaces) = unsafe {
        let reader = &mut *place;
        let interfaces = slice_mut(reader.interfaces, reader.room);
        (reader, interfaces)
    };
    let mut capture = CaptureFields {
        interfaces,
        interface_count: reader.interface_count,
        offset: reader.offset,
        limit: reader.limit,
        snap_len: reader.snap_len,
        link_type: reader.link_type,
        form: reader.form,
        byte_order: reader.byte_order,
    };
    let result = call(&mut capture);
    reader.interface_count = capture.interface_count;
    reader.offset = capture.offset;
    reader.snap_len = capture.snap_len;
    reader.link_type = capture.link_type;
    reader.form = capture.form;
    reader.byte_order = capture.byte_order;
    result
}

/// `struct wolfaren_chains`.
#[repr(C)]
pub struct CChains {
    entries: *mut CountedKey,
    room: usize,
    newest: *mut u32,
    buckets: usize,
    len: usize,
    other: u64,
    seed: [u64; 2],
    recent: [u32; 64],
}

impl CChains {
    /// Returns the counts.
    ///
    /// # Safety
    ///
    /// Both arrays are there, and nothing else reads or writes them.
    pub(crate) unsafe fn counts<'a>(&self) -> KeyCounts<'a> {
        // SAFETY: the caller says so.
        unsafe {
            KeyCounts {
                entries: slice_mut(self.entries, self.room),
                newest: slice_mut(self.newest, self.buckets),
                len: self.len,
                other: self.other,
                seed: self.seed,
                recent: self.recent,
            }
        }
    }
}

/// Makes a call with counts of chains, and stores the counts as the call leaves them.
///
/// # Safety
///
/// The counts and both arrays are there, and nothing else reads or writes them.
pub(crate) unsafe fn with_chains<T>(
    place: *mut CChains,
    call: impl FnOnce(&mut KeyCounts<'_>) -> T,
) -> T {
    // SAFETY: the caller says so.
    let (stored, mut counts) = unsafe { (&mut *place, (*place).counts()) };
    let result = call(&mut counts);
    stored.len = counts.len;
    stored.other = counts.other;
    stored.recent = counts.recent;
    result
}

/// `struct wolfaren_links`.
#[repr(C)]
struct CLinks {
    next: *mut u32,
    next_count: usize,
    previous: *mut u32,
    previous_count: usize,
}

/// `struct wolfaren_defragmenter`.
#[repr(C)]
pub struct CDefragmenter {
    slots: *mut Slot,
    slot_count: usize,
    places: u32,
    ages: CLinks,
    chains: CLinks,
    memories: *mut PacketMemory,
    memory_count: usize,
    counts: *mut DefragmenterCounts,
    settings: Settings,
}

impl CLinks {
    /// Returns the links.
    ///
    /// # Safety
    ///
    /// Both arrays are there, and nothing else reads or writes them.
    unsafe fn links<'a>(&self) -> Links<'a> {
        // SAFETY: the caller says so.
        unsafe {
            Links {
                next: slice_mut(self.next, self.next_count),
                previous: slice_mut(self.previous, self.previous_count),
            }
        }
    }
}

impl CDefragmenter {
    /// Returns the defragmenter. No call changes its lengths or settings.
    ///
    /// # Safety
    ///
    /// All its parts are there. Nothing else reads or writes them or, if the call only reads, nothing writes them.
    pub(crate) unsafe fn defragmenter<'a>(&self) -> Defragmenter<'a> {
        // SAFETY: the caller says so.
        unsafe {
            let table = Table {
                places: self.places,
                ages: self.ages.links(),
                chains: self.chains.links(),
            };
            let slots = slice_mut(self.slots, self.slot_count);
            Defragmenter {
                slots: SlotTable { slots, table },
                memories: slice_mut(self.memories, self.memory_count),
                counts: &mut *self.counts,
                settings: self.settings,
            }
        }
    }
}
