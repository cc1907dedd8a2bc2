//! A defragmenter with memory on the heap.

use crate::ip_defragmenter::{
    Added, Defragmenter, DefragmenterCounts, PacketMemory, Settings, Slot, SlotTable, WholeError,
};
use crate::ip_lists::{Links, Table};
use alloc::collections::TryReserveError;
use alloc::vec::Vec;
use core::fmt;

/// Makes packets whole from their fragments, as `Defragmenter` does, with its slots, memories and counts on the heap.
///
/// ```
/// use wolfaren::defragment::{Outcome, OwnedDefragmenter, Settings};
///
/// // Two fragments with 8 bytes of payload each, and a fragment header of UDP.
/// let mut first = [0; 56];
/// (first[0], first[5], first[6], first[40], first[43]) = (0x60, 16, 44, 17, 1);
/// let mut last = first;
/// last[43] = 8;
/// // A program that listens to a network takes two random numbers.
/// let mut defragmenter = OwnedDefragmenter::try_new(16, Settings::new([1, 2])).unwrap();
/// assert_eq!(defragmenter.add(0, 0, &last).outcome, Outcome::MoreWanted);
/// assert_eq!(defragmenter.add(0, 1, &first).outcome, Outcome::Whole(0));
/// let mut packet = [0; OwnedDefragmenter::PACKET_ROOM];
/// assert_eq!(defragmenter.write(0, &mut packet), Ok(Some(56)));
/// assert_eq!((packet[5], packet[6]), (16, 17));
/// ```
pub struct OwnedDefragmenter {
    places: u32,
    slots: Vec<Slot>,
    memories: Vec<PacketMemory>,
    ages: [Vec<u32>; 2],
    chains: [Vec<u32>; 2],
    counts: DefragmenterCounts,
    settings: Settings,
}

impl fmt::Debug for OwnedDefragmenter {
    fn fmt(&self, f: &mut fmt::Formatter<'_>) -> fmt::Result {
        f.debug_struct("OwnedDefragmenter")
            .field("places", &self.places)
            .finish_non_exhaustive()
    }
}

/// Returns so many values.
fn filled<T>(count: usize, value: impl FnMut() -> T) -> Result<Vec<T>, TryReserveError> {
    let mut values = Vec::new();
    values.try_reserve_exact(count)?;
    values.resize_with(count, value);
    Ok(values)
}

/// Returns an array of so many places for links, and another one.
fn links(count: usize) -> Result<[Vec<u32>; 2], TryReserveError> {
    Ok([filled(count, || 0)?, filled(count, || 0)?])
}

impl OwnedDefragmenter {
    /// A length in bytes that is enough for each whole packet.
    pub const PACKET_ROOM: usize = 65_575;

    /// Returns a defragmenter for so many incomplete packets at a time. Each takes 73 KB. Returns an error if there is no
    /// such memory.
    pub fn try_new(packets: u32, settings: Settings) -> Result<OwnedDefragmenter, TryReserveError> {
        let count = packets as usize;
        let mut made = OwnedDefragmenter {
            places: packets,
            // the largest part is first, so that the numbers below don't overflow
            memories: filled(count, PacketMemory::new)?,
            slots: filled(count, Slot::free)?,
            ages: links(count + 2)?,
            chains: links(2 * count + 1)?,
            counts: DefragmenterCounts::new(),
            settings,
        };
        made.defragmenter().clear();
        Ok(made)
    }

    /// Returns a defragmenter over this memory, with the packets and counts that are there.
    pub fn defragmenter(&mut self) -> Defragmenter<'_> {
        let [next, previous] = &mut self.ages;
        let ages = Links { next, previous };
        let [next, previous] = &mut self.chains;
        let chains = Links { next, previous };
        Defragmenter {
            slots: SlotTable {
                slots: &mut self.slots,
                table: Table {
                    places: self.places,
                    ages,
                    chains,
                },
            },
            memories: &mut self.memories,
            counts: &mut self.counts,
            settings: self.settings,
        }
    }

    /// Adds the packet at the start of `bytes`, which arrived in this context at this time, in nanoseconds. Calls
    /// `Defragmenter::add`. If its packet is whole, `write` writes it, until another packet has its slot.
    pub fn add(&mut self, context: u32, time: u64, bytes: &[u8]) -> Added {
        self.defragmenter().add(context, time, bytes)
    }

    /// Gives up the packets that aren't whole after the timeout, as of this time, in nanoseconds. Returns how many there
    /// were.
    pub fn give_up(&mut self, time: u64) -> usize {
        let Defragmenter {
            mut slots,
            counts,
            settings,
            ..
        } = self.defragmenter();
        let indices = 0..slots.slots.len();
        let losses = indices.filter_map(|index| slots.give_up(index, settings.timeout, time));
        losses.map(|loss| counts.count_loss(&loss)).count()
    }

    /// Writes the whole packet of a slot to the start of `out`, and returns its length in bytes, or `None` if there is no
    /// such slot or its packet isn't whole. Calls `PacketMemory::write`, and returns its error.
    pub fn write(&self, slot: usize, out: &mut [u8]) -> Result<Option<usize>, WholeError> {
        self.memories
            .get(slot)
            .map_or(Ok(None), |memory| memory.write(out))
    }

    /// Returns how many packets had each outcome, and how many were given up.
    pub fn counts(&self) -> &DefragmenterCounts {
        &self.counts
    }
}
