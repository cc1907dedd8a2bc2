//! Tests what calls do whose condition doesn't hold.

use wolfaren::defragment::{
    Defragmenter, OwnedDefragmenter, DropReason, Links, Outcome, Settings, Table,
};
use wolfaren::err::{Layer, LenError};
use wolfaren::io::LimitedReader;
use wolfaren::{IpNumber, Ipv6Extensions, LenSource};

/// A reader without bytes.
const EMPTY: &[u8] = &[];

/// The fragment of an IPv6 packet with 8 bytes at offset 0, which isn't the last.
const FIRST: [u8; 56] = {
    let mut bytes = [0; 56];
    (bytes[0], bytes[5], bytes[6], bytes[40], bytes[43]) = (0x60, 16, 44, 17, 1);
    bytes
};

#[test]
fn offsets_end_at_the_largest_number() {
    let error = LenError {
        required_len: 8,
        len: 7,
        len_source: LenSource::Slice,
        layer: Layer::Ipv6FragHeader,
        layer_start_offset: 40,
    };
    let offset = |added: usize| error.clone().add_offset(added).layer_start_offset;
    assert_eq!(offset(2), 42);
    assert_eq!(offset(usize::MAX - 40), usize::MAX);
    assert_eq!(offset(usize::MAX - 39), usize::MAX);
}

#[test]
fn limits_are_lowered() {
    let of = |limit, offset| {
        let reader = LimitedReader::new(EMPTY, limit, LenSource::Slice, offset, Layer::Ipv6Header);
        (reader.max_len(), reader.layer_offset())
    };
    assert_eq!(of(100, 40), (100, 40));
    assert_eq!(of(usize::MAX, 0), (usize::MAX - 2048, 0));
    assert_eq!(of(usize::MAX, 40), (usize::MAX - 2088, 40));
    assert_eq!(of(1, usize::MAX), (0, usize::MAX - 2048));
    let mut reader = LimitedReader::new(EMPTY, 1, LenSource::Slice, usize::MAX, Layer::Ipv6Header);
    assert!(Ipv6Extensions::read_limited(&mut reader, IpNumber(0)).is_err());
}

#[test]
fn fragments_are_dropped_without_a_memory_for_each_slot() {
    let mut memory = OwnedDefragmenter::try_new(2, Settings::new([1, 2])).expect("memory");
    let mut defragmenter = memory.defragmenter();
    assert_eq!(defragmenter.add(0, 1, &FIRST).outcome, Outcome::MoreWanted);
    let Defragmenter {
        slots,
        memories,
        counts,
        settings,
    } = defragmenter;
    let mut defragmenter = Defragmenter {
        slots,
        memories: &mut memories[..1],
        counts,
        settings,
    };
    let dropped = Outcome::Dropped(DropReason::NoSlot);
    assert_eq!(defragmenter.add(0, 2, &FIRST).outcome, dropped);
    assert_eq!(defragmenter.add(1, 2, &FIRST).outcome, dropped);
    assert_eq!(defragmenter.add(0, 2, &[0x60; 3]).slot, None);
    let mut none = OwnedDefragmenter::try_new(0, Settings::new([1, 2])).expect("memory");
    assert_eq!(none.defragmenter().add(0, 1, &FIRST).outcome, dropped);
}

#[test]
fn tables_are_cleared_if_they_have_room() {
    let lens = |ages: [usize; 2], chains: [usize; 2]| {
        let [mut a, mut b] = ages.map(|len| vec![9; len]);
        let [mut c, mut d] = chains.map(|len| vec![9; len]);
        let mut table = Table {
            places: 3,
            ages: Links {
                next: &mut a,
                previous: &mut b,
            },
            chains: Links {
                next: &mut c,
                previous: &mut d,
            },
        };
        let is_cleared = table.try_clear();
        assert_eq!(table.take(0).is_some(), is_cleared && chains[0] > 3);
        is_cleared
    };
    assert!(lens([5, 5], [4, 4]) && lens([6, 6], [3, 3]));
    for (ages, chains) in [
        ([4, 4], [4, 4]),
        ([5, 6], [4, 4]),
        ([5, 5], [2, 2]),
        ([5, 5], [4, 3]),
    ] {
        assert!(!lens(ages, chains));
    }
}
