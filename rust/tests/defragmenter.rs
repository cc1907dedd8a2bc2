//! Tests `OwnedDefragmenter` with fragments made here, by RFC 8200, section 4.5, and RFC 791, section 3.2.
use wolfaren::defragment::{
    AddError, DropReason, FragmentError, LossReason, Outcome, OwnedDefragmenter, Settings,
    StoreError,
};

/// Why a fragment is refused, as its packet's payload.
const fn payload(error: AddError) -> Outcome {
    Outcome::Dropped(DropReason::Refused(StoreError::Payload(error)))
}

/// Returns a defragmenter of so many slots.
fn of_slots(slots: u32) -> OwnedDefragmenter {
    OwnedDefragmenter::try_new(slots, Settings::new([7, 8])).expect("memory")
}

/// A fragment of an IPv6 packet with 16 bytes of the payload that counts from 0 on.
fn piece(identification: u32, number: u8, more: bool) -> Vec<u8> {
    let mut bytes = vec![0; 48];
    (bytes[0], bytes[5], bytes[6], bytes[40]) = (0x60, 24, 44, 17);
    bytes[43] = (number * 16) | u8::from(more);
    bytes[44..48].copy_from_slice(&identification.to_be_bytes());
    bytes.extend(number * 16..number * 16 + 16);
    bytes
}

/// The whole packet of so many pieces.
fn whole(pieces: u8) -> Vec<u8> {
    let mut bytes = vec![0; 40];
    (bytes[0], bytes[5], bytes[6]) = (0x60, 16 * pieces, 17);
    bytes.extend(0..16 * pieces);
    bytes
}

/// Returns the packet in a slot.
fn packet_in(defragmenter: &OwnedDefragmenter, slot: Option<usize>) -> Vec<u8> {
    let mut out = vec![0; OwnedDefragmenter::PACKET_ROOM];
    let len = slot.and_then(|slot| defragmenter.write(slot, &mut out).expect("room"));
    out.truncate(len.unwrap_or(0));
    out
}

#[test]
fn any_order() {
    let mut defragmenter = of_slots(64);
    let orders = [
        [0, 1, 2],
        [0, 2, 1],
        [1, 0, 2],
        [1, 2, 0],
        [2, 0, 1],
        [2, 1, 0],
    ];
    for (identification, order) in (1..).zip(orders) {
        for number in &order[..2] {
            let added = defragmenter.add(0, 0, &piece(identification, *number, *number < 2));
            assert_eq!(
                (added.outcome, added.lost.map(|it| it.reason)),
                (Outcome::MoreWanted, None)
            );
            assert_eq!(packet_in(&defragmenter, added.slot), []);
        }
        let added = defragmenter.add(0, 0, &piece(identification, order[2], order[2] < 2));
        assert!(matches!(added.outcome, Outcome::Whole(_)));
        assert_eq!(packet_in(&defragmenter, added.slot), whole(3));
    }
    assert_eq!(defragmenter.counts().of(Outcome::Whole(0)), 6);
    assert_eq!(defragmenter.counts().of(Outcome::MoreWanted), 12);
}

#[test]
fn refused_memory() {
    // It takes more bytes than the addresses of a process.
    assert!(OwnedDefragmenter::try_new(u32::MAX, Settings::new([0; 2])).is_err());
}

#[test]
fn losses_and_drops() {
    let mut defragmenter = of_slots(1);
    assert_eq!(defragmenter.add(0, 5, &piece(1, 0, true)).slot, Some(0));
    assert_eq!(
        defragmenter
            .add(0, 6, &piece(2, 0, true))
            .lost
            .map(|it| it.reason),
        Some(LossReason::Displaced)
    );
    let late = 60_000_000_007;
    assert_eq!(
        defragmenter
            .add(0, late, &piece(2, 1, true))
            .lost
            .map(|it| it.reason),
        Some(LossReason::TimedOut)
    );
    let added = defragmenter.add(0, late, &piece(2, 1, false));
    assert_eq!(added.outcome, payload(AddError::Overlap));
    let added = defragmenter.add(0, late, &piece(2, 0, true));
    assert_eq!(added.outcome, payload(AddError::Abandoned));
    let added = defragmenter.add(0, late, &piece(2, 0, true)[..60]);
    assert_eq!(
        added.outcome,
        Outcome::Dropped(DropReason::Unusable(FragmentError::Missing))
    );
    assert_eq!(added.slot, None);
    assert_eq!(
        defragmenter.add(0, late, &whole(1)).outcome,
        Outcome::NotFragment
    );
    assert_eq!(
        (
            defragmenter.counts().lost(LossReason::TimedOut),
            defragmenter.counts().lost(LossReason::Displaced)
        ),
        (1, 1)
    );
    assert_eq!(defragmenter.write(9, &mut [0; 100]), Ok(None));
    let mut none = of_slots(0);
    assert_eq!(
        none.add(0, 0, &piece(1, 0, true)).outcome,
        Outcome::Dropped(DropReason::NoSlot)
    );
}

#[test]
fn texts() {
    let dropped = Outcome::Dropped(DropReason::Refused(StoreError::MixedEcn)).to_string();
    assert_eq!(
        dropped,
        "some fragments of the packet are ECN-capable, and others are not"
    );
    assert_eq!(
        DropReason::Refused(StoreError::MixedEcn).to_string(),
        dropped
    );
    assert_eq!(Outcome::Whole(0).to_string(), "the packet is whole");
    assert_eq!(
        LossReason::TimedOut.to_string(),
        "the packet was not whole in time"
    );
    assert_eq!(
        LossReason::Displaced.to_string(),
        "all slots were in use, and the packet was the oldest"
    );
}

#[test]
fn give_up() {
    let mut defragmenter = of_slots(64);
    for (time, identification) in (10..).zip(1..=3) {
        defragmenter.add(0, time, &piece(identification, 0, true));
    }
    assert_eq!(defragmenter.give_up(60_000_000_010), 0);
    assert_eq!(defragmenter.give_up(60_000_000_012), 2);
    assert_eq!(defragmenter.counts().lost(LossReason::TimedOut), 2);
    let added = defragmenter.add(0, 60_000_000_012, &piece(3, 1, false));
    assert_eq!(packet_in(&defragmenter, added.slot), whole(2));
    let added = defragmenter.add(0, 60_000_000_012, &piece(1, 1, false));
    assert_eq!(
        (added.outcome, added.lost.map(|it| it.reason)),
        (Outcome::MoreWanted, None)
    );
}

#[test]
fn timeout() {
    let settings = Settings {
        timeout: 9,
        ..Settings::new([5, 6])
    };
    let mut defragmenter = OwnedDefragmenter::try_new(1, settings).expect("memory");
    defragmenter.add(0, 20, &piece(1, 0, true));
    assert_eq!(defragmenter.give_up(29), 0);
    assert_eq!(defragmenter.give_up(11), 0);
    assert_eq!(defragmenter.add(0, 29, &piece(1, 1, true)).lost, None);
    let added = defragmenter.add(0, 30, &piece(1, 1, true));
    assert_eq!(added.lost.map(|it| it.reason), Some(LossReason::TimedOut));
    assert_eq!(defragmenter.give_up(20), 1);
}

#[test]
fn contexts() {
    let mut defragmenter = of_slots(64);
    let wanted = Outcome::MoreWanted;
    assert_eq!(defragmenter.add(5, 0, &piece(1, 0, true)).outcome, wanted);
    assert_eq!(defragmenter.add(6, 0, &piece(1, 1, false)).outcome, wanted);
    assert_eq!(defragmenter.add(0, 0, &piece(1, 1, false)).outcome, wanted);
    for context in [0, 5, 6] {
        let number = u8::from(context == 5);
        let added = defragmenter.add(context, 0, &piece(1, number, number == 0));
        assert!(matches!(added.outcome, Outcome::Whole(_)));
        assert_eq!(packet_in(&defragmenter, added.slot), whole(2));
    }
}

/// The code points of two fragments and of their packet (RFC 3168, section 5.3).
#[test]
fn congestion() {
    for (first, last, point) in [
        (0, 0, Some(0)),
        (1, 2, Some(1)),
        (2, 1, Some(2)),
        (2, 3, Some(3)),
        (3, 1, Some(3)),
        (0, 1, None),
        (3, 0, None),
    ] {
        let mut defragmenter = of_slots(1);
        let (mut one, mut other) = (piece(1, 0, true), piece(1, 1, false));
        (one[1], other[1]) = (first << 4, last << 4);
        defragmenter.add(0, 0, &one);
        let added = defragmenter.add(0, 0, &other);
        assert_eq!(added.slot, Some(0));
        let Some(point) = point else {
            assert_eq!(
                added.outcome,
                Outcome::Dropped(DropReason::Refused(StoreError::MixedEcn))
            );
            assert_eq!(
                defragmenter
                    .counts()
                    .of(Outcome::Dropped(DropReason::Refused(StoreError::MixedEcn))),
                1
            );
            assert_eq!(packet_in(&defragmenter, added.slot), []);
            continue;
        };
        let mut packet = whole(2);
        packet[1] = point << 4;
        assert!(matches!(added.outcome, Outcome::Whole(_)));
        assert_eq!(packet_in(&defragmenter, added.slot), packet);
    }
}

/// Fragments that are refused by themselves take no slot.
#[test]
fn refused() {
    let mut defragmenter = of_slots(1);
    defragmenter.add(0, 0, &piece(1, 0, true));
    let mut unaligned = piece(2, 0, true);
    unaligned[5] -= 1;
    let mut long = piece(2, 0, false);
    (long[42], long[43]) = (0xff, 0xf8);
    for (bytes, outcome) in [
        (unaligned, payload(AddError::Unaligned)),
        (long, payload(AddError::TooLong)),
    ] {
        let added = defragmenter.add(0, 0, &bytes);
        assert_eq!(added.outcome, outcome);
        assert_eq!((added.slot, added.lost.map(|it| it.reason)), (None, None));
    }
    let added = defragmenter.add(0, 0, &piece(1, 1, false));
    assert_eq!(packet_in(&defragmenter, added.slot), whole(2));
}
