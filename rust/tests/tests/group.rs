// SPDX-License-Identifier: MIT
//! Key numbers of an MLS group, and the change of its epoch.

use comparison::number::*;
use comparison::{
    after, compare, compare_group_kid, compare_group_parts, done, frame, made, retire, set_window,
    spend, with_key, Call, Key,
};
use reference::group::low_bits;
use reference::suites::{Suite, SUITES};
use sframe::ffi::{sframe_group_kid, sframe_group_parts};
use sframe::{Role, MAX_RECORDS, RECORD};
use testkit::{group_vectors, Generator};

/// The widths in the figure of RFC 9605 section 5.2.
const S: u64 = 6;
const E: u64 = 4;

/// A suite for sending.
const SUITE: Suite = Suite::Aes128GcmSha256_128;

#[test]
fn published_key_numbers() {
    for case in group_vectors() {
        let packed = compare_group_kid(case.context, case.index, case.epoch, S, E);
        assert_eq!((packed.number, packed.kid), (DONE, case.kid));
        let parts = compare_group_parts(case.kid, S, E);
        let expected = (case.context, case.index, case.epoch % 16);
        assert_eq!((parts.context, parts.index, parts.epoch), expected);
    }
}

/// 2^n and one less; where n is 64, the last two numbers.
fn around(n: u64) -> [u64; 2] {
    let power = 1u64.checked_shl(n as u32).unwrap_or(u64::MAX);
    [power, power - 1]
}

/// Both widths from 0 to beyond 64, with every part around its edges: the answer
/// is the first of 23, 22 and 23 again, and what was packed comes out.
#[test]
fn every_width() {
    for (s, e) in (0..=66).flat_map(|s| (0..=66).map(move |e| (s, e))) {
        if s + e > 64 {
            for part in [0, 1, u64::MAX] {
                let packed = compare_group_kid(part, part, part, s, e);
                assert_eq!(packed.number, GROUP_KID_TOO_LONG);
                let read = compare_group_parts(part, s, e);
                assert_eq!(read.number, GROUP_KID_TOO_LONG);
            }
            continue;
        }
        let left = 64 - s - e;
        let parts = |n| [0, u64::MAX].into_iter().chain(around(n));
        for index in parts(s) {
            for context in parts(left) {
                for epoch in parts(e) {
                    check_width(context, index, epoch, s, e);
                }
            }
        }
    }
}

#[track_caller]
fn check_width(context: u64, index: u64, epoch: u64, s: u64, e: u64) {
    let left = 64 - s - e;
    let packed = compare_group_kid(context, index, epoch, s, e);
    let expected = match () {
        () if low_bits(index, s) != index => GROUP_PART_TOO_LARGE,
        () if low_bits(context, left) != context => GROUP_KID_TOO_LONG,
        () => DONE,
    };
    assert_eq!(packed.number, expected);
    if expected == DONE {
        let read = compare_group_parts(packed.kid, s, e);
        let expected = (context, index, low_bits(epoch, e));
        assert_eq!((read.context, read.index, read.epoch), expected);
    }
}

/// Edges by their numbers.
#[test]
fn edges() {
    const MAX: u64 = u64::MAX;
    let kid = |context, index, epoch, s, e| {
        let packed = compare_group_kid(context, index, epoch, s, e);
        (packed.number, packed.kid)
    };
    // S and E are 0: the context is all, and there is one index.
    assert_eq!(kid(MAX, 0, MAX, 0, 0), (DONE, MAX));
    assert_eq!(kid(0, 1, 0, 0, 0), (GROUP_PART_TOO_LARGE, 0));
    assert_eq!(kid(0, 1, 0, 0, 4), (GROUP_PART_TOO_LARGE, 0));
    // All bits are the index's, or the epoch's, or shared.
    assert_eq!(kid(0, MAX, MAX, 64, 0), (DONE, MAX));
    assert_eq!(kid(0, 0, MAX, 0, 64), (DONE, MAX));
    assert_eq!(kid(0, 63, MAX, 6, 58), (DONE, MAX));
    for (s, e) in [(64, 0), (0, 64), (6, 58), (63, 1)] {
        assert_eq!(kid(0, 0, 0, s, e), (DONE, 0));
        assert_eq!(kid(1, 0, 0, s, e), (GROUP_KID_TOO_LONG, 0));
    }
    // 22 before the second 23, and behind the first.
    assert_eq!(kid(1 << 54, 64, 0, S, E), (GROUP_PART_TOO_LARGE, 0));
    assert_eq!(kid(1 << 54, 63, 0, S, E), (GROUP_KID_TOO_LONG, 0));
    assert_eq!(kid(1 << 54, 64, 0, 6, 59), (GROUP_KID_TOO_LONG, 0));
    // No sum of the widths wraps.
    for (s, e) in [
        (MAX, MAX),
        (MAX, 1),
        (1, MAX),
        (MAX, 65),
        (1 << 63, 1 << 63),
        (256 + 6, 4),
        (6, 256 + 4),
        (1 << 32 | 6, 4),
        (6, 1 << 32 | 4),
    ] {
        assert_eq!(kid(0, 0, 0, s, e), (GROUP_KID_TOO_LONG, 0));
        assert_eq!(kid(MAX, MAX, MAX, s, e), (GROUP_KID_TOO_LONG, 0));
        let number = compare_group_parts(MAX, s, e).number;
        assert_eq!(number, GROUP_KID_TOO_LONG);
    }
}

#[test]
fn any_numbers() {
    let mut generator = Generator::new(0x6772_6f75_7000_0002);
    for _ in 0..30_000 {
        let [context, index, epoch, kid] = [(); 4].map(|()| generator.any_width());
        let (s, e) = match generator.one_in(10) {
            true => (generator.any_width(), generator.any_width()),
            false => (generator.up_to(40) as u64, generator.up_to(40) as u64),
        };
        compare_group_kid(context, index, epoch, s, e);
        let parts = compare_group_parts(kid, s, e);
        if parts.number == DONE {
            let packed = compare_group_kid(parts.context, parts.index, parts.epoch, s, e);
            assert_eq!(packed.kid, kid);
        }
    }
}

#[test]
fn refused_numbers_are_0() {
    let (mut kid, mut context, mut index, mut epoch) = (1, 1, 1, 1);
    // SAFETY: the numbers are locals.
    let number = unsafe { sframe_group_kid(1, 64, 1, S, E, &mut kid) };
    assert_eq!((number, kid), (GROUP_PART_TOO_LARGE, 0));
    // SAFETY: as above.
    let number = unsafe { sframe_group_parts(1, 64, 1, &mut context, &mut index, &mut epoch) };
    let answer = (number, context, index, epoch);
    assert_eq!(answer, (GROUP_KID_TOO_LONG, 0, 0, 0));
}

#[track_caller]
fn receive(store: &[u8], kid: u64) -> Vec<u8> {
    with_key(store, Role::Receiving, &Key::any(SUITE, kid))
}

#[track_caller]
fn send(store: &[u8], kid: u64) -> Vec<u8> {
    with_key(store, Role::Sending, &Key::any(SUITE, kid))
}

fn kid_of(record: &[u8]) -> u64 {
    u64::from_be_bytes(record[4..12].try_into().expect("eight bytes"))
}

/// What must be left: the records that are not receiving, or whose key number has
/// other low bits, as they are and in their order.
fn left(store: &[u8], width: u64, bits: u64) -> Vec<u8> {
    let other = |record: &&[u8]| record[0] != 2 || low_bits(kid_of(record), width) != bits;
    let mut left = store.chunks_exact(RECORD).filter(other).collect::<Vec<_>>();
    left.resize(store.len() / RECORD, &[0; RECORD]);
    left.concat()
}

/// Changes the epoch and checks what is left.
#[track_caller]
fn change(store: &[u8], width: u64, bits: u64) -> Vec<u8> {
    let changed = after(store, Call::ChangeEpoch { width, bits });
    assert!(changed == left(store, width, bits), "{width}, {bits:#x}");
    changed
}

/// The epochs of the figure end one after the other.
#[test]
fn the_epochs_of_the_figure() {
    let mut store = group_vectors()
        .iter()
        .fold(made(10), |store, case| receive(&store, case.kid));
    for (epoch, members) in [(14, 3), (15, 2), (16, 2), (17, 2)] {
        let before = store.clone();
        store = change(&store, E, epoch % 16);
        assert_eq!(held(&before) - held(&store), members);
        // There are none any more.
        assert!(change(&store, E, epoch % 16) == store);
    }
    assert!(store == made(10));
}

/// How many records are not empty.
fn held(store: &[u8]) -> usize {
    let records = store.chunks_exact(RECORD);
    records.filter(|record| record[0] != 0).count()
}

/// A store with each kind of record around every power of 2, in each role.
fn kinds() -> Vec<u8> {
    let mut store = made(80);
    for n in [0, 1, 2, 3, 4, 7, 8, 15, 16, 31, 32, 47, 48, 62, 63, 64] {
        for kid in around(n) {
            let key = Key::any(SUITE, kid);
            if reference::store::find(&store, kid).is_err() {
                store = match n % 3 {
                    0 => with_key(&store, Role::Receiving, &key),
                    1 => with_key(&store, Role::Sending, &key),
                    _ => retire(&store, &key),
                };
            }
        }
        // And a receiving key with the low bits of each.
        let kid = around(n)[0] ^ 1 << 40;
        if reference::store::find(&store, kid).is_err() {
            store = receive(&store, kid);
        }
    }
    store
}

/// Every width, with the low bits of every key number and those beside them.
#[test]
fn every_width_of_an_epoch() {
    let store = kinds();
    let kids: Vec<u64> = store.chunks_exact(RECORD).map(kid_of).collect();
    for width in 0..=64 {
        for &kid in &kids {
            for kid in [kid, kid.wrapping_add(1), kid ^ 1 << 63, !kid] {
                change(&store, width, low_bits(kid, width));
            }
        }
        for bits in around(width) {
            let call = Call::ChangeEpoch { width, bits };
            let fits = low_bits(bits, width) == bits;
            let number = compare(&store, call).number;
            assert_eq!(number, if fits { DONE } else { GROUP_PART_TOO_LARGE });
        }
    }
    for width in [65, 128, 256, 256 + 4, 1 << 32, 1 << 63, u64::MAX] {
        for bits in [0, 1, u64::MAX] {
            let call = Call::ChangeEpoch { width, bits };
            assert_eq!(compare(&store, call).number, GROUP_KID_TOO_LONG);
        }
    }
}

/// No bits name every receiving key; 64 name one key number.
#[test]
fn no_bits_and_all_bits() {
    let store = kinds();
    let cleared = change(&store, 0, 0);
    assert!(cleared.chunks_exact(RECORD).all(|record| record[0] != 2));
    assert!(change(&cleared, 0, 0) == cleared);
    let one = Call::ChangeEpoch { width: 0, bits: 1 };
    assert_eq!(compare(&store, one).number, GROUP_PART_TOO_LARGE);

    for record in store.chunks_exact(RECORD).filter(|record| record[0] != 0) {
        let kid = kid_of(record);
        let changed = change(&store, 64, kid);
        match record[0] {
            2 => assert!(changed == after(&store, Call::Remove { kid })),
            _ => assert!(changed == store),
        }
    }
    // Empty records have no key number, not even 0.
    let empty = made(3);
    assert!(change(&empty, 64, 0) == empty);
    assert!(change(&empty, 0, 0) == empty);
}

/// It is the removal of each of these keys, and of nothing else.
#[test]
fn as_removals() {
    let mut generator = Generator::new(0x6772_6f75_7000_0003);
    for records in [1, 2, 3, 8, 33, 64] {
        for _ in 0..60 {
            let mut store = made(records);
            for _ in 0..generator.up_to(records) {
                let kid = generator.up_to(4 * records) as u64;
                if reference::store::find(&store, kid).is_err() {
                    store = match generator.up_to(3) {
                        0 => send(&store, kid),
                        1 => retire(&store, &Key::any(SUITE, kid)),
                        _ => receive(&store, kid),
                    };
                }
            }
            let width = generator.up_to(5) as u64;
            let bits = low_bits(generator.u64(), width);
            let goes = |record: &&[u8]| record[0] == 2 && low_bits(kid_of(record), width) == bits;
            let kids: Vec<u64> = store
                .chunks_exact(RECORD)
                .filter(goes)
                .map(kid_of)
                .collect();
            let removed = kids.into_iter().fold(store.clone(), |store, kid| {
                after(&store, Call::Remove { kid })
            });
            assert!(change(&store, width, bits) == removed);
        }
    }
}

/// Windows, counters and a spent counter of the records that stay are as they
/// were at their new places: keys seal on, and have opened what they opened.
#[test]
fn what_stays_is_as_it_was() {
    for suite in SUITES {
        let key = |kid| Key::any(suite, kid);
        let (sender, receiver) = (key(0x5e), key(0x6f));
        let mut store = made(8);
        for kid in [0x0e, 0x1e, 0x7e] {
            store = with_key(&store, Role::Receiving, &key(kid));
        }
        store = with_key(&store, Role::Sending, &sender);
        store = with_key(&store, Role::Receiving, &receiver);
        store = with_key(&store, Role::Sending, &key(0x8e));
        let opening = |frame| Call::Open {
            frame,
            metadata: b"",
            room: 7,
        };
        let sealing = Call::Seal {
            kid: sender.kid,
            metadata: b"",
            plaintext: b"picture",
            offset: 0,
            room: 64,
        };
        // Places 0 to 5: 0x0e, 0x1e, 0x5e, 0x6f, 0x7e, 0x8e.
        spend(&mut store, 5);
        set_window(&mut store, 1, 70, u64::MAX);
        store = after(&store, sealing);
        let frames = [7, 9, 8].map(|ctr| frame(&receiver, ctr, b"", b"picture"));
        for frame in &frames[..2] {
            store = after(&store, opening(frame));
        }

        let store = change(&store, E, 0xe);
        assert_eq!(held(&store), 3);
        let sealed = done(&store, sealing);
        assert_eq!(sealed.result(), frame(&sender, 1, b"", b"picture"));
        for frame in &frames[..2] {
            assert_eq!(compare(&store, opening(frame)).number, ALREADY_OPENED);
        }
        done(&store, opening(&frames[2]));
        let spent = Call::Seal {
            kid: 0x8e,
            metadata: b"",
            plaintext: b"",
            offset: 0,
            room: 64,
        };
        assert_eq!(compare(&store, spent).number, COUNTER_SPENT);
        // A key of the epoch opens nothing any more.
        let gone = frame(&key(0x1e), 100, b"", b"picture");
        assert_eq!(compare(&store, opening(&gone)).number, KID_UNKNOWN);
    }
}

/// A full store of 64 members in 16 epochs: each epoch goes, and comes again.
#[test]
fn a_full_store() {
    let kid = |index, epoch| compare_group_kid(0, index, epoch, S, E).kid;
    let full = (0..16)
        .flat_map(|epoch| (0..64).map(move |index| (index, epoch)))
        .fold(made(MAX_RECORDS), |store, (index, epoch)| {
            receive(&store, kid(index, epoch))
        });
    assert_eq!(held(&full), MAX_RECORDS);
    for epoch in [0, 1, 7, 15] {
        let changed = change(&full, E, epoch);
        assert_eq!(held(&changed), MAX_RECORDS - 64);
        // Sixteen epochs on its numbers are added again, from the last member on.
        let again = (0..64).rev().fold(changed, |store, index| {
            receive(&store, kid(index, epoch + 16))
        });
        assert!(again == full);
    }
    assert_eq!(held(&change(&full, 0, 0)), 0);
    assert_eq!(held(&change(&full, 1, 1)), MAX_RECORDS / 2);
    assert_eq!(held(&change(&full, 10, 0x3e)), MAX_RECORDS - 1);
}

/// An epoch whose low bits come round again: the numbers of receivers are free
/// once the epoch was changed, and a sender's are taken for good.
#[test]
fn an_epoch_that_comes_round() {
    let kid = |context, index, epoch| compare_group_kid(context, index, epoch, S, E).kid;
    let (own, other) = (kid(0, 5, 14), kid(0, 3, 14));
    assert_eq!((kid(0, 5, 30), kid(0, 3, 30)), (own, other));
    let add = |store: &[u8], role, kid| compare(store, Key::any(SUITE, kid).add(role)).number;

    let store = receive(&send(&made(4), own), other);
    for role in [Role::Sending, Role::Receiving] {
        assert_eq!(add(&store, role, other), KID_HELD);
    }
    let sending = change(&store, E, 14);
    let retired = after(&sending, Call::Remove { kid: own });
    for store in [&sending, &retired, &change(&retired, E, 14)] {
        assert_eq!(add(store, Role::Receiving, other), DONE);
        for role in [Role::Sending, Role::Receiving] {
            assert_eq!(add(store, role, own), KID_HELD);
        }
        // Another context gives a number that was never used.
        assert_eq!(add(store, Role::Sending, kid(1, 5, 30)), DONE);
    }
}
