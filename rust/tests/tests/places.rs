// SPDX-License-Identifier: MIT
//! Where a caller believes a record to be: any number may be handed in, and
//! none alters what a call answers and leaves.

use comparison::number::*;
use comparison::{
    compare, compare_near, frame, made, retire, spend, with_key, Call, Key, RECEIVE_ONLY,
};
use reference::suites::{Suite, SUITES};
use sframe::{Role, MAX_RECORDS, RECORD};
use testkit::Generator;

/// Places by what stands there in [`store`], and their key numbers.
const SENDING: u64 = 100;
const RECEIVING: u64 = 200;
const RETIRED: u64 = 300;
const SPENT: u64 = 400;
const RECORDS: usize = 6;

/// One record of each kind, and two empty ones.
fn store(suite: Suite) -> Vec<u8> {
    let store = with_key(&made(RECORDS), Role::Sending, &Key::any(suite, SENDING));
    let store = with_key(&store, Role::Receiving, &Key::any(suite, RECEIVING));
    let store = retire(&store, &Key::any(suite, RETIRED));
    let mut store = with_key(&store, Role::Sending, &Key::any(suite, SPENT));
    spend(&mut store, 3);
    store
}

/// Every place of a small store, those right behind it, and numbers whose product
/// with the length of a record is past 64 bits: at and around where it wraps to a
/// byte of the store.
fn places(records: usize) -> Vec<usize> {
    let mut places: Vec<usize> = (0..records + 3).collect();
    places.extend([MAX_RECORDS - 1, MAX_RECORDS, 1 << 16, 1 << 32, 1 << 63]);
    places.extend((0..100).map(|below| usize::MAX - below));
    // The least number whose product is past 64 bits, and those beside it.
    let first = usize::MAX / RECORD;
    places.extend(first - 2..first + 4);
    // 2^59 records have 3 times 2^64 bytes.
    for times in 1..32 {
        places.extend((0..records + 1).map(|place| (times << 59) + place));
    }
    places
}

/// What each call on one of the records, and on an unknown one, answers.
#[test]
fn every_place() {
    for suite in SUITES {
        let store = store(suite);
        let key = |kid| Key::any(suite, kid);
        let seal = |kid| Call::Seal {
            kid,
            metadata: b"m",
            plaintext: b"picture",
            offset: 3,
            room: 64,
        };
        let frames = [SENDING, RECEIVING, RETIRED, SPENT, 150]
            .map(|kid| frame(&key(kid), 5, b"m", b"picture"));
        let open = |which: usize| Call::Open {
            frame: &frames[which],
            metadata: b"m",
            room: 7,
        };
        let remove = |kid| Call::Remove { kid };
        let cases = [
            (seal(SENDING), DONE),
            (seal(RECEIVING), WRONG_ROLE),
            (seal(RETIRED), WRONG_ROLE),
            (seal(SPENT), COUNTER_SPENT),
            (seal(150), KID_UNKNOWN),
            // Empty records hold no key number, not even 0.
            (seal(0), KID_UNKNOWN),
            (open(0), WRONG_ROLE),
            (open(1), DONE),
            (open(2), WRONG_ROLE),
            (open(3), WRONG_ROLE),
            (open(4), KID_UNKNOWN),
            (remove(SENDING), DONE),
            (remove(RECEIVING), DONE),
            (remove(RETIRED), WRONG_ROLE),
            (remove(SPENT), DONE),
            (remove(150), KID_UNKNOWN),
            (remove(0), KID_UNKNOWN),
        ];
        for (call, number) in cases {
            for place in places(RECORDS) {
                assert_eq!(compare_near(&store, call, place).number, number);
            }
        }
    }
}

/// Key number 0 beside an empty record, whose bytes at its place are the same.
#[test]
fn key_number_0() {
    let key = Key::any(SUITES[3], 0);
    let store = with_key(&made(3), Role::Receiving, &key);
    for place in places(3) {
        let removed = compare_near(&store, Call::Remove { kid: 0 }, place);
        assert_eq!(removed.number, DONE);
        assert!(removed.store.iter().all(|&byte| byte == 0));
        let again = compare_near(&removed.store, Call::Remove { kid: 0 }, place);
        assert_eq!(again.number, KID_UNKNOWN);
    }
}

/// A store that is not sound stays so, whatever stands at the place.
#[test]
fn stores_that_are_not_sound() {
    let good = store(SUITES[0]);
    let whole = frame(&Key::any(SUITES[0], RECEIVING), 5, b"m", b"picture");
    for damaged in 0..RECORDS {
        let mut store = good.clone();
        store[damaged * RECORD + 3] ^= 1;
        for place in places(RECORDS) {
            for call in [
                Call::Remove { kid: SENDING },
                Call::Seal {
                    kid: SENDING,
                    metadata: b"",
                    plaintext: b"",
                    offset: 0,
                    room: 64,
                },
                Call::Open {
                    frame: &whole,
                    metadata: b"m",
                    room: 7,
                },
            ] {
                let number = compare_near(&store, call, place).number;
                assert_eq!(number, STORE_NOT_SOUND);
            }
        }
    }
    for length in [0, 1, RECORD - 1, RECORD + 1, MAX_RECORDS * RECORD + RECORD] {
        for place in [0, 1, MAX_RECORDS, usize::MAX] {
            let call = Call::Remove { kid: 0 };
            let number = compare_near(&vec![0; length], call, place).number;
            assert_eq!(number, STORE_NOT_SOUND);
        }
    }
}

/// The key number of a frame is the one that counts, and a place of another
/// key's record does not lead to that key.
#[test]
fn a_place_of_another_key() {
    for suite in SUITES {
        let keys = [10, 20, 30].map(|kid| Key::any(suite, kid));
        let store = keys
            .iter()
            .fold(made(3), |store, key| with_key(&store, Role::Receiving, key));
        for (own, key) in keys.iter().enumerate() {
            let whole = frame(key, 9, b"m", b"picture");
            let opening = Call::Open {
                frame: &whole,
                metadata: b"m",
                room: 7,
            };
            for place in 0..3 {
                let opened = compare_near(&store, opening, place);
                assert_eq!(opened.result(), b"picture");
                let window = comparison::window(&opened.store, own);
                assert_eq!(window, (9, 1));
            }
        }
    }
}

/// A full store: each key at its own place, its neighbours', and far off.
#[test]
fn places_in_a_full_store() {
    let mut generator = Generator::new(0x706c_6163_6573_0001);
    let mut store = made(MAX_RECORDS);
    for kid in (0..MAX_RECORDS as u64).rev() {
        let role = [Role::Sending, Role::Receiving][kid as usize % 2];
        let suite = match SUITES[kid as usize % 5] {
            RECEIVE_ONLY => SUITES[3],
            other => other,
        };
        store = with_key(&store, role, &Key::any(suite, kid));
    }
    for kid in [0, 1, 2, 3, 511, 512, 1_021, 1_022, 1_023] {
        let own = kid as usize;
        let (role, suite) = (kid % 2, store[own * RECORD + 1]);
        let suite = Suite::from_number(suite.into()).expect("a suite");
        let whole = frame(&Key::any(suite, kid), 1, b"m", b"picture");
        let call = match role {
            0 => Call::Seal {
                kid,
                metadata: b"m",
                plaintext: b"picture",
                offset: 0,
                room: 64,
            },
            _ => Call::Open {
                frame: &whole,
                metadata: b"m",
                room: 7,
            },
        };
        for place in [
            own,
            own.wrapping_sub(1),
            own + 1,
            0,
            1_023,
            1_024,
            usize::MAX,
        ] {
            assert_eq!(compare_near(&store, call, place).number, DONE);
            let removed = compare_near(&store, Call::Remove { kid }, place);
            assert_eq!(removed.number, DONE);
        }
        let place = generator.any_width() as usize;
        assert_eq!(compare_near(&store, call, place).number, DONE);
        assert_eq!(compare(&store, Call::Find { kid }).place, own);
    }
}
