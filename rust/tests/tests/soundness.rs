// SPDX-License-Identifier: MIT
//! Stores that break one rule: every call that uses the store answers that it
//! is not sound, whatever else is wrong, and changes nothing.

use comparison::number::*;
use comparison::{
    after, compare, done, frame, made, retire, set_counter, set_window, spend, window, with_key,
    Call, Key, ANY_KEY, COUNTER_AT, LAYOUT_AT, SPENT_AT, WINDOW_AT,
};
use reference::suites::{Suite, SUITES};
use sframe::{Role, MAX_COUNTER, MAX_RECORDS, RECORD};

/// The places of the records of [`sound`], by what they are.
const SENDING: usize = 0;
const RECEIVING: usize = 1;
const RETIRED: usize = 2;
/// Receiving, and some frames were opened.
const OPENED: usize = 3;
const EMPTY: usize = 4;
const RECORDS: usize = 5;

/// The key numbers of the first four.
const KIDS: [u64; 4] = [100, 200, 300, 400];

/// The records that are not empty, and those of them that are not receiving.
const HELD: [usize; 4] = [SENDING, RECEIVING, RETIRED, OPENED];
const NOT_RECEIVING: [usize; 2] = [SENDING, RETIRED];

/// One record of each kind.
fn sound(suite: Suite) -> Vec<u8> {
    let store = with_key(&made(RECORDS), Role::Sending, &Key::any(suite, KIDS[0]));
    let store = with_key(&store, Role::Receiving, &Key::any(suite, KIDS[1]));
    let store = retire(&store, &Key::any(suite, KIDS[2]));
    let key = Key::any(suite, KIDS[3]);
    let mut store = with_key(&store, Role::Receiving, &key);
    for ctr in [10, 12, 9] {
        let opening = Call::Open {
            frame: &frame(&key, ctr, b"", b"picture"),
            metadata: b"",
            room: 7,
        };
        store = after(&store, opening);
    }
    assert_eq!(window(&store, OPENED), (12, 0b1101));
    store
}

/// Every call that uses a store; each would be done on the sound store.
fn calls<'a>(opened: &'a [u8]) -> [Call<'a>; 9] {
    let add = |role, kid| Call::Add {
        role,
        suite: 1,
        kid,
        base_key: &ANY_KEY,
    };
    [
        add(Role::Sending, 50),
        add(Role::Receiving, 150),
        Call::Remove { kid: KIDS[0] },
        Call::Remove { kid: KIDS[1] },
        Call::ChangeEpoch {
            width: 4,
            bits: KIDS[1] % 16,
        },
        Call::Seal {
            kid: KIDS[0],
            metadata: b"m",
            plaintext: b"picture",
            offset: 0,
            room: 64,
        },
        Call::Open {
            frame: opened,
            metadata: b"m",
            room: 7,
        },
        Call::Report { kid: KIDS[1] },
        Call::Find { kid: KIDS[2] },
    ]
}

/// The calls on one store, changed in turn.
struct Case {
    suite: Suite,
    store: Vec<u8>,
    frame: Vec<u8>,
}

impl Case {
    fn each() -> impl Iterator<Item = Case> {
        SUITES.into_iter().map(|suite| Case {
            suite,
            store: sound(suite),
            frame: frame(&Key::any(suite, KIDS[1]), 5, b"m", b"picture"),
        })
    }

    /// Checks what every call answers with `bytes` put at byte `at` of the
    /// record at `place`.
    #[track_caller]
    fn check(&self, place: usize, at: usize, bytes: &[u8], number: u32) {
        let mut store = self.store.clone();
        store[place * RECORD + at..][..bytes.len()].copy_from_slice(bytes);
        for call in calls(&self.frame) {
            assert_eq!(
                compare(&store, call).number,
                number,
                "{call} with {bytes:02x?} at byte {at} of record {place}"
            );
        }
    }

    #[track_caller]
    fn unsound(&self, place: usize, at: usize, bytes: &[u8]) {
        self.check(place, at, bytes, STORE_NOT_SOUND);
    }
}

#[test]
fn the_sound_store_takes_every_call() {
    for case in Case::each() {
        for call in calls(&case.frame) {
            done(&case.store, call);
        }
    }
}

#[test]
fn lengths() {
    let case = Case::each().next().unwrap();
    let most = MAX_RECORDS * RECORD;
    for length in (0..=2 * RECORD).chain(most - RECORD..=most + 2 * RECORD) {
        let right = length >= RECORD && length <= most && length % RECORD == 0;
        if right {
            continue;
        }
        // Empty records, and the records of the sound store as far as they go.
        let mut held = case.store.clone();
        held.resize(length, 0);
        for store in [vec![0; length], held] {
            for call in calls(&case.frame) {
                assert_eq!(compare(&store, call).number, STORE_NOT_SOUND, "{length}");
            }
            assert_eq!(compare(&store, Call::Make).number, STORE_NOT_SOUND);
        }
    }
}

#[test]
fn state_byte() {
    for case in Case::each() {
        for place in 0..RECORDS {
            for state in 4..=u8::MAX {
                case.unsound(place, 0, &[state]);
            }
        }
        for place in HELD {
            case.unsound(place, 0, &[0]);
        }
        for state in 1..=3 {
            case.unsound(EMPTY, 0, &[state]);
        }
        // A key where a retired record has none, and a window where a sending
        // one has none.
        case.unsound(SENDING, 0, &[3]);
        case.unsound(RECEIVING, 0, &[3]);
        case.unsound(OPENED, 0, &[3]);
        case.unsound(OPENED, 0, &[1]);
    }
}

#[test]
fn suite_byte() {
    for case in Case::each() {
        for place in HELD {
            for suite in (6..=u8::MAX).chain([0]) {
                case.unsound(place, 1, &[suite]);
            }
        }
    }
}

/// Byte 3 is 1 in every record that is not empty.
#[test]
fn layout_byte() {
    for case in Case::each() {
        for value in 0..=u8::MAX {
            for place in HELD {
                let number = if value == 1 { DONE } else { STORE_NOT_SOUND };
                case.check(place, LAYOUT_AT, &[value], number);
            }
            let number = if value == 0 { DONE } else { STORE_NOT_SOUND };
            case.check(EMPTY, LAYOUT_AT, &[value], number);
        }
    }
}

/// The stores of an earlier layer have records of 80 bytes, and zero in byte 3.
/// Where one holds a key it is refused, at whatever place the first one stands.
#[test]
fn records_of_80_bytes() {
    const OLD: usize = 80;
    for case in Case::each() {
        let old = |place: usize| {
            let mut record = case.store[place * RECORD..][..OLD].to_vec();
            record[LAYOUT_AT] = 0;
            record
        };
        let kinds = [SENDING, RECEIVING, RETIRED].map(old);
        for records in 1..=64 {
            let empty = vec![0; records * OLD];
            let right = empty.len().is_multiple_of(RECORD);
            let number = if right { KID_UNKNOWN } else { STORE_NOT_SOUND };
            assert_eq!(compare(&empty, Call::Remove { kid: 0 }).number, number);
            for first in 0..records {
                let mut one = empty.clone();
                one[first * OLD..][..OLD].copy_from_slice(&kinds[first % 3]);
                let mut all = one.clone();
                for (place, record) in all.chunks_exact_mut(OLD).enumerate().skip(first) {
                    record.copy_from_slice(&kinds[place % 3]);
                }
                let call = calls(&case.frame)[first % 8];
                for store in [one, all] {
                    assert_eq!(compare(&store, call).number, STORE_NOT_SOUND);
                }
            }
        }
    }
}

#[test]
fn counters() {
    for case in Case::each() {
        for counter in [1, 255, 256, 1 << 40, MAX_COUNTER - 1, MAX_COUNTER] {
            case.unsound(RECEIVING, COUNTER_AT, &counter.to_be_bytes());
            case.unsound(OPENED, COUNTER_AT, &counter.to_be_bytes());
        }
        for counter in [0, 1, 1 << 40, MAX_COUNTER - 1, MAX_COUNTER] {
            case.check(SENDING, COUNTER_AT, &counter.to_be_bytes(), DONE);
            case.check(RETIRED, COUNTER_AT, &counter.to_be_bytes(), DONE);
        }
        // Once the last counter is used a sending record is sound, but seals no more.
        let mut store = case.store.clone();
        spend(&mut store, SENDING);
        for call in calls(&case.frame) {
            let sealing = matches!(call, Call::Seal { .. });
            let number = if sealing { COUNTER_SPENT } else { DONE };
            assert_eq!(compare(&store, call).number, number);
        }
    }
}

/// Byte 2 says whether the last counter has been used.
#[test]
fn spent_byte() {
    for case in Case::each() {
        for place in 0..RECORDS {
            for value in 1..=u8::MAX {
                case.unsound(place, SPENT_AT, &[value]);
            }
        }
        for place in NOT_RECEIVING {
            for counter in [0, 1, 1 << 40, MAX_COUNTER - 1] {
                let mut store = case.store.clone();
                set_counter(&mut store, place, counter);
                store[place * RECORD + SPENT_AT] = 1;
                for call in calls(&case.frame) {
                    assert_eq!(compare(&store, call).number, STORE_NOT_SOUND);
                }
            }
            for spent in 0..=u8::MAX {
                let mut store = case.store.clone();
                set_counter(&mut store, place, MAX_COUNTER);
                store[place * RECORD + SPENT_AT] = spent;
                let number = compare(&store, Call::Remove { kid: KIDS[1] }).number;
                assert_eq!(number == DONE, spent < 2, "byte 2 is {spent}");
            }
        }
    }
}

#[test]
fn key_bytes_behind_the_key() {
    for case in Case::each() {
        for place in [SENDING, RECEIVING, OPENED] {
            for at in 32 + case.suite.nk()..WINDOW_AT {
                for value in [1, 0x80, 0xff] {
                    case.unsound(place, at, &[value]);
                }
            }
        }
        // Salt and key of a sending record may be anything.
        case.check(SENDING, 20, &vec![0; 12 + case.suite.nk()], DONE);
        case.check(SENDING, 20, &vec![0xff; 12 + case.suite.nk()], DONE);
    }
}

#[test]
fn salt_and_key_of_a_retired_record() {
    for case in Case::each() {
        for at in 20..WINDOW_AT {
            for value in [1, 0x80, 0xff] {
                case.unsound(RETIRED, at, &[value]);
            }
        }
    }
}

/// What a receiving record's window may be: no bit and no highest counter, or
/// bit 0 and no bit above the highest counter.
#[test]
fn windows() {
    const ALL: u64 = u64::MAX;
    for case in Case::each() {
        let bytes = |highest: u64, mask: u64| [highest.to_be_bytes(), mask.to_be_bytes()].concat();
        for (highest, mask) in [
            (0, 0),
            (0, 0b1),
            (1, 0b11),
            (2, 0b111),
            (2, 0b101),
            (62, ALL >> 1),
            (63, ALL),
            (64, ALL),
            (1 << 40, 1 << 63 | 1),
            (ALL, 1),
            (ALL, ALL),
        ] {
            case.check(OPENED, WINDOW_AT, &bytes(highest, mask), DONE);
        }
        for (highest, mask) in [
            (1, 0),
            (63, 0),
            (64, 0),
            (ALL, 0),
            (0, 0b10),
            (12, 0b10),
            (ALL, ALL - 1),
            (100, 1 << 63),
            (0, 0b11),
            (2, 0b1001),
            (62, ALL),
            (62, 1 << 63 | 1),
            (0, ALL),
        ] {
            case.unsound(RECEIVING, WINDOW_AT, &bytes(highest, mask));
            case.unsound(OPENED, WINDOW_AT, &bytes(highest, mask));
        }
    }
}

/// Each bit beside bit 0, at each highest counter from below it to above it.
#[test]
fn bits_above_the_highest_counter() {
    let case = Case::each().next().unwrap();
    for highest in 0..=70 {
        for bit in 1..64 {
            let mut store = case.store.clone();
            set_window(&mut store, OPENED, highest, 1 << bit | 1);
            let outcome = compare(&store, Call::Report { kid: KIDS[3] });
            if bit <= highest {
                assert_eq!((outcome.number, outcome.count), (DONE, 2));
            } else {
                assert_eq!(outcome.number, STORE_NOT_SOUND, "{bit} at {highest}");
            }
        }
    }
}

/// Only a receiving record has a window.
#[test]
fn windows_of_other_records() {
    for case in Case::each() {
        for place in NOT_RECEIVING.into_iter().chain([EMPTY]) {
            for at in WINDOW_AT..RECORD {
                for value in [1, 0x80, 0xff] {
                    case.unsound(place, at, &[value]);
                }
            }
            for (highest, mask) in [(0u64, 1u64), (5, 1), (12, 0b1101), (u64::MAX, u64::MAX)] {
                let bytes = [highest.to_be_bytes(), mask.to_be_bytes()].concat();
                case.unsound(place, WINDOW_AT, &bytes);
            }
        }
    }
}

#[test]
fn bytes_of_an_empty_record() {
    for case in Case::each() {
        for at in 1..RECORD {
            for value in [1, 0x80, 0xff] {
                case.unsound(EMPTY, at, &[value]);
            }
        }
    }
}

#[test]
fn key_numbers_shared() {
    for case in Case::each() {
        for place in HELD {
            for kid in KIDS {
                if kid != KIDS[place] {
                    case.unsound(place, 4, &kid.to_be_bytes());
                }
            }
        }
    }
}

/// Each record's key number lies above that of the record before and below that
/// of the record behind.
#[test]
fn key_numbers_out_of_order() {
    for case in Case::each() {
        let check = |place: usize, kid: u64| {
            let above = place == 0 || KIDS[place - 1] < kid;
            let below = place == 3 || kid < KIDS[place + 1];
            let sound = above && below;
            let mut store = case.store.clone();
            store[place * RECORD + 4..][..8].copy_from_slice(&kid.to_be_bytes());
            let number = compare(&store, Call::Find { kid }).number;
            assert_eq!(number == DONE, sound, "{kid} at {place}");
            assert!(sound || number == STORE_NOT_SOUND);
        };
        for place in HELD {
            for kid in KIDS {
                for beside in [kid - 1, kid, kid + 1] {
                    check(place, beside);
                }
            }
            // Only the whole number counts, and its first byte the most.
            for kid in [0, 1, 99 << 32, 1 << 56, 1 << 63, u64::MAX - 1, u64::MAX] {
                check(place, kid);
            }
        }
        // The last may be any higher one, and every call is done.
        for kid in [301, 401, 1 << 32, 1 << 63, u64::MAX] {
            case.check(OPENED, 4, &u64::to_be_bytes(kid), DONE);
        }
    }
}

/// Empty records stand behind the others.
#[test]
fn empty_records_before_others() {
    for case in Case::each() {
        let records: Vec<&[u8]> = case.store.chunks_exact(RECORD).collect();
        for empty in 0..EMPTY {
            let mut order = records.clone();
            order.remove(EMPTY);
            order.insert(empty, records[EMPTY]);
            let store = order.concat();
            for call in calls(&case.frame) {
                assert_eq!(compare(&store, call).number, STORE_NOT_SOUND);
            }
            // In the place of a record it cuts those behind off.
            let mut store = case.store.clone();
            store[empty * RECORD..][..RECORD].fill(0);
            let number = compare(&store, Call::Find { kid: 0 }).number;
            let last = empty + 1 == EMPTY;
            assert_eq!(number, if last { KID_UNKNOWN } else { STORE_NOT_SOUND });
        }
        // Each two records in each other's place.
        for (one, other) in (0..EMPTY).flat_map(|i| (0..EMPTY).map(move |j| (i, j))) {
            let mut order = records.clone();
            order.swap(one, other);
            let number = compare(&order.concat(), Call::Find { kid: KIDS[0] }).number;
            assert_eq!(number == DONE, one == other);
        }
    }
}

/// One key number of a full store changed, at places near and far.
#[test]
fn order_in_a_full_store() {
    const RECORDS: usize = 1_024;
    let mut store = made(RECORDS);
    for place in (0..RECORDS).rev() {
        let role = [Role::Sending, Role::Receiving][place % 2];
        let key = Key::any(SUITES[place % 5], 2 * place as u64 + 1);
        store = with_key(&store, role, &key);
    }
    for place in [0, 1, 2, 511, 512, 1_000, 1_022, 1_023] {
        let own = 2 * place as u64 + 1;
        let around = (own.saturating_sub(4)..own + 5).chain([0, 1_024, 2_047, u64::MAX]);
        for kid in around {
            let above = place == 0 || own - 2 < kid;
            let below = place == RECORDS - 1 || kid < own + 2;
            let mut changed = store.clone();
            changed[place * RECORD + 4..][..8].copy_from_slice(&kid.to_be_bytes());
            let found = compare(&changed, Call::Find { kid });
            let expected = match above && below {
                true => (DONE, place),
                false => (STORE_NOT_SOUND, 0),
            };
            assert_eq!((found.number, found.place), expected, "{kid} at {place}");
        }
    }
}

/// Every byte of the store with every value it can take; the reference says
/// which are sound.
#[test]
fn every_value_of_every_byte() {
    let mut unsound = 0;
    for case in Case::each() {
        let calls = calls(&case.frame);
        for at in 0..case.store.len() {
            let mut store = case.store.clone();
            for value in 0..=u8::MAX {
                store[at] = value;
                let call = calls[(at + usize::from(value)) % calls.len()];
                unsound += u32::from(compare(&store, call).number == STORE_NOT_SOUND);
            }
        }
    }
    println!("{unsound} not sound");
    assert!(unsound > 200_000);
}
