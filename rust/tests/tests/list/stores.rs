// SPDX-License-Identifier: MIT
//! Stores at random: sound ones of any content, and damaged ones.

use comparison::{set_window, LAYOUT_AT, WINDOW_AT};
use reference::suites::SUITES;
use sframe::{MAX_COUNTER, MAX_RECORDS, RECORD};
use std::collections::BTreeSet;
use testkit::Generator;

/// A sound store with any records.
pub fn sound_store(generator: &mut Generator) -> Vec<u8> {
    let records = match generator.one_in(200) {
        true => *generator.pick(&[65, 200, MAX_RECORDS]),
        false => *generator.pick(&[1, 1, 2, 3, 4, 7, 16, 64]),
    };
    let held = match generator.up_to(2) {
        0 => records,
        _ => generator.up_to(records),
    };
    let kids = rising_kids(generator, held);
    let mut store = vec![0; records * RECORD];
    for (record, kid) in store.chunks_exact_mut(RECORD).zip(kids) {
        fill_record(generator, kid, record);
    }
    store
}

/// So many key numbers of any width, by rising number.
fn rising_kids(generator: &mut Generator, count: usize) -> BTreeSet<u64> {
    let mut kids = BTreeSet::new();
    while kids.len() < count {
        let kid = match generator.up_to(9) {
            0 => 0,
            1 => u64::MAX,
            2 => generator.up_to(2 * count) as u64,
            _ => generator.any_width(),
        };
        kids.insert(kid);
    }
    kids
}

/// Fills a record of any kind.
fn fill_record(generator: &mut Generator, kid: u64, record: &mut [u8]) {
    let state = generator.up_to(2) as u8 + 1;
    let suite = *generator.pick(&SUITES);
    record[0] = state;
    record[1] = suite.number() as u8;
    record[LAYOUT_AT] = 1;
    record[4..12].copy_from_slice(&kid.to_be_bytes());
    if state != 2 {
        let (spent, counter) = match generator.up_to(6) {
            0 => (1, MAX_COUNTER),
            1 => (0, MAX_COUNTER),
            2 => (0, MAX_COUNTER - 1),
            3 => (0, MAX_COUNTER - 2),
            4 => (0, 0),
            _ => (0, generator.any_width()),
        };
        record[2] = spent;
        record[12..20].copy_from_slice(&counter.to_be_bytes());
    } else {
        let (highest, mask) = any_window(generator);
        set_window(record, 0, highest, mask);
    }
    if state != 3 {
        generator.fill(&mut record[20..32 + suite.nk()]);
    }
}

/// A window of any content: the highest counter opened, and the mask.
fn any_window(generator: &mut Generator) -> (u64, u64) {
    if generator.one_in(4) {
        return (0, 0);
    }
    let highest = match generator.up_to(4) {
        0 => generator.up_to(70) as u64,
        1 => u64::MAX - generator.up_to(70) as u64,
        _ => generator.any_width(),
    };
    let mask = match generator.up_to(3) {
        0 => u64::MAX,
        1 => generator.u64() & generator.u64(),
        _ => generator.u64(),
    };
    let below = match highest {
        0..63 => (2 << highest) - 1,
        _ => u64::MAX,
    };
    (highest, mask & below | 1)
}

/// Damages a store in one of many ways; some leave it sound.
pub fn damage(generator: &mut Generator, store: &mut Vec<u8>) {
    let at = generator.up_to(store.len() - 1);
    let places = store.len() / RECORD;
    let (one, other) = (generator.up_to(places - 1), generator.up_to(places - 1));
    match generator.up_to(12) {
        0 => store[at] ^= 1 << generator.up_to(7),
        1 => store[at] = generator.u64() as u8,
        // The first bytes of a record have the most rules.
        2 | 3 => store[one * RECORD + generator.up_to(3)] = generator.up_to(7) as u8,
        4 => store[one * RECORD + 12 + generator.up_to(7)] = generator.u64() as u8,
        5 => {
            store.copy_within(one * RECORD..(one + 1) * RECORD, other * RECORD);
        }
        6 => {
            let from = one * RECORD + 4;
            store.copy_within(from..from + 8, other * RECORD + 4);
        }
        7 => store.truncate(at),
        // Two records in each other's place, mostly those side by side.
        12 => {
            let other = if generator.one_in(2) {
                other
            } else {
                (one + 1) % places
            };
            let record = store[one * RECORD..][..RECORD].to_vec();
            store.copy_within(other * RECORD..(other + 1) * RECORD, one * RECORD);
            store[other * RECORD..][..RECORD].copy_from_slice(&record);
        }
        // The window, in one byte or as a whole.
        10 => store[one * RECORD + WINDOW_AT + generator.up_to(15)] = generator.u64() as u8,
        11 => {
            let (highest, mask) = (generator.up_to(66) as u64, generator.u64());
            set_window(store, one, highest, mask >> generator.up_to(63));
        }
        8 => store.resize(at + *generator.pick(&[1, RECORD, MAX_RECORDS * RECORD]), 0),
        _ => {
            let length = generator.up_to(RECORD);
            store.extend(generator.bytes(length));
        }
    }
}
