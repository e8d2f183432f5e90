// SPDX-License-Identifier: MIT
//! Stores to measure on.

use reference::record::{Record, State};
use reference::store::{make, put, Role};
use reference::suites;
use sframe::{frame_room, Suite, RECORD};

/// The key number of the measured key, the last that its store holds.
pub const KID: u64 = 2_000;

/// A key number that no store holds, higher than those that it holds.
pub const UNKNOWN: u64 = 3_000;

/// The counter that sealing starts from. Headers keep their length from here
/// until 2^24.
pub const FIRST_COUNTER: u64 = 1 << 16;

/// The base key of every key.
pub const BASE_KEY: [u8; 32] = [7; 32];

/// Where a record has its next counter, and where its window.
pub const COUNTER_AT: usize = 12;
const WINDOW_AT: usize = 80;

/// A full store of so many records. The measured key is in the last one.
pub fn full(records: usize, suite: Suite, role: Role) -> Vec<u8> {
    let mut store = vec![0; records * RECORD];
    let done = make(&mut store);
    assert_eq!(done, Ok(0));
    // Some suites are sealed with by stored keys alone, so records are written.
    let suite = suites::Suite::from_number(suite.number()).expect("a suite");
    let state = match role {
        Role::Sending => State::Sending,
        Role::Receiving => State::Receiving,
    };
    for kid in kids(records) {
        put(&mut store, Record::new(state, suite, kid, &BASE_KEY));
    }
    if role == Role::Sending {
        let at = (records - 1) * RECORD + COUNTER_AT;
        store[at..at + 8].copy_from_slice(&FIRST_COUNTER.to_be_bytes());
    }
    store
}

/// The key numbers of a full store, by rising number.
pub fn kids(records: usize) -> impl Iterator<Item = u64> {
    (1..records as u64).chain([KID])
}

/// Sets the measured key's window back, so that the frame of [`FIRST_COUNTER`]
/// opens again: each counter before it is opened, and it is the next.
pub fn set_back(store: &mut [u8]) {
    let at = store.len() - RECORD + WINDOW_AT;
    let (highest, mask) = (FIRST_COUNTER - 1, u64::MAX);
    store[at..at + 8].copy_from_slice(&highest.to_be_bytes());
    store[at + 8..at + 16].copy_from_slice(&mask.to_be_bytes());
}

/// The frame of the measured key with [`FIRST_COUNTER`].
pub fn frame(suite: Suite, plaintext: &[u8]) -> Vec<u8> {
    let mut sender = full(1, suite, Role::Sending);
    let mut frame = vec![0; frame_room(suite, plaintext.len())];
    let sealed = reference::store::seal(&mut sender, KID, &[], plaintext, &mut frame);
    frame.truncate(sealed.expect("the store seals"));
    frame
}
