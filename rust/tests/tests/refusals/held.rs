// SPDX-License-Identifier: MIT
//! Stores that hold one key number in one way or another.

use comparison::{made, retire, spend, with_key, Key, LAYOUT_AT};
use reference::suites::Suite;
use sframe::{Role, RECORD};

/// The key number that the calls are about.
pub const KID: u64 = 200;

/// How a store holds the key number.
#[derive(Clone, Copy, PartialEq)]
pub enum Held {
    Not,
    Sending,
    /// For sending, with no counter left.
    Spent,
    Receiving,
    Retired,
    /// Retired, with no counter left.
    RetiredSpent,
}

/// Every way to hold it.
pub const HELD: [Held; 6] = [
    Held::Not,
    Held::Sending,
    Held::Spent,
    Held::Receiving,
    Held::Retired,
    Held::RetiredSpent,
];

/// A sound store of `records` records; the first is that of [`KID`], if it is
/// held, and the others are empty.
pub fn store(suite: Suite, held: Held, records: usize) -> Vec<u8> {
    let key = Key::any(suite, KID);
    let made = made(records);
    let mut store = match held {
        Held::Not => made,
        Held::Sending | Held::Spent => with_key(&made, Role::Sending, &key),
        Held::Receiving => with_key(&made, Role::Receiving, &key),
        Held::Retired | Held::RetiredSpent => retire(&made, &key),
    };
    if matches!(held, Held::Spent | Held::RetiredSpent) {
        spend(&mut store, 0);
    }
    store
}

/// Changes the byte that tells the layout of the last record: 1, or 0 where the
/// record is empty.
pub fn make_unsound(store: &mut [u8]) {
    let last = store.len() - RECORD;
    store[last + LAYOUT_AT] ^= 1;
}
