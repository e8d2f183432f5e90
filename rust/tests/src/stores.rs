// SPDX-License-Identifier: MIT
//! Stores and frames for the tests.

use crate::number::{DONE, SENDING_BARRED};
use crate::{compare, Call, Outcome};
use reference::aead::Aead;
use reference::header::write_header;
use reference::record::{Record, State};
use reference::store::put;
use reference::suites::{nonce, Suite};
use sframe::{Role, RECORD};
use testkit::PATTERN;

/// Where a record's next counter begins.
pub const COUNTER_AT: usize = 12;
/// Where a record has the byte of a spent counter.
pub const SPENT_AT: usize = 2;
/// Where a record has the byte that tells its layout.
pub const LAYOUT_AT: usize = 3;
/// Where a record's window begins: the highest counter opened, then the mask.
pub const WINDOW_AT: usize = 80;

/// A base key where any will do.
pub const ANY_KEY: [u8; 16] = [7; 16];

/// The suite that no key is added for sending with.
pub const RECEIVE_ONLY: Suite = Suite::Aes128CtrHmacSha256_32;

/// What both ends of a call agree on.
#[derive(Clone)]
pub struct Key {
    /// The suite.
    pub suite: Suite,
    /// The key number.
    pub kid: u64,
    /// The base key.
    pub base_key: Vec<u8>,
}

impl Key {
    /// The key of `kid` in `suite` from [`ANY_KEY`].
    pub fn any(suite: Suite, kid: u64) -> Self {
        Key {
            suite,
            kid,
            base_key: ANY_KEY.to_vec(),
        }
    }

    /// The call that adds it.
    pub fn add(&self, role: Role) -> Call<'_> {
        Call::Add {
            role,
            suite: self.suite.number(),
            kid: self.kid,
            base_key: &self.base_key,
        }
    }
}

/// Makes the call on both sides and checks that it is done.
#[track_caller]
pub fn done(store: &[u8], call: Call) -> Outcome {
    let outcome = compare(store, call);
    assert_eq!(outcome.number, DONE, "{call}");
    outcome
}

/// The store that `call` leaves when it is done.
#[track_caller]
pub fn after(store: &[u8], call: Call) -> Vec<u8> {
    done(store, call).store
}

/// A made store of so many records.
#[track_caller]
pub fn made(records: usize) -> Vec<u8> {
    after(&vec![PATTERN; records * RECORD], Call::Make)
}

/// `store` with a key added. A sender of [`RECEIVE_ONLY`] is refused, and then
/// written as the record that an older store has.
#[track_caller]
pub fn with_key(store: &[u8], role: Role, key: &Key) -> Vec<u8> {
    if role == Role::Sending && key.suite == RECEIVE_ONLY {
        assert_eq!(compare(store, key.add(role)).number, SENDING_BARRED);
        let mut store = store.to_vec();
        let record = Record::new(State::Sending, key.suite, key.kid, &key.base_key);
        put(&mut store, record);
        return store;
    }
    after(store, key.add(role))
}

/// `store` with a key added for sending and removed.
#[track_caller]
pub fn retire(store: &[u8], key: &Key) -> Vec<u8> {
    let store = with_key(store, Role::Sending, key);
    after(&store, Call::Remove { kid: key.kid })
}

/// Writes the next counter of the record at `place`, which has one left.
pub fn set_counter(store: &mut [u8], place: usize, counter: u64) {
    store[place * RECORD + SPENT_AT] = 0;
    store[place * RECORD + COUNTER_AT..][..8].copy_from_slice(&counter.to_be_bytes());
}

/// Leaves the record at `place` no counter.
pub fn spend(store: &mut [u8], place: usize) {
    set_counter(store, place, u64::MAX);
    store[place * RECORD + SPENT_AT] = 1;
}

/// Writes the window of the record at `place`.
pub fn set_window(store: &mut [u8], place: usize, highest: u64, mask: u64) {
    let window = [highest.to_be_bytes(), mask.to_be_bytes()].concat();
    store[place * RECORD + WINDOW_AT..][..16].copy_from_slice(&window);
}

/// The highest counter opened and the mask in the record at `place`.
pub fn window(store: &[u8], place: usize) -> (u64, u64) {
    let number = |at| u64::from_be_bytes(store[at..at + 8].try_into().expect("eight bytes"));
    let at = place * RECORD + WINDOW_AT;
    (number(at), number(at + 8))
}

/// The frame that RFC 9605 defines, of any size, put together from the
/// reference's parts without a store.
pub fn frame(key: &Key, ctr: u64, metadata: &[u8], plaintext: &[u8]) -> Vec<u8> {
    frame_with(&write_header(key.kid, ctr), key, ctr, metadata, plaintext)
}

/// The same with `header`, in whatever form, as its header.
pub fn frame_with(
    header: &[u8],
    key: &Key,
    ctr: u64,
    metadata: &[u8],
    plaintext: &[u8],
) -> Vec<u8> {
    let (derived, salt) = key.suite.derive_key_salt(key.kid, &key.base_key);
    let aad = [header, metadata].concat();
    let mut data = plaintext.to_vec();
    let tag = Aead::new(key.suite, &derived).encrypt(&nonce(&salt, ctr), &aad, &mut data);
    [header, &data, &tag].concat()
}
