// SPDX-License-Identifier: MIT
//! Each call made on the layer and on the reference, and all that they answer
//! and leave compared.

use moq::raw::{self, At};
use reference::moq::store::{self as reference_store, Location};
use reference::refusal::number_and_length;
use reference::store::Role;
use testkit::PATTERN;

/// What a call answers: its number and the length that it wrote.
pub type Answer = (u32, usize);

/// Bytes that a call is lent, with a margin on both sides that must stay.
struct Lent(Vec<u8>);

const MARGIN: usize = 13;

impl Lent {
    fn copy(bytes: &[u8]) -> Self {
        Lent([&[PATTERN; MARGIN], bytes, &[PATTERN; MARGIN]].concat())
    }

    fn lend(&mut self) -> &mut [u8] {
        let end = self.0.len() - MARGIN;
        &mut self.0[MARGIN..end]
    }

    fn take_back(self) -> Vec<u8> {
        let (front, rest) = self.0.split_at(MARGIN);
        let (lent, behind) = rest.split_at(rest.len() - MARGIN);
        assert_eq!([front, behind].concat(), [PATTERN; 2 * MARGIN]);
        lent.to_vec()
    }
}

/// Makes a call that changes the store on both sides. Answers the number.
#[track_caller]
fn on_both(
    store: &mut Vec<u8>,
    layer: impl Fn(&mut [u8]) -> u32,
    second: impl Fn(&mut [u8]) -> reference::refusal::Answer,
) -> u32 {
    let mut lent = Lent::copy(store);
    let number = layer(lent.lend());
    let left = lent.take_back();
    let expected = number_and_length(second(store));
    assert_eq!((number, 0), expected);
    assert_eq!(left, *store);
    number
}

/// Make.
#[track_caller]
pub fn make(store: &mut Vec<u8>) -> u32 {
    on_both(store, raw::make, reference_store::make)
}

/// Add.
#[track_caller]
pub fn add(
    store: &mut Vec<u8>,
    role: Role,
    name: &[u8],
    key_id: u64,
    suite: u64,
    base_key: &[u8],
) -> u32 {
    let layer = match role {
        Role::Sending => raw::add_sending,
        Role::Receiving => raw::add_receiving,
    };
    on_both(
        store,
        |store| layer(store, name, key_id, suite, base_key),
        |store| reference_store::add(store, role, name, key_id, suite, base_key),
    )
}

/// Remove.
#[track_caller]
pub fn remove(store: &mut Vec<u8>, name: &[u8], key_id: u64) -> u32 {
    on_both(
        store,
        |store| raw::remove(store, name, key_id),
        |store| reference_store::remove(store, name, key_id),
    )
}

/// Seal, with a room of that length; answers what the room then starts with.
#[track_caller]
pub fn seal(
    store: &mut Vec<u8>,
    at: At,
    properties: &[u8],
    plaintext: &[u8],
    room: usize,
) -> (Answer, Vec<u8>) {
    let mut lent = Lent::copy(store);
    let mut out = Lent::copy(&vec![PATTERN; room]);
    let written = raw::seal(lent.lend(), at, properties, plaintext, out.lend());
    let (left, out) = (lent.take_back(), out.take_back());

    let mut expected_room = vec![PATTERN; room];
    let answer =
        reference_store::seal(store, second(at), properties, plaintext, &mut expected_room);
    let answer = number_and_length(answer);
    assert_eq!((written.number, written.length), answer);
    assert_eq!(left, *store);
    assert_eq!(out, expected_room);
    (answer, out[..written.length].to_vec())
}

/// Open, with a room of that length; answers what the room then starts with.
#[track_caller]
pub fn open(
    store: &[u8],
    at: At,
    properties: &[u8],
    sealed: &[u8],
    room: usize,
) -> (Answer, Vec<u8>) {
    let mut out = Lent::copy(&vec![PATTERN; room]);
    let written = raw::open(store, at, properties, sealed, out.lend());
    let out = out.take_back();

    let mut expected_room = vec![PATTERN; room];
    let answer = reference_store::open(store, second(at), properties, sealed, &mut expected_room);
    let answer = number_and_length(answer);
    assert_eq!((written.number, written.length), answer);
    assert_eq!(out, expected_room);
    (answer, out[..written.length].to_vec())
}

fn second(at: At) -> Location {
    Location {
        name: at.name,
        key_id: at.key_id,
        group: at.group,
        object: at.object,
    }
}
