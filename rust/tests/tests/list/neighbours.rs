// SPDX-License-Identifier: MIT
//! Sealing and opening under one key number see the other records only through
//! soundness: with any other sound neighbours, wherever the record then stands,
//! the same call gives the same answer and the same new record, and no neighbour
//! changes.

use super::{sound_store, Given};
use comparison::number::{DONE, STORE_NOT_SOUND};
use comparison::{compare, Call, Outcome};
use reference::header::read_header;
use reference::record::Record;
use reference::store::{find, put};
use sframe::RECORD;
use testkit::Generator;

/// The record at `place`, and the store without it.
fn parts(store: &[u8], place: usize) -> (&[u8], [&[u8]; 2]) {
    let (before, rest) = store.split_at(place * RECORD);
    let (record, behind) = rest.split_at(RECORD);
    (record, [before, behind])
}

/// Another sound store that has room for the record and not its key number, with
/// the record put in.
fn other_with(generator: &mut Generator, record: &Record) -> Vec<u8> {
    loop {
        let mut store = sound_store(generator);
        let full = store[store.len() - RECORD] != 0;
        if !full && find(&store, record.kid).is_err() {
            put(&mut store, record.clone());
            return store;
        }
    }
}

/// The new record, where the neighbours stayed.
#[track_caller]
fn new_record(before: &[u8], kid: u64, outcome: &Outcome) -> Vec<u8> {
    let place = find(before, kid).expect("the store has the key number");
    let (record, beside) = parts(&outcome.store, place);
    assert!(beside == parts(before, place).1);
    record.to_vec()
}

#[test]
fn neighbours_are_not_seen() {
    let mut generator = Generator::new(0x6e65_6967_6862_0001);
    let (mut calls, mut done, mut moved) = (0, 0, 0);
    while calls < 20_000 {
        let store = sound_store(&mut generator);
        let place = generator.up_to(store.len() / RECORD - 1);
        let (bytes, _) = parts(&store, place);
        let Ok(Some(record)) = Record::decode(bytes) else {
            continue;
        };
        let given = Given::for_store(&mut generator, bytes);
        let own = match given.call() {
            Call::Seal { kid, .. } => kid == record.kid,
            Call::Open { frame, .. } => match read_header(frame) {
                Some((kid, _, _)) => kid == record.kid,
                None => true,
            },
            _ => false,
        };
        if !own {
            continue;
        }
        let other = other_with(&mut generator, &record);
        let (one, two) = (compare(&store, given.call()), compare(&other, given.call()));
        assert_ne!(one.number, STORE_NOT_SOUND);
        assert_eq!((one.number, one.length), (two.number, two.length));
        assert!(one.room == two.room);
        let left = new_record(&store, record.kid, &one);
        assert_eq!(left, new_record(&other, record.kid, &two));
        calls += 2;
        done += u32::from(one.number == DONE);
        moved += u32::from(find(&other, record.kid) != Ok(place));
    }
    println!("{calls} calls, {done} pairs done, {moved} at other places");
    assert!(done > 1_000 && moved > 1_000);
}
