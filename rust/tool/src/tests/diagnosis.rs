// SPDX-License-Identifier: MIT
//! The words for what is wrong agree with the layer's judgement.

use crate::diagnosis;
use sframe::{Kid, Metadata, Role, Store, StoreView, Suite, RECORD};

/// A store with a key of each state and an empty record.
fn store() -> Vec<u8> {
    let mut bytes = vec![0; 5 * RECORD];
    let mut store = Store::make(&mut bytes).unwrap();
    let suites = [
        (Role::Sending, Suite::Aes256GcmSha512_128),
        (Role::Receiving, Suite::Aes128CtrHmacSha256_80),
        (Role::Sending, Suite::Aes128GcmSha256_128),
        (Role::Receiving, Suite::Aes128GcmSha256_128),
    ];
    for (kid, (role, suite)) in (7..).zip(suites) {
        store.add(role, Kid(kid), suite, &[7; 16]).unwrap();
    }
    let mut other = vec![0; RECORD];
    let mut sender = Store::make(&mut other).unwrap();
    let suite = Suite::Aes128GcmSha256_128;
    sender.add(Role::Sending, Kid(10), suite, &[7; 16]).unwrap();
    for _ in 0..3 {
        let frame = sender.seal_to_vec(Kid(10), Metadata::NONE, b"").unwrap();
        store.open_to_vec(&frame, Metadata::NONE).unwrap();
    }
    store.remove(Kid(9)).unwrap();
    bytes
}

#[track_caller]
fn agrees(bytes: &[u8]) -> bool {
    let sound = StoreView::over(bytes).check().is_ok();
    let why = diagnosis::of(bytes);
    assert_eq!(sound, why.is_none(), "{why:?}");
    sound
}

#[test]
fn every_value_of_every_byte() {
    let store = store();
    assert!(agrees(&store));
    let (mut sound, mut broken) = (0, 0);
    for at in 0..store.len() {
        for value in 0..=255 {
            let mut bytes = store.clone();
            bytes[at] = value;
            match agrees(&bytes) {
                true => sound += 1,
                false => broken += 1,
            }
        }
    }
    assert!(sound > 10_000 && broken > 10_000, "{sound} and {broken}");
}

#[test]
fn lengths_and_orders() {
    let store = store();
    for length in 0..=store.len() {
        agrees(&store[..length]);
    }
    for records in [1_023, 1_024, 1_025] {
        agrees(&vec![0; records * RECORD]);
    }
    let records: Vec<&[u8]> = store.chunks(RECORD).collect();
    for one in 0..records.len() {
        for other in 0..records.len() {
            let mut records = records.clone();
            records.swap(one, other);
            assert_eq!(agrees(&records.concat()), one == other);
            records[one] = records[other];
            agrees(&records.concat());
        }
    }
}

/// The record is named, counted from 1.
#[test]
fn the_record_is_named() {
    let mut bytes = store();
    bytes[3 * RECORD + 1] = 9;
    let why = diagnosis::of(&bytes).unwrap();
    assert_eq!(why, "record 4 has suite 9, where they are 1 to 5");
    let mut bytes = store();
    bytes[RECORD + 11] = 7;
    let why = diagnosis::of(&bytes).unwrap();
    assert_eq!(
        why,
        "record 2 has a key number that is not above the one before"
    );
}

/// A track store of moq is told from a store of an earlier version.
#[test]
fn a_track_store() {
    let mut track = vec![0; 344];
    track[..12].copy_from_slice(&[1, 4, 1, 0, 0, 0, 0, 0, 0, 0, 0, 7]);
    track[12..24].fill(9);
    track[24..26].copy_from_slice(&[0, 5]);
    track[28..40].fill(3);
    track[40..56].fill(4);
    track[88..93].copy_from_slice(b"video");
    let tracks = [&track[..], &[0; 344]].concat();
    let told = "it is laid out as a track store, which is for moq";
    for bytes in [&tracks[..], &track, &[0; 344], &[0; 688]] {
        assert!(!agrees(bytes));
        assert_eq!(diagnosis::of(bytes).unwrap(), told);
    }
    // Sound as either.
    assert!(agrees(&[0; 12 * 344]));
    for (at, value) in [
        (0, 4),
        (1, 6),
        (2, 2),
        (3, 1),
        (24, 2),
        (26, 1),
        (93, 1),
        (343, 1),
    ] {
        let mut other = tracks.clone();
        other[at] = value;
        assert_ne!(diagnosis::of(&other).unwrap(), told, "{at}");
    }
    let earlier = "record 1 has 0 in byte 3: a store of an earlier version";
    assert_eq!(diagnosis::of(&tracks[..687]).unwrap(), earlier);
}
