// SPDX-License-Identifier: MIT
//! A track store in bytes of its own: how many records it takes, which bytes it
//! takes over, and what it goes on with.

use moq::{
    KeyId, Location, OwnedTrackStore, Properties, Refusal, Role, Suite, Track, MAX_RECORDS, RECORD,
};

const TRACK: Track = Track {
    name: b"\x01\x04room\x05video",
    key_id: KeyId(7),
};

#[test]
fn numbers_of_records() {
    for records in [0, MAX_RECORDS + 1, usize::MAX] {
        assert_eq!(
            OwnedTrackStore::make(records).err(),
            Some(Refusal::StoreNotSound)
        );
    }
    for records in [1, 2, MAX_RECORDS] {
        let store = OwnedTrackStore::make(records).unwrap();
        assert_eq!(store.as_bytes(), vec![0; records * RECORD]);
        assert_eq!(
            format!("{store:?}"),
            format!("OwnedTrackStore of {} bytes", records * RECORD)
        );
    }
}

#[test]
fn bytes_that_are_taken_over() {
    for length in [0, 1, RECORD - 1, RECORD + 1, (MAX_RECORDS + 1) * RECORD] {
        let taken = OwnedTrackStore::from_bytes(vec![0; length]);
        assert_eq!(taken.err(), Some(Refusal::StoreNotSound), "{length} bytes");
    }
    let taken = OwnedTrackStore::from_bytes(vec![0xff; RECORD]);
    assert_eq!(taken.err(), Some(Refusal::StoreNotSound));
    // An empty store, one for receiving and one for sending are taken over as they are.
    for role in [None, Some(Role::Receiving), Some(Role::Sending)] {
        let mut store = OwnedTrackStore::make(2).unwrap();
        if let Some(role) = role {
            store
                .lend()
                .add(role, TRACK, Suite::Aes256GcmSha512_128, &[5; 32])
                .unwrap();
        }
        let bytes = store.as_bytes().to_vec();
        assert_eq!(
            OwnedTrackStore::from_bytes(bytes.clone())
                .unwrap()
                .as_bytes(),
            bytes
        );
    }
}

#[test]
fn pairs_go_on_after_a_restart() {
    let mut store = OwnedTrackStore::make(1).unwrap();
    store
        .lend()
        .add(Role::Sending, TRACK, Suite::Aes128GcmSha256_128, &[5; 32])
        .unwrap();
    let mut last = Location {
        group: 0,
        object: 0,
    };
    for object in 0..20 {
        let next = Location { group: 3, object };
        let sealed = store
            .lend()
            .seal_to_vec(TRACK, next, Properties(b"\x02\x07"), b"cue");
        assert_eq!(sealed.map(|object| object.len()), Ok(19));
        store = OwnedTrackStore::from_bytes(store.as_bytes().to_vec()).unwrap();
        for used in [last, next] {
            let again = store
                .lend()
                .seal_to_vec(TRACK, used, Properties(b"\x02\x07"), b"cue");
            assert_eq!(again, Err(Refusal::PairNotAbove));
        }
        last = next;
    }
}
