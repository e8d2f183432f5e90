// SPDX-License-Identifier: MIT
//! Both archives in one program: frames and objects side by side.

use moq::{KeyId, Location, Properties, Track, TrackStore};
use sframe::{Kid, Metadata, Role, Store, Suite};

#[test]
fn frames_and_objects() {
    let (suite, key) = (Suite::Aes256GcmSha512_128, [7; 64]);
    let (mut keys, mut tracks) = ([0; 2 * sframe::RECORD], [0; 2 * moq::RECORD]);
    let mut keys = Store::make(&mut keys).unwrap();
    let mut tracks = TrackStore::make(&mut tracks).unwrap();
    let track = Track {
        name: b"\x01\x04room\x05video",
        key_id: KeyId(7),
    };
    let other = Track {
        key_id: KeyId(8),
        ..track
    };
    let at = Location {
        group: 1,
        object: 2,
    };
    keys.add(Role::Sending, Kid(7), suite, &key).unwrap();
    tracks.add(Role::Sending, track, suite, &key).unwrap();
    tracks.add(Role::Receiving, other, suite, &key).unwrap();
    for round in 0..3 {
        let frame = keys
            .seal_to_vec(Kid(7), Metadata::NONE, b"picture")
            .unwrap();
        let at = Location {
            object: at.object + round,
            ..at
        };
        let object = tracks.seal_to_vec(track, at, Properties(b"\x02\x07"), b"picture");
        let object = object.unwrap();
        assert_ne!(frame[frame.len() - 23..], object[..]);
        let refused = tracks.open_to_vec(other, at, Properties(b"\x02\x07"), &object);
        assert_eq!(refused, Err(moq::Refusal::TagDiffers));
    }
}
