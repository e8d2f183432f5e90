// SPDX-License-Identifier: MIT
//! The published SFrame cases, through the calls of the store alone.

use comparison::{done, made, with_key, Call, Key};
use reference::suites::Suite;
use sframe::{Role, RECORD};
use testkit::sframe_vectors;

/// The counter of the cases is reached by sealing, and no byte of a store is
/// written by hand but the sender's of suite 3, which is not added.
#[test]
fn published_frames() {
    for case in sframe_vectors() {
        let (kid, ctr) = (case.number("kid"), case.number("ctr"));
        let (metadata, plaintext) = (case.bytes("metadata"), case.bytes("pt"));
        let key = Key {
            suite: Suite::from_number(case.number("cipher_suite")).unwrap(),
            kid,
            base_key: case.bytes("base_key"),
        };

        let mut store = with_key(&made(1), Role::Sending, &key);
        check_key(
            &store,
            &case.bytes("sframe_key"),
            &case.bytes("sframe_salt"),
        );
        for _ in 0..ctr {
            let unused = Call::Seal {
                kid,
                metadata: b"",
                plaintext: b"",
                offset: 0,
                room: 32,
            };
            store = done(&store, unused).store;
        }
        let sealing = Call::Seal {
            kid,
            metadata: &metadata,
            plaintext: &plaintext,
            offset: 0,
            room: 64,
        };
        let sealed = done(&store, sealing);
        assert_eq!(sealed.result(), case.bytes("ct"));

        let store = with_key(&made(1), Role::Receiving, &key);
        check_key(
            &store,
            &case.bytes("sframe_key"),
            &case.bytes("sframe_salt"),
        );
        let opening = Call::Open {
            frame: &case.bytes("ct"),
            metadata: &metadata,
            room: plaintext.len(),
        };
        assert_eq!(done(&store, opening).result(), plaintext);
    }
}

/// The only record of `store` holds this key and this salt, and has opened
/// nothing.
#[track_caller]
fn check_key(store: &[u8], key: &[u8], salt: &[u8]) {
    let unused = vec![0; RECORD - 32 - key.len()];
    assert_eq!(store[20..], [salt, key, &unused].concat());
}
