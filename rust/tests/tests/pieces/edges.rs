// SPDX-License-Identifier: MIT
//! The edges of every size and number of the six calls, and the order of their
//! causes.

use super::line::{begin, check, checked, receiver, seal, sender, ANY_STATE, KID};
use comparison::number::*;
use comparison::{
    after, compare_line, frame, go_on, made, retire, set_counter, set_window, spend, with_key,
    Call, Key, LineCall,
};
use reference::suites::SUITES;
use sframe::{Role, MAX_COUNTER, MAX_METADATA, MAX_PLAINTEXT, STATE};
use testkit::PATTERN;

const MOST: u64 = MAX_PLAINTEXT as u64;

fn seal_begin(metadata: &[u8], plaintext_len: u64, room: usize) -> LineCall<'_> {
    LineCall::SealBegin {
        kid: KID,
        metadata,
        plaintext_len,
        room,
    }
}

fn check_begin<'a>(header: &'a [u8], metadata: &'a [u8], ciphertext_len: u64) -> LineCall<'a> {
    LineCall::CheckBegin {
        header,
        metadata,
        ciphertext_len,
    }
}

#[track_caller]
fn answer(store: &[u8], state: &[u8], call: LineCall) -> u32 {
    compare_line(store, state, call).number
}

/// What can be announced, and how much metadata there may be.
#[test]
fn lengths_of_the_beginnings() {
    let long = [7; MAX_METADATA + 1];
    for suite in SUITES {
        let key = Key::any(suite, KID);
        let (sending, receiving) = (sender(&key), receiver(&key));
        for (length, number) in [
            (0, DONE),
            (1, DONE),
            (MOST, DONE),
            (MOST + 1, TOO_LONG),
            (1 << 16, TOO_LONG),
            (1 << 32, TOO_LONG),
            ((1 << 32) + 5, TOO_LONG),
            (u64::MAX, TOO_LONG),
        ] {
            for (metadata, metadata_number) in [
                (0, DONE),
                (MAX_METADATA, DONE),
                (MAX_METADATA + 1, TOO_LONG),
            ] {
                let number = number.max(metadata_number);
                let metadata = &long[..metadata];
                let call = seal_begin(metadata, length, 17);
                assert_eq!(answer(&sending, &ANY_STATE, call), number);
                let call = check_begin(&[0x80, 200], metadata, length);
                assert_eq!(answer(&receiving, &ANY_STATE, call), number);
            }
        }
    }
}

/// Room for the header alone is asked for, and a state of 168 bytes. One byte
/// less of either uses no counter; one more of either stays as it was.
#[test]
fn room_and_state_of_the_beginnings() {
    for suite in SUITES {
        for (kid, ctr, header) in [
            (1, 0, 1),
            (KID, 0, 2),
            (KID, 8, 3),
            (u64::MAX, MAX_COUNTER, 17),
        ] {
            let key = Key::any(suite, kid);
            let mut sending = sender(&key);
            set_counter(&mut sending, 0, ctr);
            let receiving = receiver(&key);
            let whole = frame(&key, ctr, b"", b"");
            for size in [0, 1, STATE - 1, STATE, STATE + 1, 2 * STATE] {
                let state = vec![PATTERN; size];
                for room in [0, header - 1, header, header + 1, 40] {
                    let call = LineCall::SealBegin {
                        kid,
                        metadata: b"",
                        plaintext_len: MOST,
                        room,
                    };
                    let enough = size >= STATE && room >= header;
                    let outcome = compare_line(&sending, &state, call);
                    assert_eq!(outcome.number == DONE, enough);
                    assert!(enough || outcome.number == ROOM_SHORT);
                    assert_eq!(outcome.store == sending, !enough);
                    assert_eq!(outcome.result(), &whole[..if enough { header } else { 0 }]);
                }
                let call = check_begin(&whole, b"", MOST);
                let number = answer(&receiving, &state, call);
                assert_eq!(number == DONE, size >= STATE);
                assert!(size >= STATE || number == ROOM_SHORT);
            }
        }
    }
}

/// Each cause stands in front of all that come after it.
#[test]
fn order_of_the_beginnings() {
    for suite in SUITES {
        let key = Key::any(suite, KID);
        let (sending, receiving) = (sender(&key), receiver(&key));
        let retired = retire(&made(1), &key);
        let other = with_key(&made(1), Role::Receiving, &Key::any(suite, 56));
        let mut spent = sending.clone();
        spend(&mut spent, 0);
        let mut unsound = spent.clone();
        unsound[3] = 0;
        let long = [0; MAX_METADATA + 1];
        let all = seal_begin(&long, MOST + 1, 0);
        assert_eq!(answer(&unsound, &[], all), STORE_NOT_SOUND);
        assert_eq!(answer(&[], &[], all), STORE_NOT_SOUND);
        assert_eq!(answer(&other, &[], all), KID_UNKNOWN);
        for store in [&receiving, &retired] {
            assert_eq!(answer(store, &[], all), WRONG_ROLE);
        }
        assert_eq!(answer(&spent, &[], all), COUNTER_SPENT);
        assert_eq!(answer(&sending, &[], all), TOO_LONG);
        assert_eq!(
            answer(&sending, &[], seal_begin(&[], MOST + 1, 0)),
            TOO_LONG
        );
        assert_eq!(answer(&sending, &[], seal_begin(&[], MOST, 0)), ROOM_SHORT);
        assert_eq!(answer(&sending, &[], seal_begin(&[], MOST, 17)), ROOM_SHORT);
        assert_eq!(
            answer(&sending, &ANY_STATE, seal_begin(&[], MOST, 1)),
            ROOM_SHORT
        );

        let (cut, header) = (&[0x80][..], &[0x80, 200][..]);
        let mut unsound = receiving.clone();
        unsound[2] = 1;
        assert_eq!(
            answer(&unsound, &[], check_begin(cut, &long, MOST + 1)),
            STORE_NOT_SOUND
        );
        assert_eq!(
            answer(&other, &[], check_begin(cut, &long, MOST + 1)),
            BAD_HEADER
        );
        assert_eq!(
            answer(&other, &[], check_begin(&[], &long, MOST + 1)),
            BAD_HEADER
        );
        assert_eq!(
            answer(&other, &[], check_begin(header, &long, MOST + 1)),
            KID_UNKNOWN
        );
        for store in [&sending, &retired] {
            assert_eq!(
                answer(store, &[], check_begin(header, &long, MOST + 1)),
                WRONG_ROLE
            );
        }
        assert_eq!(
            answer(&receiving, &[], check_begin(header, &long, MOST + 1)),
            TOO_LONG
        );
        assert_eq!(
            answer(&receiving, &[], check_begin(header, &long, 0)),
            TOO_LONG
        );
        assert_eq!(
            answer(&receiving, &[], check_begin(header, &[], MOST + 1)),
            TOO_LONG
        );
        assert_eq!(
            answer(&receiving, &[], check_begin(header, &[], MOST)),
            ROOM_SHORT
        );
        assert_eq!(
            answer(&receiving, &ANY_STATE, check_begin(header, &[], MOST)),
            DONE
        );
    }
}

/// A piece past what was announced, with room and without; then one without room.
#[test]
fn pieces_and_their_rooms() {
    for suite in SUITES {
        let key = Key::any(suite, KID);
        let (_, state, _) = begin(&sender(&key), KID, b"m", 100);
        let (header, long) = ([0x80, 200], [0x3c; 300]);
        let begun = compare_line(&receiver(&key), &ANY_STATE, check_begin(&header, b"m", 100));
        for (taken, piece, room, number) in [
            (0, 100, 100, DONE),
            (0, 100, 99, ROOM_SHORT),
            (0, 101, 101, BAD_STATE),
            (0, 101, 0, BAD_STATE),
            (0, 300, 300, BAD_STATE),
            (0, 0, 0, DONE),
            (33, 67, 67, DONE),
            (33, 67, 66, ROOM_SHORT),
            (33, 67, 0, ROOM_SHORT),
            (33, 68, 100, BAD_STATE),
            (33, 68, 0, BAD_STATE),
            (100, 0, 0, DONE),
            (100, 1, 1, BAD_STATE),
            (100, 1, 0, BAD_STATE),
        ] {
            let (piece, mut state) = (&long[..piece], state.clone());
            let first = &long[..taken];
            go_on(
                &mut state,
                LineCall::SealPiece {
                    piece: first,
                    room: taken,
                },
            );
            assert_eq!(
                answer(&[], &state, LineCall::SealPiece { piece, room }),
                number
            );
            let mut state = begun.state.clone();
            go_on(&mut state, LineCall::CheckPiece { piece: first });
            let expected = if number == ROOM_SHORT { DONE } else { number };
            assert_eq!(
                answer(&[], &state, LineCall::CheckPiece { piece }),
                expected
            );
        }
    }
}

/// An end before all is taken, without room and again; then a tag of any length.
#[test]
fn ends() {
    for suite in SUITES {
        let nt = suite.nt();
        let key = Key::any(suite, KID);
        let whole = frame(&key, 0, b"m", &[0x3c; 40]);
        let (_, mut state, _) = begin(&sender(&key), KID, b"m", 40);
        let early = [0, 20, 39, 40].map(|taken| {
            let mut state = state.clone();
            let piece = &[0x3c; 40][..taken];
            go_on(&mut state, LineCall::SealPiece { piece, room: 40 });
            [0, nt, 16].map(|room| answer(&[], &state, LineCall::SealEnd { room }))
        });
        assert_eq!(early[..3], [[BAD_STATE; 3]; 3]);
        assert_eq!(early[3], [ROOM_SHORT, DONE, DONE]);
        let piece = &[0x3c; 40];
        go_on(&mut state, LineCall::SealPiece { piece, room: 40 });
        for room in 0..nt {
            assert_eq!(answer(&[], &state, LineCall::SealEnd { room }), ROOM_SHORT);
        }
        for room in nt..nt + 3 {
            let tag = go_on(&mut state, LineCall::SealEnd { room });
            assert_eq!(tag, whole[42..]);
        }

        let (store, tag) = (receiver(&key), &whole[42..]);
        let cut = [&whole[..41], tag].concat();
        let mut early = checked(&store, b"m", &cut, nt, 16);
        early[7] = 40; // one more was announced
        let longer = [tag, &[0; 20]].concat();
        let state = checked(&store, b"m", &whole, nt, 16);
        for length in 0..longer.len() {
            let tag = &longer[..length];
            let expected = if length == nt { DONE } else { FRAME_SHORT };
            assert_eq!(answer(&[], &state, LineCall::CheckEnd { tag }), expected);
            assert_eq!(answer(&[], &early, LineCall::CheckEnd { tag }), BAD_STATE);
        }
        // Every bit of the tag counts.
        for bit in 0..8 * nt {
            let mut tag = tag.to_vec();
            tag[bit / 8] ^= 1 << (bit % 8);
            assert_eq!(
                answer(&[], &state, LineCall::CheckEnd { tag: &tag }),
                TAG_DIFFERS
            );
        }
    }
}

#[test]
fn the_last_counter_begins_and_then_none() {
    for suite in SUITES {
        let key = Key::any(suite, KID);
        let mut store = sender(&key);
        set_counter(&mut store, 0, MAX_COUNTER - 1);
        for ctr in [MAX_COUNTER - 1, MAX_COUNTER] {
            let (sealed, left) = seal(&store, KID, b"", &[b"a pic", b"ture"]);
            assert_eq!(sealed, frame(&key, ctr, b"", b"a picture"));
            store = left;
        }
        let number = answer(&store, &ANY_STATE, seal_begin(&[], 0, 17));
        assert_eq!(number, COUNTER_SPENT);
    }
}

/// A sealing goes on when its key is removed, and so does a check; what is given up
/// has used its counter.
#[test]
fn keys_are_removed_meanwhile() {
    for suite in SUITES {
        let key = Key::any(suite, KID);
        let (store, _, _) = begin(&sender(&key), KID, b"m", 9); // given up
        let (store, mut state, mut sealed) = begin(&store, KID, b"m", 9);
        let store = after(&store, Call::Remove { kid: KID });
        assert_eq!(
            answer(&store, &ANY_STATE, seal_begin(b"m", 9, 17)),
            WRONG_ROLE
        );
        for piece in [&b"a pic"[..], b"ture"] {
            let room = piece.len();
            sealed.extend(go_on(&mut state, LineCall::SealPiece { piece, room }));
        }
        sealed.extend(go_on(&mut state, LineCall::SealEnd { room: 16 }));
        assert_eq!(sealed, frame(&key, 1, b"m", b"a picture"));
    }
}

/// The window neither asks nor is asked.
#[test]
fn checks_and_the_window() {
    for suite in SUITES {
        let key = Key::any(suite, KID);
        let mut store = receiver(&key);
        set_window(&mut store, 0, 200, u64::MAX);
        for ctr in [0, 100, 136, 137, 200, 201, MAX_COUNTER] {
            let whole = frame(&key, ctr, b"m", b"a picture");
            assert_eq!(check(&store, b"m", &whole, suite.nt(), 4), DONE);
            assert_eq!(check(&store, b"n", &whole, suite.nt(), 4), TAG_DIFFERS);
        }
    }
}
