// SPDX-License-Identifier: MIT
//! Results at an offset in the room: what stands before and behind them stays,
//! and a room that ends too early, or before the offset, is short.

use comparison::number::*;
use comparison::{compare, compare_write_header_at, done, frame, made, with_key, Call, Key};
use reference::header::write_header;
use reference::suites::SUITES;
use sframe::raw::{self, Written};
use sframe::{Role, MAX_HEADER};
use testkit::Generator;

const KID: u64 = 200;
const OFFSETS: [usize; 6] = [0, 1, 2, 16, 17, 1_000];

/// Offsets that lie at the end of a room, and past it.
fn past(room: usize) -> [usize; 5] {
    [room, room + 1, room + 17, usize::MAX - 1, usize::MAX]
}

fn sender(suite: reference::suites::Suite) -> (Key, Vec<u8>) {
    let key = Key::any(suite, KID);
    let store = with_key(&made(1), Role::Sending, &key);
    (key, store)
}

#[test]
fn headers_at_offsets() {
    for (kid, ctr) in [(0, 0), (7, 8), (200, 1 << 20), (u64::MAX, u64::MAX)] {
        let length = write_header(kid, ctr).len();
        for offset in OFFSETS {
            for room in offset + length..offset + length + 4 {
                let written = compare_write_header_at(kid, ctr, offset, room);
                let expected = Written {
                    number: DONE,
                    length,
                };
                assert_eq!(written, expected);
            }
            for room in (0..offset + length).rev().take(MAX_HEADER + 3) {
                let written = compare_write_header_at(kid, ctr, offset, room);
                assert_eq!((written.number, written.length), (ROOM_SHORT, 0));
            }
        }
        for room in [0, 1, 17, 18, 100] {
            for offset in past(room) {
                let written = compare_write_header_at(kid, ctr, offset, room);
                assert_eq!((written.number, written.length), (ROOM_SHORT, 0));
            }
        }
    }
}

/// A room that is exact, longer, and one byte short. What is refused uses up no
/// counter, so the first frame follows all the same.
#[test]
fn frames_at_offsets() {
    for suite in SUITES {
        let (key, mut store) = sender(suite);
        for plaintext in [&b""[..], b"a picture"] {
            let expected = frame(&key, 0, b"m", plaintext);
            let seal = |offset, room| Call::Seal {
                kid: KID,
                metadata: b"m",
                plaintext,
                offset,
                room,
            };
            for offset in OFFSETS {
                let end = offset + expected.len();
                for room in [end, end + 1, end + 9] {
                    let sealed = done(&store, seal(offset, room));
                    assert_eq!(sealed.length, expected.len());
                    assert_eq!(sealed.result(), expected);
                }
                for room in [end - 1, offset + 1, offset, offset / 2] {
                    let refused = compare(&store, seal(offset, room));
                    assert_eq!(refused.number, ROOM_SHORT);
                    store = refused.store;
                }
            }
            for room in [0, 1, expected.len(), 1_000] {
                for offset in past(room) {
                    let refused = compare(&store, seal(offset, room));
                    assert_eq!(refused.number, ROOM_SHORT);
                    store = refused.store;
                }
            }
            assert_eq!(done(&store, seal(17, 100)).result(), expected);
        }
    }
}

/// No two bytes of the room are alike side by side, so that nothing can move.
#[test]
fn what_stands_around_a_result_stays() {
    let mut generator = Generator::new(0x6f66_6673_6574_0001);
    let (key, store) = sender(SUITES[3]);
    let expected = frame(&key, 0, b"", b"a picture");
    let header = write_header(KID, 300);
    for offset in [0, 1, 17, 40, 100] {
        let patterned = generator.bytes(offset + expected.len() + 50);
        let around = |result: &[u8]| {
            let behind = &patterned[offset + result.len()..];
            [&patterned[..offset], result, behind].concat()
        };

        let mut room = patterned.clone();
        let written = raw::seal_at(
            &mut store.clone(),
            KID,
            b"",
            b"a picture",
            &mut room,
            offset,
        );
        assert_eq!((written.number, written.length), (DONE, expected.len()));
        assert_eq!(room, around(&expected));

        let mut room = patterned.clone();
        let written = raw::write_header_at(KID, 300, &mut room, offset);
        assert_eq!((written.number, written.length), (DONE, header.len()));
        assert_eq!(room, around(&header));
    }
}

/// The frames of a packet, one behind the other in one room.
#[test]
fn frames_in_a_row() {
    let (key, mut store) = sender(SUITES[0]);
    let mut receiver = with_key(&made(1), Role::Receiving, &key);
    let mut packet = [0; 200];
    let mut offset = 3;
    for ctr in 0..5 {
        let written = raw::seal_at(&mut store, KID, b"", b"picture", &mut packet, offset);
        assert_eq!(written.number, DONE);
        let sealed = &packet[offset..][..written.length];
        assert_eq!(sealed, frame(&key, ctr, b"", b"picture"));
        offset += written.length;
    }
    let mut opened = 3;
    while opened < offset {
        let length = frame(&key, 0, b"", b"picture").len();
        let opening = Call::Open {
            frame: &packet[opened..][..length],
            metadata: b"",
            room: 7,
        };
        let outcome = done(&receiver, opening);
        assert_eq!(outcome.result(), b"picture");
        receiver = outcome.store;
        opened += length;
    }
    assert_eq!(packet[..3], [0; 3]);
}
