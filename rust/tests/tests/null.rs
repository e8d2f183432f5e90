// SPDX-License-Identifier: MIT
//! A null pointer is allowed wherever the length beside it is 0.

use comparison::number::*;
use comparison::{frame, made, with_key, Key};
use reference::suites::SUITES;
use sframe::ffi::*;
use sframe::{Role, STATE};
use std::ptr::{null, null_mut};

#[test]
fn headers() {
    let (mut kid, mut ctr, mut length) = (1, 1, 1);
    // SAFETY: a length of 0 lends no byte, and the numbers are locals.
    let number = unsafe { sframe_read_header(null(), 0, &mut kid, &mut ctr, &mut length) };
    assert_eq!((number, kid, ctr, length), (BAD_HEADER, 0, 0, 0));

    length = 1;
    // SAFETY: as above.
    let number = unsafe { sframe_write_header(0, 0, null_mut(), 0, &mut length) };
    assert_eq!((number, length), (ROOM_SHORT, 0));
    for offset in [0, 1, usize::MAX] {
        length = 1;
        // SAFETY: as above.
        let number = unsafe { sframe_write_header_at(0, 0, null_mut(), 0, offset, &mut length) };
        assert_eq!((number, length), (ROOM_SHORT, 0));
    }
}

#[test]
fn stores() {
    // SAFETY: a length of 0 lends no byte.
    let numbers = unsafe {
        [
            sframe_make(null_mut(), 0),
            sframe_add_sending(null_mut(), 0, 1, 1, null(), 0),
            sframe_add_receiving(null_mut(), 0, 1, 1, null(), 0),
            sframe_remove(null_mut(), 0, 1),
            sframe_remove_near(null_mut(), 0, 1, 0),
            sframe_remove_near(null_mut(), 0, 1, usize::MAX),
            sframe_change_epoch(null_mut(), 0, 65, 1),
        ]
    };
    assert_eq!(numbers, [STORE_NOT_SOUND; 7]);
    let mut count = 1;
    // SAFETY: as above, and `count` is a local.
    let number = unsafe { sframe_report(null(), 0, 1, &mut count) };
    assert_eq!((number, count), (STORE_NOT_SOUND, 0));
    let mut place = 1;
    // SAFETY: as above, and `place` is a local.
    let number = unsafe { sframe_find(null(), 0, 1, &mut place) };
    assert_eq!((number, place), (STORE_NOT_SOUND, 0));

    let mut store = made(1);
    // SAFETY: the store is live and of that length; a length of 0 lends no byte.
    let numbers = unsafe {
        [
            sframe_add_sending(store.as_mut_ptr(), store.len(), 1, 1, null(), 0),
            sframe_add_receiving(store.as_mut_ptr(), store.len(), 1, 1, null(), 0),
        ]
    };
    assert_eq!(numbers, [BASE_KEY_LENGTH; 2]);
}

#[test]
fn metadata_plaintext_and_room() {
    for suite in SUITES {
        let key = Key::any(suite, 1);
        let expected = frame(&key, 0, b"", b"");
        let mut store = with_key(&made(1), Role::Sending, &key);
        let mut room = [0; 32];
        let mut length = 1;
        // SAFETY: store and room are live, apart, and of the lengths given; a
        // length of 0 lends no byte; `length` is a local.
        let number = unsafe {
            let (store, bytes) = (store.as_mut_ptr(), store.len());
            let out = room.as_mut_ptr();
            let refused = sframe_seal(
                store,
                bytes,
                1,
                null(),
                0,
                null(),
                0,
                null_mut(),
                0,
                &mut length,
            );
            assert_eq!((refused, length), (ROOM_SHORT, 0));
            for offset in [0, 1, usize::MAX] {
                length = 1;
                let refused = sframe_seal_at(
                    store,
                    bytes,
                    1,
                    null(),
                    0,
                    null(),
                    0,
                    null_mut(),
                    0,
                    offset,
                    &mut length,
                );
                assert_eq!((refused, length), (ROOM_SHORT, 0));
            }
            sframe_seal(store, bytes, 1, null(), 0, null(), 0, out, 32, &mut length)
        };
        assert_eq!(number, DONE);
        assert_eq!(room[..length], expected);

        let mut store = with_key(&made(1), Role::Receiving, &key);
        // SAFETY: as above.
        let number = unsafe {
            let (store, bytes) = (store.as_mut_ptr(), store.len());
            let no_frame = sframe_open(
                store,
                bytes,
                null(),
                0,
                null(),
                0,
                null_mut(),
                0,
                &mut length,
            );
            assert_eq!((no_frame, length), (BAD_HEADER, 0));
            let (frame, bytes_of_frame) = (expected.as_ptr(), expected.len());
            sframe_open(
                store,
                bytes,
                frame,
                bytes_of_frame,
                null(),
                0,
                null_mut(),
                0,
                &mut length,
            )
        };
        assert_eq!((number, length), (DONE, 0));
    }
}

#[test]
fn pieces() {
    let mut length = 1;
    // SAFETY: a length of 0 lends no byte, and `length` is a local.
    let numbers = unsafe {
        let (begin, piece, end) = (sframe_seal_begin, sframe_seal_piece, sframe_seal_end);
        let (no, none) = (null_mut(), null());
        [
            begin(no, 0, 1, none, 0, 0, no, 0, no, 0, &mut length),
            piece(no, 0, none, 0, no, 0, &mut length),
            end(none, 0, no, 0, &mut length),
            sframe_check_begin(none, 0, none, 0, none, 0, 0, no, 0),
            sframe_check_piece(no, 0, none, 0),
            sframe_check_end(none, 0, none, 0),
        ]
    };
    let refused = [STORE_NOT_SOUND, BAD_STATE, BAD_STATE];
    assert_eq!(numbers, [refused, refused].concat()[..]);
    assert_eq!(length, 0);

    for suite in SUITES {
        let key = Key::any(suite, 1);
        let expected = frame(&key, 0, b"", b"");
        let mut store = with_key(&made(1), Role::Sending, &key);
        let (mut state, mut room) = ([0; STATE], [0; 32]);
        let (header, tag) = expected.split_at(1);
        // SAFETY: store, state, room and tag are live, apart, and of the lengths
        // given; a length of 0 lends no byte; `length` is a local.
        unsafe {
            let (bytes, line, out) = (store.as_mut_ptr(), state.as_mut_ptr(), room.as_mut_ptr());
            let begin = |state, size, out, room, length| {
                sframe_seal_begin(bytes, 96, 1, null(), 0, 0, state, size, out, room, length)
            };
            assert_eq!(begin(line, STATE, null_mut(), 0, &mut length), ROOM_SHORT);
            assert_eq!(begin(null_mut(), 0, out, 32, &mut length), ROOM_SHORT);
            assert_eq!(begin(line, STATE, out, 32, &mut length), DONE);
            assert_eq!((length, &room[..1]), (1, header));
            let piece = sframe_seal_piece(line, STATE, null(), 0, null_mut(), 0, &mut length);
            assert_eq!((piece, length), (DONE, 0));
            let end = sframe_seal_end(line, STATE, null_mut(), 0, &mut length);
            assert_eq!((end, length), (ROOM_SHORT, 0));
        }
        let store = with_key(&made(1), Role::Receiving, &key);
        // SAFETY: as above.
        unsafe {
            let (bytes, line) = (store.as_ptr(), state.as_mut_ptr());
            let (front, size) = (expected.as_ptr(), expected.len());
            let none = sframe_check_begin(bytes, 96, null(), 0, null(), 0, 0, line, STATE);
            assert_eq!(none, BAD_HEADER);
            let short = sframe_check_begin(bytes, 96, front, size, null(), 0, 0, null_mut(), 0);
            assert_eq!(short, ROOM_SHORT);
            let begun = sframe_check_begin(bytes, 96, front, size, null(), 0, 0, line, STATE);
            assert_eq!(begun, DONE);
            assert_eq!(sframe_check_piece(line, STATE, null(), 0), DONE);
            assert_eq!(sframe_check_end(line, STATE, null(), 0), FRAME_SHORT);
            let end = sframe_check_end(line, STATE, tag.as_ptr(), tag.len());
            assert_eq!(end, DONE);
        }
    }
}
