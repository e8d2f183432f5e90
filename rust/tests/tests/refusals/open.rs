// SPDX-License-Identifier: MIT
//! Open.

use super::held::{make_unsound, store, Held, HELD, KID};
use super::seen::Seen;
use comparison::number::*;
use comparison::{frame, set_window, Call, Key};
use reference::suites::{Suite, SUITES};
use sframe::{MAX_METADATA, MAX_PLAINTEXT};
use testkit::combinations;

const OPEN: &[u32] = &[
    STORE_NOT_SOUND,
    BAD_HEADER,
    KID_UNKNOWN,
    WRONG_ROLE,
    FRAME_SHORT,
    TOO_LONG,
    ROOM_SHORT,
    ALREADY_OPENED,
    TOO_OLD,
    TAG_DIFFERS,
];

/// What the key's window says of counter 0, the frame's: nothing yet, that it
/// lies within and was not opened, that it was opened, at the window's front and
/// at its end, and that it lies behind. As highest counter and mask.
const WINDOWS: [(u64, u64); 6] = [
    (0, 0),
    (63, 1),
    (0, 1),
    (63, 1 << 63 | 1),
    (64, u64::MAX),
    (u64::MAX, 1),
];

/// A frame under [`KID`], and what is wrong with it.
struct Frame {
    bytes: Vec<u8>,
    metadata: Vec<u8>,
    plaintext: usize,
    /// It ends before its tag does.
    short: bool,
    tag_differs: bool,
}

/// Every combination of the lengths of plaintext and metadata, a whole frame or
/// a short one, and a right tag or a wrong one.
fn frames(suite: Suite) -> impl Iterator<Item = Frame> {
    combinations([3, 2, 2, 2]).map(move |[plaintext, metadata, short, differs]| {
        let plaintext = [0, 9, MAX_PLAINTEXT + 1][plaintext];
        let metadata = vec![0x5a; [4, MAX_METADATA + 1][metadata]];
        let key = Key::any(suite, KID);
        let mut bytes = frame(&key, 0, &metadata, &vec![0x5a; plaintext]);
        let (short, tag_differs) = (short == 1, differs == 1);
        if tag_differs {
            *bytes.last_mut().expect("a tag") ^= 0x80;
        }
        if short {
            // The header, and all of a tag but one byte.
            bytes.truncate(2 + suite.nt() - 1);
        }
        Frame {
            bytes,
            metadata,
            plaintext,
            short,
            tag_differs,
        }
    })
}

#[test]
fn open() {
    let mut seen = Seen::new(OPEN);
    for [suite, held, unsound] in combinations([5, 6, 2]) {
        let (suite, held, unsound) = (SUITES[suite], HELD[held], unsound == 1);
        let mut store = store(suite, held, 2);
        if unsound {
            make_unsound(&mut store);
        }
        // Only a receiving key has opened something.
        let windows = if held == Held::Receiving { 6 } else { 1 };
        for window in &WINDOWS[..windows] {
            if held == Held::Receiving {
                set_window(&mut store, 0, window.0, window.1);
            }
            for frame in frames(suite) {
                check(&mut seen, &store, held, *window, unsound, &frame);
                check_without_header(&mut seen, &store, unsound, &frame);
            }
        }
    }
    seen.finish(&[
        // Where no header can be read there is no key number, hence no record,
        // no tag and no result.
        (BAD_HEADER, KID_UNKNOWN),
        (BAD_HEADER, WRONG_ROLE),
        (BAD_HEADER, FRAME_SHORT),
        (BAD_HEADER, ROOM_SHORT),
        (BAD_HEADER, ALREADY_OPENED),
        (BAD_HEADER, TOO_OLD),
        (BAD_HEADER, TAG_DIFFERS),
        // An unknown key number has no role, no window and no key.
        (KID_UNKNOWN, WRONG_ROLE),
        (KID_UNKNOWN, ALREADY_OPENED),
        (KID_UNKNOWN, TOO_OLD),
        (KID_UNKNOWN, TAG_DIFFERS),
        // Only a receiving key has a window that says something, and it says
        // one of the two at most.
        (WRONG_ROLE, ALREADY_OPENED),
        (WRONG_ROLE, TOO_OLD),
        (ALREADY_OPENED, TOO_OLD),
        // A frame without a whole tag has neither tag nor result.
        (FRAME_SHORT, ROOM_SHORT),
        (FRAME_SHORT, TAG_DIFFERS),
    ]);
}

fn check(
    seen: &mut Seen,
    store: &[u8],
    held: Held,
    (highest, mask): (u64, u64),
    unsound: bool,
    frame: &Frame,
) {
    let opened = highest < 64 && mask >> highest & 1 == 1;
    let long_plaintext = !frame.short && frame.plaintext > MAX_PLAINTEXT;
    for room in [frame.plaintext, frame.plaintext.saturating_sub(1), 0] {
        let call = Call::Open {
            frame: &frame.bytes,
            metadata: &frame.metadata,
            room,
        };
        let causes = [
            (STORE_NOT_SOUND, unsound),
            (KID_UNKNOWN, held == Held::Not),
            (WRONG_ROLE, !matches!(held, Held::Not | Held::Receiving)),
            (FRAME_SHORT, frame.short),
            (
                TOO_LONG,
                long_plaintext || frame.metadata.len() > MAX_METADATA,
            ),
            (ROOM_SHORT, !frame.short && room < frame.plaintext),
            (ALREADY_OPENED, opened),
            (TOO_OLD, highest >= 64),
            (
                TAG_DIFFERS,
                frame.tag_differs && !frame.short && held != Held::Not,
            ),
        ];
        seen.check(store, call, causes);
    }
}

/// No bytes, and headers that end within the counter and within the key number.
fn check_without_header(seen: &mut Seen, store: &[u8], unsound: bool, frame: &Frame) {
    for bytes in [&[][..], &[0x8f, KID as u8, 1, 2, 3], &[0x90, 0]] {
        for room in [frame.plaintext, 0] {
            let call = Call::Open {
                frame: bytes,
                metadata: &frame.metadata,
                room,
            };
            let causes = [
                (STORE_NOT_SOUND, unsound),
                (BAD_HEADER, true),
                (TOO_LONG, frame.metadata.len() > MAX_METADATA),
            ];
            seen.check(store, call, causes);
        }
    }
}
