// SPDX-License-Identifier: MIT
//! Sealing and opening, on both sides.

use crate::stores::{frame, full, set_back, KID};
use bench::{measure, Times};
use reference::store::Role;
use sframe::{frame_room, Suite};
use std::hint::black_box;

/// Where the caller says that the record is.
#[derive(Clone, Copy)]
pub enum Place {
    /// Nothing: the call takes no place.
    None,
    /// Where the record is.
    Right(usize),
    /// Where it is not.
    Wrong(usize),
}

impl Place {
    /// Each of the three for a key in the last record.
    pub fn each(records: usize) -> [Place; 3] {
        let wrong = if records == 1 { 1 } else { records / 2 };
        [Place::None, Place::Right(records - 1), Place::Wrong(wrong)]
    }

    pub fn name(self) -> &'static str {
        match self {
            Place::None => "none",
            Place::Right(_) => "right",
            Place::Wrong(_) => "wrong",
        }
    }
}

/// Times of sealing with a full store of so many records.
pub fn seal(suite: Suite, records: usize, place: Place, plaintext: &[u8]) -> Times {
    let mut ours = full(records, suite, Role::Sending);
    let mut theirs = ours.clone();
    let mut out = vec![0; frame_room(suite, plaintext.len())];
    let mut room = out.clone();
    measure(
        || {
            let plaintext = black_box(plaintext);
            let written = match place {
                Place::None => sframe::raw::seal(&mut ours, KID, &[], plaintext, &mut out),
                Place::Right(place) | Place::Wrong(place) => {
                    sframe::raw::seal_near(&mut ours, KID, place, &[], plaintext, &mut out, 0)
                }
            };
            assert_eq!(black_box(written).number, 0);
        },
        || {
            let plaintext = black_box(plaintext);
            let done = reference::store::seal(&mut theirs, KID, &[], plaintext, &mut room);
            assert!(black_box(done).is_ok());
        },
    )
}

/// Times of opening one frame again and again, the window set back before each.
pub fn open(suite: Suite, records: usize, place: Place, plaintext: &[u8]) -> Times {
    let frame = frame(suite, plaintext);
    let mut ours = full(records, suite, Role::Receiving);
    let mut theirs = ours.clone();
    let mut out = vec![0; plaintext.len()];
    let mut room = out.clone();
    let times = measure(
        || {
            set_back(&mut ours);
            let frame = black_box(&frame);
            let written = match place {
                Place::None => sframe::raw::open(&mut ours, frame, &[], &mut out),
                Place::Right(place) | Place::Wrong(place) => {
                    sframe::raw::open_near(&mut ours, place, frame, &[], &mut out)
                }
            };
            assert_eq!(black_box(written).number, 0);
        },
        || {
            set_back(&mut theirs);
            let done = reference::store::open(&mut theirs, &[], black_box(&frame), &mut room);
            assert!(black_box(done).is_ok());
        },
    );
    assert_eq!(out, plaintext);
    assert_eq!(room, plaintext);
    times
}
