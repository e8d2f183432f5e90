// SPDX-License-Identifier: MIT
//! One call on a store, made on both sides.

use crate::layer;
use crate::lent::Lent;
use crate::number::DONE;
use crate::WINDOW_AT;
use reference::header::read_header;
use reference::refusal::number_and_length;
use sframe::raw::{Found, Report, Written};
use sframe::{Role, RECORD};
use std::cell::Cell;
use std::fmt;
use testkit::PATTERN;

/// A call with all that it is given; a room by its length.
#[derive(Clone, Copy)]
#[allow(missing_docs)]
pub enum Call<'a> {
    Make,
    Add {
        role: Role,
        suite: u64,
        kid: u64,
        base_key: &'a [u8],
    },
    Remove {
        kid: u64,
    },
    ChangeEpoch {
        width: u64,
        bits: u64,
    },
    Seal {
        kid: u64,
        metadata: &'a [u8],
        plaintext: &'a [u8],
        offset: usize,
        room: usize,
    },
    Open {
        frame: &'a [u8],
        metadata: &'a [u8],
        room: usize,
    },
    Report {
        kid: u64,
    },
    Find {
        kid: u64,
    },
}

/// What a call answered and left.
#[derive(PartialEq, Eq)]
pub struct Outcome {
    /// 0, or the refusal's number.
    pub number: u32,
    /// The length of the result.
    pub length: usize,
    /// What a report counted; 0 of every other call.
    pub count: u64,
    /// Where a record was found; 0 of every other call.
    pub place: usize,
    /// Where in the room the result stands.
    pub offset: usize,
    /// The store afterwards.
    pub store: Vec<u8>,
    /// The room afterwards.
    pub room: Vec<u8>,
}

impl Outcome {
    /// The result at its place in the room; nothing where the call is refused.
    pub fn result(&self) -> &[u8] {
        match self.number {
            DONE => &self.room[self.offset..][..self.length],
            _ => &[],
        }
    }
}

/// By which of the layer's functions a call is made.
#[derive(Clone, Copy)]
enum Way {
    /// The one that takes all that the call is given.
    Whole,
    /// Sealing by the one that takes no offset.
    AtFront,
    /// Sealing, opening and removing by the one that takes a place too.
    Near(usize),
}

thread_local! {
    /// How many calls the thread has compared.
    static TURN: Cell<usize> = const { Cell::new(0) };
}

/// Makes `call` on a copy of `store` on both sides, and checks that number,
/// length, count, place, store and room are the same, that a refusal left
/// everything as it was, that an opening changed the window of its own record
/// alone, and that nothing before or behind a result was written. Sealing at
/// offset 0 is made by both of its calls, and every second call that takes a
/// place is made with one.
#[track_caller]
pub fn compare(store: &[u8], call: Call) -> Outcome {
    let ours = on_layer(store, call, Way::Whole);
    if matches!(call, Call::Seal { offset: 0, .. }) {
        let front = on_layer(store, call, Way::AtFront);
        assert!(ours == front, "{call}: both ways to seal");
    }
    if let Some(place) = next_place(store, call) {
        check_near(store, call, place, &ours);
    }
    let theirs = on_reference(store, call);
    assert_eq!(
        (ours.number, ours.length, ours.count, ours.place),
        (theirs.number, theirs.length, theirs.count, theirs.place),
        "{call}: number, length, count and place"
    );
    check_same("store", &ours.store, &theirs.store, call);
    check_same("room", &ours.room, &theirs.room, call);

    let around = ours.room.len() - ours.result().len();
    let (front, rest) = ours.room.split_at(ours.offset.min(around));
    let behind = &rest[ours.result().len()..];
    assert!(
        front.iter().chain(behind).all(|&byte| byte == PATTERN),
        "{call}: wrote beside its result"
    );
    if ours.number != DONE || matches!(call, Call::Report { .. } | Call::Find { .. }) {
        check_same("store before and after", &ours.store, store, call);
    }
    if let (DONE, Call::Open { frame, .. }) = (ours.number, call) {
        let mut left = ours.store.clone();
        let at = window_of(store, frame);
        left[at..at + 16].copy_from_slice(&store[at..at + 16]);
        check_same("store but for the window", &left, store, call);
    }
    if ours.number != DONE {
        let numbers = (ours.length, ours.count, ours.place);
        assert_eq!(numbers, (0, 0, 0), "{call}: refused");
    }
    ours
}

/// Makes a call as [`compare`] does, and with this place too: it alters nothing.
#[track_caller]
pub fn compare_near(store: &[u8], call: Call, place: usize) -> Outcome {
    let outcome = compare(store, call);
    check_near(store, call, place, &outcome);
    outcome
}

#[track_caller]
fn check_near(store: &[u8], call: Call, place: usize, expected: &Outcome) {
    let near = on_layer(store, call, Way::Near(place));
    assert!(near == *expected, "{call}: other with place {place}");
}

/// A place for every second call that takes one: the right one, where there is
/// one, and others in turn.
fn next_place(store: &[u8], call: Call) -> Option<usize> {
    let kid = match call {
        Call::Remove { kid } | Call::Seal { kid, .. } => Some(kid),
        Call::Open { frame, .. } => read_header(frame).map(|(kid, _, _)| kid),
        _ => return None,
    };
    let turn = TURN.replace(TURN.get() + 1);
    if turn % 2 == 1 {
        return None;
    }
    let right = kid.and_then(|kid| reference::store::find(store, kid).ok());
    let records = store.len() / RECORD;
    Some(match turn / 2 % 6 {
        0 | 1 => right.unwrap_or(0),
        2 => right.map_or(1, |place| place + 1),
        3 => turn / 12 % (records + 1),
        4 => usize::MAX - turn / 12 % 3,
        // Times the length of a record it is one of the store's again.
        _ => 1 << 59 | right.unwrap_or(0),
    })
}

/// Where in a sound store the window of a frame's key stands.
fn window_of(store: &[u8], frame: &[u8]) -> usize {
    let (kid, _, _) = read_header(frame).expect("an opened frame has a header");
    let place = reference::store::find(store, kid).expect("an opened frame has a key");
    place * RECORD + WINDOW_AT
}

#[track_caller]
fn check_same(what: &str, ours: &[u8], theirs: &[u8], call: Call) {
    if ours != theirs {
        let differing = ours.iter().zip(theirs).position(|(a, b)| a != b);
        panic!("{call}: {what} differs, first at byte {differing:?}");
    }
}

#[track_caller]
fn on_layer(store: &[u8], call: Call, way: Way) -> Outcome {
    let mut store = Lent::copy(store);
    let mut room = Lent::room(call.room());
    let (mut count, mut place) = (0, 0);
    let done = |number| Written { number, length: 0 };
    let (bytes, out) = (store.lend(), room.lend());
    let Written { number, length } = match call {
        Call::Make => done(layer::make(bytes)),
        Call::Add {
            role,
            suite,
            kid,
            base_key,
        } => {
            let add = match role {
                Role::Sending => layer::add_sending,
                Role::Receiving => layer::add_receiving,
            };
            done(add(bytes, kid, suite, base_key))
        }
        Call::Remove { kid } => done(match way {
            Way::Near(place) => layer::remove_near(bytes, kid, place),
            _ => layer::remove(bytes, kid),
        }),
        Call::ChangeEpoch { width, bits } => done(layer::change_epoch(bytes, width, bits)),
        Call::Seal {
            kid,
            metadata,
            plaintext,
            offset,
            ..
        } => match way {
            Way::Near(place) => {
                layer::seal_near(bytes, kid, place, metadata, plaintext, out, offset)
            }
            Way::AtFront => layer::seal(bytes, kid, metadata, plaintext, out),
            Way::Whole => layer::seal_at(bytes, kid, metadata, plaintext, out, offset),
        },
        Call::Open {
            frame, metadata, ..
        } => match way {
            Way::Near(place) => layer::open_near(bytes, place, frame, metadata, out),
            _ => layer::open(bytes, frame, metadata, out),
        },
        Call::Report { kid } => {
            let report: Report = layer::report(bytes, kid);
            count = report.count;
            done(report.number)
        }
        Call::Find { kid } => {
            let found: Found = layer::find(bytes, kid);
            place = found.place;
            done(found.number)
        }
    };
    Outcome {
        number,
        length,
        count,
        place,
        offset: call.offset(),
        store: store.take_back(),
        room: room.take_back(),
    }
}

fn on_reference(store: &[u8], call: Call) -> Outcome {
    use reference::store::Role as ReferenceRole;
    use reference::store::{add, change_epoch, find, make, open, remove, report, seal_at};
    let mut store = store.to_vec();
    let mut room = vec![PATTERN; call.room()];
    let (mut count, mut place) = (0, 0);
    let answer = match call {
        Call::Make => make(&mut store),
        Call::Add {
            role,
            suite,
            kid,
            base_key,
        } => {
            let role = match role {
                Role::Sending => ReferenceRole::Sending,
                Role::Receiving => ReferenceRole::Receiving,
            };
            add(&mut store, role, suite, kid, base_key)
        }
        Call::Remove { kid } => remove(&mut store, kid),
        Call::ChangeEpoch { width, bits } => change_epoch(&mut store, width, bits),
        Call::Seal {
            kid,
            metadata,
            plaintext,
            offset,
            ..
        } => seal_at(&mut store, kid, metadata, plaintext, &mut room, offset),
        Call::Open {
            frame, metadata, ..
        } => open(&mut store, metadata, frame, &mut room),
        Call::Report { kid } => report(&store, kid).map(|opened| {
            count = opened;
            0
        }),
        Call::Find { kid } => find(&store, kid).map(|found| {
            place = found;
            0
        }),
    };
    let (number, length) = number_and_length(answer);
    Outcome {
        number,
        length,
        count,
        place,
        offset: call.offset(),
        store,
        room,
    }
}

impl Call<'_> {
    /// The length of the room, 0 where the call has none.
    fn room(&self) -> usize {
        match *self {
            Call::Seal { room, .. } | Call::Open { room, .. } => room,
            _ => 0,
        }
    }

    /// Where the result is to stand in the room.
    fn offset(&self) -> usize {
        match *self {
            Call::Seal { offset, .. } => offset,
            _ => 0,
        }
    }
}

/// Short enough for a failure's message.
impl fmt::Display for Call<'_> {
    fn fmt(&self, f: &mut fmt::Formatter) -> fmt::Result {
        match *self {
            Call::Make => write!(f, "Make"),
            Call::Add {
                role,
                suite,
                kid,
                base_key,
            } => write!(
                f,
                "Add for {role}, suite {suite}, KID {kid:#x}, base key of {} bytes",
                base_key.len()
            ),
            Call::Remove { kid } => write!(f, "Remove, KID {kid:#x}"),
            Call::ChangeEpoch { width, bits } => {
                write!(f, "Change of epoch, low {width} bits {bits:#x}")
            }
            Call::Seal {
                kid,
                metadata,
                plaintext,
                offset,
                room,
            } => write!(
                f,
                "Seal, KID {kid:#x}, metadata of {} bytes, plaintext of {}, at {offset} of {room}",
                metadata.len(),
                plaintext.len()
            ),
            Call::Open {
                frame,
                metadata,
                room,
            } => write!(
                f,
                "Open, frame of {} bytes that starts {:02x?}, metadata of {}, room of {room}",
                frame.len(),
                &frame[..frame.len().min(17)],
                metadata.len()
            ),
            Call::Report { kid } => write!(f, "Report, KID {kid:#x}"),
            Call::Find { kid } => write!(f, "Find, KID {kid:#x}"),
        }
    }
}
