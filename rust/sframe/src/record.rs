// SPDX-License-Identifier: MIT
//! What the records of a store say besides their keys.

use crate::limits::RECORD;
use crate::{Ctr, Kid, Suite};
use core::fmt;

/// What a record is for.
#[derive(Clone, Copy, Debug, PartialEq, Eq, Hash)]
#[non_exhaustive]
pub enum State {
    /// Its key seals.
    Sending,
    /// Its key opens.
    Receiving,
    /// Its key was for sealing and is removed; the key number stays taken.
    Retired,
}

impl fmt::Display for State {
    fn fmt(&self, f: &mut fmt::Formatter) -> fmt::Result {
        f.pad(match self {
            State::Sending => "sending",
            State::Receiving => "receiving",
            State::Retired => "retired",
        })
    }
}

/// Where in a store a record stands, counted from 0.
///
/// Records stand by rising key number, so adding or removing a key moves those
/// behind it. A place that is handed to a call is a guess: it never alters the
/// answer, whatever it is. It does not pass for an offset:
///
/// ```compile_fail,E0308
/// use sframe::{Kid, Metadata, Store, RECORD};
///
/// # let (mut bytes, mut room) = ([0; RECORD], [0; 100]);
/// Store::over(&mut bytes).seal_near(Kid(200), 7, Metadata::NONE, b"", &mut room, 0);
/// ```
#[derive(Clone, Copy, Debug, PartialEq, Eq, Hash, PartialOrd, Ord)]
pub struct Place(pub usize);

/// One record of a store. Key and salt are not shown.
#[derive(Clone, Copy, Debug, PartialEq, Eq, Hash)]
#[non_exhaustive]
pub struct Record {
    /// Where it stands in the store.
    pub place: Place,
    /// What it is for.
    pub state: State,
    /// The suite of its key.
    pub suite: Suite,
    /// Its key number.
    pub kid: Kid,
    /// The counter of the next frame that it seals; 0 where it is receiving.
    pub next: Ctr,
    /// Whether that counter was the last one and has been used: the key seals
    /// no more.
    pub spent: bool,
    /// Which counters it has opened; `None` where it is not receiving, or has
    /// opened none yet.
    pub window: Option<Window>,
}

/// Which of the last [`WINDOW`](crate::WINDOW) counters a receiving key has
/// opened, the highest among them.
#[derive(Clone, Copy, Debug, PartialEq, Eq, Hash)]
pub struct Window {
    /// The highest counter that it has opened.
    pub highest: Ctr,
    /// Bit i is 1 where the counter `highest - i` was opened. Bit 0 always is.
    pub mask: u64,
}

impl Window {
    /// How many of these counters were opened.
    pub fn count(self) -> u64 {
        self.mask.count_ones().into()
    }
}

/// The records of a sound store, in the order of their places; empty ones are
/// left out.
pub(crate) fn decode(store: &[u8]) -> impl Iterator<Item = Record> + '_ {
    store
        .chunks_exact(RECORD)
        .enumerate()
        .filter_map(|(place, bytes)| decode_one(Place(place), bytes))
}

fn decode_one(place: Place, bytes: &[u8]) -> Option<Record> {
    let (&[state, suite, spent, _layout], rest) = bytes.split_first_chunk()?;
    let (&kid, rest) = rest.split_first_chunk()?;
    let (&next, rest) = rest.split_first_chunk()?;
    let (rest, &mask) = rest.split_last_chunk()?;
    let &highest = rest.last_chunk()?;
    let mask = u64::from_be_bytes(mask);
    Some(Record {
        place,
        state: match state {
            1 => State::Sending,
            2 => State::Receiving,
            3 => State::Retired,
            _ => return None,
        },
        suite: Suite::from_number(suite.into())?,
        kid: Kid(u64::from_be_bytes(kid)),
        next: Ctr(u64::from_be_bytes(next)),
        spent: spent == 1,
        window: (mask != 0).then_some(Window {
            highest: Ctr(u64::from_be_bytes(highest)),
            mask,
        }),
    })
}
