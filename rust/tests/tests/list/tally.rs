// SPDX-License-Identifier: MIT
//! How often each call answered each number.

use comparison::number::*;
use comparison::Call;
use std::collections::BTreeMap;
use std::fmt;

/// What each call can answer.
const ANSWERS: [(&str, &[u32]); 8] = [
    ("Make", &[DONE]),
    (
        "Add",
        &[
            DONE,
            STORE_NOT_SOUND,
            NO_SUCH_SUITE,
            SENDING_BARRED,
            BASE_KEY_LENGTH,
            KID_HELD,
            STORE_FULL,
        ],
    ),
    ("Remove", &[DONE, STORE_NOT_SOUND, KID_UNKNOWN, WRONG_ROLE]),
    (
        "ChangeEpoch",
        &[
            DONE,
            STORE_NOT_SOUND,
            GROUP_KID_TOO_LONG,
            GROUP_PART_TOO_LARGE,
        ],
    ),
    (
        "Seal",
        &[
            DONE,
            STORE_NOT_SOUND,
            KID_UNKNOWN,
            WRONG_ROLE,
            TOO_LONG,
            ROOM_SHORT,
        ],
    ),
    (
        "Open",
        &[
            DONE,
            STORE_NOT_SOUND,
            BAD_HEADER,
            KID_UNKNOWN,
            WRONG_ROLE,
            FRAME_SHORT,
            TOO_LONG,
            ROOM_SHORT,
            ALREADY_OPENED,
            TOO_OLD,
            TAG_DIFFERS,
        ],
    ),
    ("Report", &[DONE, STORE_NOT_SOUND, KID_UNKNOWN, WRONG_ROLE]),
    ("Find", &[DONE, STORE_NOT_SOUND, KID_UNKNOWN]),
];

/// Counts of calls by name and number.
#[derive(Default)]
pub struct Tally(BTreeMap<(&'static str, u32), u32>);

impl Tally {
    pub fn count(&mut self, call: Call, number: u32) {
        let name = match call {
            Call::Make => "Make",
            Call::Add { .. } => "Add",
            Call::Remove { .. } => "Remove",
            Call::ChangeEpoch { .. } => "ChangeEpoch",
            Call::Seal { .. } => "Seal",
            Call::Open { .. } => "Open",
            Call::Report { .. } => "Report",
            Call::Find { .. } => "Find",
        };
        *self.0.entry((name, number)).or_default() += 1;
    }

    pub fn answered(&self, name: &'static str, number: u32) -> u32 {
        self.0.get(&(name, number)).copied().unwrap_or(0)
    }

    /// At least so many calls were made, and each gave each answer that a list
    /// from a Make can reach.
    pub fn check(&self, calls: u32) {
        assert!(self.0.values().sum::<u32>() >= calls);
        for (name, numbers) in ANSWERS {
            for &number in numbers {
                assert!(self.answered(name, number) > 0, "{name} never {number}");
            }
        }
    }
}

impl fmt::Display for Tally {
    fn fmt(&self, f: &mut fmt::Formatter) -> fmt::Result {
        write!(f, "{} calls", self.0.values().sum::<u32>())?;
        let mut last = "";
        for (&(name, number), count) in &self.0 {
            if name != last {
                write!(f, "\n  {name}:")?;
                last = name;
            }
            write!(f, " {number} x {count},")?;
        }
        Ok(())
    }
}
