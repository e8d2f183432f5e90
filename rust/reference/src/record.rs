// SPDX-License-Identifier: MIT
//! One record of the store: 96 bytes.
//!
//! | bytes | content |
//! |---|---|
//! | 0 | 0 empty, 1 sending, 2 receiving, 3 retired |
//! | 1 | suite |
//! | 2 | sending or retired: 1 when the last counter has been used, else 0; receiving: 0 |
//! | 3 | 1 |
//! | 4-11 | KID, big-endian |
//! | 12-19 | next counter, big-endian; stays at 2^64 - 1 once that is used |
//! | 20-31 | salt |
//! | 32-79 | key, zero past Nk |
//! | 80-87 | receiving: the highest counter opened, big-endian; else 0 |
//! | 88-95 | receiving: the mask of the counters opened, big-endian; else 0 |

use crate::suites::{Suite, NN};
use crate::window::Window;

/// The length of a record.
pub const RECORD: usize = 96;

/// What byte 3 of a non-empty record holds. Records of 80 bytes, which had no
/// window, held 0 there.
const LAYOUT: u8 = 1;

/// The longest key of a suite.
const MAX_NK: usize = 48;

/// The last counter.
pub const MAX_COUNTER: u64 = u64::MAX;

/// What a non-empty record is for.
#[derive(Clone, Copy, Debug, PartialEq, Eq)]
pub enum State {
    /// Its key seals.
    Sending = 1,
    /// Its key opens.
    Receiving = 2,
    /// Its key is gone, and its KID stays taken.
    Retired = 3,
}

/// A non-empty record.
#[derive(Clone, Debug, PartialEq, Eq)]
pub struct Record {
    /// What it is for.
    pub state: State,
    /// The suite of its key.
    pub suite: Suite,
    /// Its key number.
    pub kid: u64,
    /// The counter of the next frame that it seals.
    pub counter: u64,
    /// The last counter has been used.
    pub spent: bool,
    /// The salt.
    pub salt: [u8; NN],
    /// The key, zero past Nk.
    key: [u8; MAX_NK],
    /// Which counters it has opened; none unless it is receiving.
    pub window: Window,
}

/// The bytes obey no rule of a record.
#[derive(Clone, Copy, Debug, PartialEq, Eq)]
pub struct Unsound;

impl Record {
    /// A record that has sealed and opened nothing, with the key and the salt
    /// that the suite derives.
    pub fn new(state: State, suite: Suite, kid: u64, base_key: &[u8]) -> Self {
        let (derived, salt) = suite.derive_key_salt(kid, base_key);
        let mut key = [0; MAX_NK];
        key[..derived.len()].copy_from_slice(&derived);
        Record {
            state,
            suite,
            kid,
            counter: 0,
            spent: false,
            salt,
            key,
            window: Window::default(),
        }
    }

    /// The same record without its key.
    pub fn retired(self) -> Self {
        Record {
            state: State::Retired,
            salt: [0; NN],
            key: [0; MAX_NK],
            ..self
        }
    }

    /// The same record once it has sealed with its counter.
    pub fn advanced(self) -> Self {
        match self.counter.checked_add(1) {
            Some(counter) => Record { counter, ..self },
            None => Record {
                spent: true,
                ..self
            },
        }
    }

    /// The same record once it has opened a frame with this counter.
    pub fn opening(self, ctr: u64) -> Self {
        Record {
            window: self.window.opening(ctr),
            ..self
        }
    }

    /// The key, Nk bytes.
    pub fn key(&self) -> &[u8] {
        &self.key[..self.suite.nk()]
    }

    /// What `RECORD` bytes hold: a record, or `None` where they are empty.
    pub fn decode(bytes: &[u8]) -> Result<Option<Record>, Unsound> {
        let state = match bytes[0] {
            0 if is_zero(bytes) => return Ok(None),
            1 => State::Sending,
            2 => State::Receiving,
            3 => State::Retired,
            _ => return Err(Unsound),
        };
        let record = Record {
            state,
            suite: Suite::from_number(bytes[1].into()).ok_or(Unsound)?,
            kid: u64::from_be_bytes(part(bytes, 4)),
            counter: u64::from_be_bytes(part(bytes, 12)),
            spent: match bytes[2] {
                0 => false,
                1 => true,
                _ => return Err(Unsound),
            },
            salt: part(bytes, 20),
            key: part(bytes, 32),
            window: Window {
                highest: u64::from_be_bytes(part(bytes, 80)),
                mask: u64::from_be_bytes(part(bytes, 88)),
            },
        };
        let sound = bytes[3] == LAYOUT && record.is_sound();
        sound.then_some(Some(record)).ok_or(Unsound)
    }

    fn is_sound(&self) -> bool {
        let counter_allowed = match self.state {
            State::Sending | State::Retired => !self.spent || self.counter == MAX_COUNTER,
            State::Receiving => !self.spent && self.counter == 0,
        };
        let key_allowed = match self.state {
            State::Sending | State::Receiving => is_zero(&self.key[self.suite.nk()..]),
            State::Retired => is_zero(&self.key) && is_zero(&self.salt),
        };
        let window_allowed = match self.state {
            State::Receiving => self.window.is_sound(),
            State::Sending | State::Retired => self.window == Window::default(),
        };
        counter_allowed && key_allowed && window_allowed
    }

    /// The bytes of the record.
    pub fn encode(&self) -> [u8; RECORD] {
        let mut bytes = [0; RECORD];
        bytes[0] = self.state as u8;
        bytes[1] = self.suite as u8;
        bytes[2] = self.spent.into();
        bytes[3] = LAYOUT;
        bytes[4..12].copy_from_slice(&self.kid.to_be_bytes());
        bytes[12..20].copy_from_slice(&self.counter.to_be_bytes());
        bytes[20..32].copy_from_slice(&self.salt);
        bytes[32..80].copy_from_slice(&self.key);
        bytes[80..88].copy_from_slice(&self.window.highest.to_be_bytes());
        bytes[88..].copy_from_slice(&self.window.mask.to_be_bytes());
        bytes
    }
}

fn is_zero(bytes: &[u8]) -> bool {
    bytes.iter().all(|&byte| byte == 0)
}

/// The `N` bytes from `start` on.
fn part<const N: usize>(bytes: &[u8], start: usize) -> [u8; N] {
    bytes[start..start + N].try_into().unwrap()
}
