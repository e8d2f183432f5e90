// SPDX-License-Identifier: MIT
//! One record of the track store: the 344 bytes of `docs/TRACKS.md`.

use super::object::derive_key_salt;
use crate::record::{State, Unsound};
use crate::suites::{Suite, NN};

/// The length of a record.
pub const RECORD: usize = 344;
/// The longest name.
pub const MAX_NAME: usize = 256;

/// The longest key of a suite.
const MAX_NK: usize = 48;

/// A non-empty record.
#[derive(Clone, Debug, PartialEq, Eq)]
pub struct Track {
    /// What it is for.
    pub state: State,
    /// The suite of its key.
    pub suite: Suite,
    /// The serialized full track name.
    pub name: Vec<u8>,
    /// The Key ID.
    pub key_id: u64,
    /// The last pair sealed, if any: group, then object.
    pub last: Option<(u64, u32)>,
    /// The salt.
    pub salt: [u8; NN],
    /// The key, zero past Nk.
    key: [u8; MAX_NK],
}

impl Track {
    /// A record that has sealed nothing, with the derived key and salt.
    pub fn new(state: State, suite: Suite, name: &[u8], key_id: u64, base_key: &[u8]) -> Self {
        let (derived, salt) = derive_key_salt(suite, key_id, base_key, name);
        let mut key = [0; MAX_NK];
        key[..derived.len()].copy_from_slice(&derived);
        Track {
            state,
            suite,
            name: name.to_vec(),
            key_id,
            last: None,
            salt,
            key,
        }
    }

    /// The same record without its key.
    pub fn retired(self) -> Self {
        Track {
            state: State::Retired,
            salt: [0; NN],
            key: [0; MAX_NK],
            ..self
        }
    }

    /// The same record once it has sealed that pair.
    pub fn advanced(self, group: u64, object: u32) -> Self {
        Track {
            last: Some((group, object)),
            ..self
        }
    }

    /// The key, Nk bytes.
    pub fn key(&self) -> &[u8] {
        &self.key[..self.suite.nk()]
    }

    /// What `RECORD` bytes hold: a record, or `None` where they are empty.
    pub fn decode(bytes: &[u8]) -> Result<Option<Track>, Unsound> {
        let zero = |bytes: &[u8]| bytes.iter().all(|&byte| byte == 0);
        let state = match bytes[0] {
            0 if zero(bytes) => return Ok(None),
            1 => State::Sending,
            2 => State::Receiving,
            3 => State::Retired,
            _ => return Err(Unsound),
        };
        let suite = Suite::from_number(bytes[1].into()).ok_or(Unsound)?;
        let group = u64::from_be_bytes(bytes[12..20].try_into().unwrap());
        let object = u32::from_be_bytes(bytes[20..24].try_into().unwrap());
        let last = match (bytes[2], state) {
            (0, _) if zero(&bytes[12..24]) => None,
            (1, State::Sending | State::Retired) => Some((group, object)),
            _ => return Err(Unsound),
        };
        let length = usize::from(u16::from_be_bytes([bytes[24], bytes[25]]));
        if length > MAX_NAME {
            return Err(Unsound);
        }
        let secret = if state == State::Retired {
            28
        } else {
            40 + suite.nk()
        };
        let padding = [
            &bytes[3..4],
            &bytes[26..28],
            &bytes[secret..88],
            &bytes[88 + length..],
        ];
        if !padding.into_iter().all(zero) {
            return Err(Unsound);
        }
        Ok(Some(Track {
            state,
            suite,
            name: bytes[88..88 + length].to_vec(),
            key_id: u64::from_be_bytes(bytes[4..12].try_into().unwrap()),
            last,
            salt: bytes[28..40].try_into().unwrap(),
            key: bytes[40..88].try_into().unwrap(),
        }))
    }

    /// The bytes of the record.
    pub fn encode(&self) -> [u8; RECORD] {
        let mut bytes = [0; RECORD];
        bytes[0] = self.state as u8;
        bytes[1] = self.suite as u8;
        bytes[4..12].copy_from_slice(&self.key_id.to_be_bytes());
        if let Some((group, object)) = self.last {
            bytes[2] = 1;
            bytes[12..20].copy_from_slice(&group.to_be_bytes());
            bytes[20..24].copy_from_slice(&object.to_be_bytes());
        }
        bytes[24..26].copy_from_slice(&(self.name.len() as u16).to_be_bytes());
        bytes[28..40].copy_from_slice(&self.salt);
        bytes[40..88].copy_from_slice(&self.key);
        bytes[88..88 + self.name.len()].copy_from_slice(&self.name);
        bytes
    }
}
