// SPDX-License-Identifier: MIT
//! The sizes that a caller plans by.

use crate::{Suite, MAX_HEADER};

/// The length of a record: a store of `n` keys takes `n` times as many bytes.
pub const RECORD: usize = 96;
/// The most records of a store.
pub const MAX_RECORDS: usize = 1_024;
/// The shortest base key.
pub const MIN_BASE_KEY: usize = 16;
/// The longest base key.
pub const MAX_BASE_KEY: usize = 64;
/// The longest plaintext.
pub const MAX_PLAINTEXT: usize = 32_768;
/// The longest metadata.
pub const MAX_METADATA: usize = 1_024;
/// The last counter: a key seals one frame with each counter from 0 up to it.
pub const MAX_COUNTER: u64 = u64::MAX;
/// How many counters a receiving key remembers, from the highest that it has
/// opened down.
pub const WINDOW: u64 = 64;
/// The most steps of one walk of a base key.
pub const MAX_STEPS: u64 = 64;
/// The most bits of the step in a key number.
pub const MAX_RATCHET_BITS: u64 = 16;

/// A room that is long enough for every frame of `plaintext` bytes.
///
/// ```
/// use sframe::{frame_room, Suite};
///
/// assert_eq!(frame_room(Suite::Aes128CtrHmacSha256_80, 1_200), 17 + 1_200 + 10);
/// ```
pub const fn frame_room(suite: Suite, plaintext: usize) -> usize {
    plaintext.saturating_add(MAX_HEADER + suite.nt())
}
