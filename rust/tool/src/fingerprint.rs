// SPDX-License-Identifier: MIT
//! What two ends compare to see that they hold the same key.

use sframe::{ratchet_to_vec, Record, State, RECORD};
use toolkit::hex;

/// Where a record keeps salt and key, zero past the key's end.
const SALT_AND_KEY: std::ops::Range<usize> = 20..80;

/// How much of it is shown.
const LENGTH: usize = 8;

/// The fingerprint of the key that a record holds; `None` of a retired one.
///
/// It is the start of what one step of the ratchet, which is HKDF, makes of salt
/// and key: those cannot be found from it. They are derived from base key, key
/// number and suite, so ends that agree in all three have one fingerprint.
pub fn of(store: &[u8], record: &Record) -> Option<String> {
    if record.state == State::Retired {
        return None;
    }
    let bytes = store.chunks_exact(RECORD).nth(record.place.0)?;
    let stepped = ratchet_to_vec(record.suite, &bytes[SALT_AND_KEY], 1).ok()?;
    Some(hex::encode(&stepped[..LENGTH]))
}
