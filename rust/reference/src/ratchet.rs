// SPDX-License-Identifier: MIT
//! Sender keys that are ratcheted forward, RFC 9605 section 5.1.

use crate::hkdf;
use crate::refusal::{Answer, Refusal};
use crate::sha2::{Hash, Sha256, Sha512};
use crate::store::{MAX_BASE_KEY, MIN_BASE_KEY};
use crate::suites::Suite;

/// The most steps of one walk.
pub const MAX_STEPS: u64 = 64;
/// The most bits of the step in a KID.
pub const MAX_BITS: u64 = 16;

/// The base key one step on.
pub fn next_key(suite: Suite, base_key: &[u8]) -> Vec<u8> {
    match suite {
        Suite::Aes256GcmSha512_128 => next_with::<Sha512>(suite, base_key),
        _ => next_with::<Sha256>(suite, base_key),
    }
}

fn next_with<H: Hash>(suite: Suite, base_key: &[u8]) -> Vec<u8> {
    let secret = hkdf::extract::<H>(b"", base_key);
    let mut key = vec![0; suite.nh()];
    hkdf::expand::<H>(secret.as_ref(), b"SFrame 1.0 Ratchet", &mut key);
    key
}

/// The base key after so many steps, at the front of `room`. Refusals: 2, 3,
/// 21, 12.
pub fn walk(suite: u64, base_key: &[u8], steps: u64, room: &mut [u8]) -> Answer {
    let suite = Suite::from_number(suite).ok_or(Refusal::NoSuchSuite)?;
    if !(MIN_BASE_KEY..=MAX_BASE_KEY).contains(&base_key.len()) {
        return Err(Refusal::BaseKeyLength);
    }
    if steps > MAX_STEPS {
        return Err(Refusal::TooManySteps);
    }
    let key = (0..steps).fold(base_key.to_vec(), |key, _| next_key(suite, &key));
    room.get_mut(..key.len())
        .ok_or(Refusal::RoomShort)?
        .copy_from_slice(&key);
    Ok(key.len())
}

/// The KID of a generation and a step, whose low `bits` bits it has. Refusals:
/// 20.
pub fn kid(generation: u64, step: u64, bits: u64) -> Result<u64, Refusal> {
    if !(1..=MAX_BITS).contains(&bits) {
        return Err(Refusal::BadRatchetKid);
    }
    let kid = (u128::from(generation) << bits) + u128::from(step % (1 << bits));
    u64::try_from(kid).map_err(|_| Refusal::BadRatchetKid)
}
