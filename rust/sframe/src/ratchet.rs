// SPDX-License-Identifier: MIT
//! Sender keys that are ratcheted forward: RFC 9605, section 5.1.

use crate::{raw, Kid, Refusal, Suite};
#[cfg(feature = "alloc")]
use alloc::{vec, vec::Vec};

/// Walks a base key so many steps forward, writes it at the front of `out` and
/// answers its length: [`Suite::nh`] bytes, or after 0 steps those that the base
/// key has. The bytes behind it stay as they are.
///
/// Refuses with [`Refusal::BaseKeyLength`], [`Refusal::TooManySteps`] above
/// [`MAX_STEPS`](crate::MAX_STEPS), or [`Refusal::RoomShort`];
/// [`MAX_BASE_KEY`](crate::MAX_BASE_KEY) bytes are always enough.
///
/// ```
/// use sframe::{ratchet, Refusal, Suite};
///
/// let mut out = [0xee; 40];
/// let base_key = [7; 16];
/// assert_eq!(ratchet(Suite::Aes128GcmSha256_128, &base_key, 0, &mut out), Ok(16));
/// assert_eq!(out[..17], [&base_key[..], &[0xee]].concat());
/// assert_eq!(ratchet(Suite::Aes128GcmSha256_128, &base_key, 1, &mut out), Ok(32));
/// assert_eq!(out[32..], [0xee; 8]);
///
/// let short = ratchet(Suite::Aes256GcmSha512_128, &base_key, 1, &mut out);
/// assert_eq!(short, Err(Refusal::RoomShort));
/// ```
pub fn ratchet(
    suite: Suite,
    base_key: &[u8],
    steps: u64,
    out: &mut [u8],
) -> Result<usize, Refusal> {
    let written = raw::ratchet(suite.number(), base_key, steps, out);
    Refusal::check(written.number, written.length)
}

/// As [`ratchet`], with the key as a vector, which [`wipe`](crate::wipe) wipes
/// once it is in a store.
///
/// ```
/// use sframe::{ratchet_to_vec, Suite};
///
/// let suite = Suite::Aes128GcmSha256_128;
/// let after_two = ratchet_to_vec(suite, &[7; 16], 2)?;
/// let after_five = ratchet_to_vec(suite, &after_two, 3)?;
/// assert_eq!(after_five, ratchet_to_vec(suite, &[7; 16], 5)?);
/// # Ok::<(), sframe::Refusal>(())
/// ```
#[cfg(feature = "alloc")]
pub fn ratchet_to_vec(suite: Suite, base_key: &[u8], steps: u64) -> Result<Vec<u8>, Refusal> {
    let mut key = vec![0; crate::MAX_BASE_KEY];
    let length = ratchet(suite, base_key, steps, &mut key)?;
    key.truncate(length);
    Ok(key)
}

/// The key number of a step in a generation of keys: its low `bits` bits are the
/// step's, the others are the generation.
///
/// Refuses with [`Refusal::BadRatchetKid`] where `bits` is not 1 to
/// [`MAX_RATCHET_BITS`](crate::MAX_RATCHET_BITS), or the key number does not fit
/// in 64 bits.
///
/// A receiver that has the base key of step 3 and sees a frame of step 5 walks
/// two steps, and adds what comes out under the frame's own key number:
///
/// ```
/// use sframe::{ratchet_kid, ratchet_to_vec, read_header, Metadata, Role, Store, Suite, RECORD};
///
/// let (suite, bits, generation, known) = (Suite::Aes128GcmSha256_128, 4, 2, 3);
/// let base_key = [7; 32]; // of step 3
/// let mut ward = [0; RECORD];
/// let mut ward = Store::make(&mut ward)?;
/// let sent = ratchet_kid(generation, 5, bits)?;
/// ward.add(Role::Sending, sent, suite, &ratchet_to_vec(suite, &base_key, 2)?)?;
/// let frame = ward.seal_to_vec(sent, Metadata::NONE, b"a picture")?;
///
/// let mut doctor = [0; RECORD];
/// let mut doctor = Store::make(&mut doctor)?;
/// let kid = read_header(&frame)?.kid;
/// assert_eq!(kid.0 >> bits, generation);
/// let steps = (kid.0.wrapping_sub(known)) % (1 << bits);
/// doctor.add(Role::Receiving, kid, suite, &ratchet_to_vec(suite, &base_key, steps)?)?;
/// assert_eq!(doctor.open_to_vec(&frame, Metadata::NONE)?, b"a picture");
/// # Ok::<(), sframe::Refusal>(())
/// ```
pub fn ratchet_kid(generation: u64, step: u64, bits: u64) -> Result<Kid, Refusal> {
    let answer = raw::ratchet_kid(generation, step, bits);
    Refusal::check(answer.number, Kid(answer.kid))
}
