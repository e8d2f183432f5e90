// SPDX-License-Identifier: MIT
//! The two calls of the ratchet.

use super::{Written, UNSET};
use crate::ffi;

/// Walks `base_key` so many steps forward, to the front of `out`.
pub fn ratchet(suite: u64, base_key: &[u8], steps: u64, out: &mut [u8]) -> Written {
    let mut length = UNSET as usize;
    // SAFETY: both slices are live and of the lengths given; `out` is borrowed for
    // writing, so `base_key` is no part of it; `length` is a local of its own.
    let number = unsafe {
        ffi::sframe_ratchet(
            suite,
            base_key.as_ptr(),
            base_key.len(),
            steps,
            out.as_mut_ptr(),
            out.len(),
            &mut length,
        )
    };
    Written { number, length }
}

/// What the key number of a step is answered with.
#[derive(Clone, Copy, Debug, PartialEq, Eq)]
pub struct RatchetKid {
    /// 0, or the refusal's number.
    pub number: u32,
    /// The key number, 0 when refused.
    pub kid: u64,
}

/// The key number of a generation and a step.
pub fn ratchet_kid(generation: u64, step: u64, bits: u64) -> RatchetKid {
    let mut kid = UNSET;
    // SAFETY: `kid` is a local of its own.
    let number = unsafe { ffi::sframe_ratchet_kid(generation, step, bits, &mut kid) };
    RatchetKid { number, kid }
}
