// SPDX-License-Identifier: MIT
//! The calls on a store.

use super::{Written, UNSET};
use crate::ffi;

/// Makes every record of `store` empty.
pub fn make(store: &mut [u8]) -> u32 {
    // SAFETY: `store` is a live slice of that length that nothing else refers to.
    unsafe { ffi::sframe_make(store.as_mut_ptr(), store.len()) }
}

/// Adds a key for sealing.
pub fn add_sending(store: &mut [u8], kid: u64, suite: u64, base_key: &[u8]) -> u32 {
    // SAFETY: both slices are live and of the lengths given; `store` is borrowed
    // for writing, so `base_key` is no part of it.
    unsafe {
        ffi::sframe_add_sending(
            store.as_mut_ptr(),
            store.len(),
            kid,
            suite,
            base_key.as_ptr(),
            base_key.len(),
        )
    }
}

/// Adds a key for opening.
pub fn add_receiving(store: &mut [u8], kid: u64, suite: u64, base_key: &[u8]) -> u32 {
    // SAFETY: as in `add_sending`.
    unsafe {
        ffi::sframe_add_receiving(
            store.as_mut_ptr(),
            store.len(),
            kid,
            suite,
            base_key.as_ptr(),
            base_key.len(),
        )
    }
}

/// Removes a key.
pub fn remove(store: &mut [u8], kid: u64) -> u32 {
    // SAFETY: `store` is a live slice of that length that nothing else refers to.
    unsafe { ffi::sframe_remove(store.as_mut_ptr(), store.len(), kid) }
}

/// Removes a key, whose record is looked for at `place` first.
pub fn remove_near(store: &mut [u8], kid: u64, place: usize) -> u32 {
    // SAFETY: as in `remove`.
    unsafe { ffi::sframe_remove_near(store.as_mut_ptr(), store.len(), kid, place) }
}

/// Removes the receiving keys of an epoch, by the low bits of their key numbers.
pub fn change_epoch(store: &mut [u8], epoch_width: u64, epoch_bits: u64) -> u32 {
    // SAFETY: as in `remove`.
    unsafe { ffi::sframe_change_epoch(store.as_mut_ptr(), store.len(), epoch_width, epoch_bits) }
}

/// What a search for a record answers.
#[derive(Clone, Copy, Debug, PartialEq, Eq)]
pub struct Found {
    /// 0, or the refusal's number.
    pub number: u32,
    /// The place of the record, from 0; 0 when refused.
    pub place: usize,
}

/// The place of the record of a key number.
pub fn find(store: &[u8], kid: u64) -> Found {
    let mut place = UNSET as usize;
    // SAFETY: `store` is a live slice of that length that is only read, and
    // `place` is a local of its own.
    let number = unsafe { ffi::sframe_find(store.as_ptr(), store.len(), kid, &mut place) };
    Found { number, place }
}

/// Seals `plaintext` into a frame at the front of `out`.
pub fn seal(
    store: &mut [u8],
    kid: u64,
    metadata: &[u8],
    plaintext: &[u8],
    out: &mut [u8],
) -> Written {
    let mut length = UNSET as usize;
    // SAFETY: the slices are live and of the lengths given; `store` and `out` are
    // borrowed for writing, so they overlap nothing; `length` is a local of its own.
    let number = unsafe {
        ffi::sframe_seal(
            store.as_mut_ptr(),
            store.len(),
            kid,
            metadata.as_ptr(),
            metadata.len(),
            plaintext.as_ptr(),
            plaintext.len(),
            out.as_mut_ptr(),
            out.len(),
            &mut length,
        )
    };
    Written { number, length }
}

/// Seals `plaintext` into a frame at `offset` in `out`.
pub fn seal_at(
    store: &mut [u8],
    kid: u64,
    metadata: &[u8],
    plaintext: &[u8],
    out: &mut [u8],
    offset: usize,
) -> Written {
    let mut length = UNSET as usize;
    // SAFETY: as in `seal`.
    let number = unsafe {
        ffi::sframe_seal_at(
            store.as_mut_ptr(),
            store.len(),
            kid,
            metadata.as_ptr(),
            metadata.len(),
            plaintext.as_ptr(),
            plaintext.len(),
            out.as_mut_ptr(),
            out.len(),
            offset,
            &mut length,
        )
    };
    Written { number, length }
}

/// Seals `plaintext` into a frame at `offset` in `out`; the record is looked for
/// at `place` first.
pub fn seal_near(
    store: &mut [u8],
    kid: u64,
    place: usize,
    metadata: &[u8],
    plaintext: &[u8],
    out: &mut [u8],
    offset: usize,
) -> Written {
    let mut length = UNSET as usize;
    // SAFETY: as in `seal`.
    let number = unsafe {
        ffi::sframe_seal_near(
            store.as_mut_ptr(),
            store.len(),
            kid,
            place,
            metadata.as_ptr(),
            metadata.len(),
            plaintext.as_ptr(),
            plaintext.len(),
            out.as_mut_ptr(),
            out.len(),
            offset,
            &mut length,
        )
    };
    Written { number, length }
}

/// Opens `frame` to its plaintext at the front of `out`.
pub fn open(store: &mut [u8], frame: &[u8], metadata: &[u8], out: &mut [u8]) -> Written {
    let mut length = UNSET as usize;
    // SAFETY: as in `seal`.
    let number = unsafe {
        ffi::sframe_open(
            store.as_mut_ptr(),
            store.len(),
            frame.as_ptr(),
            frame.len(),
            metadata.as_ptr(),
            metadata.len(),
            out.as_mut_ptr(),
            out.len(),
            &mut length,
        )
    };
    Written { number, length }
}

/// Opens `frame` to its plaintext at the front of `out`; the record is looked for
/// at `place` first.
pub fn open_near(
    store: &mut [u8],
    place: usize,
    frame: &[u8],
    metadata: &[u8],
    out: &mut [u8],
) -> Written {
    let mut length = UNSET as usize;
    // SAFETY: as in `seal`.
    let number = unsafe {
        ffi::sframe_open_near(
            store.as_mut_ptr(),
            store.len(),
            place,
            frame.as_ptr(),
            frame.len(),
            metadata.as_ptr(),
            metadata.len(),
            out.as_mut_ptr(),
            out.len(),
            &mut length,
        )
    };
    Written { number, length }
}

/// What a report answers.
#[derive(Clone, Copy, Debug, PartialEq, Eq)]
pub struct Report {
    /// 0, or the refusal's number.
    pub number: u32,
    /// How many of the last 64 counters were opened, 0 when refused.
    pub count: u64,
}

/// How many of the last 64 counters a receiving key has opened.
pub fn report(store: &[u8], kid: u64) -> Report {
    let mut count = UNSET;
    // SAFETY: `store` is a live slice of that length that is only read, and
    // `count` is a local of its own.
    let number = unsafe { ffi::sframe_report(store.as_ptr(), store.len(), kid, &mut count) };
    Report { number, count }
}
