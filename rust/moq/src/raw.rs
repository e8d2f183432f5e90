// SPDX-License-Identifier: MIT
//! The C functions over slices, with their answers as bare numbers: 0 for done
//! or the number of a refusal.
//!
//! The borrows of a call keep the rules that C leaves to its caller: every
//! pointer is valid for its length, and whatever is written overlaps nothing
//! else of the call.

use crate::ffi;
pub use sframe::raw::Written;

/// A length to start from that no call leaves in place by chance.
const UNSET: usize = 0xa5a5_a5a5_a5a5_a5a5;

/// Where an object stands, in bare bytes and numbers.
#[derive(Clone, Copy, Debug, PartialEq, Eq)]
pub struct At<'a> {
    /// The serialized full track name.
    pub name: &'a [u8],
    /// The Key ID.
    pub key_id: u64,
    /// The Group ID.
    pub group: u64,
    /// The Object ID.
    pub object: u64,
}

/// Makes every record of `store` empty.
pub fn make(store: &mut [u8]) -> u32 {
    // SAFETY: `store` is a live slice of that length that nothing else refers to.
    unsafe { ffi::moq_make(store.as_mut_ptr(), store.len()) }
}

/// Adds a track for sealing.
pub fn add_sending(store: &mut [u8], name: &[u8], key_id: u64, suite: u64, base_key: &[u8]) -> u32 {
    // SAFETY: the slices are live and of the lengths given; `store` is borrowed for
    // writing, so the others are no part of it.
    unsafe {
        ffi::moq_add_sending(
            store.as_mut_ptr(),
            store.len(),
            name.as_ptr(),
            name.len(),
            key_id,
            suite,
            base_key.as_ptr(),
            base_key.len(),
        )
    }
}

/// Adds a track for opening.
pub fn add_receiving(
    store: &mut [u8],
    name: &[u8],
    key_id: u64,
    suite: u64,
    base_key: &[u8],
) -> u32 {
    // SAFETY: as in `add_sending`.
    unsafe {
        ffi::moq_add_receiving(
            store.as_mut_ptr(),
            store.len(),
            name.as_ptr(),
            name.len(),
            key_id,
            suite,
            base_key.as_ptr(),
            base_key.len(),
        )
    }
}

/// Retires a track.
pub fn remove(store: &mut [u8], name: &[u8], key_id: u64) -> u32 {
    // SAFETY: as in `add_sending`.
    unsafe {
        ffi::moq_remove(
            store.as_mut_ptr(),
            store.len(),
            name.as_ptr(),
            name.len(),
            key_id,
        )
    }
}

/// Seals `plaintext` into an object at the front of `out`.
pub fn seal(
    store: &mut [u8],
    at: At,
    properties: &[u8],
    plaintext: &[u8],
    out: &mut [u8],
) -> Written {
    let mut length = UNSET;
    // SAFETY: the slices are live and of the lengths given; `store` and `out` are
    // borrowed for writing, so they overlap nothing; `length` is a local of its own.
    let number = unsafe {
        ffi::moq_seal(
            store.as_mut_ptr(),
            store.len(),
            at.name.as_ptr(),
            at.name.len(),
            at.key_id,
            at.group,
            at.object,
            properties.as_ptr(),
            properties.len(),
            plaintext.as_ptr(),
            plaintext.len(),
            out.as_mut_ptr(),
            out.len(),
            &mut length,
        )
    };
    Written { number, length }
}

/// Opens `sealed` to its plaintext at the front of `out`.
pub fn open(store: &[u8], at: At, properties: &[u8], sealed: &[u8], out: &mut [u8]) -> Written {
    let mut length = UNSET;
    // SAFETY: the slices are live and of the lengths given; `out` is borrowed for
    // writing, so it overlaps nothing; `length` is a local of its own.
    let number = unsafe {
        ffi::moq_open(
            store.as_ptr(),
            store.len(),
            at.name.as_ptr(),
            at.name.len(),
            at.key_id,
            at.group,
            at.object,
            properties.as_ptr(),
            properties.len(),
            sealed.as_ptr(),
            sealed.len(),
            out.as_mut_ptr(),
            out.len(),
            &mut length,
        )
    };
    Written { number, length }
}
