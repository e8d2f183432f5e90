// SPDX-License-Identifier: MIT
//! Sealing and checking in pieces.

use super::{Written, UNSET};
use crate::ffi;

/// Begins a frame of `plaintext_len` bytes: its header goes to the front of `out`,
/// the running state to that of `state`.
pub fn seal_begin(
    store: &mut [u8],
    kid: u64,
    metadata: &[u8],
    plaintext_len: u64,
    state: &mut [u8],
    out: &mut [u8],
) -> Written {
    let mut length = UNSET as usize;
    // SAFETY: the slices are live and of the lengths given; `store`, `state` and
    // `out` are borrowed for writing, so they overlap nothing; `length` is a local
    // of its own.
    let number = unsafe {
        ffi::sframe_seal_begin(
            store.as_mut_ptr(),
            store.len(),
            kid,
            metadata.as_ptr(),
            metadata.len(),
            plaintext_len,
            state.as_mut_ptr(),
            state.len(),
            out.as_mut_ptr(),
            out.len(),
            &mut length,
        )
    };
    Written { number, length }
}

/// Seals the next piece to the front of `out`.
pub fn seal_piece(state: &mut [u8], piece: &[u8], out: &mut [u8]) -> Written {
    let mut length = UNSET as usize;
    // SAFETY: as in `seal_begin`.
    let number = unsafe {
        ffi::sframe_seal_piece(
            state.as_mut_ptr(),
            state.len(),
            piece.as_ptr(),
            piece.len(),
            out.as_mut_ptr(),
            out.len(),
            &mut length,
        )
    };
    Written { number, length }
}

/// Ends a frame: its tag goes to the front of `out`.
pub fn seal_end(state: &[u8], out: &mut [u8]) -> Written {
    let mut length = UNSET as usize;
    let (bytes, room) = (out.as_mut_ptr(), out.len());
    // SAFETY: as in `seal_begin`, and `state` is only read.
    let number =
        unsafe { ffi::sframe_seal_end(state.as_ptr(), state.len(), bytes, room, &mut length) };
    Written { number, length }
}

/// Begins to check a frame of `ciphertext_len` bytes whose header `header` starts
/// with.
pub fn check_begin(
    store: &[u8],
    header: &[u8],
    metadata: &[u8],
    ciphertext_len: u64,
    state: &mut [u8],
) -> u32 {
    // SAFETY: the slices are live and of the lengths given; `state` is borrowed for
    // writing, so it overlaps nothing, and the others are only read.
    unsafe {
        ffi::sframe_check_begin(
            store.as_ptr(),
            store.len(),
            header.as_ptr(),
            header.len(),
            metadata.as_ptr(),
            metadata.len(),
            ciphertext_len,
            state.as_mut_ptr(),
            state.len(),
        )
    }
}

/// Takes the next piece of a ciphertext.
pub fn check_piece(state: &mut [u8], piece: &[u8]) -> u32 {
    // SAFETY: as in `check_begin`.
    unsafe { ffi::sframe_check_piece(state.as_mut_ptr(), state.len(), piece.as_ptr(), piece.len()) }
}

/// Ends a check: whether `tag` is the frame's.
pub fn check_end(state: &[u8], tag: &[u8]) -> u32 {
    // SAFETY: both slices are live and of the lengths given, and are only read.
    unsafe { ffi::sframe_check_end(state.as_ptr(), state.len(), tag.as_ptr(), tag.len()) }
}
