// SPDX-License-Identifier: MIT
//! The header calls.

use super::{Written, UNSET};
use crate::ffi;

/// Writes the header of `kid` and `ctr` at the front of `out`.
pub fn write_header(kid: u64, ctr: u64, out: &mut [u8]) -> Written {
    let mut length = UNSET as usize;
    // SAFETY: `out` is a live slice of that length that nothing else refers to,
    // and `length` is a local of its own.
    let number =
        unsafe { ffi::sframe_write_header(kid, ctr, out.as_mut_ptr(), out.len(), &mut length) };
    Written { number, length }
}

/// Writes the header of `kid` and `ctr` at `offset` in `out`.
pub fn write_header_at(kid: u64, ctr: u64, out: &mut [u8], offset: usize) -> Written {
    let mut length = UNSET as usize;
    let (bytes, room) = (out.as_mut_ptr(), out.len());
    // SAFETY: as in `write_header`.
    let number = unsafe { ffi::sframe_write_header_at(kid, ctr, bytes, room, offset, &mut length) };
    Written { number, length }
}

/// What reading a header answers.
#[derive(Clone, Copy, Debug, PartialEq, Eq)]
pub struct Read {
    /// 0, or the refusal's number.
    pub number: u32,
    /// The key number, 0 when refused.
    pub kid: u64,
    /// The counter, 0 when refused.
    pub ctr: u64,
    /// The header's length, 0 when refused.
    pub length: usize,
}

/// Reads the header that `bytes` begin with.
pub fn read_header(bytes: &[u8]) -> Read {
    let (mut kid, mut ctr, mut length) = (UNSET, UNSET, UNSET as usize);
    // SAFETY: `bytes` is a live slice of that length that is only read, and the
    // three numbers are locals of their own.
    let number = unsafe {
        ffi::sframe_read_header(bytes.as_ptr(), bytes.len(), &mut kid, &mut ctr, &mut length)
    };
    Read {
        number,
        kid,
        ctr,
        length,
    }
}
