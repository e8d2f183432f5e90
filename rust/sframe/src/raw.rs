// SPDX-License-Identifier: MIT
//! The C functions over slices, with their answers as bare numbers: 0 for done
//! or the number of a refusal.
//!
//! The borrows of a call keep the rules that C leaves to its caller: every
//! pointer is valid for its length, and whatever is written overlaps nothing
//! else of the call.

mod group;
mod header;
mod pieces;
mod ratchet;
mod store;

pub use group::{group_kid, group_parts, GroupKid, Parts};
pub use header::{read_header, write_header, write_header_at, Read};
pub use pieces::{check_begin, check_end, check_piece, seal_begin, seal_end, seal_piece};
pub use ratchet::{ratchet, ratchet_kid, RatchetKid};
pub use store::{
    add_receiving, add_sending, change_epoch, find, make, open, open_near, remove, remove_near,
    report, seal, seal_at, seal_near, Found, Report,
};

/// A value to start an answer from that no call leaves in place by chance.
const UNSET: u64 = 0xa5a5_a5a5_a5a5_a5a5;

/// What a call that writes to a lent room answers.
#[derive(Clone, Copy, Debug, PartialEq, Eq)]
pub struct Written {
    /// 0, or the refusal's number.
    pub number: u32,
    /// How many bytes were written to the room, 0 when refused.
    pub length: usize,
}

/// The version of the archive: 10,000 times the major, 100 times the minor, and
/// the patch.
pub fn version() -> u32 {
    // SAFETY: it takes nothing.
    unsafe { crate::ffi::sframe_version() }
}
