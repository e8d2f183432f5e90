// SPDX-License-Identifier: MIT
//! The sealing layer beside the reference: each function here makes one call
//! on both and compares all that the call answers and leaves.

#![forbid(unsafe_code)]

mod call;
mod group;
mod header;
mod layer;
mod lent;
mod pieces;
mod ratchet;
mod stores;

pub use call::{compare, compare_near, Call, Outcome};
pub use group::{compare_group_kid, compare_group_parts};
pub use header::{compare_read_header, compare_write_header, compare_write_header_at, forms};
pub use pieces::{compare_line, go_on, LineCall, LineOutcome};
pub use ratchet::{compare_kid, compare_walk};
pub use stores::{
    after, done, frame, frame_with, made, retire, set_counter, set_window, spend, window, with_key,
    Key, ANY_KEY, COUNTER_AT, LAYOUT_AT, RECEIVE_ONLY, SPENT_AT, WINDOW_AT,
};

// The examples of the guide are run.
#[cfg(doctest)]
#[doc = include_str!("../../../docs/INTEGRATION.md")]
struct Guide;

/// The numbers of the refusals.
pub mod number {
    #![allow(missing_docs)]
    pub const DONE: u32 = 0;
    pub const STORE_NOT_SOUND: u32 = 1;
    pub const NO_SUCH_SUITE: u32 = 2;
    pub const BASE_KEY_LENGTH: u32 = 3;
    pub const KID_HELD: u32 = 4;
    pub const STORE_FULL: u32 = 5;
    pub const KID_UNKNOWN: u32 = 6;
    pub const WRONG_ROLE: u32 = 7;
    pub const COUNTER_SPENT: u32 = 8;
    pub const TOO_LONG: u32 = 9;
    pub const BAD_HEADER: u32 = 10;
    pub const FRAME_SHORT: u32 = 11;
    pub const ROOM_SHORT: u32 = 12;
    pub const TAG_DIFFERS: u32 = 13;
    pub const ALREADY_OPENED: u32 = 14;
    pub const TOO_OLD: u32 = 15;
    pub const BAD_STATE: u32 = 16;
    pub const SENDING_BARRED: u32 = 17;
    pub const BAD_RATCHET_KID: u32 = 20;
    pub const TOO_MANY_STEPS: u32 = 21;
    pub const GROUP_PART_TOO_LARGE: u32 = 22;
    pub const GROUP_KID_TOO_LONG: u32 = 23;
}

// The examples of the front page are compiled.
#[cfg(doctest)]
#[doc = include_str!("../../../README.md")]
struct FrontPage;
