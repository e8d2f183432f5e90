// SPDX-License-Identifier: MIT
//! The two calls of the ratchet on both sides.

use crate::layer;
use crate::lent::Lent;
use reference::ratchet;
use reference::refusal::number_and_length;
use sframe::raw::{RatchetKid, Written};
use testkit::PATTERN;

/// Walks a base key into a room of `room` bytes on both sides, and checks that a
/// refusal left the room as it was.
#[track_caller]
pub fn compare_walk(suite: u64, base_key: &[u8], steps: u64, room: usize) -> (Written, Vec<u8>) {
    let mut expected = vec![PATTERN; room];
    let answer = ratchet::walk(suite, base_key, steps, &mut expected);
    let (number, length) = number_and_length(answer);

    let mut out = Lent::room(room);
    let written = layer::ratchet(suite, base_key, steps, out.lend());
    let out = out.take_back();
    let what = format!(
        "suite {suite}, base key of {} bytes, {steps} steps, room of {room}",
        base_key.len()
    );
    assert_eq!(written, Written { number, length }, "{what}");
    assert_eq!(out, expected, "{what}");
    assert!(out[length..].iter().all(|&byte| byte == PATTERN), "{what}");
    (written, out)
}

/// The key number of a step on both sides.
#[track_caller]
pub fn compare_kid(generation: u64, step: u64, bits: u64) -> RatchetKid {
    let (number, kid) = match ratchet::kid(generation, step, bits) {
        Ok(kid) => (0, kid),
        Err(refusal) => (refusal as u32, 0),
    };
    let answer = layer::ratchet_kid(generation, step, bits);
    let expected = RatchetKid { number, kid };
    assert_eq!(answer, expected, "{generation:#x}, {step:#x}, {bits} bits");
    answer
}
