// SPDX-License-Identifier: MIT
//! The two calls of a group's key numbers on both sides.

use crate::layer;
use reference::group;
use sframe::raw::{GroupKid, Parts};

/// The key number of a context, an index and an epoch, in S and E bits.
#[track_caller]
pub fn compare_group_kid(context: u64, index: u64, epoch: u64, s: u64, e: u64) -> GroupKid {
    let (number, kid) = match group::kid(context, index, epoch, s, e) {
        Ok(kid) => (0, kid),
        Err(refusal) => (refusal as u32, 0),
    };
    let answer = layer::group_kid(context, index, epoch, s, e);
    assert_eq!(
        answer,
        GroupKid { number, kid },
        "context {context:#x}, index {index:#x}, epoch {epoch:#x}, S {s}, E {e}"
    );
    answer
}

/// The parts of a key number, in S and E bits.
#[track_caller]
pub fn compare_group_parts(kid: u64, s: u64, e: u64) -> Parts {
    let none = group::Parts {
        context: 0,
        index: 0,
        epoch: 0,
    };
    let (number, parts) = match group::parts(kid, s, e) {
        Ok(parts) => (0, parts),
        Err(refusal) => (refusal as u32, none),
    };
    let expected = Parts {
        number,
        context: parts.context,
        index: parts.index,
        epoch: parts.epoch,
    };
    let answer = layer::group_parts(kid, s, e);
    assert_eq!(answer, expected, "KID {kid:#x}, S {s}, E {e}");
    answer
}
