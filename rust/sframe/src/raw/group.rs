// SPDX-License-Identifier: MIT
//! The two calls of a group's key numbers.

use super::UNSET;
use crate::ffi;

/// What the key number of a group's member is answered with.
#[derive(Clone, Copy, Debug, PartialEq, Eq)]
pub struct GroupKid {
    /// 0, or the refusal's number.
    pub number: u32,
    /// The key number, 0 when refused.
    pub kid: u64,
}

/// The key number of a context, an index and an epoch, in so many bits.
pub fn group_kid(
    context: u64,
    index: u64,
    epoch: u64,
    index_width: u64,
    epoch_width: u64,
) -> GroupKid {
    let mut kid = UNSET;
    // SAFETY: `kid` is a local of its own.
    let number =
        unsafe { ffi::sframe_group_kid(context, index, epoch, index_width, epoch_width, &mut kid) };
    GroupKid { number, kid }
}

/// What taking a key number apart answers.
#[derive(Clone, Copy, Debug, PartialEq, Eq)]
pub struct Parts {
    /// 0, or the refusal's number.
    pub number: u32,
    /// The context, 0 when refused.
    pub context: u64,
    /// The index, 0 when refused.
    pub index: u64,
    /// The low bits of the epoch, 0 when refused.
    pub epoch: u64,
}

/// The parts of a key number, in so many bits.
pub fn group_parts(kid: u64, index_width: u64, epoch_width: u64) -> Parts {
    let (mut context, mut index, mut epoch) = (UNSET, UNSET, UNSET);
    // SAFETY: the three numbers are locals of their own.
    let number = unsafe {
        ffi::sframe_group_parts(
            kid,
            index_width,
            epoch_width,
            &mut context,
            &mut index,
            &mut epoch,
        )
    };
    Parts {
        number,
        context,
        index,
        epoch,
    }
}
