// SPDX-License-Identifier: MIT
//! Key numbers of the members of an MLS group: RFC 9605, section 5.2.

use crate::{raw, Kid, Refusal};

/// How many bits of a key number are the index's and the epoch's; those above
/// them are the context's.
#[derive(Clone, Copy, Debug, PartialEq, Eq, Hash)]
pub struct GroupWidths {
    /// The bits of the index, S in the RFC: enough for every member.
    pub index: u64,
    /// The bits of the epoch, E in the RFC: 2^E epochs can be told apart.
    pub epoch: u64,
}

/// What the key number of a group's member is made of.
#[derive(Clone, Copy, Debug, PartialEq, Eq, Hash)]
pub struct GroupParts {
    /// A number of the sender's choice. 0 gives the shortest headers.
    pub context: u64,
    /// The sender's index in the group.
    pub index: u64,
    /// The epoch; of a key number that is taken apart, its low bits.
    pub epoch: u64,
}

/// The low bits of an epoch's number, which name the keys that
/// [`Store::change_epoch`](crate::Store::change_epoch) removes.
#[derive(Clone, Copy, Debug, PartialEq, Eq, Hash)]
pub struct EpochBits {
    /// How many bits, as in [`GroupWidths::epoch`]: 0 to 64.
    pub width: u64,
    /// These bits as a number.
    pub bits: u64,
}

/// The key number of a group's member.
///
/// Refuses with [`Refusal::GroupKidTooLong`] where the widths are above 64
/// together, then with [`Refusal::GroupPartTooLarge`] where the index needs more
/// bits than its width, then with [`Refusal::GroupKidTooLong`] where the key
/// number does not fit in 64 bits.
///
/// ```
/// use sframe::{group_kid, group_parts, GroupParts, GroupWidths, Kid, Refusal};
///
/// // Up to 64 members, and up to 16 epochs at a time.
/// let widths = GroupWidths { index: 6, epoch: 4 };
/// let member = GroupParts { context: 3, index: 2, epoch: 16 };
/// assert_eq!(group_kid(member, widths), Ok(Kid(0xc20)));
///
/// // Of the epoch its low bits come out again.
/// let parts = GroupParts { epoch: 0, ..member };
/// assert_eq!(group_parts(Kid(0xc20), widths), Ok(parts));
///
/// let nobody = GroupParts { index: 64, ..member };
/// assert_eq!(group_kid(nobody, widths), Err(Refusal::GroupPartTooLarge));
/// ```
pub fn group_kid(parts: GroupParts, widths: GroupWidths) -> Result<Kid, Refusal> {
    let GroupParts {
        context,
        index,
        epoch,
    } = parts;
    let answer = raw::group_kid(context, index, epoch, widths.index, widths.epoch);
    Refusal::check(answer.number, Kid(answer.kid))
}

/// The parts of a group's key number: what [`group_kid`] was given, and of the
/// epoch its low bits.
///
/// Refuses with [`Refusal::GroupKidTooLong`] where the widths are above 64
/// together.
pub fn group_parts(Kid(kid): Kid, widths: GroupWidths) -> Result<GroupParts, Refusal> {
    let answer = raw::group_parts(kid, widths.index, widths.epoch);
    let parts = GroupParts {
        context: answer.context,
        index: answer.index,
        epoch: answer.epoch,
    };
    Refusal::check(answer.number, parts)
}
