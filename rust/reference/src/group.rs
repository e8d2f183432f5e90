// SPDX-License-Identifier: MIT
//! KIDs of the members of an MLS group, RFC 9605 section 5.2: a context, the
//! sender's index and the low bits of the epoch. S bits are the index's and E
//! bits the epoch's.

use crate::refusal::Refusal;

/// The bits of a KID.
const KID_BITS: u64 = 64;

/// What a KID is made of.
#[derive(Clone, Copy, Debug, PartialEq, Eq)]
pub struct Parts {
    /// Chosen by the sender.
    pub context: u64,
    /// The sender's index in the group.
    pub index: u64,
    /// The low E bits of the epoch.
    pub epoch: u64,
}

/// The KID of a context, a sender index and an epoch. Refusals: 23, 22, 23.
pub fn kid(context: u64, index: u64, epoch: u64, s: u64, e: u64) -> Result<u64, Refusal> {
    check_widths(s, e)?;
    check_part(index, s)?;
    // At most (2^64 - 1) * 2^64 and 2^64 - 1 more, which is less than 2^128.
    let wide = |part: u64, above: u64| u128::from(part) << above;
    let kid = wide(context, s + e) + wide(index, e) + wide(low_bits(epoch, e), 0);
    u64::try_from(kid).map_err(|_| Refusal::GroupKidTooLong)
}

/// The parts of a KID. Refusals: 23.
pub fn parts(kid: u64, s: u64, e: u64) -> Result<Parts, Refusal> {
    check_widths(s, e)?;
    let above = |bits: u64| (u128::from(kid) >> bits) as u64;
    Ok(Parts {
        context: above(s + e),
        index: low_bits(above(e), s),
        epoch: low_bits(kid, e),
    })
}

/// Whether `bits` can be the low E bits of a KID. Refusals: 23, 22.
pub fn check_epoch(e: u64, bits: u64) -> Result<(), Refusal> {
    check_widths(0, e)?;
    check_part(bits, e)
}

/// The low bits of a number, up to all 64.
pub fn low_bits(number: u64, bits: u64) -> u64 {
    (u128::from(number) % (1 << bits)) as u64
}

fn check_widths(s: u64, e: u64) -> Result<(), Refusal> {
    match s.checked_add(e) {
        Some(both) if both <= KID_BITS => Ok(()),
        _ => Err(Refusal::GroupKidTooLong),
    }
}

fn check_part(part: u64, bits: u64) -> Result<(), Refusal> {
    match low_bits(part, bits) == part {
        true => Ok(()),
        false => Err(Refusal::GroupPartTooLarge),
    }
}
