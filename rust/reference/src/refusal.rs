// SPDX-License-Identifier: MIT
//! Why a call refuses.

/// The causes of a refusal, by number. 0 means done.
#[derive(Clone, Copy, Debug, PartialEq, Eq)]
pub enum Refusal {
    /// The store is not sound.
    StoreNotSound = 1,
    /// The suite is not 1 to 5.
    NoSuchSuite = 2,
    /// The base key is not 16 to 64 bytes long.
    BaseKeyLength = 3,
    /// A non-empty record holds the KID.
    KidHeld = 4,
    /// No record is empty.
    StoreFull = 5,
    /// No non-empty record holds the KID.
    KidUnknown = 6,
    /// The record's role does not allow the call.
    WrongRole = 7,
    /// The last counter has been used.
    CounterSpent = 8,
    /// The plaintext or the metadata is too long.
    TooLong = 9,
    /// The header is cut short.
    BadHeader = 10,
    /// Fewer bytes than a tag follow the header.
    NoTag = 11,
    /// The lent room is shorter than the result.
    RoomShort = 12,
    /// The tag differs.
    TagDiffers = 13,
    /// The counter's bit in the mask is set: a frame with it was opened.
    AlreadyOpened = 14,
    /// The counter lies 64 or more below the highest that was opened.
    TooOld = 15,
    /// A piece past the announced length, an end before it, or a running state
    /// that cannot be.
    BadState = 16,
    /// Suite 3, whose tags have four bytes, is not for sending.
    SendingBarred = 17,
    /// The bits of the step are not 1 to 16, or the KID is past 64 bits.
    BadRatchetKid = 20,
    /// More than 64 steps.
    TooManySteps = 21,
    /// The index has more than S bits, or the epoch bits more than E.
    GroupPartTooLarge = 22,
    /// S + E is more than 64, or the KID is past 64 bits.
    GroupKidTooLong = 23,
    /// MoQ: the pair is not above the last one sealed.
    PairNotAbove = 24,
    /// MoQ: the object number has more than 32 bits.
    ObjectTooLarge = 25,
}

/// What a call answers: the length of its result, or why it refuses.
pub type Answer = Result<usize, Refusal>;

/// An answer as the number and the length that a caller in C sees.
pub fn number_and_length(answer: Answer) -> (u32, usize) {
    match answer {
        Ok(length) => (0, length),
        Err(refusal) => (refusal as u32, 0),
    }
}
