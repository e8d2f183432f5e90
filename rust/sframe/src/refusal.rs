// SPDX-License-Identifier: MIT
//! Why a call refuses.

use core::error::Error;
use core::fmt;

/// The cause of a refusal. A refused call has changed none of the bytes lent
/// to it.
///
/// ```
/// use sframe::{read_header, Refusal};
///
/// let refusal = read_header(&[]).unwrap_err();
/// assert_eq!(refusal, Refusal::BadHeader);
/// assert_eq!(refusal.number(), 10);
/// assert_eq!(Refusal::from_number(10), Some(refusal));
/// assert_eq!(refusal.to_string(), "the header is cut short");
/// ```
#[derive(Clone, Copy, Debug, PartialEq, Eq, Hash, PartialOrd, Ord)]
#[non_exhaustive]
pub enum Refusal {
    /// A rule of the store's layout is broken, be it that its records are those
    /// of 80 bytes that had no window, or do not stand by rising key number; in
    /// making, the length is no multiple of 96 from 96 to 98,304.
    StoreNotSound = 1,
    /// The suite's number is not 1 to 5. [`Suite`](crate::Suite) has no such
    /// value, so only [`raw`](crate::raw) calls get this answer.
    NoSuchSuite = 2,
    /// The base key is shorter than 16 bytes or longer than 64.
    BaseKeyLength = 3,
    /// The store already has a record of the key number, if only a retired one.
    KidHeld = 4,
    /// Every record of the store is in use.
    StoreFull = 5,
    /// The store has no record of the key number.
    KidUnknown = 6,
    /// The record is not for this: sealing needs a sending one, opening, checking and the
    /// report a receiving one, and a retired one cannot be removed.
    WrongRole = 7,
    /// The key has sealed with its last counter, 2^64 - 1.
    CounterSpent = 8,
    /// The plaintext exceeds 32,768 bytes, or the metadata 1,024.
    TooLong = 9,
    /// The header is cut short.
    BadHeader = 10,
    /// Behind the header the frame is shorter than a tag; at the end of a check,
    /// the tag is not just as long as the suite's.
    FrameShort = 11,
    /// The result needs a longer room than the one that was lent.
    RoomShort = 12,
    /// The frame was not sealed under this key and with this metadata, or it
    /// has changed on its way.
    TagDiffers = 13,
    /// A frame with this key number and counter was opened before.
    AlreadyOpened = 14,
    /// The counter lies 64 or more below the highest that was opened, so that
    /// nobody knows any more whether it was opened before.
    TooOld = 15,
    /// The piece goes past the announced length, the end comes before it, or the
    /// running state is not one of this kind of line. The last is an answer of
    /// [`raw`](crate::raw) calls alone.
    BadState = 16,
    /// The suite's tags have 4 bytes, and no new key of it is for sending; a
    /// sending one that a store already has goes on.
    SendingBarred = 17,
    /// The bits of the step in a key number are not 1 to 16, or the key number
    /// does not fit in 64 bits.
    BadRatchetKid = 20,
    /// A base key is walked more than 64 steps at once.
    TooManySteps = 21,
    /// The index in a group's key number, or the bits of an epoch that is removed,
    /// do not fit their width.
    GroupPartTooLarge = 22,
    /// The widths in a group's key number are above 64 together, or the key number
    /// does not fit in 64 bits.
    GroupKidTooLong = 23,
}

use Refusal::*;

impl Refusal {
    /// Every refusal, by rising number.
    pub const ALL: [Refusal; 21] = [
        StoreNotSound,
        NoSuchSuite,
        BaseKeyLength,
        KidHeld,
        StoreFull,
        KidUnknown,
        WrongRole,
        CounterSpent,
        TooLong,
        BadHeader,
        FrameShort,
        RoomShort,
        TagDiffers,
        AlreadyOpened,
        TooOld,
        BadState,
        SendingBarred,
        BadRatchetKid,
        TooManySteps,
        GroupPartTooLarge,
        GroupKidTooLong,
    ];

    /// The number of the refusal in the C interface.
    pub fn number(self) -> u32 {
        self as u32
    }

    /// The refusal of a number.
    pub fn from_number(number: u32) -> Option<Refusal> {
        Self::ALL
            .into_iter()
            .find(|refusal| refusal.number() == number)
    }

    /// `value` where the library answers 0, else the refusal it names.
    ///
    /// # Panics
    ///
    /// Where the library answers a number that is none of its answers.
    pub(crate) fn check<T>(number: u32, value: T) -> Result<T, Refusal> {
        match (number, Refusal::from_number(number)) {
            (0, _) => Ok(value),
            (_, Some(refusal)) => Err(refusal),
            (_, None) => unreachable!("the library answers no number {number}"),
        }
    }
}

impl fmt::Display for Refusal {
    fn fmt(&self, f: &mut fmt::Formatter) -> fmt::Result {
        f.write_str(match self {
            StoreNotSound => "the store is not sound",
            NoSuchSuite => "there is no such cipher suite: they are numbered 1 to 5",
            BaseKeyLength => "the base key must have 16 to 64 bytes",
            KidHeld => "the store has this key number already",
            StoreFull => "the store has no empty record left",
            KidUnknown => "the store does not have this key number",
            WrongRole => "the role of this key number does not allow the call",
            CounterSpent => "the key has no counter left",
            TooLong => "the plaintext has more than 32,768 bytes or the metadata more than 1,024",
            BadHeader => "the header is cut short",
            FrameShort => "the frame is too short to hold a tag, or the tag has another length",
            RoomShort => "the room or the running state is too short",
            TagDiffers => "the tag does not match",
            AlreadyOpened => "a frame with this counter was opened before",
            TooOld => "the counter lies 64 or more below the highest that was opened",
            BadState => "the pieces are more or fewer than was announced, or the running state is none of this call",
            SendingBarred => "no key is added for sending with suite 3: its tags have 4 bytes",
            BadRatchetKid => "a step has 1 to 16 bits, and the key number must fit in 64",
            TooManySteps => "a key is walked at most 64 steps at once",
            GroupPartTooLarge => "the index or the bits of the epoch do not fit their width",
            GroupKidTooLong => {
                "the widths are above 64 together, or the key number does not fit in 64 bits"
            }
        })
    }
}

impl Error for Refusal {}

/// For programs that hand every failure on as one of `std::io`.
#[cfg(feature = "std")]
impl From<Refusal> for std::io::Error {
    fn from(refusal: Refusal) -> Self {
        std::io::Error::other(refusal)
    }
}
