// SPDX-License-Identifier: MIT
//! Why a call refuses.

use core::error::Error;
use core::fmt;

/// The cause of a refusal. A refused call has changed none of the bytes lent
/// to it.
#[derive(Clone, Copy, Debug, PartialEq, Eq, Hash, PartialOrd, Ord)]
#[non_exhaustive]
pub enum Refusal {
    /// A rule of the track store's layout is broken; in making, the length is no
    /// multiple of 344 from 344 to 5,504.
    StoreNotSound = 1,
    /// The suite's number is not 1 to 5. [`Suite`](crate::Suite) has no such
    /// value, so only [`raw`](crate::raw) calls get this answer.
    NoSuchSuite = 2,
    /// The base key is shorter than 16 bytes or longer than 64.
    BaseKeyLength = 3,
    /// The store already has a record of the name and Key ID, if only a retired
    /// one.
    TrackHeld = 4,
    /// Every record of the store is in use.
    StoreFull = 5,
    /// The store has no record of the name and Key ID.
    TrackUnknown = 6,
    /// The record is not for this: sealing needs a sending one, opening a
    /// receiving one, and a retired one cannot be removed.
    WrongRole = 7,
    /// The plaintext exceeds 32,768 bytes, or the properties 1,024; in adding, the
    /// name 256.
    TooLong = 9,
    /// The object is shorter than a tag.
    ObjectShort = 11,
    /// The result needs a longer room than the one that was lent.
    RoomShort = 12,
    /// The object was not sealed under this track, pair and properties, or it has
    /// changed on its way.
    TagDiffers = 13,
    /// The suite's tags have 4 bytes, and no track of it is for sending.
    SendingBarred = 17,
    /// The pair is not above the last one that was sealed.
    PairNotAbove = 24,
    /// The object number has more than 32 bits.
    ObjectTooLarge = 25,
}

use Refusal::*;

impl Refusal {
    /// Every refusal, by rising number.
    pub const ALL: [Refusal; 14] = [
        StoreNotSound,
        NoSuchSuite,
        BaseKeyLength,
        TrackHeld,
        StoreFull,
        TrackUnknown,
        WrongRole,
        TooLong,
        ObjectShort,
        RoomShort,
        TagDiffers,
        SendingBarred,
        PairNotAbove,
        ObjectTooLarge,
    ];

    /// The number of the refusal in the C interface.
    pub fn number(self) -> u32 {
        self as u32
    }

    /// The refusal of a number.
    pub fn from_number(number: u32) -> Option<Refusal> {
        Self::ALL
            .into_iter()
            .find(|refusal| refusal.number() == number)
    }

    /// `value` where the library answers 0, else the refusal it names.
    ///
    /// # Panics
    ///
    /// Where the library answers a number that is none of its answers.
    pub(crate) fn check<T>(number: u32, value: T) -> Result<T, Refusal> {
        match (number, Refusal::from_number(number)) {
            (0, _) => Ok(value),
            (_, Some(refusal)) => Err(refusal),
            (_, None) => unreachable!("the library answers no number {number}"),
        }
    }
}

impl fmt::Display for Refusal {
    fn fmt(&self, f: &mut fmt::Formatter) -> fmt::Result {
        f.write_str(match self {
            StoreNotSound => "the track store is not sound",
            NoSuchSuite => "there is no such cipher suite: they are numbered 1 to 5",
            BaseKeyLength => "the base key must have 16 to 64 bytes",
            TrackHeld => "the store has this track and Key ID already",
            StoreFull => "the store has no empty record left",
            TrackUnknown => "the store does not have this track and Key ID",
            WrongRole => "the role of this track does not allow the call",
            TooLong => "the plaintext, the properties or the name is too long",
            ObjectShort => "the object is too short to hold a tag",
            RoomShort => "the room is too short for the result",
            TagDiffers => "the tag does not match",
            SendingBarred => "no track is added for sending with suite 3: its tags have 4 bytes",
            PairNotAbove => "the pair is not above the last one sealed",
            ObjectTooLarge => "the object number has more than 32 bits",
        })
    }
}

impl Error for Refusal {}

/// For programs that hand every failure on as one of `std::io`.
#[cfg(feature = "std")]
impl From<Refusal> for std::io::Error {
    fn from(refusal: Refusal) -> Self {
        std::io::Error::other(refusal)
    }
}
