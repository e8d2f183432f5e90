// SPDX-License-Identifier: MIT
//! The store of tracks in lent bytes.

use crate::{raw, Refusal, Role, Suite};
#[cfg(feature = "alloc")]
use alloc::{vec, vec::Vec};
use core::fmt;

/// The Key ID of a track.
#[derive(Clone, Copy, Debug, PartialEq, Eq, Hash)]
pub struct KeyId(pub u64);

/// A track: a full track name, serialized as the draft says, with a Key ID.
#[derive(Clone, Copy, Debug, PartialEq, Eq, Hash)]
pub struct Track<'a> {
    /// The serialized full track name, 0 to 256 bytes.
    pub name: &'a [u8],
    /// The Key ID.
    pub key_id: KeyId,
}

/// The pair that an object has in its track. Pairs are ordered by group, then
/// by object.
#[derive(Clone, Copy, Debug, PartialEq, Eq, Hash, PartialOrd, Ord)]
pub struct Location {
    /// The Group ID.
    pub group: u64,
    /// The Object ID, which has at most 32 bits.
    pub object: u64,
}

/// The immutable properties of an object, as they are serialized. The draft asks
/// that they contain the Key ID. Sealing and opening must be given the same.
#[derive(Clone, Copy, Debug, Default, PartialEq, Eq, Hash)]
pub struct Properties<'a>(pub &'a [u8]);

/// A store of tracks in bytes that the caller lends, 344 for each track.
///
/// Each call judges the whole store before it uses it. A refused call changes
/// nothing.
///
/// ```
/// use moq::{KeyId, Location, Properties, Refusal, Role, Suite, Track, TrackStore};
///
/// let mut bytes = [0; 344];
/// let mut store = TrackStore::make(&mut bytes)?;
/// let track = Track { name: b"\x01\x04room\x05video", key_id: KeyId(7) };
/// store.add(Role::Sending, track, Suite::Aes256GcmSha512_128, &[7; 32])?;
///
/// let mut room = [0; 21];
/// let at = Location { group: 3, object: 0 };
/// assert_eq!(store.seal(track, at, Properties(b"\x02\x07"), b"\x04cue!", &mut room)?, 21);
/// // A pair is sealed once, and none below it afterwards.
/// let again = store.seal(track, at, Properties(b"\x02\x07"), b"", &mut room);
/// assert_eq!(again, Err(Refusal::PairNotAbove));
/// # Ok::<(), Refusal>(())
/// ```
pub struct TrackStore<'a>(&'a mut [u8]);

impl<'a> TrackStore<'a> {
    /// Makes a store of empty records; whatever `bytes` held is gone.
    ///
    /// Refuses with [`Refusal::StoreNotSound`] where the length is no multiple of
    /// [`RECORD`](crate::RECORD), or takes fewer than 1 or more than
    /// [`MAX_RECORDS`](crate::MAX_RECORDS) of them.
    pub fn make(bytes: &'a mut [u8]) -> Result<Self, Refusal> {
        Refusal::check(raw::make(bytes), ())?;
        Ok(TrackStore(bytes))
    }

    /// The store that `bytes` hold already. Each call judges them anew, so any
    /// bytes may be given.
    pub fn over(bytes: &'a mut [u8]) -> Self {
        TrackStore(bytes)
    }

    /// Adds a track, with the key and the salt that `suite` derives from
    /// `base_key` for it, in the first empty record. A track that was added is
    /// never added again in this store.
    ///
    /// Refusals, the first that holds: [`StoreNotSound`](Refusal::StoreNotSound),
    /// [`SendingBarred`](Refusal::SendingBarred),
    /// [`BaseKeyLength`](Refusal::BaseKeyLength), [`TooLong`](Refusal::TooLong),
    /// [`TrackHeld`](Refusal::TrackHeld), [`StoreFull`](Refusal::StoreFull).
    pub fn add(
        &mut self,
        role: Role,
        track: Track,
        suite: Suite,
        base_key: &[u8],
    ) -> Result<(), Refusal> {
        let add = match role {
            Role::Sending => raw::add_sending,
            Role::Receiving => raw::add_receiving,
        };
        let number = add(self.0, track.name, track.key_id.0, suite.number(), base_key);
        Refusal::check(number, ())
    }

    /// Removes a track: its record is retired, and keeps name and Key ID.
    ///
    /// Refusals, the first that holds: [`StoreNotSound`](Refusal::StoreNotSound),
    /// [`TrackUnknown`](Refusal::TrackUnknown), [`WrongRole`](Refusal::WrongRole).
    pub fn remove(&mut self, track: Track) -> Result<(), Refusal> {
        Refusal::check(raw::remove(self.0, track.name, track.key_id.0), ())
    }

    /// Seals `plaintext` as the object of a pair, which has to be above the last
    /// one, at the front of `room`, and answers the object's length.
    ///
    /// Refusals, the first that holds: [`StoreNotSound`](Refusal::StoreNotSound),
    /// [`TrackUnknown`](Refusal::TrackUnknown), [`WrongRole`](Refusal::WrongRole),
    /// [`ObjectTooLarge`](Refusal::ObjectTooLarge),
    /// [`PairNotAbove`](Refusal::PairNotAbove), [`TooLong`](Refusal::TooLong),
    /// [`RoomShort`](Refusal::RoomShort). A refusal uses no pair.
    pub fn seal(
        &mut self,
        track: Track,
        at: Location,
        properties: Properties,
        plaintext: &[u8],
        room: &mut [u8],
    ) -> Result<usize, Refusal> {
        let written = raw::seal(self.0, place(track, at), properties.0, plaintext, room);
        Refusal::check(written.number, written.length)
    }

    /// Seals `plaintext` to an object of its own. Refuses as
    /// [`seal`](Self::seal) does, except that the room suffices.
    #[cfg(feature = "alloc")]
    pub fn seal_to_vec(
        &mut self,
        track: Track,
        at: Location,
        properties: Properties,
        plaintext: &[u8],
    ) -> Result<Vec<u8>, Refusal> {
        let longest_tag = Suite::ALL.map(Suite::nt).into_iter().max().unwrap_or(0);
        let mut object = vec![0; plaintext.len().min(crate::MAX_PLAINTEXT) + longest_tag];
        let length = self.seal(track, at, properties, plaintext, &mut object)?;
        object.truncate(length);
        Ok(object)
    }

    /// Opens an object, given the track, the pair and the properties of its
    /// sealing, to its plaintext at the front of `room`, and answers the
    /// plaintext's length. Nothing is written before the tag is found to match.
    ///
    /// Refusals, the first that holds: [`StoreNotSound`](Refusal::StoreNotSound),
    /// [`TrackUnknown`](Refusal::TrackUnknown), [`WrongRole`](Refusal::WrongRole),
    /// [`ObjectTooLarge`](Refusal::ObjectTooLarge),
    /// [`ObjectShort`](Refusal::ObjectShort), [`TooLong`](Refusal::TooLong),
    /// [`RoomShort`](Refusal::RoomShort), [`TagDiffers`](Refusal::TagDiffers).
    pub fn open(
        &self,
        track: Track,
        at: Location,
        properties: Properties,
        object: &[u8],
        room: &mut [u8],
    ) -> Result<usize, Refusal> {
        let written = raw::open(self.0, place(track, at), properties.0, object, room);
        Refusal::check(written.number, written.length)
    }

    /// Opens an object to a plaintext of its own. Refuses as [`open`](Self::open)
    /// does, except that the room suffices.
    #[cfg(feature = "alloc")]
    pub fn open_to_vec(
        &self,
        track: Track,
        at: Location,
        properties: Properties,
        object: &[u8],
    ) -> Result<Vec<u8>, Refusal> {
        let mut plaintext = vec![0; object.len().min(crate::MAX_PLAINTEXT)];
        let length = self.open(track, at, properties, object, &mut plaintext)?;
        plaintext.truncate(length);
        Ok(plaintext)
    }
}

/// Shows the length alone, since the bytes hold keys.
impl fmt::Debug for TrackStore<'_> {
    fn fmt(&self, f: &mut fmt::Formatter) -> fmt::Result {
        write!(f, "TrackStore of {} bytes", self.0.len())
    }
}

fn place<'a>(track: Track<'a>, at: Location) -> raw::At<'a> {
    raw::At {
        name: track.name,
        key_id: track.key_id.0,
        group: at.group,
        object: at.object,
    }
}
