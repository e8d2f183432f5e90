// SPDX-License-Identifier: MIT
//! The store of keys in lent bytes.

#[cfg(feature = "alloc")]
use crate::{frame_room, Record, MAX_PLAINTEXT};
use crate::{raw, EpochBits, Kid, Metadata, Place, Refusal, StoreView, Suite};
#[cfg(feature = "alloc")]
use alloc::{vec, vec::Vec};
use core::fmt;

/// What a key is added for.
#[derive(Clone, Copy, Debug, PartialEq, Eq, Hash)]
pub enum Role {
    /// For sealing.
    Sending,
    /// For opening.
    Receiving,
}

impl fmt::Display for Role {
    fn fmt(&self, f: &mut fmt::Formatter) -> fmt::Result {
        f.pad(match self {
            Role::Sending => "sending",
            Role::Receiving => "receiving",
        })
    }
}

/// A store of keys in bytes that the caller lends, [`RECORD`](crate::RECORD) for
/// each key.
///
/// Each call judges the whole store before it uses it. A refused call changes
/// nothing.
///
/// ```
/// use sframe::{frame_room, Kid, Metadata, Refusal, Role, Store, Suite, RECORD};
///
/// let suite = Suite::Aes128CtrHmacSha256_80;
/// let (mut ward, mut doctor) = ([0; 2 * RECORD], [0; 2 * RECORD]);
/// let mut ward = Store::make(&mut ward)?;
/// let mut doctor = Store::make(&mut doctor)?;
/// ward.add(Role::Sending, Kid(200), suite, b"sixteen or more bytes")?;
/// doctor.add(Role::Receiving, Kid(200), suite, b"sixteen or more bytes")?;
///
/// let picture = b"a picture";
/// let mut room = [0; frame_room(Suite::Aes128CtrHmacSha256_80, 9)];
/// let length = ward.seal(Kid(200), Metadata(b"camera 2"), picture, &mut room)?;
/// let frame = &room[..length];
///
/// // Under other metadata the tag does not match, and the room stays as it was.
/// let mut opened = [0; 9];
/// let refused = doctor.open(frame, Metadata(b"camera 3"), &mut opened);
/// assert_eq!(refused, Err(Refusal::TagDiffers));
/// assert_eq!(opened, [0; 9]);
///
/// assert_eq!(doctor.open(frame, Metadata(b"camera 2"), &mut opened)?, 9);
/// assert_eq!(&opened, picture);
/// # Ok::<(), Refusal>(())
/// ```
///
/// Whoever holds a store holds it alone: two at once over the same bytes could
/// use one counter twice, or open one frame twice.
///
/// ```compile_fail,E0499
/// use sframe::{Kid, Metadata, Store, RECORD};
///
/// let mut bytes = [0; RECORD];
/// let mut one = Store::over(&mut bytes);
/// let mut other = Store::over(&mut bytes);
/// one.remove(Kid(200))?;
/// # Ok::<(), sframe::Refusal>(())
/// ```
///
/// The room is never a part of the store:
///
/// ```compile_fail,E0499
/// use sframe::{Kid, Metadata, Store, RECORD};
///
/// let mut bytes = [0; 2 * RECORD];
/// let mut store = Store::over(&mut bytes);
/// store.seal(Kid(200), Metadata::NONE, b"picture", &mut bytes[RECORD..])?;
/// # Ok::<(), sframe::Refusal>(())
/// ```
///
/// Nor is a store copied by a slip, since a copy would seal with counters that
/// the original uses too, and open what that opens:
///
/// ```compile_fail,E0599
/// use sframe::{Store, RECORD};
///
/// let mut bytes = [0; RECORD];
/// let copy = Store::over(&mut bytes).clone();
/// ```
pub struct Store<'a>(&'a mut [u8]);

impl<'a> Store<'a> {
    /// Makes a store of empty records; whatever `bytes` held is gone.
    ///
    /// Refuses with [`Refusal::StoreNotSound`] where the length is no multiple of
    /// [`RECORD`](crate::RECORD), or takes fewer than 1 or more than
    /// [`MAX_RECORDS`](crate::MAX_RECORDS) of them.
    ///
    /// ```
    /// use sframe::{Refusal, Store};
    ///
    /// assert!(Store::make(&mut [0; 98_304]).is_ok());
    /// assert_eq!(Store::make(&mut [0; 97]).err(), Some(Refusal::StoreNotSound));
    /// ```
    pub fn make(bytes: &'a mut [u8]) -> Result<Self, Refusal> {
        Refusal::check(raw::make(bytes), ())?;
        Ok(Store(bytes))
    }

    /// The store that `bytes` hold already. Each call judges them anew, so any
    /// bytes may be given.
    ///
    /// ```
    /// use sframe::{Kid, Refusal, Store, RECORD};
    ///
    /// let mut bytes = [0xff; RECORD];
    /// let mut store = Store::over(&mut bytes);
    /// assert_eq!(store.remove(Kid(200)), Err(Refusal::StoreNotSound));
    /// ```
    pub fn over(bytes: &'a mut [u8]) -> Self {
        Store(bytes)
    }

    /// Adds the key of `kid` that `suite` derives from `base_key`, at the place of
    /// its key number; the records behind move by one.
    ///
    /// A key number that was added for sending is never added again in this
    /// store, so that its counters do not start anew. A receiving key has opened
    /// nothing yet. The suite whose tags have 4
    /// bytes is for receiving alone.
    ///
    /// Refusals, the first that holds: [`StoreNotSound`](Refusal::StoreNotSound),
    /// [`SendingBarred`](Refusal::SendingBarred),
    /// [`BaseKeyLength`](Refusal::BaseKeyLength), [`KidHeld`](Refusal::KidHeld),
    /// [`StoreFull`](Refusal::StoreFull).
    ///
    /// ```
    /// use sframe::{Kid, Refusal, Role, Store, Suite, RECORD};
    ///
    /// let mut bytes = [0; RECORD];
    /// let mut store = Store::make(&mut bytes)?;
    /// let suite = Suite::Aes128CtrHmacSha256_32;
    /// let refused = store.add(Role::Sending, Kid(200), suite, &[7; 16]);
    /// assert_eq!(refused, Err(Refusal::SendingBarred));
    /// store.add(Role::Receiving, Kid(200), suite, &[7; 16])?;
    /// # Ok::<(), Refusal>(())
    /// ```
    pub fn add(
        &mut self,
        role: Role,
        kid: Kid,
        suite: Suite,
        base_key: &[u8],
    ) -> Result<(), Refusal> {
        let add = match role {
            Role::Sending => raw::add_sending,
            Role::Receiving => raw::add_receiving,
        };
        Refusal::check(add(self.0, kid.0, suite.number(), base_key), ())
    }

    /// Removes the key of `kid`. A receiving one's record goes, those behind move
    /// by one, and which frames it has opened is forgotten; a sending one leaves a
    /// retired record that keeps the key number.
    ///
    /// Refusals, the first that holds: [`StoreNotSound`](Refusal::StoreNotSound),
    /// [`KidUnknown`](Refusal::KidUnknown), [`WrongRole`](Refusal::WrongRole).
    ///
    /// ```
    /// use sframe::{Kid, Refusal, Role, Store, Suite, RECORD};
    ///
    /// let mut bytes = [0; RECORD];
    /// let mut store = Store::make(&mut bytes)?;
    /// let suite = Suite::Aes128GcmSha256_128;
    /// store.add(Role::Sending, Kid(200), suite, &[7; 16])?;
    /// store.remove(Kid(200))?;
    /// let again = store.add(Role::Sending, Kid(200), suite, &[7; 16]);
    /// assert_eq!(again, Err(Refusal::KidHeld));
    /// # Ok::<(), Refusal>(())
    /// ```
    pub fn remove(&mut self, kid: Kid) -> Result<(), Refusal> {
        Refusal::check(raw::remove(self.0, kid.0), ())
    }

    /// As [`remove`](Self::remove); the record is looked for at `place` first.
    pub fn remove_near(&mut self, kid: Kid, place: Place) -> Result<(), Refusal> {
        Refusal::check(raw::remove_near(self.0, kid.0, place.0), ())
    }

    /// Removes exactly the receiving keys whose key number has these low bits, as
    /// [`remove`](Self::remove) does; there may be none. Sending keys and retired
    /// records stay as they are.
    ///
    /// Refusals, the first that holds: [`StoreNotSound`](Refusal::StoreNotSound),
    /// [`GroupKidTooLong`](Refusal::GroupKidTooLong) where the width is above 64,
    /// [`GroupPartTooLarge`](Refusal::GroupPartTooLarge) where the bits need more
    /// than the width.
    ///
    /// ```
    /// use sframe::{group_kid, EpochBits, GroupParts, GroupWidths};
    /// use sframe::{Kid, Refusal, Role, Store, Suite, RECORD};
    ///
    /// let widths = GroupWidths { index: 6, epoch: 4 };
    /// let kid = |index, epoch| group_kid(GroupParts { context: 0, index, epoch }, widths);
    /// let mut bytes = [0; 4 * RECORD];
    /// let mut store = Store::make(&mut bytes)?;
    /// let suite = Suite::Aes128GcmSha256_128;
    /// let (epoch_14, epoch_15) = ([14; 16], [15; 16]); // their base keys
    /// store.add(Role::Sending, kid(5, 14)?, suite, &epoch_14)?;
    /// store.add(Role::Receiving, kid(3, 14)?, suite, &epoch_14)?;
    /// store.add(Role::Receiving, kid(3, 15)?, suite, &epoch_15)?;
    ///
    /// // Epoch 30 has the low bits of epoch 14. Our own key is still there.
    /// store.change_epoch(EpochBits { width: widths.epoch, bits: 30 % 16 })?;
    /// let left: Vec<Kid> = store.records()?.iter().map(|record| record.kid).collect();
    /// assert_eq!(left, [kid(3, 15)?, kid(5, 14)?]);
    /// let epoch_30 = [30; 16];
    /// store.add(Role::Receiving, kid(3, 30)?, suite, &epoch_30)?;
    /// let own = store.add(Role::Sending, kid(5, 30)?, suite, &epoch_30);
    /// assert_eq!(own, Err(Refusal::KidHeld));
    /// # Ok::<(), Refusal>(())
    /// ```
    pub fn change_epoch(&mut self, epoch: EpochBits) -> Result<(), Refusal> {
        Refusal::check(raw::change_epoch(self.0, epoch.width, epoch.bits), ())
    }

    /// The store's bytes.
    pub(crate) fn bytes(&mut self) -> &mut [u8] {
        self.0
    }

    /// As [`StoreView::find`].
    pub fn find(&self, kid: Kid) -> Result<Place, Refusal> {
        self.view().find(kid)
    }

    /// Seals `plaintext` under the key of `kid` and its next counter, into a
    /// frame at the front of `room`, and answers the frame's length. The bytes
    /// behind it stay as they are. [`frame_room`](crate::frame_room) bytes are always enough.
    ///
    /// Refusals, the first that holds: [`StoreNotSound`](Refusal::StoreNotSound),
    /// [`KidUnknown`](Refusal::KidUnknown), [`WrongRole`](Refusal::WrongRole),
    /// [`CounterSpent`](Refusal::CounterSpent), [`TooLong`](Refusal::TooLong),
    /// [`RoomShort`](Refusal::RoomShort). A refusal uses no counter.
    pub fn seal(
        &mut self,
        kid: Kid,
        metadata: Metadata,
        plaintext: &[u8],
        room: &mut [u8],
    ) -> Result<usize, Refusal> {
        let written = raw::seal(self.0, kid.0, metadata.0, plaintext, room);
        Refusal::check(written.number, written.length)
    }

    /// Seals as [`seal`](Self::seal) does, into a frame at `offset` in `room`, and
    /// answers the frame's length, without the offset. The bytes before the frame
    /// stay as they are too, so that they can be the caller's own.
    ///
    /// [`RoomShort`](Refusal::RoomShort) where the room is shorter than the offset
    /// and the frame together, be the offset past its end.
    ///
    /// ```
    /// use sframe::{Kid, Metadata, Refusal, Role, Store, Suite, RECORD};
    ///
    /// let mut bytes = [0; RECORD];
    /// let mut store = Store::make(&mut bytes)?;
    /// store.add(Role::Sending, Kid(1), Suite::Aes128GcmSha256_128, &[7; 16])?;
    ///
    /// let mut packet = *b"radio: .................";
    /// let length = store.seal_at(Kid(1), Metadata::NONE, b"", &mut packet, 7)?;
    /// assert_eq!((&packet[..7], packet[7]), (&b"radio: "[..], 0x10));
    /// assert_eq!(7 + length, packet.len());
    ///
    /// let past = store.seal_at(Kid(1), Metadata::NONE, b"", &mut packet, 25);
    /// assert_eq!(past, Err(Refusal::RoomShort));
    /// # Ok::<(), Refusal>(())
    /// ```
    pub fn seal_at(
        &mut self,
        kid: Kid,
        metadata: Metadata,
        plaintext: &[u8],
        room: &mut [u8],
        offset: usize,
    ) -> Result<usize, Refusal> {
        let written = raw::seal_at(self.0, kid.0, metadata.0, plaintext, room, offset);
        Refusal::check(written.number, written.length)
    }

    /// As [`seal_at`](Self::seal_at); the record is looked for at `place` first.
    ///
    /// ```
    /// use sframe::{Kid, Metadata, Place, Role, Store, Suite, RECORD};
    ///
    /// let mut bytes = [0; 2 * RECORD];
    /// let mut store = Store::make(&mut bytes)?;
    /// store.add(Role::Sending, Kid(1), Suite::Aes128GcmSha256_128, &[7; 16])?;
    /// let right = store.find(Kid(1))?;
    ///
    /// // Whatever the place is, the answer is the same.
    /// let mut room = [0; 24];
    /// for place in [right, Place(1), Place(usize::MAX)] {
    ///     let length = store.seal_near(Kid(1), place, Metadata::NONE, b"", &mut room, 7)?;
    ///     assert_eq!(length, 17);
    /// }
    /// # Ok::<(), sframe::Refusal>(())
    /// ```
    pub fn seal_near(
        &mut self,
        kid: Kid,
        place: Place,
        metadata: Metadata,
        plaintext: &[u8],
        room: &mut [u8],
        offset: usize,
    ) -> Result<usize, Refusal> {
        let written = raw::seal_near(self.0, kid.0, place.0, metadata.0, plaintext, room, offset);
        Refusal::check(written.number, written.length)
    }

    /// Seals `plaintext` into a frame of its own. Refuses as [`seal`](Self::seal)
    /// does, except that the room suffices.
    ///
    /// ```
    /// use sframe::{Kid, Metadata, Role, Store, Suite, RECORD};
    ///
    /// let mut bytes = [0; RECORD];
    /// let mut store = Store::make(&mut bytes)?;
    /// store.add(Role::Sending, Kid(1), Suite::Aes128GcmSha256_128, &[7; 16])?;
    /// let frame = store.seal_to_vec(Kid(1), Metadata::NONE, b"")?;
    /// assert_eq!((frame.len(), frame[0]), (17, 0x10));
    /// # Ok::<(), sframe::Refusal>(())
    /// ```
    #[cfg(feature = "alloc")]
    pub fn seal_to_vec(
        &mut self,
        kid: Kid,
        metadata: Metadata,
        plaintext: &[u8],
    ) -> Result<Vec<u8>, Refusal> {
        const LONGEST_TAG: Suite = Suite::Aes128GcmSha256_128;
        let mut frame = vec![0; frame_room(LONGEST_TAG, plaintext.len().min(MAX_PLAINTEXT))];
        let length = self.seal(kid, metadata, plaintext, &mut frame)?;
        frame.truncate(length);
        Ok(frame)
    }

    /// Opens `frame` to its plaintext at the front of `room` and answers the
    /// plaintext's length. The bytes behind it stay as they are, and nothing is
    /// written before the tag is found to match. A room as long as the frame is
    /// always enough.
    ///
    /// No frame is opened twice: the key remembers which of the last
    /// [`WINDOW`](crate::WINDOW) counters it has opened. Frames may come in any
    /// order, as long as they are fewer than that behind.
    ///
    /// Refusals, the first that holds: [`StoreNotSound`](Refusal::StoreNotSound),
    /// [`BadHeader`](Refusal::BadHeader), [`KidUnknown`](Refusal::KidUnknown),
    /// [`WrongRole`](Refusal::WrongRole), [`FrameShort`](Refusal::FrameShort),
    /// [`TooLong`](Refusal::TooLong), [`RoomShort`](Refusal::RoomShort),
    /// [`AlreadyOpened`](Refusal::AlreadyOpened), [`TooOld`](Refusal::TooOld),
    /// [`TagDiffers`](Refusal::TagDiffers).
    pub fn open(
        &mut self,
        frame: &[u8],
        metadata: Metadata,
        room: &mut [u8],
    ) -> Result<usize, Refusal> {
        let written = raw::open(self.0, frame, metadata.0, room);
        Refusal::check(written.number, written.length)
    }

    /// As [`open`](Self::open); the record is looked for at `place` first.
    pub fn open_near(
        &mut self,
        place: Place,
        frame: &[u8],
        metadata: Metadata,
        room: &mut [u8],
    ) -> Result<usize, Refusal> {
        let written = raw::open_near(self.0, place.0, frame, metadata.0, room);
        Refusal::check(written.number, written.length)
    }

    /// Opens `frame` to a plaintext of its own. Refuses as [`open`](Self::open)
    /// does, except that the room suffices.
    ///
    /// ```
    /// use sframe::{Kid, Metadata, Refusal, Role, Store, Suite, RECORD};
    ///
    /// let suite = Suite::Aes128GcmSha256_128;
    /// let (mut ward, mut doctor) = ([0; RECORD], [0; RECORD]);
    /// let mut ward = Store::make(&mut ward)?;
    /// let mut doctor = Store::make(&mut doctor)?;
    /// ward.add(Role::Sending, Kid(200), suite, &[7; 16])?;
    /// doctor.add(Role::Receiving, Kid(200), suite, &[7; 16])?;
    /// let mut seal = || ward.seal_to_vec(Kid(200), Metadata::NONE, b"picture");
    ///
    /// // The second frame comes first, and then each comes once more.
    /// let (first, second) = (seal()?, seal()?);
    /// assert_eq!(doctor.open_to_vec(&second, Metadata::NONE)?, b"picture");
    /// assert_eq!(doctor.open_to_vec(&first, Metadata::NONE)?, b"picture");
    /// for frame in [first, second] {
    ///     let again = doctor.open_to_vec(&frame, Metadata::NONE);
    ///     assert_eq!(again, Err(Refusal::AlreadyOpened));
    /// }
    /// # Ok::<(), Refusal>(())
    /// ```
    #[cfg(feature = "alloc")]
    pub fn open_to_vec(&mut self, frame: &[u8], metadata: Metadata) -> Result<Vec<u8>, Refusal> {
        let mut plaintext = vec![0; frame.len().min(MAX_PLAINTEXT)];
        let length = self.open(frame, metadata, &mut plaintext)?;
        plaintext.truncate(length);
        Ok(plaintext)
    }

    /// As [`StoreView::report`].
    pub fn report(&self, kid: Kid) -> Result<u64, Refusal> {
        self.view().report(kid)
    }

    /// The records in use, by rising place, without their keys.
    ///
    /// Refuses with [`Refusal::StoreNotSound`].
    ///
    /// ```
    /// use sframe::{Ctr, Kid, Metadata, Role, State, Store, Suite, RECORD};
    ///
    /// let mut bytes = [0; 2 * RECORD];
    /// let mut store = Store::make(&mut bytes)?;
    /// store.add(Role::Sending, Kid(200), Suite::Aes128GcmSha256_128, &[7; 16])?;
    /// store.seal_to_vec(Kid(200), Metadata::NONE, b"picture")?;
    ///
    /// let records = store.records()?;
    /// assert_eq!(records.len(), 1);
    /// assert_eq!(records[0].state, State::Sending);
    /// assert_eq!((records[0].kid, records[0].next), (Kid(200), Ctr(1)));
    /// # Ok::<(), sframe::Refusal>(())
    /// ```
    #[cfg(feature = "alloc")]
    pub fn records(&self) -> Result<Vec<Record>, Refusal> {
        self.view().records()
    }

    /// The store lent for reading.
    pub fn view(&self) -> StoreView<'_> {
        StoreView::over(self.0)
    }
}

/// Shows the length alone, since the bytes hold keys.
impl fmt::Debug for Store<'_> {
    fn fmt(&self, f: &mut fmt::Formatter) -> fmt::Result {
        write!(f, "Store of {} bytes", self.0.len())
    }
}
