// SPDX-License-Identifier: MIT
//! A track store in bytes of its own.

use crate::{raw, wipe, Refusal, TrackStore, MAX_RECORDS, RECORD};
use alloc::{vec, vec::Vec};
use core::fmt;

/// A track store that owns its bytes, and wipes them when it is dropped. Its calls
/// are those of [`TrackStore`], which [`lend`](Self::lend) gives.
///
/// ```
/// use moq::{KeyId, Location, OwnedTrackStore, Properties, Refusal, Role, Suite, Track};
///
/// let mut publisher = OwnedTrackStore::make(1)?;
/// let track = Track { name: b"\x01\x04room\x05video", key_id: KeyId(7) };
/// publisher.lend().add(Role::Sending, track, Suite::Aes128GcmSha256_128, &[7; 32])?;
/// let (at, properties) = (Location { group: 1, object: 2 }, Properties(b"\x02\x07"));
/// publisher.lend().seal_to_vec(track, at, properties, b"\x05hello")?;
///
/// // What is kept over a restart, before the object is given out.
/// let kept = publisher.as_bytes().to_vec();
/// drop(publisher);
/// let mut publisher = OwnedTrackStore::from_bytes(kept)?;
/// let again = publisher.lend().seal_to_vec(track, at, properties, b"\x05world");
/// assert_eq!(again, Err(Refusal::PairNotAbove));
/// # Ok::<(), Refusal>(())
/// ```
///
/// It is not copied by a slip, as a copy would seal the same pairs:
///
/// ```compile_fail,E0599
/// let copy = moq::OwnedTrackStore::make(1)?.clone();
/// # Ok::<(), moq::Refusal>(())
/// ```
// Never grown: that would leave a copy of the keys behind.
pub struct OwnedTrackStore(Vec<u8>);

impl OwnedTrackStore {
    /// A store of so many empty records.
    ///
    /// Refuses with [`Refusal::StoreNotSound`] unless they are 1 to
    /// [`MAX_RECORDS`].
    pub fn make(records: usize) -> Result<Self, Refusal> {
        // One too many is refused like any other number above.
        let mut store = OwnedTrackStore(vec![0; records.min(MAX_RECORDS + 1) * RECORD]);
        TrackStore::make(&mut store.0)?;
        Ok(store)
    }

    /// The store that `bytes` hold, as [`as_bytes`](Self::as_bytes) gave them;
    /// of one store only the last state, and only once.
    ///
    /// Refuses with [`Refusal::StoreNotSound`], and wipes `bytes` then too.
    pub fn from_bytes(bytes: Vec<u8>) -> Result<Self, Refusal> {
        let store = OwnedTrackStore(bytes);
        // Of the causes to refuse an empty object, a store that is not sound comes
        // first; whatever else is the cause, nothing is changed.
        let nowhere = raw::At {
            name: &[],
            key_id: 0,
            group: 0,
            object: 0,
        };
        let number = raw::open(&store.0, nowhere, &[], &[], &mut []).number;
        match Refusal::check(number, ()) {
            Err(Refusal::StoreNotSound) => Err(Refusal::StoreNotSound),
            _ => Ok(store),
        }
    }

    /// The store, to call.
    pub fn lend(&mut self) -> TrackStore<'_> {
        TrackStore::over(&mut self.0)
    }

    /// The bytes, to be kept. They are as secret as the keys.
    pub fn as_bytes(&self) -> &[u8] {
        &self.0
    }
}

impl Drop for OwnedTrackStore {
    fn drop(&mut self) {
        wipe(&mut self.0);
    }
}

/// Shows the length alone, since the bytes hold keys.
impl fmt::Debug for OwnedTrackStore {
    fn fmt(&self, f: &mut fmt::Formatter) -> fmt::Result {
        write!(f, "OwnedTrackStore of {} bytes", self.0.len())
    }
}
