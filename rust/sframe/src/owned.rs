// SPDX-License-Identifier: MIT
//! A store in bytes of its own.

use crate::{wipe, Refusal, Store, StoreView, MAX_RECORDS, RECORD};
use alloc::{vec, vec::Vec};
use core::fmt;

/// A store that owns its bytes, and wipes them when it is dropped. Its calls are
/// those of [`Store`], which [`lend`](Self::lend) gives.
///
/// ```
/// use sframe::{Kid, Metadata, OwnedStore, Refusal, Role, Suite};
///
/// let (mut ward, mut doctor) = (OwnedStore::make(4)?, OwnedStore::make(4)?);
/// let suite = Suite::Aes128GcmSha256_128;
/// ward.lend().add(Role::Sending, Kid(200), suite, &[7; 16])?;
/// doctor.lend().add(Role::Receiving, Kid(200), suite, &[7; 16])?;
/// let frame = ward.lend().seal_to_vec(Kid(200), Metadata::NONE, b"a picture")?;
/// assert_eq!(doctor.lend().open_to_vec(&frame, Metadata::NONE)?, b"a picture");
///
/// // What is kept over a restart, before the frame is given out.
/// let kept = doctor.as_bytes().to_vec();
/// drop(doctor);
/// let mut doctor = OwnedStore::from_bytes(kept)?;
/// let again = doctor.lend().open_to_vec(&frame, Metadata::NONE);
/// assert_eq!(again, Err(Refusal::AlreadyOpened));
/// # Ok::<(), Refusal>(())
/// ```
///
/// It is not copied by a slip, as a copy would use the same counters:
///
/// ```compile_fail,E0599
/// let copy = sframe::OwnedStore::make(1)?.clone();
/// # Ok::<(), sframe::Refusal>(())
/// ```
// Never grown: that would leave a copy of the keys behind.
pub struct OwnedStore(Vec<u8>);

impl OwnedStore {
    /// A store of so many empty records.
    ///
    /// Refuses with [`Refusal::StoreNotSound`] unless they are 1 to
    /// [`MAX_RECORDS`].
    pub fn make(records: usize) -> Result<Self, Refusal> {
        // One too many is refused like any other number above.
        let mut store = OwnedStore(vec![0; records.min(MAX_RECORDS + 1) * RECORD]);
        Store::make(&mut store.0)?;
        Ok(store)
    }

    /// The store that `bytes` hold, as [`as_bytes`](Self::as_bytes) gave them;
    /// of one store only the last state, and only once.
    ///
    /// Refuses with [`Refusal::StoreNotSound`], and wipes `bytes` then too.
    pub fn from_bytes(bytes: Vec<u8>) -> Result<Self, Refusal> {
        let store = OwnedStore(bytes);
        store.view().check()?;
        Ok(store)
    }

    /// The store, to call.
    pub fn lend(&mut self) -> Store<'_> {
        Store::over(&mut self.0)
    }

    /// The store lent for reading.
    pub fn view(&self) -> StoreView<'_> {
        StoreView::over(&self.0)
    }

    /// The bytes, to be kept. They are as secret as the keys.
    pub fn as_bytes(&self) -> &[u8] {
        &self.0
    }
}

impl Drop for OwnedStore {
    fn drop(&mut self) {
        wipe(&mut self.0);
    }
}

/// Shows the length alone, since the bytes hold keys.
impl fmt::Debug for OwnedStore {
    fn fmt(&self, f: &mut fmt::Formatter) -> fmt::Result {
        write!(f, "OwnedStore of {} bytes", self.0.len())
    }
}
