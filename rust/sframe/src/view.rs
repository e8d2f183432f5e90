// SPDX-License-Identifier: MIT
//! A store that is only read: finding, reporting and listing.

use crate::record::{self, Place, Record};
use crate::{raw, Kid, Refusal};
#[cfg(feature = "alloc")]
use alloc::vec::Vec;
use core::fmt;

/// A store lent for reading. Any number of views may be over one store at once,
/// in several threads too.
///
/// A view neither seals nor opens: sealing takes a counter, and opening
/// remembers one.
///
/// ```compile_fail,E0599
/// use sframe::{Kid, Metadata, StoreView, RECORD};
///
/// # let ward = [0; RECORD];
/// StoreView::over(&ward).seal(Kid(200), Metadata::NONE, b"picture", &mut [0; 100]);
/// ```
///
/// ```compile_fail,E0599
/// use sframe::{Metadata, StoreView, RECORD};
///
/// # let (doctor, frame) = ([0; RECORD], [0x10]);
/// StoreView::over(&doctor).open(&frame, Metadata::NONE, &mut [0; 100]);
/// ```
#[derive(Clone, Copy)]
pub struct StoreView<'a>(&'a [u8]);

impl<'a> StoreView<'a> {
    /// A view of a store's bytes. Each call judges them anew.
    pub fn over(bytes: &'a [u8]) -> Self {
        StoreView(bytes)
    }

    /// The store's bytes.
    pub(crate) fn bytes(self) -> &'a [u8] {
        self.0
    }

    /// Where the record of `kid` stands, be it a retired one.
    ///
    /// Refusals, the first that holds: [`StoreNotSound`](Refusal::StoreNotSound),
    /// [`KidUnknown`](Refusal::KidUnknown).
    ///
    /// ```
    /// use sframe::{Kid, Place, Refusal, Role, Store, Suite, RECORD};
    ///
    /// let mut bytes = [0; 3 * RECORD];
    /// let mut store = Store::make(&mut bytes)?;
    /// store.add(Role::Sending, Kid(200), Suite::Aes128GcmSha256_128, &[7; 16])?;
    /// assert_eq!(store.find(Kid(200)), Ok(Place(0)));
    ///
    /// // A lower number goes before it.
    /// store.add(Role::Receiving, Kid(56), Suite::Aes128GcmSha256_128, &[7; 16])?;
    /// assert_eq!(store.find(Kid(200)), Ok(Place(1)));
    /// assert_eq!(store.find(Kid(7)), Err(Refusal::KidUnknown));
    /// # Ok::<(), Refusal>(())
    /// ```
    pub fn find(self, kid: Kid) -> Result<Place, Refusal> {
        let found = raw::find(self.0, kid.0);
        Refusal::check(found.number, Place(found.place))
    }

    /// How many of the last [`WINDOW`](crate::WINDOW) counters were opened under
    /// the key of `kid`, the highest that was opened among them; 0 where none was
    /// yet.
    ///
    /// Refusals, the first that holds: [`StoreNotSound`](Refusal::StoreNotSound),
    /// [`KidUnknown`](Refusal::KidUnknown), [`WrongRole`](Refusal::WrongRole)
    /// unless the key is receiving.
    ///
    /// ```
    /// use sframe::{Kid, Metadata, Role, Store, Suite, RECORD};
    ///
    /// let suite = Suite::Aes128GcmSha256_128;
    /// let (mut ward, mut doctor) = ([0; RECORD], [0; RECORD]);
    /// let mut ward = Store::make(&mut ward)?;
    /// let mut doctor = Store::make(&mut doctor)?;
    /// ward.add(Role::Sending, Kid(200), suite, &[7; 16])?;
    /// doctor.add(Role::Receiving, Kid(200), suite, &[7; 16])?;
    ///
    /// // Two frames arrive, and the one between them is lost.
    /// for lost in [false, true, false] {
    ///     let frame = ward.seal_to_vec(Kid(200), Metadata::NONE, b"picture")?;
    ///     if !lost {
    ///         doctor.open_to_vec(&frame, Metadata::NONE)?;
    ///     }
    /// }
    /// assert_eq!(doctor.report(Kid(200)), Ok(2));
    /// # Ok::<(), sframe::Refusal>(())
    /// ```
    pub fn report(self, kid: Kid) -> Result<u64, Refusal> {
        let report = raw::report(self.0, kid.0);
        Refusal::check(report.number, report.count)
    }

    /// Refuses with [`Refusal::StoreNotSound`] unless the store is sound.
    pub fn check(self) -> Result<(), Refusal> {
        // A search judges the store before it looks for a key number, be it any.
        match self.find(Kid(0)) {
            Err(Refusal::StoreNotSound) => Err(Refusal::StoreNotSound),
            _ => Ok(()),
        }
    }

    /// The records in use, by rising place and key number, without their keys.
    ///
    /// Refuses with [`Refusal::StoreNotSound`].
    ///
    /// ```
    /// use sframe::{Kid, Role, Store, Suite, RECORD};
    ///
    /// let mut bytes = [0; 4 * RECORD];
    /// let mut store = Store::make(&mut bytes)?;
    /// store.add(Role::Sending, Kid(200), Suite::Aes128GcmSha256_128, &[7; 16])?;
    /// store.add(Role::Receiving, Kid(56), Suite::Aes128GcmSha256_128, &[7; 16])?;
    /// let kids = store.view().each_record()?.map(|record| record.kid);
    /// assert!(kids.eq([Kid(56), Kid(200)]));
    /// # Ok::<(), sframe::Refusal>(())
    /// ```
    pub fn each_record(self) -> Result<impl Iterator<Item = Record> + 'a, Refusal> {
        self.check()?;
        Ok(record::decode(self.0))
    }

    /// As [`each_record`](Self::each_record), in a vector.
    #[cfg(feature = "alloc")]
    pub fn records(self) -> Result<Vec<Record>, Refusal> {
        Ok(self.each_record()?.collect())
    }
}

/// Shows the length alone, since the bytes hold keys.
impl fmt::Debug for StoreView<'_> {
    fn fmt(&self, f: &mut fmt::Formatter) -> fmt::Result {
        write!(f, "StoreView of {} bytes", self.0.len())
    }
}
