// SPDX-License-Identifier: MIT
//! Sealing a frame in pieces, and checking a received one in pieces.

use crate::{raw, wipe, Kid, Metadata, Refusal, Store, StoreView};
use core::error::Error;
use core::fmt;

/// The length of a running state.
pub const STATE: usize = 168;

/// The bytes of a running state, which hold the key. They are wiped when the line
/// ends or is given up; what a move of the value leaves behind is not.
struct Running([u8; STATE]);

impl Drop for Running {
    fn drop(&mut self) {
        wipe(&mut self.0);
    }
}

/// A frame that is sealed in pieces, for a sender that cannot hold it as a whole.
///
/// [`Store::seal_begin`] starts it and gives the header, [`piece`](Self::piece)
/// the ciphertext of each piece, and [`end`](Self::end) the tag. Joined in this
/// order they are the frame that [`Store::seal`] makes of the joined pieces,
/// however the plaintext is cut.
///
/// ```
/// use sframe::{Kid, Metadata, Refusal, Role, Store, Suite, RECORD};
///
/// # let (mut ward, mut doctor) = ([0; RECORD], [0; RECORD]);
/// # let mut ward = Store::make(&mut ward)?;
/// # let mut doctor = Store::make(&mut doctor)?;
/// # ward.add(Role::Sending, Kid(200), Suite::Aes128GcmSha256_128, &[7; 16])?;
/// # doctor.add(Role::Receiving, Kid(200), Suite::Aes128GcmSha256_128, &[7; 16])?;
/// let picture = [0x5a; 10_000];
/// let (mut frame, mut room) = (vec![], [0; 1_200]); // `frame` stands for the line
/// let (mut sealing, header) = ward.seal_begin(Kid(200), Metadata::NONE, 10_000, &mut room)?;
/// frame.extend(&room[..header]);
/// for piece in picture.chunks(room.len()) {
///     let length = sealing.piece(piece, &mut room)?;
///     frame.extend(&room[..length]);
/// }
/// let tag = sealing.end(&mut room)?;
/// frame.extend(&room[..tag]);
///
/// assert_eq!(doctor.open_to_vec(&frame, Metadata::NONE)?, picture);
/// # Ok::<(), Refusal>(())
/// ```
///
/// The store is free meanwhile: it may begin other frames, and the key may be
/// removed. A frame that is never ended has used its counter.
///
/// After its end there is nothing to go on with:
///
/// ```compile_fail,E0382
/// # fn f(mut sealing: sframe::Sealing) -> Result<(), sframe::Refusal> {
/// sealing.end(&mut [0; 16])?;
/// sealing.piece(b"one more", &mut [0; 8])?;
/// # Ok(())
/// # }
/// ```
///
/// Nor is it copied, since two pieces from one state would share their key stream:
///
/// ```compile_fail,E0599
/// # fn f(sealing: sframe::Sealing) {
/// let copy = sealing.clone();
/// # }
/// ```
pub struct Sealing(Running);

/// A received frame that is checked in pieces, for one that cannot hold it as a
/// whole. [`StoreView::check_begin`] starts it.
///
/// A check tells whether the frame is genuine. It shows nothing of the plaintext,
/// does not ask whether the frame was opened before, and changes no store.
///
/// ```
/// use sframe::{read_header, Kid, Metadata, Refusal, Role, Store, Suite, RECORD};
///
/// # let suite = Suite::Aes128GcmSha256_128;
/// # let (mut ward, mut doctor) = ([0; RECORD], [0; RECORD]);
/// # let mut ward = Store::make(&mut ward)?;
/// # let mut doctor = Store::make(&mut doctor)?;
/// # ward.add(Role::Sending, Kid(200), suite, &[7; 16])?;
/// # doctor.add(Role::Receiving, Kid(200), suite, &[7; 16])?;
/// let frame = ward.seal_to_vec(Kid(200), Metadata::NONE, &[0x5a; 10_000])?;
/// let (rest, tag) = frame.split_at(frame.len() - suite.nt());
/// let (header, ciphertext) = rest.split_at(read_header(rest)?.length);
///
/// let mut checking = doctor.check_begin(header, Metadata::NONE, 10_000)?;
/// for piece in ciphertext.chunks(1_200) {
///     checking.piece(piece)?;
/// }
/// let wrong = checking.end(&[0; 16]).unwrap_err();
/// assert_eq!(wrong.refusal, Refusal::TagDiffers);
/// let checking = wrong.line; // as it was
/// checking.end(tag)?;
/// # Ok::<(), Refusal>(())
/// ```
pub struct Checking(Running);

/// An end that is refused, and the line as it was before: it can go on.
pub struct NotEnded<Line> {
    /// Why it is refused.
    pub refusal: Refusal,
    /// What was to end.
    pub line: Line,
}

impl Store<'_> {
    /// Begins a frame of `plaintext` bytes: writes its header to the front of
    /// `room` and answers the header's length. The key's next counter is taken
    /// here. [`MAX_HEADER`](crate::MAX_HEADER) bytes are always enough.
    ///
    /// Refusals, the first that holds: [`StoreNotSound`](Refusal::StoreNotSound),
    /// [`KidUnknown`](Refusal::KidUnknown), [`WrongRole`](Refusal::WrongRole),
    /// [`CounterSpent`](Refusal::CounterSpent), [`TooLong`](Refusal::TooLong),
    /// [`RoomShort`](Refusal::RoomShort). A refusal uses no counter.
    pub fn seal_begin(
        &mut self,
        kid: Kid,
        metadata: Metadata,
        plaintext: u64,
        room: &mut [u8],
    ) -> Result<(Sealing, usize), Refusal> {
        let mut state = Running([0; STATE]);
        let bytes = self.bytes();
        let written = raw::seal_begin(bytes, kid.0, metadata.0, plaintext, &mut state.0, room);
        Refusal::check(written.number, (Sealing(state), written.length))
    }

    /// As [`StoreView::check_begin`].
    pub fn check_begin(
        &self,
        header: &[u8],
        metadata: Metadata,
        ciphertext: u64,
    ) -> Result<Checking, Refusal> {
        self.view().check_begin(header, metadata, ciphertext)
    }
}

impl StoreView<'_> {
    /// Begins to check a frame of `ciphertext` bytes between header and tag, whose
    /// header `header` starts with; what follows it there is passed over.
    ///
    /// Refusals, the first that holds: [`StoreNotSound`](Refusal::StoreNotSound),
    /// [`BadHeader`](Refusal::BadHeader), [`KidUnknown`](Refusal::KidUnknown),
    /// [`WrongRole`](Refusal::WrongRole), [`TooLong`](Refusal::TooLong).
    pub fn check_begin(
        self,
        header: &[u8],
        metadata: Metadata,
        ciphertext: u64,
    ) -> Result<Checking, Refusal> {
        let mut state = Running([0; STATE]);
        let number = raw::check_begin(self.bytes(), header, metadata.0, ciphertext, &mut state.0);
        Refusal::check(number, Checking(state))
    }
}

impl Sealing {
    /// Seals the next piece of the plaintext, of any length: its ciphertext, just
    /// as long, goes to the front of `room`. The bytes behind stay as they are.
    ///
    /// Refusals, the first that holds: [`BadState`](Refusal::BadState) where the
    /// piece goes past the announced length, [`RoomShort`](Refusal::RoomShort).
    /// The line can go on with another piece then.
    pub fn piece(&mut self, piece: &[u8], room: &mut [u8]) -> Result<usize, Refusal> {
        let written = raw::seal_piece(&mut self.0 .0, piece, room);
        Refusal::check(written.number, written.length)
    }

    /// Ends the frame: writes its tag to the front of `room` and answers the tag's
    /// length, [`Suite::nt`](crate::Suite::nt).
    ///
    /// Refusals, the first that holds: [`BadState`](Refusal::BadState) where pieces
    /// are missing, [`RoomShort`](Refusal::RoomShort). Both give the line back.
    ///
    /// ```
    /// # fn f(sealing: sframe::Sealing) -> Result<(), sframe::Refusal> {
    /// // Short of room, the line is not lost.
    /// let length = match sealing.end(&mut [0; 8]) {
    ///     Ok(length) => length,
    ///     Err(refused) => refused.line.end(&mut [0; 16])?,
    /// };
    /// # Ok(())
    /// # }
    /// ```
    #[allow(clippy::result_large_err)] // the line itself comes back
    pub fn end(self, room: &mut [u8]) -> Result<usize, NotEnded<Sealing>> {
        let written = raw::seal_end(&self.0 .0, room);
        Refusal::check(written.number, written.length).map_err(|refusal| NotEnded {
            refusal,
            line: self,
        })
    }
}

impl Checking {
    /// Takes the next piece of the ciphertext, of any length.
    ///
    /// Refuses with [`BadState`](Refusal::BadState) where the piece goes past the
    /// announced length; the line can go on with another piece then.
    pub fn piece(&mut self, piece: &[u8]) -> Result<(), Refusal> {
        Refusal::check(raw::check_piece(&mut self.0 .0, piece), ())
    }

    /// Ends the check. It is passed where header, ciphertext and `tag` are a frame
    /// under the key and the metadata of the beginning.
    ///
    /// Refusals, the first that holds: [`BadState`](Refusal::BadState) where pieces
    /// are missing, [`FrameShort`](Refusal::FrameShort) where the tag is not just as
    /// long as the suite's, [`TagDiffers`](Refusal::TagDiffers). All of them give the
    /// line back.
    #[allow(clippy::result_large_err)] // as above
    pub fn end(self, tag: &[u8]) -> Result<(), NotEnded<Checking>> {
        Refusal::check(raw::check_end(&self.0 .0, tag), ()).map_err(|refusal| NotEnded {
            refusal,
            line: self,
        })
    }
}

/// The state is not shown: it holds the key.
impl fmt::Debug for Sealing {
    fn fmt(&self, f: &mut fmt::Formatter) -> fmt::Result {
        f.write_str("Sealing")
    }
}

/// The state is not shown: it holds the key.
impl fmt::Debug for Checking {
    fn fmt(&self, f: &mut fmt::Formatter) -> fmt::Result {
        f.write_str("Checking")
    }
}

impl<Line> fmt::Debug for NotEnded<Line> {
    fn fmt(&self, f: &mut fmt::Formatter) -> fmt::Result {
        write!(f, "NotEnded: {:?}", self.refusal)
    }
}

impl<Line> fmt::Display for NotEnded<Line> {
    fn fmt(&self, f: &mut fmt::Formatter) -> fmt::Result {
        self.refusal.fmt(f)
    }
}

impl<Line> Error for NotEnded<Line> {}

/// The line is given up.
impl<Line> From<NotEnded<Line>> for Refusal {
    fn from(refused: NotEnded<Line>) -> Self {
        refused.refusal
    }
}
