// SPDX-License-Identifier: MIT
//! The frame reader: what a frame says without a key.

use crate::{read_header, Ctr, Header, Kid, Refusal};

/// A frame whose header was read. It needs no key, so a server on the way can
/// tell by it who has sealed a frame, and in which order.
///
/// Nothing of it is authenticated: a forger may write any key number and
/// counter. What counts is what [`Store::open`](crate::Store::open) answers.
///
/// ```
/// use sframe::{Ctr, FrameReader, Kid, Refusal};
///
/// let frame = [0x80, 200, 0xee, 0xee];
/// let reader = FrameReader::new(&frame)?;
/// assert_eq!((reader.kid(), reader.ctr()), (Kid(200), Ctr(0)));
/// assert_eq!(reader.header(), [0x80, 200]);
/// assert_eq!(reader.rest(), [0xee, 0xee]);
///
/// assert_eq!(FrameReader::new(&frame[..1]).err(), Some(Refusal::BadHeader));
/// # Ok::<(), Refusal>(())
/// ```
#[derive(Clone, Copy, Debug, PartialEq, Eq, Hash)]
pub struct FrameReader<'a> {
    said: Header,
    header: &'a [u8],
    rest: &'a [u8],
}

impl<'a> FrameReader<'a> {
    /// Reads the header of `frame`, be it in a longer form than it needs.
    ///
    /// Refuses with [`Refusal::BadHeader`] where the header is cut short.
    pub fn new(frame: &'a [u8]) -> Result<Self, Refusal> {
        let said = read_header(frame)?;
        let (header, rest) = frame.split_at(said.length);
        Ok(FrameReader { said, header, rest })
    }

    /// The key number.
    pub fn kid(self) -> Kid {
        self.said.kid
    }

    /// The counter.
    pub fn ctr(self) -> Ctr {
        self.said.ctr
    }

    /// The header's bytes.
    pub fn header(self) -> &'a [u8] {
        self.header
    }

    /// The bytes behind the header: ciphertext and tag.
    pub fn rest(self) -> &'a [u8] {
        self.rest
    }
}
