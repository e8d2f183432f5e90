// SPDX-License-Identifier: MIT
//! The header: a key number and a counter in 1 to 17 bytes.

use crate::{raw, Refusal};
use core::fmt;

/// The longest header.
pub const MAX_HEADER: usize = 17;

/// A key number: which key a frame is sealed under.
///
/// Key numbers and counters are kinds of their own, and neither passes for the
/// other:
///
/// ```compile_fail,E0308
/// use sframe::{write_header, Ctr, Kid};
///
/// write_header(Ctr(0), Kid(200), &mut [0; 17]);
/// ```
///
/// Both are printed as plain numbers:
///
/// ```
/// assert_eq!(format!("{:>4}", sframe::Kid(200)), " 200");
/// ```
#[derive(Clone, Copy, Debug, PartialEq, Eq, Hash, PartialOrd, Ord)]
pub struct Kid(pub u64);

impl fmt::Display for Kid {
    fn fmt(&self, f: &mut fmt::Formatter) -> fmt::Result {
        self.0.fmt(f)
    }
}

/// A counter: which of the frames under its key number a frame is.
#[derive(Clone, Copy, Debug, PartialEq, Eq, Hash, PartialOrd, Ord)]
pub struct Ctr(pub u64);

impl fmt::Display for Ctr {
    fn fmt(&self, f: &mut fmt::Formatter) -> fmt::Result {
        self.0.fmt(f)
    }
}

/// A header that was read.
#[derive(Clone, Copy, Debug, PartialEq, Eq, Hash)]
#[non_exhaustive]
pub struct Header {
    /// Its key number.
    pub kid: Kid,
    /// Its counter.
    pub ctr: Ctr,
    /// How many bytes it takes.
    pub length: usize,
}

/// Writes the header of `kid` and `ctr`, in its shortest form, at the front of
/// `out` and answers its length. The bytes behind it stay as they are.
///
/// Refuses with [`Refusal::RoomShort`] where `out` is shorter than the header;
/// [`MAX_HEADER`] bytes are always enough.
///
/// ```
/// use sframe::{write_header, Ctr, Kid, Refusal};
///
/// let mut out = [0xee; 4];
/// assert_eq!(write_header(Kid(1), Ctr(0x100), &mut out), Ok(3));
/// assert_eq!(out, [0x19, 0x01, 0x00, 0xee]);
///
/// let short = write_header(Kid(1), Ctr(0x100), &mut out[..2]);
/// assert_eq!(short, Err(Refusal::RoomShort));
/// ```
pub fn write_header(kid: Kid, ctr: Ctr, out: &mut [u8]) -> Result<usize, Refusal> {
    let written = raw::write_header(kid.0, ctr.0, out);
    Refusal::check(written.number, written.length)
}

/// Writes the header at `offset` in `out`, as [`write_header`] does at the front,
/// and answers the header's length. The bytes before it stay as they are too.
///
/// Refuses with [`Refusal::RoomShort`] where `out` is shorter than the offset and
/// the header together.
///
/// ```
/// use sframe::{write_header_at, Ctr, Kid, Refusal};
///
/// let mut out = [0xee; 6];
/// assert_eq!(write_header_at(Kid(1), Ctr(0x100), &mut out, 2), Ok(3));
/// assert_eq!(out, [0xee, 0xee, 0x19, 0x01, 0x00, 0xee]);
///
/// let past = write_header_at(Kid(1), Ctr(0), &mut out, usize::MAX);
/// assert_eq!(past, Err(Refusal::RoomShort));
/// ```
pub fn write_header_at(
    kid: Kid,
    ctr: Ctr,
    out: &mut [u8],
    offset: usize,
) -> Result<usize, Refusal> {
    let written = raw::write_header_at(kid.0, ctr.0, out, offset);
    Refusal::check(written.number, written.length)
}

/// Reads the header that `bytes` begin with, whatever follows it.
///
/// A number may stand in more bytes than it needs; [`write_header`] takes the
/// fewest. Refuses with [`Refusal::BadHeader`] where the header is cut short.
///
/// ```
/// use sframe::{read_header, Ctr, Kid, Refusal};
///
/// let header = read_header(&[0x80, 200, 0xee])?;
/// assert_eq!((header.kid, header.ctr, header.length), (Kid(200), Ctr(0), 2));
///
/// let longer = read_header(&[0x90, 0, 200])?;
/// assert_eq!((longer.kid, longer.ctr, longer.length), (Kid(200), Ctr(0), 3));
///
/// assert_eq!(read_header(&[0x80]), Err(Refusal::BadHeader));
/// assert_eq!(read_header(&[0x90, 0]), Err(Refusal::BadHeader));
/// # Ok::<(), sframe::Refusal>(())
/// ```
pub fn read_header(bytes: &[u8]) -> Result<Header, Refusal> {
    let read = raw::read_header(bytes);
    let header = Header {
        kid: Kid(read.kid),
        ctr: Ctr(read.ctr),
        length: read.length,
    };
    Refusal::check(read.number, header)
}
