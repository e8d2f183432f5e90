// SPDX-License-Identifier: MIT
//! The SFrame header, RFC 9605 section 4.3.
//!
//! ```text
//!  0 1 2 3 4 5 6 7
//! +-+-+-+-+-+-+-+-+------------+------------+
//! |X|  K  |Y|  C  |   KID...   |   CTR...   |
//! +-+-+-+-+-+-+-+-+------------+------------+
//! ```

use crate::refusal::{Answer, Refusal};

/// The longest header: the config byte and two numbers of eight bytes.
pub const MAX_LENGTH: usize = 17;

/// Set in a half of the config byte (X or Y) whose number follows in bytes.
const EXTENDED: u8 = 0b1000;

/// The header of `kid` and `ctr`.
pub fn write_header(kid: u64, ctr: u64) -> Vec<u8> {
    let mut header = vec![0];
    let x_k = write_number(kid, &mut header);
    let y_c = write_number(ctr, &mut header);
    header[0] = x_k << 4 | y_c;
    header
}

/// Writes the header of `kid` and `ctr` at `offset` in `room`. Refusals: 12.
pub fn write_header_at(kid: u64, ctr: u64, room: &mut [u8], offset: usize) -> Answer {
    let header = write_header(kid, ctr);
    part(room, offset, header.len())?.copy_from_slice(&header);
    Ok(header.len())
}

/// The `length` bytes of `room` from `offset` on. The room is short where it has
/// fewer, and where the offset lies beyond its end.
pub(crate) fn part(room: &mut [u8], offset: usize, length: usize) -> Result<&mut [u8], Refusal> {
    room.get_mut(offset..)
        .and_then(|rest| rest.get_mut(..length))
        .ok_or(Refusal::RoomShort)
}

/// The KID, the CTR and the length of the header that `bytes` begin with.
///
/// `None` where the header is cut short. A number may stand in more bytes than
/// it needs: the fewest bind the writer alone.
pub fn read_header(bytes: &[u8]) -> Option<(u64, u64, usize)> {
    let (&config, rest) = bytes.split_first()?;
    let (kid, rest) = read_number(config >> 4, rest)?;
    let (ctr, rest) = read_number(config & 0x0f, rest)?;
    Some((kid, ctr, bytes.len() - rest.len()))
}

/// Appends the bytes of `number`, if it takes any, and answers its half of the
/// config byte.
fn write_number(number: u64, header: &mut Vec<u8>) -> u8 {
    if number < 8 {
        return number as u8;
    }
    let unused = number.leading_zeros() as usize / 8;
    let bytes = &number.to_be_bytes()[unused..];
    header.extend_from_slice(bytes);
    EXTENDED | (bytes.len() - 1) as u8
}

/// The number that `half` of the config byte announces, and what follows it.
fn read_number(half: u8, bytes: &[u8]) -> Option<(u64, &[u8])> {
    if half & EXTENDED == 0 {
        return Some((half.into(), bytes));
    }
    let length = usize::from(half & 0b111) + 1;
    let (digits, rest) = bytes.split_at_checked(length)?;
    let number = digits.iter().fold(0, |n, &byte| n << 8 | u64::from(byte));
    Some((number, rest))
}
