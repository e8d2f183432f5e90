// SPDX-License-Identifier: MIT
//! The header calls on both sides.

use crate::layer;
use crate::number::{BAD_HEADER, DONE};
use reference::header;
use reference::refusal::number_and_length;
use sframe::raw::{Read, Written};
use testkit::PATTERN;

/// Writes a header into a room of `room` bytes on both sides, by both calls.
#[track_caller]
pub fn compare_write_header(kid: u64, ctr: u64, room: usize) -> Written {
    let written = compare_write_header_at(kid, ctr, 0, room);
    let mut out = vec![PATTERN; room];
    assert_eq!(layer::write_header(kid, ctr, &mut out), written);
    let mut out_at = vec![PATTERN; room];
    layer::write_header_at(kid, ctr, &mut out_at, 0);
    assert_eq!(out, out_at);
    written
}

/// The same at an offset in the room.
#[track_caller]
pub fn compare_write_header_at(kid: u64, ctr: u64, offset: usize, room: usize) -> Written {
    let mut expected_room = vec![PATTERN; room];
    let answer = header::write_header_at(kid, ctr, &mut expected_room, offset);
    let (number, length) = number_and_length(answer);

    let mut out = vec![PATTERN; room];
    let written = layer::write_header_at(kid, ctr, &mut out, offset);
    let case = || format!("KID {kid:#x}, CTR {ctr:#x}, at {offset} of {room}");
    assert_eq!(written, Written { number, length }, "{}", case());
    assert_eq!(out, expected_room, "{}", case());
    written
}

/// Reads the header that `bytes` begin with on both sides.
#[track_caller]
pub fn compare_read_header(bytes: &[u8]) -> Read {
    let expected = match header::read_header(bytes) {
        Some((kid, ctr, length)) => Read {
            number: DONE,
            kid,
            ctr,
            length,
        },
        None => Read {
            number: BAD_HEADER,
            kid: 0,
            ctr: 0,
            length: 0,
        },
    };
    let read = layer::read_header(bytes);
    assert_eq!(read, expected, "{bytes:02x?}");
    read
}

/// Every header of `kid` and `ctr`, the shortest first: each number in its
/// three bits, if it fits them, and in each count of bytes that holds it.
pub fn forms(kid: u64, ctr: u64) -> Vec<Vec<u8>> {
    let mut headers = vec![];
    for (k, kid) in fields(kid) {
        for (c, ctr) in fields(ctr) {
            headers.push([&[k << 4 | c], &kid[..], &ctr].concat());
        }
    }
    headers
}

/// The forms of a number: its half of the first byte, and the bytes behind.
fn fields(number: u64) -> Vec<(u8, Vec<u8>)> {
    let mut fields = vec![];
    if number < 8 {
        fields.push((number as u8, vec![]));
    }
    for count in 1..=8 {
        let all = number.to_be_bytes();
        let (unused, bytes) = all.split_at(8 - count);
        if unused.iter().all(|&byte| byte == 0) {
            fields.push((0b1000 | (count - 1) as u8, bytes.to_vec()));
        }
    }
    fields
}
