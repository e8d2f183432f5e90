// SPDX-License-Identifier: MIT
//! Whole lines of calls.

use comparison::number::DONE;
use comparison::{compare_line, go_on, made, with_key, Key, LineCall};
use reference::header::read_header;
use sframe::{Role, STATE};
use testkit::{Generator, PATTERN};

/// The key number of most tests: in a signed byte it would be -56.
pub const KID: u64 = 200;

/// A state with something in it already.
pub const ANY_STATE: [u8; STATE] = [PATTERN; STATE];

pub fn sender(key: &Key) -> Vec<u8> {
    with_key(&made(1), Role::Sending, key)
}

pub fn receiver(key: &Key) -> Vec<u8> {
    with_key(&made(1), Role::Receiving, key)
}

/// Begins to seal: the store and the state that are left, and the header.
#[track_caller]
pub fn begin(
    store: &[u8],
    kid: u64,
    metadata: &[u8],
    length: usize,
) -> (Vec<u8>, Vec<u8>, Vec<u8>) {
    let call = LineCall::SealBegin {
        kid,
        metadata,
        plaintext_len: length as u64,
        room: 20,
    };
    let outcome = compare_line(store, &ANY_STATE, call);
    assert_eq!(outcome.number, DONE, "{call}");
    let header = outcome.result().to_vec();
    (outcome.store, outcome.state, header)
}

/// The frame of all pieces, and the store that is left.
#[track_caller]
pub fn seal(store: &[u8], kid: u64, metadata: &[u8], pieces: &[&[u8]]) -> (Vec<u8>, Vec<u8>) {
    let length = pieces.iter().map(|piece| piece.len()).sum();
    let (store, mut state, mut frame) = begin(store, kid, metadata, length);
    for piece in pieces {
        let room = piece.len();
        frame.extend(go_on(&mut state, LineCall::SealPiece { piece, room }));
    }
    frame.extend(go_on(&mut state, LineCall::SealEnd { room: 16 }));
    (frame, store)
}

/// The state of a check before its end: all pieces of the ciphertext are taken.
#[track_caller]
pub fn checked(store: &[u8], metadata: &[u8], frame: &[u8], nt: usize, size: usize) -> Vec<u8> {
    let (_, _, header) = read_header(frame).expect("a frame has a header");
    let ciphertext = &frame[header..frame.len() - nt];
    let call = LineCall::CheckBegin {
        header: frame,
        metadata,
        ciphertext_len: ciphertext.len() as u64,
    };
    let outcome = compare_line(store, &ANY_STATE, call);
    assert_eq!(outcome.number, DONE, "{call}");
    let mut state = outcome.state;
    for piece in ciphertext.chunks(size) {
        go_on(&mut state, LineCall::CheckPiece { piece });
    }
    state
}

/// What a check of the frame answers, its ciphertext in pieces of `size` bytes.
#[track_caller]
pub fn check(store: &[u8], metadata: &[u8], frame: &[u8], nt: usize, size: usize) -> u32 {
    let state = checked(store, metadata, frame, nt, size);
    let tag = &frame[frame.len() - nt..];
    compare_line(&[], &state, LineCall::CheckEnd { tag }).number
}

/// Cuts at random, some pieces empty and none longer than `most`.
pub fn cut<'a>(generator: &mut Generator, mut rest: &'a [u8], most: usize) -> Vec<&'a [u8]> {
    let mut pieces = vec![];
    while !rest.is_empty() {
        let (piece, behind) = rest.split_at(generator.up_to(rest.len().min(most)));
        pieces.push(piece);
        rest = behind;
    }
    pieces
}
