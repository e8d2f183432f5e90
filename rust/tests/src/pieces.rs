// SPDX-License-Identifier: MIT
//! One call of a line, sealing or checking in pieces, made on both sides.

use crate::layer;
use crate::lent::Lent;
use crate::number::DONE;
use reference::refusal::number_and_length;
use reference::{pieces, store};
use sframe::raw::Written;
use sframe::STATE;
use std::fmt;
use testkit::PATTERN;

/// A call with all that it is given but store and running state; a room by its
/// length.
#[derive(Clone, Copy)]
#[allow(missing_docs)]
pub enum LineCall<'a> {
    SealBegin {
        kid: u64,
        metadata: &'a [u8],
        plaintext_len: u64,
        room: usize,
    },
    SealPiece {
        piece: &'a [u8],
        room: usize,
    },
    SealEnd {
        room: usize,
    },
    CheckBegin {
        header: &'a [u8],
        metadata: &'a [u8],
        ciphertext_len: u64,
    },
    CheckPiece {
        piece: &'a [u8],
    },
    CheckEnd {
        tag: &'a [u8],
    },
}

/// What a call answered and left.
#[derive(PartialEq, Eq)]
pub struct LineOutcome {
    /// 0, or the refusal's number.
    pub number: u32,
    /// The length of the result.
    pub length: usize,
    /// The store afterwards.
    pub store: Vec<u8>,
    /// The running state afterwards.
    pub state: Vec<u8>,
    /// The room afterwards.
    pub room: Vec<u8>,
}

impl LineOutcome {
    /// The result at the front of the room; nothing where the call is refused.
    pub fn result(&self) -> &[u8] {
        &self.room[..self.length]
    }
}

/// Makes `call` on copies of `store` and `state` on both sides, and checks that
/// number, length, store, state and room are the same, that a refusal left
/// everything as it was, that only the beginning of a sealing changed the store and
/// no end the state, and that nothing behind a result or a state was written. The
/// calls that take no store leave `store` alone.
#[track_caller]
pub fn compare_line(store: &[u8], state: &[u8], call: LineCall) -> LineOutcome {
    let ours = on_layer(store, state, call);
    let theirs = on_reference(store, state, call);
    assert_eq!(
        (ours.number, ours.length),
        (theirs.number, theirs.length),
        "{call}: number and length"
    );
    assert!(ours.store == theirs.store, "{call}: store");
    assert!(ours.state == theirs.state, "{call}: running state");
    assert!(ours.room == theirs.room, "{call}: room");

    let behind = &ours.room[ours.length..];
    let untouched = behind.iter().all(|&byte| byte == PATTERN);
    assert!(untouched, "{call}: wrote behind its result");
    let size = STATE.min(state.len());
    assert!(
        ours.state[size..] == state[size..],
        "{call}: wrote behind the running state"
    );
    let is_end = matches!(call, LineCall::SealEnd { .. } | LineCall::CheckEnd { .. });
    if ours.number != DONE || is_end {
        assert!(ours.state == state, "{call}: changed the running state");
    }
    if ours.number != DONE || !matches!(call, LineCall::SealBegin { .. }) {
        assert!(ours.store == store, "{call}: changed the store");
    }
    ours
}

/// Makes a call that takes no store on both sides, keeps the state that it leaves,
/// and answers its result. It must be done.
#[track_caller]
pub fn go_on(state: &mut Vec<u8>, call: LineCall) -> Vec<u8> {
    let outcome = compare_line(&[], state, call);
    assert_eq!(outcome.number, DONE, "{call}");
    let result = outcome.result().to_vec();
    *state = outcome.state;
    result
}

#[track_caller]
fn on_layer(store: &[u8], state: &[u8], call: LineCall) -> LineOutcome {
    let (mut store, mut state) = (Lent::copy(store), Lent::copy(state));
    let mut room = Lent::room(call.room());
    let done = |number| Written { number, length: 0 };
    let (bytes, line, out) = (store.lend(), state.lend(), room.lend());
    let Written { number, length } = match call {
        LineCall::SealBegin {
            kid,
            metadata,
            plaintext_len,
            ..
        } => layer::seal_begin(bytes, kid, metadata, plaintext_len, line, out),
        LineCall::SealPiece { piece, .. } => layer::seal_piece(line, piece, out),
        LineCall::SealEnd { .. } => layer::seal_end(line, out),
        LineCall::CheckBegin {
            header,
            metadata,
            ciphertext_len,
        } => done(layer::check_begin(
            bytes,
            header,
            metadata,
            ciphertext_len,
            line,
        )),
        LineCall::CheckPiece { piece } => done(layer::check_piece(line, piece)),
        LineCall::CheckEnd { tag } => done(layer::check_end(line, tag)),
    };
    LineOutcome {
        number,
        length,
        store: store.take_back(),
        state: state.take_back(),
        room: room.take_back(),
    }
}

fn on_reference(store: &[u8], state: &[u8], call: LineCall) -> LineOutcome {
    let (mut store, mut state) = (store.to_vec(), state.to_vec());
    let mut room = vec![PATTERN; call.room()];
    let answer = match call {
        LineCall::SealBegin {
            kid,
            metadata,
            plaintext_len,
            ..
        } => store::seal_begin(
            &mut store,
            kid,
            metadata,
            plaintext_len,
            &mut state,
            &mut room,
        ),
        LineCall::SealPiece { piece, .. } => pieces::seal_piece(&mut state, piece, &mut room),
        LineCall::SealEnd { .. } => pieces::seal_end(&state, &mut room),
        LineCall::CheckBegin {
            header,
            metadata,
            ciphertext_len,
        } => store::check_begin(&store, header, metadata, ciphertext_len, &mut state),
        LineCall::CheckPiece { piece } => pieces::check_piece(&mut state, piece),
        LineCall::CheckEnd { tag } => pieces::check_end(&state, tag),
    };
    let (number, length) = number_and_length(answer);
    LineOutcome {
        number,
        length,
        store,
        state,
        room,
    }
}

impl LineCall<'_> {
    /// The length of the room, 0 where the call has none.
    fn room(&self) -> usize {
        match *self {
            LineCall::SealBegin { room, .. }
            | LineCall::SealPiece { room, .. }
            | LineCall::SealEnd { room } => room,
            _ => 0,
        }
    }
}

/// Short enough for a failure's message.
impl fmt::Display for LineCall<'_> {
    fn fmt(&self, f: &mut fmt::Formatter) -> fmt::Result {
        match *self {
            LineCall::SealBegin {
                kid,
                metadata,
                plaintext_len,
                room,
            } => write!(
                f,
                "Seal begin, KID {kid:#x}, metadata of {} bytes, {plaintext_len} announced, room of {room}",
                metadata.len()
            ),
            LineCall::SealPiece { piece, room } => {
                write!(f, "Seal piece of {} bytes, room of {room}", piece.len())
            }
            LineCall::SealEnd { room } => write!(f, "Seal end, room of {room}"),
            LineCall::CheckBegin {
                header,
                metadata,
                ciphertext_len,
            } => write!(
                f,
                "Check begin, header in {} bytes that start {:02x?}, metadata of {}, {ciphertext_len} announced",
                header.len(),
                &header[..header.len().min(17)],
                metadata.len()
            ),
            LineCall::CheckPiece { piece } => write!(f, "Check piece of {} bytes", piece.len()),
            LineCall::CheckEnd { tag } => write!(f, "Check end, tag of {} bytes", tag.len()),
        }
    }
}
