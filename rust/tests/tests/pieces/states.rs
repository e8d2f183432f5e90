// SPDX-License-Identifier: MIT
//! Running states of every kind: every byte string of every length gets an
//! answer.

use super::line::{begin, receiver, sender, ANY_STATE, KID};
use comparison::number::{BAD_STATE, DONE};
use comparison::{compare_line, go_on, Key, LineCall};
use reference::suites::{Suite, SUITES};
use sframe::STATE;
use testkit::Generator;

/// A line of each kind with 90 bytes announced and so many taken.
fn states(suite: Suite, taken: usize) -> [Vec<u8>; 2] {
    let key = Key::any(suite, KID);
    let piece = &[0x3c; 90][..taken];
    let (_, mut sealing, header) = begin(&sender(&key), KID, b"metadata", 90);
    go_on(&mut sealing, LineCall::SealPiece { piece, room: taken });
    let call = LineCall::CheckBegin {
        header: &header,
        metadata: b"metadata",
        ciphertext_len: 90,
    };
    let mut checking = compare_line(&receiver(&key), &ANY_STATE, call).state;
    go_on(&mut checking, LineCall::CheckPiece { piece });
    [sealing, checking]
}

/// The four calls that go on from a state, and what they answer.
#[track_caller]
fn answers(state: &[u8], piece: &[u8], tag: &[u8]) -> [u32; 4] {
    let room = piece.len();
    [
        LineCall::SealPiece { piece, room },
        LineCall::SealEnd { room: 16 },
        LineCall::CheckPiece { piece },
        LineCall::CheckEnd { tag },
    ]
    .map(|call| compare_line(&[], state, call).number)
}

#[test]
fn of_every_length() {
    for suite in SUITES {
        for taken in [0, 50, 90] {
            for state in states(suite, taken) {
                let long = [&state[..], &[0xff; 200]].concat();
                for length in 0..long.len() {
                    let answers = answers(&long[..length], b"", &[0; 16]);
                    let refused = answers.iter().all(|&number| number == BAD_STATE);
                    assert_eq!(refused, length < STATE);
                }
            }
        }
    }
}

/// One byte changed: in the counts, kind and suite to each of its values, in the
/// others by each bit.
#[test]
fn with_one_byte_changed() {
    for suite in SUITES {
        for taken in [0, 50, 90] {
            for state in states(suite, taken) {
                for at in 0..STATE {
                    let counts = at < 8 || (68..72).contains(&at);
                    let changes: Vec<u8> = match counts {
                        true => (1..=255).collect(),
                        false => (0..8).map(|bit| 1 << bit).collect(),
                    };
                    for change in changes {
                        let mut state = state.clone();
                        state[at] ^= change;
                        answers(&state, &[0x3c; 5], &vec![0; suite.nt()]);
                    }
                }
            }
        }
    }
}

/// The counts, each at its edges, with all others.
#[test]
fn with_any_counts() {
    let aads = [0, 1, 2, 27, 28, 29, 1_041, 1_042, 0x7fff, 0x8000, 0xffff];
    let counts = [
        0,
        1,
        15,
        16,
        64,
        32_767,
        32_768,
        32_769,
        0x1_0000,
        0x0100_0000,
        u32::MAX,
    ];
    let mut possible = 0;
    for suite in SUITES {
        for state in states(suite, 50) {
            for aad in aads {
                for announced in counts {
                    for taken in counts {
                        let mut state = state.clone();
                        state[2..4].copy_from_slice(&u16::to_be_bytes(aad));
                        state[4..8].copy_from_slice(&u32::to_be_bytes(announced));
                        state[68..72].copy_from_slice(&u32::to_be_bytes(taken));
                        let fits =
                            (1..=1_041).contains(&aad) && announced <= 32_768 && taken <= announced;
                        let answers = answers(&state, b"", &vec![0; suite.nt()]);
                        assert_eq!(answers.contains(&DONE), fits);
                        possible += u32::from(fits);
                    }
                }
            }
        }
    }
    assert!(possible > 1_000);
}

/// Random bytes with counts that can be: nothing else is asked of a state.
#[test]
fn of_random_bytes() {
    let mut generator = Generator::new(0x7069_6563_6573_0005);
    for _ in 0..20_000 {
        let size = STATE + generator.up_to(3);
        let mut state = generator.bytes(size);
        assert_eq!(
            answers(&state, b"", &[0; 10]).contains(&DONE),
            possible(&state)
        );
        let kind = 1 + generator.up_to(1);
        let suite = *generator.pick(&SUITES);
        let most = *generator.pick(&[0, 40, 700, 32_768]);
        let announced = generator.up_to(most);
        let taken = if generator.one_in(4) {
            announced
        } else {
            generator.up_to(announced)
        };
        state[0] = kind as u8;
        state[1] = suite.number() as u8;
        state[2..4].copy_from_slice(&(1 + generator.up_to(1_040) as u16).to_be_bytes());
        state[4..8].copy_from_slice(&(announced as u32).to_be_bytes());
        state[68..72].copy_from_slice(&(taken as u32).to_be_bytes());
        assert!(possible(&state));
        let left = announced - taken;
        let most = if generator.one_in(3) {
            left + 2
        } else {
            left.min(200)
        };
        let length = generator.up_to(most);
        let piece = generator.bytes(length);
        let numbers = answers(&state, &piece, &vec![0; suite.nt()]);
        assert_eq!(
            numbers.contains(&DONE),
            length <= left || (kind == 1 && left == 0)
        );
    }
}

/// What makes a state possible: length, kind, suite and counts.
fn possible(state: &[u8]) -> bool {
    let number = |at: usize, length: usize| {
        let digits = state[at..at + length].iter();
        digits.fold(0, |n, &byte| n << 8 | usize::from(byte))
    };
    let (announced, taken) = (number(4, 4), number(68, 4));
    matches!(state[0], 1 | 2)
        && matches!(state[1], 1..=5)
        && (1..=1_041).contains(&number(2, 2))
        && announced <= 32_768
        && taken <= announced
}

/// A line in two pieces or in one: from any state that can be, the same state.
#[test]
fn pieces_join_from_any_state() {
    let mut generator = Generator::new(0x7069_6563_6573_0006);
    for _ in 0..3_000 {
        let mut state = generator.bytes(STATE);
        let kind = 1 + generator.up_to(1);
        let suite = *generator.pick(&SUITES);
        state[0] = kind as u8;
        state[1] = suite.number() as u8;
        state[2..4].copy_from_slice(&(1 + generator.up_to(1_040) as u16).to_be_bytes());
        state[4..8].copy_from_slice(&32_768_u32.to_be_bytes());
        let taken = generator.up_to(32_000) as u32;
        state[68..72].copy_from_slice(&taken.to_be_bytes());
        let length = generator.up_to(300);
        let bytes = generator.bytes(length);
        let (one, other) = bytes.split_at(generator.up_to(length));
        let call = |piece| match kind {
            1 => LineCall::SealPiece { piece, room: 300 },
            _ => LineCall::CheckPiece { piece },
        };
        let (mut whole, mut cut) = (state.clone(), state);
        let joined = go_on(&mut whole, call(&bytes));
        let parts = [one, other].map(|piece| go_on(&mut cut, call(piece)));
        assert!(parts.concat() == joined && cut == whole);
    }
}
