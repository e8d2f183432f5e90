// SPDX-License-Identifier: MIT
//! Sealing and checking in pieces: the whole frame however it is cut, every
//! refusal, and running states that cannot be.

use reference::header::read_header;
use reference::pieces::{check_end, check_piece, seal_end, seal_piece, STATE};
use reference::record::{Record, State, RECORD};
use reference::refusal::{Answer, Refusal, Refusal::*};
use reference::store::*;
use reference::suites::{Suite, SUITES};
use testkit::{sframe_vectors, Generator};

const KID: u64 = 200;
const BASE_KEY: [u8; 16] = [7; 16];
const PATTERN: u8 = 0x5a;

/// A store of one key, be it one that is not added any more.
fn store(state: State, suite: Suite) -> Vec<u8> {
    let mut store = vec![0; RECORD];
    put(&mut store, Record::new(state, suite, KID, &BASE_KEY));
    store
}

/// A call's result in a room that is just long enough, which stays beyond it.
fn written(most: usize, call: impl FnOnce(&mut [u8]) -> Answer) -> Vec<u8> {
    let mut room = vec![PATTERN; most];
    let length = call(&mut room).unwrap();
    assert!(room[length..].iter().all(|&byte| byte == PATTERN));
    room.truncate(length);
    room
}

/// The frame of `pieces`, sealed one by one.
fn seal_pieces(store: &mut [u8], kid: u64, metadata: &[u8], pieces: &[&[u8]]) -> Vec<u8> {
    let length = pieces.concat().len() as u64;
    let mut state = [PATTERN; STATE];
    let mut frame = written(17, |room| {
        seal_begin(store, kid, metadata, length, &mut state, room)
    });
    for piece in pieces {
        frame.extend(written(piece.len(), |room| {
            seal_piece(&mut state, piece, room)
        }));
    }
    frame.extend(written(16, |room| seal_end(&state, room)));
    frame
}

/// What a check of a frame answers, its ciphertext in pieces of `size` bytes.
fn check_pieces(store: &[u8], metadata: &[u8], frame: &[u8], nt: usize, size: usize) -> Answer {
    let (_, _, header) = read_header(frame).unwrap();
    let ciphertext = &frame[header..frame.len() - nt];
    let length = ciphertext.len() as u64;
    let mut state = [PATTERN; STATE];
    check_begin(store, frame, metadata, length, &mut state)?;
    for piece in ciphertext.chunks(size) {
        check_piece(&mut state, piece)?;
    }
    check_end(&state, &frame[frame.len() - nt..])
}

#[test]
fn published_frames_cut_anywhere() {
    for case in sframe_vectors() {
        let suite = Suite::from_number(case.number("cipher_suite")).unwrap();
        let (kid, ctr) = (case.number("kid"), case.number("ctr"));
        let (metadata, plaintext) = (case.bytes("metadata"), case.bytes("pt"));
        let frame = case.bytes("ct");
        let base_key = case.bytes("base_key");
        let mut sender = vec![0; RECORD];
        let mut receiver = sender.clone();
        let mut record = Record::new(State::Sending, suite, kid, &base_key);
        record.counter = ctr;
        put(&mut sender, record);
        put(
            &mut receiver,
            Record::new(State::Receiving, suite, kid, &base_key),
        );
        for at in 0..=plaintext.len() {
            let (one, other) = plaintext.split_at(at);
            let sealed = seal_pieces(&mut sender.clone(), kid, &metadata, &[one, other]);
            assert_eq!(sealed, frame);
            let answer = check_pieces(&receiver, &metadata, &frame, suite.nt(), at.max(1));
            assert_eq!(answer, Ok(0));
        }
    }
}

/// Two pieces at every cut of every length up to 200, and pieces of one byte.
#[test]
fn however_cut_the_frame_is_the_same() {
    let mut generator = Generator::new(0x7265_6650_6965_0001);
    for suite in SUITES {
        for length in 0..=200 {
            let plaintext = generator.bytes(length);
            let metadata_length = generator.up_to(80);
            let metadata = generator.bytes(metadata_length);
            let before = store(State::Sending, suite);
            let (mut whole, mut room) = (before.clone(), vec![0; length + 33]);
            let end = seal(&mut whole, KID, &metadata, &plaintext, &mut room).unwrap();
            let frame = &room[..end];
            for at in 0..=length {
                let (one, other) = plaintext.split_at(at);
                let mut cut = before.clone();
                assert_eq!(seal_pieces(&mut cut, KID, &metadata, &[one, other]), frame);
                assert_eq!(cut, whole);
            }
            let bytes: Vec<&[u8]> = plaintext.chunks(1).collect();
            assert_eq!(
                seal_pieces(&mut before.clone(), KID, &metadata, &bytes),
                frame
            );
        }
    }
}

#[test]
fn random_cuts_of_the_longest_frames() {
    let mut generator = Generator::new(0x7265_6650_6965_0002);
    for suite in SUITES {
        let receiver = store(State::Receiving, suite);
        for metadata_length in [0, 1, 27, 28, 29, MAX_METADATA] {
            let plaintext = generator.bytes(MAX_PLAINTEXT);
            let metadata = generator.bytes(metadata_length);
            let (mut pieces, mut rest) = (vec![], &plaintext[..]);
            while !rest.is_empty() {
                let (piece, behind) = rest.split_at(generator.up_to(rest.len().min(3_000)));
                pieces.push(piece);
                rest = behind;
            }
            let (mut one, mut other) = (store(State::Sending, suite), store(State::Sending, suite));
            let mut room = vec![0; MAX_PLAINTEXT + 33];
            let end = seal(&mut one, KID, &metadata, &plaintext, &mut room).unwrap();
            let mut frame = seal_pieces(&mut other, KID, &metadata, &pieces);
            assert_eq!(frame, room[..end]);

            let check = |frame: &[u8]| check_pieces(&receiver, &metadata, frame, suite.nt(), 1_200);
            assert_eq!(check(&frame), Ok(0));
            let at = 2 + generator.up_to(frame.len() - 3);
            frame[at] ^= 1 << generator.up_to(7);
            assert_eq!(check(&frame), Err(TagDiffers));
        }
    }
}

/// Each cause alone and in front of those that come after it.
#[test]
fn refusals_of_the_beginnings() {
    let suite = Suite::Aes128GcmSha256_128;
    let (sending, receiving) = (store(State::Sending, suite), store(State::Receiving, suite));
    let mut spent = sending.clone();
    spent[2] = 1;
    spent[12..20].fill(0xff);
    let long = [0; MAX_METADATA + 1];
    let most = MAX_PLAINTEXT as u64;
    let begin = |store: &[u8], kid, metadata: &[u8], length, state: usize, room: usize| {
        let (mut store, before) = (store.to_vec(), store.to_vec());
        let (mut state, mut room) = (vec![PATTERN; state], vec![PATTERN; room]);
        let answer = seal_begin(&mut store, kid, metadata, length, &mut state, &mut room);
        if answer.is_err() {
            assert_eq!(store, before);
            let untouched = |bytes: &[u8]| bytes.iter().all(|&byte| byte == PATTERN);
            assert!(untouched(&state) && untouched(&room));
        }
        answer
    };
    assert_eq!(
        begin(&sending[1..], 6, &long, most + 1, 0, 0),
        Err(StoreNotSound)
    );
    assert_eq!(begin(&sending, 6, &long, most + 1, 0, 0), Err(KidUnknown));
    assert_eq!(
        begin(&receiving, KID, &long, most + 1, 0, 0),
        Err(WrongRole)
    );
    assert_eq!(begin(&spent, KID, &long, most + 1, 0, 0), Err(CounterSpent));
    assert_eq!(begin(&sending, KID, &long, 0, 0, 0), Err(TooLong));
    for length in [most + 1, 1 << 32, u64::MAX] {
        assert_eq!(begin(&sending, KID, b"", length, 0, 0), Err(TooLong));
    }
    assert_eq!(begin(&sending, KID, b"", most, STATE, 1), Err(RoomShort));
    assert_eq!(
        begin(&sending, KID, b"", most, STATE - 1, 2),
        Err(RoomShort)
    );
    assert_eq!(begin(&sending, KID, b"", most, STATE, 2), Ok(2));

    let header = [0x80, 200];
    let begin = |store: &[u8], header: &[u8], metadata: &[u8], length, state: usize| {
        let mut state = vec![PATTERN; state];
        let answer = check_begin(store, header, metadata, length, &mut state);
        let untouched = state.iter().all(|&byte| byte == PATTERN);
        assert!(answer.is_ok() || untouched);
        answer
    };
    assert_eq!(
        begin(&receiving[1..], &[], &long, most + 1, 0),
        Err(StoreNotSound)
    );
    assert_eq!(
        begin(&receiving, &header[..1], &long, most + 1, 0),
        Err(BadHeader)
    );
    assert_eq!(
        begin(&receiving, &[0x10], &long, most + 1, 0),
        Err(KidUnknown)
    );
    assert_eq!(begin(&sending, &header, &long, most + 1, 0), Err(WrongRole));
    assert_eq!(begin(&receiving, &header, &long, 0, 0), Err(TooLong));
    assert_eq!(begin(&receiving, &header, b"", most + 1, 0), Err(TooLong));
    assert_eq!(
        begin(&receiving, &header, b"", most, STATE - 1),
        Err(RoomShort)
    );
    assert_eq!(begin(&receiving, &header, b"", most, STATE), Ok(0));
}

/// The answers of all four calls to a state, with a piece of 8 bytes, rooms that
/// are long enough and a tag of the right length.
fn answers(state: &[u8], nt: usize) -> [Answer; 4] {
    let mut after = [state.to_vec(), state.to_vec()];
    let answers = [
        seal_piece(&mut after[0], &[0; 8], &mut [0; 8]),
        seal_end(state, &mut [0; 16]),
        check_piece(&mut after[1], &[0; 8]),
        check_end(state, &vec![0; nt]),
    ];
    for (answer, after) in [answers[0], answers[2]].iter().zip(after) {
        assert_eq!(after == state, answer.is_err());
    }
    answers
}

#[test]
fn states_that_cannot_be() {
    for suite in SUITES {
        let nt = suite.nt();
        let mut state = vec![PATTERN; STATE + 1];
        let mut sender = store(State::Sending, suite);
        seal_begin(&mut sender, KID, b"metadata", 8, &mut state, &mut [0; 2]).unwrap();
        let no = Err(BadState);
        assert_eq!(answers(&state, nt), [Ok(8), no, no, no]);
        assert_eq!(state[STATE], PATTERN);
        assert_eq!(answers(&state[..STATE - 1], nt), [no; 4]);
        assert_eq!(answers(&[], nt), [no; 4]);
        let with = |at: usize, bytes: &[u8]| {
            let mut other = state.clone();
            other[at..at + bytes.len()].copy_from_slice(bytes);
            other
        };
        for kind in [0, 3, 0x81, 0xff] {
            assert_eq!(answers(&with(0, &[kind]), nt), [no; 4]);
        }
        assert_eq!(answers(&with(0, &[2]), nt), [no, no, Ok(0), no]);
        for number in [0, 6, 255] {
            assert_eq!(answers(&with(1, &[number]), nt), [no; 4]);
        }
        for (aad, possible) in [(0, false), (1, true), (1_041, true), (1_042, false)] {
            let state = with(2, &u16::to_be_bytes(aad));
            assert_eq!(answers(&state, nt)[0].is_ok(), possible);
        }
        for (announced, possible) in [(7, false), (8, true), (32_768, true), (32_769, false)] {
            let state = with(4, &u32::to_be_bytes(announced));
            assert_eq!(answers(&state, nt)[0].is_ok(), possible);
        }
        // All taken: the end is next. More than that cannot be.
        let differs = Err(TagDiffers);
        assert_eq!(answers(&with(68, &[0, 0, 0, 8]), nt), [no, Ok(nt), no, no]);
        assert_eq!(answers(&with(68, &[0, 0, 0, 9]), nt), [no; 4]);
        assert_eq!(answers(&with(68, &[1, 0, 0, 0]), nt), [no; 4]);
        let mut checking = with(68, &[0, 0, 0, 8]);
        checking[0] = 2;
        assert_eq!(answers(&checking, nt), [no, no, no, differs]);
        for length in [0, nt - 1, nt + 1] {
            assert_eq!(check_end(&checking, &vec![0; length]), Err(NoTag));
        }
    }
}

#[test]
fn rooms_of_pieces_and_ends() {
    for suite in SUITES {
        let nt = suite.nt();
        let mut state = vec![0; STATE];
        let mut sender = store(State::Sending, suite);
        seal_begin(&mut sender, KID, b"", 9, &mut state, &mut [0; 2]).unwrap();
        let before = state.clone();
        for (piece, room, refusal) in [(9, 8, RoomShort), (10, 8, BadState), (10, 10, BadState)] {
            let answer = seal_piece(&mut state, &vec![0; piece], &mut vec![0; room]);
            assert_eq!((answer, &state), (Err::<usize, Refusal>(refusal), &before));
        }
        assert_eq!(seal_end(&state, &mut []), Err(BadState));
        assert_eq!(seal_piece(&mut state, &[0; 9], &mut [0; 9]), Ok(9));
        assert_eq!(seal_piece(&mut state, &[], &mut []), Ok(0));
        assert_eq!(seal_end(&state, &mut vec![0; nt - 1]), Err(RoomShort));
        let tags = [(); 2].map(|()| written(nt, |room| seal_end(&state, room)));
        assert_eq!(tags[0], tags[1]);
    }
}

/// The counter is used at the beginning, whatever comes then, and the removal of
/// the key disturbs no line.
#[test]
fn lines_side_by_side() {
    for suite in SUITES {
        let mut sender = store(State::Sending, suite);
        let mut whole = sender.clone();
        let mut room = [0; 64];
        let mut frames = vec![];
        for plaintext in [&b"never ended"[..], b"a picture", b"another one"] {
            let end = seal(&mut whole, KID, b"m", plaintext, &mut room).unwrap();
            frames.push(room[..end].to_vec());
        }
        let mut begin = |length| {
            let (mut state, mut room) = ([0; STATE], [0; 3]);
            let end = seal_begin(&mut sender, KID, b"m", length, &mut state, &mut room).unwrap();
            (state, room[..end].to_vec())
        };
        begin(11);
        let mut lines = [begin(9), begin(11)];
        assert_eq!(sender, whole);
        remove(&mut sender, KID).unwrap();
        let pieces: [&[u8]; 6] = [b"a p", b"anothe", b"", b"r", b"icture", b" one"]; // in turns
        for (turn, piece) in pieces.into_iter().enumerate() {
            let (state, frame) = &mut lines[turn % 2];
            frame.extend(written(8, |room| seal_piece(state, piece, room)));
        }
        for ((state, mut frame), expected) in lines.into_iter().zip(&frames[1..]) {
            frame.extend(written(16, |room| seal_end(&state, room)));
            assert_eq!(frame, *expected);
        }
    }
}

/// A frame is checked as often as one likes, before it is opened and after. Its
/// header is authenticated as it stands: in a longer form it is another.
#[test]
fn checks_leave_the_window() {
    for suite in SUITES {
        let mut receiver = store(State::Receiving, suite);
        let mut sender = store(State::Sending, suite);
        let frame = seal_pieces(&mut sender, KID, b"m", &[b"a picture"]);
        let check = |store: &[u8]| check_pieces(store, b"m", &frame, suite.nt(), 4);
        assert_eq!(check(&receiver), Ok(0));
        open(&mut receiver, b"m", &frame, &mut [0; 9]).unwrap();
        assert_eq!(check(&receiver), Ok(0));
        assert_eq!(
            open(&mut receiver, b"m", &frame, &mut [0; 9]),
            Err(AlreadyOpened)
        );

        let longer = [&[0x90, 0, 200], &frame[2..]].concat();
        let answer = check_pieces(&receiver, b"m", &longer, suite.nt(), 4);
        assert_eq!(answer, Err(TagDiffers));
    }
}
