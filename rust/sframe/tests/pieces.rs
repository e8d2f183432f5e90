// SPDX-License-Identifier: MIT
//! Frames in pieces by the typed calls, beside the whole ones.

use sframe::{
    raw, read_header, Kid, Metadata, Refusal, Role, Sealing, Store, StoreView, Suite, MAX_HEADER,
    MAX_METADATA, MAX_PLAINTEXT, RECORD, STATE,
};
use testkit::Generator;

const KID: Kid = Kid(200);
const BASE_KEY: [u8; 16] = [7; 16];

/// Every suite that a key is added for sending with.
const SENDING: [Suite; 4] = [
    Suite::Aes128CtrHmacSha256_80,
    Suite::Aes128CtrHmacSha256_64,
    Suite::Aes128GcmSha256_128,
    Suite::Aes256GcmSha512_128,
];

fn stores(suite: Suite) -> ([u8; RECORD], [u8; RECORD]) {
    let (mut ward, mut doctor) = ([0; RECORD], [0; RECORD]);
    for (bytes, role) in [(&mut ward, Role::Sending), (&mut doctor, Role::Receiving)] {
        let mut store = Store::make(bytes).unwrap();
        store.add(role, KID, suite, &BASE_KEY).unwrap();
    }
    (ward, doctor)
}

/// A line for a plaintext of so many bytes, and its header.
fn begin(ward: &mut [u8], metadata: Metadata, length: usize) -> (Sealing, Vec<u8>) {
    let mut room = [0; MAX_HEADER];
    let (sealing, header) = Store::over(ward)
        .seal_begin(KID, metadata, length as u64, &mut room)
        .unwrap();
    (sealing, room[..header].to_vec())
}

/// Random cuts: header, ciphertexts and tag are the whole frame, and a check of it
/// in other pieces is passed.
#[test]
fn the_frame_of_the_whole() {
    let mut generator = Generator::new(0x7772_6170_5069_0001);
    for suite in SENDING {
        let (mut ward, mut doctor) = stores(suite);
        for length in [0, 1, 15, 16, 17, 63, 64, 65, 1_200, MAX_PLAINTEXT] {
            let plaintext = generator.bytes(length);
            let metadata_length = generator.up_to(MAX_METADATA);
            let metadata = generator.bytes(metadata_length);
            let metadata = Metadata(&metadata);
            let mut copy = ward;
            let whole = Store::over(&mut copy)
                .seal_to_vec(KID, metadata, &plaintext)
                .unwrap();

            let (mut sealing, mut frame) = begin(&mut ward, metadata, length);
            let (mut room, mut rest) = (vec![0; length], &plaintext[..]);
            while !rest.is_empty() {
                let (piece, behind) = rest.split_at(generator.up_to(rest.len().min(2_000)));
                assert_eq!(sealing.piece(piece, &mut room), Ok(piece.len()));
                frame.extend(&room[..piece.len()]);
                rest = behind;
            }
            let mut tag = [0; 16];
            assert_eq!(sealing.end(&mut tag).unwrap(), suite.nt());
            frame.extend(&tag[..suite.nt()]);
            assert_eq!((&frame, ward), (&whole, copy));

            let store = StoreView::over(&doctor);
            let header = read_header(&frame).unwrap().length;
            let mut checking = store.check_begin(&frame, metadata, length as u64).unwrap();
            let size = 1 + generator.up_to(1_500);
            for piece in frame[header..header + length].chunks(size) {
                checking.piece(piece).unwrap();
            }
            checking.end(&frame[header + length..]).unwrap();
            let opened = Store::over(&mut doctor).open_to_vec(&frame, metadata);
            assert_eq!(opened.unwrap(), plaintext);
        }
    }
}

/// What is refused can go on: a piece, an end that comes too early, one without
/// room.
#[test]
fn a_line_goes_on_after_a_refusal() {
    for suite in SENDING {
        let (mut ward, mut doctor) = stores(suite);
        let (mut sealing, mut frame) = begin(&mut ward, Metadata::NONE, 9);
        let mut room = [0; 16];
        let refused = sealing.end(&mut room).unwrap_err();
        assert_eq!(refused.refusal, Refusal::BadState);
        sealing = refused.line;
        assert_eq!(sealing.piece(&[0; 10], &mut room), Err(Refusal::BadState));
        let short = sealing.piece(b"a picture", &mut room[..8]);
        assert_eq!((short, room), (Err(Refusal::RoomShort), [0; 16]));
        assert_eq!(sealing.piece(b"a pic", &mut room), Ok(5));
        frame.extend(&room[..5]);
        assert_eq!(sealing.piece(b"", &mut []), Ok(0));
        assert_eq!(sealing.piece(b"ture", &mut room), Ok(4));
        frame.extend(&room[..4]);
        let refused = sealing.end(&mut room[..suite.nt() - 1]).unwrap_err();
        assert_eq!(refused.to_string(), Refusal::RoomShort.to_string());
        let tag = refused.line.end(&mut room).unwrap();
        frame.extend(&room[..tag]);
        let opened = Store::over(&mut doctor).open_to_vec(&frame, Metadata::NONE);
        assert_eq!(opened.unwrap(), b"a picture");
    }
}

/// The ends of a check in their order, on one line.
#[test]
fn ends_of_a_check() {
    for suite in SENDING {
        let (mut ward, doctor) = stores(suite);
        let frame = Store::over(&mut ward)
            .seal_to_vec(KID, Metadata::NONE, b"a picture")
            .unwrap();
        let (front, tag) = frame.split_at(frame.len() - suite.nt());
        let before = doctor;
        let mut checking = StoreView::over(&doctor)
            .check_begin(front, Metadata::NONE, 9)
            .unwrap();
        let longer = [tag, &[0]].concat();
        let mut wrong = tag.to_vec();
        wrong[0] ^= 0x80;
        checking = {
            let refused = checking.end(tag).unwrap_err();
            assert_eq!(refused.refusal, Refusal::BadState);
            refused.line
        };
        checking.piece(&front[2..]).unwrap();
        assert_eq!(checking.piece(&[0]), Err(Refusal::BadState));
        for (tag, refusal) in [
            (&tag[1..], Refusal::FrameShort),
            (&longer, Refusal::FrameShort),
            (&wrong, Refusal::TagDiffers),
        ] {
            let refused = checking.end(tag).unwrap_err();
            assert_eq!(refused.refusal, refusal);
            checking = refused.line;
        }
        checking.end(tag).unwrap();
        assert_eq!(doctor, before);
    }
}

/// A beginning uses its counter, be the line given up; lines under one key do not
/// meet; and a key that is removed disturbs none.
#[test]
fn lines_side_by_side() {
    for suite in SENDING {
        let (mut ward, mut doctor) = stores(suite);
        let mut lines: Vec<_> = (0..3)
            .map(|_| begin(&mut ward, Metadata(b"m"), 6))
            .collect();
        lines.remove(1);
        Store::over(&mut ward).remove(KID).unwrap();
        let mut room = [0; 16];
        for piece in [b"bed", b"  4"] {
            for (sealing, frame) in &mut lines {
                sealing.piece(piece, &mut room).unwrap();
                frame.extend(&room[..3]);
            }
        }
        for (ctr, (sealing, mut frame)) in [0, 2].into_iter().zip(lines) {
            let tag = sealing.end(&mut room).unwrap();
            frame.extend(&room[..tag]);
            assert_eq!(read_header(&frame).unwrap().ctr.0, ctr);
            let opened = Store::over(&mut doctor).open_to_vec(&frame, Metadata(b"m"));
            assert_eq!(opened.unwrap(), b"bed  4");
        }
    }
}

#[test]
fn beginnings_are_refused() {
    let (mut ward, mut doctor) = stores(SENDING[0]);
    let before = (ward, doctor);
    let mut room = [0; MAX_HEADER];
    let long = MAX_PLAINTEXT as u64 + 1;
    let begin = |store: &mut [u8], kid, length, room: &mut [u8]| {
        Store::over(store)
            .seal_begin(kid, Metadata::NONE, length, room)
            .err()
    };
    assert_eq!(
        begin(&mut [], KID, 0, &mut room),
        Some(Refusal::StoreNotSound)
    );
    assert_eq!(
        begin(&mut ward, Kid(7), 0, &mut room),
        Some(Refusal::KidUnknown)
    );
    assert_eq!(
        begin(&mut doctor, KID, 0, &mut room),
        Some(Refusal::WrongRole)
    );
    assert_eq!(
        begin(&mut ward, KID, long, &mut room),
        Some(Refusal::TooLong)
    );
    assert_eq!(
        begin(&mut ward, KID, 0, &mut room[..1]),
        Some(Refusal::RoomShort)
    );

    let check = |store: &[u8], header: &[u8], length| {
        StoreView::over(store)
            .check_begin(header, Metadata::NONE, length)
            .err()
    };
    let header = [0x80, 200];
    assert_eq!(check(&[], &header, 0), Some(Refusal::StoreNotSound));
    assert_eq!(check(&doctor, &header[..1], 0), Some(Refusal::BadHeader));
    assert_eq!(check(&doctor, &[0x10], 0), Some(Refusal::KidUnknown));
    assert_eq!(check(&ward, &header, 0), Some(Refusal::WrongRole));
    assert_eq!(check(&doctor, &header, long), Some(Refusal::TooLong));
    assert_eq!(check(&doctor, &header, long - 1), None);
    assert_eq!((ward, doctor), before);
}

/// The types leave no way to a state that is too short or of the other kind.
#[test]
fn states_of_the_raw_calls() {
    let (mut ward, doctor) = stores(SENDING[0]);
    let (mut state, mut room) = ([0; STATE], [0; MAX_HEADER]);
    let short = raw::seal_begin(&mut ward, 200, &[], 0, &mut state[1..], &mut room);
    assert_eq!(short.number, Refusal::RoomShort.number());
    let number = raw::check_begin(&doctor, &[0x80, 200], &[], 0, &mut state[1..]);
    assert_eq!(number, Refusal::RoomShort.number());
    let begun = raw::seal_begin(&mut ward, 200, &[], 0, &mut state, &mut room);
    assert_eq!((begun.number, begun.length), (0, 2));

    let bad = Refusal::BadState.number();
    assert_eq!(raw::check_piece(&mut state, &[]), bad);
    assert_eq!(raw::check_end(&state, &[0; 10]), bad);
    assert_eq!(raw::seal_piece(&mut [], &[], &mut []).number, bad);
    assert_eq!(raw::seal_end(&state[..STATE - 1], &mut room).number, bad);
    assert_eq!(raw::seal_end(&state, &mut room).length, 10);
}

/// Debug output goes to logs, where no key belongs.
#[test]
fn debug_shows_no_key() {
    let (mut ward, doctor) = stores(SENDING[0]);
    let (sealing, header) = begin(&mut ward, Metadata::NONE, 1);
    assert_eq!(format!("{sealing:?}"), "Sealing");
    let refused = sealing.end(&mut []).unwrap_err();
    assert_eq!(format!("{refused:?}"), "NotEnded: BadState");
    let checking = StoreView::over(&doctor).check_begin(&header, Metadata::NONE, 1);
    assert_eq!(format!("{checking:?}"), "Ok(Checking)");
}
