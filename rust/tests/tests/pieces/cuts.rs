// SPDX-License-Identifier: MIT
//! However a plaintext is cut, the frame is that of the whole.

use super::line::{check, cut, receiver, seal, sender, KID};
use comparison::number::{DONE, TAG_DIFFERS};
use comparison::{done, frame, frame_with, Call, Key};
use reference::suites::{Suite, SUITES};
use sframe::{MAX_METADATA, MAX_PLAINTEXT, RECORD};
use testkit::{sframe_vectors, Generator};

/// Two pieces at every cut of every length up to 200.
#[test]
fn every_cut_of_0_to_200_bytes() {
    let mut generator = Generator::new(0x7069_6563_6573_0001);
    for suite in SUITES {
        let key = Key::any(suite, KID);
        let (before, receiver) = (sender(&key), receiver(&key));
        for length in 0..=200 {
            let plaintext = generator.bytes(length);
            let count = generator.up_to(130);
            let metadata = generator.bytes(count);
            let whole = frame(&key, 0, &metadata, &plaintext);
            for at in 0..=length {
                let (one, other) = plaintext.split_at(at);
                let (frame, _) = seal(&before, KID, &metadata, &[one, other]);
                assert!(frame == whole, "{length} bytes cut at {at}");
            }
            let size = 1 + generator.up_to(length);
            let answer = check(&receiver, &metadata, &whole, suite.nt(), size);
            assert_eq!(answer, DONE);
        }
    }
}

/// Pieces around the lengths of AES's and SHA-256's blocks.
#[test]
fn pieces_of_one_size() {
    let mut generator = Generator::new(0x7069_6563_6573_0002);
    let plaintext = generator.bytes(3_000);
    for suite in SUITES {
        let key = Key::any(suite, KID);
        let (before, receiver) = (sender(&key), receiver(&key));
        for size in [
            1, 2, 7, 15, 16, 17, 31, 32, 33, 63, 64, 65, 127, 128, 129, 1_200,
        ] {
            for length in [size - 1, size, size + 1, 3_000] {
                let plaintext = &plaintext[..length];
                let whole = frame(&key, 0, b"metadata", plaintext);
                let pieces: Vec<&[u8]> = plaintext.chunks(size).collect();
                assert_eq!(seal(&before, KID, b"metadata", &pieces).0, whole);
                let answer = check(&receiver, b"metadata", &whole, suite.nt(), size);
                assert_eq!(answer, DONE);
            }
        }
    }
}

/// The layer's own whole frame, and the store that it leaves; then one bit of the
/// frame changed.
#[test]
fn random_cuts_of_any_length() {
    let mut generator = Generator::new(0x7069_6563_6573_0003);
    for turn in 0..150 {
        let suite = *generator.pick(&SUITES);
        let mut key = Key::any(suite, generator.any_width());
        key.base_key = generator.bytes(32);
        let mut before = sender(&key);
        let counter = generator.any_width();
        comparison::set_counter(&mut before, 0, counter);
        let most = *generator.pick(&[0, 20, 300, 5_000, MAX_PLAINTEXT]);
        let length = generator.up_to(most);
        let plaintext = generator.bytes(length);
        let most = *generator.pick(&[0, 100, MAX_METADATA]);
        let count = generator.up_to(most);
        let metadata = generator.bytes(count);
        let call = Call::Seal {
            kid: key.kid,
            metadata: &metadata,
            plaintext: &plaintext,
            offset: 0,
            room: length + 33,
        };
        let whole = done(&before, call);
        let most = *generator.pick(&[40, 500, 20_000]);
        let pieces = cut(&mut generator, &plaintext, most);
        let (mut frame, store) = seal(&before, key.kid, &metadata, &pieces);
        assert!(frame == whole.result() && store == whole.store, "{turn}");

        let receiver = receiver(&key);
        let size = 1 + generator.up_to(most);
        let answer = check(&receiver, &metadata, &frame, suite.nt(), size);
        assert_eq!(answer, DONE);
        let header = frame.len() - length - suite.nt();
        let at = header + generator.up_to(frame.len() - header - 1);
        frame[at] ^= 1 << generator.up_to(7);
        let answer = check(&receiver, &metadata, &frame, suite.nt(), size);
        assert_eq!(answer, TAG_DIFFERS);
    }
}

#[test]
fn the_longest_frames() {
    let mut generator = Generator::new(0x7069_6563_6573_0004);
    let plaintext = generator.bytes(MAX_PLAINTEXT);
    let metadata = generator.bytes(MAX_METADATA);
    for suite in SUITES {
        let key = Key::any(suite, u64::MAX);
        let mut before = sender(&key);
        comparison::set_counter(&mut before, 0, u64::MAX);
        let whole = frame(&key, u64::MAX, &metadata, &plaintext);
        for size in [1_200, 4_096, 32_767, 32_768] {
            let pieces: Vec<&[u8]> = plaintext.chunks(size).collect();
            let (frame, store) = seal(&before, u64::MAX, &metadata, &pieces);
            assert!(frame == whole && store[2] == 1);
            let answer = check(&receiver(&key), &metadata, &whole, suite.nt(), size);
            assert_eq!(answer, DONE);
        }
    }
}

#[test]
fn published_frames() {
    for case in sframe_vectors() {
        let key = Key {
            suite: Suite::from_number(case.number("cipher_suite")).expect("a suite"),
            kid: case.number("kid"),
            base_key: case.bytes("base_key"),
        };
        let (metadata, plaintext) = (case.bytes("metadata"), case.bytes("pt"));
        let mut before = sender(&key);
        comparison::set_counter(&mut before, 0, case.number("ctr"));
        for size in 1..=plaintext.len() {
            let pieces: Vec<&[u8]> = plaintext.chunks(size).collect();
            let (frame, _) = seal(&before, key.kid, &metadata, &pieces);
            assert_eq!(frame, case.bytes("ct"));
            let nt = key.suite.nt();
            let answer = check(&receiver(&key), &metadata, &frame, nt, size);
            assert_eq!(answer, DONE);
        }
    }
}

/// A check takes the header as it was received, in a longer form too, whatever
/// follows it.
#[test]
fn longer_headers_are_checked() {
    for suite in SUITES {
        let key = Key::any(suite, 7);
        let store = receiver(&key);
        assert_eq!(store.len(), RECORD);
        for header in [
            &[0x79, 1, 0][..],
            &[0x8f, 7, 0, 0, 0, 0, 0, 0, 1, 0],
            &[0xf9, 0, 0, 0, 0, 0, 0, 0, 7, 1, 0],
        ] {
            let frame = frame_with(header, &key, 256, b"m", b"a picture");
            assert_eq!(check(&store, b"m", &frame, suite.nt(), 4), DONE);
            let other = [&[0x79, 1, 0], &frame[header.len()..]].concat();
            let same = header.len() == 3;
            assert_eq!(check(&store, b"m", &other, suite.nt(), 4) == DONE, same);
        }
    }
}
