// SPDX-License-Identifier: MIT
//! Frames that were changed on their way. Whatever is refused has left the
//! room as it was, which each comparison checks.

use comparison::number::*;
use comparison::{compare, done, forms, frame, frame_with, made, with_key, Call, Key};
use reference::header::{read_header, write_header};
use reference::suites::SUITES;
use sframe::Role;
use testkit::Generator;

const METADATA: &[u8] = b"ward 3, camera 2";
const PLAINTEXT: &[u8] = b"a picture of more than one block";

/// The key numbers and counters of the frames: headers of 1, 3 and 12 bytes.
const NUMBERS: [(u64, u64); 3] = [(1, 0), (200, 255), (1 << 40, 1 << 36)];

/// A frame, and a store that receives its key.
struct Case {
    key: Key,
    frame: Vec<u8>,
    header: usize,
    store: Vec<u8>,
}

fn cases() -> impl Iterator<Item = Case> {
    SUITES.into_iter().flat_map(|suite| {
        NUMBERS.into_iter().map(move |(kid, ctr)| {
            let key = Key::any(suite, kid);
            let frame = frame(&key, ctr, METADATA, PLAINTEXT);
            let (_, _, header) = read_header(&frame).unwrap();
            let store = with_key(&made(1), Role::Receiving, &key);
            Case {
                key,
                frame,
                header,
                store,
            }
        })
    })
}

impl Case {
    fn open(&self, frame: &[u8], metadata: &[u8]) -> u32 {
        let call = Call::Open {
            frame,
            metadata,
            room: frame.len(),
        };
        compare(&self.store, call).number
    }
}

#[test]
fn as_sealed() {
    for case in cases() {
        assert_eq!(case.open(&case.frame, METADATA), DONE);
    }
}

/// A sender that writes every counter in eight bytes. The associated data is the
/// header as received: behind our shortest one the same body is refused.
#[test]
fn counter_in_eight_bytes() {
    for suite in SUITES {
        let key = Key::any(suite, 200);
        let store = with_key(&made(1), Role::Receiving, &key);
        for ctr in [0, 5, 255, 1 << 40, u64::MAX >> 8] {
            let header = [&[0x8f, 200], &ctr.to_be_bytes()[..]].concat();
            let frame = frame_with(&header, &key, ctr, METADATA, PLAINTEXT);
            assert_eq!(done(&store, opening(&frame)).result(), PLAINTEXT);
            let ours = [write_header(200, ctr), frame[header.len()..].to_vec()].concat();
            assert_eq!(compare(&store, opening(&ours)).number, TAG_DIFFERS);
        }
    }
}

/// Every form of a header, each with the frame that it is the header of. The
/// body of one is refused behind the next.
#[test]
fn every_form_of_a_header() {
    for (kid, ctr) in [(0, 0), (7, 5), (8, 1), (200, 0x0123_4567), (1 << 40, 7)] {
        let key = Key::any(SUITES[3], kid);
        let store = with_key(&made(1), Role::Receiving, &key);
        let forms = forms(kid, ctr);
        for (form, next) in forms.iter().zip(forms.iter().cycle().skip(1)) {
            let frame = frame_with(form, &key, ctr, METADATA, PLAINTEXT);
            assert_eq!(done(&store, opening(&frame)).result(), PLAINTEXT);
            let other = [next, &frame[form.len()..]].concat();
            assert_eq!(compare(&store, opening(&other)).number, TAG_DIFFERS);
        }
    }
}

/// A call to open with room for any plaintext.
fn opening(frame: &[u8]) -> Call<'_> {
    Call::Open {
        frame,
        metadata: METADATA,
        room: frame.len(),
    }
}

/// Each byte in turn, with every other value it can take.
#[test]
fn each_byte_changed() {
    for case in cases() {
        for at in 0..case.frame.len() {
            let mut damaged = case.frame.clone();
            for change in 1..=u8::MAX {
                damaged[at] = case.frame[at] ^ change;
                let number = case.open(&damaged, METADATA);
                if at >= case.header {
                    assert_eq!(number, TAG_DIFFERS, "byte {at}");
                } else {
                    let refusals = [BAD_HEADER, KID_UNKNOWN, FRAME_SHORT, TAG_DIFFERS];
                    assert!(refusals.contains(&number), "byte {at}: {number}");
                }
            }
        }
    }
}

#[test]
fn cut_after_each_byte() {
    for case in cases() {
        for length in 0..case.frame.len() {
            let number = match length.checked_sub(case.header) {
                None => BAD_HEADER,
                Some(rest) if rest < case.key.suite.nt() => FRAME_SHORT,
                Some(_) => TAG_DIFFERS,
            };
            assert_eq!(case.open(&case.frame[..length], METADATA), number);
        }
    }
}

#[test]
fn with_bytes_put_in_or_left_out() {
    for case in cases() {
        let body = case.header..=case.frame.len();
        for at in body.clone() {
            for byte in [0, 0xff] {
                let mut longer = case.frame.clone();
                longer.insert(at, byte);
                assert_eq!(case.open(&longer, METADATA), TAG_DIFFERS);
            }
        }
        for at in body.take_while(|&at| at < case.frame.len()) {
            let mut shorter = case.frame.clone();
            shorter.remove(at);
            assert_eq!(case.open(&shorter, METADATA), TAG_DIFFERS);
        }
    }
}

/// Metadata is bound to the frame, and so is the place where the header ends
/// and the metadata begins.
#[test]
fn other_metadata() {
    for case in cases() {
        let mut others = vec![
            vec![],
            [METADATA, b"\0"].concat(),
            [b"\0", METADATA].concat(),
        ];
        for at in 0..METADATA.len() {
            others.push(METADATA[..at].to_vec());
            for bit in 0..8 {
                let mut other = METADATA.to_vec();
                other[at] ^= 1 << bit;
                others.push(other);
            }
        }
        for other in others {
            assert_eq!(case.open(&case.frame, &other), TAG_DIFFERS);
        }
    }
}

/// The same key number with another base key, or under another suite.
#[test]
fn other_keys() {
    for case in cases() {
        let mut other = case.key.clone();
        other.base_key.push(0);
        let mut keys = vec![other];
        keys.extend(SUITES.map(|suite| Key::any(suite, case.key.kid)));
        for key in keys {
            let store = with_key(&made(1), Role::Receiving, &key);
            let call = Call::Open {
                frame: &case.frame,
                metadata: METADATA,
                room: case.frame.len(),
            };
            let same = key.suite == case.key.suite && key.base_key == case.key.base_key;
            let number = if same { DONE } else { TAG_DIFFERS };
            assert_eq!(compare(&store, call).number, number);
        }
    }
}

/// Frames of every length up to some blocks, sealed and opened.
#[test]
fn every_short_length() {
    let mut generator = Generator::new(0x6672_616d_6573_0001);
    for suite in SUITES {
        let key = Key {
            suite,
            kid: 200,
            base_key: generator.bytes(32),
        };
        let mut sender = with_key(&made(1), Role::Sending, &key);
        let mut receiver = with_key(&made(1), Role::Receiving, &key);
        for length in 0..=300 {
            let plaintext = generator.bytes(length);
            let metadata_length = generator.up_to(80);
            let metadata = generator.bytes(metadata_length);
            let sealing = Call::Seal {
                kid: key.kid,
                metadata: &metadata,
                plaintext: &plaintext,
                offset: 0,
                room: length + 40,
            };
            let sealed = done(&sender, sealing);
            let expected = frame(&key, length as u64, &metadata, &plaintext);
            assert_eq!(sealed.result(), expected);
            let opening = Call::Open {
                frame: sealed.result(),
                metadata: &metadata,
                room: length,
            };
            let opened = done(&receiver, opening);
            assert_eq!(opened.result(), plaintext);
            assert_eq!(compare(&opened.store, opening).number, ALREADY_OPENED);
            (sender, receiver) = (sealed.store, opened.store);
        }
    }
}
