// SPDX-License-Identifier: MIT
//! Edges of every call, beside the reference.

mod beside;

use beside::{add, make, open, remove, seal};
use moq::raw::At;
use moq::{MAX_NAME, MAX_PLAINTEXT, MAX_PROPERTIES, MAX_RECORDS, RECORD};
use reference::store::Role::{Receiving, Sending};
use reference::suites::SUITES;
use testkit::{hex, Generator};

const NAME: &[u8] = b"\x01\x04room\x05video";
const KEY: &[u8] = &[7; 32];
const LAST_OBJECT: u64 = 0xffff_ffff;

fn made(records: usize) -> Vec<u8> {
    let mut store = vec![0xee; records * RECORD];
    assert_eq!(make(&mut store), 0);
    store
}

fn at(group: u64, object: u64) -> At<'static> {
    At {
        name: NAME,
        key_id: 7,
        group,
        object,
    }
}

/// A store that sends `NAME` under Key ID 7, and one that receives it.
fn pair(suite: u64) -> (Vec<u8>, Vec<u8>) {
    let (mut publisher, mut subscriber) = (made(2), made(2));
    assert_eq!(add(&mut publisher, Sending, NAME, 7, suite, KEY), 0);
    assert_eq!(add(&mut subscriber, Receiving, NAME, 7, suite, KEY), 0);
    (publisher, subscriber)
}

/// Computed by another program, in Python.
#[test]
fn a_known_object() {
    let base_key: Vec<u8> = (0..16).collect();
    let mut store = made(1);
    assert_eq!(add(&mut store, Sending, NAME, 7, 4, &base_key), 0);
    let (answer, object) = seal(&mut store, at(1, 2), &[2, 7], b"\x05hello", 22);
    assert_eq!(answer, (0, 22));
    assert_eq!(object, hex("01b740cf5c3f74a605473ba9d567c0cb77879fd5ca84"));
}

#[test]
fn lengths_of_a_store() {
    for length in 0..=MAX_RECORDS * RECORD + RECORD {
        let mut store = vec![0xee; length];
        let right = length % RECORD == 0 && (1..=MAX_RECORDS).contains(&(length / RECORD));
        assert_eq!(make(&mut store), u32::from(!right));
        assert_eq!(remove(&mut store, NAME, 7), if right { 6 } else { 1 });
    }
}

#[test]
fn pairs_rise() {
    // The first pair may be any; then equal, lower, and higher in group with a lower object.
    for suite in [1, 2, 4, 5] {
        let (mut store, other) = pair(suite);
        for ((group, object), number) in [
            ((5, 9), 0),
            ((5, 9), 24),
            ((5, 8), 24),
            ((4, LAST_OBJECT), 24),
            ((0, 0), 24),
            ((5, 10), 0),
            ((6, 0), 0),
            ((6, LAST_OBJECT), 0),
            ((6, LAST_OBJECT + 1), 25),
            ((7, LAST_OBJECT + 1), 25),
            ((6, LAST_OBJECT), 24),
            ((1 << 62, 3), 0),
            ((u64::MAX, LAST_OBJECT - 1), 0),
            ((u64::MAX, LAST_OBJECT), 0),
            ((u64::MAX, LAST_OBJECT), 24),
            ((u64::MAX, u64::MAX), 25),
            ((0, 0), 24),
        ] {
            let at = at(group, object);
            let (answer, sealed) = seal(&mut store, at, b"\x02\x07", b"picture", 40);
            assert_eq!(answer.0, number, "{group} {object}");
            if number == 0 {
                let (opened, plaintext) = open(&other, at, b"\x02\x07", &sealed, 7);
                assert_eq!((opened, &plaintext[..]), ((0, 7), &b"picture"[..]));
            }
        }
    }
}

#[test]
fn the_first_pair_may_be_zero() {
    let (mut store, _) = pair(1);
    assert_eq!(seal(&mut store, at(0, 0), b"", b"", 10).0, (0, 10));
    assert_eq!(seal(&mut store, at(0, 0), b"", b"", 10).0, (24, 0));
    assert_eq!(seal(&mut store, at(0, 1), b"", b"", 10).0, (0, 10));
}

/// Numbers at each edge of the variable-length integers, in all three places.
#[test]
fn numbers_of_every_width() {
    let edges = [
        0,
        63,
        64,
        16_383,
        16_384,
        (1 << 30) - 1,
        1 << 30,
        (1 << 62) - 1,
        1 << 62,
        u64::MAX,
    ];
    for key_id in edges {
        for group in edges {
            for object in edges.into_iter().filter(|&object| object <= LAST_OBJECT) {
                let (mut store, mut other) = (made(1), made(1));
                assert_eq!(add(&mut store, Sending, NAME, key_id, 4, KEY), 0);
                assert_eq!(add(&mut other, Receiving, NAME, key_id, 4, KEY), 0);
                let at = At {
                    name: NAME,
                    key_id,
                    group,
                    object,
                };
                let (answer, sealed) = seal(&mut store, at, b"p", b"text", 20);
                assert_eq!(answer, (0, 20));
                assert_eq!(
                    open(&other, at, b"p", &sealed, 4),
                    ((0, 4), b"text".to_vec())
                );
            }
        }
    }
}

#[test]
fn names() {
    let long = [0x6e; MAX_NAME + 1];
    for length in [0, 1, 255, 256] {
        let name = &long[..length];
        let (mut store, mut other) = (made(1), made(1));
        assert_eq!(add(&mut store, Sending, name, 7, 4, KEY), 0);
        assert_eq!(add(&mut other, Receiving, name, 7, 4, KEY), 0);
        let at = At { name, ..at(1, 1) };
        let (answer, sealed) = seal(&mut store, at, b"", b"text", 20);
        assert_eq!(answer.0, 0);
        assert_eq!(open(&other, at, b"", &sealed, 4).0, (0, 4));
        // The name with one byte more or fewer is another one.
        let longer = At {
            name: &long[..length + 1],
            ..at
        };
        assert_eq!(open(&other, longer, b"", &sealed, 4).0, (6, 0));
        assert_eq!(seal(&mut store, longer, b"", b"text", 20).0, (6, 0));
        assert_eq!(remove(&mut store, &long[..length + 1], 7), 6);
        assert_eq!(remove(&mut store, name, 7), 0);
    }
    let mut store = made(1);
    assert_eq!(add(&mut store, Sending, &long, 7, 4, KEY), 9);
    assert_eq!(add(&mut store, Receiving, &long, 7, 4, KEY), 9);
}

#[test]
fn one_name_under_two_key_ids() {
    let (mut store, mut other) = (made(2), made(2));
    for key_id in [7, 8] {
        assert_eq!(add(&mut store, Sending, NAME, key_id, 4, KEY), 0);
        assert_eq!(add(&mut other, Receiving, NAME, key_id, 4, KEY), 0);
    }
    let (one, two) = (
        at(1, 1),
        At {
            key_id: 8,
            ..at(1, 1)
        },
    );
    // Each has its own pairs, and neither opens as the other.
    let (first, sealed) = seal(&mut store, one, b"", b"text", 20);
    let (second, other_sealed) = seal(&mut store, two, b"", b"text", 20);
    assert_eq!((first.0, second.0), (0, 0));
    assert_ne!(sealed, other_sealed);
    assert_eq!(open(&other, two, b"", &sealed, 4).0, (13, 0));
    assert_eq!(open(&other, one, b"", &sealed, 4).0, (0, 4));
}

#[test]
fn removed_and_added_again() {
    for role in [Sending, Receiving] {
        let mut store = made(2);
        assert_eq!(add(&mut store, role, NAME, 7, 4, KEY), 0);
        assert_eq!(remove(&mut store, NAME, 7), 0);
        assert_eq!(remove(&mut store, NAME, 7), 7);
        for again in [Sending, Receiving] {
            assert_eq!(add(&mut store, again, NAME, 7, 4, KEY), 4);
        }
        assert_eq!(seal(&mut store, at(1, 1), b"", b"", 16).0, (7, 0));
        assert_eq!(open(&store, at(1, 1), b"", &[0; 16], 16).0, (7, 0));
        // Another Key ID of that name is another track.
        assert_eq!(add(&mut store, role, NAME, 8, 4, KEY), 0);
    }
}

#[test]
fn sixteen_tracks_and_a_seventeenth() {
    let mut store = made(MAX_RECORDS);
    for key_id in 0..MAX_RECORDS as u64 {
        assert_eq!(add(&mut store, Receiving, NAME, key_id, 5, KEY), 0);
    }
    assert_eq!(add(&mut store, Receiving, NAME, 16, 5, KEY), 5);
    // A retired record is not free.
    assert_eq!(remove(&mut store, NAME, 3), 0);
    assert_eq!(add(&mut store, Receiving, NAME, 16, 5, KEY), 5);
}

#[test]
fn sizes_and_rooms() {
    for suite in SUITES {
        let nt = suite.nt();
        for plaintext in [0, 1, 15, 16, 17, MAX_PLAINTEXT, MAX_PLAINTEXT + 1] {
            for properties in [0, 1, MAX_PROPERTIES, MAX_PROPERTIES + 1] {
                let long = plaintext > MAX_PLAINTEXT || properties > MAX_PROPERTIES;
                let (text, properties) = (vec![5; plaintext], vec![9; properties]);
                let mut other = made(1);
                assert_eq!(add(&mut other, Receiving, NAME, 7, suite.number(), KEY), 0);
                let sealed = if suite.number() == 3 {
                    vec![0; plaintext + nt]
                } else {
                    let mut store = made(1);
                    assert_eq!(add(&mut store, Sending, NAME, 7, suite.number(), KEY), 0);
                    let short = seal(&mut store, at(1, 1), &properties, &text, plaintext + nt - 1);
                    assert_eq!(short.0 .0, if long { 9 } else { 12 });
                    let (answer, sealed) =
                        seal(&mut store, at(1, 1), &properties, &text, plaintext + nt);
                    assert_eq!(answer.0, if long { 9 } else { 0 });
                    if long {
                        vec![0; plaintext + nt]
                    } else {
                        sealed
                    }
                };
                let opened = open(&other, at(1, 1), &properties, &sealed, plaintext).0 .0;
                let done = if suite.number() == 3 { 13 } else { 0 };
                assert_eq!(opened, if long { 9 } else { done });
                if plaintext > 0 {
                    let short = open(&other, at(1, 1), &properties, &sealed, plaintext - 1).0;
                    assert_eq!(short.0, if long { 9 } else { 12 });
                }
                let cut = open(&other, at(1, 1), &properties, &sealed[..nt - 1], plaintext).0;
                assert_eq!(cut, (11, 0));
            }
        }
    }
}

#[test]
fn suites_and_base_keys() {
    for suite in [0, 1, 2, 3, 4, 5, 6, 256, 1 << 32 | 4, u64::MAX] {
        for length in [0, 15, 16, 64, 65] {
            for role in [Sending, Receiving] {
                let expected = match (suite, role, length) {
                    (0 | 6.., _, _) => 2,
                    (3, Sending, _) => 17,
                    (_, _, 16..=64) => 0,
                    _ => 3,
                };
                assert_eq!(
                    add(&mut made(1), role, NAME, 7, suite, &vec![1; length]),
                    expected
                );
            }
        }
    }
}

/// Every bit of a sealed object, and another name, Key ID, pair or properties.
#[test]
fn changed_objects() {
    for suite in [1, 2, 4, 5] {
        let (mut store, other) = pair(suite);
        let (answer, sealed) = seal(&mut store, at(3, 4), b"props", b"plaintext", 40);
        assert_eq!(answer.0, 0);
        for bit in 0..sealed.len() * 8 {
            let mut changed = sealed.clone();
            changed[bit / 8] ^= 1 << (bit % 8);
            assert_eq!(open(&other, at(3, 4), b"props", &changed, 40).0, (13, 0));
        }
        for (at, properties) in [
            (at(3, 5), &b"props"[..]),
            (at(2, 4), b"props"),
            (at(4, 3), b"props"),
            (at(3, 4), b"prop"),
            (at(3, 4), b"propss"),
            (at(3, 4), b""),
        ] {
            assert_eq!(open(&other, at, properties, &sealed, 40).0, (13, 0));
        }
        assert_eq!(
            open(&other, at(3, 1 << 32 | 4), b"props", &sealed, 40).0,
            (25, 0)
        );
    }
}

/// Every byte of a record, in each kind of record, set to every value.
#[test]
fn every_field_broken_in_turn() {
    let mut sent = made(1);
    assert_eq!(add(&mut sent, Sending, NAME, 7, 4, KEY), 0);
    let mut used = sent.clone();
    assert_eq!(seal(&mut used, at(1 << 40, 9), b"", b"", 16).0 .0, 0);
    let mut received = made(1);
    assert_eq!(add(&mut received, Receiving, NAME, 7, 1, KEY), 0);
    let mut retired = used.clone();
    assert_eq!(remove(&mut retired, NAME, 7), 0);

    let mut sound = 0;
    for store in [made(1), sent, used, received, retired] {
        for index in 0..RECORD {
            for value in 0..=255 {
                let mut changed = store.clone();
                changed[index] = value;
                sound += u32::from(remove(&mut changed, NAME, 7) != 1);
            }
        }
    }
    assert!(sound > 50_000, "{sound}");
}

#[test]
fn one_track_in_two_records() {
    let mut store = made(3);
    assert_eq!(add(&mut store, Sending, NAME, 7, 4, KEY), 0);
    assert_eq!(add(&mut store, Sending, NAME, 8, 4, KEY), 0);
    let mut twice = store.clone();
    twice[RECORD + 11] = 7;
    assert_eq!(remove(&mut twice, NAME, 7), 1);
    let mut copied = store.clone();
    copied.copy_within(..RECORD, 2 * RECORD);
    assert_eq!(seal(&mut copied, at(1, 1), b"", b"", 16).0, (1, 0));
    // The same Key ID under another name is another track.
    assert_eq!(add(&mut store, Sending, b"other", 7, 4, KEY), 0);
}

/// Stores of any bytes, near sound ones.
#[test]
fn any_bytes() {
    let mut generator = Generator::new(0x6d6f_7100_0000_0001);
    for _ in 0..20_000 {
        let records = 1 + generator.up_to(3);
        let mut store = made(records);
        for key_id in 0..generator.up_to(records) as u64 {
            let role = *generator.pick(&[Sending, Receiving]);
            let length = generator.up_to(MAX_NAME);
            let name = generator.bytes(length);
            let suite = *generator.pick(&[1, 2, 4, 5]);
            assert_eq!(add(&mut store, role, &name, key_id, suite, KEY), 0);
        }
        for _ in 0..generator.up_to(2) {
            let index = generator.up_to(store.len() - 1);
            store[index] = generator.u64() as u8;
        }
        remove(&mut store, NAME, 7);
        seal(
            &mut store,
            at(generator.any_width(), generator.any_width()),
            b"",
            b"",
            16,
        );
    }
}
