// SPDX-License-Identifier: MIT
//! Base keys that are walked forward, and the key numbers of their steps.

use comparison::number::*;
use comparison::{after, compare, compare_kid, compare_walk, done, made, with_key, Call, Key};
use reference::suites::{Suite, SUITES};
use sframe::ffi::{sframe_ratchet, sframe_ratchet_kid};
use sframe::{Role, MAX_BASE_KEY, MAX_RATCHET_BITS, MAX_STEPS, MIN_BASE_KEY};
use std::ptr::{null, null_mut};
use testkit::{hex, Generator};

/// Computed by another program with HMAC-SHA256: the base key 00..0f after 1 and
/// after 64 steps.
const AFTER_1: &str = "fb75d8d5782da6c6cbf18ac43eca5da9e47f7e6ac7926a78e486226bd2af0f87";
const AFTER_64: &str = "c3617ffcd4c27a90c8f46b87de951e1fd5aa1ec00f32d1696b79a94615d7bf5c";

fn base_key(length: usize) -> Vec<u8> {
    (0..length).map(|i| i as u8).collect()
}

/// What a walk with room enough gives.
#[track_caller]
fn walked(suite: u64, base_key: &[u8], steps: u64) -> Vec<u8> {
    let (written, room) = compare_walk(suite, base_key, steps, 100);
    assert_eq!(written.number, DONE);
    room[..written.length].to_vec()
}

#[test]
fn known_keys() {
    for suite in 1..=4 {
        assert_eq!(walked(suite, &base_key(16), 1), hex(AFTER_1));
        assert_eq!(walked(suite, &base_key(16), 64), hex(AFTER_64));
    }
}

#[test]
fn every_number_of_steps() {
    for suite in SUITES {
        for length in [16, 31, 32, 33, 63, 64] {
            let base_key = base_key(length);
            let mut key = base_key.clone();
            for steps in 0..=MAX_STEPS {
                assert_eq!(walked(suite.number(), &base_key, steps), key);
                key = walked(suite.number(), &key, 1);
                assert_eq!(key.len(), suite.nh());
            }
        }
    }
}

/// m steps and then n are m + n.
#[test]
fn steps_add_up() {
    let mut generator = Generator::new(100);
    for _ in 0..200 {
        let suite = 1 + generator.u64() % 5;
        let length = MIN_BASE_KEY + generator.up_to(MAX_BASE_KEY - MIN_BASE_KEY);
        let base_key = generator.bytes(length);
        let m = generator.u64() % (MAX_STEPS + 1);
        let n = generator.u64() % (MAX_STEPS - m + 1);
        let key = walked(suite, &walked(suite, &base_key, m), n);
        assert_eq!(key, walked(suite, &base_key, m + n));
    }
}

/// Every length of the base key and of the room, and numbers around every edge.
#[test]
fn refusals_in_their_order() {
    let key = base_key(70);
    for suite in [0, 1, 3, 5, 6, 256 + 1, u64::MAX] {
        for length in [0, 15, 16, 32, 64, 65, 70] {
            for steps in [0, 1, 2, 64, 65, 256, u64::MAX] {
                for room in [0, 15, 16, 31, 32, 33, 63, 64, 65] {
                    let (written, _) = compare_walk(suite, &key[..length], steps, room);
                    let nh = if suite == 5 { 64 } else { 32 };
                    let result = if steps == 0 { length } else { nh };
                    let expected = match () {
                        () if !(1..=5).contains(&suite) => NO_SUCH_SUITE,
                        () if !(16..=64).contains(&length) => BASE_KEY_LENGTH,
                        () if steps > 64 => TOO_MANY_STEPS,
                        () if room < result => ROOM_SHORT,
                        () => DONE,
                    };
                    assert_eq!(written.number, expected);
                }
            }
        }
    }
}

#[test]
fn key_numbers_at_the_edges() {
    let number = |generation, step, bits| compare_kid(generation, step, bits).number;
    for bits in 0..=70 {
        let in_range = (1..=MAX_RATCHET_BITS).contains(&bits);
        assert_eq!(number(0, 0, bits) == DONE, in_range, "{bits} bits");
        if in_range {
            let beyond = 1 << (64 - bits);
            for step in [0, 1, (1 << bits) - 1, 1 << bits, u64::MAX - 1, u64::MAX] {
                let low = step & ((1 << bits) - 1);
                let last = compare_kid(beyond - 1, step, bits);
                assert_eq!(last.kid, ((beyond - 1) << bits) | low);
                assert_eq!(number(beyond, step, bits), BAD_RATCHET_KID);
                assert_eq!(number(u64::MAX, step, bits), BAD_RATCHET_KID);
                assert_eq!(compare_kid(0, step, bits).kid, low);
            }
        }
    }
    for bits in [255, 256 + 4, 1 << 32 | 4, u64::MAX] {
        assert_eq!(number(1, 1, bits), BAD_RATCHET_KID);
    }
}

#[test]
fn key_numbers_of_any_numbers() {
    let mut generator = Generator::new(101);
    for _ in 0..100_000 {
        let bits = generator.u64() % 20;
        compare_kid(generator.any_width(), generator.any_width(), bits);
    }
}

/// A receiver that missed some steps walks to the one that a frame names.
#[test]
fn a_receiver_catches_up() {
    const BITS: u64 = 4;
    for suite in SUITES.map(|suite| suite.number()) {
        let first = base_key(16);
        for (from, to) in [(0, 0), (0, 1), (3, 9), (14, 17)] {
            let sent = compare_kid(2, to, BITS).kid;
            let sender = add(
                &made(1),
                Role::Sending,
                suite,
                sent,
                &walked(suite, &first, to),
            );
            let sealed = done(&sender, seal(sent));

            let kid = comparison::compare_read_header(sealed.result()).kid;
            assert_eq!((kid >> BITS, kid % 16), (2, to % 16));
            let steps = kid.wrapping_sub(from) % 16;
            let key = walked(suite, &walked(suite, &first, from), steps);
            let receiver = add(&made(1), Role::Receiving, suite, kid, &key);
            let opening = Call::Open {
                frame: sealed.result(),
                metadata: b"",
                room: 7,
            };
            assert_eq!(done(&receiver, opening).result(), b"picture");
        }
    }
}

/// After 2^R steps the key number returns. While its record is there, and for
/// good where it was a sending one, it is not added again.
#[test]
fn a_key_number_that_returns() {
    let key = base_key(16);
    let kid = compare_kid(5, 1, 4).kid;
    assert_eq!(compare_kid(5, 17, 4).kid, kid);
    let later = walked(1, &key, 17);
    let again = |role| Call::Add {
        role,
        suite: 1,
        kid,
        base_key: &later,
    };
    let sender = add(&made(2), Role::Sending, 1, kid, &walked(1, &key, 1));
    let retired = after(&sender, Call::Remove { kid });
    for store in [&sender, &retired] {
        for role in [Role::Sending, Role::Receiving] {
            assert_eq!(compare(store, again(role)).number, KID_HELD);
        }
    }
    let receiver = add(&made(2), Role::Receiving, 1, kid, &walked(1, &key, 1));
    assert_eq!(compare(&receiver, again(Role::Receiving)).number, KID_HELD);
    let freed = after(&receiver, Call::Remove { kid });
    done(&freed, again(Role::Receiving));
}

#[test]
fn null_pointers_with_no_length() {
    let mut length = 1;
    // SAFETY: a length of 0 lends no byte, and `length` is a local.
    let number = unsafe { sframe_ratchet(1, null(), 0, 1, null_mut(), 0, &mut length) };
    assert_eq!((number, length), (BASE_KEY_LENGTH, 0));
    length = 1;
    let key = base_key(16);
    // SAFETY: the key is live and of that length; the rest as above.
    let number = unsafe { sframe_ratchet(1, key.as_ptr(), 16, 1, null_mut(), 0, &mut length) };
    assert_eq!((number, length), (ROOM_SHORT, 0));
    let mut kid = 1;
    // SAFETY: `kid` is a local.
    let number = unsafe { sframe_ratchet_kid(1, 1, 0, &mut kid) };
    assert_eq!((number, kid), (BAD_RATCHET_KID, 0));
}

#[track_caller]
fn add(store: &[u8], role: Role, suite: u64, kid: u64, base_key: &[u8]) -> Vec<u8> {
    let key = Key {
        suite: Suite::from_number(suite).expect("a suite"),
        kid,
        base_key: base_key.to_vec(),
    };
    with_key(store, role, &key)
}

fn seal(kid: u64) -> Call<'static> {
    Call::Seal {
        kid,
        metadata: b"",
        plaintext: b"picture",
        offset: 0,
        room: 64,
    }
}
