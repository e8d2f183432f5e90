// SPDX-License-Identifier: MIT
//! The ratchet of base keys: keys computed elsewhere, and the edges.

use reference::ratchet::{kid, next_key, walk, MAX_STEPS};
use reference::refusal::Refusal;
use reference::suites::SUITES;
use testkit::hex;

fn walked(suite: u64, base_key: &[u8], steps: u64) -> Result<Vec<u8>, Refusal> {
    let mut room = [0; 64];
    let length = walk(suite, base_key, steps, &mut room)?;
    Ok(room[..length].to_vec())
}

/// Computed by another program with HMAC-SHA256.
#[test]
fn known_keys() {
    let base_key: Vec<u8> = (0..16).collect();
    for suite in 1..=4 {
        let first = "fb75d8d5782da6c6cbf18ac43eca5da9e47f7e6ac7926a78e486226bd2af0f87";
        assert_eq!(walked(suite, &base_key, 1), Ok(hex(first)));
        let last = "c3617ffcd4c27a90c8f46b87de951e1fd5aa1ec00f32d1696b79a94615d7bf5c";
        assert_eq!(walked(suite, &base_key, MAX_STEPS), Ok(hex(last)));
    }
}

#[test]
fn a_walk_is_its_steps() {
    for suite in SUITES {
        let mut key = vec![7; 20];
        for steps in 0..=MAX_STEPS {
            assert_eq!(walked(suite.number(), &[7; 20], steps).unwrap(), key);
            key = next_key(suite, &key);
            assert_eq!(key.len(), suite.nh());
        }
        let beyond = walked(suite.number(), &[7; 20], MAX_STEPS + 1);
        assert_eq!(beyond, Err(Refusal::TooManySteps));
    }
}

#[test]
fn key_numbers() {
    assert_eq!(kid(0, 0, 1), Ok(0));
    assert_eq!(kid(2, 17, 4), Ok(0x21));
    assert_eq!(kid((1 << 48) - 1, u64::MAX, 16), Ok(u64::MAX));
    for (generation, bits) in [(1 << 48, 16), (1 << 63, 1), (0, 0), (0, 17)] {
        assert_eq!(kid(generation, 0, bits), Err(Refusal::BadRatchetKid));
    }
}
