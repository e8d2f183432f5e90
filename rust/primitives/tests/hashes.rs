// SPDX-License-Identifier: MIT
//! SHA-2, HMAC and HKDF beside the reference's.

use primitives::{hash, hkdf, hmac, Hash};
use reference::sha2::{Sha256, Sha512};
use testkit::{check_output, check_refused, Generator};

const HASHES: [Hash; 2] = [Hash::Sha256, Hash::Sha512];

/// Lengths on both sides of where padding takes another block.
const PADDING_EDGES: [usize; 16] = [
    0, 1, 54, 55, 56, 63, 64, 65, 110, 111, 112, 119, 120, 127, 128, 129,
];

/// Both hashes of the reference, by the layer's name for them.
mod by_name {
    use super::*;
    use reference::sha2::Hash as _;

    pub fn hash(hash: Hash, message: &[u8]) -> Vec<u8> {
        match hash {
            Hash::Sha256 => Sha256::digest(message).to_vec(),
            Hash::Sha512 => Sha512::digest(message).to_vec(),
        }
    }

    pub fn hmac(hash: Hash, key: &[u8], message: &[u8]) -> Vec<u8> {
        match hash {
            Hash::Sha256 => reference::hmac::hmac::<Sha256>(key, message).to_vec(),
            Hash::Sha512 => reference::hmac::hmac::<Sha512>(key, message).to_vec(),
        }
    }

    pub fn hkdf(hash: Hash, ikm: &[u8], info: &[u8], length: usize) -> Vec<u8> {
        use reference::hkdf::{expand, extract};
        let mut okm = vec![0; length];
        match hash {
            Hash::Sha256 => expand::<Sha256>(&extract::<Sha256>(b"", ikm), info, &mut okm),
            Hash::Sha512 => expand::<Sha512>(&extract::<Sha512>(b"", ikm), info, &mut okm),
        }
        okm
    }
}

/// Two places to cut a message at, in order.
fn cuts(generator: &mut Generator, length: usize) -> [usize; 2] {
    let second = generator.up_to(length);
    [generator.up_to(second), second]
}

#[test]
fn hashes_of_every_short_length() {
    let mut generator = Generator::new(0x6861_7368_6573_0001);
    let message = generator.bytes(300);
    for name in HASHES {
        for length in 0..=message.len() {
            let message = &message[..length];
            let digest = by_name::hash(name, message);
            for _ in 0..4 {
                let cuts = cuts(&mut generator, length);
                check_output(&digest, |room| hash(name, message, cuts, room));
            }
        }
    }
}

#[test]
fn hashes_at_padding_edges_cut_everywhere() {
    let message = Generator::new(0x6861_7368_6573_0002).bytes(129);
    for name in HASHES {
        for length in PADDING_EDGES {
            let message = &message[..length];
            let digest = by_name::hash(name, message);
            for first in 0..=length {
                check_output(&digest, |room| hash(name, message, [first, length], room));
            }
        }
    }
}

#[test]
fn hashes_of_random_messages() {
    let mut generator = Generator::new(0x6861_7368_6573_0003);
    for name in HASHES {
        for _ in 0..2_000 {
            let length = generator.up_to(4_000);
            let message = generator.bytes(length);
            let cuts = cuts(&mut generator, length);
            let digest = by_name::hash(name, &message);
            check_output(&digest, |room| hash(name, &message, cuts, room));
        }
    }
}

#[test]
fn cuts_out_of_order_are_refused() {
    for name in HASHES {
        for cuts in [[2, 1], [0, 4], [4, 4], [usize::MAX, usize::MAX]] {
            check_refused(64, |room| hash(name, b"abc", cuts, room));
            check_refused(64, |room| hmac(name, b"key", b"abc", cuts, room));
        }
    }
}

fn check_hmac(generator: &mut Generator, name: Hash, key_length: usize) {
    let key = generator.bytes(key_length);
    let length = match generator.one_in(2) {
        true => *generator.pick(&PADDING_EDGES),
        false => generator.up_to(3_000),
    };
    let message = generator.bytes(length);
    let cuts = cuts(generator, length);
    let tag = by_name::hmac(name, &key, &message);
    check_output(&tag, |room| hmac(name, &key, &message, cuts, room));
}

/// Keys shorter than a block, as long as one, and longer.
#[test]
fn hmac_under_every_key_length() {
    let mut generator = Generator::new(0x6861_7368_6573_0004);
    for name in HASHES {
        for key_length in 0..=140 {
            for _ in 0..10 {
                check_hmac(&mut generator, name, key_length);
            }
        }
    }
}

#[test]
fn hmac_under_long_keys() {
    let mut generator = Generator::new(0x6861_7368_6573_0005);
    for name in HASHES {
        for _ in 0..500 {
            let key_length = generator.up_to(1_000);
            check_hmac(&mut generator, name, key_length);
        }
    }
}

#[test]
fn hkdf_to_every_length() {
    let mut generator = Generator::new(0x6861_7368_6573_0006);
    for name in HASHES {
        for length in 0..=64 {
            for _ in 0..20 {
                let (ikm_length, info_length) = (generator.up_to(80), generator.up_to(80));
                let ikm = generator.bytes(ikm_length);
                let info = generator.bytes(info_length);
                let mut okm = vec![0; length];
                assert!(hkdf(name, &ikm, &info, &mut okm));
                assert_eq!(okm, by_name::hkdf(name, &ikm, &info, length));
            }
        }
    }
}

/// RFC 5869: at most 255 times the hash's length.
#[test]
fn hkdf_to_the_longest_length() {
    for (name, longest) in [(Hash::Sha256, 255 * 32), (Hash::Sha512, 255 * 64)] {
        let mut okm = vec![0; longest];
        assert!(hkdf(name, b"ikm", b"info", &mut okm));
        assert_eq!(okm, by_name::hkdf(name, b"ikm", b"info", longest));
        check_refused(longest + 1, |room| hkdf(name, b"ikm", b"info", room));
    }
}
