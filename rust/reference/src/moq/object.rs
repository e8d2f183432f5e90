// SPDX-License-Identifier: MIT
//! Keys, associated data and nonce of an object.

use crate::hkdf;
use crate::sha2::{Hash, Sha256, Sha512};
use crate::suites::{Suite, NN};

/// An integer of the draft's associated data: RFC 9000 section 16, in the
/// fewest bytes. That section ends below 2^62; from there on it is ff and then
/// eight bytes.
pub fn varint(value: u64) -> Vec<u8> {
    match value {
        0..=0x3f => vec![value as u8],
        0x40..=0x3fff => (0x4000 | value as u16).to_be_bytes().to_vec(),
        0x4000..=0x3fff_ffff => (0x8000_0000 | value as u32).to_be_bytes().to_vec(),
        0x4000_0000..=0x3fff_ffff_ffff_ffff => (0b11 << 62 | value).to_be_bytes().to_vec(),
        _ => [&[0xff], &value.to_be_bytes()[..]].concat(),
    }
}

/// SECURE_OBJECT_AAD. `name` is the serialized full track name.
pub fn aad(key_id: u64, group: u64, object: u32, name: &[u8], properties: &[u8]) -> Vec<u8> {
    let ids = [varint(key_id), varint(group), varint(object.into())].concat();
    [&ids, name, properties].concat()
}

/// moq_key and moq_salt.
pub fn derive_key_salt(
    suite: Suite,
    key_id: u64,
    track_base_key: &[u8],
    name: &[u8],
) -> (Vec<u8>, [u8; NN]) {
    match suite {
        Suite::Aes256GcmSha512_128 => derive_with::<Sha512>(suite, key_id, track_base_key, name),
        _ => derive_with::<Sha256>(suite, key_id, track_base_key, name),
    }
}

fn derive_with<H: Hash>(
    suite: Suite,
    key_id: u64,
    track_base_key: &[u8],
    name: &[u8],
) -> (Vec<u8>, [u8; NN]) {
    let moq_secret = hkdf::extract::<H>(b"", track_base_key);
    let cipher_suite = (suite.number() as u16).to_be_bytes();
    let label = |text: &[u8]| [text, name, &cipher_suite, &key_id.to_be_bytes()].concat();

    let mut key = vec![0; suite.nk()];
    let moq_key_label = label(b"MOQ 1.0 Secure Objects Secret key ");
    hkdf::expand::<H>(moq_secret.as_ref(), &moq_key_label, &mut key);
    let mut salt = [0; NN];
    let moq_salt_label = label(b"MOQ 1.0 Secret salt ");
    hkdf::expand::<H>(moq_secret.as_ref(), &moq_salt_label, &mut salt);
    (key, salt)
}

/// The nonce: the salt xor the counter, which is the Group ID in 64 bits and
/// then the Object ID in 32.
pub fn nonce(salt: &[u8; NN], group: u64, object: u32) -> [u8; NN] {
    let ctr = u128::from(group) << 32 | u128::from(object);
    let mut nonce = *salt;
    for (byte, ctr) in nonce.iter_mut().zip(&ctr.to_be_bytes()[16 - NN..]) {
        *byte ^= ctr;
    }
    nonce
}
