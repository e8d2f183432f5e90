// SPDX-License-Identifier: MIT
//! AES-GCM with 12-byte nonces and full tags, NIST SP 800-38D section 7.

use crate::aes::{Aes, BLOCK};
use crate::ctr::{self, NONCE};
use crate::ghash::HashKey;

/// The tag length in bytes.
pub const TAG: usize = 16;

/// The block count that masks the tag: J0 of a 12-byte nonce.
const MASK_COUNT: u32 = 1;
/// The block count at which the data starts.
const DATA_COUNT: u32 = 2;

/// A key made ready: its round keys and its hash key.
#[derive(Clone)]
pub struct Gcm {
    aes: Aes,
    hash_key: HashKey,
}

impl Gcm {
    /// Makes a key of 16 or 32 bytes ready.
    pub fn new(key: &[u8]) -> Self {
        let aes = Aes::new(key);
        let hash_key = HashKey::new(aes.encrypt(&[0; BLOCK]));
        Gcm { aes, hash_key }
    }

    /// Encrypts or decrypts `data` in place.
    pub fn apply(&self, nonce: &[u8; NONCE], data: &mut [u8]) {
        ctr::apply(&self.aes, nonce, DATA_COUNT, data);
    }

    /// As [`apply`](Self::apply), where `data` begins at byte `at` of the whole.
    pub fn apply_from(&self, nonce: &[u8; NONCE], at: usize, data: &mut [u8]) {
        ctr::apply_from(&self.aes, nonce, DATA_COUNT, at, data);
    }

    /// The tag of associated data and ciphertext.
    pub fn tag(&self, nonce: &[u8; NONCE], aad: &[u8], ciphertext: &[u8]) -> [u8; TAG] {
        self.mask(nonce, self.hash_key.hash(aad, ciphertext))
    }

    /// The tag that a hash gives.
    pub fn mask(&self, nonce: &[u8; NONCE], hash: u128) -> [u8; TAG] {
        let mask = self.aes.encrypt(&ctr::counter_block(nonce, MASK_COUNT));
        (hash ^ u128::from_be_bytes(mask)).to_be_bytes()
    }

    /// The hash key.
    pub fn hash_key(&self) -> &HashKey {
        &self.hash_key
    }
}
