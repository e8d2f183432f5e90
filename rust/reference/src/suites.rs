// SPDX-License-Identifier: MIT
//! The cipher suites, RFC 9605 sections 4.4.2 and 4.5.

use crate::hkdf;
use crate::sha2::{Hash, Sha256, Sha512};

/// Nn: the length of a salt and of a nonce, the same in every suite.
pub const NN: usize = 12;

/// A cipher suite, by its registered number (section 8.1).
#[derive(Clone, Copy, Debug, PartialEq, Eq)]
pub enum Suite {
    /// AES-128-CTR with an 80-bit tag of HMAC-SHA256.
    Aes128CtrHmacSha256_80 = 1,
    /// AES-128-CTR with a 64-bit tag of HMAC-SHA256.
    Aes128CtrHmacSha256_64 = 2,
    /// AES-128-CTR with a 32-bit tag of HMAC-SHA256.
    Aes128CtrHmacSha256_32 = 3,
    /// AES-128-GCM with SHA-256.
    Aes128GcmSha256_128 = 4,
    /// AES-256-GCM with SHA-512.
    Aes256GcmSha512_128 = 5,
}

use Suite::*;

/// Every suite, by rising number.
pub const SUITES: [Suite; 5] = [
    Aes128CtrHmacSha256_80,
    Aes128CtrHmacSha256_64,
    Aes128CtrHmacSha256_32,
    Aes128GcmSha256_128,
    Aes256GcmSha512_128,
];

impl Suite {
    /// The suite of a number.
    pub fn from_number(number: u64) -> Option<Suite> {
        SUITES.into_iter().find(|suite| suite.number() == number)
    }

    /// The suite's number.
    pub fn number(self) -> u64 {
        self as u64
    }

    /// Nh: the length of the hash.
    pub fn nh(self) -> usize {
        match self {
            Aes256GcmSha512_128 => 64,
            _ => 32,
        }
    }

    /// Nka: how many bytes of the key encrypt, the others authenticating.
    /// `None` where the suite does not part its key.
    pub fn nka(self) -> Option<usize> {
        match self {
            Aes128CtrHmacSha256_80 | Aes128CtrHmacSha256_64 | Aes128CtrHmacSha256_32 => Some(16),
            Aes128GcmSha256_128 | Aes256GcmSha512_128 => None,
        }
    }

    /// Nk: the length of the key.
    pub fn nk(self) -> usize {
        match self {
            Aes128CtrHmacSha256_80 | Aes128CtrHmacSha256_64 | Aes128CtrHmacSha256_32 => 48,
            Aes128GcmSha256_128 => 16,
            Aes256GcmSha512_128 => 32,
        }
    }

    /// Nt: the length of the tag.
    pub fn nt(self) -> usize {
        match self {
            Aes128CtrHmacSha256_80 => 10,
            Aes128CtrHmacSha256_64 => 8,
            Aes128CtrHmacSha256_32 => 4,
            Aes128GcmSha256_128 | Aes256GcmSha512_128 => 16,
        }
    }

    /// The key and the salt of `kid`.
    pub fn derive_key_salt(self, kid: u64, base_key: &[u8]) -> (Vec<u8>, [u8; NN]) {
        match self {
            Aes256GcmSha512_128 => self.derive_with::<Sha512>(kid, base_key),
            _ => self.derive_with::<Sha256>(kid, base_key),
        }
    }

    fn derive_with<H: Hash>(self, kid: u64, base_key: &[u8]) -> (Vec<u8>, [u8; NN]) {
        let secret = hkdf::extract::<H>(b"", base_key);
        let mut key = vec![0; self.nk()];
        hkdf::expand::<H>(secret.as_ref(), &self.key_label(kid), &mut key);
        let mut salt = [0; NN];
        hkdf::expand::<H>(secret.as_ref(), &self.salt_label(kid), &mut salt);
        (key, salt)
    }

    /// The label of a key.
    pub fn key_label(self, kid: u64) -> Vec<u8> {
        self.label(b"SFrame 1.0 Secret key ", kid)
    }

    /// The label of a salt.
    pub fn salt_label(self, kid: u64) -> Vec<u8> {
        self.label(b"SFrame 1.0 Secret salt ", kid)
    }

    fn label(self, text: &[u8], kid: u64) -> Vec<u8> {
        let suite = self as u16;
        [text, &kid.to_be_bytes(), &suite.to_be_bytes()].concat()
    }
}

/// The nonce of a counter: the salt xor the counter as `NN` bytes (section 4.4.3).
pub fn nonce(salt: &[u8; NN], ctr: u64) -> [u8; NN] {
    let mut nonce = *salt;
    let low = &mut nonce[NN - size_of::<u64>()..];
    for (byte, ctr) in low.iter_mut().zip(ctr.to_be_bytes()) {
        *byte ^= ctr;
    }
    nonce
}
