// SPDX-License-Identifier: MIT
//! Each suite's AEAD, RFC 9605 section 4.5.

use crate::aes::Aes;
use crate::ctr;
use crate::gcm::Gcm;
use crate::hmac::Hmac;
use crate::sha2::Sha256;
use crate::suites::{Suite, NN};

/// A suite's key made ready.
pub struct Aead {
    suite: Suite,
    cipher: Cipher,
}

enum Cipher {
    /// AES-CTR and HMAC under the two parts of the key (section 4.5.1).
    CtrHmac {
        aes: Aes,
        hmac: Hmac<Sha256>,
    },
    Gcm(Gcm),
}

impl Aead {
    /// Makes a key of the suite's Nk bytes ready.
    pub fn new(suite: Suite, key: &[u8]) -> Self {
        assert_eq!(key.len(), suite.nk());
        let cipher = match suite.nka() {
            Some(nka) => {
                let (enc_key, auth_key) = key.split_at(nka);
                Cipher::CtrHmac {
                    aes: Aes::new(enc_key),
                    hmac: Hmac::new(auth_key),
                }
            }
            None => Cipher::Gcm(Gcm::new(key)),
        };
        Aead { suite, cipher }
    }

    /// Encrypts `data` in place and answers its tag, Nt bytes.
    pub fn encrypt(&self, nonce: &[u8; NN], aad: &[u8], data: &mut [u8]) -> Vec<u8> {
        self.apply_key_stream(nonce, data);
        self.tag(nonce, aad, data)
    }

    /// Whether `tag` is the tag of `ciphertext`. Every byte is looked at.
    #[must_use]
    pub fn verify(&self, nonce: &[u8; NN], aad: &[u8], ciphertext: &[u8], tag: &[u8]) -> bool {
        let expected = self.tag(nonce, aad, ciphertext);
        let differing = expected.iter().zip(tag).fold(0, |d, (a, b)| d | (a ^ b));
        tag.len() == expected.len() && differing == 0
    }

    /// Turns plaintext into ciphertext, or back, in place.
    pub fn apply_key_stream(&self, nonce: &[u8; NN], data: &mut [u8]) {
        match &self.cipher {
            Cipher::CtrHmac { aes, .. } => ctr::apply(aes, nonce, 0, data),
            Cipher::Gcm(gcm) => gcm.apply(nonce, data),
        }
    }

    fn tag(&self, nonce: &[u8; NN], aad: &[u8], ciphertext: &[u8]) -> Vec<u8> {
        let nt = self.suite.nt();
        match &self.cipher {
            Cipher::CtrHmac { hmac, .. } => {
                let mut hmac = hmac.clone();
                for length in [aad.len(), ciphertext.len(), nt] {
                    hmac.update(&(length as u64).to_be_bytes());
                }
                hmac.update(nonce);
                hmac.update(aad);
                hmac.update(ciphertext);
                hmac.finish()[..nt].to_vec()
            }
            Cipher::Gcm(gcm) => gcm.tag(nonce, aad, ciphertext).to_vec(),
        }
    }
}
