// SPDX-License-Identifier: MIT
//! HMAC, RFC 2104.

use crate::sha2::Hash;

/// HMAC over the hash `H`, fed piece by piece.
#[derive(Clone)]
pub struct Hmac<H> {
    inner: H,
    outer: H,
}

impl<H: Hash> Hmac<H> {
    /// Starts under `key`. One longer than a block is hashed first (section 2).
    pub fn new(key: &[u8]) -> Self {
        if key.len() > H::BLOCK {
            return Self::new(H::digest(key).as_ref());
        }
        let mut block = vec![0; H::BLOCK];
        block[..key.len()].copy_from_slice(key);
        Hmac {
            inner: padded(&block, 0x36),
            outer: padded(&block, 0x5c),
        }
    }

    /// Goes on under `key` from what the inner hash has taken.
    pub fn resume(key: &[u8], inner: H) -> Self {
        Hmac {
            inner,
            ..Self::new(key)
        }
    }

    /// The inner hash so far.
    pub fn inner(&self) -> &H {
        &self.inner
    }

    /// Takes the next bytes of the message.
    pub fn update(&mut self, message: &[u8]) {
        self.inner.update(message);
    }

    /// The tag of all that was taken.
    pub fn finish(mut self) -> H::Digest {
        self.outer.update(self.inner.finish().as_ref());
        self.outer.finish()
    }
}

/// The tag of a whole message.
pub fn hmac<H: Hash>(key: &[u8], message: &[u8]) -> H::Digest {
    let mut hmac = Hmac::<H>::new(key);
    hmac.update(message);
    hmac.finish()
}

/// A hash that has taken the key block, each byte xor `pad`.
fn padded<H: Hash>(key_block: &[u8], pad: u8) -> H {
    let block: Vec<u8> = key_block.iter().map(|byte| byte ^ pad).collect();
    let mut hash = H::new();
    hash.update(&block);
    hash
}
