// SPDX-License-Identifier: MIT
//! HKDF, RFC 5869.

use crate::hmac::{hmac, Hmac};
use crate::sha2::Hash;

/// HKDF-Extract (section 2.2). An empty salt gives the same key as the
/// `HashLen` zeros that the section names: HMAC pads both to one block of zeros.
pub fn extract<H: Hash>(salt: &[u8], ikm: &[u8]) -> H::Digest {
    hmac::<H>(salt, ikm)
}

/// HKDF-Expand (section 2.3): fills `okm`, at most 255 times the hash's length.
pub fn expand<H: Hash>(prk: &[u8], info: &[u8], okm: &mut [u8]) {
    let mut previous: Option<H::Digest> = None;
    for (i, part) in okm.chunks_mut(size_of::<H::Digest>()).enumerate() {
        let count = u8::try_from(i + 1).expect("at most 255 blocks");
        let mut t = Hmac::<H>::new(prk);
        if let Some(previous) = &previous {
            t.update(previous.as_ref());
        }
        t.update(info);
        t.update(&[count]);
        let block = t.finish();
        part.copy_from_slice(&block.as_ref()[..part.len()]);
        previous = Some(block);
    }
}
