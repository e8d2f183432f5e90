// SPDX-License-Identifier: MIT
//! The sealing layer's primitives. The layer keeps them to itself; the library
//! `sframe_test` exports them so that they can be compared and measured.
//!
//! Each function writes its result at the front of the room lent last and
//! answers `true`, or refuses its input and changes nothing. Where a function
//! asks for a room of one size only, it says so.

#![deny(unsafe_op_in_unsafe_fn)]

mod ffi;

/// One of the two hashes.
#[derive(Clone, Copy, Debug, PartialEq, Eq)]
pub enum Hash {
    /// SHA-256.
    Sha256,
    /// SHA-512.
    Sha512,
}

/// The hash of `message`, fed in three pieces that end at the two cuts and at
/// the message's end.
#[must_use]
pub fn hash(hash: Hash, message: &[u8], cuts: [usize; 2], digest: &mut [u8]) -> bool {
    let call = match hash {
        Hash::Sha256 => ffi::sframe_test_sha256,
        Hash::Sha512 => ffi::sframe_test_sha512,
    };
    // SAFETY: each pointer and length is a live slice, and the one that is
    // written overlaps no other. This holds for every call below.
    done(unsafe {
        call(
            message.as_ptr(),
            message.len(),
            cuts[0],
            cuts[1],
            digest.as_mut_ptr(),
            digest.len(),
        )
    })
}

/// HMAC of `message` under `key`, fed as in [`hash`].
#[must_use]
pub fn hmac(hash: Hash, key: &[u8], message: &[u8], cuts: [usize; 2], tag: &mut [u8]) -> bool {
    let call = match hash {
        Hash::Sha256 => ffi::sframe_test_hmac_sha256,
        Hash::Sha512 => ffi::sframe_test_hmac_sha512,
    };
    // SAFETY: as in `hash`.
    done(unsafe {
        call(
            key.as_ptr(),
            key.len(),
            message.as_ptr(),
            message.len(),
            cuts[0],
            cuts[1],
            tag.as_mut_ptr(),
            tag.len(),
        )
    })
}

/// HKDF-Extract with an empty salt, then HKDF-Expand to all of `okm`, at most
/// 255 times the hash's length.
#[must_use]
pub fn hkdf(hash: Hash, ikm: &[u8], info: &[u8], okm: &mut [u8]) -> bool {
    let call = match hash {
        Hash::Sha256 => ffi::sframe_test_hkdf_sha256,
        Hash::Sha512 => ffi::sframe_test_hkdf_sha512,
    };
    // SAFETY: as in `hash`.
    done(unsafe {
        call(
            ikm.as_ptr(),
            ikm.len(),
            info.as_ptr(),
            info.len(),
            okm.as_mut_ptr(),
            okm.len(),
        )
    })
}

/// AES encryption of one block.
#[must_use]
pub fn aes(key: &[u8], block: &[u8], out: &mut [u8]) -> bool {
    // SAFETY: as in `hash`.
    done(unsafe {
        ffi::sframe_test_aes(
            key.as_ptr(),
            key.len(),
            block.as_ptr(),
            block.len(),
            out.as_mut_ptr(),
            out.len(),
        )
    })
}

/// AES encryption of one block `n` times over, on one key schedule. `out` has
/// 16 bytes.
#[must_use]
pub fn aes_repeat(key: &[u8], block: &[u8], n: u32, out: &mut [u8]) -> bool {
    // SAFETY: as in `hash`.
    done(unsafe {
        ffi::sframe_test_aes_repeat(
            key.as_ptr(),
            key.len(),
            block.as_ptr(),
            block.len(),
            n,
            out.as_mut_ptr(),
            out.len(),
        )
    })
}

/// `input` xor the key stream of `nonce` from block `count` on.
#[must_use]
pub fn ctr(key: &[u8], nonce: &[u8], count: u32, input: &[u8], out: &mut [u8]) -> bool {
    // SAFETY: as in `hash`.
    done(unsafe {
        ffi::sframe_test_ctr(
            key.as_ptr(),
            key.len(),
            nonce.as_ptr(),
            nonce.len(),
            count,
            input.as_ptr(),
            input.len(),
            out.as_mut_ptr(),
            out.len(),
        )
    })
}

/// What a GCM call is given, besides its text. The associated data is the
/// header, then the metadata.
#[derive(Clone, Copy, Debug)]
pub struct Gcm<'a> {
    /// The key.
    pub key: &'a [u8],
    /// The nonce.
    pub nonce: &'a [u8],
    /// The first part of the associated data.
    pub header: &'a [u8],
    /// The second part of the associated data.
    pub metadata: &'a [u8],
}

impl Gcm<'_> {
    /// The ciphertext of `plaintext`, then its tag.
    #[must_use]
    pub fn seal(self, plaintext: &[u8], out: &mut [u8]) -> bool {
        self.call(ffi::sframe_test_gcm_seal, plaintext, out)
    }

    /// The tag of `ciphertext`.
    #[must_use]
    pub fn tag(self, ciphertext: &[u8], out: &mut [u8]) -> bool {
        self.call(ffi::sframe_test_gcm_tag, ciphertext, out)
    }

    fn call(self, call: ffi::Gcm, text: &[u8], out: &mut [u8]) -> bool {
        // SAFETY: as in `hash`.
        done(unsafe {
            call(
                self.key.as_ptr(),
                self.key.len(),
                self.nonce.as_ptr(),
                self.nonce.len(),
                self.header.as_ptr(),
                self.header.len(),
                self.metadata.as_ptr(),
                self.metadata.len(),
                text.as_ptr(),
                text.len(),
                out.as_mut_ptr(),
                out.len(),
            )
        })
    }
}

/// Fills `key`, which has the suite's Nk bytes, and `salt`, which has 12, from
/// a base key of at most 64 bytes.
#[must_use]
pub fn derive(suite: u64, base_key: &[u8], kid: u64, key: &mut [u8], salt: &mut [u8]) -> bool {
    // SAFETY: as in `hash`, with two slices that are written.
    done(unsafe {
        ffi::sframe_test_derive(
            suite,
            base_key.as_ptr(),
            base_key.len(),
            kid,
            key.as_mut_ptr(),
            key.len(),
            salt.as_mut_ptr(),
            salt.len(),
        )
    })
}

/// What decryption answers.
#[derive(Clone, Copy, Debug, PartialEq, Eq)]
pub enum Decrypted {
    /// The plaintext stands at the front of the room.
    Done,
    /// The tag differs. Nothing is changed.
    TagDiffers,
    /// No such suite, or a wrong size. Nothing is changed.
    Refused,
}

/// What a call of a suite's AEAD is given, besides its text. The associated
/// data is the header, then the metadata.
#[derive(Clone, Copy, Debug)]
pub struct Aead<'a> {
    /// The suite's number.
    pub suite: u64,
    /// The key.
    pub key: &'a [u8],
    /// The nonce.
    pub nonce: &'a [u8],
    /// The first part of the associated data.
    pub header: &'a [u8],
    /// The second part of the associated data.
    pub metadata: &'a [u8],
}

impl Aead<'_> {
    /// Fills `out`, which has Nt bytes more than `plaintext`, with the
    /// ciphertext and the tag.
    #[must_use]
    pub fn encrypt(self, plaintext: &[u8], out: &mut [u8]) -> bool {
        done(self.call(ffi::sframe_test_suite_encrypt, plaintext, out))
    }

    /// The plaintext of a ciphertext and its tag.
    #[must_use]
    pub fn decrypt(self, sealed: &[u8], out: &mut [u8]) -> Decrypted {
        match self.call(ffi::sframe_test_suite_decrypt, sealed, out) {
            0 => Decrypted::Done,
            1 => Decrypted::Refused,
            13 => Decrypted::TagDiffers,
            result => panic!("decryption answers 0, 1 or 13, not {result}"),
        }
    }

    fn call(self, call: ffi::Aead, text: &[u8], out: &mut [u8]) -> u32 {
        // SAFETY: as in `hash`.
        unsafe {
            call(
                self.suite,
                self.key.as_ptr(),
                self.key.len(),
                self.nonce.as_ptr(),
                self.nonce.len(),
                self.header.as_ptr(),
                self.header.len(),
                self.metadata.as_ptr(),
                self.metadata.len(),
                text.as_ptr(),
                text.len(),
                out.as_mut_ptr(),
                out.len(),
            )
        }
    }
}

/// Whether a result says done.
fn done(result: u32) -> bool {
    assert!(result <= 1, "a primitive answers 0 or 1");
    result == 0
}
