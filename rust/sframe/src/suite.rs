// SPDX-License-Identifier: MIT
//! The cipher suites and their sizes.

use crate::Refusal;
use core::fmt;

/// A cipher suite of RFC 9605, by its registered number.
///
/// ```
/// use sframe::{Refusal, Suite};
///
/// let suite = Suite::from_number(4).unwrap();
/// assert_eq!(suite, Suite::Aes128GcmSha256_128);
/// assert_eq!((suite.nk(), suite.nn(), suite.nt()), (16, 12, 16));
/// assert_eq!(suite.to_string(), "AES_128_GCM_SHA256_128");
/// assert_eq!(Suite::from_number(6), None);
/// assert_eq!(Suite::try_from(6), Err(Refusal::NoSuchSuite));
/// ```
///
/// A bare number does not pass for a suite:
///
/// ```compile_fail,E0308
/// use sframe::{Kid, Role, Store, RECORD};
///
/// let mut bytes = [0; RECORD];
/// let mut store = Store::make(&mut bytes)?;
/// store.add(Role::Sending, Kid(200), 6, &[7; 16])?;
/// # Ok::<(), sframe::Refusal>(())
/// ```
#[derive(Clone, Copy, Debug, PartialEq, Eq, Hash, PartialOrd, Ord)]
#[non_exhaustive]
pub enum Suite {
    /// AES-128 in counter mode, HMAC-SHA256 with a tag of 80 bits.
    Aes128CtrHmacSha256_80 = 1,
    /// AES-128 in counter mode, HMAC-SHA256 with a tag of 64 bits.
    Aes128CtrHmacSha256_64 = 2,
    /// AES-128 in counter mode, HMAC-SHA256 with a tag of 32 bits. No new key of
    /// this suite is for sending.
    Aes128CtrHmacSha256_32 = 3,
    /// AES-128 in Galois/counter mode, keys from SHA-256.
    Aes128GcmSha256_128 = 4,
    /// AES-256 in Galois/counter mode, keys from SHA-512.
    Aes256GcmSha512_128 = 5,
}

use Suite::*;

impl Suite {
    /// Every suite, by rising number.
    pub const ALL: [Suite; 5] = [
        Aes128CtrHmacSha256_80,
        Aes128CtrHmacSha256_64,
        Aes128CtrHmacSha256_32,
        Aes128GcmSha256_128,
        Aes256GcmSha512_128,
    ];

    /// The suite of a number.
    pub fn from_number(number: u64) -> Option<Suite> {
        Self::ALL.into_iter().find(|suite| suite.number() == number)
    }

    /// The suite's number.
    pub const fn number(self) -> u64 {
        self as u64
    }

    /// Nh: the length of the hash, and of a base key after a step of the ratchet.
    pub const fn nh(self) -> usize {
        match self {
            Aes128CtrHmacSha256_80
            | Aes128CtrHmacSha256_64
            | Aes128CtrHmacSha256_32
            | Aes128GcmSha256_128 => 32,
            Aes256GcmSha512_128 => 64,
        }
    }

    /// Nka: how many bytes of the key encrypt, where the others authenticate.
    /// `None` where one key does both.
    pub const fn nka(self) -> Option<usize> {
        match self {
            Aes128CtrHmacSha256_80 | Aes128CtrHmacSha256_64 | Aes128CtrHmacSha256_32 => Some(16),
            Aes128GcmSha256_128 | Aes256GcmSha512_128 => None,
        }
    }

    /// Nk: the length of the key.
    pub const fn nk(self) -> usize {
        match self {
            Aes128CtrHmacSha256_80 | Aes128CtrHmacSha256_64 | Aes128CtrHmacSha256_32 => 48,
            Aes128GcmSha256_128 => 16,
            Aes256GcmSha512_128 => 32,
        }
    }

    /// Nn: the length of the nonce and of the salt.
    pub const fn nn(self) -> usize {
        12
    }

    /// Nt: the length of the tag.
    pub const fn nt(self) -> usize {
        match self {
            Aes128CtrHmacSha256_80 => 10,
            Aes128CtrHmacSha256_64 => 8,
            Aes128CtrHmacSha256_32 => 4,
            Aes128GcmSha256_128 | Aes256GcmSha512_128 => 16,
        }
    }
}

/// Refuses with [`Refusal::NoSuchSuite`].
impl TryFrom<u64> for Suite {
    type Error = Refusal;

    fn try_from(number: u64) -> Result<Self, Refusal> {
        Suite::from_number(number).ok_or(Refusal::NoSuchSuite)
    }
}

/// The name in the registry of cipher suites.
impl fmt::Display for Suite {
    fn fmt(&self, f: &mut fmt::Formatter) -> fmt::Result {
        f.pad(match self {
            Aes128CtrHmacSha256_80 => "AES_128_CTR_HMAC_SHA256_80",
            Aes128CtrHmacSha256_64 => "AES_128_CTR_HMAC_SHA256_64",
            Aes128CtrHmacSha256_32 => "AES_128_CTR_HMAC_SHA256_32",
            Aes128GcmSha256_128 => "AES_128_GCM_SHA256_128",
            Aes256GcmSha512_128 => "AES_256_GCM_SHA512_128",
        })
    }
}
