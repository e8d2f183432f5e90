// SPDX-License-Identifier: MIT
//! A frame sealed in pieces, or a received one checked in pieces: the running
//! state that goes from call to call, in lent bytes.
//!
//! | bytes | content |
//! |---|---|
//! | 0 | 1 sealing, 2 checking |
//! | 1 | suite |
//! | 2-3 | bytes of associated data |
//! | 4-7 | bytes announced |
//! | 8-19 | nonce |
//! | 20-67 | key, zero past Nk |
//! | 68-71 | bytes taken so far |
//! | 72-103 | the value of the tag's hash so far: SHA-256's, or GHASH's and zeros |
//! | 104-167 | the bytes that wait for their block to fill, then zeros |
//!
//! Numbers are big-endian. A state is possible where its counts are; every other
//! byte may be any. Bytes past these are no part of the state. With HMAC the hash
//! is the inner one of the tag's message, whose lengths stand at its front, so
//! that it is known from the beginning; with GCM it is over the associated data,
//! filled up, and the ciphertext.

use crate::aes::{Aes, BLOCK};
use crate::ctr;
use crate::gcm::Gcm;
use crate::header;
use crate::hmac::Hmac;
use crate::record::Record;
use crate::refusal::{Answer, Refusal};
use crate::sha2::{Hash, Sha256};
use crate::store::{MAX_METADATA, MAX_PLAINTEXT};
use crate::suites::{nonce, Suite, NN};

/// The length of a running state.
pub const STATE: usize = 168;

/// The most associated data: the longest header and the longest metadata.
const MAX_AAD: usize = header::MAX_LENGTH + MAX_METADATA;

/// What precedes the associated data in the HMAC's message: three lengths and
/// the nonce.
const BEFORE_AAD: usize = 3 * 8 + NN;

/// What a line of calls is for.
#[derive(Clone, Copy, Debug, PartialEq, Eq)]
pub enum Kind {
    /// Sealing a frame.
    Sealing = 1,
    /// Checking a received one.
    Checking = 2,
}

/// A running state.
pub(crate) struct Running {
    kind: Kind,
    suite: Suite,
    aad: usize,
    announced: usize,
    nonce: [u8; NN],
    key: [u8; 48],
    taken: usize,
    value: [u8; 32],
    /// As many as wait.
    waiting: Vec<u8>,
}

/// Seals the next piece into the front of `room`. Refusals: 16, 12.
pub fn seal_piece(state: &mut [u8], piece: &[u8], room: &mut [u8]) -> Answer {
    let mut running = Running::next(state, Kind::Sealing, piece.len())?;
    let ciphertext = room.get_mut(..piece.len()).ok_or(Refusal::RoomShort)?;
    ciphertext.copy_from_slice(piece);
    running.apply_key_stream(ciphertext);
    running.take(ciphertext);
    running.put(state)?;
    Ok(piece.len())
}

/// Ends a frame: its tag goes to the front of `room`. Refusals: 16, 12.
pub fn seal_end(state: &[u8], room: &mut [u8]) -> Answer {
    let running = Running::complete(state, Kind::Sealing)?;
    let nt = running.suite.nt();
    let tag = room.get_mut(..nt).ok_or(Refusal::RoomShort)?;
    tag.copy_from_slice(&running.tag());
    Ok(nt)
}

/// Takes the next piece of a received ciphertext. Refusals: 16.
pub fn check_piece(state: &mut [u8], piece: &[u8]) -> Answer {
    let mut running = Running::next(state, Kind::Checking, piece.len())?;
    running.take(piece);
    running.put(state)?;
    Ok(0)
}

/// Ends a check: whether `tag` is the frame's. Refusals: 16, 11, 13.
pub fn check_end(state: &[u8], tag: &[u8]) -> Answer {
    let running = Running::complete(state, Kind::Checking)?;
    if tag.len() != running.suite.nt() {
        return Err(Refusal::NoTag);
    }
    let expected = running.tag();
    let differing = expected.iter().zip(tag).fold(0, |d, (a, b)| d | (a ^ b));
    match differing {
        0 => Ok(0),
        _ => Err(Refusal::TagDiffers),
    }
}

impl Running {
    /// The state of a frame with this counter once its associated data is taken.
    pub(crate) fn begin(
        kind: Kind,
        record: &Record,
        ctr: u64,
        aad: &[u8],
        announced: usize,
    ) -> Self {
        let mut key = [0; 48];
        key[..record.suite.nk()].copy_from_slice(record.key());
        let mut running = Running {
            kind,
            suite: record.suite,
            aad: aad.len(),
            announced,
            nonce: nonce(&record.salt, ctr),
            key,
            taken: 0,
            value: [0; 32],
            waiting: vec![],
        };
        match record.suite.nka() {
            Some(_) => {
                let mut hmac = Hmac::<Sha256>::new(running.auth_key());
                for length in [aad.len(), announced, record.suite.nt()] {
                    hmac.update(&(length as u64).to_be_bytes());
                }
                hmac.update(&running.nonce);
                hmac.update(aad);
                running.keep(hmac.inner());
            }
            None => {
                let hash = running.gcm().hash_key().absorb(0, aad);
                running.value[..BLOCK].copy_from_slice(&hash.to_be_bytes());
            }
        }
        running
    }

    /// The state that a piece of so many bytes goes on from.
    fn next(state: &[u8], kind: Kind, length: usize) -> Result<Self, Refusal> {
        let running = Running::decode(state, kind).ok_or(Refusal::BadState)?;
        match running.announced - running.taken >= length {
            true => Ok(running),
            false => Err(Refusal::BadState),
        }
    }

    /// The state that an end goes on from: all that was announced is taken.
    fn complete(state: &[u8], kind: Kind) -> Result<Self, Refusal> {
        let running = Running::decode(state, kind).ok_or(Refusal::BadState)?;
        match running.announced == running.taken {
            true => Ok(running),
            false => Err(Refusal::BadState),
        }
    }

    /// The state of this kind that `bytes` start with, if it is possible.
    fn decode(bytes: &[u8], kind: Kind) -> Option<Self> {
        let bytes: &[u8; STATE] = bytes.first_chunk()?;
        let number = |at: usize, length: usize| {
            let digits = bytes[at..at + length].iter();
            digits.fold(0, |n, &byte| n << 8 | usize::from(byte))
        };
        let mut running = Running {
            kind,
            suite: Suite::from_number(bytes[1].into())?,
            aad: number(2, 2),
            announced: number(4, 4),
            nonce: bytes[8..20].try_into().unwrap(),
            key: bytes[20..68].try_into().unwrap(),
            taken: number(68, 4),
            value: bytes[72..104].try_into().unwrap(),
            waiting: vec![],
        };
        let possible = bytes[0] == kind as u8
            && (1..=MAX_AAD).contains(&running.aad)
            && running.announced <= MAX_PLAINTEXT
            && running.taken <= running.announced;
        running.waiting = bytes[104..][..running.waiting_length()].to_vec();
        possible.then_some(running)
    }

    /// Writes the state to the front of `bytes`. Refusals: 12.
    pub(crate) fn put(&self, bytes: &mut [u8]) -> Result<(), Refusal> {
        let state = bytes.get_mut(..STATE).ok_or(Refusal::RoomShort)?;
        state[0] = self.kind as u8;
        state[1] = self.suite as u8;
        state[2..4].copy_from_slice(&(self.aad as u16).to_be_bytes());
        state[4..8].copy_from_slice(&(self.announced as u32).to_be_bytes());
        state[8..20].copy_from_slice(&self.nonce);
        state[20..68].copy_from_slice(&self.key);
        state[68..72].copy_from_slice(&(self.taken as u32).to_be_bytes());
        state[72..104].copy_from_slice(&self.value);
        let (waiting, rest) = state[104..].split_at_mut(self.waiting.len());
        waiting.copy_from_slice(&self.waiting);
        rest.fill(0);
        Ok(())
    }

    /// How many bytes wait for their block to fill.
    fn waiting_length(&self) -> usize {
        match self.suite.nka() {
            Some(_) => (BEFORE_AAD + self.aad + self.taken) % Sha256::BLOCK,
            None => self.taken % BLOCK,
        }
    }

    /// Encrypts the next bytes of the plaintext.
    fn apply_key_stream(&self, data: &mut [u8]) {
        match self.suite.nka() {
            Some(nka) => {
                let aes = Aes::new(&self.key[..nka]);
                ctr::apply_from(&aes, &self.nonce, 0, self.taken, data);
            }
            None => self.gcm().apply_from(&self.nonce, self.taken, data),
        }
    }

    /// Takes the next bytes of the ciphertext into the hash.
    fn take(&mut self, ciphertext: &[u8]) {
        match self.suite.nka() {
            Some(_) => {
                let mut inner = self.inner();
                inner.update(ciphertext);
                self.keep(&inner);
            }
            None => {
                let bytes = [&self.waiting[..], ciphertext].concat();
                let (blocks, rest) = bytes.split_at(bytes.len() - bytes.len() % BLOCK);
                let hash = self.gcm().hash_key().absorb(self.ghash(), blocks);
                self.value = [0; 32];
                self.value[..BLOCK].copy_from_slice(&hash.to_be_bytes());
                self.waiting = rest.to_vec();
            }
        }
        self.taken += ciphertext.len();
    }

    /// The tag of all that was taken, Nt bytes.
    fn tag(&self) -> Vec<u8> {
        match self.suite.nka() {
            Some(_) => {
                let hmac = Hmac::resume(self.auth_key(), self.inner());
                hmac.finish()[..self.suite.nt()].to_vec()
            }
            None => {
                let gcm = self.gcm();
                let hash = gcm.hash_key().absorb(self.ghash(), &self.waiting);
                let hash = gcm.hash_key().finish(hash, self.aad, self.taken);
                gcm.mask(&self.nonce, hash).to_vec()
            }
        }
    }

    /// HMAC's inner hash: it has taken the key's block before the message.
    fn inner(&self) -> Sha256 {
        let taken = Sha256::BLOCK + BEFORE_AAD + self.aad + self.taken;
        Sha256::resume(&self.value, &self.waiting, taken as u64)
    }

    fn keep(&mut self, inner: &Sha256) {
        self.value = inner.value();
        self.waiting = inner.waiting().to_vec();
    }

    fn auth_key(&self) -> &[u8] {
        let nka = self.suite.nka().expect("a suite with HMAC");
        &self.key[nka..self.suite.nk()]
    }

    fn gcm(&self) -> Gcm {
        Gcm::new(&self.key[..self.suite.nk()])
    }

    fn ghash(&self) -> u128 {
        u128::from_be_bytes(self.value[..BLOCK].try_into().unwrap())
    }
}
