// SPDX-License-Identifier: MIT
//! Counter mode over AES, NIST SP 800-38A section 6.5. A counter block is a
//! 12-byte nonce and a 32-bit count, big-endian; only the count moves.

use crate::aes::{Aes, BLOCK};

/// The nonce length in bytes.
pub const NONCE: usize = 12;

/// The counter block of `nonce` and `count`.
pub fn counter_block(nonce: &[u8; NONCE], count: u32) -> [u8; BLOCK] {
    let mut block = [0; BLOCK];
    block[..NONCE].copy_from_slice(nonce);
    block[NONCE..].copy_from_slice(&count.to_be_bytes());
    block
}

/// As [`apply`], where `data` begins at byte `at` of the key stream, in the middle
/// of a block or not.
pub fn apply_from(aes: &Aes, nonce: &[u8; NONCE], first: u32, at: usize, data: &mut [u8]) {
    let used = at % BLOCK;
    let count = first.wrapping_add((at / BLOCK) as u32);
    let cut = data.len().min((BLOCK - used) % BLOCK);
    let (front, rest) = data.split_at_mut(cut);
    let mut block = [0; BLOCK];
    block[used..][..cut].copy_from_slice(front);
    apply(aes, nonce, count, &mut block);
    front.copy_from_slice(&block[used..][..cut]);
    apply(aes, nonce, count + u32::from(used > 0), rest);
}

/// Encrypts or decrypts `data`: xor with the key stream from `first` on.
pub fn apply(aes: &Aes, nonce: &[u8; NONCE], first: u32, data: &mut [u8]) {
    let mut count = first;
    for part in data.chunks_mut(BLOCK) {
        let key_stream = aes.encrypt(&counter_block(nonce, count));
        for (byte, key) in part.iter_mut().zip(key_stream) {
            *byte ^= key;
        }
        count = count.wrapping_add(1);
    }
}
