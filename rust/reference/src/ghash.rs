// SPDX-License-Identifier: MIT
//! GHASH, NIST SP 800-38D section 6.4, four bits at a time.
//!
//! A block stands for an element of GF(2^128). As a big-endian number, its
//! highest bit is the coefficient of `x^0`.

use crate::aes::BLOCK;

/// The hash key times each polynomial of four bits.
#[derive(Clone)]
pub struct HashKey([u128; 16]);

impl HashKey {
    /// Makes the table of the hash key `h`.
    pub fn new(h: [u8; BLOCK]) -> Self {
        let mut table = [0; 16];
        let mut multiple = u128::from_be_bytes(h);
        for bit in [8, 4, 2, 1] {
            for (i, entry) in table.iter_mut().enumerate() {
                if i & bit != 0 {
                    *entry ^= multiple;
                }
            }
            multiple = times_x(multiple);
        }
        HashKey(table)
    }

    /// The hash of a string of whole blocks: each part is filled up with zeros
    /// to whole blocks, and the lengths of the two make the last one.
    pub fn hash(&self, aad: &[u8], ciphertext: &[u8]) -> u128 {
        let hash = self.absorb(self.absorb(0, aad), ciphertext);
        self.finish(hash, aad.len(), ciphertext.len())
    }

    /// The hash after the blocks of `bytes`, the last one filled up with zeros.
    pub fn absorb(&self, hash: u128, bytes: &[u8]) -> u128 {
        padded_blocks(bytes).fold(hash, |hash, block| self.multiply(hash ^ block))
    }

    /// The hash after the block of the two lengths.
    pub fn finish(&self, hash: u128, aad: usize, ciphertext: usize) -> u128 {
        self.multiply(hash ^ (bits(aad) << 64 | bits(ciphertext)))
    }

    /// The hash key times `block`, from the highest powers of `x` down.
    fn multiply(&self, block: u128) -> u128 {
        let mut product = 0;
        for i in 0..32 {
            let four_bits = (block >> (4 * i)) & 0xf;
            product = times_x4(product) ^ self.0[four_bits as usize];
        }
        product
    }
}

/// The blocks of `bytes`, the last one filled up with zeros.
fn padded_blocks(bytes: &[u8]) -> impl Iterator<Item = u128> + '_ {
    bytes.chunks(BLOCK).map(|part| {
        let mut block = [0; BLOCK];
        block[..part.len()].copy_from_slice(part);
        u128::from_be_bytes(block)
    })
}

fn bits(bytes: usize) -> u128 {
    8 * bytes as u128
}

/// Multiplication by `x` (section 6.3): `x^128` is `1 + x + x^2 + x^7`.
const fn times_x(element: u128) -> u128 {
    (element >> 1) ^ ((element & 1) * (0xe1 << 120))
}

/// Multiplication by `x^4`.
fn times_x4(element: u128) -> u128 {
    (element >> 4) ^ CARRIES[(element & 0xf) as usize]
}

/// What the four bits that leave the block bring back in.
static CARRIES: [u128; 16] = carries();

const fn carries() -> [u128; 16] {
    let mut table = [0; 16];
    let mut i = 0;
    while i < 16 {
        table[i] = times_x(times_x(times_x(times_x(i as u128))));
        i += 1;
    }
    table
}
