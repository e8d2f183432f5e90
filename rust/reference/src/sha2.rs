// SPDX-License-Identifier: MIT
//! SHA-256 and SHA-512, FIPS 180-4.

mod constants;

use constants::{H256, H512, K256, K512};

/// A hash fed piece by piece.
pub trait Hash {
    /// The block length in bytes (FIPS 180-4 section 1).
    const BLOCK: usize;
    /// The digest, as bytes.
    type Digest: AsRef<[u8]>;

    /// The hash of no bytes so far.
    fn new() -> Self;
    /// Takes the next bytes of the message.
    fn update(&mut self, message: &[u8]);
    /// The digest of all that was taken.
    fn finish(self) -> Self::Digest;

    /// The digest of a whole message.
    fn digest(message: &[u8]) -> Self::Digest
    where
        Self: Sized,
    {
        let mut hash = Self::new();
        hash.update(message);
        hash.finish()
    }
}

/// One of the two hashes. FIPS 180-4 gives both by the same rules; what differs
/// is the word, the number of rounds, the rotations and the constants.
macro_rules! sha2 {
    (
        $(#[$doc:meta])*
        $name:ident, word: $word:ident, length: $length:ident, rounds: $rounds:literal,
        Sigma0: $big0:tt, Sigma1: $big1:tt, sigma0: $small0:tt, sigma1: $small1:tt,
        constants: $k:ident, initial: $initial:ident,
    ) => {
        $(#[$doc])*
        #[derive(Clone)]
        pub struct $name {
            state: [$word; 8],
            /// The bytes that wait for their block to fill.
            waiting: [u8; Self::BLOCK],
            /// How many bytes were taken in all.
            taken: $length,
        }

        impl $name {
            const WORD: usize = size_of::<$word>();

            /// The hash computation of one block (sections 6.2.2 and 6.4.2).
            fn compress(state: &mut [$word; 8], block: &[u8]) {
                let mut w = [0; $rounds];
                for (word, bytes) in w.iter_mut().zip(block.chunks_exact(Self::WORD)) {
                    *word = $word::from_be_bytes(bytes.try_into().unwrap());
                }
                for t in 16..$rounds {
                    w[t] = sigma!($small1, w[t - 2])
                        .wrapping_add(w[t - 7])
                        .wrapping_add(sigma!($small0, w[t - 15]))
                        .wrapping_add(w[t - 16]);
                }

                let [mut a, mut b, mut c, mut d, mut e, mut f, mut g, mut h] = *state;
                for t in 0..$rounds {
                    let ch = (e & f) ^ (!e & g);
                    let maj = (a & b) ^ (a & c) ^ (b & c);
                    let t1 = h
                        .wrapping_add(sum!($big1, e))
                        .wrapping_add(ch)
                        .wrapping_add($k[t])
                        .wrapping_add(w[t]);
                    let t2 = sum!($big0, a).wrapping_add(maj);
                    h = g;
                    g = f;
                    f = e;
                    e = d.wrapping_add(t1);
                    d = c;
                    c = b;
                    b = a;
                    a = t1.wrapping_add(t2);
                }
                for (word, new) in state.iter_mut().zip([a, b, c, d, e, f, g, h]) {
                    *word = word.wrapping_add(new);
                }
            }

            /// Goes on from the hash value of whole blocks and the bytes behind
            /// them, where `taken` bytes were taken in all.
            pub fn resume(value: &[u8; 8 * Self::WORD], waiting: &[u8], taken: $length) -> Self {
                let mut hash = $name { state: [0; 8], waiting: [0; Self::BLOCK], taken };
                assert_eq!(waiting.len(), hash.waiting_length());
                for (word, bytes) in hash.state.iter_mut().zip(value.chunks_exact(Self::WORD)) {
                    *word = $word::from_be_bytes(bytes.try_into().unwrap());
                }
                hash.waiting[..waiting.len()].copy_from_slice(waiting);
                hash
            }

            /// The hash value of the whole blocks so far.
            pub fn value(&self) -> [u8; 8 * Self::WORD] {
                let mut value = [0; 8 * Self::WORD];
                for (bytes, word) in value.chunks_exact_mut(Self::WORD).zip(self.state) {
                    bytes.copy_from_slice(&word.to_be_bytes());
                }
                value
            }

            /// The bytes behind the whole blocks so far.
            pub fn waiting(&self) -> &[u8] {
                &self.waiting[..self.waiting_length()]
            }

            fn waiting_length(&self) -> usize {
                (self.taken % Self::BLOCK as $length) as usize
            }
        }

        impl Hash for $name {
            const BLOCK: usize = 16 * Self::WORD;
            type Digest = [u8; 8 * Self::WORD];

            fn new() -> Self {
                $name { state: $initial, waiting: [0; Self::BLOCK], taken: 0 }
            }

            fn update(&mut self, message: &[u8]) {
                let filled = self.waiting_length();
                self.taken += message.len() as $length;

                let room = Self::BLOCK - filled;
                if message.len() < room {
                    self.waiting[filled..][..message.len()].copy_from_slice(message);
                    return;
                }
                let (first, rest) = message.split_at(room);
                self.waiting[filled..].copy_from_slice(first);
                Self::compress(&mut self.state, &self.waiting);

                let blocks = rest.chunks_exact(Self::BLOCK);
                let last = blocks.remainder();
                for block in blocks {
                    Self::compress(&mut self.state, block);
                }
                self.waiting[..last.len()].copy_from_slice(last);
            }

            /// Pads with a one bit, zeros, and the length in bits (section 5.1).
            fn finish(mut self) -> Self::Digest {
                let bits = (self.taken * 8).to_be_bytes();
                let length_at = Self::BLOCK - bits.len();
                let filled = self.waiting_length();

                self.waiting[filled] = 0x80;
                self.waiting[filled + 1..].fill(0);
                if filled >= length_at {
                    Self::compress(&mut self.state, &self.waiting);
                    self.waiting.fill(0);
                }
                self.waiting[length_at..].copy_from_slice(&bits);
                Self::compress(&mut self.state, &self.waiting);

                self.value()
            }
        }
    };
}

/// Capital sigma: three rotations (sections 4.1.2 and 4.1.3).
macro_rules! sum {
    ([$a:literal, $b:literal, $c:literal], $x:expr) => {
        $x.rotate_right($a) ^ $x.rotate_right($b) ^ $x.rotate_right($c)
    };
}

/// Small sigma: two rotations and a shift (sections 4.1.2 and 4.1.3).
macro_rules! sigma {
    ([$a:literal, $b:literal, $c:literal], $x:expr) => {
        ($x.rotate_right($a) ^ $x.rotate_right($b) ^ ($x >> $c))
    };
}

sha2! {
    /// SHA-256.
    Sha256, word: u32, length: u64, rounds: 64,
    Sigma0: [2, 13, 22], Sigma1: [6, 11, 25], sigma0: [7, 18, 3], sigma1: [17, 19, 10],
    constants: K256, initial: H256,
}

sha2! {
    /// SHA-512.
    Sha512, word: u64, length: u128, rounds: 80,
    Sigma0: [28, 34, 39], Sigma1: [14, 18, 41], sigma0: [1, 8, 7], sigma1: [19, 61, 6],
    constants: K512, initial: H512,
}
