// SPDX-License-Identifier: MIT
//! A small seeded generator: SplitMix64 (Steele, Lea, Flood, 2014). Good
//! enough to pick test inputs, and for nothing else.

/// A sequence of numbers fixed by its seed.
pub struct Generator(u64);

impl Generator {
    /// Starts the sequence, and prints the seed so that a failure names it.
    pub fn new(seed: u64) -> Self {
        println!("seed {seed:#018x}");
        Generator(seed)
    }

    /// The next 64 bits.
    pub fn u64(&mut self) -> u64 {
        self.0 = self.0.wrapping_add(0x9e37_79b9_7f4a_7c15);
        let mut z = self.0;
        z = (z ^ (z >> 30)).wrapping_mul(0xbf58_476d_1ce4_e5b9);
        z = (z ^ (z >> 27)).wrapping_mul(0x94d0_49bb_1331_11eb);
        z ^ (z >> 31)
    }

    /// A number of 0 to 64 significant bits, each width as likely as another,
    /// so that small numbers and every byte length come up often.
    pub fn any_width(&mut self) -> u64 {
        let width = self.up_to(64);
        match width {
            0 => 0,
            _ => self.u64() >> (64 - width) | 1 << (width - 1),
        }
    }

    /// A number from 0 to `most`, both included.
    pub fn up_to(&mut self, most: usize) -> usize {
        (self.u64() % (most as u64 + 1)) as usize
    }

    /// `true` once in `n` times.
    pub fn one_in(&mut self, n: usize) -> bool {
        self.up_to(n - 1) == 0
    }

    /// One of `choices`.
    pub fn pick<'a, T>(&mut self, choices: &'a [T]) -> &'a T {
        &choices[self.up_to(choices.len() - 1)]
    }

    /// Fills `bytes`.
    pub fn fill(&mut self, bytes: &mut [u8]) {
        for part in bytes.chunks_mut(8) {
            part.copy_from_slice(&self.u64().to_le_bytes()[..part.len()]);
        }
    }

    /// `length` bytes.
    pub fn bytes(&mut self, length: usize) -> Vec<u8> {
        let mut bytes = vec![0; length];
        self.fill(&mut bytes);
        bytes
    }

    /// `N` bytes.
    pub fn array<const N: usize>(&mut self) -> [u8; N] {
        let mut bytes = [0; N];
        self.fill(&mut bytes);
        bytes
    }
}
