// SPDX-License-Identifier: MIT
//! The replay window of a receiving key: which of the last 64 counters it has
//! opened.

/// How many counters a window is over.
pub const WINDOW: u64 = 64;

/// The highest counter opened, and a mask: bit i stands for that counter minus
/// i. Where the mask is 0 none was opened yet, and the highest is 0 too.
#[derive(Clone, Copy, Debug, Default, PartialEq, Eq)]
pub struct Window {
    /// The highest counter opened.
    pub highest: u64,
    /// Bit i is 1 where the counter `highest - i` was opened.
    pub mask: u64,
}

impl Window {
    /// Otherwise than with no bit, bit 0 is set and no bit above the highest
    /// counter is.
    pub fn is_sound(self) -> bool {
        match self.mask {
            0 => self.highest == 0,
            mask => mask & 1 == 1 && u64::from(mask.ilog2()) <= self.highest,
        }
    }

    /// Whether the bit of `ctr` is set.
    pub fn has_opened(self, ctr: u64) -> bool {
        self.opened().any(|opened| opened == ctr)
    }

    /// Whether `ctr` lies 64 or more below the highest counter.
    pub fn is_past(self, ctr: u64) -> bool {
        ctr < self.highest && self.highest - ctr >= WINDOW
    }

    /// The window once `ctr` was opened too.
    pub fn opening(self, ctr: u64) -> Self {
        let highest = self.highest.max(ctr);
        let bits = self.opened().chain([ctr]).map(|opened| highest - opened);
        let mask = bits
            .filter(|&bit| bit < WINDOW)
            .fold(0, |mask, bit| mask | 1 << bit);
        Window { highest, mask }
    }

    /// The counters whose bits are set.
    fn opened(self) -> impl Iterator<Item = u64> {
        (0..WINDOW)
            .filter(move |bit| self.mask >> bit & 1 == 1)
            .map(move |bit| self.highest - bit)
    }
}
