// SPDX-License-Identifier: MIT
//! Bytes lent to a call, with margins that the call must not touch.

use testkit::PATTERN;

/// An odd length, so that what is lent starts at no even address.
const MARGIN: usize = 13;

/// Lent bytes between two margins.
pub struct Lent(Vec<u8>);

impl Lent {
    /// A copy of `bytes` to lend.
    pub fn copy(bytes: &[u8]) -> Self {
        Lent([&[PATTERN; MARGIN], bytes, &[PATTERN; MARGIN]].concat())
    }

    /// A room of `length` bytes.
    pub fn room(length: usize) -> Self {
        Lent(vec![PATTERN; MARGIN + length + MARGIN])
    }

    /// What is lent.
    pub fn lend(&mut self) -> &mut [u8] {
        let end = self.0.len() - MARGIN;
        &mut self.0[MARGIN..end]
    }

    /// What the call left, provided that both margins are as they were.
    #[track_caller]
    pub fn take_back(mut self) -> Vec<u8> {
        let behind = self.0.split_off(self.0.len() - MARGIN);
        let left = self.0.split_off(MARGIN);
        let untouched = [self.0, behind].concat() == [PATTERN; 2 * MARGIN];
        assert!(untouched, "bytes outside of what was lent have changed");
        left
    }
}
