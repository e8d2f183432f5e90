// SPDX-License-Identifier: MIT
//! Every combination of several choices.

/// Each way to take one number below each of `sizes`.
pub fn combinations<const N: usize>(sizes: [usize; N]) -> impl Iterator<Item = [usize; N]> {
    (0..sizes.iter().product()).map(move |mut rest| {
        sizes.map(|size| {
            let choice = rest % size;
            rest /= size;
            choice
        })
    })
}
