// SPDX-License-Identifier: MIT
//! The version of what is linked.

use crate::raw;

/// The version of the archive that is linked: major, minor, patch.
///
/// ```
/// let (major, minor, patch) = sframe::version();
/// assert_eq!(format!("{major}.{minor}.{patch}"), env!("CARGO_PKG_VERSION"));
/// ```
pub fn version() -> (u32, u32, u32) {
    let number = raw::version();
    (number / 10_000, number / 100 % 100, number % 100)
}
