// SPDX-License-Identifier: MIT
//! Overwriting bytes that were secret.

use core::sync::atomic::{compiler_fence, Ordering};

/// Makes every byte zero, also where the compiler sees that nobody reads them
/// any more: for a store that is lent, and for base keys. An
/// [`OwnedStore`](crate::OwnedStore) wipes itself.
///
/// It reaches these bytes alone, and no copy that was made of them before: not
/// what a call has left on the stack, nor what was swapped to a disk.
///
/// ```
/// let mut base_key = [7; 32];
/// sframe::wipe(&mut base_key);
/// assert_eq!(base_key, [0; 32]);
/// ```
pub fn wipe(bytes: &mut [u8]) {
    for byte in bytes {
        // SAFETY: a reference to a live byte that nothing else refers to.
        unsafe { core::ptr::write_volatile(byte, 0) };
    }
    // What comes behind, say giving the memory back, stays behind.
    compiler_fence(Ordering::SeqCst);
}
