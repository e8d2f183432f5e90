// SPDX-License-Identifier: MIT
//! What a frame is bound to without carrying it.

/// Bytes that a frame is bound to without carrying them. Sealing and opening
/// must be given the same.
///
/// A kind of its own, so that it is not exchanged with plaintext or frame:
///
/// ```compile_fail,E0308
/// use sframe::{Metadata, Store, RECORD};
///
/// # let (mut bytes, frame) = ([0; RECORD], [0x10]);
/// Store::over(&mut bytes).open(Metadata(b"ward 3"), &frame, &mut [0; 100]);
/// ```
#[derive(Clone, Copy, Debug, Default, PartialEq, Eq, Hash)]
pub struct Metadata<'a>(pub &'a [u8]);

impl Metadata<'_> {
    /// No metadata: zero bytes of it.
    pub const NONE: Metadata<'static> = Metadata(&[]);
}
