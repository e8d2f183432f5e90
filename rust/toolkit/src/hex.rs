// SPDX-License-Identifier: MIT
//! Hexadecimal text.

/// The bytes that `text` writes in hex; `None` where it is no hex.
pub fn decode(text: &[u8]) -> Option<Vec<u8>> {
    let digits = text
        .iter()
        .map(|&byte| char::from(byte).to_digit(16))
        .collect::<Option<Vec<u32>>>()?;
    let pairs = digits.chunks_exact(2);
    let whole = pairs.remainder().is_empty();
    whole.then(|| pairs.map(|pair| (pair[0] << 4 | pair[1]) as u8).collect())
}

/// `bytes` in hex.
pub fn encode(bytes: &[u8]) -> String {
    bytes.iter().map(|byte| format!("{byte:02x}")).collect()
}
