// SPDX-License-Identifier: MIT
//! Hexadecimal text.

/// The bytes that `text` writes in hex; spaces and line breaks are skipped.
pub fn hex(text: &str) -> Vec<u8> {
    let digits: Vec<u8> = text
        .chars()
        .filter(|c| !c.is_whitespace())
        .map(|c| c.to_digit(16).expect("a hex digit") as u8)
        .collect();
    assert!(
        digits.len().is_multiple_of(2),
        "an odd number of hex digits"
    );
    digits
        .chunks(2)
        .map(|pair| pair[0] << 4 | pair[1])
        .collect()
}

/// The number that `text` writes in hex.
pub fn number(text: &str) -> u64 {
    u64::from_str_radix(text, 16).expect("a hex number")
}
