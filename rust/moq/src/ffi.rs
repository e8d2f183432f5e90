// SPDX-License-Identifier: MIT
//! The C functions, as `include/moq.h` declares and describes them.

extern "C" {
    /// Makes every record of `store` empty.
    pub fn moq_make(store: *mut u8, store_len: usize) -> u32;

    /// Adds a track for sealing.
    pub fn moq_add_sending(
        store: *mut u8,
        store_len: usize,
        name: *const u8,
        name_len: usize,
        key_id: u64,
        suite: u64,
        base_key: *const u8,
        base_key_len: usize,
    ) -> u32;

    /// Adds a track for opening.
    pub fn moq_add_receiving(
        store: *mut u8,
        store_len: usize,
        name: *const u8,
        name_len: usize,
        key_id: u64,
        suite: u64,
        base_key: *const u8,
        base_key_len: usize,
    ) -> u32;

    /// Retires a track.
    pub fn moq_remove(
        store: *mut u8,
        store_len: usize,
        name: *const u8,
        name_len: usize,
        key_id: u64,
    ) -> u32;

    /// Seals `plaintext` into an object at the front of `out`.
    pub fn moq_seal(
        store: *mut u8,
        store_len: usize,
        name: *const u8,
        name_len: usize,
        key_id: u64,
        group: u64,
        object: u64,
        properties: *const u8,
        properties_len: usize,
        plaintext: *const u8,
        plaintext_len: usize,
        out: *mut u8,
        out_len: usize,
        length: *mut usize,
    ) -> u32;

    /// Opens `sealed` to its plaintext at the front of `out`.
    pub fn moq_open(
        store: *const u8,
        store_len: usize,
        name: *const u8,
        name_len: usize,
        key_id: u64,
        group: u64,
        object: u64,
        properties: *const u8,
        properties_len: usize,
        sealed: *const u8,
        sealed_len: usize,
        out: *mut u8,
        out_len: usize,
        length: *mut usize,
    ) -> u32;
}
