// SPDX-License-Identifier: MIT
//! The C functions of the library `sframe_test`. Each answers 0 for done, with
//! its result at the front of the output, or 1 with nothing changed. Decryption
//! answers 13 for a tag that differs, likewise with nothing changed.

/// A GCM call: key, nonce, header, metadata, text and output.
pub type Gcm = unsafe extern "C" fn(
    *const u8,
    usize,
    *const u8,
    usize,
    *const u8,
    usize,
    *const u8,
    usize,
    *const u8,
    usize,
    *mut u8,
    usize,
) -> u32;

/// A call of a suite's AEAD: suite, key, nonce, header, metadata, text and
/// output.
pub type Aead = unsafe extern "C" fn(
    u64,
    *const u8,
    usize,
    *const u8,
    usize,
    *const u8,
    usize,
    *const u8,
    usize,
    *const u8,
    usize,
    *mut u8,
    usize,
) -> u32;

extern "C" {
    /// SHA-256 of `message[..first]`, `[first..second]` and `[second..]`.
    pub fn sframe_test_sha256(
        message: *const u8,
        message_len: usize,
        first: usize,
        second: usize,
        digest: *mut u8,
        digest_len: usize,
    ) -> u32;

    /// SHA-512, likewise.
    pub fn sframe_test_sha512(
        message: *const u8,
        message_len: usize,
        first: usize,
        second: usize,
        digest: *mut u8,
        digest_len: usize,
    ) -> u32;

    /// HMAC-SHA256, likewise.
    pub fn sframe_test_hmac_sha256(
        key: *const u8,
        key_len: usize,
        message: *const u8,
        message_len: usize,
        first: usize,
        second: usize,
        tag: *mut u8,
        tag_len: usize,
    ) -> u32;

    /// HMAC-SHA512, likewise.
    pub fn sframe_test_hmac_sha512(
        key: *const u8,
        key_len: usize,
        message: *const u8,
        message_len: usize,
        first: usize,
        second: usize,
        tag: *mut u8,
        tag_len: usize,
    ) -> u32;

    /// HKDF-SHA256: Extract with an empty salt, Expand to `okm_len`.
    pub fn sframe_test_hkdf_sha256(
        ikm: *const u8,
        ikm_len: usize,
        info: *const u8,
        info_len: usize,
        okm: *mut u8,
        okm_len: usize,
    ) -> u32;

    /// HKDF-SHA512, likewise.
    pub fn sframe_test_hkdf_sha512(
        ikm: *const u8,
        ikm_len: usize,
        info: *const u8,
        info_len: usize,
        okm: *mut u8,
        okm_len: usize,
    ) -> u32;

    /// AES encryption of one block.
    pub fn sframe_test_aes(
        key: *const u8,
        key_len: usize,
        block: *const u8,
        block_len: usize,
        out: *mut u8,
        out_len: usize,
    ) -> u32;

    /// AES encryption of one block `n` times over, to an output of 16 bytes.
    pub fn sframe_test_aes_repeat(
        key: *const u8,
        key_len: usize,
        block: *const u8,
        block_len: usize,
        n: u32,
        out: *mut u8,
        out_len: usize,
    ) -> u32;

    /// Counter mode from block `count` on.
    pub fn sframe_test_ctr(
        key: *const u8,
        key_len: usize,
        nonce: *const u8,
        nonce_len: usize,
        count: u32,
        input: *const u8,
        input_len: usize,
        out: *mut u8,
        out_len: usize,
    ) -> u32;

    /// GCM: ciphertext, then tag.
    pub fn sframe_test_gcm_seal(
        key: *const u8,
        key_len: usize,
        nonce: *const u8,
        nonce_len: usize,
        header: *const u8,
        header_len: usize,
        metadata: *const u8,
        metadata_len: usize,
        plaintext: *const u8,
        plaintext_len: usize,
        out: *mut u8,
        out_len: usize,
    ) -> u32;

    /// GCM: the tag of a ciphertext.
    pub fn sframe_test_gcm_tag(
        key: *const u8,
        key_len: usize,
        nonce: *const u8,
        nonce_len: usize,
        header: *const u8,
        header_len: usize,
        metadata: *const u8,
        metadata_len: usize,
        ciphertext: *const u8,
        ciphertext_len: usize,
        out: *mut u8,
        out_len: usize,
    ) -> u32;

    /// A suite's key, of Nk bytes, and its salt, of Nn.
    pub fn sframe_test_derive(
        suite: u64,
        base_key: *const u8,
        base_key_len: usize,
        kid: u64,
        key: *mut u8,
        key_len: usize,
        salt: *mut u8,
        salt_len: usize,
    ) -> u32;

    /// A suite's encryption: all of `out` is ciphertext, then tag.
    pub fn sframe_test_suite_encrypt(
        suite: u64,
        key: *const u8,
        key_len: usize,
        nonce: *const u8,
        nonce_len: usize,
        header: *const u8,
        header_len: usize,
        metadata: *const u8,
        metadata_len: usize,
        plaintext: *const u8,
        plaintext_len: usize,
        out: *mut u8,
        out_len: usize,
    ) -> u32;

    /// A suite's decryption of ciphertext and tag.
    pub fn sframe_test_suite_decrypt(
        suite: u64,
        key: *const u8,
        key_len: usize,
        nonce: *const u8,
        nonce_len: usize,
        header: *const u8,
        header_len: usize,
        metadata: *const u8,
        metadata_len: usize,
        sealed: *const u8,
        sealed_len: usize,
        out: *mut u8,
        out_len: usize,
    ) -> u32;
}
