// SPDX-License-Identifier: MIT
//! The C functions, as `include/sframe.h` declares and describes them.

extern "C" {
    /// Makes every record of `store` empty.
    pub fn sframe_make(store: *mut u8, store_len: usize) -> u32;

    /// Adds a key for sealing.
    pub fn sframe_add_sending(
        store: *mut u8,
        store_len: usize,
        kid: u64,
        suite: u64,
        base_key: *const u8,
        base_key_len: usize,
    ) -> u32;

    /// Adds a key for opening.
    pub fn sframe_add_receiving(
        store: *mut u8,
        store_len: usize,
        kid: u64,
        suite: u64,
        base_key: *const u8,
        base_key_len: usize,
    ) -> u32;

    /// Removes a key.
    pub fn sframe_remove(store: *mut u8, store_len: usize, kid: u64) -> u32;

    /// Removes a key, whose record is looked for at `place` first.
    pub fn sframe_remove_near(store: *mut u8, store_len: usize, kid: u64, place: usize) -> u32;

    /// Removes the receiving keys of an epoch, by the low bits of their key numbers.
    pub fn sframe_change_epoch(
        store: *mut u8,
        store_len: usize,
        epoch_width: u64,
        epoch_bits: u64,
    ) -> u32;

    /// The place of the record of a key number.
    pub fn sframe_find(store: *const u8, store_len: usize, kid: u64, place: *mut usize) -> u32;

    /// Seals `plaintext` into a frame at the front of `out`.
    pub fn sframe_seal(
        store: *mut u8,
        store_len: usize,
        kid: u64,
        metadata: *const u8,
        metadata_len: usize,
        plaintext: *const u8,
        plaintext_len: usize,
        out: *mut u8,
        out_len: usize,
        length: *mut usize,
    ) -> u32;

    /// Seals `plaintext` into a frame at `offset` in `out`.
    pub fn sframe_seal_at(
        store: *mut u8,
        store_len: usize,
        kid: u64,
        metadata: *const u8,
        metadata_len: usize,
        plaintext: *const u8,
        plaintext_len: usize,
        out: *mut u8,
        out_len: usize,
        offset: usize,
        length: *mut usize,
    ) -> u32;

    /// Seals `plaintext` into a frame at `offset` in `out`; the record is looked
    /// for at `place` first.
    pub fn sframe_seal_near(
        store: *mut u8,
        store_len: usize,
        kid: u64,
        place: usize,
        metadata: *const u8,
        metadata_len: usize,
        plaintext: *const u8,
        plaintext_len: usize,
        out: *mut u8,
        out_len: usize,
        offset: usize,
        length: *mut usize,
    ) -> u32;

    /// Opens `frame` to its plaintext at the front of `out`.
    pub fn sframe_open(
        store: *mut u8,
        store_len: usize,
        frame: *const u8,
        frame_len: usize,
        metadata: *const u8,
        metadata_len: usize,
        out: *mut u8,
        out_len: usize,
        length: *mut usize,
    ) -> u32;

    /// Opens `frame` to its plaintext at the front of `out`; the record is looked
    /// for at `place` first.
    pub fn sframe_open_near(
        store: *mut u8,
        store_len: usize,
        place: usize,
        frame: *const u8,
        frame_len: usize,
        metadata: *const u8,
        metadata_len: usize,
        out: *mut u8,
        out_len: usize,
        length: *mut usize,
    ) -> u32;

    /// Begins a frame that is sealed in pieces: its header goes to the front of
    /// `out`.
    pub fn sframe_seal_begin(
        store: *mut u8,
        store_len: usize,
        kid: u64,
        metadata: *const u8,
        metadata_len: usize,
        plaintext_len: u64,
        state: *mut u8,
        state_len: usize,
        out: *mut u8,
        out_len: usize,
        length: *mut usize,
    ) -> u32;

    /// Seals the next piece to the front of `out`.
    pub fn sframe_seal_piece(
        state: *mut u8,
        state_len: usize,
        piece: *const u8,
        piece_len: usize,
        out: *mut u8,
        out_len: usize,
        length: *mut usize,
    ) -> u32;

    /// Ends a frame: its tag goes to the front of `out`.
    pub fn sframe_seal_end(
        state: *const u8,
        state_len: usize,
        out: *mut u8,
        out_len: usize,
        length: *mut usize,
    ) -> u32;

    /// Begins to check a received frame in pieces.
    pub fn sframe_check_begin(
        store: *const u8,
        store_len: usize,
        header: *const u8,
        header_len: usize,
        metadata: *const u8,
        metadata_len: usize,
        ciphertext_len: u64,
        state: *mut u8,
        state_len: usize,
    ) -> u32;

    /// Takes the next piece of a ciphertext.
    pub fn sframe_check_piece(
        state: *mut u8,
        state_len: usize,
        piece: *const u8,
        piece_len: usize,
    ) -> u32;

    /// Ends a check: whether `tag` is the frame's.
    pub fn sframe_check_end(
        state: *const u8,
        state_len: usize,
        tag: *const u8,
        tag_len: usize,
    ) -> u32;

    /// How many of the last 64 counters a receiving key has opened.
    pub fn sframe_report(store: *const u8, store_len: usize, kid: u64, count: *mut u64) -> u32;

    /// Writes a header at the front of `out`.
    pub fn sframe_write_header(
        kid: u64,
        ctr: u64,
        out: *mut u8,
        out_len: usize,
        length: *mut usize,
    ) -> u32;

    /// Writes a header at `offset` in `out`.
    pub fn sframe_write_header_at(
        kid: u64,
        ctr: u64,
        out: *mut u8,
        out_len: usize,
        offset: usize,
        length: *mut usize,
    ) -> u32;

    /// Reads the header that `bytes` begin with.
    pub fn sframe_read_header(
        bytes: *const u8,
        bytes_len: usize,
        kid: *mut u64,
        ctr: *mut u64,
        length: *mut usize,
    ) -> u32;

    /// Walks `base_key` so many steps forward, to the front of `out`.
    pub fn sframe_ratchet(
        suite: u64,
        base_key: *const u8,
        base_key_len: usize,
        steps: u64,
        out: *mut u8,
        out_len: usize,
        length: *mut usize,
    ) -> u32;

    /// The key number of a generation and a step.
    pub fn sframe_ratchet_kid(generation: u64, step: u64, bits: u64, kid: *mut u64) -> u32;

    /// The key number of a member of an MLS group.
    pub fn sframe_group_kid(
        context: u64,
        index: u64,
        epoch: u64,
        index_width: u64,
        epoch_width: u64,
        kid: *mut u64,
    ) -> u32;

    /// The parts of the key number of a member of an MLS group.
    pub fn sframe_group_parts(
        kid: u64,
        index_width: u64,
        epoch_width: u64,
        context: *mut u64,
        index: *mut u64,
        epoch: *mut u64,
    ) -> u32;

    /// The version of the archive: 10,000 times the major, 100 times the minor,
    /// and the patch.
    pub fn sframe_version() -> u32;
}
