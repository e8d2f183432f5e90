/* SPDX-License-Identifier: MIT */
/*
 * SFrame (RFC 9605): the sealing layer's C interface.
 *
 * A terminal seals every picture of a call before it leaves and opens every picture that arrives; a media server in between
 * can neither see nor change them. Before you use it:
 *   - processors: x86-64 and 64-bit Arm, little-endian, with a size_t of 64 bits; others are refused below;
 *   - a frame has at most 32,768 bytes of plaintext. A longer picture has to be cut: docs/INTEGRATION.md has the code;
 *   - one caller at a time for each store, and a store is neither copied nor set back: two pictures would go out under one
 *     nonce. docs/INTEGRATION.md says how to keep one over a reboot;
 *   - a frame opens once in a store, and not at all when it is 64 or more counters behind;
 *   - take suite 4 or 5, whose tags have 16 bytes. Suite 3 is for receiving from older senders alone;
 *   - no address and no branch depends on key or plaintext, but for the verdict on the tag, of sframe_open and of
 *     sframe_check_end. This is tested on the archive and not proved, and says nothing of time. A store holds its keys in clear, and values made of a key stay on
 *     the stack after a call;
 *   - left to others: how keys reach the terminals, RTP, files, random numbers (none are used here), and telling a forger
 *     from a faulty line.
 *
 * Four words: bytes are lent to a call by a pointer and a length, for as long as the call lasts; a room is bytes that are lent
 * for a result, and may be longer than it; a store is sound when its bytes obey docs/STORE.md; a refusal is an answer other
 * than 0.
 *
 * Link libsframe_c.a, which target/staticlib has for x86-64 and target/aarch64 for 64-bit Arm. The
 * proofs are of the code, not of either archive's machine code; README says what was tested of each.
 *
 * Keys are kept in a store, which is bytes that the caller lends to each call; the library has no
 * memory of its own. A terminal adds keys to its store, seals under the ones for sending and opens
 * under the ones for receiving. examples/seal_open.c shows it whole, and examples/pieces.c a device
 * whose memory is smaller than a frame.
 *
 * Every call judges its own input: there is no number and no byte string that it has no answer for.
 * The result is the number of the answer: 0 when it is done, else the number of the cause. Where
 * several causes hold, the answer is the first in the order in which the call lists them below. A
 * refusal changes no byte of store, running state or room, and gives 0 for every number asked for.
 *
 * Key numbers (KID), counters (CTR) and suites are 64 bits wide, so no number of a caller's is cut.
 *
 * The records of a store stand by rising key number, the empty ones last, and count from 0. Every call
 * judges the whole store, and then finds its record by its key number. Where a caller knows the place
 * of that record, sframe_seal_near, sframe_open_near and sframe_remove_near look there first. A place
 * is a guess and may be any number: it never alters an answer. sframe_find tells a place; adding or
 * removing a key moves the records behind it.
 *
 * What the caller owes, since no callee can check it and no proof covers it:
 *   - each pointer is valid for as many bytes as the length beside it says; a byte string whose length
 *     is 0 may be given as a null pointer;
 *   - the pointers for single numbers (kid, ctr, length, count, place, context, index, epoch) are valid,
 *     aligned and never null;
 *   - whatever a call writes to (store, running state, room, single numbers) overlaps nothing else of the call;
 *   - one caller at a time: while a call uses a store, nobody else writes to that store, and nobody
 *     reads it while a call changes it. Opening changes it too, so no two openings share a store. The
 *     same holds of a running state, which every piece changes;
 *   - between calls the store stays as the last call left it. A store that is copied, or set back to
 *     an earlier state, would seal with counters that were used before, and open frames that were
 *     opened before; so would a store that is made again and given the same keys;
 *   - a running state goes from each call of its line to the next as the last one left it, and is never copied:
 *     two pieces that are sealed from one state share a part of the key stream, and whoever has both frames can
 *     work on the difference.
 */
#ifndef SFRAME_H
#define SFRAME_H

#include <stddef.h>
#include <stdint.h>

/* Lengths are 64 bits wide in the code and in its proofs, and the archives are for little-endian processors. */
#if SIZE_MAX != UINT64_MAX
#error "sframe: size_t must have 64 bits"
#endif
#if defined(__BYTE_ORDER__) && __BYTE_ORDER__ != __ORDER_LITTLE_ENDIAN__
#error "sframe: the processor must be little-endian"
#endif

/*
 * The version of this header, by semantic versioning: below 1.0 a minor version may change a call.
 * sframe_version tells the archive's own.
 */
#define SFRAME_VERSION_MAJOR 0
#define SFRAME_VERSION_MINOR 2
#define SFRAME_VERSION_PATCH 0
#define SFRAME_VERSION "0.2.0"
#define SFRAME_VERSION_NUMBER (10000 * SFRAME_VERSION_MAJOR + 100 * SFRAME_VERSION_MINOR + SFRAME_VERSION_PATCH)

/* The compiler warns where an answer is not looked at. What the header itself defines is inline, in C89 too. */
#if defined(__GNUC__)
#define SFRAME_NODISCARD __attribute__((warn_unused_result))
#define SFRAME_INLINE static __inline__
#else
#define SFRAME_NODISCARD
#define SFRAME_INLINE static inline
#endif

#ifdef __cplusplus
extern "C" {
#endif

/* The answers. */
enum sframe_answer {
    SFRAME_DONE = 0,
    /* The store breaks a rule of its layout: its records do not stand by rising key number, say, or are
     * those of an older library, which had 80 bytes.
     * In making: its length is not 96 to 98304 in steps of 96. */
    SFRAME_STORE_NOT_SOUND = 1,
    /* The suite is none of enum sframe_suite. */
    SFRAME_SUITE_UNKNOWN = 2,
    /* The base key is shorter than SFRAME_MIN_BASE_KEY or longer than SFRAME_MAX_BASE_KEY. */
    SFRAME_BASE_KEY_LENGTH = 3,
    /* The store already has a record of the key number, be it a retired one. */
    SFRAME_KID_HELD = 4,
    /* The store has no empty record. */
    SFRAME_STORE_FULL = 5,
    /* The store has no record of the key number. */
    SFRAME_KID_UNKNOWN = 6,
    /* The record is not for this: sealing takes a sending one, opening, checking and the report a receiving one,
     * and a retired one is not removed again. */
    SFRAME_WRONG_ROLE = 7,
    /* The key has sealed with its last counter, 2^64 - 1: none is left. */
    SFRAME_COUNTER_SPENT = 8,
    /* The plaintext exceeds SFRAME_MAX_PLAINTEXT, or the metadata SFRAME_MAX_METADATA. */
    SFRAME_TOO_LONG = 9,
    /* The header is cut short. */
    SFRAME_HEADER_INVALID = 10,
    /* The bytes behind the header are fewer than a tag has; at the end of a check, the tag is not just as long as the
     * suite's. */
    SFRAME_FRAME_SHORT = 11,
    /* The room is shorter than the result, or than offset and result together; in both beginnings also: the running
     * state has fewer than SFRAME_STATE_SIZE bytes. */
    SFRAME_ROOM_SHORT = 12,
    /* The tag is not the one of this frame, key and metadata. */
    SFRAME_TAG_DIFFERS = 13,
    /* A frame with this key number and counter was opened before. */
    SFRAME_ALREADY_OPENED = 14,
    /* The counter lies SFRAME_WINDOW or more below the highest that was opened under the key number:
     * whether it was opened before is not known any more. */
    SFRAME_TOO_OLD = 15,
    /* The line of calls cannot go on so: the piece goes past the announced length, the end comes before it, or the
     * running state is none of this kind (its counts are impossible, it is shorter than SFRAME_STATE_SIZE, it belongs
     * to the other kind of line or to no suite). */
    SFRAME_BAD_STATE = 16,
    /* No key is added for sending with SFRAME_AES_128_CTR_HMAC_SHA256_32, whose tags have 4 bytes. */
    SFRAME_SENDING_BARRED = 17,
    /* The bits of the step are not 1 to SFRAME_MAX_RATCHET_BITS, or the key number does not fit in 64
     * bits. */
    SFRAME_RATCHET_KID_INVALID = 20,
    /* More than SFRAME_MAX_STEPS steps. */
    SFRAME_TOO_MANY_STEPS = 21,
    /* The sender's index, or the bits of the epoch, do not fit their width. */
    SFRAME_GROUP_PART_TOO_LARGE = 22,
    /* The widths are above 64 together, or the key number does not fit in 64 bits. */
    SFRAME_GROUP_KID_TOO_LONG = 23
};

/* The cipher suites, by their registered numbers. */
enum sframe_suite {
    SFRAME_AES_128_CTR_HMAC_SHA256_80 = 1,
    SFRAME_AES_128_CTR_HMAC_SHA256_64 = 2,
    SFRAME_AES_128_CTR_HMAC_SHA256_32 = 3,
    SFRAME_AES_128_GCM_SHA256_128 = 4,
    SFRAME_AES_256_GCM_SHA512_128 = 5
};

/* The most keys of a store, and the bytes of a store for so many keys, 1 to SFRAME_MAX_KEYS. */
#define SFRAME_MAX_KEYS 1024
#define SFRAME_STORE_SIZE(keys) (UINT64_C(96) * (keys))

/* The limits of base keys, plaintext and metadata, in bytes. */
#define SFRAME_MIN_BASE_KEY 16
#define SFRAME_MAX_BASE_KEY 64
#define SFRAME_MAX_PLAINTEXT 32768
#define SFRAME_MAX_METADATA 1024

/* The longest header and the longest tag, in bytes. */
#define SFRAME_MAX_HEADER 17
#define SFRAME_MAX_TAG 16

/* How many counters a receiving key remembers, from the highest that it has opened down. */
#define SFRAME_WINDOW 64

/* The most steps of one call of sframe_ratchet, and the most bits of the step in a key number. */
#define SFRAME_MAX_STEPS 64
#define SFRAME_MAX_RATCHET_BITS 16

/* A room that is enough for the frame of a plaintext of so many bytes, under every suite. */
#define SFRAME_FRAME_ROOM(plaintext_len) (UINT64_C(0) + SFRAME_MAX_HEADER + SFRAME_MAX_TAG + (plaintext_len))

/*
 * Makes a store with no keys: all of its bytes become zero. What it held before is gone.
 *
 * SFRAME_DONE, or SFRAME_STORE_NOT_SOUND where store_len is not SFRAME_STORE_SIZE of 1 to
 * SFRAME_MAX_KEYS.
 */
SFRAME_NODISCARD
uint32_t sframe_make(uint8_t *store, size_t store_len);

/*
 * Adds a key for sealing: what RFC 9605 derives for suite and kid from the base key. It goes to the
 * place of its key number, and the records behind move by one; its counter starts at 0. A key number
 * that was once added for sending is never added again, in either role.
 *
 * SFRAME_AES_128_CTR_HMAC_SHA256_32 is for receiving alone, since a tag of 4 bytes is easier to forge
 * (RFC 9605, section 7.5). A sending key of that suite which a store already holds seals on, until its
 * counters are spent or it is removed.
 *
 * SFRAME_DONE, or the first of SFRAME_STORE_NOT_SOUND, SFRAME_SUITE_UNKNOWN, SFRAME_SENDING_BARRED,
 * SFRAME_BASE_KEY_LENGTH, SFRAME_KID_HELD, SFRAME_STORE_FULL that holds.
 */
SFRAME_NODISCARD
uint32_t sframe_add_sending(uint8_t *store, size_t store_len, uint64_t kid, uint64_t suite, const uint8_t *base_key,
                            size_t base_key_len);

/*
 * Adds a key for opening, of any suite; it has opened nothing yet. As sframe_add_sending in all else.
 */
SFRAME_NODISCARD
uint32_t sframe_add_receiving(uint8_t *store, size_t store_len, uint64_t kid, uint64_t suite, const uint8_t *base_key,
                              size_t base_key_len);

/*
 * Removes a key. The record of a receiving key goes, those behind it move by one, and its key number
 * may return; which frames it has opened is forgotten, so it should not return with the same base key.
 * The record of a sending key becomes retired where it stands, even if it has sealed nothing: key and
 * salt are wiped, the record and the key number stay taken.
 *
 * SFRAME_DONE, or the first of SFRAME_STORE_NOT_SOUND, SFRAME_KID_UNKNOWN, SFRAME_WRONG_ROLE that
 * holds.
 */
SFRAME_NODISCARD
uint32_t sframe_remove(uint8_t *store, size_t store_len, uint64_t kid);

/*
 * Removes a key as sframe_remove does, and looks for its record at place first.
 */
SFRAME_NODISCARD
uint32_t sframe_remove_near(uint8_t *store, size_t store_len, uint64_t kid, size_t place);

/*
 * Changes the epoch of a group whose key numbers are made by sframe_group_kid: removes exactly the receiving
 * keys whose key number has epoch_bits as its low epoch_width bits, each as sframe_remove does. RFC 9605
 * asks for it at the latest when a new epoch with the same low bits begins.
 *
 * Sending keys and retired records stay as they are. When the low bits of the epoch come round again, the key
 * number that a sender had with them is still taken (SFRAME_KID_HELD): it needs another context by then.
 *
 * With a width of 0 every receiving key goes; with a width of 64 that of one key number.
 *
 * SFRAME_DONE, also where there are none; or the first of SFRAME_STORE_NOT_SOUND, SFRAME_GROUP_KID_TOO_LONG
 * (epoch_width is above 64), SFRAME_GROUP_PART_TOO_LARGE (epoch_bits is 2^epoch_width or more) that holds.
 */
SFRAME_NODISCARD
uint32_t sframe_change_epoch(uint8_t *store, size_t store_len, uint64_t epoch_width, uint64_t epoch_bits);

/*
 * Tells where the record of a key number stands, be it a retired one. The store is not changed.
 *
 * SFRAME_DONE: *place is the number of the record, from 0.
 * Else the first of SFRAME_STORE_NOT_SOUND, SFRAME_KID_UNKNOWN that holds: *place is 0.
 */
SFRAME_NODISCARD
uint32_t sframe_find(const uint8_t *store, size_t store_len, uint64_t kid, size_t *place);

/*
 * Seals a plaintext under the key of kid and its next counter, and writes the frame (header,
 * ciphertext, tag) to the start of out. The metadata is authenticated with it, but is no part of the
 * frame.
 *
 * SFRAME_DONE: *length is the frame's length, the room beyond it stays as it was, and the record's
 * counter has gone up by one; where it was the last, 2^64 - 1, the record says that none is left.
 * SFRAME_FRAME_ROOM says how long a room always suffices.
 * Else the first of SFRAME_STORE_NOT_SOUND, SFRAME_KID_UNKNOWN, SFRAME_WRONG_ROLE,
 * SFRAME_COUNTER_SPENT, SFRAME_TOO_LONG, SFRAME_ROOM_SHORT that holds: *length is 0, no counter is
 * used up, and store and room stay as they were.
 */
SFRAME_NODISCARD
uint32_t sframe_seal(uint8_t *store, size_t store_len, uint64_t kid, const uint8_t *metadata, size_t metadata_len,
                     const uint8_t *plaintext, size_t plaintext_len, uint8_t *out, size_t out_len, size_t *length);

/*
 * Seals as sframe_seal does, and writes the frame at an offset in out, so that the bytes before it can be
 * the caller's own: they stay as they were. *length is the frame's length, without the offset.
 * SFRAME_ROOM_SHORT holds where out_len is less than offset and frame together, which is so too where the
 * offset lies past the end; any offset may be given. Offset 0 is sframe_seal.
 */
SFRAME_NODISCARD
uint32_t sframe_seal_at(uint8_t *store, size_t store_len, uint64_t kid, const uint8_t *metadata, size_t metadata_len,
                        const uint8_t *plaintext, size_t plaintext_len, uint8_t *out, size_t out_len, size_t offset,
                        size_t *length);

/*
 * Seals as sframe_seal_at does, and looks for the record of kid at place first.
 */
SFRAME_NODISCARD
uint32_t sframe_seal_near(uint8_t *store, size_t store_len, uint64_t kid, size_t place, const uint8_t *metadata,
                          size_t metadata_len, const uint8_t *plaintext, size_t plaintext_len, uint8_t *out,
                          size_t out_len, size_t offset, size_t *length);

/*
 * Opens a frame, given the metadata of its sealing, and writes the plaintext to the start of out.
 * Nothing is written before the tag is found to match. The tag is over the header as it was received,
 * in its shortest form or a longer one. What counts as plaintext for SFRAME_TOO_LONG are the bytes
 * between header and tag. A room as long as the frame always suffices.
 *
 * No frame is opened twice: the key's record remembers which of the last SFRAME_WINDOW counters it has
 * opened. Frames may come in any order, as long as they are fewer than that behind.
 *
 * SFRAME_DONE: *length is the plaintext's length, and the room beyond it stays as it was; the record
 * has the frame's counter as opened, and the rest of the store stays as it was.
 * Else the first of SFRAME_STORE_NOT_SOUND, SFRAME_HEADER_INVALID, SFRAME_KID_UNKNOWN,
 * SFRAME_WRONG_ROLE, SFRAME_FRAME_SHORT, SFRAME_TOO_LONG, SFRAME_ROOM_SHORT, SFRAME_ALREADY_OPENED,
 * SFRAME_TOO_OLD, SFRAME_TAG_DIFFERS that holds: *length is 0, and store and room stay as they were.
 */
SFRAME_NODISCARD
uint32_t sframe_open(uint8_t *store, size_t store_len, const uint8_t *frame, size_t frame_len,
                     const uint8_t *metadata, size_t metadata_len, uint8_t *out, size_t out_len, size_t *length);

/*
 * Opens as sframe_open does, and looks for the record of the frame's key number at place first.
 */
SFRAME_NODISCARD
uint32_t sframe_open_near(uint8_t *store, size_t store_len, size_t place, const uint8_t *frame, size_t frame_len,
                          const uint8_t *metadata, size_t metadata_len, uint8_t *out, size_t out_len, size_t *length);

/*
 * Sealing in pieces, for a sender that cannot hold a frame: sframe_seal_begin, then sframe_seal_piece as often as it
 * takes, then sframe_seal_end. What they write, joined in this order, is the frame that sframe_seal makes of the joined
 * pieces, however the plaintext is cut. Each call is given the running state that the last one of its line left.
 *
 * Many lines may run side by side, under one key too, and in between the store is free for every other call: a line
 * needs it at its beginning alone, and goes on when its key is removed, since the state has its own copy. So the state
 * is as secret as the key. The library does not wipe it: the caller does, once the line has ended or is given up.
 *
 * The state is plain bytes of the caller's, at any address; they hold no pointer and may be moved. The first
 * SFRAME_STATE_SIZE of them count, and those behind stay as they were. Any bytes may be given as a state and get an
 * answer. Some of these answers are of our own choice: SFRAME_ROOM_SHORT for a state below
 * SFRAME_STATE_SIZE bytes, as the last cause of both beginnings, and SFRAME_BAD_STATE in the other calls for a state
 * that is so short, belongs to the other kind of line or to no suite. A caller who passes a struct sframe_state along
 * its line meets none of these.
 */
#define SFRAME_STATE_SIZE 168

/* A running state of the right size: pass its bytes and sizeof its bytes. */
struct sframe_state {
    uint8_t bytes[SFRAME_STATE_SIZE];
};

/*
 * Begins a frame of plaintext_len bytes: writes its header to the start of out and the running state to state, and
 * takes the key's next counter. The counter is used up even where the line is given up later.
 *
 * SFRAME_DONE: *length is the header's length, 1 to SFRAME_MAX_HEADER, and the room beyond it stays as it was; the
 * record's counter has gone up as in sframe_seal.
 * Else the first of SFRAME_STORE_NOT_SOUND, SFRAME_KID_UNKNOWN, SFRAME_WRONG_ROLE, SFRAME_COUNTER_SPENT,
 * SFRAME_TOO_LONG (plaintext_len or metadata_len), SFRAME_ROOM_SHORT that holds: *length is 0, no counter is used up,
 * and store, state and room stay as they were.
 */
SFRAME_NODISCARD
uint32_t sframe_seal_begin(uint8_t *store, size_t store_len, uint64_t kid, const uint8_t *metadata,
                           size_t metadata_len, uint64_t plaintext_len, uint8_t *state, size_t state_len, uint8_t *out,
                           size_t out_len, size_t *length);

/*
 * Seals the next piece of the plaintext, of any length: its ciphertext goes to the start of out.
 *
 * SFRAME_DONE: *length is the piece's length, and the room beyond it stays as it was.
 * Else the first of SFRAME_BAD_STATE, SFRAME_ROOM_SHORT that holds: *length is 0, state and room stay as they were, and
 * the line can go on.
 */
SFRAME_NODISCARD
uint32_t sframe_seal_piece(uint8_t *state, size_t state_len, const uint8_t *piece, size_t piece_len, uint8_t *out,
                           size_t out_len, size_t *length);

/*
 * Ends the frame, once its pieces have the announced length together: writes the tag to the start of out. The state is
 * not changed, so the same end gives the same tag again. SFRAME_MAX_TAG bytes are always enough.
 *
 * SFRAME_DONE: *length is the tag's length, and the room beyond it stays as it was.
 * Else the first of SFRAME_BAD_STATE, SFRAME_ROOM_SHORT that holds: *length is 0, the room stays as it was, and the
 * line can go on.
 */
SFRAME_NODISCARD
uint32_t sframe_seal_end(const uint8_t *state, size_t state_len, uint8_t *out, size_t out_len, size_t *length);

/*
 * Checking in pieces, for a receiver that cannot hold a frame but wants to know whether it is genuine, say before it
 * passes it on: sframe_check_begin with the frame's header, sframe_check_piece with the ciphertext piece by piece,
 * sframe_check_end with the tag. A check shows nothing of the plaintext, does not ask whether the frame was opened
 * before, and leaves the store alone. Opening takes a frame as a whole.
 *
 * sframe_check_begin takes the header at the front of the bytes, in whatever form it was received, and passes over what
 * follows it.
 *
 * SFRAME_DONE, or the first of SFRAME_STORE_NOT_SOUND, SFRAME_HEADER_INVALID, SFRAME_KID_UNKNOWN, SFRAME_WRONG_ROLE,
 * SFRAME_TOO_LONG (ciphertext_len or metadata_len), SFRAME_ROOM_SHORT (the state alone) that holds: the state stays as
 * it was.
 */
SFRAME_NODISCARD
uint32_t sframe_check_begin(const uint8_t *store, size_t store_len, const uint8_t *header, size_t header_len,
                            const uint8_t *metadata, size_t metadata_len, uint64_t ciphertext_len, uint8_t *state,
                            size_t state_len);

/*
 * Takes the next piece of the ciphertext, of any length.
 *
 * SFRAME_DONE, or SFRAME_BAD_STATE: the state stays as it was, and the line can go on.
 */
SFRAME_NODISCARD
uint32_t sframe_check_piece(uint8_t *state, size_t state_len, const uint8_t *piece, size_t piece_len);

/*
 * Ends the check: whether this is the tag. The state is not changed.
 *
 * SFRAME_DONE: header, ciphertext and tag are a frame under the key and the metadata of the beginning.
 * Else the first of SFRAME_BAD_STATE, SFRAME_FRAME_SHORT (tag_len is not the length of the suite's tags, be it longer),
 * SFRAME_TAG_DIFFERS that holds.
 */
SFRAME_NODISCARD
uint32_t sframe_check_end(const uint8_t *state, size_t state_len, const uint8_t *tag, size_t tag_len);

/*
 * How many of the last SFRAME_WINDOW counters were opened under a receiving key, the highest that was
 * opened among them; 0 where none was yet. The store is not changed.
 *
 * SFRAME_DONE: *count is that number, 0 to SFRAME_WINDOW.
 * Else the first of SFRAME_STORE_NOT_SOUND, SFRAME_KID_UNKNOWN, SFRAME_WRONG_ROLE that holds: *count
 * is 0.
 */
SFRAME_NODISCARD
uint32_t sframe_report(const uint8_t *store, size_t store_len, uint64_t kid, uint64_t *count);

/*
 * Writes the header of kid and ctr, in its shortest form, to the start of out.
 *
 * SFRAME_DONE: *length is the header's length, 1 to SFRAME_MAX_HEADER; the room beyond it stays as it was.
 * SFRAME_ROOM_SHORT: out_len is less than the header's length; *length is 0 and the room stays as it was.
 */
SFRAME_NODISCARD
uint32_t sframe_write_header(uint64_t kid, uint64_t ctr, uint8_t *out, size_t out_len, size_t *length);

/*
 * Writes the header at an offset in out, as sframe_write_header does at the start.
 *
 * SFRAME_DONE: *length is the header's length, without the offset; the room before it and beyond it stays as it was.
 * SFRAME_ROOM_SHORT: out_len is less than offset and header together; *length is 0 and the room stays as it was.
 */
SFRAME_NODISCARD
uint32_t sframe_write_header_at(uint64_t kid, uint64_t ctr, uint8_t *out, size_t out_len, size_t offset,
                                size_t *length);

/*
 * Reads the header at the front of the bytes, whatever follows it. A number may stand in more bytes than it needs.
 *
 * Given a frame, it tells whose it is without a key, say to a server on the way: its key number, its counter, and by
 * the length where ciphertext and tag begin. Nothing of it is authenticated; only sframe_open does that.
 *
 * SFRAME_DONE: *kid, *ctr and *length are the header's two numbers and its length.
 * SFRAME_HEADER_INVALID: the bytes end before the header does; *kid, *ctr and *length are 0.
 */
SFRAME_NODISCARD
uint32_t sframe_read_header(const uint8_t *bytes, size_t bytes_len, uint64_t *kid, uint64_t *ctr, size_t *length);

/*
 * Walks a base key so many steps forward, as the sender of RFC 9605 section 5.1 ratchets it, and writes
 * the key to the start of out. No step gives the base key back as it is. After one step or more the key
 * has as many bytes as the suite's hash: 32, and 64 with SFRAME_AES_256_GCM_SHA512_128. A room of
 * SFRAME_MAX_BASE_KEY always suffices. The key goes into a store by sframe_add_sending or
 * sframe_add_receiving, under the key number of its step.
 *
 * SFRAME_DONE: *length is the key's length, and the room beyond it stays as it was.
 * Else the first of SFRAME_SUITE_UNKNOWN, SFRAME_BASE_KEY_LENGTH, SFRAME_TOO_MANY_STEPS,
 * SFRAME_ROOM_SHORT that holds: *length is 0 and the room stays as it was.
 */
SFRAME_NODISCARD
uint32_t sframe_ratchet(uint64_t suite, const uint8_t *base_key, size_t base_key_len, uint64_t steps, uint8_t *out,
                        size_t out_len, size_t *length);

/*
 * The key number of a step in a generation of keys: its low bits are those of the step, and the others
 * are the generation. So the number of a step returns after 2^bits steps; where the store still has its
 * record, be it a retired one, adding it is refused with SFRAME_KID_HELD.
 *
 * SFRAME_DONE: *kid is generation * 2^bits + step % 2^bits.
 * SFRAME_RATCHET_KID_INVALID: bits is not 1 to SFRAME_MAX_RATCHET_BITS, or that number is 2^64 or more;
 * *kid is 0.
 */
SFRAME_NODISCARD
uint32_t sframe_ratchet_kid(uint64_t generation, uint64_t step, uint64_t bits, uint64_t *kid);

/*
 * The key number of a member of an MLS group (RFC 9605, section 5.2): its low epoch_width bits are those of
 * the epoch, the index_width bits above them are the sender's index, and the others are a context of the
 * sender's choice. Context 0 gives the shortest headers.
 *
 * SFRAME_DONE: *kid is context * 2^(index_width + epoch_width) + index * 2^epoch_width + epoch % 2^epoch_width.
 * Else the first that holds: SFRAME_GROUP_KID_TOO_LONG, where the widths are above 64 together;
 * SFRAME_GROUP_PART_TOO_LARGE, where index is 2^index_width or more; SFRAME_GROUP_KID_TOO_LONG, where that
 * number is 2^64 or more. *kid is 0 then.
 */
SFRAME_NODISCARD
uint32_t sframe_group_kid(uint64_t context, uint64_t index, uint64_t epoch, uint64_t index_width,
                          uint64_t epoch_width, uint64_t *kid);

/*
 * The parts of such a key number. What sframe_group_kid packed comes out again, of the epoch its low bits.
 *
 * SFRAME_DONE: *context, *index and *epoch are the three parts.
 * SFRAME_GROUP_KID_TOO_LONG: the widths are above 64 together; the three are 0.
 */
SFRAME_NODISCARD
uint32_t sframe_group_parts(uint64_t kid, uint64_t index_width, uint64_t epoch_width, uint64_t *context,
                            uint64_t *index, uint64_t *epoch);

/*
 * The version of the archive, as SFRAME_VERSION_NUMBER is that of this header: where the two differ, archive and
 * header are not of one release.
 */
SFRAME_NODISCARD
uint32_t sframe_version(void);

/*
 * What an answer says, as a sentence for a log; "unknown answer" where the number is none of enum sframe_answer.
 */
SFRAME_INLINE const char *sframe_answer_text(uint32_t answer)
{
    switch (answer) {
    case SFRAME_DONE:
        return "done";
    case SFRAME_STORE_NOT_SOUND:
        return "the store is not sound";
    case SFRAME_SUITE_UNKNOWN:
        return "there is no such cipher suite: they are numbered 1 to 5";
    case SFRAME_BASE_KEY_LENGTH:
        return "the base key must have 16 to 64 bytes";
    case SFRAME_KID_HELD:
        return "the store has this key number already";
    case SFRAME_STORE_FULL:
        return "the store has no empty record left";
    case SFRAME_KID_UNKNOWN:
        return "the store does not have this key number";
    case SFRAME_WRONG_ROLE:
        return "the role of this key number does not allow the call";
    case SFRAME_COUNTER_SPENT:
        return "the key has no counter left";
    case SFRAME_TOO_LONG:
        return "the plaintext has more than 32,768 bytes or the metadata more than 1,024";
    case SFRAME_HEADER_INVALID:
        return "the header is cut short";
    case SFRAME_FRAME_SHORT:
        return "the frame is too short to hold a tag, or the tag has another length";
    case SFRAME_ROOM_SHORT:
        return "the room or the running state is too short";
    case SFRAME_TAG_DIFFERS:
        return "the tag does not match";
    case SFRAME_ALREADY_OPENED:
        return "a frame with this counter was opened before";
    case SFRAME_TOO_OLD:
        return "the counter lies 64 or more below the highest that was opened";
    case SFRAME_BAD_STATE:
        return "the pieces are more or fewer than was announced, or the running state is none of this call";
    case SFRAME_SENDING_BARRED:
        return "no key is added for sending with suite 3: its tags have 4 bytes";
    case SFRAME_RATCHET_KID_INVALID:
        return "a step has 1 to 16 bits, and the key number must fit in 64";
    case SFRAME_TOO_MANY_STEPS:
        return "a key is walked at most 64 steps at once";
    case SFRAME_GROUP_PART_TOO_LARGE:
        return "the index or the bits of the epoch do not fit their width";
    case SFRAME_GROUP_KID_TOO_LONG:
        return "the widths are above 64 together, or the key number does not fit in 64 bits";
    default:
        return "unknown answer";
    }
}

#ifdef __cplusplus
}
#endif

#endif
