/* SPDX-License-Identifier: MIT */
/*
 * Secure objects over MoQ (draft-ietf-moq-secure-objects): the sealing layer's second C interface.
 *
 * Link libmoq_c.a, which target/staticlib has for x86-64 and target/aarch64 for 64-bit Arm. It shares no
 * symbol with libsframe_c.a, so that a program may link both. The proofs are of the code, not of the
 * archive's machine code.
 *
 * Tracks are kept in a track store, which is bytes that the caller lends to each call; the library has no
 * memory of its own. A track is a full track name, as the draft serializes it, with a Key ID. A publisher
 * adds its tracks for sending and seals objects under them, a subscriber adds them for receiving and
 * opens. docs/TRACKS.md has the store's layout.
 *
 * The caller serializes: the name, the immutable properties and the plaintext are byte strings that the
 * library takes as they are. The draft asks that the properties contain the Secure Object Key ID property
 * with the Key ID; the library does not look into them. What moq_open gives is still to be parsed, and an
 * object that does not parse is to be dropped.
 *
 * Every call judges its own input: there is no number and no byte string that it has no answer for. The
 * result is the number of the answer: 0 when it is done, else the number of the cause. Where several
 * causes hold, the answer is the first in the order in which the call lists them below. A refusal changes
 * no byte of store or room, and gives 0 for the length.
 *
 * What the caller owes is what sframe.h says: valid pointers (a byte string of length 0 may be a null
 * pointer), no overlap with what a call writes to, one caller at a time, and a store that stays between
 * calls as the last call left it. A store that is copied, set back or made again and given the same
 * tracks would seal with pairs that were used before. Calls of moq_open alone may share a store.
 *
 * The draft asks that encryptions and decryptions under one key be counted and stay within the limits of
 * the cipher; the library does not count them.
 *
 * Integers in labels and associated data have the variable length of RFC 9000, section 16, which ends below
 * 2^62. A Key ID or a group from there on is written as the byte ff and 8 bytes: a choice of this library,
 * which a peer may not share, so stay below 2^62.
 */
#ifndef MOQ_H
#define MOQ_H

#include <stddef.h>
#include <stdint.h>

/* Lengths are 64 bits wide in the code and in its proofs, and the archives are for little-endian processors. */
#if SIZE_MAX != UINT64_MAX
#error "moq: size_t must have 64 bits"
#endif
#if defined(__BYTE_ORDER__) && __BYTE_ORDER__ != __ORDER_LITTLE_ENDIAN__
#error "moq: the processor must be little-endian"
#endif

/*
 * The version of this header, by semantic versioning: below 1.0 a minor version may change a call.
 */
#define MOQ_VERSION_MAJOR 0
#define MOQ_VERSION_MINOR 2
#define MOQ_VERSION_PATCH 0
#define MOQ_VERSION "0.2.0"
#define MOQ_VERSION_NUMBER (10000 * MOQ_VERSION_MAJOR + 100 * MOQ_VERSION_MINOR + MOQ_VERSION_PATCH)

/* The compiler warns where an answer is not looked at. What the header itself defines is inline, in C89 too. */
#if defined(__GNUC__)
#define MOQ_NODISCARD __attribute__((warn_unused_result))
#define MOQ_INLINE static __inline__
#else
#define MOQ_NODISCARD
#define MOQ_INLINE static inline
#endif

#ifdef __cplusplus
extern "C" {
#endif

/* The answers. They have the numbers that sframe.h has for the same causes. */
enum moq_answer {
    MOQ_DONE = 0,
    /* The store breaks a rule of its layout. In making: its length is not 344 to 5504 in steps of 344. */
    MOQ_STORE_NOT_SOUND = 1,
    /* The suite is not 1 to 5. */
    MOQ_SUITE_UNKNOWN = 2,
    /* The base key is shorter than MOQ_MIN_BASE_KEY or longer than MOQ_MAX_BASE_KEY. */
    MOQ_BASE_KEY_LENGTH = 3,
    /* The store already has a record of the name and Key ID, be it a retired one. */
    MOQ_TRACK_HELD = 4,
    /* The store has no empty record. */
    MOQ_STORE_FULL = 5,
    /* The store has no record of the name and Key ID; a name above MOQ_MAX_NAME never has one. */
    MOQ_TRACK_UNKNOWN = 6,
    /* The record is not for this: sealing takes a sending one, opening a receiving one, and a retired one
     * is not removed again. */
    MOQ_WRONG_ROLE = 7,
    /* The plaintext exceeds MOQ_MAX_PLAINTEXT, or the properties MOQ_MAX_PROPERTIES; in adding, the name
     * exceeds MOQ_MAX_NAME. */
    MOQ_TOO_LONG = 9,
    /* The object has fewer bytes than a tag. */
    MOQ_OBJECT_SHORT = 11,
    /* The room is shorter than the result. */
    MOQ_ROOM_SHORT = 12,
    /* The tag is not the one of this object, track, pair and properties. */
    MOQ_TAG_DIFFERS = 13,
    /* No track is added for sending with suite 3, whose tags have 4 bytes. */
    MOQ_SENDING_BARRED = 17,
    /* The pair is not above the last one that was sealed under this record. */
    MOQ_PAIR_NOT_ABOVE = 24,
    /* The object number has more than 32 bits. */
    MOQ_OBJECT_TOO_LARGE = 25
};

/* The most tracks of a store, and the bytes of a store for so many tracks, 1 to MOQ_MAX_TRACKS. */
#define MOQ_MAX_TRACKS 16
#define MOQ_STORE_SIZE(tracks) (UINT64_C(344) * (tracks))

/* The limits of base keys, names, plaintext and properties, in bytes. */
#define MOQ_MIN_BASE_KEY 16
#define MOQ_MAX_BASE_KEY 64
#define MOQ_MAX_NAME 256
#define MOQ_MAX_PLAINTEXT 32768
#define MOQ_MAX_PROPERTIES 1024

/* The longest tag, in bytes. */
#define MOQ_MAX_TAG 16

/* A room that is enough for the object of a plaintext of so many bytes, under every suite. */
#define MOQ_OBJECT_ROOM(plaintext_len) (UINT64_C(0) + MOQ_MAX_TAG + (plaintext_len))

/*
 * Makes a track store with no tracks: all of its bytes become zero. What it held before is gone.
 *
 * MOQ_DONE, or MOQ_STORE_NOT_SOUND where store_len is not MOQ_STORE_SIZE of 1 to MOQ_MAX_TRACKS.
 */
MOQ_NODISCARD
uint32_t moq_make(uint8_t *store, size_t store_len);

/*
 * Adds a track for sealing: key and salt are what the draft derives for suite, name and key_id from the
 * base key. It goes to the first empty record. A track that was once added is never added again in this
 * store, in either role.
 *
 * MOQ_DONE, or the first of MOQ_STORE_NOT_SOUND, MOQ_SUITE_UNKNOWN, MOQ_SENDING_BARRED,
 * MOQ_BASE_KEY_LENGTH, MOQ_TOO_LONG, MOQ_TRACK_HELD, MOQ_STORE_FULL that holds.
 */
MOQ_NODISCARD
uint32_t moq_add_sending(uint8_t *store, size_t store_len, const uint8_t *name, size_t name_len, uint64_t key_id,
                         uint64_t suite, const uint8_t *base_key, size_t base_key_len);

/*
 * Adds a track for opening, of any suite. As moq_add_sending in all else.
 */
MOQ_NODISCARD
uint32_t moq_add_receiving(uint8_t *store, size_t store_len, const uint8_t *name, size_t name_len, uint64_t key_id,
                           uint64_t suite, const uint8_t *base_key, size_t base_key_len);

/*
 * Removes a track, be it for sending or for receiving: its record becomes retired. Key and salt are wiped,
 * the record, the name and the Key ID stay taken.
 *
 * MOQ_DONE, or the first of MOQ_STORE_NOT_SOUND, MOQ_TRACK_UNKNOWN, MOQ_WRONG_ROLE that holds.
 */
MOQ_NODISCARD
uint32_t moq_remove(uint8_t *store, size_t store_len, const uint8_t *name, size_t name_len, uint64_t key_id);

/*
 * Seals a plaintext as the object of a group and an object number, and writes ciphertext and tag to the
 * start of out. The pair has to be above the last one that was sealed under the record, groups first; the
 * first may be any. The properties are authenticated with it, but are no part of the result.
 *
 * MOQ_DONE: *length is the object's length, the room beyond it stays as it was, and the record holds the
 * pair as the last one.
 * Else the first of MOQ_STORE_NOT_SOUND, MOQ_TRACK_UNKNOWN, MOQ_WRONG_ROLE, MOQ_OBJECT_TOO_LARGE,
 * MOQ_PAIR_NOT_ABOVE, MOQ_TOO_LONG, MOQ_ROOM_SHORT that holds: *length is 0, no pair is used up, and store
 * and room stay as they were.
 */
MOQ_NODISCARD
uint32_t moq_seal(uint8_t *store, size_t store_len, const uint8_t *name, size_t name_len, uint64_t key_id,
                  uint64_t group, uint64_t object, const uint8_t *properties, size_t properties_len,
                  const uint8_t *plaintext, size_t plaintext_len, uint8_t *out, size_t out_len, size_t *length);

/*
 * Opens an object, given the name, Key ID, pair and properties of its sealing, and writes the plaintext to
 * the start of out. The store is not changed, and no window is kept: an object opens as often as it is
 * given, unlike a frame of sframe.h. Nothing is written before the tag is found to match. What
 * counts as plaintext for MOQ_TOO_LONG are the bytes before the tag. A room as long as the object always
 * suffices.
 *
 * MOQ_DONE: *length is the plaintext's length, and the room beyond it stays as it was.
 * Else the first of MOQ_STORE_NOT_SOUND, MOQ_TRACK_UNKNOWN, MOQ_WRONG_ROLE, MOQ_OBJECT_TOO_LARGE,
 * MOQ_OBJECT_SHORT, MOQ_TOO_LONG, MOQ_ROOM_SHORT, MOQ_TAG_DIFFERS that holds: *length is 0 and the room
 * stays as it was.
 */
MOQ_NODISCARD
uint32_t moq_open(const uint8_t *store, size_t store_len, const uint8_t *name, size_t name_len, uint64_t key_id,
                  uint64_t group, uint64_t object, const uint8_t *properties, size_t properties_len,
                  const uint8_t *sealed, size_t sealed_len, uint8_t *out, size_t out_len, size_t *length);

/*
 * What an answer says, as a sentence for a log; "unknown answer" where the number is none of enum moq_answer.
 */
MOQ_INLINE const char *moq_answer_text(uint32_t answer)
{
    switch (answer) {
    case MOQ_DONE:
        return "done";
    case MOQ_STORE_NOT_SOUND:
        return "the track store is not sound";
    case MOQ_SUITE_UNKNOWN:
        return "there is no such cipher suite: they are numbered 1 to 5";
    case MOQ_BASE_KEY_LENGTH:
        return "the base key must have 16 to 64 bytes";
    case MOQ_TRACK_HELD:
        return "the store has this track and Key ID already";
    case MOQ_STORE_FULL:
        return "the store has no empty record left";
    case MOQ_TRACK_UNKNOWN:
        return "the store does not have this track and Key ID";
    case MOQ_WRONG_ROLE:
        return "the role of this track does not allow the call";
    case MOQ_TOO_LONG:
        return "the plaintext, the properties or the name is too long";
    case MOQ_OBJECT_SHORT:
        return "the object is too short to hold a tag";
    case MOQ_ROOM_SHORT:
        return "the room is too short for the result";
    case MOQ_TAG_DIFFERS:
        return "the tag does not match";
    case MOQ_SENDING_BARRED:
        return "no track is added for sending with suite 3: its tags have 4 bytes";
    case MOQ_PAIR_NOT_ABOVE:
        return "the pair is not above the last one sealed";
    case MOQ_OBJECT_TOO_LARGE:
        return "the object number has more than 32 bits";
    default:
        return "unknown answer";
    }
}

#ifdef __cplusplus
}
#endif

#endif
