/* SPDX-License-Identifier: MIT */
/*
 * Adds, seals and opens under every suite, and seals and checks in pieces, with secrets marked as undefined, so that
 * valgrind tells of each address and each branch that depends on one. scripts/secrets builds and runs it, and judges what
 * valgrind says.
 *
 * Secret are the base key, with all that is derived from it, and the plaintext. Frames are public once they are sealed.
 * Add, Seal and the calls in pieces must add nothing to valgrind's count. Open adds its verdict on the tag, once where it is
 * found and once where it is answered, the same for every suite and every length. The end of a check may find its verdict
 * without a branch: then its answer itself is undefined.
 */
#include <stdio.h>
#include <string.h>
#include <valgrind/memcheck.h>

#include "sframe.h"

enum { BASE_KEY = 32, LONGEST = 1200, METADATA = 20, MARK_SENDING = 1, MARK_RECEIVING = 2 };

static uint8_t sending[SFRAME_STORE_SIZE(1)], receiving[SFRAME_STORE_SIZE(1)], base_key[BASE_KEY];
static uint8_t plaintext[LONGEST], metadata[METADATA], frame[SFRAME_FRAME_ROOM(LONGEST)], opened[LONGEST];

/* How often Open, or the end of a check, may look at its verdict. */
enum { VERDICTS = 2 };

/* What valgrind has counted since it was last asked. */
static unsigned counted(void)
{
    static unsigned before;
    unsigned now = VALGRIND_COUNT_ERRORS, more = now - before;
    before = now;
    return more;
}

static int failed(const char *what, uint64_t suite, size_t length, uint32_t answer)
{
    printf("suite %d, %zu bytes: %s answered %u\n", (int)suite, length, what, (unsigned)answer);
    return 1;
}

/* A store with one key for sending. Suite 3 is not added for sending any more; a stored key of it still seals. */
static uint32_t add_sending(uint64_t suite)
{
    uint32_t answer;
    if (suite != SFRAME_AES_128_CTR_HMAC_SHA256_32)
        return sframe_add_sending(sending, sizeof sending, 7, suite, base_key, sizeof base_key);
    answer = sframe_add_receiving(sending, sizeof sending, 7, suite, base_key, sizeof base_key);
    sending[0] = MARK_SENDING;
    return answer;
}

static int told(const char *what, uint64_t suite, size_t length, unsigned times)
{
    printf("suite %d, %zu bytes: %s depends on a secret %u times\n", (int)suite, length, what, times);
    return 1;
}

static int round_trip(uint64_t suite, size_t length)
{
    static unsigned verdicts;
    size_t n = 0, m = 0;
    uint32_t answer;
    unsigned times;
    int bad = 0;

    VALGRIND_MAKE_MEM_UNDEFINED(plaintext, sizeof plaintext);
    answer = sframe_seal(sending, sizeof sending, 7, metadata, sizeof metadata, plaintext, length, frame, sizeof frame, &n);
    times = counted();
    if (answer != SFRAME_DONE)
        return failed("seal", suite, length, answer);
    if (times != 0)
        bad += told("seal", suite, length, times);
    VALGRIND_MAKE_MEM_DEFINED(frame, sizeof frame);
    answer = sframe_open(receiving, sizeof receiving, frame, n, metadata, sizeof metadata, opened, sizeof opened, &m);
    times = counted();
    if (answer != SFRAME_DONE || m != length)
        return failed("open", suite, length, answer);
    if (verdicts == 0)
        verdicts = times;
    if (times == 0 || times > VERDICTS || times != verdicts)
        bad += told("open", suite, length, times);
    VALGRIND_MAKE_MEM_DEFINED(opened, sizeof opened);
    VALGRIND_MAKE_MEM_DEFINED(plaintext, sizeof plaintext);
    if (memcmp(opened, plaintext, length) != 0)
        return failed("open, another plaintext,", suite, length, answer);
    return bad;
}

/* The same frame by pieces of 100 bytes. The running state holds the key: it is secret but for its counts. */
static int in_pieces(uint64_t suite, size_t length)
{
    enum { PIECE = 100, NONE = -1 };
    static int verdicts = NONE;
    static struct sframe_state state;
    size_t header = 0, tag = 0, n = 0, at, size;
    uint8_t undefined[sizeof(uint32_t)] = { 0 };
    uint32_t answer;
    int times, reached = 0, bad = 0;

    VALGRIND_MAKE_MEM_UNDEFINED(plaintext, sizeof plaintext);
    answer = sframe_seal_begin(sending, sizeof sending, 7, metadata, sizeof metadata, length, state.bytes, sizeof state.bytes, frame, sizeof frame, &header);
    for (at = 0; at < length && answer == SFRAME_DONE; at += size) {
        size = length - at < PIECE ? length - at : PIECE;
        answer = sframe_seal_piece(state.bytes, sizeof state.bytes, plaintext + at, size, frame + header + at, PIECE, &n);
    }
    if (answer == SFRAME_DONE)
        answer = sframe_seal_end(state.bytes, sizeof state.bytes, frame + header + length, SFRAME_MAX_TAG, &tag);
    times = (int)counted();
    if (answer != SFRAME_DONE)
        return failed("sealing in pieces", suite, length, answer);
    if (times != 0)
        bad += told("sealing in pieces", suite, length, (unsigned)times);
    VALGRIND_MAKE_MEM_DEFINED(frame, sizeof frame);
    answer = sframe_check_begin(receiving, sizeof receiving, frame, header, metadata, sizeof metadata, length, state.bytes, sizeof state.bytes);
    for (at = 0; at < length && answer == SFRAME_DONE; at += size) {
        size = length - at < PIECE ? length - at : PIECE;
        answer = sframe_check_piece(state.bytes, sizeof state.bytes, frame + header + at, size);
    }
    times = (int)counted();
    if (answer != SFRAME_DONE)
        return failed("checking in pieces", suite, length, answer);
    if (times != 0)
        bad += told("checking in pieces", suite, length, (unsigned)times);
    answer = sframe_check_end(state.bytes, sizeof state.bytes, frame + header + length, tag);
    times = (int)counted();
    VALGRIND_GET_VBITS(&answer, undefined, sizeof undefined);
    VALGRIND_MAKE_MEM_DEFINED(&answer, sizeof answer);
    if (answer != SFRAME_DONE)
        return failed("the end of a check", suite, length, answer);
    for (at = 0; at < sizeof undefined; at++)
        reached += undefined[at] != 0;
    if (reached + times == 0 || times > VERDICTS || (verdicts != NONE && times != verdicts))
        bad += told("the end of a check", suite, length, (unsigned)times);
    verdicts = times;
    VALGRIND_MAKE_MEM_DEFINED(plaintext, sizeof plaintext);
    return bad;
}

int main(void)
{
    static const size_t lengths[] = {0, 1, 16, 200, 224, 225, LONGEST};
    uint64_t suite;
    size_t i;
    int bad = 0;

    for (suite = SFRAME_AES_128_CTR_HMAC_SHA256_80; suite <= SFRAME_AES_256_GCM_SHA512_128; suite++) {
        uint32_t answer;
        memset(base_key, 0x5a, sizeof base_key);
        VALGRIND_MAKE_MEM_UNDEFINED(base_key, sizeof base_key);
        answer = sframe_make(sending, sizeof sending);
        if (answer == SFRAME_DONE)
            answer = sframe_make(receiving, sizeof receiving);
        if (answer != SFRAME_DONE)
            bad += failed("make", suite, 0, answer);
        answer = add_sending(suite);
        if (answer != SFRAME_DONE)
            bad += failed("add for sending", suite, 0, answer);
        answer = sframe_add_receiving(receiving, sizeof receiving, 7, suite, base_key, sizeof base_key);
        if (answer != SFRAME_DONE)
            bad += failed("add for receiving", suite, 0, answer);
        if (counted() != 0)
            bad += told("add", suite, 0, 1);
        for (i = 0; i < sizeof lengths / sizeof lengths[0]; i++)
            bad += round_trip(suite, lengths[i]) + in_pieces(suite, lengths[i]);
    }
    return bad != 0;
}
