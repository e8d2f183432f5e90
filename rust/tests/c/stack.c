/* SPDX-License-Identifier: MIT */
/*
 * Prints how much stack each call takes at most: it is made on a stack of its own that was filled with a pattern, on the
 * longest inputs and a store of 1,024 records, and what a call that does nothing takes is left out. Suite 3 is suite 1 with
 * a shorter tag, and is not tried.
 */
#define _XOPEN_SOURCE 700
#include <inttypes.h>
#include <stdio.h>
#include <stdlib.h>
#include <string.h>
#include <ucontext.h>

#include "sframe.h"

enum { STACK = 1 << 18, PATTERN = 0xa5, RECORDS = SFRAME_MAX_KEYS };

static const uint64_t SUITES[] = { 1, 2, 4, 5 };

static uint8_t stack[STACK];
static uint8_t sending[SFRAME_STORE_SIZE(RECORDS)], receiving[SFRAME_STORE_SIZE(RECORDS)];
static uint8_t plaintext[SFRAME_MAX_PLAINTEXT], metadata[SFRAME_MAX_METADATA], opened[SFRAME_MAX_PLAINTEXT];
static uint8_t frame[SFRAME_FRAME_ROOM(SFRAME_MAX_PLAINTEXT)], key[SFRAME_MAX_BASE_KEY];
static struct sframe_state state;
static size_t frame_len, length, place;
static uint64_t suite, kid, ctr, count, context, member, epoch;
static uint32_t answer;

static void nothing(void) { answer = 0; }
static void make(void) { answer = sframe_make(sending, sizeof sending); }
static void make_other(void) { answer = sframe_make(receiving, sizeof receiving); }
static void add_sending(void) { answer = sframe_add_sending(sending, sizeof sending, RECORDS, suite, key, sizeof key); }
static void add_receiving(void) { answer = sframe_add_receiving(receiving, sizeof receiving, RECORDS, suite, key, sizeof key); }
static void remove_key(void) { answer = sframe_remove(sending, sizeof sending, RECORDS); }
static void remove_near(void) { answer = sframe_remove_near(receiving, sizeof receiving, RECORDS, 1); }

static void seal(void)
{
    answer = sframe_seal(sending, sizeof sending, RECORDS, metadata, sizeof metadata, plaintext, sizeof plaintext, frame, sizeof frame, &frame_len);
}

static void seal_at(void)
{
    answer = sframe_seal_at(sending, sizeof sending, RECORDS, metadata, sizeof metadata, plaintext, sizeof plaintext, frame, sizeof frame, 0, &frame_len);
}

/* A wrong place, so that the record is searched for. */
static void seal_near(void)
{
    answer = sframe_seal_near(sending, sizeof sending, RECORDS, 1, metadata, sizeof metadata, plaintext, sizeof plaintext, frame, sizeof frame, 0, &frame_len);
}

static void open_frame(void)
{
    answer = sframe_open(receiving, sizeof receiving, frame, frame_len, metadata, sizeof metadata, opened, sizeof opened, &length);
}

static void open_near(void)
{
    answer = sframe_open_near(receiving, sizeof receiving, 1, frame, frame_len, metadata, sizeof metadata, opened, sizeof opened, &length);
}

/* A line of one piece, which is as long as can be. */
static void seal_begin(void)
{
    answer = sframe_seal_begin(sending, sizeof sending, RECORDS, metadata, sizeof metadata, sizeof plaintext, state.bytes, sizeof state.bytes, frame, sizeof frame, &frame_len);
}

static void seal_piece(void)
{
    answer = sframe_seal_piece(state.bytes, sizeof state.bytes, plaintext, sizeof plaintext, frame + frame_len, sizeof frame - frame_len, &length);
}

static void seal_end(void)
{
    answer = sframe_seal_end(state.bytes, sizeof state.bytes, frame + frame_len + length, SFRAME_MAX_TAG, &length);
}

static void check_begin(void)
{
    answer = sframe_check_begin(receiving, sizeof receiving, frame, frame_len, metadata, sizeof metadata, sizeof plaintext, state.bytes, sizeof state.bytes);
}

static void check_piece(void) { answer = sframe_check_piece(state.bytes, sizeof state.bytes, frame + frame_len, sizeof plaintext); }
static void check_end(void) { answer = sframe_check_end(state.bytes, sizeof state.bytes, frame + frame_len + sizeof plaintext, length); }

static void find(void) { answer = sframe_find(receiving, sizeof receiving, RECORDS, &place); }
static void report(void) { answer = sframe_report(receiving, sizeof receiving, RECORDS, &count); }
static void write_header(void) { answer = sframe_write_header(UINT64_MAX, UINT64_MAX, frame, sizeof frame, &length); }
static void write_header_at(void) { answer = sframe_write_header_at(UINT64_MAX, UINT64_MAX, frame, sizeof frame, 1, &length); }
static void read_header(void) { answer = sframe_read_header(frame, SFRAME_MAX_HEADER, &kid, &ctr, &length); }
static void ratchet(void) { answer = sframe_ratchet(suite, key, sizeof key, SFRAME_MAX_STEPS, opened, sizeof opened, &length); }
static void group_kid(void) { answer = sframe_group_kid(1, 2, 3, 10, 16, &kid); }
static void group_parts(void) { answer = sframe_group_parts(UINT64_MAX, 10, 16, &context, &member, &epoch); }
static void change_epoch(void) { answer = sframe_change_epoch(receiving, sizeof receiving, 16, RECORDS); }
static void ratchet_kid(void) { answer = sframe_ratchet_kid(1, 2, SFRAME_MAX_RATCHET_BITS, &kid); }

/* How much of the stack a call has written to. */
static size_t used_by(void (*call)(void))
{
    ucontext_t here, there;
    size_t i = 0;

    memset(stack, PATTERN, sizeof stack);
    getcontext(&there);
    there.uc_stack.ss_sp = stack;
    there.uc_stack.ss_size = sizeof stack;
    there.uc_link = &here;
    makecontext(&there, call, 0);
    if (swapcontext(&here, &there) != 0 || answer != SFRAME_DONE) {
        fprintf(stderr, "a call answered %" PRIu32 "\n", answer);
        exit(EXIT_FAILURE);
    }
    while (i < sizeof stack && stack[i] == PATTERN) {
        i++;
    }
    return sizeof stack - i;
}

static const struct {
    const char *name;
    void (*call)(void);
} CALLS[] = {
    { "sframe_make", make },
    { NULL, make_other },
    { "sframe_add_sending", add_sending },
    { "sframe_add_receiving", add_receiving },
    { "sframe_seal", seal },
    { "sframe_seal_at", seal_at },
    { "sframe_open", open_frame },
    { "sframe_seal_near", seal_near },
    { "sframe_open_near", open_near },
    { "sframe_seal_begin", seal_begin },
    { "sframe_seal_piece", seal_piece },
    { "sframe_seal_end", seal_end },
    { "sframe_check_begin", check_begin },
    { "sframe_check_piece", check_piece },
    { "sframe_check_end", check_end },
    { "sframe_find", find },
    { "sframe_report", report },
    { "sframe_remove", remove_key },
    { "sframe_remove_near", remove_near },
    { NULL, add_receiving },
    { "sframe_change_epoch", change_epoch },
    { "sframe_write_header_at", write_header_at },
    { "sframe_write_header", write_header },
    { "sframe_read_header", read_header },
    { "sframe_ratchet", ratchet },
    { "sframe_ratchet_kid", ratchet_kid },
    { "sframe_group_kid", group_kid },
    { "sframe_group_parts", group_parts },
};

int main(void)
{
    const size_t calls = sizeof CALLS / sizeof CALLS[0];
    const size_t none = used_by(nothing);
    size_t most[sizeof CALLS / sizeof CALLS[0]] = { 0 };

    for (size_t s = 0; s < sizeof SUITES / sizeof SUITES[0]; s++) {
        suite = SUITES[s];
        for (size_t i = 0; i < calls; i++) {
            const size_t used = used_by(CALLS[i].call) - none;
            most[i] = used > most[i] ? used : most[i];
        }
    }
    for (size_t i = 0; i < calls; i++) {
        if (CALLS[i].name != NULL) {
            printf("%-22s %6zu\n", CALLS[i].name, most[i]);
        }
    }
    return EXIT_SUCCESS;
}
