/* SPDX-License-Identifier: MIT */
/*
 * Makes the calls that arrive on standard input and answers on standard output, so that a library built for another
 * processor can be compared from outside. src/layer.rs is the other end. Numbers are little-endian.
 *
 *     call     1 byte, which one; 5 numbers of 8 bytes; 5 lengths of 8 bytes; then so many bytes of each of
 *              store, first, second, room and running state
 *     answer   4 bytes, the call's number; 8 numbers of 8 bytes: length, KID, CTR, count, place, context, index, epoch; then
 *              store, room and running state
 *
 * Ends with status 0 where the input ends between two calls, and says on standard error how many there were.
 */
#include <inttypes.h>
#include <stdio.h>
#include <stdlib.h>
#include <string.h>

#include "sframe.h"

/* Margins around what is lent, which a call must leave alone. The first is odd, so that what is lent starts at no even
 * address. */
enum { MARGIN = 13, PATTERN = 0xa5, STRINGS = 5, NUMBERS = 5 };
enum { STORE, FIRST, SECOND, ROOM, STATE };

/* More than any string of the comparison. */
static const uint64_t MOST = 1 << 20;

struct call {
    uint64_t number[NUMBERS];
    size_t length[STRINGS];
    uint8_t *lent[STRINGS];
};

struct answer {
    uint32_t number;
    size_t length;
    uint64_t kid, ctr, count;
    size_t place;
    uint64_t context, index, epoch;
};

static void stop(const char *why)
{
    fprintf(stderr, "driver: %s\n", why);
    exit(EXIT_FAILURE);
}

static void take(void *bytes, size_t length)
{
    if (fread(bytes, 1, length, stdin) != length) {
        stop("a call is cut short");
    }
}

static uint64_t take_number(void)
{
    uint8_t b[8];
    uint64_t x = 0;
    take(b, sizeof b);
    for (int i = 8; i > 0; i--) {
        x = x << 8 | b[i - 1];
    }
    return x;
}

static void give(const void *bytes, size_t length)
{
    if (fwrite(bytes, 1, length, stdout) != length) {
        stop("standard output failed");
    }
}

static void give_number(uint64_t x, size_t bytes)
{
    uint8_t b[8];
    for (size_t i = 0; i < bytes; i++) {
        b[i] = (uint8_t)(x >> 8 * i);
    }
    give(b, bytes);
}

/* Bytes from standard input, between two margins. */
static uint8_t *lend(size_t length)
{
    uint8_t *bytes = malloc(length + 2 * MARGIN);
    if (bytes == NULL) {
        stop("out of memory");
    }
    memset(bytes, PATTERN, length + 2 * MARGIN);
    take(bytes + MARGIN, length);
    return bytes + MARGIN;
}

static void take_back(uint8_t *lent, size_t length)
{
    for (size_t i = 1; i <= MARGIN; i++) {
        if (lent[-(ptrdiff_t)i] != PATTERN || lent[length + i - 1] != PATTERN) {
            stop("bytes outside of what was lent have changed");
        }
    }
    free(lent - MARGIN);
}

static struct answer make(int which, struct call *c)
{
    struct answer a = { 0, 0, 0, 0, 0, 0, 0, 0, 0 };
    const uint64_t *n = c->number;
    const size_t *l = c->length;
    uint8_t *const *b = c->lent;

    switch (which) {
    case 0:
        a.number = sframe_make(b[STORE], l[STORE]);
        break;
    case 1:
        a.number = sframe_add_sending(b[STORE], l[STORE], n[0], n[1], b[FIRST], l[FIRST]);
        break;
    case 2:
        a.number = sframe_add_receiving(b[STORE], l[STORE], n[0], n[1], b[FIRST], l[FIRST]);
        break;
    case 3:
        a.number = sframe_remove(b[STORE], l[STORE], n[0]);
        break;
    case 4:
        a.number = sframe_seal(b[STORE], l[STORE], n[0], b[FIRST], l[FIRST], b[SECOND], l[SECOND], b[ROOM], l[ROOM], &a.length);
        break;
    case 5:
        a.number = sframe_open(b[STORE], l[STORE], b[FIRST], l[FIRST], b[SECOND], l[SECOND], b[ROOM], l[ROOM], &a.length);
        break;
    case 6:
        a.number = sframe_write_header(n[0], n[1], b[ROOM], l[ROOM], &a.length);
        break;
    case 7:
        a.number = sframe_read_header(b[FIRST], l[FIRST], &a.kid, &a.ctr, &a.length);
        break;
    case 8:
        a.number = sframe_ratchet(n[0], b[FIRST], l[FIRST], n[1], b[ROOM], l[ROOM], &a.length);
        break;
    case 9:
        a.number = sframe_ratchet_kid(n[0], n[1], n[2], &a.kid);
        break;
    case 10:
        a.number = sframe_seal_at(b[STORE], l[STORE], n[0], b[FIRST], l[FIRST], b[SECOND], l[SECOND], b[ROOM], l[ROOM], n[1], &a.length);
        break;
    case 11:
        a.number = sframe_write_header_at(n[0], n[1], b[ROOM], l[ROOM], n[2], &a.length);
        break;
    case 12:
        a.number = sframe_report(b[STORE], l[STORE], n[0], &a.count);
        break;
    case 13:
        a.number = sframe_remove_near(b[STORE], l[STORE], n[0], n[1]);
        break;
    case 14:
        a.number = sframe_find(b[STORE], l[STORE], n[0], &a.place);
        break;
    case 15:
        a.number = sframe_seal_near(b[STORE], l[STORE], n[0], n[1], b[FIRST], l[FIRST], b[SECOND], l[SECOND], b[ROOM], l[ROOM], n[2], &a.length);
        break;
    case 16:
        a.number = sframe_open_near(b[STORE], l[STORE], n[0], b[FIRST], l[FIRST], b[SECOND], l[SECOND], b[ROOM], l[ROOM], &a.length);
        break;
    case 17:
        a.number = sframe_group_kid(n[0], n[1], n[2], n[3], n[4], &a.kid);
        break;
    case 18:
        a.number = sframe_group_parts(n[0], n[1], n[2], &a.context, &a.index, &a.epoch);
        break;
    case 19:
        a.number = sframe_change_epoch(b[STORE], l[STORE], n[0], n[1]);
        break;
    case 20:
        a.number = sframe_seal_begin(b[STORE], l[STORE], n[0], b[FIRST], l[FIRST], n[1], b[STATE], l[STATE], b[ROOM], l[ROOM], &a.length);
        break;
    case 21:
        a.number = sframe_seal_piece(b[STATE], l[STATE], b[FIRST], l[FIRST], b[ROOM], l[ROOM], &a.length);
        break;
    case 22:
        a.number = sframe_seal_end(b[STATE], l[STATE], b[ROOM], l[ROOM], &a.length);
        break;
    case 23:
        a.number = sframe_check_begin(b[STORE], l[STORE], b[FIRST], l[FIRST], b[SECOND], l[SECOND], n[0], b[STATE], l[STATE]);
        break;
    case 24:
        a.number = sframe_check_piece(b[STATE], l[STATE], b[FIRST], l[FIRST]);
        break;
    case 25:
        a.number = sframe_check_end(b[STATE], l[STATE], b[FIRST], l[FIRST]);
        break;
    default:
        stop("there is no such call");
    }
    return a;
}

int main(void)
{
    unsigned long calls = 0;
    int which;

    while ((which = getchar()) != EOF) {
        struct call c;
        struct answer a;
        for (int i = 0; i < NUMBERS; i++) {
            c.number[i] = take_number();
        }
        for (int i = 0; i < STRINGS; i++) {
            uint64_t length = take_number();
            if (length > MOST) {
                stop("a string is too long");
            }
            c.length[i] = length;
        }
        for (int i = 0; i < STRINGS; i++) {
            c.lent[i] = lend(c.length[i]);
        }
        a = make(which, &c);
        give_number(a.number, 4);
        give_number(a.length, 8);
        give_number(a.kid, 8);
        give_number(a.ctr, 8);
        give_number(a.count, 8);
        give_number(a.place, 8);
        give_number(a.context, 8);
        give_number(a.index, 8);
        give_number(a.epoch, 8);
        give(c.lent[STORE], c.length[STORE]);
        give(c.lent[ROOM], c.length[ROOM]);
        give(c.lent[STATE], c.length[STATE]);
        if (fflush(stdout) != 0) {
            stop("standard output failed");
        }
        for (int i = 0; i < STRINGS; i++) {
            take_back(c.lent[i], c.length[i]);
        }
        calls++;
    }
    fprintf(stderr, "driver: %lu calls\n", calls);
    return EXIT_SUCCESS;
}
