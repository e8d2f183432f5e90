/* SPDX-License-Identifier: MIT */
/*
 * A camera whose memory is smaller than a frame: all that it has for one is a buffer of 2,048 bytes and a running state.
 * It seals pictures of up to 32,768 bytes as they come off the sensor, and sends each part at once. At the other end a
 * relay of the same size checks the frame as it comes in, and a terminal with more memory opens it. Ends with status 0
 * where every answer is the one that is expected.
 *
 *     cc -Iinclude examples/pieces.c target/staticlib/libsframe_c.a
 *     cc pieces.c $(pkg-config --cflags --libs ruddoshan-sframe)    where it is installed
 */
#include <inttypes.h>
#include <stdio.h>
#include <stdlib.h>
#include <string.h>

#include "sframe.h"

enum { BUFFER = 2048, PICTURE = 30000 };

static const uint64_t KID = 200;
static const uint8_t METADATA[] = "theatre 1, endoscope";

/* What a camera has: its store for one key, and the memory of one sealing. */
struct camera {
    uint8_t store[SFRAME_STORE_SIZE(1)];
    struct sframe_state state;
    uint8_t buffer[BUFFER];
};

/* What the line between the two ends has carried so far. */
struct line {
    uint8_t bytes[SFRAME_FRAME_ROOM(PICTURE)];
    size_t length;
};

/* Ends the program unless a call gave the answer that is expected. */
static void expect(const char *call, uint32_t answer, enum sframe_answer expected)
{
    if (answer != (uint32_t)expected) {
        fprintf(stderr, "%s answered %" PRIu32 ", not %d\n", call, answer, (int)expected);
        exit(EXIT_FAILURE);
    }
}

static void expect_true(const char *what, int holds)
{
    if (!holds) {
        fprintf(stderr, "not so: %s\n", what);
        exit(EXIT_FAILURE);
    }
}

/* The key is in it: it is wiped by writes that the compiler may not leave out. */
static void wipe(struct sframe_state *state)
{
    volatile uint8_t *bytes = state->bytes;
    for (size_t i = 0; i < sizeof state->bytes; i++) {
        bytes[i] = 0;
    }
}

/* The next bytes off the sensor. */
static void sense(uint8_t *bytes, size_t length, size_t from)
{
    for (size_t i = 0; i < length; i++) {
        bytes[i] = (uint8_t)((from + i) * 7 / 5);
    }
}

static void transmit(struct line *line, const uint8_t *bytes, size_t length)
{
    expect_true("the line has room", length <= sizeof line->bytes - line->length);
    memcpy(line->bytes + line->length, bytes, length);
    line->length += length;
}

/* Seals a picture as it comes. Half of the buffer is for the plaintext, half for the ciphertext. */
static void send_picture(struct camera *c, size_t picture, struct line *line)
{
    enum { HALF = BUFFER / 2 };
    uint8_t *plain = c->buffer, *sealed = c->buffer + HALF;
    size_t n, done;

    line->length = 0;
    expect("seal begin",
           sframe_seal_begin(c->store, sizeof c->store, KID, METADATA, sizeof METADATA, picture, c->state.bytes,
                             sizeof c->state.bytes, sealed, HALF, &n),
           SFRAME_DONE);
    transmit(line, sealed, n);
    for (done = 0; done < picture; done += n) {
        size_t piece = picture - done < HALF ? picture - done : HALF;
        sense(plain, piece, done);
        expect("seal piece",
               sframe_seal_piece(c->state.bytes, sizeof c->state.bytes, plain, piece, sealed, HALF, &n), SFRAME_DONE);
        transmit(line, sealed, n);
    }
    /* A tag that finds no room is not lost: the same end is made again. */
    expect("seal end", sframe_seal_end(c->state.bytes, sizeof c->state.bytes, sealed, 1, &n), SFRAME_ROOM_SHORT);
    expect("seal end", sframe_seal_end(c->state.bytes, sizeof c->state.bytes, sealed, HALF, &n), SFRAME_DONE);
    transmit(line, sealed, n);
    /* Not a byte more than was announced. */
    expect("seal piece", sframe_seal_piece(c->state.bytes, sizeof c->state.bytes, plain, 1, sealed, HALF, &n),
           SFRAME_BAD_STATE);
    wipe(&c->state);
}

/* What a relay answers to a frame that it takes in pieces, given the picture's length by the one who sent it. */
static uint32_t check(const uint8_t *store, size_t store_len, const struct line *line, size_t picture)
{
    struct sframe_state state;
    uint64_t kid, ctr;
    size_t header, at;
    uint32_t answer;

    expect("read header", sframe_read_header(line->bytes, line->length, &kid, &ctr, &header), SFRAME_DONE);
    expect("check begin",
           sframe_check_begin(store, store_len, line->bytes, header, METADATA, sizeof METADATA, picture, state.bytes,
                              sizeof state.bytes),
           SFRAME_DONE);
    for (at = header; at < header + picture; at += BUFFER) {
        size_t left = header + picture - at, piece = left < BUFFER ? left : BUFFER;
        expect("check piece", sframe_check_piece(state.bytes, sizeof state.bytes, line->bytes + at, piece), SFRAME_DONE);
    }
    at = header + picture;
    answer = sframe_check_end(state.bytes, sizeof state.bytes, line->bytes + at, line->length - at);
    wipe(&state);
    return answer;
}

static void show(uint64_t suite, const uint8_t *base_key, size_t base_key_len)
{
    static const size_t pictures[] = { 0, 1, BUFFER, PICTURE };
    static struct camera camera;
    static struct line line;
    static uint8_t relay[SFRAME_STORE_SIZE(1)], opened[PICTURE], expected[PICTURE];
    size_t i, n;

    expect("make", sframe_make(camera.store, sizeof camera.store), SFRAME_DONE);
    expect("make", sframe_make(relay, sizeof relay), SFRAME_DONE);
    expect("add", sframe_add_sending(camera.store, sizeof camera.store, KID, suite, base_key, base_key_len), SFRAME_DONE);
    expect("add", sframe_add_receiving(relay, sizeof relay, KID, suite, base_key, base_key_len), SFRAME_DONE);
    sense(expected, sizeof expected, 0);

    for (i = 0; i < sizeof pictures / sizeof pictures[0]; i++) {
        size_t picture = pictures[i];
        send_picture(&camera, picture, &line);
        expect("check", check(relay, sizeof relay, &line, picture), SFRAME_DONE);
        line.bytes[line.length - 1] ^= 1;
        expect("check of a changed frame", check(relay, sizeof relay, &line, picture), SFRAME_TAG_DIFFERS);
        line.bytes[line.length - 1] ^= 1;
        expect("open",
               sframe_open(relay, sizeof relay, line.bytes, line.length, METADATA, sizeof METADATA, opened, sizeof opened,
                           &n),
               SFRAME_DONE);
        expect_true("the picture came through", n == picture && memcmp(opened, expected, n) == 0);
        printf("suite %" PRIu64 ": a picture of %zu bytes in a frame of %zu, tag ends %02x\n", suite, picture, line.length,
               line.bytes[line.length - 1]);
    }
}

int main(void)
{
    /* In a camera this comes from the key exchange. */
    static const uint8_t base_key[] = "thirty-two bytes, for the demo..";

    show(SFRAME_AES_128_CTR_HMAC_SHA256_80, base_key, sizeof base_key - 1);
    show(SFRAME_AES_128_CTR_HMAC_SHA256_64, base_key, sizeof base_key - 1);
    show(SFRAME_AES_128_GCM_SHA256_128, base_key, sizeof base_key - 1);
    show(SFRAME_AES_256_GCM_SHA512_128, base_key, sizeof base_key - 1);
    printf("a camera has %zu bytes for its key, its state and its buffer\n", sizeof(struct camera));
    return EXIT_SUCCESS;
}
