/* SPDX-License-Identifier: MIT */
/*
 * Two terminals: the ward's seals pictures under key number 200, the doctor's opens them. Ends with
 * status 0 where every answer is the one that is expected.
 *
 *     cc -Iinclude examples/seal_open.c target/staticlib/libsframe_c.a
 *     cc seal_open.c $(pkg-config --cflags --libs ruddoshan-sframe)    where it is installed
 */
#include <inttypes.h>
#include <stdio.h>
#include <stdlib.h>
#include <string.h>

#include "sframe.h"

static const uint64_t KID = 200;
static const uint8_t METADATA[] = "ward 3, camera 2";
static const uint8_t PICTURE[] = "a picture of bed 4";

/* Ends the program unless a call gave the answer that is expected. */
static void expect(const char *call, uint32_t answer, enum sframe_answer expected)
{
    if (answer != (uint32_t)expected) {
        fprintf(stderr, "%s answered %" PRIu32 ", not %d\n", call, answer, (int)expected);
        exit(EXIT_FAILURE);
    }
}

/* Bytes that are just long enough for their purpose. */
static uint8_t *lend(size_t length)
{
    uint8_t *bytes = malloc(length);
    if (bytes == NULL) {
        fputs("out of memory\n", stderr);
        exit(EXIT_FAILURE);
    }
    return bytes;
}

static void print_hex(const char *name, const uint8_t *bytes, size_t length)
{
    printf("  %s ", name);
    for (size_t i = 0; i < length; i++) {
        printf("%02x", bytes[i]);
    }
    putchar('\n');
}

/* Ends the program unless a frame is refused with that answer and the room, which is zero, stays so. */
static void expect_nothing(uint8_t *store, size_t store_len, const uint8_t *frame, size_t frame_len, uint8_t *opened,
                           enum sframe_answer expected)
{
    size_t opened_len;

    expect("open",
           sframe_open(store, store_len, frame, frame_len, METADATA, sizeof METADATA, opened, sizeof PICTURE,
                       &opened_len),
           expected);
    for (size_t i = 0; i < sizeof PICTURE; i++) {
        if (opened[i] != 0) {
            fputs("a refused frame was shown\n", stderr);
            exit(EXIT_FAILURE);
        }
    }
}

/* Seals and opens under one suite. Both stores have room for two keys. */
static void round_trip(uint64_t suite, const uint8_t *base_key, size_t base_key_len)
{
    const size_t store_len = SFRAME_STORE_SIZE(2);
    const size_t room_len = SFRAME_FRAME_ROOM(sizeof PICTURE);
    uint8_t *ward = lend(store_len), *doctor = lend(store_len);
    uint8_t *frame = lend(room_len), *opened = lend(sizeof PICTURE);
    uint8_t header[SFRAME_MAX_HEADER];
    size_t frame_len, opened_len, header_len, written_len, place;
    uint64_t kid, ctr, count;

    expect("make", sframe_make(ward, store_len), SFRAME_DONE);
    expect("make", sframe_make(doctor, store_len), SFRAME_DONE);
    expect("add", sframe_add_sending(ward, store_len, KID, suite, base_key, base_key_len), SFRAME_DONE);
    expect("add", sframe_add_receiving(doctor, store_len, KID, suite, base_key, base_key_len), SFRAME_DONE);

    /* Where the doctor's key stands, so that opening need not search for it. */
    expect("find", sframe_find(doctor, store_len, KID, &place), SFRAME_DONE);

    for (uint64_t counter = 0; counter < 10; counter++) {
        expect("seal",
               sframe_seal(ward, store_len, KID, METADATA, sizeof METADATA, PICTURE, sizeof PICTURE, frame, room_len,
                           &frame_len),
               SFRAME_DONE);
        expect("read header", sframe_read_header(frame, frame_len, &kid, &ctr, &header_len), SFRAME_DONE);
        expect("write header", sframe_write_header(KID, counter, header, sizeof header, &written_len), SFRAME_DONE);
        if (kid != KID || ctr != counter || written_len != header_len || memcmp(header, frame, header_len) != 0) {
            fputs("the frame has another key number or counter\n", stderr);
            exit(EXIT_FAILURE);
        }
        expect("open",
               sframe_open_near(doctor, store_len, place, frame, frame_len, METADATA, sizeof METADATA, opened,
                                sizeof PICTURE, &opened_len),
               SFRAME_DONE);
        if (opened_len != sizeof PICTURE || memcmp(opened, PICTURE, sizeof PICTURE) != 0) {
            fputs("the frame opened to something else\n", stderr);
            exit(EXIT_FAILURE);
        }
    }
    printf("suite %" PRIu64 ": key number %" PRIu64 ", counter %" PRIu64 "\n", suite, kid, ctr);
    print_hex("frame", frame, frame_len);

    /* A frame that is played again answers so, and nothing of it is shown. */
    memset(opened, 0, sizeof PICTURE);
    expect_nothing(doctor, store_len, frame, frame_len, opened, SFRAME_ALREADY_OPENED);

    /* So does one that has changed on its way. As it was sealed, it still opens. */
    expect("seal",
           sframe_seal(ward, store_len, KID, METADATA, sizeof METADATA, PICTURE, sizeof PICTURE, frame, room_len,
                       &frame_len),
           SFRAME_DONE);
    frame[frame_len - 1] ^= 1;
    expect_nothing(doctor, store_len, frame, frame_len, opened, SFRAME_TAG_DIFFERS);
    frame[frame_len - 1] ^= 1;
    expect("open",
           sframe_open(doctor, store_len, frame, frame_len, METADATA, sizeof METADATA, opened, sizeof PICTURE,
                       &opened_len),
           SFRAME_DONE);
    expect("report", sframe_report(doctor, store_len, KID, &count), SFRAME_DONE);
    printf("  %" PRIu64 " of the last %d counters opened\n", count, SFRAME_WINDOW);

    /* A key that was removed seals no more, and its number does not return. */
    expect("remove", sframe_remove(ward, store_len, KID), SFRAME_DONE);
    expect("seal", sframe_seal(ward, store_len, KID, NULL, 0, NULL, 0, frame, room_len, &frame_len), SFRAME_WRONG_ROLE);
    expect("add", sframe_add_sending(ward, store_len, KID, suite, base_key, base_key_len), SFRAME_KID_HELD);

    free(ward);
    free(doctor);
    free(frame);
    free(opened);
}

/* A suite whose tags are too short to send with: its keys are added for receiving alone. */
static void receive_only(uint64_t suite, const uint8_t *base_key, size_t base_key_len)
{
    uint8_t store[SFRAME_STORE_SIZE(1)];

    expect("make", sframe_make(store, sizeof store), SFRAME_DONE);
    expect("add", sframe_add_sending(store, sizeof store, KID, suite, base_key, base_key_len), SFRAME_SENDING_BARRED);
    expect("add", sframe_add_receiving(store, sizeof store, KID, suite, base_key, base_key_len), SFRAME_DONE);
    printf("suite %" PRIu64 ": for receiving alone\n", suite);
}

int main(void)
{
    /* In a terminal this comes from the key exchange. */
    static const uint8_t base_key[] = "thirty-two bytes, for the demo..";

    for (uint64_t suite = SFRAME_AES_128_CTR_HMAC_SHA256_80; suite <= SFRAME_AES_256_GCM_SHA512_128; suite++) {
        if (suite == SFRAME_AES_128_CTR_HMAC_SHA256_32) {
            receive_only(suite, base_key, sizeof base_key - 1);
        } else {
            round_trip(suite, base_key, sizeof base_key - 1);
        }
    }
    return EXIT_SUCCESS;
}
