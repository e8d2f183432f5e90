/* SPDX-License-Identifier: MIT */
/*
 * A program outside the repository, for C and C++ alike: both libraries as they are installed. Ends with 0
 * where all answers are right.
 */
#include <stdio.h>
#include <string.h>

#include "moq.h"
#include "sframe.h"

#if SFRAME_STORE_SIZE(SFRAME_MAX_KEYS) != 98304 || SFRAME_FRAME_ROOM(1200) != 1233
#error "sframe.h: a size"
#endif
#if MOQ_STORE_SIZE(MOQ_MAX_TRACKS) != 5504 || MOQ_OBJECT_ROOM(1200) != 1216
#error "moq.h: a size"
#endif
#if SFRAME_VERSION_NUMBER != 10000 * SFRAME_VERSION_MAJOR + 100 * SFRAME_VERSION_MINOR + SFRAME_VERSION_PATCH
#error "sframe.h: the version"
#endif

static const uint8_t BASE_KEY[] = "sixteen or more bytes";
static const uint8_t PICTURE[] = "a picture";

static int frames(void)
{
    const uint64_t kid = 200, suite = SFRAME_AES_128_GCM_SHA256_128;
    uint8_t ward[SFRAME_STORE_SIZE(2)], doctor[SFRAME_STORE_SIZE(2)];
    uint8_t frame[SFRAME_FRAME_ROOM(sizeof PICTURE)], opened[sizeof PICTURE];
    uint64_t said_kid, said_ctr;
    size_t n, m, header_len;

    return sframe_make(ward, sizeof ward) == SFRAME_DONE && sframe_make(doctor, sizeof doctor) == SFRAME_DONE
        && sframe_add_sending(ward, sizeof ward, kid, suite, BASE_KEY, sizeof BASE_KEY) == SFRAME_DONE
        && sframe_add_receiving(doctor, sizeof doctor, kid, suite, BASE_KEY, sizeof BASE_KEY) == SFRAME_DONE
        && sframe_seal(ward, sizeof ward, kid, NULL, 0, PICTURE, sizeof PICTURE, frame, sizeof frame, &n) == SFRAME_DONE
        && sframe_read_header(frame, n, &said_kid, &said_ctr, &header_len) == SFRAME_DONE && said_kid == kid && said_ctr == 0
        && sframe_open(doctor, sizeof doctor, frame, n, NULL, 0, opened, sizeof opened, &m) == SFRAME_DONE
        && m == sizeof PICTURE && memcmp(opened, PICTURE, m) == 0
        && sframe_open(doctor, sizeof doctor, frame, n, NULL, 0, opened, sizeof opened, &m) == SFRAME_ALREADY_OPENED;
}

static int objects(void)
{
    const uint8_t name[] = {1, 1, 'a', 1, 'b'}, properties[] = {2, 7};
    uint8_t publisher[MOQ_STORE_SIZE(1)], subscriber[MOQ_STORE_SIZE(1)];
    uint8_t object[MOQ_OBJECT_ROOM(sizeof PICTURE)], opened[sizeof PICTURE];
    size_t n, m;

    return moq_make(publisher, sizeof publisher) == MOQ_DONE && moq_make(subscriber, sizeof subscriber) == MOQ_DONE
        && moq_add_sending(publisher, sizeof publisher, name, sizeof name, 7, 4, BASE_KEY, sizeof BASE_KEY) == MOQ_DONE
        && moq_add_receiving(subscriber, sizeof subscriber, name, sizeof name, 7, 4, BASE_KEY, sizeof BASE_KEY) == MOQ_DONE
        && moq_seal(publisher, sizeof publisher, name, sizeof name, 7, 1, 2, properties, sizeof properties, PICTURE,
                    sizeof PICTURE, object, sizeof object, &n) == MOQ_DONE
        && moq_open(subscriber, sizeof subscriber, name, sizeof name, 7, 1, 2, properties, sizeof properties, object, n,
                    opened, sizeof opened, &m) == MOQ_DONE
        && m == sizeof PICTURE && memcmp(opened, PICTURE, m) == 0;
}

int main(void)
{
    char version[32];

    snprintf(version, sizeof version, "%d.%d.%d", SFRAME_VERSION_MAJOR, SFRAME_VERSION_MINOR, SFRAME_VERSION_PATCH);
    if (strcmp(version, SFRAME_VERSION) != 0 || strcmp(version, MOQ_VERSION) != 0
        || sframe_version() != SFRAME_VERSION_NUMBER) {
        fprintf(stderr, "the version of header or archive is another\n");
        return 1;
    }
    if (strcmp(sframe_answer_text(SFRAME_TAG_DIFFERS), "the tag does not match") != 0
        || strcmp(moq_answer_text(99), "unknown answer") != 0) {
        fprintf(stderr, "the text of an answer is another\n");
        return 1;
    }
    if (!frames() || !objects()) {
        fprintf(stderr, "an answer is another\n");
        return 1;
    }
    printf("ruddoshan %s\n", SFRAME_VERSION);
    return 0;
}
