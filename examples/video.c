/* SPDX-License-Identifier: MIT */
/*
 * A video over a bad line: takes the pictures of a file as ffmpeg's libraries read them, seals each in pieces, hands the
 * packets to a line that loses, repeats, reorders and damages them, opens what arrives, and writes the pictures that can be
 * shown to another file. Says what became of the packets, and ends with status 0 where every picture that became whole is
 * the one that was sent, byte for byte.
 *
 *     video IN OUT [SEED [SEALED]]    with a seed from 1 on the line is bad; with 0, or none, it is perfect. SEALED is a file
 *                                     for the packets of the first picture, as the line sees them.
 *
 * Cutting, opening and joining are those of docs/INTEGRATION.md; scripts/video builds and runs this, and compares the two
 * files picture by picture. In a release, which has the files that are included:
 *
 *     cc video.c $(pkg-config --cflags --libs ruddoshan-sframe libavformat libavcodec libavutil)
 */
#define _DEFAULT_SOURCE
#include <inttypes.h>
#include <libavformat/avformat.h>
#include <stdio.h>
#include <stdlib.h>

#include "act.h"
#include "cut.h"

static const uint64_t KID = 200;
/* In a terminal this comes from the key exchange. */
static const uint8_t BASE_KEY[] = "thirty-two bytes, for the video.";

/* How long a picture is waited for: until so many later ones have come. */
enum { PATIENCE = 24, TABLE = 16, HEAD = 8 + 8 + 8 + 1 };

static void check(int holds, const char *what)
{
    if (!holds) {
        fprintf(stderr, "video: %s\n", what);
        exit(EXIT_FAILURE);
    }
}

static void *lend(size_t many, size_t size)
{
    void *bytes = calloc(many, size);

    check(bytes != NULL, "out of memory");
    return bytes;
}

/* A list of things of one size that grows. */
struct list {
    uint8_t *items;
    size_t size, many, room;
};

static void *append(struct list *list)
{
    if (list->many == list->room) {
        list->room = 2 * list->room + 64;
        list->items = realloc(list->items, list->room * list->size);
        check(list->items != NULL, "out of memory");
    }
    return memset(list->items + list->many++ * list->size, 0, list->size);
}

static void *item(const struct list *list, size_t at)
{
    return list->items + at * list->size;
}

/* ---- a picture in bytes: its number, its times, whether it stands alone, and the codec's data */

struct coded {
    uint8_t *bytes;
    size_t length;
};

static void put(uint8_t *at, uint64_t number)
{
    for (int i = 7; i >= 0; i--, number >>= 8)
        at[i] = (uint8_t)number;
}

static uint64_t get(const uint8_t *at)
{
    uint64_t number = 0;

    for (int i = 0; i < 8; i++)
        number = number << 8 | at[i];
    return number;
}

static struct coded coded_from(const AVPacket *packet, uint64_t number)
{
    struct coded coded = { lend(1, HEAD + (size_t)packet->size), HEAD + (size_t)packet->size };

    put(coded.bytes, number);
    put(coded.bytes + 8, (uint64_t)packet->pts);
    put(coded.bytes + 16, (uint64_t)packet->dts);
    coded.bytes[24] = (packet->flags & AV_PKT_FLAG_KEY) != 0;
    memcpy(coded.bytes + HEAD, packet->data, (size_t)packet->size);
    return coded;
}

/* ---- the line: each packet with the moment at which it arrives */

struct sent {
    uint64_t moment;
    uint8_t *bytes;
    size_t length;
};

static struct list line = { .size = sizeof(struct sent) };
static struct {
    uint64_t packets, lost, repeated, late, damaged;
} on_line;

static int one_in(int many)
{
    return rand() % many == 0;
}

static struct sent *post(const uint8_t *packet, size_t length, uint64_t delay)
{
    struct sent *sent = append(&line);

    sent->moment = on_line.packets + delay;
    sent->bytes = lend(1, length);
    sent->length = length;
    memcpy(sent->bytes, packet, length);
    return sent;
}

static void damage(struct sent *sent)
{
    const int bits = 1 + rand() % 3;

    for (int i = 0; i < bits; i++)
        sent->bytes[(size_t)rand() % sent->length] ^= (uint8_t)(1 << rand() % 8);
    if (one_in(4))
        sent->length -= (size_t)rand() % sent->length;
    on_line.damaged++;
}

static void hand_over(const uint8_t *packet, size_t length, int bad)
{
    on_line.packets++;
    if (!bad) {
        post(packet, length, 0);
        return;
    }
    if (one_in(80)) {
        on_line.lost++;
    } else if (one_in(80)) {
        post(packet, length, 200);
        on_line.late++;
    } else {
        post(packet, length, (uint64_t)rand() % 20);
    }
    if (one_in(15)) {
        post(packet, length, (uint64_t)rand() % 40);
        on_line.repeated++;
    }
    if (one_in(15))
        damage(post(packet, length, (uint64_t)rand() % 20));
}

static int by_moment(const void *one, const void *other)
{
    const struct sent *a = one, *b = other;

    return (a->moment > b->moment) - (a->moment < b->moment);
}

/* ---- the sender */

static uint8_t ward[SFRAME_STORE_SIZE(1)], doctor[SFRAME_STORE_SIZE(1)];

/* Seals a picture piece by piece. The packets also go to `sealed`, where that is open. */
static void send_picture(const struct coded *coded, int bad, FILE *sealed)
{
    static uint8_t packet[CUT_ROOM];
    const size_t count = cut_count(coded->length);
    size_t length;

    check(count <= CUT_MOST, "a picture is above 64 pieces");
    for (size_t piece = 0; piece < count; piece++) {
        check(cut_seal(ward, sizeof ward, KID, coded->bytes, coded->length, piece, packet, sizeof packet, &length)
                  == SFRAME_DONE,
              "seal");
        if (sealed != NULL)
            check(fwrite(packet, 1, length, sealed) == length, "the file for sealed packets");
        hand_over(packet, length, bad);
    }
}

/* ---- the receiver */

static struct list whole = { .size = sizeof(struct coded) }; /* by number */
static uint64_t answers[SFRAME_TOO_OLD + 1];

/* Takes a packet from the line. What it answers is one more than the number of a picture that became whole, or 0. */
static uint64_t receive(const struct sent *sent)
{
    static struct picture table[TABLE];
    static uint8_t out[CUT_PIECE];
    struct piece piece;
    struct picture *picture;
    struct coded *place;
    uint64_t number;
    const uint32_t answer = cut_open(doctor, sizeof doctor, sent->bytes, sent->length, out, &piece);

    check(answer <= SFRAME_TOO_OLD && act_on(answer) != STOP, "an answer that no packet brings about");
    answers[answer]++;
    if (act_on(answer) != SHOW)
        return 0;
    picture = cut_find(table, TABLE, &piece);
    if (picture == NULL || !cut_join(picture, &piece, out))
        return 0;
    check(picture->length >= HEAD, "a picture without a head");
    number = get(picture->bytes);
    while (whole.many <= number)
        append(&whole);
    place = item(&whole, number);
    check(place->bytes == NULL, "a picture came twice");
    place->bytes = lend(1, picture->length);
    place->length = picture->length;
    memcpy(place->bytes, picture->bytes, picture->length);
    picture->have = 0;
    return number + 1;
}

/* Shows a picture if it is whole and what it builds on was shown; after a gap that is so from the next key frame on. */
static int show(AVFormatContext *file, AVRational from, uint64_t number)
{
    static int broken = 1;
    const struct coded *coded = number < whole.many ? item(&whole, number) : NULL;
    AVPacket *packet;

    if (coded == NULL || coded->bytes == NULL || (broken && coded->bytes[24] == 0)) {
        broken = 1;
        return 0;
    }
    broken = 0;
    packet = av_packet_alloc();
    check(packet != NULL && av_new_packet(packet, (int)(coded->length - HEAD)) == 0, "out of memory");
    memcpy(packet->data, coded->bytes + HEAD, coded->length - HEAD);
    packet->pts = (int64_t)get(coded->bytes + 8);
    packet->dts = (int64_t)get(coded->bytes + 16);
    packet->flags = coded->bytes[24] != 0 ? AV_PKT_FLAG_KEY : 0;
    av_packet_rescale_ts(packet, from, file->streams[0]->time_base);
    check(av_interleaved_write_frame(file, packet) == 0, "the new file");
    av_packet_free(&packet);
    return 1;
}

/* ---- files */

static AVFormatContext *open_in(const char *path, AVStream **stream)
{
    AVFormatContext *file = NULL;
    int at;

    check(avformat_open_input(&file, path, NULL, NULL) == 0 && avformat_find_stream_info(file, NULL) >= 0,
          "the video cannot be read");
    at = av_find_best_stream(file, AVMEDIA_TYPE_VIDEO, -1, -1, NULL, 0);
    check(at >= 0, "the file has no video");
    *stream = file->streams[at];
    return file;
}

/* The receiver knows the codec and its parameters from the call's set-up. */
static AVFormatContext *open_out(const char *path, const AVStream *like)
{
    AVFormatContext *file = NULL;
    AVStream *stream;

    check(avformat_alloc_output_context2(&file, NULL, NULL, path) >= 0, "no format has the new file's ending");
    stream = avformat_new_stream(file, NULL);
    check(stream != NULL && avcodec_parameters_copy(stream->codecpar, like->codecpar) >= 0,
          "the new file cannot be set up");
    if (like->codecpar->codec_id != AV_CODEC_ID_RAWVIDEO) /* where it names the form of the pixels */
        stream->codecpar->codec_tag = 0;
    stream->time_base = like->time_base;
    check(avio_open(&file->pb, path, AVIO_FLAG_WRITE) >= 0 && avformat_write_header(file, NULL) >= 0,
          "the new file cannot be written");
    return file;
}

int main(int count, char **words)
{
    const unsigned seed = count > 3 ? (unsigned)strtoul(words[3], NULL, 10) : 0;
    struct list pictures = { .size = sizeof(struct coded) };
    AVPacket *packet = av_packet_alloc();
    AVFormatContext *in, *out;
    AVStream *stream = NULL;
    FILE *sealed = count > 4 ? fopen(words[4], "wb") : NULL;
    uint64_t shown = 0, due = 0, many_whole = 0;

    check(count >= 3 && count <= 5, "usage: video IN OUT [SEED [SEALED]]");
    check(packet != NULL && (count < 5 || sealed != NULL), "cannot begin");
    srand(seed);
    check(
        sframe_make(ward, sizeof ward) == SFRAME_DONE && sframe_make(doctor, sizeof doctor) == SFRAME_DONE
            && sframe_add_sending(ward, sizeof ward, KID, SFRAME_AES_256_GCM_SHA512_128, BASE_KEY, sizeof BASE_KEY - 1)
                   == SFRAME_DONE
            && sframe_add_receiving(doctor, sizeof doctor, KID, SFRAME_AES_256_GCM_SHA512_128, BASE_KEY,
                                    sizeof BASE_KEY - 1)
                   == SFRAME_DONE,
        "keys");

    in = open_in(words[1], &stream);
    for (; av_read_frame(in, packet) == 0; av_packet_unref(packet)) {
        if (packet->stream_index == stream->index) {
            struct coded *coded = append(&pictures);

            *coded = coded_from(packet, pictures.many - 1);
            send_picture(coded, seed != 0, pictures.many == 1 ? sealed : NULL);
        }
    }
    if (sealed != NULL)
        check(fclose(sealed) == 0, "the file for sealed packets");
    qsort(line.items, line.many, line.size, by_moment);

    out = open_out(words[2], stream);
    for (size_t i = 0; i < line.many; i++) {
        const uint64_t became = receive(item(&line, i));

        for (many_whole += became > 0; became > due + PATIENCE; due++)
            shown += (uint64_t)show(out, stream->time_base, due);
    }
    for (; due < pictures.many; due++)
        shown += (uint64_t)show(out, stream->time_base, due);
    check(av_write_trailer(out) == 0 && avio_closep(&out->pb) == 0, "the new file");

    check(whole.many <= pictures.many, "more pictures than were sent");
    for (size_t i = 0; i < whole.many; i++) {
        const struct coded *got = item(&whole, i), *was = item(&pictures, i);

        check(got->bytes == NULL || (got->length == was->length && memcmp(got->bytes, was->bytes, was->length) == 0),
              "a picture is not the one that was sent");
    }
    printf("%zu pictures in %" PRIu64 " packets; %" PRIu64 " lost, %" PRIu64 " late, %" PRIu64 " repeated, %" PRIu64
           " damaged copies; answers",
           pictures.many, on_line.packets, on_line.lost, on_line.late, on_line.repeated, on_line.damaged);
    for (size_t i = 0; i < sizeof answers / sizeof *answers; i++)
        if (answers[i] > 0)
            printf(" %zu: %" PRIu64 ",", i, answers[i]);
    printf(" whole %" PRIu64 ", shown %" PRIu64 "\n", many_whole, shown);
    avformat_free_context(out);
    avformat_close_input(&in);
    av_packet_free(&packet);
    return EXIT_SUCCESS;
}
