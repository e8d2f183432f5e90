/* SPDX-License-Identifier: MIT */
/*
 * Tries the table of docs/STORE.md, and the code of docs/INTEGRATION.md, which scripts/guide writes to files: the store in a
 * file with processes that are killed, the store in flash with power that is cut at every byte, pictures in pieces with
 * packets that are lost, changed, repeated and exchanged, ratchet, epochs, stack, threads. Ends with status 0 where
 * everything is as the two say.
 *
 *     scripts/guide
 *     cc -pthread guide.c $(pkg-config --cflags --libs ruddoshan-sframe)    in a release, which has these files beside it
 */
#define _DEFAULT_SOURCE
#include <inttypes.h>
#include <signal.h>
#include <stdio.h>
#include <stdlib.h>
#include <sys/wait.h>
#include <ucontext.h>

#include "act.h"
#include "cut.h"
#include "epoch.h"
#include "follow.h"
#include "keep.h"
#include "shared.h"
#include "slots.h"
#include "step.h"
#include "wipe.h"

static const uint64_t KID = 200, SUITE = SFRAME_AES_128_GCM_SHA256_128;
static const uint8_t BASE_KEY[] = "thirty-two bytes, for the trial.";

static void expect(int holds, const char *what)
{
    if (!holds) {
        fprintf(stderr, "not so: %s\n", what);
        exit(EXIT_FAILURE);
    }
}

static void make_with(uint8_t *store, size_t store_len, uint64_t kid, int sending)
{
    expect(sframe_make(store, store_len) == SFRAME_DONE, "make");
    expect((sending ? sframe_add_sending : sframe_add_receiving)(store, store_len, kid, SUITE, BASE_KEY,
                                                                 sizeof BASE_KEY - 1)
               == SFRAME_DONE,
           "add");
}

static uint64_t counter_of(const uint8_t *frame, size_t frame_len)
{
    uint64_t kid, ctr;
    size_t length;

    expect(sframe_read_header(frame, frame_len, &kid, &ctr, &length) == SFRAME_DONE && kid == KID, "header");
    return ctr;
}

/* ---- docs/STORE.md */

static uint64_t number_at(const uint8_t *bytes)
{
    uint64_t number = 0;

    for (int i = 0; i < 8; i++)
        number = number << 8 | bytes[i];
    return number;
}

static int zeros(const uint8_t *bytes, size_t from, size_t to)
{
    while (from < to && bytes[from] == 0)
        from++;
    return from >= to;
}

/* What the table says of a record. */
static int obeys(const uint8_t *record)
{
    const size_t key_end[] = { 0, 80, 80, 80, 48, 64 }, mark = record[0], suite = record[1];
    const uint64_t highest = number_at(record + 80), mask = number_at(record + 88);

    if (mark == 0)
        return zeros(record, 0, 96);
    if (mark > 3 || suite < 1 || suite > 5 || record[3] != 1)
        return 0;
    if (record[2] > 1 || (record[2] == 1 && (mark == 2 || number_at(record + 12) != UINT64_MAX)))
        return 0;
    if (mark == 2 && !zeros(record, 12, 20))
        return 0;
    if (mark == 3 ? !zeros(record, 20, 80) : !zeros(record, key_end[suite], 80))
        return 0;
    if (mark != 2 || mask == 0)
        return highest == 0 && mask == 0;
    return (mask & 1) == 1 && (highest >= 63 || mask >> (highest + 1) == 0);
}

static int is_sound(const uint8_t *store, size_t store_len)
{
    size_t place;

    return sframe_find(store, store_len, 0, &place) != SFRAME_STORE_NOT_SOUND;
}

enum kind { SENDER, SPENT, RECEIVER, OPENED, RETIRED, RETIRED_SPENT, KINDS };

/* A record of that kind. That of a sender is the one of a receiver with another mark, as long as neither was used. */
static void make_kind(uint8_t record[SFRAME_STORE_SIZE(1)], uint64_t suite, enum kind kind)
{
    uint8_t sender[SFRAME_STORE_SIZE(1)], frame[SFRAME_FRAME_ROOM(0)], nothing[1];
    const size_t size = sizeof sender;
    size_t n, m;

    expect(sframe_make(record, size) == SFRAME_DONE, "make");
    expect(sframe_add_receiving(record, size, KID, suite, BASE_KEY, sizeof BASE_KEY - 1) == SFRAME_DONE, "add");
    memcpy(sender, record, size);
    sender[0] = 1;
    for (int i = 0; i < 9 && kind == OPENED; i++)
        expect(sframe_seal(sender, size, KID, NULL, 0, NULL, 0, frame, sizeof frame, &n) == SFRAME_DONE
                   && (i % 3 == 1 || sframe_open(record, size, frame, n, NULL, 0, nothing, 0, &m) == SFRAME_DONE),
               "open");
    if (kind == RECEIVER || kind == OPENED)
        return;
    memcpy(record, sender, size);
    if (kind == SPENT || kind == RETIRED_SPENT) {
        memset(record + 12, 0xff, 8);
        expect(sframe_seal(record, size, KID, NULL, 0, NULL, 0, frame, sizeof frame, &n) == SFRAME_DONE, "the last counter");
    }
    if (kind == RETIRED || kind == RETIRED_SPENT)
        expect(sframe_remove(record, size, KID) == SFRAME_DONE, "remove");
}

/* Records of every kind and suite, each byte set to every value: the library calls sound what the table allows. */
static void layout(void)
{
    uint8_t record[SFRAME_STORE_SIZE(1)], two[SFRAME_STORE_SIZE(2)];
    size_t sound = 0, tried = 0;

    for (uint64_t suite = 1; suite <= 5; suite++) {
        for (enum kind kind = SENDER; kind < KINDS; kind++) {
            for (size_t at = 0; at < sizeof record; at++) {
                make_kind(record, suite, kind);
                for (int value = 0; value < 256; value++, tried++) {
                    record[at] = (uint8_t)value;
                    expect(is_sound(record, sizeof record) == obeys(record), "sound is what the table allows");
                    sound += (size_t)obeys(record);
                }
            }
        }
    }
    make_with(two, sizeof two, KID, 1);
    expect(is_sound(two, sizeof two), "a key and an empty record");
    memcpy(two + 96, two, 96);
    expect(!is_sound(two, sizeof two), "a key number twice");
    two[96 + 11]++;
    expect(is_sound(two, sizeof two), "rising key numbers");
    two[11] += 2;
    expect(!is_sound(two, sizeof two), "falling ones");
    memset(two, 0, 96);
    expect(!is_sound(two, sizeof two), "an empty record in front");
    memset(two, 0, sizeof two);
    expect(is_sound(two, sizeof two), "zeros throughout");
    printf("layout: %zu records, %zu of them sound\n", tried, sound);
}

/* ---- a store that outlives the process */

/* A store whose counters are raised is the one that so many sealings leave. */
static void raised_is_sealed(void)
{
    uint8_t raised[SFRAME_STORE_SIZE(3)], sealed[sizeof raised], frame[SFRAME_FRAME_ROOM(1)];
    size_t n;

    make_with(raised, sizeof raised, KID, 1);
    expect(sframe_add_sending(raised, sizeof raised, 7, SUITE, BASE_KEY, sizeof BASE_KEY - 1) == SFRAME_DONE, "add");
    expect(sframe_add_receiving(raised, sizeof raised, 9, SUITE, BASE_KEY, sizeof BASE_KEY - 1) == SFRAME_DONE, "add");
    memcpy(sealed, raised, sizeof sealed);
    for (int i = 0; i < 70000; i++)
        for (uint64_t kid = 7; kid <= KID; kid += KID - 7)
            expect(sframe_seal(sealed, sizeof sealed, kid, NULL, 0, NULL, 0, frame, sizeof frame, &n) == SFRAME_DONE,
                   "seal");
    expect(raise_counters(raised, sizeof raised, 70000) == SFRAME_DONE, "counters are raised");
    expect(memcmp(raised, sealed, sizeof raised) == 0, "a raised store is one that has sealed");
    expect(raise_counters(raised, sizeof raised, UINT64_MAX - 70000) == SFRAME_DONE, "raised to the last counter");
    expect(raise_counters(raised, sizeof raised, 1) == SFRAME_COUNTER_SPENT, "no counter wraps");
    expect(sframe_seal(raised, sizeof raised, KID, NULL, 0, NULL, 0, frame, sizeof frame, &n) == SFRAME_DONE,
           "the last one seals");
    expect(sframe_seal(raised, sizeof raised, KID, NULL, 0, NULL, 0, frame, sizeof frame, &n) == SFRAME_COUNTER_SPENT,
           "and no other");
}

/* A terminal's life from one start to its end: it sends counters into the pipe until it is killed. */
static void live(const char *folder, int line, int first)
{
    static struct kept kept;
    uint8_t frame[SFRAME_FRAME_ROOM(5)];
    size_t n;

    expect(keep_in(&kept, folder) == 0, "the folder is ours");
    if (first) {
        make_with(kept.store, sizeof kept.store, KID, 1);
        expect(keep(&kept) == SFRAME_DONE, "written");
    } else {
        expect(keep_from(&kept) == 0, "read back");
    }
    for (;;) {
        uint64_t ctr;

        expect(keep_seal(&kept, KID, NULL, 0, BASE_KEY, 5, frame, sizeof frame, &n) == SFRAME_DONE, "seal");
        ctr = counter_of(frame, n);
        if (write(line, &ctr, sizeof ctr) != (ssize_t)sizeof ctr)
            _exit(0);
    }
}

/* Kills it, again and again: the counters that left rise for good, so none comes back. */
static void killed(const char *folder)
{
    uint64_t last = 0, many = 0;

    for (int life = 0; life < 30; life++) {
        const uint64_t frames = (uint64_t)rand() % 3000 + 1;
        uint64_t ctr;
        int line[2], status;
        pid_t terminal;

        expect(pipe(line) == 0, "a pipe");
        fflush(stdout);
        terminal = fork();
        expect(terminal >= 0, "a process");
        if (terminal == 0) {
            close(line[0]);
            live(folder, line[1], life == 0);
        }
        close(line[1]);
        for (uint64_t i = 0; read(line[0], &ctr, sizeof ctr) == (ssize_t)sizeof ctr; i++, many++) {
            if (i == frames)
                kill(terminal, SIGKILL);
            expect(many == 0 || ctr > last, "no counter comes back");
            last = ctr;
        }
        close(line[0]);
        expect(waitpid(terminal, &status, 0) == terminal && WIFSIGNALED(status), "it lived until it was killed");
    }
    printf("a file: %" PRIu64 " frames over 30 lives, last counter %" PRIu64 "\n", many, last);
}

/* What is in doubt is not read: a file that is gone, cut, longer, unsound, or has a second name. A folder has one owner. */
static void in_doubt(const char *folder)
{
    static struct kept kept, other;
    uint8_t more[sizeof kept.store + 1] = { 0 };

    expect(keep_in(&kept, folder) == 0 && keep_from(&kept) == 0, "a store that was kept");
    expect(keep_in(&other, folder) != 0, "a second owner is kept out");
    close(other.folder);
    expect(linkat(kept.folder, "store", kept.folder, "again", 0) == 0 && keep_from(&kept) != 0, "a second name");
    expect(unlinkat(kept.folder, "again", 0) == 0 && keep_from(&kept) == 0, "one name");
    expect(replace_file(kept.folder, kept.store, sizeof kept.store - 1) == 0 && keep_from(&kept) != 0, "a cut store");
    expect(replace_file(kept.folder, more, sizeof more) == 0 && keep_from(&kept) != 0, "a longer one");
    more[0] = 9;
    expect(replace_file(kept.folder, more, sizeof kept.store) == 0 && keep_from(&kept) != 0, "an unsound one");
    expect(unlinkat(kept.folder, "store", 0) == 0 && keep_from(&kept) != 0, "none");
    close(kept.folder);
    expect(keep(&kept) == NOT_KEPT && kept.left == 0, "a folder that is gone");
}

/* ---- in flash: its power ends after so many bytes */

static uint8_t flash[2][SLOT_MARK + sizeof WHOLE];
static size_t power;
static int damaged = -1; /* the slot that cannot be read */

int flash_erase(int slot)
{
    for (size_t i = 0; i < sizeof flash[slot]; i++) {
        if (power == 0)
            return -1;
        power--;
        flash[slot][i] = 0xff;
    }
    return 0;
}

int flash_program(int slot, size_t at, const uint8_t *bytes, size_t length)
{
    for (size_t i = 0; i < length; i++) {
        if (power == 0)
            return -1;
        power--;
        flash[slot][at + i] &= bytes[i];
    }
    return 0;
}

int flash_read(int slot, size_t at, uint8_t *bytes, size_t length)
{
    memcpy(bytes, flash[slot] + at, length);
    return slot == damaged ? -1 : 0;
}

/* Writes ahead and sends, until the power ends. Answers one more than the last counter that left, or `sent` if none did. */
static uint64_t send_until_dark(uint8_t store[SLOT_STORE], uint64_t sent)
{
    uint8_t later[SLOT_STORE], frame[SFRAME_FRAME_ROOM(5)];
    size_t n;

    for (;;) {
        memcpy(later, store, sizeof later);
        expect(raise_counters(later, sizeof later, 3) == SFRAME_DONE, "counters are raised");
        if (slot_write(later) != 0)
            return sent;
        for (int i = 0; i < 3; i++) {
            expect(sframe_seal(store, SLOT_STORE, KID, NULL, 0, BASE_KEY, 5, frame, sizeof frame, &n) == SFRAME_DONE,
                   "seal");
            expect(counter_of(frame, n) >= sent, "no counter comes back");
            sent = counter_of(frame, n) + 1;
        }
    }
}

/* Cuts the power after every number of bytes, starts anew, and cuts it once more. */
static void cut_power(void)
{
    const size_t twice = 2 * (2 * sizeof flash[0] + 2 * sizeof WHOLE);
    uint8_t store[SLOT_STORE];

    for (size_t first = 0; first < twice; first++) {
        uint64_t sent;

        memset(flash, 0xff, sizeof flash);
        power = SIZE_MAX;
        expect(slot_read(store) != 0, "empty slots hold no store");
        make_with(store, sizeof store, KID, 1);
        expect(slot_write(store) == 0, "written");
        power = first;
        sent = send_until_dark(store, 0);
        expect(slot_read(store) == 0, "a store is there after a cut");
        power = twice - first;
        sent = send_until_dark(store, sent);
        power = SIZE_MAX;
        expect(slot_read(store) == 0 && slot_write(store) == 0 && slot_read(store) == 0, "and after another");
        for (damaged = 1; damaged >= 0; damaged--)
            expect(slot_read(store) != 0 && slot_write(store) != 0, "where a slot cannot be read, the other is not taken");
    }
    printf("flash: the power cut after each of %zu bytes\n", twice);
}

/* ---- pictures above 32,768 bytes */

enum { LONGEST = CUT_MOST * CUT_PIECE, TABLE = 3 };
static uint8_t picture[LONGEST + 1], packets[CUT_MOST][CUT_ROOM], out[CUT_PIECE];
static size_t packet_len[CUT_MOST];
static struct picture table[TABLE];
static uint8_t ward[SFRAME_STORE_SIZE(2)], doctor[SFRAME_STORE_SIZE(2)];

static size_t seal_all(size_t length)
{
    const size_t count = cut_count(length);

    for (size_t i = 0; i < count; i++)
        expect(cut_seal(ward, sizeof ward, KID, picture, length, i, packets[i], CUT_ROOM, &packet_len[i])
                   == SFRAME_DONE,
               "seal a piece");
    return count;
}

/* Hands a packet to the doctor's terminal. 1: a picture became whole, and it is the one that was sent. */
static int hand(const uint8_t *packet, size_t length, size_t sent_len, uint32_t expected)
{
    struct piece piece;
    struct picture *into;
    const uint32_t answer = cut_open(doctor, sizeof doctor, packet, length, out, &piece);

    expect(answer == expected, "a packet's answer");
    if (answer != SFRAME_DONE)
        return 0;
    into = cut_find(table, TABLE, &piece);
    if (into == NULL || !cut_join(into, &piece, out))
        return 0;
    expect(into->kid == KID && into->length == sent_len && memcmp(into->bytes, picture, sent_len) == 0, "the picture");
    into->have = 0;
    return 1;
}

static void terminals(void)
{
    make_with(ward, sizeof ward, KID, 1);
    make_with(doctor, sizeof doctor, KID, 0);
    memset(table, 0, sizeof table);
}

/* Every length around a cut, pieces in their order and backwards, each packet also a second time. */
static void lengths(void)
{
    const size_t pieces[] = { 0, 1, 2, 3, CUT_MOST };
    size_t n;

    for (size_t i = 0; i < sizeof pieces / sizeof *pieces; i++) {
        for (size_t length = pieces[i] * CUT_PIECE - (pieces[i] > 0); length <= pieces[i] * CUT_PIECE + 1; length++) {
            terminals();
            if (length > LONGEST) {
                expect(cut_seal(ward, sizeof ward, KID, picture, length, 0, packets[0], CUT_ROOM, &n) == SFRAME_TOO_LONG
                           && n == 0,
                       "too long");
                continue;
            }
            for (int backwards = 0; backwards < 2; backwards++) {
                const size_t count = seal_all(length);

                for (size_t j = 0; j < count; j++) {
                    const size_t at = backwards ? count - 1 - j : j;

                    expect(hand(packets[at], packet_len[at], length, SFRAME_DONE) == (j + 1 == count),
                           "whole with the last piece");
                    expect(hand(packets[at], packet_len[at], length, SFRAME_ALREADY_OPENED) == 0, "a repeated piece");
                }
            }
            expect(cut_seal(ward, sizeof ward, KID, picture, length, cut_count(length), packets[0], CUT_ROOM, &n)
                       == SFRAME_TOO_LONG,
                   "no piece behind the last");
        }
    }
}

/* Packets that were changed, cut, exchanged, or are of another picture or sender: no picture becomes whole of them. */
static void tampered(void)
{
    const size_t length = 2 * CUT_PIECE + 100;
    uint8_t front[CUT_FRONT], stranger[SFRAME_STORE_SIZE(1)];
    static uint8_t other[CUT_ROOM], changed[CUT_ROOM];
    size_t n;
    struct piece piece;

    terminals();
    seal_all(length);
    for (size_t i = 0; i < 3; i++) {
        for (size_t bit = 0; bit < 8 * CUT_FRONT; bit++) {
            memcpy(changed, packets[i], packet_len[i]);
            changed[bit / 8] ^= (uint8_t)(1 << bit % 8);
            hand(changed, packet_len[i], length, SFRAME_TAG_DIFFERS);
        }
        for (size_t cut = 0; cut < CUT_FRONT + 1; cut++)
            hand(packets[i], cut, length, SFRAME_HEADER_INVALID);
        hand(packets[i], packet_len[i] - 1, length, SFRAME_TAG_DIFFERS);
    }
    memcpy(front, packets[0], CUT_FRONT);
    memcpy(packets[0], packets[1], CUT_FRONT);
    memcpy(packets[1], front, CUT_FRONT);
    hand(packets[0], packet_len[0], length, SFRAME_TAG_DIFFERS);
    hand(packets[1], packet_len[1], length, SFRAME_TAG_DIFFERS);
    expect(table[0].have == 0, "no refused packet has a place in the table");

    /* Piece 0 of one picture, the others of the next: neither becomes whole. */
    seal_all(length);
    expect(hand(packets[0], packet_len[0], length, SFRAME_DONE) == 0, "one piece");
    seal_all(length);
    expect(hand(packets[1], packet_len[1], length, SFRAME_DONE) == 0
               && hand(packets[2], packet_len[2], length, SFRAME_DONE) == 0,
           "pieces of two pictures");

    /* Another sender's piece in the gap. */
    make_with(stranger, sizeof stranger, 201, 1);
    expect(sframe_add_receiving(doctor, sizeof doctor, 201, SUITE, BASE_KEY, sizeof BASE_KEY - 1) == SFRAME_DONE,
           "add");
    for (int i = 0; i < 7; i++) /* the last has the counter of the piece that lacks */
        expect(cut_seal(stranger, sizeof stranger, 201, picture, length, 0, other, CUT_ROOM, &n) == SFRAME_DONE,
               "seal a piece");
    expect(cut_open(doctor, sizeof doctor, other, n, out, &piece) == SFRAME_DONE, "open a piece");
    for (size_t i = 0; i < TABLE; i++)
        expect(table[i].have == 0 || cut_join(&table[i], &piece, out) == 0, "no piece of another sender");

    /* Frames that the sender made otherwise: no piece, one behind the last, too many, a short one that is not the last, and
     * a sixth piece under counter 0. */
    for (int kind = 0; kind < 5; kind++) {
        const uint8_t fronts[5][CUT_FRONT] = { { 0, 0 }, { 3, 3 }, { 0, 65 }, { 0, 2 }, { 5, 6 } };

        if (kind == 4)
            terminals();
        expect(sframe_seal_at(ward, sizeof ward, KID, fronts[kind], CUT_FRONT, picture,
                              kind == 3 ? CUT_PIECE - 1 : CUT_PIECE, other, CUT_ROOM, CUT_FRONT, &n)
                   == SFRAME_DONE,
               "seal");
        memcpy(other, fronts[kind], CUT_FRONT);
        hand(other, CUT_FRONT + n, length, CUT_WRONG);
    }
}

/* The table: a piece finds its own picture, and where there is no room the oldest is given up. */
static void tables(void)
{
    struct piece piece[4] = { { .kid = KID, .first = 10, .count = 2, .length = 1, .number = 1 } };
    static struct picture one;

    memset(table, 0, sizeof table);
    for (size_t i = 0; i < 4; i++) {
        const size_t order[4] = { 2, 0, 1, 3 };

        piece[i] = piece[0];
        piece[i].first = 10 + 2 * order[i];
        expect(cut_join(cut_find(table, TABLE, &piece[i]), &piece[i], out) == 0, "begun");
    }
    expect(cut_find(table, TABLE, &piece[1]) == NULL, "the oldest was given up, and it does not come back");
    for (size_t i = 0; i < 4; i++)
        expect(i == 1 || cut_find(table, TABLE, &piece[i])->first == piece[i].first, "the others stayed");
    one = table[0];
    piece[0] = (struct piece){ .kid = one.kid, .first = one.first, .count = 2, .length = CUT_PIECE, .number = 0 };
    for (int wrong = 0; wrong < 4; wrong++) {
        struct piece changed = piece[0];

        changed.kid += wrong == 0;
        changed.first += wrong == 1;
        changed.count += wrong == 2;
        changed.number += wrong == 3;
        expect(cut_join(&one, &changed, out) == 0 && one.have == 2 && one.length == 1,
               "a piece that is not the one that lacks");
    }
    expect(cut_join(&one, &piece[0], out) == 1 && one.length == CUT_PIECE + 1, "the one that lacks");

    /* The sender moves on to a new key, whose counters begin at 0, while the table is full of pictures that lost a piece. */
    for (uint64_t first = 0; first < 20; first += 2) {
        struct picture *into;

        for (size_t number = 0; number < 2; number++) {
            piece[number] = (struct piece){ .kid = KID + 1, .first = first, .count = 2, .length = CUT_PIECE, .number = number };
            into = cut_find(table, TABLE, &piece[number]);
            expect(into != NULL && cut_join(into, &piece[number], out) == (number == 1), "a picture under the new key");
        }
        into->have = 0;
    }
}

/* Pictures one after the other, each losing a piece or none: whole are just those that lost none. */
static void lossy(void)
{
    int whole = 0, expected = 0;

    terminals();
    for (int i = 0; i < 300; i++) {
        const size_t length = (size_t)rand() % (5 * CUT_PIECE), count = seal_all(length);
        const size_t lost = (size_t)rand() % (2 * count);

        expected += lost >= count;
        for (size_t j = 0; j < count; j++)
            if (j != lost)
                whole += hand(packets[j], packet_len[j], length, SFRAME_DONE);
    }
    expect(whole == expected && whole > 0, "whole are the pictures that lost no piece");
    printf("pieces: %d of 300 pictures lost none of theirs, and just these became whole\n", whole);
}

/* ---- answers, steps, threads */

static void acts(void)
{
    for (uint32_t answer = 0; answer <= SFRAME_GROUP_KID_TOO_LONG; answer++)
        expect((act_on(answer) == STOP) == (answer == SFRAME_STORE_NOT_SOUND), "one answer calls for a stop");
    expect(act_on(SFRAME_DONE) == SHOW && act_on(SFRAME_KID_UNKNOWN) == HOLD && act_on(SFRAME_ALREADY_OPENED) == DROP
               && act_on(SFRAME_TOO_OLD) == DROP && act_on(SFRAME_TAG_DIFFERS) == COUNT
               && act_on(SFRAME_TOO_LONG) == COUNT,
           "what to do");
}

/* Steps until the numbers of the generation are used up; a receiver that has the first base key follows each, and a forged
 * frame leaves its store as it was. */
static void steps(void)
{
    struct stepping sender = { .generation = 12, .suite = SUITE, .base_key_len = sizeof BASE_KEY - 1 };
    struct followed known = { .generation = 12, .suite = SUITE, .base_key_len = sizeof BASE_KEY - 1 };
    uint8_t store[SFRAME_STORE_SIZE(1 << STEP_BITS)], receiver[SFRAME_STORE_SIZE(1)], before[sizeof receiver];
    uint8_t frame[SFRAME_FRAME_ROOM(5)], opened[5];
    size_t n, m;
    int many = 0;

    memcpy(sender.base_key, BASE_KEY, sender.base_key_len);
    memcpy(known.base_key, BASE_KEY, known.base_key_len);
    expect(sframe_ratchet_kid(sender.generation, 0, STEP_BITS, &sender.kid) == SFRAME_DONE, "key number");
    make_with(store, sizeof store, sender.kid, 1);
    for (uint32_t answer = SFRAME_DONE; answer == SFRAME_DONE; many++) {
        const uint64_t old = sender.kid;

        expect(sframe_seal(store, sizeof store, sender.kid, NULL, 0, BASE_KEY, 5, frame, sizeof frame, &n)
                   == SFRAME_DONE,
               "seal");
        expect(sframe_make(receiver, sizeof receiver) == SFRAME_DONE, "make");
        memcpy(before, receiver, sizeof before);
        frame[n - 1] ^= 1;
        expect(follow(&known, STEP_BITS, receiver, sizeof receiver, frame, n, opened, sizeof opened, &m)
                       == SFRAME_TAG_DIFFERS
                   && m == 0 && memcmp(receiver, before, sizeof before) == 0,
               "a forged frame leaves no key behind");
        frame[n - 1] ^= 1;
        known.generation++;
        expect(follow(&known, STEP_BITS, receiver, sizeof receiver, frame, n, opened, sizeof opened, &m)
                   == SFRAME_KID_UNKNOWN,
               "another generation");
        known.generation--;
        expect(follow(&known, STEP_BITS, receiver, sizeof receiver, frame, n, opened, sizeof opened, &m) == SFRAME_DONE
                   && m == 5 && memcmp(opened, BASE_KEY, 5) == 0,
               "the receiver follows");
        expect(sframe_open(receiver, sizeof receiver, frame, n, NULL, 0, opened, sizeof opened, &m)
                   == SFRAME_ALREADY_OPENED,
               "and has the key");
        answer = step_on(&sender, store, sizeof store);
        expect(sframe_seal(store, sizeof store, old, NULL, 0, BASE_KEY, 5, frame, sizeof frame, &n)
                   == (answer == SFRAME_DONE ? SFRAME_WRONG_ROLE : SFRAME_DONE),
               "the old key is retired, unless the step was refused");
    }
    expect(many == 1 << STEP_BITS, "as many steps as there are numbers");
    expect(sframe_seal(store, sizeof store, sender.kid, NULL, 0, BASE_KEY, 5, frame, sizeof frame, &n) == SFRAME_DONE,
           "the last key is in force");
}

/* An epoch that finds the store full can be begun again in a larger one. */
static void epoch_again(void)
{
    uint8_t small[SFRAME_STORE_SIZE(3)], large[SFRAME_STORE_SIZE(4)] = { 0 };
    uint64_t kid;

    expect(sframe_make(small, sizeof small) == SFRAME_DONE, "make");
    for (int i = 0; i < 2; i++)
        expect(epoch_begin(small, sizeof small, SUITE, 1, 4, 0, BASE_KEY, sizeof BASE_KEY - 1, &kid) == SFRAME_STORE_FULL,
               "full, the second time too");
    memcpy(large, small, sizeof small);
    expect(epoch_begin(large, sizeof large, SUITE, 1, 4, 0, BASE_KEY, sizeof BASE_KEY - 1, &kid) == SFRAME_DONE, "begun");
}

/* A group of three through forty epochs: what one seals the others open, and no frame of an epoch that has ended. */
static void epochs(void)
{
    enum { MEMBERS = 3, EPOCHS = 40 };
    static uint8_t stores[MEMBERS][SFRAME_STORE_SIZE(EPOCHS * MEMBERS)];
    uint8_t frame[SFRAME_FRAME_ROOM(5)], last[sizeof frame], opened[5], base_key[32];
    uint64_t kid[MEMBERS], context, index, low;
    size_t n, m, last_len = 0;

    for (int i = 0; i < MEMBERS; i++)
        expect(sframe_make(stores[i], sizeof stores[i]) == SFRAME_DONE, "make");
    for (uint64_t epoch = 0; epoch < EPOCHS; epoch++) {
        memset(base_key, (int)epoch + 1, sizeof base_key);
        for (uint64_t own = 0; own < MEMBERS; own++)
            expect(epoch_begin(stores[own], sizeof stores[own], SUITE, epoch, MEMBERS, own, base_key, sizeof base_key,
                               &kid[own])
                       == SFRAME_DONE,
                   "an epoch begins");
        for (uint64_t own = 0; own < MEMBERS; own++) {
            expect(sframe_seal(stores[own], sizeof stores[own], kid[own], NULL, 0, BASE_KEY, 5, frame, sizeof frame, &n)
                       == SFRAME_DONE,
                   "seal");
            expect(sframe_group_parts(kid[own], INDEX_WIDTH, EPOCH_WIDTH, &context, &index, &low) == SFRAME_DONE
                       && index == own && (context << EPOCH_WIDTH | low) == epoch,
                   "the key number tells the sender and the epoch");
            for (uint64_t other = 0; other < MEMBERS; other++)
                expect(sframe_open(stores[other], sizeof stores[other], frame, n, NULL, 0, opened, sizeof opened, &m)
                           == (other == own ? SFRAME_WRONG_ROLE : SFRAME_DONE),
                       "the others open it");
        }
        if (epoch > 0) {
            expect(epoch_end(stores[0], sizeof stores[0], epoch - 1, 0) == SFRAME_DONE, "an epoch ends");
            expect(sframe_open(stores[0], sizeof stores[0], last, last_len, NULL, 0, opened, sizeof opened, &m)
                       == SFRAME_KID_UNKNOWN,
                   "its keys are gone");
        }
        expect(sframe_seal(stores[1], sizeof stores[1], kid[1], NULL, 0, BASE_KEY, 5, last, sizeof last, &last_len)
                   == SFRAME_DONE,
               "seal");
    }
}

/* ---- the stack: what is left of a sealing, with and without wiping */

enum { DEPTH = 1 << 16, OWN = 512 };
static uint8_t depth[DEPTH], sealing[SFRAME_STORE_SIZE(1)], sealed[SFRAME_FRAME_ROOM(1200)];
static ucontext_t back, there;
static int wipes;

__attribute__((noinline)) static void seal_and_wipe(void)
{
    size_t n;

    expect(sframe_seal(sealing, sizeof sealing, KID, NULL, 0, picture, 1200, sealed, sizeof sealed, &n) == SFRAME_DONE,
           "seal");
    if (wipes)
        wipe_stack();
}

/* How many bytes on its stack are other than zero afterwards; its own frames are at the top. */
static size_t left_on_stack(int wiping)
{
    size_t many = 0;

    wipes = wiping;
    memset(depth, 0, sizeof depth);
    expect(getcontext(&there) == 0, "a context");
    there.uc_stack.ss_sp = depth;
    there.uc_stack.ss_size = sizeof depth;
    there.uc_link = &back;
    makecontext(&there, seal_and_wipe, 0);
    expect(swapcontext(&back, &there) == 0, "a stack of its own");
    for (size_t i = 0; i < sizeof depth - OWN; i++)
        many += depth[i] != 0;
    return many;
}

static void stacks(void)
{
    make_with(sealing, sizeof sealing, KID, 1);
    expect(left_on_stack(0) > 1000, "a sealing leaves much on the stack");
    expect(left_on_stack(1) == 0, "nothing of it is left below");
}

enum { THREADS = 4, EACH = 5000 };
static struct shared shared = { .one_at_a_time = PTHREAD_MUTEX_INITIALIZER };
static uint8_t seen[THREADS * EACH];

static void *sender(void *nothing)
{
    uint8_t frame[SFRAME_FRAME_ROOM(5)];
    size_t n;

    for (int i = 0; i < EACH; i++) {
        expect(shared_seal(&shared, KID, BASE_KEY, 5, frame, sizeof frame, &n) == SFRAME_DONE, "seal");
        wipe_stack();
        seen[counter_of(frame, n)] = 1; /* a byte of its own, if no counter is used twice */
    }
    return nothing;
}

static void threads(void)
{
    pthread_t ids[THREADS];
    pthread_attr_t small;

    make_with(shared.store, sizeof shared.store, KID, 1);
    expect(pthread_attr_init(&small) == 0, "attributes of a thread");
    (void)pthread_attr_setstacksize(&small, 32768); /* as the guide says; where the system wants more, it has more */
    for (int i = 0; i < THREADS; i++)
        expect(pthread_create(&ids[i], &small, sender, NULL) == 0, "a thread");
    for (int i = 0; i < THREADS; i++)
        pthread_join(ids[i], NULL);
    for (size_t i = 0; i < sizeof seen; i++)
        expect(seen[i] == 1, "every counter once");
    printf("threads: %d counters, each once\n", THREADS * EACH);
}

int main(int count, char **words)
{
    expect(count == 2, "the argument is a folder that is empty");
    for (size_t i = 0; i < sizeof picture; i++)
        picture[i] = (uint8_t)rand();
    layout();
    raised_is_sealed();
    killed(words[1]);
    in_doubt(words[1]);
    cut_power();
    lengths();
    tampered();
    tables();
    lossy();
    acts();
    steps();
    epoch_again();
    epochs();
    stacks();
    threads();
    return EXIT_SUCCESS;
}
