/* SPDX-License-Identifier: MIT */
/* What the parts share. */
#ifndef OTHERS_H
#define OTHERS_H

#include <stddef.h>
#include <stdint.h>
#include <stdlib.h>

/* Whether a library may use special instructions of the processor. Those that choose by themselves are held back by
   their own environment variables. */
static inline int special(void)
{
    static int known = -1;

    if (known < 0) {
        known = getenv("BENCH_SPECIAL") != NULL;
    }
    return known;
}

/* Writes x as 8 bytes, the highest first. */
static inline void put64(uint8_t *out, uint64_t x)
{
    for (int i = 7; i >= 0; i--) {
        out[i] = (uint8_t)x;
        x >>= 8;
    }
}

/* The lengths that begin the tag's input in suite 1: associated data, ciphertext, tag. */
static inline void put_lengths(uint8_t out[24], size_t aad_len, size_t len)
{
    put64(out, aad_len);
    put64(out + 8, len);
    put64(out + 16, 10);
}

#endif
