/* SPDX-License-Identifier: MIT */
/* Does not look at an answer: the compiler has to warn. */
#include "sframe.h"

void unused(uint8_t *store, size_t store_len)
{
    sframe_make(store, store_len);
}
