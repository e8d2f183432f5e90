/* SPDX-License-Identifier: MIT */
/*
 * Suites 1 and 4 with BearSSL, the key made ready anew for each call: encrypts data in place and writes the tag. AES is
 * the one with tables, or where special instructions are allowed and there, the one with those.
 */
#include <bearssl.h>
#include <stddef.h>
#include <stdint.h>
#include <string.h>

#include "others.h"

/* AES-128 in counter mode, chosen once. */
static const br_block_ctr_class *aes_class(void)
{
    static const br_block_ctr_class *chosen;

    if (chosen == NULL && special()) {
        chosen = br_aes_x86ni_ctr_get_vtable();
    }
    if (chosen == NULL) {
        chosen = &br_aes_big_ctr_vtable;
    }
    return chosen;
}

static br_ghash ghash(void)
{
    static br_ghash chosen;

    if (chosen == NULL && special()) {
        chosen = br_ghash_pclmul_get();
    }
    if (chosen == NULL) {
        chosen = br_ghash_ctmul64;
    }
    return chosen;
}

void others_bearssl_suite1(const uint8_t *key, const uint8_t *nonce, const uint8_t *aad, size_t aad_len, uint8_t *data,
                           size_t len, uint8_t *tag)
{
    const br_block_ctr_class *aes = aes_class();
    br_aes_gen_ctr_keys keys;
    br_hmac_key_context hmac_key;
    br_hmac_context hmac;
    uint8_t lengths[24], mac[32];

    aes->init(&keys.vtable, key, 16);
    aes->run(&keys.vtable, nonce, 0, data, len);
    put_lengths(lengths, aad_len, len);
    br_hmac_key_init(&hmac_key, &br_sha256_vtable, key + 16, 32);
    br_hmac_init(&hmac, &hmac_key, 0);
    br_hmac_update(&hmac, lengths, sizeof lengths);
    br_hmac_update(&hmac, nonce, 12);
    br_hmac_update(&hmac, aad, aad_len);
    br_hmac_update(&hmac, data, len);
    br_hmac_out(&hmac, mac);
    memcpy(tag, mac, 10);
}

void others_bearssl_suite4(const uint8_t *key, const uint8_t *nonce, const uint8_t *aad, size_t aad_len, uint8_t *data,
                           size_t len, uint8_t *tag)
{
    br_aes_gen_ctr_keys keys;
    br_gcm_context gcm;

    aes_class()->init(&keys.vtable, key, 16);
    br_gcm_init(&gcm, &keys.vtable, ghash());
    br_gcm_reset(&gcm, nonce, 12);
    br_gcm_aad_inject(&gcm, aad, aad_len);
    br_gcm_flip(&gcm);
    br_gcm_run(&gcm, 1, data, len);
    br_gcm_get_tag(&gcm, tag);
}
