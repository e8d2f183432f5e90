/* SPDX-License-Identifier: MIT */
/*
 * Suites 1 and 4 with nettle, the key made ready anew for each call: encrypts data in place and writes
 * the tag.
 */
#include <nettle/aes.h>
#include <nettle/ctr.h>
#include <nettle/gcm.h>
#include <nettle/hmac.h>
#include <stddef.h>
#include <stdint.h>
#include <string.h>

#include "others.h"

void others_nettle_suite1(const uint8_t *key, const uint8_t *nonce, const uint8_t *aad, size_t aad_len, uint8_t *data,
                          size_t len, uint8_t *tag)
{
    struct aes128_ctx aes;
    struct hmac_sha256_ctx hmac;
    uint8_t block[16] = {0}, lengths[24];

    memcpy(block, nonce, 12);
    aes128_set_encrypt_key(&aes, key);
    ctr_crypt(&aes, (nettle_cipher_func *)aes128_encrypt, 16, block, len, data, data);
    put_lengths(lengths, aad_len, len);
    hmac_sha256_set_key(&hmac, 32, key + 16);
    hmac_sha256_update(&hmac, sizeof lengths, lengths);
    hmac_sha256_update(&hmac, 12, nonce);
    hmac_sha256_update(&hmac, aad_len, aad);
    hmac_sha256_update(&hmac, len, data);
    hmac_sha256_digest(&hmac, 10, tag);
}

void others_nettle_suite4(const uint8_t *key, const uint8_t *nonce, const uint8_t *aad, size_t aad_len, uint8_t *data,
                          size_t len, uint8_t *tag)
{
    struct gcm_aes128_ctx gcm;

    gcm_aes128_set_key(&gcm, key);
    gcm_aes128_set_iv(&gcm, 12, nonce);
    gcm_aes128_update(&gcm, aad_len, aad);
    gcm_aes128_encrypt(&gcm, len, data, data);
    gcm_aes128_digest(&gcm, 16, tag);
}
