/* SPDX-License-Identifier: MIT */
/*
 * Suites 1 and 4 with libtomcrypt, the key made ready anew for each call: encrypts data in place and
 * writes the tag. An error of the library leaves the tag as it was, which the comparison notices.
 */
#include <stddef.h>
#include <stdint.h>
#include <string.h>
#include <tomcrypt.h>

#include "others.h"

void others_tomcrypt_suite1(const uint8_t *key, const uint8_t *nonce, const uint8_t *aad, size_t aad_len, uint8_t *data,
                            size_t len, uint8_t *tag)
{
    const int cipher = register_cipher(&aes_desc), hash = register_hash(&sha256_desc);
    symmetric_CTR ctr;
    hmac_state hmac;
    uint8_t block[16] = {0}, lengths[24], mac[32];
    unsigned long mac_len = sizeof mac;

    memcpy(block, nonce, 12);
    put_lengths(lengths, aad_len, len);
    if (ctr_start(cipher, block, key, 16, 0, CTR_COUNTER_BIG_ENDIAN, &ctr) != CRYPT_OK
        || ctr_encrypt(data, data, (unsigned long)len, &ctr) != CRYPT_OK || ctr_done(&ctr) != CRYPT_OK
        || hmac_init(&hmac, hash, key + 16, 32) != CRYPT_OK || hmac_process(&hmac, lengths, sizeof lengths) != CRYPT_OK
        || hmac_process(&hmac, nonce, 12) != CRYPT_OK || hmac_process(&hmac, aad, (unsigned long)aad_len) != CRYPT_OK
        || hmac_process(&hmac, data, (unsigned long)len) != CRYPT_OK || hmac_done(&hmac, mac, &mac_len) != CRYPT_OK) {
        return;
    }
    memcpy(tag, mac, 10);
}

void others_tomcrypt_suite4(const uint8_t *key, const uint8_t *nonce, const uint8_t *aad, size_t aad_len, uint8_t *data,
                            size_t len, uint8_t *tag)
{
    const int cipher = register_cipher(&aes_desc);
    unsigned long tag_len = 16;

    (void)gcm_memory(cipher, key, 16, nonce, 12, aad, (unsigned long)aad_len, data, (unsigned long)len, data, tag,
                     &tag_len, GCM_ENCRYPT);
}
