/* SPDX-License-Identifier: MIT */
/*
 * Suites 1 and 4 with OpenSSL, the key made ready anew for each call: encrypts data in place and writes
 * the tag. Algorithms and contexts are made once. An error of the library leaves the tag as it was,
 * which the comparison notices.
 */
#include <openssl/core_names.h>
#include <openssl/evp.h>
#include <openssl/params.h>
#include <stddef.h>
#include <stdint.h>
#include <string.h>

#include "others.h"

/* The context of the cipher of that name, made on the first call and kept. */
static EVP_CIPHER_CTX *context_of(EVP_CIPHER_CTX **kept, const char *name)
{
    if (*kept == NULL) {
        *kept = EVP_CIPHER_CTX_new();
        (void)EVP_EncryptInit_ex2(*kept, EVP_CIPHER_fetch(NULL, name, NULL), NULL, NULL, NULL);
    }
    return *kept;
}

static EVP_MAC_CTX *hmac_context(void)
{
    static EVP_MAC_CTX *context;

    if (context == NULL) {
        char digest[] = "SHA256";
        const OSSL_PARAM params[] = {OSSL_PARAM_construct_utf8_string(OSSL_MAC_PARAM_DIGEST, digest, 0),
                                     OSSL_PARAM_construct_end()};
        context = EVP_MAC_CTX_new(EVP_MAC_fetch(NULL, "HMAC", NULL));
        (void)EVP_MAC_CTX_set_params(context, params);
    }
    return context;
}

void others_openssl_suite1(const uint8_t *key, const uint8_t *nonce, const uint8_t *aad, size_t aad_len, uint8_t *data,
                           size_t len, uint8_t *tag)
{
    static EVP_CIPHER_CTX *kept;
    EVP_CIPHER_CTX *ctr = context_of(&kept, "AES-128-CTR");
    EVP_MAC_CTX *hmac = hmac_context();
    uint8_t block[16] = {0}, lengths[24], mac[32];
    int done;
    size_t mac_len;

    memcpy(block, nonce, 12);
    put_lengths(lengths, aad_len, len);
    if (EVP_EncryptInit_ex2(ctr, NULL, key, block, NULL) != 1 || EVP_EncryptUpdate(ctr, data, &done, data, (int)len) != 1
        || EVP_MAC_init(hmac, key + 16, 32, NULL) != 1 || EVP_MAC_update(hmac, lengths, sizeof lengths) != 1
        || EVP_MAC_update(hmac, nonce, 12) != 1 || EVP_MAC_update(hmac, aad, aad_len) != 1
        || EVP_MAC_update(hmac, data, len) != 1 || EVP_MAC_final(hmac, mac, &mac_len, sizeof mac) != 1) {
        return;
    }
    memcpy(tag, mac, 10);
}

void others_openssl_suite4(const uint8_t *key, const uint8_t *nonce, const uint8_t *aad, size_t aad_len, uint8_t *data,
                           size_t len, uint8_t *tag)
{
    static EVP_CIPHER_CTX *kept;
    EVP_CIPHER_CTX *gcm = context_of(&kept, "AES-128-GCM");
    int done;

    if (EVP_EncryptInit_ex2(gcm, NULL, key, nonce, NULL) != 1 || EVP_EncryptUpdate(gcm, NULL, &done, aad, (int)aad_len) != 1
        || EVP_EncryptUpdate(gcm, data, &done, data, (int)len) != 1 || EVP_EncryptFinal_ex(gcm, data + len, &done) != 1) {
        return;
    }
    (void)EVP_CIPHER_CTX_ctrl(gcm, EVP_CTRL_AEAD_GET_TAG, 16, tag);
}
