#include "cipher.h"

#include "blake3.h"
#include "chacha.h"
#include "relay.h"

#include <openssl/evp.h>
#include <openssl/kdf.h>
#include <stdlib.h>
#include <string.h>

size_t key_length(uint64_t method)
{
    if (method == RELAY_AES_128_GCM)
        return 16;
    return method == RELAY_AES_256_GCM || double_rounds(method) > 0 ? 32 : 0;
}

unsigned double_rounds(uint64_t method)
{
    switch (method) {
    case RELAY_CHACHA20_POLY1305:
        return 20 / 2;
    case RELAY_CHACHA12_POLY1305:
        return 12 / 2;
    case RELAY_CHACHA8_POLY1305:
        return 8 / 2;
    default:
        return 0;
    }
}

size_t overhead(uint64_t method)
{
    return (double_rounds(method) > 0 ? EXTENDED_NONCE_LEN : 16) + TAG_LEN;
}

size_t sip004_key_length(uint64_t method)
{
    switch (method) {
    case RELAY_SIP004_AES_128_GCM:
        return 16;
    case RELAY_SIP004_AES_192_GCM:
        return 24;
    case RELAY_SIP004_AES_256_GCM:
        return 32;
    default:
        return 0;
    }
}

void derive_subkey(const uint8_t *key, size_t key_len, const uint8_t *salt, size_t salt_len,
                   uint8_t *subkey)
{
    uint8_t material[64], derived[HASH_LEN];
    memcpy(material, key, key_len);
    memcpy(material + key_len, salt, salt_len);
    blake3_derive_key("shadowsocks 2022 session subkey", material, key_len + salt_len, derived);
    memcpy(subkey, derived, key_len);
}

/* ---- HKDF, AES and GCM by OpenSSL */

static void must(int done)
{
    if (done != 1)
        abort();
}

void sip004_subkey(const uint8_t *key, size_t key_len, const uint8_t *salt, uint8_t *subkey)
{
    static const uint8_t info[] = "ss-subkey";
    EVP_PKEY_CTX *context = EVP_PKEY_CTX_new_id(EVP_PKEY_HKDF, NULL);
    must(EVP_PKEY_derive_init(context));
    must(EVP_PKEY_CTX_set_hkdf_md(context, EVP_sha1()));
    must(EVP_PKEY_CTX_set1_hkdf_key(context, key, (int)key_len));
    must(EVP_PKEY_CTX_set1_hkdf_salt(context, salt, (int)key_len));
    must(EVP_PKEY_CTX_add1_hkdf_info(context, info, sizeof info - 1));
    must(EVP_PKEY_derive(context, subkey, &key_len));
    EVP_PKEY_CTX_free(context);
}

static EVP_CIPHER_CTX *begin(const EVP_CIPHER *cipher, const uint8_t *key, const uint8_t *nonce,
                             int encrypts)
{
    static EVP_CIPHER_CTX *context;
    if (context == NULL)
        context = EVP_CIPHER_CTX_new();
    must(EVP_CipherInit_ex(context, cipher, NULL, key, nonce, encrypts));
    return context;
}

static void one_block(const uint8_t *key, size_t key_len, const uint8_t *block, uint8_t *out,
                      int encrypts)
{
    int done;
    EVP_CIPHER_CTX *context =
        begin(key_len == 16 ? EVP_aes_128_ecb() : EVP_aes_256_ecb(), key, NULL, encrypts);
    EVP_CIPHER_CTX_set_padding(context, 0);
    must(EVP_CipherUpdate(context, out, &done, block, 16));
}

void block_encrypt(const uint8_t *key, size_t key_len, const uint8_t *block, uint8_t *out)
{
    one_block(key, key_len, block, out, 1);
}

void block_decrypt(const uint8_t *key, size_t key_len, const uint8_t *block, uint8_t *out)
{
    one_block(key, key_len, block, out, 0);
}

static const EVP_CIPHER *gcm(size_t key_len)
{
    if (key_len == 24)
        return EVP_aes_192_gcm();
    return key_len == 16 ? EVP_aes_128_gcm() : EVP_aes_256_gcm();
}

void gcm_seal(const uint8_t *key, size_t key_len, const uint8_t *nonce, const uint8_t *text,
              size_t len, uint8_t *out)
{
    int done;
    EVP_CIPHER_CTX *context = begin(gcm(key_len), key, nonce, 1);
    if (len > 0)
        must(EVP_CipherUpdate(context, out, &done, text, (int)len));
    must(EVP_CipherFinal_ex(context, out + len, &done));
    must(EVP_CIPHER_CTX_ctrl(context, EVP_CTRL_AEAD_GET_TAG, TAG_LEN, out + len));
}

int gcm_open(const uint8_t *key, size_t key_len, const uint8_t *nonce, const uint8_t *sealed,
             size_t len, uint8_t *out)
{
    int done;
    uint8_t tag[TAG_LEN], last[16];
    size_t text = len - TAG_LEN;
    EVP_CIPHER_CTX *context = begin(gcm(key_len), key, nonce, 0);
    if (text > 0)
        must(EVP_CipherUpdate(context, out, &done, sealed, (int)text));
    memcpy(tag, sealed + text, TAG_LEN);
    must(EVP_CIPHER_CTX_ctrl(context, EVP_CTRL_AEAD_SET_TAG, TAG_LEN, tag));
    return EVP_CipherFinal_ex(context, last, &done) == 1;
}

/* ---- pieces of streams */

/* A counter in 12 bytes, little-endian. */
static void stream_nonce(uint64_t counter, uint8_t *nonce)
{
    memset(nonce, 0, 12);
    for (int i = 0; i < 8; i++)
        nonce[i] = (uint8_t)(counter >> 8 * i);
}

/* At most one edition has the method. */
static size_t subkey_length(uint64_t method)
{
    return key_length(method) + sip004_key_length(method);
}

void piece_seal(uint64_t method, const uint8_t *subkey, uint64_t counter, const uint8_t *text,
                size_t len, uint8_t *out)
{
    uint8_t nonce[12];
    unsigned doubles = double_rounds(method);
    stream_nonce(counter, nonce);
    if (doubles > 0)
        chacha_seal(doubles, subkey, nonce, text, len, out);
    else
        gcm_seal(subkey, subkey_length(method), nonce, text, len, out);
}

int piece_open(uint64_t method, const uint8_t *subkey, uint64_t counter, const uint8_t *sealed,
               size_t len, uint8_t *out)
{
    uint8_t nonce[12];
    unsigned doubles = double_rounds(method);
    stream_nonce(counter, nonce);
    if (doubles > 0)
        return chacha_open(doubles, subkey, nonce, sealed, len, out);
    return gcm_open(subkey, subkey_length(method), nonce, sealed, len, out);
}
