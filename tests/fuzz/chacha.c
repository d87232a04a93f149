#include "chacha.h"

#include <openssl/evp.h>
#include <stdlib.h>
#include <string.h>

enum { BLOCK_LEN = 64, TAG_LEN = 16 };

static uint32_t get_little(const uint8_t *bytes)
{
    return bytes[0] | (uint32_t)bytes[1] << 8 | (uint32_t)bytes[2] << 16 | (uint32_t)bytes[3] << 24;
}

static void put_little(uint8_t *bytes, size_t len, uint64_t number)
{
    for (size_t i = 0; i < len; i++)
        bytes[i] = (uint8_t)(number >> 8 * i);
}

static uint32_t rolled(uint32_t word, unsigned count)
{
    return word << count | word >> (32 - count);
}

/* ---- RFC 8439, sections 2.1 to 2.4 */

static void quarter_round(uint32_t *s, int a, int b, int c, int d)
{
    s[a] += s[b];
    s[d] = rolled(s[d] ^ s[a], 16);
    s[c] += s[d];
    s[b] = rolled(s[b] ^ s[c], 12);
    s[a] += s[b];
    s[d] = rolled(s[d] ^ s[a], 8);
    s[c] += s[d];
    s[b] = rolled(s[b] ^ s[c], 7);
}

static void run_rounds(unsigned doubles, uint32_t *state)
{
    for (; doubles > 0; doubles--)
        for (int i = 0; i < 8; i++) {
            int turn = i / 4, a = i % 4; /* columns, then diagonals */
            quarter_round(state, a, 4 + (a + turn) % 4, 8 + (a + 2 * turn) % 4,
                          12 + (a + 3 * turn) % 4);
        }
}

/* Constants, key, and 16 bytes more. */
static void set_state(uint32_t *state, const uint8_t *key, const uint8_t *more)
{
    static const uint8_t constants[] = "expand 32-byte k";
    for (int i = 0; i < 4; i++) {
        state[i] = get_little(constants + 4 * i);
        state[4 + i] = get_little(key + 4 * i);
        state[8 + i] = get_little(key + 16 + 4 * i);
        state[12 + i] = get_little(more + 4 * i);
    }
}

static void make_block(unsigned doubles, const uint8_t *key, uint32_t counter, const uint8_t *nonce,
                       uint8_t *block)
{
    uint8_t more[16];
    uint32_t first[16], state[16];
    put_little(more, 4, counter);
    memcpy(more + 4, nonce, 12);
    set_state(first, key, more);
    memcpy(state, first, sizeof state);
    run_rounds(doubles, state);
    for (int i = 0; i < 16; i++)
        put_little(block + 4 * i, 4, state[i] + first[i]);
}

static void encrypt(unsigned doubles, const uint8_t *key, const uint8_t *nonce, const uint8_t *text,
                    size_t len, uint8_t *out)
{
    uint8_t block[BLOCK_LEN];
    for (size_t i = 0; i < len; i++) {
        if (i % BLOCK_LEN == 0)
            make_block(doubles, key, (uint32_t)(1 + i / BLOCK_LEN), nonce, block);
        out[i] = text[i] ^ block[i % BLOCK_LEN];
    }
}

/* ---- sections 2.6 and 2.8 */

static void must(int done)
{
    if (done != 1)
        abort();
}

static void make_tag(unsigned doubles, const uint8_t *key, const uint8_t *nonce,
                     const uint8_t *ciphertext, size_t len, uint8_t *tag)
{
    static EVP_MAC_CTX *context;
    static const uint8_t zeros[16];
    uint8_t block[BLOCK_LEN], lengths[16] = {0};
    size_t done;
    if (context == NULL)
        context = EVP_MAC_CTX_new(EVP_MAC_fetch(NULL, "POLY1305", NULL));
    make_block(doubles, key, 0, nonce, block);
    put_little(lengths + 8, 8, len);
    must(EVP_MAC_init(context, block, 32, NULL));
    if (len > 0)
        must(EVP_MAC_update(context, ciphertext, len));
    must(EVP_MAC_update(context, zeros, (16 - len % 16) % 16));
    must(EVP_MAC_update(context, lengths, sizeof lengths));
    must(EVP_MAC_final(context, tag, &done, TAG_LEN));
}

void chacha_seal(unsigned doubles, const uint8_t *key, const uint8_t *nonce, const uint8_t *text,
                 size_t len, uint8_t *out)
{
    encrypt(doubles, key, nonce, text, len, out);
    make_tag(doubles, key, nonce, out, len, out + len);
}

int chacha_open(unsigned doubles, const uint8_t *key, const uint8_t *nonce, const uint8_t *sealed,
                size_t len, uint8_t *out)
{
    uint8_t tag[TAG_LEN];
    size_t text = len - TAG_LEN;
    make_tag(doubles, key, nonce, sealed, text, tag);
    if (memcmp(tag, sealed + text, TAG_LEN) != 0)
        return 0;
    encrypt(doubles, key, nonce, sealed, text, out);
    return 1;
}

/* ---- draft-irtf-cfrg-xchacha, sections 2.2 and 2.3 */

void chacha_extended(unsigned doubles, const uint8_t *key, const uint8_t *extended_nonce,
                     uint8_t *subkey, uint8_t *nonce)
{
    uint32_t state[16];
    set_state(state, key, extended_nonce);
    run_rounds(doubles, state);
    for (int i = 0; i < 4; i++) {
        put_little(subkey + 4 * i, 4, state[i]);
        put_little(subkey + 16 + 4 * i, 4, state[12 + i]);
    }
    memset(nonce, 0, 4);
    memcpy(nonce + 4, extended_nonce + 16, 8);
}
