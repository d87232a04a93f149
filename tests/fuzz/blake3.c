#include "blake3.h"

#include <string.h>

enum { BLOCK_LEN = 64, CHUNK_LEN = 1024 };

/* Table 3: the flags. */
enum { CHUNK_START = 1, CHUNK_END = 2, PARENT = 4, ROOT = 8, CONTEXT = 32, MATERIAL = 64 };

static const uint32_t IV[8] = {0x6a09e667, 0xbb67ae85, 0x3c6ef372, 0xa54ff53a,
                               0x510e527f, 0x9b05688c, 0x1f83d9ab, 0x5be0cd19};
static const uint8_t PERMUTATION[16] = {2, 6, 3, 10, 7, 0, 4, 13, 1, 11, 12, 5, 9, 14, 15, 8};
static const uint8_t QUARTERS[8][4] = {{0, 4, 8, 12},  {1, 5, 9, 13},  {2, 6, 10, 14},
                                       {3, 7, 11, 15}, {0, 5, 10, 15}, {1, 6, 11, 12},
                                       {2, 7, 8, 13},  {3, 4, 9, 14}};

/* ---- section 2.2: compression */

static uint32_t rotated(uint32_t x, unsigned count)
{
    return x >> count | x << (32 - count);
}

static void mix(uint32_t *v, const uint8_t *q, uint32_t x, uint32_t y)
{
    uint32_t *a = &v[q[0]], *b = &v[q[1]], *c = &v[q[2]], *d = &v[q[3]];
    *a += *b + x;
    *d = rotated(*d ^ *a, 16);
    *c += *d;
    *b = rotated(*b ^ *c, 12);
    *a += *b + y;
    *d = rotated(*d ^ *a, 8);
    *c += *d;
    *b = rotated(*b ^ *c, 7);
}

/* The chaining value becomes the first eight words of the output. */
static void compress(uint32_t *h, const uint32_t *message, uint64_t counter, size_t len,
                     uint32_t flags)
{
    uint32_t m[16], next[16], v[16];
    memcpy(m, message, sizeof m);
    memcpy(v, h, 32);
    memcpy(v + 8, IV, 16);
    v[12] = (uint32_t)counter;
    v[13] = (uint32_t)(counter >> 32);
    v[14] = (uint32_t)len;
    v[15] = flags;
    for (int round = 0; round < 7; round++) {
        for (int i = 0; i < 8; i++)
            mix(v, QUARTERS[i], m[2 * i], m[2 * i + 1]);
        for (int i = 0; i < 16; i++)
            next[i] = m[PERMUTATION[i]];
        memcpy(m, next, sizeof m);
    }
    for (int i = 0; i < 8; i++)
        h[i] = v[i] ^ v[i + 8];
}

/* ---- sections 2.1, 2.4 and 2.5: chunks and the tree of them */

struct mode {
    uint32_t key[8], flags;
};

static void chunk(const struct mode *mode, uint64_t number, const uint8_t *data, size_t len,
                  uint32_t last_flags, uint32_t *h)
{
    uint32_t flags = mode->flags | CHUNK_START;
    memcpy(h, mode->key, sizeof mode->key);
    for (;;) {
        size_t taken = len < BLOCK_LEN ? len : BLOCK_LEN;
        int last = len <= BLOCK_LEN;
        uint8_t block[BLOCK_LEN] = {0};
        uint32_t m[16];
        if (taken > 0)
            memcpy(block, data, taken);
        for (int i = 0; i < 16; i++)
            m[i] = block[4 * i] | (uint32_t)block[4 * i + 1] << 8 |
                   (uint32_t)block[4 * i + 2] << 16 | (uint32_t)block[4 * i + 3] << 24;
        compress(h, m, number, taken, flags | (last ? CHUNK_END | last_flags : 0));
        if (last)
            return;
        flags = mode->flags;
        data += taken;
        len -= taken;
    }
}

/* Over data whose first chunk has this number. */
static void tree(const struct mode *mode, uint64_t number, const uint8_t *data, size_t len,
                 uint32_t last_flags, uint32_t *h)
{
    size_t left = CHUNK_LEN;
    uint32_t children[16];
    if (len <= CHUNK_LEN) {
        chunk(mode, number, data, len, last_flags, h);
        return;
    }
    while (2 * left < len)
        left *= 2;
    tree(mode, number, data, left, 0, children);
    tree(mode, number + left / CHUNK_LEN, data + left, len - left, 0, children + 8);
    memcpy(h, mode->key, sizeof mode->key);
    compress(h, children, 0, BLOCK_LEN, mode->flags | PARENT | last_flags);
}

/* ---- section 2.3: the modes */

static void to_bytes(const uint32_t *words, uint8_t *out)
{
    for (size_t i = 0; i < HASH_LEN; i++)
        out[i] = (uint8_t)(words[i / 4] >> 8 * (i % 4));
}

void blake3_hash(const uint8_t *data, size_t len, uint8_t *out)
{
    struct mode mode = {.flags = 0};
    uint32_t words[8];
    memcpy(mode.key, IV, sizeof IV);
    tree(&mode, 0, data, len, ROOT, words);
    to_bytes(words, out);
}

void blake3_derive_key(const char *context, const uint8_t *material, size_t len, uint8_t *out)
{
    struct mode mode = {.flags = CONTEXT};
    uint32_t words[8];
    memcpy(mode.key, IV, sizeof IV);
    tree(&mode, 0, (const uint8_t *)context, strlen(context), ROOT, words);
    memcpy(mode.key, words, sizeof words);
    mode.flags = MATERIAL;
    tree(&mode, 0, material, len, ROOT, words);
    to_bytes(words, out);
}
