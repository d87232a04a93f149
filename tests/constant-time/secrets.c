/*
 * Whether what is secret decides a branch or the place of an access, under valgrind's memcheck. Keys and texts are marked as
 * undefined, and memcheck follows what is made of them through every instruction: it reports each branch on such a value and each
 * address made of one (after A. Langley's ctgrind). Lengths, nonces, addresses and what is on the wire are public.
 *
 *     secrets          the methods with ChaCha: nothing is reported of sealing, and of opening one branch for each call
 *     secrets tables   AES-GCM, which looks up tables by secret bytes: the same must be reported, or nothing is ever seen
 *
 * Opening writes the text or leaves the buffer, by the verdict on the tag. That takes a branch, so where there is one alone, it is
 * the one on the verdict.
 */
#include <stdbool.h>
#include <stdint.h>
#include <stdio.h>
#include <stdlib.h>
#include <string.h>

#include <valgrind/memcheck.h>

/* What the benchmark's library exports. The number of rounds is given in double rounds. */
uint32_t bench_chacha_poly_seal(size_t n, const uint8_t *key, size_t key_len, const uint8_t *nonce,
                                size_t nonce_len, uint8_t *body, size_t body_len);
uint32_t bench_chacha_poly_open(size_t n, const uint8_t *key, size_t key_len, const uint8_t *nonce,
                                size_t nonce_len, const uint8_t *sealed, size_t sealed_len,
                                uint8_t *out, size_t out_len);
uint32_t bench_chacha_poly_extended_seal(size_t n, const uint8_t *key, size_t key_len,
                                         const uint8_t *nonce, size_t nonce_len, uint8_t *body,
                                         size_t body_len);
uint32_t bench_chacha_poly_extended_open(size_t n, const uint8_t *key, size_t key_len,
                                         const uint8_t *nonce, size_t nonce_len,
                                         const uint8_t *sealed, size_t sealed_len, uint8_t *out,
                                         size_t out_len);
uint32_t bench_gcm_seal(const uint8_t *key, size_t key_len, const uint8_t *nonce, size_t nonce_len,
                        const uint8_t *text, size_t text_len, uint8_t *out, size_t out_len);
uint32_t bench_gcm_open(const uint8_t *key, size_t key_len, const uint8_t *nonce, size_t nonce_len,
                        const uint8_t *sealed, size_t sealed_len, uint8_t *out, size_t out_len);
uint32_t bench_subkey(const uint8_t *key, size_t key_len, const uint8_t *salt, size_t salt_len,
                      uint8_t *out, size_t out_len);
size_t bench_datagram_seal(uint64_t method, const uint8_t *key, size_t key_len,
                           const uint8_t *nonce, size_t nonce_len, uint64_t id, uint64_t clock,
                           const uint8_t *address, size_t address_len, const uint8_t *payload,
                           size_t payload_len, uint8_t *out, size_t out_len);
size_t bench_chunk_seal(uint64_t method, uint64_t a, uint64_t b, uint64_t c, uint64_t d,
                        const uint8_t *payload, size_t payload_len, uint8_t *out, size_t out_len);

enum { KEY = 32, TAG = 16, LONGEST = 65507, ROOM = LONGEST + 128 };

/* What the openers answer. */
enum { OPENED = 0, FORGED = 2 };

/* The nonce of each form, of 12 and of 24 bytes, and the double rounds of methods 3 to 5. */
static const size_t nonce_lengths[] = {12, 24};
static const size_t double_rounds[] = {10, 6, 4};

/* All lengths up to 300 bytes, and some more. */
static const size_t long_lengths[] = {511, 1024, 1400, 4095, 9000, LONGEST};
enum { SHORT_LENGTHS = 301, LONG_LENGTHS = sizeof long_lengths / sizeof *long_lengths };

static uint8_t key[KEY], nonce[24], text[ROOM], body[ROOM], out[ROOM];
static unsigned long calls;

static size_t length_of(size_t i)
{
    return i < SHORT_LENGTHS ? i : long_lengths[i - SHORT_LENGTHS];
}

/* Anything, the same in every run. */
static void fill(uint8_t *bytes, size_t length, uint32_t seed)
{
    for (size_t i = 0; i < length; i++) {
        seed = seed * 1664525 + 1013904223;
        bytes[i] = (uint8_t)(seed >> 24);
    }
}

/* Says where it does not hold: by the number of double rounds or of the method. */
static void require(bool holds, const char *what, size_t number, size_t length)
{
    if (holds)
        return;
    printf("%s (%zu, %zu bytes)\n", what, number, length);
    exit(1);
}

/* How many reports there were since the last call of this function. */
static unsigned reports(void)
{
    static unsigned before;
    unsigned now = VALGRIND_COUNT_ERRORS, since = now - before;
    before = now;
    return since;
}

/* Whether memcheck took the last verdict for made of secrets. */
static bool verdict_followed;

/* Whether there was a report on the verdict and no other. An empty text is not decrypted, so that a
 * compiler may join the verdict to that test, and then there is none: the answer itself tells that
 * the verdict was followed. */
static bool verdict_alone(size_t length)
{
    unsigned since = reports();
    return since == 1 || (since == 0 && length == 0 && verdict_followed);
}

/* Whether memcheck takes each of these bytes for made of secrets: else it has lost their track. */
static bool is_secret(const uint8_t *bytes, size_t length)
{
    static uint8_t undefined[ROOM];
    VALGRIND_GET_VBITS(bytes, undefined, length);
    for (size_t i = 0; i < length; i++)
        if (undefined[i] == 0)
            return false;
    return true;
}

static void make_secret(void *bytes, size_t length)
{
    VALGRIND_MAKE_MEM_UNDEFINED(bytes, length);
}

static void make_public(void *bytes, size_t length)
{
    VALGRIND_MAKE_MEM_DEFINED(bytes, length);
}

/* A key that is secret, a text, and a public nonce. */
static void prepare(size_t length, uint32_t seed)
{
    make_public(key, sizeof key);
    make_public(text, length);
    fill(key, sizeof key, seed);
    fill(nonce, sizeof nonce, seed + 1);
    fill(text, length, seed + 2);
    make_secret(key, sizeof key);
    calls++;
    reports();
}

static uint32_t chacha_open(size_t rounds, size_t nonce_length, size_t length)
{
    uint32_t answer =
        nonce_length == 12
            ? bench_chacha_poly_open(rounds, key, sizeof key, nonce, nonce_length, body,
                                     length + TAG, out, length)
            : bench_chacha_poly_extended_open(rounds, key, sizeof key, nonce, nonce_length, body,
                                              length + TAG, out, length);
    verdict_followed = is_secret((const uint8_t *)&answer, 1);
    make_public(&answer, sizeof answer);
    return answer;
}

static void chacha_seal(size_t rounds, size_t nonce_length, size_t length)
{
    prepare(length, (uint32_t)(length * 64 + rounds + nonce_length));
    memcpy(body, text, length);
    make_secret(body, length);
    uint32_t answer = nonce_length == 12
                          ? bench_chacha_poly_seal(rounds, key, sizeof key, nonce, nonce_length,
                                                   body, length + TAG)
                          : bench_chacha_poly_extended_seal(rounds, key, sizeof key, nonce,
                                                            nonce_length, body, length + TAG);
    require(answer == 0, "not sealed", rounds, length);
    require(reports() == 0, "sealing depends on what is secret", rounds, length);
    require(is_secret(body, length + TAG), "sealing was not followed", rounds, length);
    /* It is on the wire from here on. */
    make_public(body, length + TAG);
}

/* Sealed, opened, and refused with a bit of the tag wrong. */
static void chacha(size_t rounds, size_t nonce_length, size_t length)
{
    chacha_seal(rounds, nonce_length, length);
    require(chacha_open(rounds, nonce_length, length) == OPENED, "not opened", rounds, length);
    require(verdict_alone(length), "opening depends on more than the verdict", rounds, length);
    require(is_secret(out, length), "opening was not followed", rounds, length);
    make_public(out, length);
    require(memcmp(out, text, length) == 0, "opened to another text", rounds, length);

    body[length + length % TAG] ^= 1;
    require(chacha_open(rounds, nonce_length, length) == FORGED, "forgery taken", rounds, length);
    require(verdict_alone(length), "refusing depends on more than the verdict", rounds, length);
}

/* All of a client's datagram, and of a stream's first chunk with its subkey. */
static void sealed_messages(uint64_t method, size_t length)
{
    static const uint8_t address[] = {1, 192, 0, 2, 1, 0, 80};
    uint8_t salt[KEY];
    uint64_t subkey[4];
    prepare(length, (uint32_t)(length * 8 + method));
    make_secret(text, length);
    size_t sealed = bench_datagram_seal(method, key, sizeof key, nonce, sizeof nonce, 1, 1000,
                                        address, sizeof address, text, length, out, sizeof out);
    require(sealed == length + sizeof nonce + 16 + 11 + sizeof address + TAG,
            "datagram not sealed", method, length);
    require(reports() == 0, "a datagram depends on what is secret", method, length);
    require(is_secret(out + sizeof nonce, sealed - sizeof nonce), "a datagram was not followed",
            method, length);
    make_public(out, sealed);

    fill(salt, sizeof salt, 1);
    bench_subkey(key, sizeof key, salt, sizeof salt, (uint8_t *)subkey, sizeof subkey);
    require(is_secret((uint8_t *)subkey, sizeof subkey), "a subkey was not followed", method, 0);
    sealed = bench_chunk_seal(method, subkey[0], subkey[1], subkey[2], subkey[3], text, length, out,
                              sizeof out);
    require(sealed == length + 2 + 2 * TAG, "chunk not sealed", method, length);
    require(reports() == 0, "a chunk depends on what is secret", method, length);
    make_public(out, sealed);
}

/* AES-GCM must be reported wherever ChaCha is not. */
static void tables(size_t length)
{
    prepare(length, (uint32_t)length);
    make_secret(text, length);
    bench_gcm_seal(key, sizeof key, nonce, 12, text, length, body, length + TAG);
    require(reports() > 0, "sealing by tables was not reported", 0, length);
    make_public(body, length + TAG);
    uint32_t answer = bench_gcm_open(key, sizeof key, nonce, 12, body, length + TAG, out, length);
    make_public(&answer, sizeof answer);
    require(answer == OPENED, "not opened", 0, length);
    require(reports() > 1, "opening by tables was not reported", 0, length);
    make_public(out, length);
}

static void without_tables(void)
{
    for (size_t r = 0; r < 3; r++)
        for (size_t i = 0; i < SHORT_LENGTHS + LONG_LENGTHS; i++)
            for (size_t f = 0; f < 2; f++)
                chacha(double_rounds[r], nonce_lengths[f], length_of(i));
    for (uint64_t method = 3; method <= 5; method++)
        for (size_t length = 1; length <= 1400; length = length * 2 + 1)
            sealed_messages(method, length);
}

int main(int count, char **arguments)
{
    bool by_tables = count == 2 && strcmp(arguments[1], "tables") == 0;
    if (!RUNNING_ON_VALGRIND || (count != 1 && !by_tables)) {
        fprintf(stderr, "usage: valgrind secrets [tables]\n");
        return 2;
    }
    if (by_tables)
        for (size_t length = 0; length < 64; length++)
            tables(length);
    else
        without_tables();
    printf("%lu texts: %s\n", calls,
           by_tables ? "AES-GCM was reported in each, sealed and opened"
                     : "ChaCha sealed without a report, and opened with one, on the verdict");
    return 0;
}
