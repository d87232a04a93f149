/*
 * ChaCha of any number of double rounds with Poly1305, from RFC 8439 and
 * draft-irtf-cfrg-xchacha, independent of the library: OpenSSL has no ChaCha of
 * fewer rounds than 20. Poly1305 is OpenSSL's. There is no additional data.
 */
#ifndef CHACHA_H
#define CHACHA_H

#include <stddef.h>
#include <stdint.h>

enum { EXTENDED_NONCE_LEN = 24 };

/* Writes the ciphertext and the tag, under a nonce of 12 bytes. */
void chacha_seal(unsigned doubles, const uint8_t *key, const uint8_t *nonce, const uint8_t *text,
                 size_t len, uint8_t *out);

/* Writes the text if the tag is good, and says whether it is; `len` counts the tag too. */
int chacha_open(unsigned doubles, const uint8_t *key, const uint8_t *nonce, const uint8_t *sealed,
                size_t len, uint8_t *out);

/* Key and nonce of the second stage under an extended nonce: 32 bytes and 12. */
void chacha_extended(unsigned doubles, const uint8_t *key, const uint8_t *extended_nonce,
                     uint8_t *subkey, uint8_t *nonce);

#endif
