/*
 * The ciphers of the protocol, independent of the library: AES, GCM and HKDF by
 * OpenSSL, BLAKE3's key derivation as in blake3.h, ChaCha as in chacha.h. With
 * them the fuzz target makes authentic messages of any contents, and knows what
 * is authentic.
 */
#ifndef CIPHER_H
#define CIPHER_H

#include "octets.h"

#include <stddef.h>
#include <stdint.h>

enum { TAG_LEN = 16 };

/* A method's length of keys and salts; 0 for no method of SIP022. */
size_t key_length(uint64_t method);

/* The same by the 2017 edition. */
size_t sip004_key_length(uint64_t method);

/* A method's double rounds of ChaCha; 0 for one of AES, or none. */
unsigned double_rounds(uint64_t method);

/* How many bytes a datagram of a method of SIP022 has more than its plaintext. */
size_t overhead(uint64_t method);

/* The subkey, as long as the key, of a salt or of a datagram's session ID. */
void derive_subkey(const uint8_t *key, size_t key_len, const uint8_t *salt, size_t salt_len,
                   uint8_t *subkey);

/* The same of a salt by the 2017 edition, which is as long as the key. */
void sip004_subkey(const uint8_t *key, size_t key_len, const uint8_t *salt, uint8_t *subkey);

void block_encrypt(const uint8_t *key, size_t key_len, const uint8_t *block, uint8_t *out);
void block_decrypt(const uint8_t *key, size_t key_len, const uint8_t *block, uint8_t *out);

/* Writes the ciphertext and the tag. */
void gcm_seal(const uint8_t *key, size_t key_len, const uint8_t *nonce, const uint8_t *text,
              size_t len, uint8_t *out);

/* Writes the text and says whether the tag is good; `len` counts the tag too. */
int gcm_open(const uint8_t *key, size_t key_len, const uint8_t *nonce, const uint8_t *sealed,
             size_t len, uint8_t *out);

/* The same of a piece of a stream by any method, under its subkey and counter. */
void piece_seal(uint64_t method, const uint8_t *subkey, uint64_t counter, const uint8_t *text,
                size_t len, uint8_t *out);
int piece_open(uint64_t method, const uint8_t *subkey, uint64_t counter, const uint8_t *sealed,
               size_t len, uint8_t *out);

#endif
