/* BLAKE3 from its paper, independent of the library: outputs of 32 bytes. */
#ifndef BLAKE3_H
#define BLAKE3_H

#include <stddef.h>
#include <stdint.h>

enum { HASH_LEN = 32 };

void blake3_hash(const uint8_t *data, size_t len, uint8_t *out);
void blake3_derive_key(const char *context, const uint8_t *material, size_t len, uint8_t *out);

#endif
