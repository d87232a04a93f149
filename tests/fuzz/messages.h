/*
 * Authentic messages, made without the library: plaintexts as SIP022 lays them
 * out, and any bytes sealed as a datagram or as a piece of a stream.
 */
#ifndef MESSAGES_H
#define MESSAGES_H

#include <stddef.h>
#include <stdint.h>

struct span {
    const uint8_t *bytes;
    size_t len;
};

/* A datagram's plaintext, of a client (side 0) or a server (1). Gives its length. */
size_t datagram_text(uint8_t *text, uint64_t side, uint64_t time, uint64_t client, size_t padding,
                     struct span address, struct span payload);

/* A fixed header; a request's has no bound salt. */
size_t fixed_text(uint8_t *text, uint8_t type, uint64_t time, struct span bound, size_t length);

/* A request's variable header. */
size_t variable_text(uint8_t *text, size_t padding, struct span address, struct span payload);

/* Session ID and packet ID, which a plaintext by a method of ChaCha begins with. Gives their
 * length. */
size_t ids_text(uint8_t *text, uint64_t id, uint64_t packet);

/* Seals a text as a datagram by a method of AES; gives its length. */
size_t craft_datagram(struct span key, uint64_t id, uint64_t packet, struct span text,
                      uint8_t *out);

/* The same by a method of ChaCha, with a nonce of 24 bytes; the IDs are in the text, or not. */
size_t craft_inner(uint64_t method, struct span key, const uint8_t *nonce, struct span text,
                   uint8_t *out);

/* Seals a text as the piece of a stream that has this counter; gives its length. */
size_t craft_piece(uint64_t method, const uint8_t *subkey, uint64_t counter, struct span text,
                   uint8_t *out);

/* Seals a head: the salt and two texts. */
size_t craft_head(uint64_t method, struct span key, const uint8_t *salt, struct span fixed,
                  struct span text, uint8_t *out);

#endif
