/* Numbers and SOCKS5 addresses as bytes. */
#ifndef OCTETS_H
#define OCTETS_H

#include <stddef.h>
#include <stdint.h>

/* Numbers of `len` bytes, big-endian. */
uint64_t get_number(const uint8_t *bytes, size_t len);
void put_number(uint8_t *bytes, size_t len, uint64_t number);

/* The length of the address that the bytes begin with; 0 for none. */
size_t address_length(const uint8_t *bytes, size_t len);

/* Kind, first, second and port of an address that stands at a place of a text. */
void address_words(const uint8_t *bytes, size_t place, size_t len, uint64_t *words);

#endif
