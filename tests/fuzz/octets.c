#include "octets.h"

uint64_t get_number(const uint8_t *bytes, size_t len)
{
    uint64_t number = 0;
    for (size_t i = 0; i < len; i++)
        number = number << 8 | bytes[i];
    return number;
}

void put_number(uint8_t *bytes, size_t len, uint64_t number)
{
    for (size_t i = len; i-- > 0; number >>= 8)
        bytes[i] = (uint8_t)number;
}

size_t address_length(const uint8_t *bytes, size_t len)
{
    size_t whole = 0;
    if (len > 0 && bytes[0] == 1)
        whole = 1 + 4 + 2;
    if (len > 0 && bytes[0] == 4)
        whole = 1 + 16 + 2;
    if (len > 1 && bytes[0] == 3 && bytes[1] > 0)
        whole = 2 + (size_t)bytes[1] + 2;
    return whole <= len ? whole : 0;
}

void address_words(const uint8_t *bytes, size_t place, size_t len, uint64_t *words)
{
    const uint8_t *address = bytes + place;
    words[0] = address[0];
    words[1] = words[2] = 0;
    if (address[0] == 1)
        words[1] = get_number(address + 1, 4);
    if (address[0] == 3) {
        words[1] = place + 2;
        words[2] = address[1];
    }
    if (address[0] == 4) {
        words[1] = get_number(address + 1, 8);
        words[2] = get_number(address + 9, 8);
    }
    words[3] = get_number(address + len - 2, 2);
}
