#include "messages.h"

#include "chacha.h"
#include "cipher.h"

#include <string.h>

static size_t put(uint8_t *at, struct span span)
{
    if (span.len > 0)
        memcpy(at, span.bytes, span.len);
    return span.len;
}

static size_t put_padding(uint8_t *at, size_t padding)
{
    put_number(at, 2, padding);
    memset(at + 2, 0, padding);
    return 2 + padding;
}

size_t datagram_text(uint8_t *text, uint64_t side, uint64_t time, uint64_t client, size_t padding,
                     struct span address, struct span payload)
{
    size_t len = 9;
    text[0] = (uint8_t)side;
    put_number(text + 1, 8, time);
    if (side == 1) {
        put_number(text + len, 8, client);
        len += 8;
    }
    len += put_padding(text + len, padding);
    len += put(text + len, address);
    return len + put(text + len, payload);
}

size_t fixed_text(uint8_t *text, uint8_t type, uint64_t time, struct span bound, size_t length)
{
    text[0] = type;
    put_number(text + 1, 8, time);
    size_t len = 9 + put(text + 9, bound);
    put_number(text + len, 2, length);
    return len + 2;
}

size_t variable_text(uint8_t *text, size_t padding, struct span address, struct span payload)
{
    size_t len = put(text, address);
    len += put_padding(text + len, padding);
    return len + put(text + len, payload);
}

size_t ids_text(uint8_t *text, uint64_t id, uint64_t packet)
{
    put_number(text, 8, id);
    put_number(text + 8, 8, packet);
    return 16;
}

size_t craft_datagram(struct span key, uint64_t id, uint64_t packet, struct span text, uint8_t *out)
{
    uint8_t header[16], subkey[32];
    ids_text(header, id, packet);
    block_encrypt(key.bytes, key.len, header, out);
    derive_subkey(key.bytes, key.len, header, 8, subkey);
    gcm_seal(subkey, key.len, header + 4, text.bytes, text.len, out + 16);
    return 16 + text.len + TAG_LEN;
}

size_t craft_inner(uint64_t method, struct span key, const uint8_t *nonce, struct span text,
                   uint8_t *out)
{
    uint8_t subkey[32], inner[12];
    unsigned doubles = double_rounds(method);
    memcpy(out, nonce, EXTENDED_NONCE_LEN);
    chacha_extended(doubles, key.bytes, nonce, subkey, inner);
    chacha_seal(doubles, subkey, inner, text.bytes, text.len, out + EXTENDED_NONCE_LEN);
    return EXTENDED_NONCE_LEN + text.len + TAG_LEN;
}

size_t craft_piece(uint64_t method, const uint8_t *subkey, uint64_t counter, struct span text,
                   uint8_t *out)
{
    piece_seal(method, subkey, counter, text.bytes, text.len, out);
    return text.len + TAG_LEN;
}

size_t craft_head(uint64_t method, struct span key, const uint8_t *salt, struct span fixed,
                  struct span text, uint8_t *out)
{
    uint8_t subkey[32];
    derive_subkey(key.bytes, key.len, salt, key.len, subkey);
    memcpy(out, salt, key.len);
    size_t len = key.len;
    len += craft_piece(method, subkey, 0, fixed, out + len);
    return len + craft_piece(method, subkey, 1, text, out + len);
}
