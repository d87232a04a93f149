/*
 * Steps that call nothing: authentic messages of contents that no sealing
 * function writes, and words that a host may hold.
 */
#include "cipher.h"
#include "steps.h"

#include <string.h>

enum { OF_FIXED_HEADER = 0x8000, CUT = 0x80 };

static uint8_t text[LEND_SIZE];

void patch_step(const struct step *step)
{
    struct patch *patch = &host.patches[host.patch_count++ % PATCHES];
    patch->place = step->place;
    patch->count = step->who % 9;
    patch->value = word_of(step->value);
}

static void apply_patches(uint8_t *bytes, size_t len, unsigned of)
{
    for (unsigned i = 0; i < PATCHES && i < host.patch_count; i++) {
        const struct patch *patch = &host.patches[i];
        size_t place = patch->place & ~(unsigned)OF_FIXED_HEADER;
        if (len > 0 && (patch->place & OF_FIXED_HEADER) == of)
            for (unsigned j = 0; j < patch->count; j++)
                bytes[(place + j) % len] = (uint8_t)(patch->value >> 8 * j);
    }
}

/* Cuts a text short, if the step has it so. */
static size_t cut(const struct step *step, size_t len)
{
    size_t most = step->how & 63;
    return step->how & CUT && most < len ? most : len;
}

/* By a method of ChaCha the IDs are in the plaintext, which may be cut among them. */
void craft_datagram_step(const struct step *step)
{
    const uint64_t *session = host.sessions[step->who / 2 % SESSIONS];
    struct span lent_key = {key, key_length(host.method)}, whole = {text, 0};
    struct span payload = {filled, length_of(step->length)};
    uint64_t time = step->value == 0 ? host.clock : word_of(step->value);
    int inner = double_rounds(host.method) > 0;
    size_t ids = inner ? ids_text(text, session[1], session[3]) : 0;
    size_t len = datagram_text(text + ids, step->who & 1, time, session[2], step->place & 0x3ff,
                               address_of(step->who / 8), payload);
    apply_patches(text + ids, len, 0);
    host.patch_count = 0;
    whole.len = cut(step, ids + len);
    struct message *message = &datagrams[host.next_datagram++ % DATAGRAMS];
    if (inner)
        message->len = craft_inner(host.method, lent_key, nonce_of(step), whole, message->bytes);
    else
        message->len = craft_datagram(lent_key, session[1], session[3], whole, message->bytes);
}

void craft_head_step(const struct step *step)
{
    static uint8_t front[64];
    struct message *line = line_of(step);
    size_t salt = key_length(host.method);
    struct span lent_key = {key, salt}, bound = {salts[step->place % SALTS], salt};
    struct span whole = {text, 0}, fixed = {front, 0};
    struct span payload = {filled, step->length & 0x3ff};
    uint8_t type = step->how & 1;
    if (type == 0)
        bound.len = 0;
    whole.len = variable_text(text, step->place & 0x3ff, address_of(step->who / 16), payload);
    apply_patches(text, whole.len, 0);
    whole.len = cut(step, whole.len);
    fixed.len = fixed_text(front, type, host.clock, bound, whole.len);
    apply_patches(front, fixed.len, OF_FIXED_HEADER);
    host.patch_count = 0;
    line->read = 0;
    line->len = craft_head(host.method, lent_key, salt_of(step->who / 16, step->value), fixed,
                           whole, line->bytes);
}

/* A length, and a payload that may have another, for the stream that is to open them. */
void craft_chunk_step(const struct step *step)
{
    const uint64_t *stream = host.streams[step->who % STREAMS];
    uint8_t subkey[32], said[2];
    struct span length = {said, 2}, payload = {filled, length_of(step->length)}, whole = {text, 0};
    if (key_length(stream[1]) + sip004_key_length(stream[1]) == 0)
        return; /* neither edition has the method */
    for (int i = 0; i < 4; i++)
        put_number(subkey + 8 * i, 8, stream[4 + i]);
    put_number(said, 2, step->how & 1 ? step->place : payload.len);
    whole.len = craft_piece(stream[1], subkey, stream[2], length, text);
    whole.len += craft_piece(stream[1], subkey, stream[2] + 1, payload, text + whole.len);
    append(line_of(step), whole);
}

void any_bytes_step(const struct step *step)
{
    struct message *message = step->how & 1 ? line_of(step) : &datagrams[step->who % DATAGRAMS];
    message->read = 0;
    message->len = length_of(step->length);
    for (size_t i = 0; i < message->len; i++)
        message->bytes[i] = (uint8_t)((step->value >> i % 57) + i * step->place);
}

void append(struct message *line, struct span bytes)
{
    if (line->len + bytes.len > MESSAGE_LEN) {
        line->len -= line->read;
        memmove(line->bytes, line->bytes + line->read, line->len);
        line->read = 0;
    }
    if (line->len + bytes.len > MESSAGE_LEN)
        return;
    memcpy(line->bytes + line->len, bytes.bytes, bytes.len);
    line->len += bytes.len;
}

/* ---- words that a host may hold */

void clock_step(const struct step *step)
{
    host.clock = word_of(step->value);
}

void set_word_step(const struct step *step)
{
    uint64_t value = word_of(step->value);
    unsigned which = step->who % 16;
    if (which < 4)
        host.tables[which & 1][step->place % RELAY_TABLE_WORDS] = value;
    else if (which < 8)
        host.pool[step->place % RELAY_POOL_WORDS] = value;
    else if (which < 12)
        host.sessions[which % SESSIONS][step->place % RELAY_SESSION_WORDS] = value;
    else
        host.streams[which % STREAMS][step->place % RELAY_STREAM_WORDS] = value;
}

/* A full table or pool: all records in use, of the clock's time. */
void fill_step(const struct step *step)
{
    int pool = step->who & 2;
    uint64_t *words = pool ? host.pool : host.tables[step->who & 1];
    size_t record = pool ? 6 : 13, len = pool ? RELAY_POOL_WORDS : RELAY_TABLE_WORDS;
    for (size_t at = 1; at < len; at += record) {
        words[at] = 1;
        words[at + 1] = pool ? host.clock : step->value + at;
        words[at + 3] = host.clock;
    }
}
