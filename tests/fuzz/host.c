#include "host.h"

#include "cipher.h"
#include "promises.h"

#include <limits.h>
#include <string.h>

struct host host;
struct message datagrams[DATAGRAMS], lines[LINES];
uint8_t key[32 + SPARE], salts[SALTS][32 + SPARE];
uint8_t filled[LEND_SIZE + 256];

static uint8_t damaged[LEND_SIZE]; /* the input of a call that is spoiled */

enum { OLDER_METHODS = 14 }; /* the low bits of a fault of the method, near the 2017 edition's */

void host_begin(uint64_t method, uint64_t sip004_method, uint64_t clock)
{
    if (filled[0] == 0) {
        for (size_t i = 0; i < sizeof filled; i++)
            filled[i] = (uint8_t)(i * 7 + i / 256 + 1);
        for (size_t i = 0; i < sizeof key; i++)
            key[i] = (uint8_t)(i * 11 + 3);
        for (size_t i = 0; i < SALTS; i++)
            for (size_t j = 0; j < sizeof salts[i]; j++)
                salts[i][j] = (uint8_t)(i * 64 + j);
    }
    memset(&host, 0, sizeof host);
    host.method = method;
    host.sip004_method = sip004_method;
    host.clock = clock;
    for (unsigned i = 0; i < DATAGRAMS; i++)
        datagrams[i].len = 0;
    for (unsigned i = 0; i < LINES; i++)
        lines[i].len = lines[i].read = 0;
}

/* ---- what the fields of a step mean */

uint64_t word_of(uint64_t value)
{
    uint64_t low = value & 0xffff;
    switch (value >> 56) {
    case 0xf0:
        return host.clock + low;
    case 0xf1:
        return host.clock - low;
    case 0xf2:
        return host.sessions[low % SESSIONS][1];
    case 0xf3:
        return UINT64_MAX - low;
    default:
        return value;
    }
}

/* Short ones mostly; the highest are around the limits of a message, those below them around the
 * limit of a chunk of the 2017 edition. Few of them, since they take the time of a hundred
 * others. */
size_t length_of(uint16_t length)
{
    if (length < 0xfd00 || host.long_messages == LONG_MESSAGES)
        return length & 0x3ff;
    host.long_messages++;
    return length < 0xfe00 ? RELAY_SIP004_MAX_CHUNK + (length & 0xffu) - 0x80 : (size_t)length + 65;
}

size_t padding_of(uint16_t place)
{
    if (place < 0xf000)
        return place & 0x3ff;
    return place & 1 ? SIZE_MAX - (place & 0xff) : (size_t)place + 1024;
}

/* The address stands before a zero, so that one byte more can be lent. */
struct span address_of(unsigned which)
{
    static uint8_t long_name[2 + 255 + 2] = {3, 255}, copy[sizeof long_name + 1];
    static const uint8_t v4[] = {1, 192, 0, 2, 1, 0, 80}, name[] = {3, 1, 'a', 1, 187},
                         v6[] = {4, 32, 1, 13, 184, 0, 0, 0, 0, 0, 0, 0, 0, 0, 0, 0, 1, 0, 80},
                         no_name[] = {3, 0, 0, 80}, no_kind[] = {2, 192, 0, 2, 1, 0, 80};
    const struct span all[8] = {{v4, sizeof v4},           {v6, sizeof v6},
                                {name, sizeof name},       {long_name, sizeof long_name},
                                {v4, sizeof v4},           {name, sizeof name},
                                {no_name, sizeof no_name}, {no_kind, sizeof no_kind}};
    struct span address = all[which % 8];
    memset(copy, 0, sizeof copy);
    memcpy(copy, address.bytes, address.len);
    address.bytes = copy;
    return address;
}

const uint8_t *salt_of(unsigned which, uint64_t value)
{
    static uint8_t salt[32 + SPARE];
    memcpy(salt, salts[which % SALTS], sizeof salt);
    put_number(salt, 8, get_number(salt, 8) ^ value);
    return salt;
}

const uint8_t *nonce_of(const struct step *step)
{
    static uint8_t nonce[RELAY_NONCE_BYTES + SPARE];
    memset(nonce, step->who, sizeof nonce);
    put_number(nonce, 8, step->value);
    put_number(nonce + 16, 2, step->place); /* of the second stage */
    return nonce;
}

struct message *line_of(const struct step *step)
{
    return &lines[step->who / STREAMS % LINES];
}

/* ---- calls */

void lend_to(struct call *call, enum buffer b, const void *data, size_t len)
{
    call->buffers[b].data = data;
    call->buffers[b].len = len;
}

struct call new_call(const struct step *step)
{
    struct call call = {.function = step->code % STEP_CODES};
    int older = of_sip004(call.function);
    call.method = older ? host.sip004_method : host.method;
    call.clock = host.clock;
    unsigned side = step->how >> 3; /* all buffers at their ends, at their starts, or mixed */
    call.edges = side == 31 ? UINT_MAX : side * 0x9e3779b1u >> 16;
    lend_to(&call, KEY, key, older ? sip004_key_length(call.method) : key_length(call.method));
    lend_to(&call, POOL, host.pool, RELAY_POOL_WORDS);
    lend_to(&call, ANSWER, filled, RELAY_ANSWER_WORDS);
    lend_to(&call, OUT, filled + (step->place & 0xff), 0);
    lend_to(&call, STREAM, host.streams[step->who % STREAMS], RELAY_STREAM_WORDS);
    lend_to(&call, SESSION, host.sessions[step->who % SESSIONS], RELAY_SESSION_WORDS);
    return call;
}

void give_room(struct call *call, const struct step *step, size_t due)
{
    size_t room = due > MESSAGE_LEN ? MESSAGE_LEN : due;
    switch (step->how & 7) {
    case 4:
        room += 64;
        break;
    case 5:
        room += 1;
        break;
    case 6:
        room -= room > 0;
        break;
    case 7:
        room = 0;
        break;
    }
    call->buffers[OUT].len = room;
}

/* The low 4 bits of a fault name a buffer, or the method, near those of either edition; three more
 * say what is wrong: the length, the method, or a bit of an input. */
void spoil(struct call *call, const struct step *step)
{
    static const uint64_t methods[2][8] = {
        {0, 6, 259, (1ull << 32) + 1, UINT64_MAX, 2, 3, 4},
        {10, 14, 256 + 11, (1ull << 32) + 12, 5, 11, 12, 13},
    };
    unsigned which = step->fault & 15, way = step->fault >> 4 & 7;
    if (step->fault < 128)
        return;
    if (which >= BUFFERS) {
        call->method = methods[which == OLDER_METHODS][way];
        return;
    }
    struct lending *lending = &call->buffers[which];
    if (lending->data == NULL)
        return;
    if (which == INPUT) {
        memcpy(damaged, lending->data, lending->len);
        damaged[lending->len] = 0;
        lending->data = damaged;
    }
    if (which == INPUT && way >= 4 && lending->len > 0) {
        damaged[step->place % lending->len] ^= (uint8_t)(1u << way);
        return;
    }
    const size_t lens[4] = {0, lending->len - (lending->len > 0), lending->len + 1,
                            step->length % (lending->len + 1)};
    lending->len = lens[way % 4];
}

struct left run(const struct call *call)
{
    struct left left = checked_call(call);
    for (enum buffer b = TABLE; b <= STREAM; b++)
        if (takes(call->function, b) && call->buffers[b].len > 0)
            memcpy((void *)(uintptr_t)call->buffers[b].data, left.lent[b].ours, left.lent[b].len);
    return left;
}

struct left must_run(const struct call *call, uint64_t number, const char *promise)
{
    struct left left = run(call);
    if (left.number != number)
        broken(promise);
    return left;
}

uint64_t answer_of(const struct left *left, unsigned place)
{
    uint64_t word;
    memcpy(&word, left->lent[ANSWER].ours + place * sizeof word, sizeof word);
    return word;
}
