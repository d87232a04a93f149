#include "calls.h"

#include "relay.h"

#include <stdlib.h>

#define B(buffer) (1u << (buffer))
#define N(number) (1u << (number))
#define SETTINGS_ONLY (N(0) | N(1))

static const struct {
    const char *name;
    unsigned buffers, numbers;
} TABLE_OF[FUNCTIONS] = {
    [TABLE_NEW] = {"relay_table_new", B(TABLE), SETTINGS_ONLY},
    [POOL_NEW] = {"relay_pool_new", B(POOL), SETTINGS_ONLY},
    [BEGIN_CLIENT] = {"relay_session_begin_client", B(SESSION), SETTINGS_ONLY},
    [BEGIN_SERVER] = {"relay_session_begin_server", B(TABLE) | B(SESSION), SETTINGS_ONLY | N(12)},
    [DATAGRAM_SEAL] = {"relay_datagram_seal",
                       B(KEY) | B(NONCE) | B(SESSION) | B(ADDRESS) | B(PAYLOAD) | B(OUT) |
                           B(ANSWER),
                       SETTINGS_ONLY | N(2) | N(3) | N(11) | N(12)},
    [OPEN_SERVER] = {"relay_datagram_open_server",
                     B(KEY) | B(INPUT) | B(TABLE) | B(OUT) | B(ANSWER), 0x3ff},
    [OPEN_CLIENT] = {"relay_datagram_open_client",
                     B(KEY) | B(INPUT) | B(TABLE) | B(OUT) | B(ANSWER), 0x3ff | N(13)},
    [SEAL_REQUEST] = {"relay_stream_seal_request",
                      B(KEY) | B(SALT) | B(ADDRESS) | B(PAYLOAD) | B(OUT) | B(STREAM) | B(ANSWER),
                      SETTINGS_ONLY | N(2) | N(3) | N(12)},
    [OPEN_REQUEST] = {"relay_stream_open_request",
                      B(KEY) | B(INPUT) | B(POOL) | B(STREAM) | B(ANSWER),
                      SETTINGS_ONLY | N(4) | N(6) | N(7) | N(8) | N(9) | N(10)},
    [OPEN_VARIABLE] = {"relay_stream_open_variable", B(STREAM) | B(INPUT) | B(OUT) | B(ANSWER),
                       SETTINGS_ONLY | N(3) | N(4) | N(5) | N(10)},
    [SEAL_RESPONSE] = {"relay_stream_seal_response",
                       B(KEY) | B(SALT) | B(REQUEST_SALT) | B(PAYLOAD) | B(OUT) | B(STREAM) |
                           B(ANSWER),
                       SETTINGS_ONLY | N(2) | N(3) | N(14)},
    [OPEN_RESPONSE] = {"relay_stream_open_response",
                       B(KEY) | B(REQUEST_SALT) | B(INPUT) | B(STREAM) | B(ANSWER),
                       SETTINGS_ONLY | N(4) | N(6) | N(7) | N(10) | N(13) | N(14)},
    [SEAL_CHUNK] = {"relay_stream_seal_chunk", B(STREAM) | B(PAYLOAD) | B(OUT) | B(ANSWER),
                    SETTINGS_ONLY | N(2) | N(3) | N(4) | N(11) | N(14)},
    [OPEN_CHUNK] = {"relay_stream_open_chunk", B(STREAM) | B(INPUT) | B(OUT) | B(ANSWER),
                    SETTINGS_ONLY | N(3) | N(4) | N(10) | N(11) | N(14)},
    [PLAN_MAKE] = {"relay_plan_make", B(ADDRESS) | B(PLAN) | B(ANSWER),
                   SETTINGS_ONLY | N(3) | N(12)},
    [PLAN_CHECK] = {"relay_plan_check", B(ADDRESS) | B(PLAN) | B(ANSWER), SETTINGS_ONLY | N(12)},
    [SIP004_DATAGRAM_SEAL] = {"relay_sip004_datagram_seal",
                              B(KEY) | B(SALT) | B(PAYLOAD) | B(OUT) | B(ANSWER),
                              SETTINGS_ONLY | N(2) | N(3)},
    [SIP004_DATAGRAM_OPEN] = {"relay_sip004_datagram_open", B(KEY) | B(INPUT) | B(OUT) | B(ANSWER),
                              SETTINGS_ONLY | N(2) | N(3) | N(4)},
    [SIP004_BEGIN_SEAL] = {"relay_sip004_stream_begin_seal", B(KEY) | B(SALT) | B(STREAM),
                           SETTINGS_ONLY},
    [SIP004_BEGIN_OPEN] = {"relay_sip004_stream_begin_open", B(KEY) | B(SALT) | B(STREAM),
                           SETTINGS_ONLY},
    [SIP004_SEAL_CHUNK] = {"relay_sip004_stream_seal_chunk",
                           B(STREAM) | B(PAYLOAD) | B(OUT) | B(ANSWER),
                           SETTINGS_ONLY | N(2) | N(3) | N(4) | N(11)},
    [SIP004_OPEN_CHUNK] = {"relay_sip004_stream_open_chunk",
                           B(STREAM) | B(INPUT) | B(OUT) | B(ANSWER),
                           SETTINGS_ONLY | N(3) | N(4) | N(5) | N(10) | N(11)},
};

const char *name_of(enum function function)
{
    return TABLE_OF[function].name;
}

int of_sip004(enum function function)
{
    return function >= SIP004_DATAGRAM_SEAL;
}

int takes(enum function function, enum buffer buffer)
{
    return (TABLE_OF[function].buffers & B(buffer)) != 0;
}

unsigned numbers_of(enum function function)
{
    return TABLE_OF[function].numbers;
}

size_t size_of(enum buffer buffer, size_t len)
{
    int words = buffer == TABLE || buffer == POOL || buffer == SESSION || buffer == STREAM ||
                buffer == ANSWER || buffer == PLAN;
    return words ? len * sizeof(uint64_t) : len;
}

/* Heads and beginnings write their stream and never read it; out, answer and a plan made are
 * written only; a reply session begins on a table that is only read, and a plan is checked on words
 * that are. */
static enum lend_use use_of(enum function function, enum buffer buffer)
{
    if (function == PLAN_CHECK)
        return buffer == ANSWER ? LEND_WRITE : LEND_READ;
    if (buffer <= INPUT || (function == BEGIN_SERVER && buffer == TABLE))
        return LEND_READ;
    if (buffer == OUT || buffer == ANSWER || buffer == PLAN || function <= BEGIN_SERVER)
        return LEND_WRITE;
    int begun = function == SEAL_CHUNK || function == OPEN_CHUNK || function == OPEN_VARIABLE ||
                function == SIP004_SEAL_CHUNK || function == SIP004_OPEN_CHUNK;
    return buffer == STREAM && !begun ? LEND_WRITE : LEND_CHANGE;
}

/* A buffer as two arguments. */
#define BYTES(buffer) left->lent[buffer].theirs, c->buffers[buffer].len
#define WORDS(buffer) (uint64_t *)(void *)left->lent[buffer].theirs, c->buffers[buffer].len

static uint64_t call_datagrams(const struct call *c, const struct left *left)
{
    switch (c->function) {
    case TABLE_NEW:
        return relay_table_new(c->retention, WORDS(TABLE));
    case BEGIN_CLIENT:
        return relay_session_begin_client(c->id, WORDS(SESSION));
    case BEGIN_SERVER:
        return relay_session_begin_server(c->id, c->client, c->clock, WORDS(TABLE), WORDS(SESSION));
    case DATAGRAM_SEAL:
        return relay_datagram_seal(c->method, BYTES(KEY), BYTES(NONCE), WORDS(SESSION), c->clock,
                                   BYTES(ADDRESS), c->padding, BYTES(PAYLOAD), BYTES(OUT),
                                   WORDS(ANSWER));
    case OPEN_SERVER:
        return relay_datagram_open_server(c->method, BYTES(KEY), c->clock, c->first, c->second,
                                          c->port, BYTES(INPUT), WORDS(TABLE), BYTES(OUT),
                                          WORDS(ANSWER));
    case OPEN_CLIENT:
        return relay_datagram_open_client(c->method, BYTES(KEY), c->clock, c->client, c->first,
                                          c->second, c->port, BYTES(INPUT), WORDS(TABLE),
                                          BYTES(OUT), WORDS(ANSWER));
    default:
        abort();
    }
}

static uint64_t call_streams(const struct call *c, const struct left *left)
{
    switch (c->function) {
    case POOL_NEW:
        return relay_pool_new(c->method, WORDS(POOL));
    case SEAL_REQUEST:
        return relay_stream_seal_request(c->method, BYTES(KEY), BYTES(SALT), c->clock,
                                         BYTES(ADDRESS), c->padding, BYTES(PAYLOAD), BYTES(OUT),
                                         WORDS(STREAM), WORDS(ANSWER));
    case OPEN_REQUEST:
        return relay_stream_open_request(c->method, BYTES(KEY), c->clock, BYTES(INPUT), WORDS(POOL),
                                         WORDS(STREAM), WORDS(ANSWER));
    case OPEN_VARIABLE:
        return relay_stream_open_variable(WORDS(STREAM), BYTES(INPUT), BYTES(OUT), WORDS(ANSWER));
    case SEAL_RESPONSE:
        return relay_stream_seal_response(c->method, BYTES(KEY), BYTES(SALT), BYTES(REQUEST_SALT),
                                          c->clock, BYTES(PAYLOAD), BYTES(OUT), WORDS(STREAM),
                                          WORDS(ANSWER));
    case OPEN_RESPONSE:
        return relay_stream_open_response(c->method, BYTES(KEY), c->clock, BYTES(REQUEST_SALT),
                                          BYTES(INPUT), WORDS(STREAM), WORDS(ANSWER));
    case SEAL_CHUNK:
        return relay_stream_seal_chunk(WORDS(STREAM), BYTES(PAYLOAD), BYTES(OUT), WORDS(ANSWER));
    case OPEN_CHUNK:
        return relay_stream_open_chunk(WORDS(STREAM), BYTES(INPUT), BYTES(OUT), WORDS(ANSWER));
    default:
        abort();
    }
}

static uint64_t call_plans(const struct call *c, const struct left *left)
{
    if (c->function == PLAN_MAKE)
        return relay_plan_make(c->method, BYTES(ADDRESS), c->limit, c->length, WORDS(PLAN),
                               WORDS(ANSWER));
    return relay_plan_check(c->method, BYTES(ADDRESS), c->limit, c->length, WORDS(PLAN),
                            WORDS(ANSWER));
}

static uint64_t call_sip004(const struct call *c, const struct left *left)
{
    switch (c->function) {
    case SIP004_DATAGRAM_SEAL:
        return relay_sip004_datagram_seal(c->method, BYTES(KEY), BYTES(SALT), BYTES(PAYLOAD),
                                          BYTES(OUT), WORDS(ANSWER));
    case SIP004_DATAGRAM_OPEN:
        return relay_sip004_datagram_open(c->method, BYTES(KEY), BYTES(INPUT), BYTES(OUT),
                                          WORDS(ANSWER));
    case SIP004_BEGIN_SEAL:
        return relay_sip004_stream_begin_seal(c->method, BYTES(KEY), BYTES(SALT), WORDS(STREAM));
    case SIP004_BEGIN_OPEN:
        return relay_sip004_stream_begin_open(c->method, BYTES(KEY), BYTES(SALT), WORDS(STREAM));
    case SIP004_SEAL_CHUNK:
        return relay_sip004_stream_seal_chunk(WORDS(STREAM), BYTES(PAYLOAD), BYTES(OUT),
                                              WORDS(ANSWER));
    case SIP004_OPEN_CHUNK:
        return relay_sip004_stream_open_chunk(WORDS(STREAM), BYTES(INPUT), BYTES(OUT),
                                              WORDS(ANSWER));
    default:
        abort();
    }
}

struct left make_call(const struct call *call, size_t input_there)
{
    struct left left = {0};
    for (enum buffer b = 0; b < BUFFERS; b++) {
        if (!takes(call->function, b))
            continue;
        size_t len = size_of(b, call->buffers[b].len);
        int at_start = call->edges >> b & 1;
        if (b == INPUT && input_there < len) {
            len = input_there;
            at_start = 0;
        }
        left.lent[b] = lend(b, use_of(call->function, b), call->buffers[b].data, len, at_start);
    }
    int about_streams = call->function == POOL_NEW || call->function >= SEAL_REQUEST;
    if (of_sip004(call->function))
        left.number = call_sip004(call, &left);
    else if (call->function >= PLAN_MAKE)
        left.number = call_plans(call, &left);
    else
        left.number = about_streams ? call_streams(call, &left) : call_datagrams(call, &left);
    return left;
}
