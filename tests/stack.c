/*
 * How much stack each function of librelay.a takes. It is called on a stack of its own that was
 * painted before; the deepest byte that is no longer paint tells how far down the call went,
 * arguments and return address included. All methods are tried, with texts on either side of
 * every length at which the library works differently, accepted and refused.
 *
 *     cc -O2 -Iinclude tests/stack.c target/staticlib/librelay.a -o stack && ./stack
 *
 * A measure, not a proof: the path of another input could be deeper. So the limit that
 * include/relay.h names, and that is held here, is half as much again as what was seen, or nearly.
 */
#define _XOPEN_SOURCE 700
#include "relay.h"

#include <stdio.h>
#include <stdlib.h>
#include <string.h>
#include <ucontext.h>

#define LIMIT 24576
#define STACK_BYTES (4 * LIMIT)
#define LONGEST 65507
#define CLOCK 1700000000
#define PLAN_WORDS 100

static const uint8_t KEY[32] = "thirty-two bytes to serve as key";
static const uint8_t SALT[32] = "thirty-two bytes to do for salt!";
static const uint8_t NONCE[RELAY_NONCE_BYTES] = "and 24 bytes for a nonce";
static const uint8_t ADDRESS[] = {1, 192, 0, 2, 1, 0, 53};

/* What the calls are lent. */
static uint64_t method, table[RELAY_TABLE_WORDS], pool[RELAY_POOL_WORDS];
static uint64_t session[RELAY_SESSION_WORDS], sender[RELAY_STREAM_WORDS];
static uint64_t receiver[RELAY_STREAM_WORDS], answer[RELAY_ANSWER_WORDS];
static uint64_t plan[PLAN_WORDS];
static uint8_t payload[LONGEST], sealed[LONGEST + 200], out[LONGEST + 200];
static size_t payload_len, sealed_len, key_len, used;

/* What the last call returned. */
static uint64_t number;

/* ---- the functions, each on what those before it left */

static void table_new(void)
{
    number = relay_table_new(60, table, RELAY_TABLE_WORDS);
}

static void session_begin_client(void)
{
    number = relay_session_begin_client(1, session, RELAY_SESSION_WORDS);
}

static void session_begin_server(void)
{
    number = relay_session_begin_server(2, 1, CLOCK, table, RELAY_TABLE_WORDS, session,
                                        RELAY_SESSION_WORDS);
}

static void datagram_seal(void)
{
    number = relay_datagram_seal(method, KEY, key_len, NONCE, sizeof NONCE, session,
                                 RELAY_SESSION_WORDS, CLOCK, ADDRESS, sizeof ADDRESS, 0, payload,
                                 payload_len, sealed, sizeof sealed, answer, RELAY_ANSWER_WORDS);
}

static void datagram_open_server(void)
{
    number =
        relay_datagram_open_server(method, KEY, key_len, CLOCK, 1, 2, 3, sealed, sealed_len, table,
                                   RELAY_TABLE_WORDS, out, sizeof out, answer, RELAY_ANSWER_WORDS);
}

static void datagram_open_client(void)
{
    number = relay_datagram_open_client(method, KEY, key_len, CLOCK, 1, 1, 2, 3, sealed, sealed_len,
                                        table, RELAY_TABLE_WORDS, out, sizeof out, answer,
                                        RELAY_ANSWER_WORDS);
}

static void pool_new(void)
{
    number = relay_pool_new(method, pool, RELAY_POOL_WORDS);
}

static void stream_seal_request(void)
{
    number = relay_stream_seal_request(
        method, KEY, key_len, SALT, key_len, CLOCK, ADDRESS, sizeof ADDRESS, 1, payload,
        payload_len, sealed, sizeof sealed, sender, RELAY_STREAM_WORDS, answer, RELAY_ANSWER_WORDS);
}

static void stream_open_request(void)
{
    number = relay_stream_open_request(method, KEY, key_len, CLOCK, sealed, sealed_len, pool,
                                       RELAY_POOL_WORDS, receiver, RELAY_STREAM_WORDS, answer,
                                       RELAY_ANSWER_WORDS);
}

static void stream_open_variable(void)
{
    number = relay_stream_open_variable(receiver, RELAY_STREAM_WORDS, sealed + used,
                                        sealed_len - used, out, sizeof out, answer,
                                        RELAY_ANSWER_WORDS);
}

static void stream_seal_response(void)
{
    number = relay_stream_seal_response(method, KEY, key_len, SALT, key_len, SALT, key_len, CLOCK,
                                        payload, payload_len, sealed, sizeof sealed, sender,
                                        RELAY_STREAM_WORDS, answer, RELAY_ANSWER_WORDS);
}

static void stream_open_response(void)
{
    number =
        relay_stream_open_response(method, KEY, key_len, CLOCK, SALT, key_len, sealed, sealed_len,
                                   receiver, RELAY_STREAM_WORDS, answer, RELAY_ANSWER_WORDS);
}

static void stream_seal_chunk(void)
{
    number = relay_stream_seal_chunk(sender, RELAY_STREAM_WORDS, payload, payload_len, sealed,
                                     sizeof sealed, answer, RELAY_ANSWER_WORDS);
}

static void stream_open_chunk(void)
{
    number = relay_stream_open_chunk(receiver, RELAY_STREAM_WORDS, sealed + used, sealed_len - used,
                                     out, sizeof out, answer, RELAY_ANSWER_WORDS);
}

static void sip004_datagram_seal(void)
{
    number = relay_sip004_datagram_seal(method, KEY, key_len, SALT, key_len, payload, payload_len,
                                        sealed, sizeof sealed, answer, RELAY_ANSWER_WORDS);
}

static void sip004_datagram_open(void)
{
    number = relay_sip004_datagram_open(method, KEY, key_len, sealed, sealed_len, out, sizeof out,
                                        answer, RELAY_ANSWER_WORDS);
}

static void sip004_stream_begin_seal(void)
{
    number = relay_sip004_stream_begin_seal(method, KEY, key_len, SALT, key_len, sender,
                                            RELAY_STREAM_WORDS);
}

static void sip004_stream_begin_open(void)
{
    number = relay_sip004_stream_begin_open(method, KEY, key_len, SALT, key_len, receiver,
                                            RELAY_STREAM_WORDS);
}

static void sip004_stream_seal_chunk(void)
{
    number = relay_sip004_stream_seal_chunk(sender, RELAY_STREAM_WORDS, payload, payload_len,
                                            sealed, sizeof sealed, answer, RELAY_ANSWER_WORDS);
}

static void sip004_stream_open_chunk(void)
{
    number = relay_sip004_stream_open_chunk(receiver, RELAY_STREAM_WORDS, sealed + used,
                                            sealed_len - used, out, sizeof out, answer,
                                            RELAY_ANSWER_WORDS);
}

static void plan_make(void)
{
    number = relay_plan_make(method, ADDRESS, sizeof ADDRESS, 1500, payload_len, plan, PLAN_WORDS,
                             answer, RELAY_ANSWER_WORDS);
}

static void plan_check(void)
{
    number = relay_plan_check(method, ADDRESS, sizeof ADDRESS, 1500, payload_len, plan,
                              2 * (size_t)answer[RELAY_AT_DATAGRAMS], answer, RELAY_ANSWER_WORDS);
}

/* Recordings of one entry each, whose bodies have lengths of five digits. */
static uint8_t first[19 + 12345], second[19 + 12346];

static void record(uint8_t *recording, size_t body_len)
{
    const uint8_t contents[] = {0, 0, 0, 1, 0, 0, 0, 19};
    memcpy(recording, contents, sizeof contents);
    recording[8] = (uint8_t)(body_len >> 8);
    recording[9] = (uint8_t)body_len;
}

static void recording_compare(void)
{
    number = relay_recording_compare(first, sizeof first, second, sizeof second, out, sizeof out,
                                     answer, RELAY_ANSWER_WORDS);
}

/* Of two entries, the second one's body past the file. */
static uint8_t scrambled[34 + 10];
static uint64_t changes[4 * 7];

static void recording_mend(void)
{
    memset(scrambled, 0xff, sizeof scrambled);
    number = relay_recording_mend(scrambled, sizeof scrambled, changes, 4 * 7, answer,
                                  RELAY_ANSWER_WORDS);
}

/* A settings file of a target and of a setting that is not known; the bytes before its hash. */
static uint8_t bodies[RELAY_MAX_SETTINGS], file[RELAY_MAX_SETTINGS];
static size_t hashed_len;

enum { CONTENTS = 4 + 2 * 6, HASH = 32 };

static void settings_write(void)
{
    const size_t bodies_len = hashed_len - CONTENTS;
    const uint64_t settings[] = {RELAY_SETTING_TARGET, sizeof ADDRESS, RELAY_SETTING_SKIPPED,
                                 bodies_len - sizeof ADDRESS};
    memcpy(bodies, ADDRESS, sizeof ADDRESS);
    number = relay_settings_write(1, settings, 4, bodies, bodies_len, file, sizeof file, answer,
                                  RELAY_ANSWER_WORDS);
}

static void settings_read(void)
{
    number = relay_settings_read(file, hashed_len + HASH, answer, RELAY_ANSWER_WORDS);
}

/* With the most stack that each was seen to take. */
static struct function {
    const char *name;
    void (*call)(void);
    size_t deepest;
} functions[] = {
    {"relay_table_new", table_new, 0},
    {"relay_session_begin_client", session_begin_client, 0},
    {"relay_session_begin_server", session_begin_server, 0},
    {"relay_datagram_seal", datagram_seal, 0},
    {"relay_datagram_open_server", datagram_open_server, 0},
    {"relay_datagram_open_client", datagram_open_client, 0},
    {"relay_pool_new", pool_new, 0},
    {"relay_stream_seal_request", stream_seal_request, 0},
    {"relay_stream_open_request", stream_open_request, 0},
    {"relay_stream_open_variable", stream_open_variable, 0},
    {"relay_stream_seal_response", stream_seal_response, 0},
    {"relay_stream_open_response", stream_open_response, 0},
    {"relay_stream_seal_chunk", stream_seal_chunk, 0},
    {"relay_stream_open_chunk", stream_open_chunk, 0},
    {"relay_sip004_datagram_seal", sip004_datagram_seal, 0},
    {"relay_sip004_datagram_open", sip004_datagram_open, 0},
    {"relay_sip004_stream_begin_seal", sip004_stream_begin_seal, 0},
    {"relay_sip004_stream_begin_open", sip004_stream_begin_open, 0},
    {"relay_sip004_stream_seal_chunk", sip004_stream_seal_chunk, 0},
    {"relay_sip004_stream_open_chunk", sip004_stream_open_chunk, 0},
    {"relay_plan_make", plan_make, 0},
    {"relay_plan_check", plan_check, 0},
    {"relay_recording_compare", recording_compare, 0},
    {"relay_recording_mend", recording_mend, 0},
    {"relay_settings_read", settings_read, 0},
    {"relay_settings_write", settings_write, 0},
};

enum { FUNCTIONS = sizeof functions / sizeof functions[0] };

/* ---- measuring */

static void fail(const char *name, const char *what)
{
    fprintf(stderr, "stack test failed: %s: %s\n", name, what);
    exit(1);
}

/* How far down a painted stack the call has written. */
static size_t depth_of(void (*call)(void))
{
    static uint8_t stack[STACK_BYTES];
    static ucontext_t here, there;
    memset(stack, 0xa5, sizeof stack);
    getcontext(&there);
    there.uc_stack.ss_sp = stack;
    there.uc_stack.ss_size = sizeof stack;
    there.uc_link = &here;
    makecontext(&there, call, 0);
    swapcontext(&here, &there);
    size_t unchanged = 0;
    while (unchanged < sizeof stack && stack[unchanged] == 0xa5)
        unchanged++;
    return sizeof stack - unchanged;
}

static void measure(void (*call)(void), uint64_t expected)
{
    struct function *function = functions;
    while (function->call != call)
        function++;
    size_t depth = depth_of(call);
    if (number != expected)
        fail(function->name, relay_refusal_name(number));
    if (depth > function->deepest)
        function->deepest = depth;
}

/* Takes a sealed message over, to be opened. */
static void seal(void (*call)(void))
{
    measure(call, RELAY_OK);
    sealed_len = (size_t)answer[RELAY_AT_SEALED_LENGTH];
    used = 0;
}

/* Forged, whole, and once more. */
static void open_datagram(void (*call)(void))
{
    measure(table_new, RELAY_OK);
    seal(datagram_seal);
    sealed[sealed_len - 1] ^= 1;
    measure(call, RELAY_REFUSED_NOT_AUTHENTIC);
    sealed[sealed_len - 1] ^= 1;
    measure(call, RELAY_OK);
    measure(call, RELAY_REFUSED_REPLAY);
}

static void open_piece(void (*call)(void), uint64_t expected)
{
    measure(call, expected);
    used += (size_t)answer[RELAY_AT_USED];
}

static void open_chunk(uint64_t expected)
{
    open_piece(stream_open_chunk, expected);
}

static void try_datagrams(void)
{
    measure(session_begin_client, RELAY_OK);
    open_datagram(datagram_open_server);
    measure(session_begin_server, RELAY_OK);
    open_datagram(datagram_open_client);
}

static void try_streams(void)
{
    measure(pool_new, RELAY_OK);
    seal(stream_seal_request);
    measure(stream_open_request, RELAY_OK);
    measure(stream_open_request, RELAY_REFUSED_REPLAY);
    used = (size_t)answer[RELAY_AT_USED];
    measure(stream_open_variable, RELAY_OK);
    measure(stream_open_variable, RELAY_REFUSED_SETTINGS);
    seal(stream_seal_chunk);
    open_chunk(RELAY_OK);
    open_chunk(RELAY_OK);

    seal(stream_seal_response);
    measure(stream_open_response, RELAY_OK);
    used = (size_t)answer[RELAY_AT_USED];
    open_chunk(RELAY_OK);
    open_chunk(RELAY_REFUSED_MORE);
}

static void try_sip004_datagrams(void)
{
    seal(sip004_datagram_seal);
    sealed[sealed_len - 1] ^= 1;
    measure(sip004_datagram_open, RELAY_REFUSED_NOT_AUTHENTIC);
    sealed[sealed_len - 1] ^= 1;
    measure(sip004_datagram_open, RELAY_OK);
}

static void try_sip004_streams(void)
{
    measure(sip004_stream_begin_seal, RELAY_OK);
    measure(sip004_stream_begin_open, RELAY_OK);
    seal(sip004_stream_seal_chunk);
    open_piece(sip004_stream_open_chunk, RELAY_OK);
    open_piece(sip004_stream_open_chunk, RELAY_OK);
    measure(sip004_stream_open_chunk, RELAY_REFUSED_MORE);
    used = 0;
    measure(sip004_stream_open_chunk, RELAY_REFUSED_NOT_AUTHENTIC);
}

static void try_plans_and_recordings(void)
{
    measure(plan_make, RELAY_OK);
    measure(plan_check, RELAY_OK);

    record(first, 12345);
    record(second, 12346);
    measure(recording_compare, RELAY_OK);
    second[3] = 2;
    measure(recording_compare, RELAY_REFUSED_MALFORMED);
    second[3] = 1;
    measure(recording_mend, RELAY_OK);
}

/* Around blocks and chunks of the hash, up to the longest file. */
static void try_settings(void)
{
    static const size_t lens[] = {23,   64,   65,   1024,  1025,
                                  2048, 2049, 5121, 32769, RELAY_MAX_SETTINGS - HASH};
    for (size_t i = 0; i < sizeof lens / sizeof lens[0]; i++) {
        hashed_len = lens[i];
        measure(settings_write, RELAY_OK);
        measure(settings_read, RELAY_OK);
        file[0] ^= 1;
        measure(settings_read, RELAY_REFUSED_NOT_AUTHENTIC);
    }
}

/* A line for each function; the last one names the deepest. */
static void report(void)
{
    const struct function *deepest = functions;
    for (int i = 0; i < FUNCTIONS; i++) {
        printf("%-30s %6zu bytes\n", functions[i].name, functions[i].deepest);
        if (functions[i].deepest > deepest->deepest)
            deepest = &functions[i];
    }
    if (deepest->deepest > LIMIT)
        fail(deepest->name, "more stack than include/relay.h names");
    printf("%zu bytes at most (%s), of %d that include/relay.h names\n", deepest->deepest,
           deepest->name, LIMIT);
}

/* Around blocks of 16 and 64 bytes, the texts of 336 and 448 bytes from which on AES and its hash work
 * otherwise, batches of 512, and the longest datagram that a server can seal by every method. */
static const size_t lengths[] = {0,   1,   15,  16,  17,  63,  64,   65,   200,
                                 280, 336, 400, 448, 512, 800, 1400, 4200, 65425};

enum { LENGTHS = sizeof lengths / sizeof lengths[0] };

static void try_sip022(void)
{
    for (size_t i = 0; i < LENGTHS; i++) {
        payload_len = lengths[i];
        try_datagrams();
        if (payload_len > 0)
            try_streams();
        try_plans_and_recordings();
    }
}

static void try_sip004(void)
{
    for (size_t i = 0; i < LENGTHS; i++) {
        payload_len = lengths[i];
        try_sip004_datagrams();
        if (payload_len > RELAY_SIP004_MAX_CHUNK)
            payload_len = RELAY_SIP004_MAX_CHUNK;
        try_sip004_streams();
    }
}

int main(void)
{
    for (method = RELAY_AES_128_GCM; method <= RELAY_CHACHA8_POLY1305; method++) {
        key_len = method == RELAY_AES_128_GCM ? 16 : 32;
        try_sip022();
    }
    for (method = RELAY_SIP004_AES_128_GCM; method <= RELAY_SIP004_AES_256_GCM; method++) {
        key_len = 16 + 8 * (size_t)(method - RELAY_SIP004_AES_128_GCM);
        try_sip004();
    }
    try_settings();
    report();
    return 0;
}
