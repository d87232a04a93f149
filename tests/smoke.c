/*
 * A C program over librelay.a: seals, opens and is refused.
 *
 *     cc -Iinclude tests/smoke.c target/staticlib/librelay.a -o smoke && ./smoke
 *
 * All memory is the caller's. What stays between calls is arrays of words:
 * tables, pools, sessions, streams.
 */
#include "relay.h"

#include <stdio.h>
#include <stdlib.h>
#include <string.h>

/* Fixed here, so that every run is the same. A real host takes keys from its
 * settings, salts, nonces and session IDs from the system's random numbers, and
 * the clock from time(). A method has of keys and salts what it needs. */
static const uint8_t KEY[32] = "thirty-two bytes to serve as key";
static const uint8_t SALT[32] = "a request's salt of thirty-two..";
static const uint8_t OTHER_SALT[32] = "a response's one of thirty-two..";
static const uint64_t CLOCK = 1700000000;
static const uint64_t CLIENT_ID = 0x0102030405060708;
static const uint64_t SERVER_ID = 0x1112131415161718;

/* SOCKS5: kind 3, a name with its length, the port. */
static const uint8_t ADDRESS[] = "\003\013example.com\001\273";
#define ADDRESS_LEN (sizeof ADDRESS - 1)

/* The methods, with the length of their keys and salts, how much longer a datagram
 * is than its plaintext, and how many bytes of IDs that has in front. */
static const struct method {
    uint64_t number;
    size_t key_len, overhead, inner;
} METHODS[] = {{RELAY_AES_128_GCM, 16, 32, 0},
               {RELAY_AES_256_GCM, 32, 32, 0},
               {RELAY_CHACHA20_POLY1305, 32, 40, 16},
               {RELAY_CHACHA12_POLY1305, 32, 40, 16},
               {RELAY_CHACHA8_POLY1305, 32, 40, 16}};

enum { METHOD_COUNT = sizeof METHODS / sizeof METHODS[0], FIRST_CHACHA = 2 };

static const struct method *method; /* the one that is tried */

static void check(int holds, const char *what)
{
    if (!holds) {
        fprintf(stderr, "smoke test failed: %s\n", what);
        exit(1);
    }
}

static void check_number(uint64_t number, uint64_t expected, const char *what)
{
    if (number != expected) {
        fprintf(stderr, "smoke test failed: %s: %s and not %s\n", what, relay_refusal_name(number),
                relay_refusal_name(expected));
        exit(1);
    }
}

static const uint8_t *text(const char *string)
{
    return (const uint8_t *)string;
}

static int all(const uint8_t *bytes, size_t len, uint8_t value)
{
    for (size_t i = 0; i < len; i++)
        if (bytes[i] != value)
            return 0;
    return 1;
}

static int same(const uint8_t *bytes, const uint8_t *others, size_t len)
{
    return memcmp(bytes, others, len) == 0;
}

/* ---- datagrams */

/* One that was not used before; methods 1 and 2 do not look at it. */
static const uint8_t *new_nonce(void)
{
    static uint8_t nonce[RELAY_NONCE_BYTES];
    nonce[0]++;
    return nonce;
}

/* Seals "ping" or "pong" with a begun session. A refusal would leave the
 * session as it was; here its next packet ID goes one up. */
static size_t seal(uint64_t *session, const char *payload, uint8_t *out, size_t room)
{
    uint64_t answer[RELAY_ANSWER_WORDS];
    uint64_t packet = session[RELAY_SESSION_NEXT];
    check_number(relay_datagram_seal(method->number, KEY, method->key_len, new_nonce(),
                                     RELAY_NONCE_BYTES, session, RELAY_SESSION_WORDS, CLOCK,
                                     ADDRESS, ADDRESS_LEN, 3, text(payload), strlen(payload), out,
                                     room, answer, RELAY_ANSWER_WORDS),
                 RELAY_OK, "sealing a datagram");
    check(session[RELAY_SESSION_NEXT] == packet + 1, "the next packet ID");
    return (size_t)answer[RELAY_AT_SEALED_LENGTH];
}

/* Opens for the server; the caller's address is the host's own numbering. */
static uint64_t open_server(uint64_t clock, const uint8_t *datagram, size_t len, uint64_t *table,
                            uint8_t *out, size_t room, uint64_t *answer)
{
    return relay_datagram_open_server(method->number, KEY, method->key_len, clock, 10, 20, 30,
                                      datagram, len, table, RELAY_TABLE_WORDS, out, room, answer,
                                      RELAY_ANSWER_WORDS);
}

/* The payload is the end of the plaintext, behind header and padding. */
static void check_header(const uint64_t *answer, const uint8_t *out, size_t due, uint64_t id,
                         const char *payload)
{
    check(answer[RELAY_AT_KIND] == 3 && answer[RELAY_AT_SECOND] == 11, "a name of 11 bytes");
    check(memcmp(out + answer[RELAY_AT_FIRST], "example.com", 11) == 0, "the name in its place");
    check(answer[RELAY_AT_PORT] == 443 && answer[RELAY_AT_PADDING] == 3, "port and padding");
    check(answer[RELAY_AT_SESSION_ID] == id && answer[RELAY_AT_PACKET_ID] == 0,
          "session and packet");
    check(answer[RELAY_AT_TIMESTAMP] == CLOCK, "the time");
    size_t place = (size_t)answer[RELAY_AT_PAYLOAD];
    check(due - place == strlen(payload) && memcmp(out + place, payload, due - place) == 0,
          "the payload");
}

/* What is refused before 8 changes no table, and shows nothing of a plaintext. */
static void refused_datagrams(uint8_t *datagram, size_t len, uint64_t *table)
{
    uint64_t before[RELAY_TABLE_WORDS];
    uint64_t answer[RELAY_ANSWER_WORDS];
    uint8_t out[200];
    size_t due = len - method->overhead;
    memset(out, 0xa5, sizeof out);
    memcpy(before, table, sizeof before);

    /* A forgery: the tag is wrong, so nothing is written at all. */
    datagram[len - 1] ^= 1;
    check_number(open_server(CLOCK, datagram, len, table, out, sizeof out, answer),
                 RELAY_REFUSED_NOT_AUTHENTIC, "a forged datagram");
    check(all(out, sizeof out, 0xa5), "a forgery leaves the buffer as it was");
    datagram[len - 1] ^= 1;

    /* One byte of room too few. */
    check_number(open_server(CLOCK, datagram, len, table, out, due - 1, answer), RELAY_REFUSED_ROOM,
                 "too little room");
    check(all(out, sizeof out, 0xa5), "and so does too little room");

    /* Too late: the tag is good, and the plaintext's bytes are set to zero. */
    check_number(open_server(CLOCK + 31, datagram, len, table, out, sizeof out, answer),
                 RELAY_REFUSED_TIME, "a datagram that is 31 seconds old");
    check(all(out, due, 0) && all(out + due, sizeof out - due, 0xa5), "exactly its bytes are zero");
    check(memcmp(before, table, sizeof before) == 0, "refusals leave the table as it was");
}

static void client_to_server(void)
{
    uint64_t session[RELAY_SESSION_WORDS];
    uint64_t table[RELAY_TABLE_WORDS];
    uint64_t before[RELAY_TABLE_WORDS];
    uint64_t answer[RELAY_ANSWER_WORDS];
    uint8_t datagram[200];
    uint8_t out[200];

    check_number(relay_session_begin_client(CLIENT_ID, session, RELAY_SESSION_WORDS), RELAY_OK,
                 "beginning a client's session");
    check_number(relay_table_new(60, table, RELAY_TABLE_WORDS), RELAY_OK, "making a table");
    size_t len = seal(session, "ping", datagram, sizeof datagram);
    refused_datagrams(datagram, len, table);

    /* Accepted once, with exactly the room that it needs. */
    size_t due = len - method->overhead;
    check_number(open_server(CLOCK, datagram, len, table, out, due, answer), RELAY_OK,
                 "opening a client's datagram");
    check_header(answer, out, due, CLIENT_ID, "ping");
    memcpy(before, table, sizeof before);
    check_number(open_server(CLOCK, datagram, len, table, out, due, answer), RELAY_REFUSED_REPLAY,
                 "the same datagram again");

    /* One word of the table counts the repeat. */
    check(table[1 + RELAY_RECORD_ACCEPTED] == 1 && table[1 + RELAY_RECORD_REPEATS] == 1,
          "one datagram accepted and one repeat");
    before[1 + RELAY_RECORD_REPEATS]++;
    check(memcmp(before, table, sizeof before) == 0, "a repeat changes no other word");
    printf(
        "method %d, client to server: %zu bytes opened; forged, late and replayed ones refused\n",
        (int)method->number, len);
}

/* A session in reply to the client's, begun on the table that has it. */
static uint64_t begin_server(uint64_t id, uint64_t clock, const uint64_t *clients,
                             uint64_t *session)
{
    return relay_session_begin_server(id, CLIENT_ID, clock, clients, RELAY_TABLE_WORDS, session,
                                      RELAY_SESSION_WORDS);
}

static void begin_replies(uint64_t *session)
{
    uint64_t clients[RELAY_TABLE_WORDS], answer[RELAY_ANSWER_WORDS];
    uint8_t datagram[200], out[200];
    relay_table_new(60, clients, RELAY_TABLE_WORDS);
    for (uint64_t id = CLIENT_ID; id <= CLIENT_ID + 1; id++) {
        relay_session_begin_client(id, session, RELAY_SESSION_WORDS);
        size_t len = seal(session, "ping", datagram, sizeof datagram);
        check_number(open_server(CLOCK, datagram, len, clients, out, sizeof out, answer), RELAY_OK,
                     "opening a client's datagram");
        check_number(begin_server(id, CLOCK + 60, clients, session), RELAY_REFUSED_ARGUMENT,
                     "a server's session of a client's ID");
    }
    check_number(begin_server(CLIENT_ID + 1, CLOCK + 61, clients, session), RELAY_OK,
                 "a server's session of a forgotten client's ID");
    check_number(begin_server(CLIENT_ID, CLOCK + 61, clients, session), RELAY_REFUSED_ARGUMENT,
                 "and of its own client's, which is forgotten too");
    clients[0] = 59;
    check_number(begin_server(CLIENT_ID, CLOCK, clients, session), RELAY_REFUSED_SETTINGS,
                 "a table that is not lawful");
    clients[0] = 60;
    check_number(begin_server(SERVER_ID, CLOCK, clients, session), RELAY_OK,
                 "beginning a server's session");
}

static void server_to_client(void)
{
    uint64_t session[RELAY_SESSION_WORDS];
    uint64_t table[RELAY_TABLE_WORDS];
    uint64_t answer[RELAY_ANSWER_WORDS];
    uint8_t datagram[200];
    uint8_t out[200];

    begin_replies(session);
    relay_table_new(60, table, RELAY_TABLE_WORDS);
    size_t len = seal(session, "pong", datagram, sizeof datagram);

    for (uint64_t client = CLIENT_ID - 1; client <= CLIENT_ID; client++) {
        uint64_t expected = client == CLIENT_ID ? RELAY_OK : RELAY_REFUSED_BINDING;
        check_number(relay_datagram_open_client(method->number, KEY, method->key_len, CLOCK, client,
                                                10, 20, 30, datagram, len, table, RELAY_TABLE_WORDS,
                                                out, sizeof out, answer, RELAY_ANSWER_WORDS),
                     expected, "opening a server's datagram");
    }
    check_header(answer, out, len - method->overhead, SERVER_ID, "pong");
    printf("method %d, server to client: %zu bytes opened; refused for another client\n",
           (int)method->number, len);
}

/* ---- lengths of nonces, and of datagrams with a nonce */

static const uint8_t V4[] = {1, 192, 0, 2, 1, 0, 80};

/* A client's datagram without a payload, by a nonce of any length. */
static uint64_t seal_v4(size_t nonce_len, uint64_t *session, uint8_t *out, size_t room,
                        uint64_t *answer)
{
    static const uint8_t nonces[2 * RELAY_NONCE_BYTES] =
        "a nonce of forty-eight bytes, or its front";
    return relay_datagram_seal(method->number, KEY, method->key_len, nonce_len > 0 ? nonces : NULL,
                               nonce_len, session, RELAY_SESSION_WORDS, CLOCK, V4, sizeof V4, 0,
                               NULL, 0, out, room, answer, RELAY_ANSWER_WORDS);
}

/* Methods 1 and 2 do not look at a nonce; the others refuse all but 24 bytes. */
static void nonces(void)
{
    static const size_t lens[] = {0, 1, 12, 23, 24, 25, 48};
    uint64_t session[RELAY_SESSION_WORDS], answer[RELAY_ANSWER_WORDS];
    uint8_t first[100], out[100];
    int looks = method->inner > 0;
    for (size_t i = 0; i < sizeof lens / sizeof lens[0]; i++) {
        memset(out, 0xa5, sizeof out);
        relay_session_begin_client(CLIENT_ID, session, RELAY_SESSION_WORDS);
        uint64_t number = seal_v4(lens[i], session, out, sizeof out, answer);
        if (looks && lens[i] != RELAY_NONCE_BYTES) {
            check_number(number, RELAY_REFUSED_SETTINGS, "a nonce of another length");
            check(all(out, sizeof out, 0xa5) && session[RELAY_SESSION_NEXT] == 0,
                  "it writes nothing");
            continue;
        }
        check_number(number, RELAY_OK, "sealing with a nonce");
        check(answer[RELAY_AT_SEALED_LENGTH] == method->overhead + method->inner + 11 + sizeof V4,
              "the sealed length");
        if (i == 0)
            memcpy(first, out, sizeof first);
        check(looks || same(out, first, sizeof first), "the same bytes whatever the nonce is");
    }
}

/* The shortest datagram that is accepted, and one with a byte less: not authentic. */
static void shortest(void)
{
    uint64_t session[RELAY_SESSION_WORDS], table[RELAY_TABLE_WORDS], answer[RELAY_ANSWER_WORDS];
    uint8_t datagram[100], out[100];
    relay_session_begin_client(CLIENT_ID, session, RELAY_SESSION_WORDS);
    relay_table_new(60, table, RELAY_TABLE_WORDS);
    check_number(seal_v4(RELAY_NONCE_BYTES, session, datagram, sizeof datagram, answer), RELAY_OK,
                 "sealing without a payload");
    size_t len = (size_t)answer[RELAY_AT_SEALED_LENGTH], due = len - method->overhead;
    check(len == (method->inner > 0 ? 74 : 50), "its length");
    check_number(open_server(CLOCK, datagram, method->overhead - 1, table, NULL, 0, answer),
                 RELAY_REFUSED_LENGTH, "a datagram too short for a tag");
    check_number(open_server(CLOCK, datagram, method->overhead, table, NULL, 0, answer),
                 RELAY_REFUSED_NOT_AUTHENTIC, "a datagram cut to where a tag could be");
    check_number(open_server(CLOCK, datagram, len, table, out, due - 1, answer), RELAY_REFUSED_ROOM,
                 "a byte of room too few");
    check_number(open_server(CLOCK, datagram, len, table, out, due, answer), RELAY_OK,
                 "opening it");
    check(answer[RELAY_AT_KIND] == 1 && answer[RELAY_AT_FIRST] == 0xc0000201 &&
              answer[RELAY_AT_PAYLOAD] == due,
          "what it says");
    check(method->inner == 0 || out[7] == 8, "the session ID is in front of the plaintext");
}

/* Sealed by the independent reference: the first 0, 8 and 26 bytes of a client's plaintext, under
 * KEY and the nonce 0, 1, 2 and so on. */
static const char *const CUT[3][3] = {
    {"37bb31874efe40cbfe349bd1f2dd732e", "3dd3d6b975d002c5a523336cc1879b0cf5e34c46a91b9303",
     "3dd3d6b975d002c5829c02bc02f81546a44e5bcbcb93a732f49604b13b5d342ab07bb6cf2a26aeb9f8df"},
    {"d8db990f0de34d4891e1ee039baa82e9", "2137ef41016f4b652ee6d0233fe9afdce3053b3378242776",
     "2137ef41016f4b65276addd5a37b3487c6418ee9ff23d7758d5948368dba18e060fa979d5793cd6d1e65"},
    {"774fd0687889b9272ea6c6412f35e271", "78c72d8a255b9e9cf6261aaffaad67213f213b7e4f056235",
     "78c72d8a255b9e9c4df06a11df6dc03354bf9897efaf2f8e7a5efa71874c89c071b8026521b03f54dbc6"},
};

/* The nonce and the bytes of a hexadecimal string. Gives the length. */
static size_t cut_datagram(const char *hex, uint8_t *datagram)
{
    size_t len = strlen(hex) / 2;
    for (size_t i = 0; i < RELAY_NONCE_BYTES; i++)
        datagram[i] = (uint8_t)i;
    for (size_t i = 0; i < len; i++) {
        const char digits[3] = {hex[2 * i], hex[2 * i + 1], 0};
        datagram[RELAY_NONCE_BYTES + i] = (uint8_t)strtoul(digits, NULL, 16);
    }
    return RELAY_NONCE_BYTES + len;
}

/* Authentic datagrams of 40, 48 and 66 bytes: too short for a header, so 5, and as many zeros as
 * there is plaintext. */
static void too_short(void)
{
    uint64_t table[RELAY_TABLE_WORDS], before[RELAY_TABLE_WORDS], answer[RELAY_ANSWER_WORDS];
    uint8_t datagram[100], out[100];
    relay_table_new(60, table, RELAY_TABLE_WORDS);
    memcpy(before, table, sizeof before);
    for (int i = 0; i < 3; i++) {
        size_t len = cut_datagram(CUT[method - METHODS - FIRST_CHACHA][i], datagram),
               due = len - 40;
        memset(out, 0xa5, sizeof out);
        check_number(open_server(CLOCK, datagram, len, table, out, due, answer),
                     RELAY_REFUSED_MALFORMED, "a plaintext that is too short");
        check(all(out, due, 0) && all(out + due, sizeof out - due, 0xa5),
              "exactly its bytes are zero");
        if (due > 0)
            check_number(open_server(CLOCK, datagram, len, table, out, due - 1, answer),
                         RELAY_REFUSED_ROOM, "a byte of room too few");
        datagram[len - 1] ^= 1;
        check_number(open_server(CLOCK, datagram, len, table, out, due, answer),
                     RELAY_REFUSED_NOT_AUTHENTIC, "a forged one");
    }
    check(memcmp(before, table, sizeof before) == 0, "the table is as it was");
}

/* No other method opens a datagram of this one, though its key is as long. */
static void other_methods(void)
{
    const struct method *sealing = method;
    uint64_t session[RELAY_SESSION_WORDS], table[RELAY_TABLE_WORDS], answer[RELAY_ANSWER_WORDS];
    uint8_t datagram[200], out[200];
    relay_session_begin_client(CLIENT_ID, session, RELAY_SESSION_WORDS);
    relay_table_new(60, table, RELAY_TABLE_WORDS);
    size_t len = seal(session, "ping", datagram, sizeof datagram);
    for (method = METHODS + 1; method < METHODS + METHOD_COUNT; method++)
        check_number(open_server(CLOCK, datagram, len, table, out, sizeof out, answer),
                     method == sealing ? RELAY_OK : RELAY_REFUSED_NOT_AUTHENTIC,
                     "a datagram by another method");
    method = sealing;
}

/* ---- streams */

/* Opens one chunk: first its length, then its payload, from bytes that are all
 * there. Gives the number of bytes used. */
static size_t open_chunk(uint64_t *stream, const uint8_t *bytes, size_t len, const char *payload)
{
    uint64_t answer[RELAY_ANSWER_WORDS];
    uint8_t out[100];
    size_t used = 0;
    for (int piece = 0; piece < 2; piece++) {
        if (piece == 0 && stream[RELAY_STREAM_TURN] == RELAY_TURN_PAYLOAD)
            continue; /* behind a response's head a payload is next */
        check_number(relay_stream_open_chunk(stream, RELAY_STREAM_WORDS, bytes + used, len - used,
                                             out, sizeof out, answer, RELAY_ANSWER_WORDS),
                     RELAY_OK, "opening a chunk");
        used += (size_t)answer[RELAY_AT_USED];
    }
    check(answer[RELAY_AT_CHUNK_LENGTH] == strlen(payload) &&
              memcmp(out, payload, strlen(payload)) == 0,
          "a chunk's payload");
    return used;
}

static size_t seal_chunk(uint64_t *stream, const char *payload, uint8_t *out, size_t room)
{
    uint64_t answer[RELAY_ANSWER_WORDS];
    check_number(relay_stream_seal_chunk(stream, RELAY_STREAM_WORDS, text(payload), strlen(payload),
                                         out, room, answer, RELAY_ANSWER_WORDS),
                 RELAY_OK, "sealing a chunk");
    return (size_t)answer[RELAY_AT_SEALED_LENGTH];
}

static uint64_t open_front(const uint8_t *bytes, size_t len, uint64_t *pool, uint64_t *stream,
                           uint64_t *answer)
{
    return relay_stream_open_request(method->number, KEY, method->key_len, CLOCK, bytes, len, pool,
                                     RELAY_POOL_WORDS, stream, RELAY_STREAM_WORDS, answer,
                                     RELAY_ANSWER_WORDS);
}

static uint64_t open_variable(uint64_t *stream, const uint8_t *bytes, size_t len, uint8_t *out,
                              size_t room, uint64_t *answer)
{
    return relay_stream_open_variable(stream, RELAY_STREAM_WORDS, bytes, len, out, room, answer,
                                      RELAY_ANSWER_WORDS);
}

/* Seals a head with the first payload "GET", and two chunks. Gives the head's length. */
static size_t seal_request(uint8_t *bytes, size_t room, size_t *len)
{
    uint64_t stream[RELAY_STREAM_WORDS];
    uint64_t answer[RELAY_ANSWER_WORDS];
    check_number(relay_stream_seal_request(method->number, KEY, method->key_len, SALT,
                                           method->key_len, CLOCK, ADDRESS, ADDRESS_LEN, 0,
                                           text("GET"), 3, bytes, room, stream, RELAY_STREAM_WORDS,
                                           answer, RELAY_ANSWER_WORDS),
                 RELAY_OK, "sealing a request's head");
    size_t head = (size_t)answer[RELAY_AT_SEALED_LENGTH];
    *len = head + seal_chunk(stream, "first", bytes + head, room - head);
    *len += seal_chunk(stream, "second", bytes + *len, room - *len);
    return head;
}

/* Bytes come in by and by. A head asks for its front first, which says how long the variable
 * header is, and then for that. The front is opened once: from then on its salt is known. */
static void open_head(const uint8_t *bytes, size_t len, size_t head, uint64_t *pool,
                      uint64_t *stream)
{
    uint64_t answer[RELAY_ANSWER_WORDS];
    uint8_t out[100];
    check_number(open_front(bytes, 10, pool, stream, answer), RELAY_REFUSED_MORE, "ten bytes");
    size_t wanted = method->key_len + 11 + 16;
    check(answer[RELAY_AT_WANTED] == wanted, "salt, fixed header and tag are wanted");
    check_number(open_front(bytes, wanted, pool, stream, answer), RELAY_OK, "opening the front");
    size_t front = (size_t)answer[RELAY_AT_USED];
    check(front == wanted && answer[RELAY_AT_CHUNK_LENGTH] == head - front - 16 &&
              answer[RELAY_AT_HEAD_TIME] == CLOCK,
          "what the front says");
    check(stream[RELAY_STREAM_TURN] == RELAY_TURN_VARIABLE &&
              stream[RELAY_STREAM_LENGTH] == head - front - 16,
          "the variable header is next");
    for (size_t come = 0; come < head - front; come++) {
        check_number(open_variable(stream, bytes + front, come, out, sizeof out, answer),
                     RELAY_REFUSED_MORE, "a part of the variable header");
        check(answer[RELAY_AT_WANTED] == head - front, "all of it is wanted");
    }
    check_number(relay_stream_open_chunk(stream, RELAY_STREAM_WORDS, bytes + front, len - front,
                                         out, sizeof out, answer, RELAY_ANSWER_WORDS),
                 RELAY_REFUSED_SETTINGS, "a step in its place");
    check_number(open_variable(stream, bytes + front, len - front, out, sizeof out, answer),
                 RELAY_OK, "opening the variable header");
    check(answer[RELAY_AT_PORT] == 443 && answer[RELAY_AT_HEAD_USED] == head - front,
          "what it says");
    check(memcmp(out + answer[RELAY_AT_HEAD_PAYLOAD], "GET", 3) == 0 &&
              answer[RELAY_AT_HEAD_LENGTH] == answer[RELAY_AT_HEAD_PAYLOAD] + 3,
          "the first payload");
}

static void request(void)
{
    uint64_t pool[RELAY_POOL_WORDS];
    uint64_t stream[RELAY_STREAM_WORDS];
    uint64_t answer[RELAY_ANSWER_WORDS];
    uint8_t bytes[400];
    uint8_t out[100];
    size_t len;

    check_number(relay_pool_new(method->number, pool, RELAY_POOL_WORDS), RELAY_OK, "making a pool");
    check(pool[0] == method->number, "its method");
    size_t head = seal_request(bytes, sizeof bytes, &len);
    open_head(bytes, len, head, pool, stream);
    size_t at = head;
    at += open_chunk(stream, bytes + at, len - at, "first");
    at += open_chunk(stream, bytes + at, len - at, "second");
    check(at == len, "all bytes are used");

    /* A wrong tag ends a stream, for good. The pool remembers the salt. */
    for (int turn = 0; turn < 2; turn++)
        check_number(relay_stream_open_chunk(stream, RELAY_STREAM_WORDS, bytes, len, out,
                                             sizeof out, answer, RELAY_ANSWER_WORDS),
                     RELAY_REFUSED_NOT_AUTHENTIC, "a chunk that is none");
    check(stream[RELAY_STREAM_TURN] == RELAY_TURN_ENDED, "the stream has ended");
    check_number(open_variable(stream, bytes, len, out, sizeof out, answer),
                 RELAY_REFUSED_NOT_AUTHENTIC, "a variable header of an ended stream");
    check_number(open_front(bytes, len, pool, stream, answer), RELAY_REFUSED_REPLAY,
                 "the same head again");
    printf("method %d, request: head and 2 chunks, %zu bytes; replayed head and forged chunk "
           "refused\n",
           (int)method->number, len);
}

static void response(void)
{
    uint64_t sender[RELAY_STREAM_WORDS];
    uint64_t receiver[RELAY_STREAM_WORDS];
    uint64_t answer[RELAY_ANSWER_WORDS];
    uint8_t bytes[400];

    const size_t salt_len = method->key_len;
    check_number(relay_stream_seal_response(method->number, KEY, method->key_len, OTHER_SALT,
                                            salt_len, SALT, salt_len, CLOCK, text("200"), 3, bytes,
                                            sizeof bytes, sender, RELAY_STREAM_WORDS, answer,
                                            RELAY_ANSWER_WORDS),
                 RELAY_OK, "sealing a response's head");
    size_t len = (size_t)answer[RELAY_AT_SEALED_LENGTH];
    len += seal_chunk(sender, "body", bytes + len, sizeof bytes - len);

    /* It answers this request, and no other. */
    check_number(relay_stream_open_response(method->number, KEY, method->key_len, CLOCK, OTHER_SALT,
                                            salt_len, bytes, len, receiver, RELAY_STREAM_WORDS,
                                            answer, RELAY_ANSWER_WORDS),
                 RELAY_REFUSED_BINDING, "a response to another request");
    check_number(relay_stream_open_response(method->number, KEY, method->key_len, CLOCK, SALT,
                                            salt_len, bytes, len, receiver, RELAY_STREAM_WORDS,
                                            answer, RELAY_ANSWER_WORDS),
                 RELAY_OK, "opening a response's head");
    size_t at = (size_t)answer[RELAY_AT_USED];
    check(answer[RELAY_AT_CHUNK_LENGTH] == 3, "the first payload's length");
    at += open_chunk(receiver, bytes + at, len - at, "200");
    at += open_chunk(receiver, bytes + at, len - at, "body");
    check(at == len, "all bytes are used");
    printf("method %d, response: head and 1 chunk, %zu bytes; refused for another request\n",
           (int)method->number, len);
}

/* ---- the 2017 edition */

struct sip004_method {
    uint64_t method;
    size_t len; /* of keys and salts */
};

static const uint8_t LONG_KEY[32] = "a key that is as long as needed";
static const uint8_t LONG_SALT[32] = "and so is this salt of a sender";

static size_t sip004_seal(struct sip004_method m, const char *payload, uint8_t *out, size_t room)
{
    uint64_t answer[RELAY_ANSWER_WORDS];
    check_number(relay_sip004_datagram_seal(m.method, LONG_KEY, m.len, LONG_SALT, m.len,
                                            text(payload), strlen(payload), out, room, answer,
                                            RELAY_ANSWER_WORDS),
                 RELAY_OK, "sealing a datagram of the 2017 edition");
    return (size_t)answer[RELAY_AT_SEALED_LENGTH];
}

static uint64_t sip004_open(struct sip004_method m, const uint8_t *datagram, size_t len,
                            uint8_t *out, size_t room, uint64_t *answer)
{
    return relay_sip004_datagram_open(m.method, LONG_KEY, m.len, datagram, len, out, room, answer,
                                      RELAY_ANSWER_WORDS);
}

static void sip004_datagram(struct sip004_method m)
{
    uint64_t answer[RELAY_ANSWER_WORDS];
    uint8_t datagram[100], out[100];
    size_t len = sip004_seal(m, "ping", datagram, sizeof datagram);
    check(len == m.len + 4 + 16 && memcmp(datagram, LONG_SALT, m.len) == 0, "the salt is in front");
    memset(out, 0xa5, sizeof out);
    check_number(sip004_open(m, datagram, len, out, 3, answer), RELAY_REFUSED_ROOM, "3 bytes");
    check_number(sip004_open(m, datagram, m.len + 15, out, sizeof out, answer),
                 RELAY_REFUSED_LENGTH, "less than a salt and a tag");
    datagram[len - 1] ^= 1;
    check_number(sip004_open(m, datagram, len, out, sizeof out, answer),
                 RELAY_REFUSED_NOT_AUTHENTIC, "a forged one");
    check(all(out, sizeof out, 0xa5), "refusals leave the buffer as it was");
    datagram[len - 1] ^= 1;
    check_number(sip004_open(m, datagram, len, out, 4, answer), RELAY_OK, "opening it");
    check(answer[RELAY_AT_PLAINTEXT_LENGTH] == 4 && memcmp(out, "ping", 4) == 0, "its payload");
    m.method = RELAY_AES_128_GCM;
    check_number(sip004_open(m, datagram, len, out, 4, answer), RELAY_REFUSED_SETTINGS,
                 "a method of the other edition");
}

static size_t sip004_seal_chunk(uint64_t *stream, const char *payload, uint8_t *out, size_t room)
{
    uint64_t answer[RELAY_ANSWER_WORDS];
    check_number(relay_sip004_stream_seal_chunk(stream, RELAY_STREAM_WORDS, text(payload),
                                                strlen(payload), out, room, answer,
                                                RELAY_ANSWER_WORDS),
                 RELAY_OK, "sealing a chunk of the 2017 edition");
    return (size_t)answer[RELAY_AT_SEALED_LENGTH];
}

static uint64_t sip004_step(uint64_t *stream, const uint8_t *bytes, size_t len, uint8_t *out,
                            size_t room, uint64_t *answer)
{
    return relay_sip004_stream_open_chunk(stream, RELAY_STREAM_WORDS, bytes, len, out, room, answer,
                                          RELAY_ANSWER_WORDS);
}

static size_t sip004_open_chunk(uint64_t *stream, const uint8_t *bytes, size_t len,
                                const char *payload)
{
    uint64_t answer[RELAY_ANSWER_WORDS];
    uint8_t out[100];
    check_number(sip004_step(stream, bytes, 17, NULL, 0, answer), RELAY_REFUSED_MORE, "17 bytes");
    check(answer[RELAY_AT_WANTED] == 18, "a length is wanted");
    check_number(sip004_step(stream, bytes, len, NULL, 0, answer), RELAY_OK, "opening a length");
    size_t used = (size_t)answer[RELAY_AT_USED];
    check(answer[RELAY_AT_CHUNK_LENGTH] == strlen(payload), "what it says");
    check_number(sip004_step(stream, bytes + used, len - used, out, strlen(payload), answer),
                 RELAY_OK, "opening a payload");
    check(memcmp(out, payload, strlen(payload)) == 0, "the payload");
    return used + (size_t)answer[RELAY_AT_USED];
}

static void sip004_begin(struct sip004_method m, uint64_t *sender, uint64_t *receiver)
{
    check_number(relay_sip004_stream_begin_seal(m.method, LONG_KEY, m.len, LONG_SALT, m.len, sender,
                                                RELAY_STREAM_WORDS),
                 RELAY_OK, "beginning to seal");
    check_number(relay_sip004_stream_begin_open(m.method, LONG_KEY, m.len, LONG_SALT, m.len,
                                                receiver, RELAY_STREAM_WORDS),
                 RELAY_OK, "beginning to open");
    check(sender[RELAY_STREAM_TURN] == RELAY_TURN_SEALING &&
              receiver[RELAY_STREAM_TURN] == RELAY_TURN_LENGTH,
          "their turns");
    check(sender[RELAY_STREAM_COUNTER] == 0 && receiver[RELAY_STREAM_COUNTER] == 0, "counters");
    check(all((const uint8_t *)(sender + RELAY_STREAM_SUBKEY) + m.len, 32 - m.len, 0),
          "zeros behind a shorter subkey");
}

/* Two chunks, of which the second is empty, and one that is no chunk. */
static void sip004_stream(struct sip004_method m)
{
    static const uint8_t long_payload[RELAY_SIP004_MAX_CHUNK + 1];
    uint64_t sender[RELAY_STREAM_WORDS], receiver[RELAY_STREAM_WORDS], answer[RELAY_ANSWER_WORDS];
    uint8_t bytes[200];
    sip004_begin(m, sender, receiver);
    size_t len = sip004_seal_chunk(sender, "first", bytes, sizeof bytes);
    len += sip004_seal_chunk(sender, "", bytes + len, sizeof bytes - len);
    check_number(relay_sip004_stream_seal_chunk(sender, RELAY_STREAM_WORDS, long_payload,
                                                sizeof long_payload, NULL, 0, answer,
                                                RELAY_ANSWER_WORDS),
                 RELAY_REFUSED_LENGTH, "16384 bytes");
    size_t at = sip004_open_chunk(receiver, bytes, len, "first");
    at += sip004_open_chunk(receiver, bytes + at, len - at, "");
    check(at == len && receiver[RELAY_STREAM_COUNTER] == 4, "all bytes are used");
    for (int turn = 0; turn < 2; turn++)
        check_number(sip004_step(receiver, bytes, len, NULL, 0, answer),
                     RELAY_REFUSED_NOT_AUTHENTIC, "a chunk that is none");
    check_number(relay_stream_seal_chunk(sender, RELAY_STREAM_WORDS, text("x"), 1, bytes,
                                         sizeof bytes, answer, RELAY_ANSWER_WORDS),
                 RELAY_REFUSED_SETTINGS, "a stream of this edition in the other's call");
}

static void sip004(void)
{
    static const struct sip004_method methods[] = {{RELAY_SIP004_AES_128_GCM, 16},
                                                   {RELAY_SIP004_AES_192_GCM, 24},
                                                   {RELAY_SIP004_AES_256_GCM, 32}};
    for (size_t i = 0; i < sizeof methods / sizeof methods[0]; i++) {
        sip004_datagram(methods[i]);
        sip004_stream(methods[i]);
    }
    printf("2017 edition: datagrams and streams of 3 methods opened; forged ones refused\n");
}

/* ---- a plan */

/* A full datagram of a plan is sealed to just the limit. */
static void sealed_plan(const uint64_t *plan, size_t limit)
{
    static const uint8_t report[1450];
    uint64_t session[RELAY_SESSION_WORDS], answer[RELAY_ANSWER_WORDS];
    uint8_t out[1600];
    relay_session_begin_client(CLIENT_ID, session, RELAY_SESSION_WORDS);
    check_number(relay_datagram_seal(method->number, KEY, method->key_len, new_nonce(),
                                     RELAY_NONCE_BYTES, session, RELAY_SESSION_WORDS, CLOCK,
                                     ADDRESS, ADDRESS_LEN, (size_t)plan[1], report, (size_t)plan[0],
                                     out, sizeof out, answer, RELAY_ANSWER_WORDS),
                 RELAY_OK, "sealing a planned datagram");
    check(answer[RELAY_AT_SEALED_LENGTH] == limit, "it is as long as the limit");
}

static void plans(void)
{
    uint64_t plan[7], answer[RELAY_ANSWER_WORDS];
    const size_t limit = method->overhead + method->inner + 11 + ADDRESS_LEN + 1450;
    for (size_t i = 0; i < 7; i++)
        plan[i] = 9;
    check_number(relay_plan_make(method->number, ADDRESS, ADDRESS_LEN, limit, 2901, plan, 5, answer,
                                 RELAY_ANSWER_WORDS),
                 RELAY_REFUSED_ROOM, "a plan in five words");
    check(plan[0] == 9, "nothing is written");
    check_number(relay_plan_make(method->number, ADDRESS, ADDRESS_LEN, limit, 2901, plan, 7, answer,
                                 RELAY_ANSWER_WORDS),
                 RELAY_OK, "a plan in seven words");
    check(answer[RELAY_AT_DATAGRAMS] == 3 && plan[0] == 1450 && plan[4] == 1 && plan[6] == 9,
          "three datagrams, and the word behind them");
    check_number(relay_plan_check(method->number, ADDRESS, ADDRESS_LEN, limit, 2901, plan, 6,
                                  answer, RELAY_ANSWER_WORDS),
                 RELAY_OK, "checking it");
    check(answer[RELAY_AT_GOOD] == 1, "it is good");
    check_number(relay_plan_check(method->number, ADDRESS, ADDRESS_LEN, limit, 2901, plan, 7,
                                  answer, RELAY_ANSWER_WORDS),
                 RELAY_OK, "checking an odd number of words");
    check(answer[RELAY_AT_GOOD] == 0, "they are no plan");
    sealed_plan(plan, limit);
    printf("method %d, plan: 2901 bytes in 3 datagrams of at most %zu\n", (int)method->number,
           limit);
}

/* ---- names and version */

static void names(void)
{
    char version[32];
    snprintf(version, sizeof version, "%d.%d.%d", RELAY_VERSION_MAJOR, RELAY_VERSION_MINOR,
             RELAY_VERSION_PATCH);
    check(strcmp(version, RELAY_VERSION) == 0, "the version's numbers");
    check(strcmp(relay_refusal_name(RELAY_OK), "ok") == 0, "what is no refusal");
    check(strcmp(relay_refusal_name(RELAY_REFUSED_REPLAY), "replay") == 0, "a refusal's name");
    check(strcmp(relay_refusal_name(RELAY_EMPTY), "empty") == 0, "another name of a refusal");
    check(strcmp(relay_refusal_name(RELAY_REFUSED_UNKNOWN_SETTING), "unknown setting") == 0,
          "the newest refusal's name");
    check(strcmp(relay_refusal_name(16), "unknown") == 0, "no refusal's number");
    for (uint64_t a = 0; a < 16; a++)
        for (uint64_t b = a + 1; b <= 16; b++)
            check(strcmp(relay_refusal_name(a), relay_refusal_name(b)) != 0, "names that differ");
    printf("version %s: 15 refusals, each with its name\n", RELAY_VERSION);
}

/* ---- wrong lengths */

static void wrong_lengths(void)
{
    uint64_t words[RELAY_POOL_WORDS + 1];
    memset(words, 0x5a, sizeof words);
    check_number(relay_table_new(60, words, RELAY_TABLE_WORDS - 1), RELAY_REFUSED_SETTINGS,
                 "a table");
    check_number(relay_table_new(59, words, RELAY_TABLE_WORDS), RELAY_REFUSED_SETTINGS,
                 "a retention");
    check_number(relay_pool_new(RELAY_AES_128_GCM, words, RELAY_POOL_WORDS + 1),
                 RELAY_REFUSED_SETTINGS, "a pool");
    check_number(relay_pool_new(6, words, RELAY_POOL_WORDS), RELAY_REFUSED_SETTINGS, "a method");
    check_number(relay_session_begin_client(1, NULL, 0), RELAY_REFUSED_SETTINGS, "no session");
    check_number(relay_stream_seal_chunk(words, RELAY_STREAM_WORDS, NULL, 0, NULL, 0, words + 9,
                                         RELAY_ANSWER_WORDS - 1),
                 RELAY_REFUSED_SETTINGS, "an answer of 8 words");
    check(all((const uint8_t *)words, sizeof words, 0x5a), "nothing is written");
    printf("wrong lengths: refused, and nothing is written\n");
}

/* ---- recordings */

static void compared(void)
{
    /* One entry: its body at 19, two bytes long, direction 0, clock 7. */
    uint8_t first[] = {0, 0, 0, 1, 0, 0, 0, 19, 0, 2, 0, 0, 0, 0, 0, 0, 0, 0, 7, 'a', 'b'};
    uint8_t second[sizeof first], out[64];
    uint64_t answer[RELAY_ANSWER_WORDS];
    const char *expected = "entries 1 1\ndiffer 0 byte 1\n";
    memcpy(second, first, sizeof second);
    second[20] = 'x';
    check_number(relay_recording_compare(first, sizeof first, second, sizeof second, out,
                                         sizeof out, answer, RELAY_ANSWER_WORDS),
                 RELAY_OK, "two recordings");
    check(answer[RELAY_AT_TEXT_LENGTH] == strlen(expected), "the length of their text");
    check(memcmp(out, expected, strlen(expected)) == 0, "their text");
    check_number(relay_recording_compare(first, sizeof first - 1, second, sizeof second, NULL, 0,
                                         answer, RELAY_ANSWER_WORDS),
                 RELAY_REFUSED_MALFORMED, "a recording that was cut");
    check_number(relay_recording_compare(first, sizeof first, second, sizeof second, NULL, 0,
                                         answer, RELAY_ANSWER_WORDS),
                 RELAY_REFUSED_ROOM, "no room");
    printf("recordings: differ 0 byte 1\n");
}

static void mended(void)
{
    /* Direction 9, and a body that begins at 19 and not at 20. */
    uint8_t file[] = {0, 0, 0, 1, 0, 0, 0, 20, 0, 2, 9, 0, 0, 0, 0, 0, 0, 0, 7, 'a', 'b'};
    const uint64_t expected[] = {0, 1, 20, 19, 0, 3, 9, 2};
    uint64_t report[8], answer[RELAY_ANSWER_WORDS];
    check_number(relay_recording_mend(file, sizeof file, report, 7, answer, RELAY_ANSWER_WORDS),
                 RELAY_REFUSED_ROOM, "a report of 7 words");
    check_number(relay_recording_mend(file, sizeof file, report, 8, answer, RELAY_ANSWER_WORDS),
                 RELAY_OK, "a scrambled recording");
    check(answer[RELAY_AT_CHANGES] == 2, "how many changes");
    check(memcmp(report, expected, sizeof expected) == 0, "the report");
    check(file[7] == 19 && file[10] == 2, "the mended recording");
    check_number(relay_recording_mend(file, 3, NULL, 0, answer, RELAY_ANSWER_WORDS),
                 RELAY_REFUSED_LENGTH, "a file of 3 bytes");
    printf("mended: offset 20 is now 19, direction 9 is now 2\n");
}

/* ---- settings files */

/* Method 3, a path limit of 1,500 bytes, the target, and a setting that is not known yet. */
static const uint64_t SETTINGS[] = {RELAY_SETTING_METHOD, 1, RELAY_SETTING_LIMIT, 4,
                                    RELAY_SETTING_TARGET, ADDRESS_LEN, 200, 2};
enum { SETTING_WORDS = sizeof SETTINGS / sizeof SETTINGS[0], SETTINGS_LEN = 82 };

static void write_settings(uint8_t *file)
{
    uint8_t bodies[5 + ADDRESS_LEN + 2] = {3, 0, 0, 0x05, 0xdc};
    uint64_t answer[RELAY_ANSWER_WORDS];
    memcpy(bodies + 5, ADDRESS, ADDRESS_LEN);
    memset(file, 0xa5, SETTINGS_LEN + 1);
    check_number(relay_settings_write(7, SETTINGS, SETTING_WORDS, bodies, sizeof bodies, file,
                                      SETTINGS_LEN - 1, answer, RELAY_ANSWER_WORDS),
                 RELAY_REFUSED_ROOM, "a file in too little room");
    check(all(file, SETTINGS_LEN + 1, 0xa5), "nothing is written");
    check_number(relay_settings_write(7, SETTINGS, SETTING_WORDS, bodies, sizeof bodies, file,
                                      SETTINGS_LEN + 1, answer, RELAY_ANSWER_WORDS),
                 RELAY_OK, "writing settings");
    check(answer[RELAY_AT_FILE_LENGTH] == SETTINGS_LEN && file[SETTINGS_LEN] == 0xa5,
          "the file's length, and the byte behind it");
    bodies[0] = 6;
    check_number(relay_settings_write(7, SETTINGS, SETTING_WORDS, bodies, sizeof bodies, file,
                                      SETTINGS_LEN, answer, RELAY_ANSWER_WORDS),
                 RELAY_REFUSED_ARGUMENT, "method 6");
}

static void read_settings(uint8_t *file)
{
    uint64_t answer[RELAY_ANSWER_WORDS];
    check_number(relay_settings_read(file, SETTINGS_LEN, answer, RELAY_ANSWER_WORDS), RELAY_OK,
                 "reading settings");
    check(answer[RELAY_AT_EDITION] == 7 && answer[RELAY_AT_SET] == 0xd, "edition, and which");
    check(answer[RELAY_AT_METHOD] == RELAY_CHACHA20_POLY1305 && answer[RELAY_AT_RETENTION] == 0 &&
              answer[RELAY_AT_LIMIT] == 1500,
          "method, no retention, limit");
    check(answer[RELAY_AT_TARGET_KIND] == 3 && answer[RELAY_AT_TARGET_PORT] == 443 &&
              answer[RELAY_AT_TARGET_SECOND] == 11 &&
              same(file + answer[RELAY_AT_TARGET_FIRST], text("example.com"), 11),
          "the target");
    file[0] ^= 1;
    check_number(relay_settings_read(file, SETTINGS_LEN, answer, RELAY_ANSWER_WORDS),
                 RELAY_REFUSED_NOT_AUTHENTIC, "a damaged file");
    check_number(relay_settings_read(file, RELAY_MIN_SETTINGS - 1, answer, RELAY_ANSWER_WORDS),
                 RELAY_REFUSED_LENGTH, "a file of 35 bytes");
}

/* A newer file: its only setting has number 5 and no body. */
static void newer_settings(void)
{
    const uint8_t file[] = {0x00, 0x08, 0x00, 0x01, 0x00, 0x05, 0x00, 0x0a, 0x00, 0x00, 0x0d, 0xf5,
                            0x87, 0x26, 0xf4, 0x86, 0x5a, 0xe5, 0xb8, 0xc4, 0x1b, 0xdc, 0xf0, 0xd2,
                            0x78, 0x22, 0x9d, 0x5b, 0x29, 0x5b, 0x8b, 0xbb, 0xcd, 0xb9, 0x67, 0x16,
                            0x13, 0x77, 0x6e, 0x98, 0xab, 0x80};
    uint64_t answer[RELAY_ANSWER_WORDS] = {99, 98};
    check_number(relay_settings_read(file, sizeof file, answer, RELAY_ANSWER_WORDS),
                 RELAY_REFUSED_UNKNOWN_SETTING, "a setting that is not known");
    check(answer[RELAY_AT_SETTING] == 5 && answer[1] == 98, "its number, and nothing else");
}

static void settings(void)
{
    uint8_t file[SETTINGS_LEN + 1];
    write_settings(file);
    read_settings(file);
    newer_settings();
    printf("settings: %d bytes written and read, an unknown one refused\n", SETTINGS_LEN);
}

int main(void)
{
    for (method = METHODS; method < METHODS + METHOD_COUNT; method++) {
        client_to_server();
        server_to_client();
        nonces();
        shortest();
        if (method->inner > 0)
            too_short();
        if (method->key_len == 32)
            other_methods();
        request();
        response();
        plans();
    }
    sip004();
    compared();
    mended();
    settings();
    wrong_lengths();
    names();
    printf("smoke test passed\n");
    return 0;
}
