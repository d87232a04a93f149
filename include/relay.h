/*
 * Bhajnolith: a verified Shadowsocks 2022 (SIP022) relay core, and the streams
 * and datagrams of the 2017 edition (SIP004).
 *
 * Link with librelay.a. No function allocates, keeps a pointer, reads a clock
 * or makes random numbers: the caller lends every buffer and brings the time,
 * the IDs, the salts and the nonces. What a caller keeps between calls it keeps
 * as words (uint64_t) in its own memory: a session table, a salt pool, sending
 * sessions and streams. Any words have a meaning, so a faulty word leads to a
 * refusal or to another answer, never to undefined behaviour.
 *
 * Each function is proved to meet its contract (docs/PROMISES.md).
 *
 * ANSWERS
 *   Every function returns RELAY_OK or the number of one refusal. Values go
 *   into the lent `answer`, which has RELAY_ANSWER_WORDS words; a function
 *   with fewer values writes the first ones and leaves the rest. A refusal
 *   leaves `answer` as it was, but RELAY_REFUSED_MORE writes the number of
 *   bytes wanted in all to answer[RELAY_AT_WANTED], and
 *   RELAY_REFUSED_UNKNOWN_SETTING the setting's number to
 *   answer[RELAY_AT_SETTING]. Where several refusals would fit, the first in
 *   the order given at the function is returned.
 *
 * WHAT IS LENT
 *   A buffer is a pointer and a length: in bytes for uint8_t, in words for
 *   uint64_t. A length of 0 may come with any pointer, NULL too. Buffers that
 *   one call writes must not overlap any other buffer of the call. Keys have
 *   16 bytes (methods 1 and 11), 24 (method 12) or 32 (methods 2 to 5 and 13), and
 *   so have salts. A datagram's nonce has 24 bytes (methods 3 to 5); methods 1 and 2
 *   do not look at it.
 *   RELAY_REFUSED_SETTINGS is: a method that there is not, or that is the other
 *   edition's; a key, salt, nonce, table, pool, session, stream or answer of another
 *   length than its own; a table whose retention is not 60 to 3,600; a pool of
 *   another method; a session whose side is neither 0 nor 1; a stream at another
 *   turn than the call's, at a payload with a length that its edition has not (0
 *   or above 65,535; by SIP004 above 16,383), or with a length above 65,535 or
 *   another counter than 1 at a variable header; settings whose lengths do not add
 *   up to that of their bodies. Nothing is written then.
 *
 * WHAT A REFUSAL WRITES
 *   No refusal changes a pool or a sending session; a salt that
 *   relay_stream_open_request stored stays, whatever is refused behind it. Of a
 *   table a datagram's RELAY_REFUSED_REPLAY changes one word, the repeats of the
 *   datagram's own session, and no other refusal changes any. A refusal before
 *   the payload's tag is found good leaves `out` as it was; one after it
 *   sets the bytes that the plaintext would have filled to zero. Bytes of
 *   `out` behind those due are never written.
 *
 * THREADS
 *   There is no global state. Calls that lend different memory may run at the
 *   same time; a table, a pool, a session or a stream serves one call at a
 *   time.
 *
 * STACK
 *   A call takes up to 17,256 bytes of the caller's stack, its arguments
 *   included: opening a datagram. tests/stack.c measured it on x86-64, by the
 *   deepest byte that a call changes of a painted stack. There are two recursions:
 *   over the digits of a number of a comparison, five at most, and over the tree of
 *   a settings file's hash, seven at most. Allow 24 KiB.
 *
 * TIMING
 *   AES and GHASH look up tables by secret bytes, so the time of a call of methods
 *   1, 2 and 11 to 13 tells of key and text to whoever shares the processor. By
 *   methods 3 to 5 nothing secret is a branch or an index up to the verdict on the
 *   tag (tests/constant-time): boxes that share their processor with code that they
 *   do not trust should use these. The header behind a good tag is read with
 *   branches on what it says.
 */
#ifndef RELAY_H
#define RELAY_H

#include <stddef.h>
#include <stdint.h>

#ifdef __cplusplus
extern "C" {
#endif

/* ---- version */

#define RELAY_VERSION "0.1.0"
#define RELAY_VERSION_MAJOR 0
#define RELAY_VERSION_MINOR 1
#define RELAY_VERSION_PATCH 0

/* ---- sizes, in words but for the last four */

#define RELAY_TABLE_WORDS 833        /* a session table: 64 sessions */
#define RELAY_POOL_WORDS 1537        /* a salt pool: 256 salts */
#define RELAY_SESSION_WORDS 4        /* a sending session */
#define RELAY_STREAM_WORDS 8         /* one direction of a stream */
#define RELAY_ANSWER_WORDS 9         /* an answer */
#define RELAY_NONCE_BYTES 24         /* the nonce of a datagram by methods 3 to 5 */
#define RELAY_MAX_DATAGRAM 65507     /* bytes */
#define RELAY_MAX_CHUNK 65535        /* bytes */
#define RELAY_SIP004_MAX_CHUNK 16383 /* bytes, by the 2017 edition */

/* ---- methods */

#define RELAY_AES_128_GCM 1 /* 2022-blake3-aes-128-gcm: 16-byte keys and salts */
#define RELAY_AES_256_GCM 2 /* 2022-blake3-aes-256-gcm: 32-byte keys and salts */

/* with ChaCha of 20, 12 and 8 rounds: 32-byte keys and salts, 24-byte nonces of datagrams */
#define RELAY_CHACHA20_POLY1305 3 /* 2022-blake3-chacha20-poly1305 */
#define RELAY_CHACHA12_POLY1305 4 /* 2022-blake3-chacha12-poly1305 */
#define RELAY_CHACHA8_POLY1305 5  /* 2022-blake3-chacha8-poly1305 */

/* of the 2017 edition: lawful in the functions named relay_sip004_ alone, which take no others */
#define RELAY_SIP004_AES_128_GCM 11 /* aes-128-gcm: 16-byte keys and salts */
#define RELAY_SIP004_AES_192_GCM 12 /* aes-192-gcm: 24-byte keys and salts */
#define RELAY_SIP004_AES_256_GCM 13 /* aes-256-gcm: 32-byte keys and salts */

/* ---- what a function returns */

#define RELAY_OK 0
#define RELAY_REFUSED_SETTINGS 1      /* method; length or words of what was lent */
#define RELAY_REFUSED_LENGTH 2        /* datagram or file too short or too long, chunk too long */
#define RELAY_REFUSED_ROOM 3          /* `out` is shorter than the bytes due */
#define RELAY_REFUSED_NOT_AUTHENTIC 4 /* a tag or a hash is wrong, or the stream has ended */
#define RELAY_REFUSED_MALFORMED 5     /* bad header, address, padding or file; length over 16,383 */
#define RELAY_REFUSED_TYPE 6          /* wrong type byte */
#define RELAY_REFUSED_TIME 7          /* timestamp and clock differ by over 30 seconds */
#define RELAY_REFUSED_REPLAY 8        /* packet ID not fresh, or salt seen before */
#define RELAY_REFUSED_FULL 9          /* new session and 64 alive, or new salt and 256 kept */
#define RELAY_REFUSED_MORE 10         /* bytes missing: answer[RELAY_AT_WANTED] are wanted in all */
#define RELAY_REFUSED_COUNTER 11      /* packet IDs or a stream's counter used up */
#define RELAY_REFUSED_ARGUMENT 12     /* address, padding, session ID or setting unlawful */
#define RELAY_REFUSED_BINDING 13      /* meant for another client, or answers another request */
#define RELAY_REFUSED_EMPTY 14        /* a stream's payload of no bytes */
#define RELAY_EMPTY RELAY_REFUSED_EMPTY
#define RELAY_REFUSED_UNKNOWN_SETTING 15 /* of number answer[RELAY_AT_SETTING], below 128 */

/* The name of what a function returned, for a log. */
static inline const char *relay_refusal_name(uint64_t number)
{
    switch (number) {
    case RELAY_OK:
        return "ok";
    case RELAY_REFUSED_SETTINGS:
        return "settings";
    case RELAY_REFUSED_LENGTH:
        return "length";
    case RELAY_REFUSED_ROOM:
        return "room";
    case RELAY_REFUSED_NOT_AUTHENTIC:
        return "not authentic";
    case RELAY_REFUSED_MALFORMED:
        return "malformed";
    case RELAY_REFUSED_TYPE:
        return "type";
    case RELAY_REFUSED_TIME:
        return "time";
    case RELAY_REFUSED_REPLAY:
        return "replay";
    case RELAY_REFUSED_FULL:
        return "full";
    case RELAY_REFUSED_MORE:
        return "more";
    case RELAY_REFUSED_COUNTER:
        return "counter";
    case RELAY_REFUSED_ARGUMENT:
        return "argument";
    case RELAY_REFUSED_BINDING:
        return "binding";
    case RELAY_REFUSED_EMPTY:
        return "empty";
    case RELAY_REFUSED_UNKNOWN_SETTING:
        return "unknown setting";
    default:
        return "unknown";
    }
}

/* ---- places in `answer` */

/* an opened datagram */
#define RELAY_AT_KIND 0       /* of the target: 1 IPv4, 3 a name, 4 IPv6 */
#define RELAY_AT_FIRST 1      /* IPv4 number, first 8 bytes of IPv6, place of the name in `out` */
#define RELAY_AT_SECOND 2     /* 0, last 8 bytes of IPv6, length of the name */
#define RELAY_AT_PORT 3       /* of the target */
#define RELAY_AT_SESSION_ID 4 /* the sender's */
#define RELAY_AT_PACKET_ID 5
#define RELAY_AT_TIMESTAMP 6 /* the sender's clock */
#define RELAY_AT_PADDING 7   /* bytes of it */
#define RELAY_AT_PAYLOAD 8   /* place in `out`; it ends at the datagram's length less 32, by methods
                              * 3 to 5 less 40 */

/* an opened variable header of a request: kind, first, second and port as above, and then */
#define RELAY_AT_HEAD_PADDING 4 /* bytes of it */
#define RELAY_AT_HEAD_PAYLOAD 5 /* place of the first payload in `out` */
#define RELAY_AT_HEAD_USED 6    /* bytes used: the variable header with its tag */
#define RELAY_AT_HEAD_LENGTH 7  /* bytes written to `out`, where the first payload ends */

/* an opened front of a request, a response head, or one step of a stream */
#define RELAY_AT_USED 0         /* bytes used */
#define RELAY_AT_CHUNK_LENGTH 1 /* length of the piece that is next, or was opened */
#define RELAY_AT_HEAD_TIME 2    /* the sender's clock; a step has none */

/* anything sealed */
#define RELAY_AT_SEALED_LENGTH 0 /* bytes written to `out` */

/* an opened datagram of the 2017 edition */
#define RELAY_AT_PLAINTEXT_LENGTH 0 /* bytes written to `out` */

/* plans */
#define RELAY_AT_DATAGRAMS 0 /* how many the plan made has */
#define RELAY_AT_GOOD 0      /* 1 for a good plan, else 0 */

/* RELAY_REFUSED_MORE */
#define RELAY_AT_WANTED 0 /* bytes wanted in all, from the first one of the call */

/* RELAY_REFUSED_UNKNOWN_SETTING */
#define RELAY_AT_SETTING 0 /* the lowest number of an unknown setting below 128 */

/* ---- words of a session table: the retention, then 64 records of 13 words */

#define RELAY_RECORDS 64
#define RELAY_RECORD_WORDS 13  /* record i begins at word 1 + 13 * i */
#define RELAY_RECORD_USED 0    /* not 0: in use */
#define RELAY_RECORD_ID 1
#define RELAY_RECORD_HIGHEST 2 /* highest packet ID accepted */
#define RELAY_RECORD_LAST 3    /* last time; alive while clock <= last + retention */
#define RELAY_RECORD_MARKS 4   /* 4 words: bit i of word k marks packet ID highest - 64 k - i */
#define RELAY_RECORD_FIRST 8   /* where the last accepted datagram came from: send replies there */
#define RELAY_RECORD_SECOND 9
#define RELAY_RECORD_PORT 10   /* its low 16 bits */
/* since the session began; both stop at 2^64 - 1 */
#define RELAY_RECORD_ACCEPTED 11 /* datagrams accepted, the first one included */
#define RELAY_RECORD_REPEATS 12  /* datagrams refused as replays, too late ones included */

/* ---- words of a sending session */

#define RELAY_SESSION_SIDE 0      /* 0 a client's, 1 a server's */
#define RELAY_SESSION_OWN_ID 1
#define RELAY_SESSION_CLIENT_ID 2 /* a client's session: 0 */
#define RELAY_SESSION_NEXT 3      /* next packet ID */

/* ---- words of a stream; the last four are secret */

#define RELAY_STREAM_TURN 0    /* what the stream does next: */
#define RELAY_TURN_ENDED 0     /*   nothing: a tag, a variable header or a length was wrong */
#define RELAY_TURN_LENGTH 1    /*   opens a length */
#define RELAY_TURN_PAYLOAD 2   /*   opens a payload */
#define RELAY_TURN_SEALING 3   /*   seals */
#define RELAY_TURN_VARIABLE 4  /*   opens a request's variable header */
#define RELAY_STREAM_METHOD 1  /* 1 to 5, or 11 to 13: which functions take the stream */
#define RELAY_STREAM_COUNTER 2 /* of the next piece */
#define RELAY_STREAM_LENGTH 3  /* of the payload (1 to 65,535; by SIP004 0 to 16,383) or variable
                                * header that is next */
#define RELAY_STREAM_SUBKEY 4  /* 4 words, bytes big-endian; methods 1 and 11 have zeros in the last
                                * two, method 12 in the last, which are not read */

/* ---- words of a salt pool: the method, then 256 records of 6 words, which are in use (not 0), time,
 * and the salt in 4 words, big-endian */

/* ---- session tables */

/*
 * Makes a session table: one for each key and method, for a server's incoming
 * datagrams or for a client's.
 *
 * retention  seconds that a silent session is remembered: 60 to 3,600; 0 is 300
 * table      RELAY_TABLE_WORDS words, all of them written
 *
 * Refusals: 1 (retention or length), and nothing is written.
 */
uint64_t relay_table_new(uint64_t retention, uint64_t *table, size_t table_len);

/* ---- sending sessions */

/*
 * Begins a client's sending session.
 *
 * id       its session ID: 8 random bytes as a number, new for each session; see
 *          the warning at relay_session_begin_server
 * session  RELAY_SESSION_WORDS words: 0, the ID, 0, next packet ID (0)
 *
 * Refusals: 1 (length), and nothing is written.
 */
uint64_t relay_session_begin_client(uint64_t id, uint64_t *session, size_t session_len);

/*
 * Begins a server's sending session, in reply to a client's session.
 *
 * id       its own session ID: 8 random bytes as a number, new for each session
 * client   the client's session ID
 * clock    seconds since 1970
 * table    the session table of the clients' datagrams, as it is now; only read
 * session  RELAY_SESSION_WORDS words: 1, the ID, the client's ID, next packet ID (0)
 *
 * WARNING: the ID must differ from every other session ID under the key, those
 * of all clients included. By methods 1 and 2 a subkey comes from key and session
 * ID, and nonces from session ID and packet ID: two sessions of one ID use the same
 * subkey and nonces for different texts, which lets others read and forge both. By
 * methods 3 to 5 the nonce keeps the texts apart, but the receiver takes packets of
 * the one for repeats of the other's. The function compares the ID with the
 * client's and with all that are alive in the table: draw another where it is
 * refused. A client may come later with an ID that was begun here, and is accepted;
 * and nobody but the host knows the IDs of sessions that it began itself.
 *
 * Refusals, in this order: 1 (lengths, a table whose retention is not 60 to
 * 3,600), 12 (an ID that a session alive or the client has), and nothing is
 * written.
 */
uint64_t relay_session_begin_server(uint64_t id, uint64_t client, uint64_t clock,
                                    const uint64_t *table, size_t table_len, uint64_t *session,
                                    size_t session_len);

/* ---- datagrams */

/*
 * Seals one datagram to the front of `out`. By methods 1 and 2 it begins with
 * session ID and packet ID, encrypted; by methods 3 to 5 with the nonce, and the
 * IDs are in front of the plaintext.
 *
 * nonce    methods 3 to 5: RELAY_NONCE_BYTES random bytes, new for each datagram: two
 *          datagrams of one key and nonce let others read and forge both. Methods 1
 *          and 2 do not look at it: NULL, 0
 * session  a begun session; its next packet ID goes one up
 * clock    seconds since 1970, written as the timestamp
 * address  the target (from a server: the source), exactly one SOCKS5
 *          address: kind byte 1, 3 or 4, address, port; nothing behind it
 * padding  bytes of zeros before the address
 * payload  may be empty
 * out      sealed length bytes are written: payload, address and padding and
 *          43 bytes more from a client, 51 from a server; by methods 3 to 5 67
 *          from a client, 75 from a server
 * answer   RELAY_AT_SEALED_LENGTH
 *
 * Refusals, in this order: 1 (by methods 3 to 5 a nonce of another length too), 12
 * (address; a server's ID equal to its client's), 11 (packet ID 2^64 - 1), 2 (over
 * 65,507 bytes), 3. A refusal writes nothing and moves no counter.
 */
uint64_t relay_datagram_seal(uint64_t method, const uint8_t *key, size_t key_len,
                             const uint8_t *nonce, size_t nonce_len, uint64_t *session,
                             size_t session_len, uint64_t clock, const uint8_t *address,
                             size_t address_len, size_t padding, const uint8_t *payload,
                             size_t payload_len, uint8_t *out, size_t out_len, uint64_t *answer,
                             size_t answer_len);

/*
 * Opens a client's datagram, for a server.
 *
 * clock                  seconds since 1970; must not go back between calls
 * first, second, port    the caller's address, as the host numbers it; kept in
 *                        the session for replies (words 8 to 10 of its record)
 * datagram               32 to 65,507 bytes, by methods 3 to 5 40 at least
 * table                  a session table; changed by an accepted datagram, and by 8
 *                        in one word: its session's RELAY_RECORD_REPEATS goes one up
 * out                    room for the plaintext: the datagram's length less 32, by
 *                        methods 3 to 5 less 40. There it begins with session ID and
 *                        packet ID, 16 bytes, and places count from these on
 * answer                 RELAY_AT_KIND to RELAY_AT_PAYLOAD
 *
 * Refusals, in this order: 1, 2, 3, 4, 5 (plaintext under 11 bytes, by methods 3 to
 * 5 under 27), 6, 7, 5 (padding, address), 8, 9. 1 to 4 leave `out` as it was, the
 * others zero the plaintext's bytes.
 */
uint64_t relay_datagram_open_server(uint64_t method, const uint8_t *key, size_t key_len,
                                    uint64_t clock, uint64_t first, uint64_t second, uint16_t port,
                                    const uint8_t *datagram, size_t datagram_len, uint64_t *table,
                                    size_t table_len, uint8_t *out, size_t out_len,
                                    uint64_t *answer, size_t answer_len);

/*
 * Opens a server's datagram, for a client: as above, and
 *
 * client  the client's own session ID, which the datagram must name
 *
 * Refusals, in this order: 1, 2, 3, 4, 5 (plaintext under 19 bytes, by methods 3 to
 * 5 under 35), 6, 7, 13 (another client's), 5 (padding, address), 8, 9.
 */
uint64_t relay_datagram_open_client(uint64_t method, const uint8_t *key, size_t key_len,
                                    uint64_t clock, uint64_t client, uint64_t first,
                                    uint64_t second, uint16_t port, const uint8_t *datagram,
                                    size_t datagram_len, uint64_t *table, size_t table_len,
                                    uint8_t *out, size_t out_len, uint64_t *answer,
                                    size_t answer_len);

/* ---- salt pools */

/*
 * Makes a salt pool, in which a server remembers the salts of the last 60
 * seconds' requests.
 *
 * pool  RELAY_POOL_WORDS words, all of them written
 *
 * Refusals: 1 (method or length), and nothing is written.
 */
uint64_t relay_pool_new(uint64_t method, uint64_t *pool, size_t pool_len);

/* ---- streams: heads */

/*
 * Seals a request's head, which a client sends first, and begins the stream
 * behind it.
 *
 * salt     random, new for each stream; the response is bound to it
 * address  the target, exactly one SOCKS5 address
 * padding  0 to 900 bytes of zeros; not 0 where the payload is empty
 * payload  the first payload, may be empty
 * out      salt, 27 bytes, and address, padding and payload with 18 bytes more
 * stream   RELAY_STREAM_WORDS words, all of them written: a stream that seals
 * answer   RELAY_AT_SEALED_LENGTH
 *
 * Refusals, in this order: 1, 12 (address, padding), 2 (address, padding and
 * payload over 65,533 bytes), 3. A refusal writes nothing.
 */
uint64_t relay_stream_seal_request(uint64_t method, const uint8_t *key, size_t key_len,
                                   const uint8_t *salt, size_t salt_len, uint64_t clock,
                                   const uint8_t *address, size_t address_len, size_t padding,
                                   const uint8_t *payload, size_t payload_len, uint8_t *out,
                                   size_t out_len, uint64_t *stream, size_t stream_len,
                                   uint64_t *answer, size_t answer_len);

/*
 * Opens the front of a request's head, for a server: the salt and the fixed
 * header. It begins the stream, which has the variable header next: the call
 * that follows is relay_stream_open_variable, on the bytes behind the front.
 *
 * bytes   what has come in so far; bytes behind the front are not read
 * pool    the salt enters it exactly when the front is accepted, with `clock`,
 *         and stays, whatever the variable header turns out to be
 * stream  RELAY_STREAM_WORDS words, written when the front is accepted: a
 *         stream that opens, at the variable header
 * answer  RELAY_AT_USED, RELAY_AT_CHUNK_LENGTH (of the variable header),
 *         RELAY_AT_HEAD_TIME; with RELAY_REFUSED_MORE, RELAY_AT_WANTED
 *
 * Refusals, in this order: 1, 10, 4, 6, 7, 8, 9. A refused front gives no stream
 * and stores no salt. The same bytes are 8 once they were accepted, so a host
 * goes on with the second call and never makes the first one again.
 */
uint64_t relay_stream_open_request(uint64_t method, const uint8_t *key, size_t key_len,
                                   uint64_t clock, const uint8_t *bytes, size_t bytes_len,
                                   uint64_t *pool, size_t pool_len, uint64_t *stream,
                                   size_t stream_len, uint64_t *answer, size_t answer_len);

/*
 * Opens the variable header of a request, behind its front.
 *
 * stream  as relay_stream_open_request left it; at a length behind the call
 * bytes   what has come in behind the front; bytes behind the variable header
 *         are not read
 * out     room for the variable header: address, padding and first payload
 * answer  RELAY_AT_KIND to RELAY_AT_PORT, RELAY_AT_HEAD_PADDING to
 *         RELAY_AT_HEAD_LENGTH; with RELAY_REFUSED_MORE, RELAY_AT_WANTED, which
 *         counts from the first byte behind the front
 *
 * Refusals, in this order: 1 (lengths, method, a stream at another turn), 4 (a
 * stream that has ended), 10, 3, 4, 5. Only 5 touches `out`: it zeroes the
 * variable header's length. 4 and 5 end the stream: they write RELAY_TURN_ENDED,
 * and from then on it is 4. The others leave the stream as it was, so the same
 * call can be made again with more bytes or more room.
 */
uint64_t relay_stream_open_variable(uint64_t *stream, size_t stream_len, const uint8_t *bytes,
                                    size_t bytes_len, uint8_t *out, size_t out_len,
                                    uint64_t *answer, size_t answer_len);

/*
 * Seals a response's head with its first payload, which a server sends first,
 * and begins the stream behind it.
 *
 * salt          random, new for each stream
 * request_salt  the first bytes of the request
 * payload       1 to 65,535 bytes
 * out           both salts, 43 bytes, and the payload with 16 bytes more
 * stream        RELAY_STREAM_WORDS words, all of them written: a stream that seals
 * answer        RELAY_AT_SEALED_LENGTH
 *
 * Refusals, in this order: 1, 14 (no payload), 2, 3. A refusal writes nothing.
 */
uint64_t relay_stream_seal_response(uint64_t method, const uint8_t *key, size_t key_len,
                                    const uint8_t *salt, size_t salt_len,
                                    const uint8_t *request_salt, size_t request_salt_len,
                                    uint64_t clock, const uint8_t *payload, size_t payload_len,
                                    uint8_t *out, size_t out_len, uint64_t *stream,
                                    size_t stream_len, uint64_t *answer, size_t answer_len);

/*
 * Opens a response's head, for a client, and begins the stream behind it. Its
 * first payload is the next step of the stream.
 *
 * request_salt  the salt of the request that is answered
 * bytes         what has come in so far; bytes behind the head are not read
 * stream        RELAY_STREAM_WORDS words, written when the head is accepted: a
 *               stream that opens, at a payload
 * answer        RELAY_AT_USED, RELAY_AT_CHUNK_LENGTH (of the first payload),
 *               RELAY_AT_HEAD_TIME; with RELAY_REFUSED_MORE, RELAY_AT_WANTED
 *
 * Refusals, in this order: 1, 10, 4, 6, 7, 13, 14 (no first payload). A refused
 * head gives no stream.
 */
uint64_t relay_stream_open_response(uint64_t method, const uint8_t *key, size_t key_len,
                                    uint64_t clock, const uint8_t *request_salt,
                                    size_t request_salt_len, const uint8_t *bytes,
                                    size_t bytes_len, uint64_t *stream, size_t stream_len,
                                    uint64_t *answer, size_t answer_len);

/* ---- streams: chunks */

/*
 * Seals a length with its payload.
 *
 * stream   one that seals; two counters further behind the call
 * payload  1 to 65,535 bytes
 * out      the payload with 34 bytes more
 * answer   RELAY_AT_SEALED_LENGTH
 *
 * Refusals, in this order: 1 (lengths, method, a stream at another turn), 14 (no
 * payload), 4 (a stream that has ended), 11, 2, 3. A refusal writes nothing.
 */
uint64_t relay_stream_seal_chunk(uint64_t *stream, size_t stream_len, const uint8_t *payload,
                                 size_t payload_len, uint8_t *out, size_t out_len,
                                 uint64_t *answer, size_t answer_len);

/*
 * Opens the next piece of a stream: a length (18 bytes) or a payload, by turns.
 *
 * stream  one that opens; one counter further behind an accepted piece
 * bytes   what has come in; bytes behind the piece are not read
 * out     at a payload: room for it, and it is written to the front
 * answer  RELAY_AT_USED, RELAY_AT_CHUNK_LENGTH (the length that was read, or of
 *         the payload); with RELAY_REFUSED_MORE, RELAY_AT_WANTED
 *
 * Refusals, in this order: 1 (lengths, method, a stream at another turn), 4 (a
 * stream that has ended), 11, 10, 3, 4, 14 (a length of 0). They write nothing to
 * `out`. 4 and 14 end the stream: they write RELAY_TURN_ENDED, and from then on it
 * is 4. The others leave the stream as it was, so the same call can be made again
 * with more bytes or more room.
 */
uint64_t relay_stream_open_chunk(uint64_t *stream, size_t stream_len, const uint8_t *bytes,
                                 size_t bytes_len, uint8_t *out, size_t out_len, uint64_t *answer,
                                 size_t answer_len);

/* ---- the 2017 edition (SIP004)
 *
 * Methods 11 to 13 alone. The subkey is HKDF with SHA-1 of key and salt, info
 * "ss-subkey". A plaintext is handed on as it is: there is no header, time,
 * window or pool, so nothing here tells a datagram or a stream that comes twice.
 */

/*
 * Seals one datagram to the front of `out`: salt, ciphertext and tag.
 *
 * salt     random, new for each datagram: the nonce is all zeros, so two datagrams
 *          of one key and salt let others read and forge both
 * payload  may be empty
 * out      the payload with the salt and 16 bytes more
 * answer   RELAY_AT_SEALED_LENGTH
 *
 * Refusals, in this order: 1 (lengths, method), 2 (over 65,507 bytes sealed), 3.
 * A refusal writes nothing.
 */
uint64_t relay_sip004_datagram_seal(uint64_t method, const uint8_t *key, size_t key_len,
                                    const uint8_t *salt, size_t salt_len, const uint8_t *payload,
                                    size_t payload_len, uint8_t *out, size_t out_len,
                                    uint64_t *answer, size_t answer_len);

/*
 * Opens one datagram.
 *
 * datagram  salt, ciphertext and tag: the salt and 16 bytes at least, 65,507 at most
 * out       room for the datagram's length less the salt and 16: the plaintext
 * answer    RELAY_AT_PLAINTEXT_LENGTH
 *
 * Refusals, in this order: 1 (lengths, method), 2, 3, 4. A refusal writes nothing.
 */
uint64_t relay_sip004_datagram_open(uint64_t method, const uint8_t *key, size_t key_len,
                                    const uint8_t *datagram, size_t datagram_len, uint8_t *out,
                                    size_t out_len, uint64_t *answer, size_t answer_len);

/*
 * Begins a stream that seals. The host sends the salt before the first chunk.
 *
 * salt    random, new for each stream
 * stream  RELAY_STREAM_WORDS words, all of them written: RELAY_TURN_SEALING, the
 *         method, counter 0, 0, the subkey
 *
 * Refusals: 1 (lengths, method), and nothing is written.
 */
uint64_t relay_sip004_stream_begin_seal(uint64_t method, const uint8_t *key, size_t key_len,
                                        const uint8_t *salt, size_t salt_len, uint64_t *stream,
                                        size_t stream_len);

/*
 * Begins a stream that opens.
 *
 * salt    the stream's first bytes, as many as the key has, which the host takes off:
 *         they count in no number of bytes used or wanted
 * stream  RELAY_STREAM_WORDS words, all of them written: RELAY_TURN_LENGTH, the
 *         method, counter 0, 0, the subkey
 *
 * Refusals: 1 (lengths, method), and nothing is written. Whether the key is the
 * sender's the first chunk tells.
 */
uint64_t relay_sip004_stream_begin_open(uint64_t method, const uint8_t *key, size_t key_len,
                                        const uint8_t *salt, size_t salt_len, uint64_t *stream,
                                        size_t stream_len);

/*
 * Seals a length with its payload.
 *
 * stream   one that seals; two counters further behind the call
 * payload  0 to 16,383 bytes
 * out      the payload with 34 bytes more
 * answer   RELAY_AT_SEALED_LENGTH
 *
 * Refusals, in this order: 1 (lengths, method, a stream at another turn), 4 (a
 * stream that has ended), 11, 2 (over 16,383 bytes), 3. A refusal writes nothing.
 */
uint64_t relay_sip004_stream_seal_chunk(uint64_t *stream, size_t stream_len,
                                        const uint8_t *payload, size_t payload_len, uint8_t *out,
                                        size_t out_len, uint64_t *answer, size_t answer_len);

/*
 * Opens the next piece of a stream: a length (18 bytes) or a payload, by turns.
 *
 * stream  one that opens; one counter further behind an accepted piece
 * bytes   what has come in; bytes behind the piece are not read
 * out     at a payload: room for it, and it is written to the front
 * answer  RELAY_AT_USED, RELAY_AT_CHUNK_LENGTH (the length that was read, or of
 *         the payload); with RELAY_REFUSED_MORE, RELAY_AT_WANTED
 *
 * Refusals, in this order: 1 (lengths, method, a stream at another turn, a payload
 * above 16,383 bytes), 4 (a stream that has ended), 11, 10, 3, 4, 5 (a length above
 * 16,383). They write nothing to `out`. 4 and 5 end the stream: they write
 * RELAY_TURN_ENDED, and from then on it is 4. The others leave the stream as it was,
 * so the same call can be made again with more bytes or more room. A length of 0 is
 * a chunk as any other: its payload is the tag alone.
 */
uint64_t relay_sip004_stream_open_chunk(uint64_t *stream, size_t stream_len, const uint8_t *bytes,
                                        size_t bytes_len, uint8_t *out, size_t out_len,
                                        uint64_t *answer, size_t answer_len);

/* ---- plans: a long report in a client's datagrams under a path limit */

/*
 * Plans a report, in two words for each datagram: how many bytes of the report
 * go into it, its piece, and how many bytes of padding.
 *
 * A plan is good when its pieces add up to the report's length, none is empty,
 * no datagram is over the limit, and no other such plan has fewer datagrams.
 * Sealed from a client's session, no datagram of a good plan is refused with 2.
 *
 * method   1 to 5; by methods 3 to 5 each datagram has 24 bytes more
 * address  the target of every datagram, exactly one SOCKS5 address
 * limit    bytes of a datagram, up to 65,507; with any report at least 44 and
 *          the address (68 by methods 3 to 5)
 * length   bytes of the report; 0 takes no datagram
 * plan     a good plan is written to the front: full datagrams, the last one
 *          shorter, no padding. Words behind it are left
 * answer   RELAY_AT_DATAGRAMS
 *
 * Refusals, in this order: 1 (length of the answer, method), 12 (address,
 * limit), 3 (plan has fewer words than a good plan). They write nothing.
 */
uint64_t relay_plan_make(uint64_t method, const uint8_t *address, size_t address_len,
                         uint64_t limit, uint64_t length, uint64_t *plan, size_t plan_len,
                         uint64_t *answer, size_t answer_len);

/*
 * Tells whether words are a good plan, whoever made it: as above, and
 *
 * plan     all of it is looked at; an odd number of words is no plan
 * answer   RELAY_AT_GOOD
 *
 * Refusals, in this order: 1, 12. A plan that is not good is none.
 */
uint64_t relay_plan_check(uint64_t method, const uint8_t *address, size_t address_len,
                          uint64_t limit, uint64_t length, const uint64_t *plan, size_t plan_len,
                          uint64_t *answer, size_t answer_len);

/* ---- recordings of datagrams
 *
 * A recording is a count of entries (4 bytes, at most 4,096); for each entry
 * the offset of its body in the file (4), its length (2, at most 65,507), a
 * direction (1: 0, 1, or 2 for unknown) and a clock (8), big-endian; then the
 * bodies back to back, the first one right behind these contents. Bytes behind
 * the last body are no part of it.
 */

#define RELAY_MAX_COMPARED 32768 /* bytes of a recording that is compared */

/* a comparison */
#define RELAY_AT_TEXT_LENGTH 0 /* bytes written to `out` */

/*
 * Writes where two recordings differ, as lines of text, to the front of `out`:
 * `entries A B` with both counts, then one line for each index from 0 that
 * differs, the first that fits of `length I LA LB`, `meta I` (direction or
 * clock) and `differ I byte P` (the first byte that differs, from 0), or
 * `first-only I`, `second-only I`. Each line ends with byte 10. Offsets are not
 * compared.
 *
 * first, second  two recordings
 * out            room for the text; 65,536 bytes hold every one
 * answer         RELAY_AT_TEXT_LENGTH
 *
 * Refusals, in this order: 1 (answer), 2 (either is over RELAY_MAX_COMPARED
 * bytes), 5 (either is no well-formed recording), 3. A refusal writes nothing.
 */
uint64_t relay_recording_compare(const uint8_t *first, size_t first_len, const uint8_t *second,
                                 size_t second_len, uint8_t *out, size_t out_len, uint64_t *answer,
                                 size_t answer_len);

/* a report of what was mended: four words for each change */
#define RELAY_CHANGE_WORDS 4
#define RELAY_CHANGE_ENTRY 0    /* its index, or RELAY_CHANGE_OF_COUNT */
#define RELAY_CHANGE_FIELD 1    /* 0 the count, 1 an offset, 2 a length, 3 a direction */
#define RELAY_CHANGE_OLD 2      /* the field's number before, */
#define RELAY_CHANGE_NEW 3      /*   and behind the call */
#define RELAY_CHANGE_OF_COUNT 4096

/* a recording that was mended */
#define RELAY_AT_CHANGES 0 /* how many there are in the report */

/*
 * Mends a damaged recording where it stands: a count over 4,096 or past the
 * file is lowered to the most that fits; a direction above 2 becomes 2; a
 * length is cut to 65,507 and to the end of the file; each offset is set so
 * that the bodies stand back to back. Clocks and bodies are not written. The
 * outcome is a well-formed recording, and mending it again changes nothing.
 *
 * file    a recording, of 4 bytes at least
 * report  RELAY_CHANGE_WORDS words for each field that was changed, in the
 *         order of the file; 4 + 12 * 4,096 words hold every report. Words
 *         behind it stay as they were
 * answer  RELAY_AT_CHANGES
 *
 * Refusals, in this order: 1 (answer), 2 (the file is under 4 bytes), 3 (the
 * report is shorter than the one due). A refusal writes nothing.
 */
uint64_t relay_recording_mend(uint8_t *file, size_t file_len, uint64_t *report, size_t report_len,
                              uint64_t *answer, size_t answer_len);

/* ---- settings files
 *
 * A settings file is an edition (2 bytes) and a count of settings (2); for each
 * setting its number (2), the offset of its body in the file (2) and the body's
 * length (2), big-endian, by rising numbers; the bodies back to back, the first
 * one right behind these contents; and the BLAKE3 hash (32) of all before it.
 * The edition is the host's own: any is read.
 *
 * A reader refuses an unknown setting below RELAY_SETTING_SKIPPED and passes over
 * one from there on, so that an older box can tell which of a newer file's
 * settings it may do without. The hash tells damage, not who wrote the file: anyone
 * can make one.
 */

#define RELAY_MIN_SETTINGS 36    /* bytes of a file without settings */
#define RELAY_MAX_SETTINGS 65535 /* bytes of a file */

/* the numbers of the known settings, and what is lawful */
#define RELAY_SETTING_METHOD 1    /* 1 byte: 1 to 5 or 11 to 13 */
#define RELAY_SETTING_RETENTION 2 /* 2 bytes: 0 or 60 to 3,600 */
#define RELAY_SETTING_LIMIT 3     /* 4 bytes, of a path: up to 65,507 */
#define RELAY_SETTING_TARGET 4    /* exactly one SOCKS5 address */
#define RELAY_SETTING_SKIPPED 128 /* the first number that is passed over where it is unknown */

/* a settings file that was read; what is not set is 0 */
#define RELAY_AT_EDITION 0
#define RELAY_AT_SET 1 /* which are set: bit i for number i + 1 */
#define RELAY_AT_METHOD 2
#define RELAY_AT_RETENTION 3 /* as it is set: 0 stays 0 */
#define RELAY_AT_LIMIT 4
#define RELAY_AT_TARGET_KIND 5 /* these four as of an opened datagram; a name's place is in `file` */
#define RELAY_AT_TARGET_FIRST 6
#define RELAY_AT_TARGET_SECOND 7
#define RELAY_AT_TARGET_PORT 8

/* a settings file that was written */
#define RELAY_AT_FILE_LENGTH 0 /* bytes written to `out` */

/*
 * Reads a settings file.
 *
 * file    36 to 65,535 bytes
 * answer  RELAY_AT_EDITION to RELAY_AT_TARGET_PORT; with
 *         RELAY_REFUSED_UNKNOWN_SETTING, RELAY_AT_SETTING
 *
 * Refusals, in this order: 1 (answer), 2, 4 (the hash), 5 (the contents run past
 * the hash, numbers do not rise, the bodies are not back to back from the contents
 * to the hash, or a known setting is unlawful), 15.
 */
uint64_t relay_settings_read(const uint8_t *file, size_t file_len, uint64_t *answer,
                             size_t answer_len);

/*
 * Writes a settings file to the front of `out`. Read, it shows this edition and
 * exactly the settings of numbers 1 to 4 that were given.
 *
 * edition   any
 * settings  two words for each, by rising numbers: its number, and the length of
 *           its body. Those from RELAY_SETTING_SKIPPED on may have any bytes
 * bodies    back to back, as long as these lengths together
 * out       room for the file: 36 bytes, and 6 and its body for each setting.
 *           Bytes behind the file stay as they were
 * answer    RELAY_AT_FILE_LENGTH
 *
 * Refusals, in this order: 1 (answer, an odd number of words, lengths that do not
 * add up to that of the bodies), 12 (an unlawful setting, an unknown one below 128,
 * numbers that do not rise or are above 65,535), 2 (a file over 65,535 bytes), 3.
 * A refusal writes nothing.
 */
uint64_t relay_settings_write(uint16_t edition, const uint64_t *settings, size_t settings_len,
                              const uint8_t *bodies, size_t bodies_len, uint8_t *out,
                              size_t out_len, uint64_t *answer, size_t answer_len);

#ifdef __cplusplus
}
#endif

#endif
