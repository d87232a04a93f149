/*
 * A call of any exported function as one value: its numbers, and its buffers
 * by what they are. So that lending, calling and checking are written once.
 */
#ifndef CALLS_H
#define CALLS_H

#include "lend.h"

#include <stddef.h>
#include <stdint.h>

enum function {
    TABLE_NEW,
    POOL_NEW,
    BEGIN_CLIENT,
    BEGIN_SERVER,
    DATAGRAM_SEAL,
    OPEN_SERVER,
    OPEN_CLIENT,
    SEAL_REQUEST,
    OPEN_REQUEST,
    OPEN_VARIABLE,
    SEAL_RESPONSE,
    OPEN_RESPONSE,
    SEAL_CHUNK,
    OPEN_CHUNK,
    PLAN_MAKE,
    PLAN_CHECK,
    SIP004_DATAGRAM_SEAL,
    SIP004_DATAGRAM_OPEN,
    SIP004_BEGIN_SEAL,
    SIP004_BEGIN_OPEN,
    SIP004_SEAL_CHUNK,
    SIP004_OPEN_CHUNK,
    FUNCTIONS
};

/* The buffers that a function may take. Up to INPUT they are lent for reading. */
enum buffer {
    KEY,
    SALT,
    REQUEST_SALT,
    NONCE,
    ADDRESS,
    PAYLOAD,
    INPUT,
    TABLE,
    POOL,
    SESSION,
    STREAM,
    OUT,
    ANSWER,
    PLAN,
    BUFFERS
};

enum { NUMBERS = 15 }; /* 0 and the refusals */

struct lending {
    const void *data;
    size_t len; /* in bytes or words, as the function counts */
};

struct call {
    enum function function;
    uint64_t method, clock, id, client, first, second, retention;
    uint16_t port;
    size_t padding;
    uint64_t limit, length; /* of a plan */
    struct lending buffers[BUFFERS]; /* as they are before the call */
    unsigned edges;                  /* bit b: buffer b is lent at the start of its place */
};

/* What a call left. */
struct left {
    uint64_t number;
    struct lent lent[BUFFERS]; /* of the buffers that the function takes */
};

const char *name_of(enum function function);

/* Whether the function is the 2017 edition's. */
int of_sip004(enum function function);

/* Whether the function takes the buffer. */
int takes(enum function function, enum buffer buffer);

/* Bit n: the function may return n. */
unsigned numbers_of(enum function function);

size_t size_of(enum buffer buffer, size_t len); /* in bytes */

/* Makes the call. Of the input only so many bytes are there, though all are lent: the library must
 * not read behind them. */
struct left make_call(const struct call *call, size_t input_there);

#endif
