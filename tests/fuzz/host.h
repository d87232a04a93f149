/*
 * The host whose calls the fuzz target makes: its states, what was sent, and
 * how a step of an input becomes a call.
 */
#ifndef HOST_H
#define HOST_H

#include "calls.h"
#include "messages.h"
#include "relay.h"

enum {
    SESSIONS = 4,
    STREAMS = 4,
    LINES = 4,
    DATAGRAMS = 4,
    SALTS = 4,
    PATCHES = 8,
    PLAN_WORDS = 64,
    SPARE = 8, /* words or bytes behind a state, so that one more than its length can be lent */
    LONG_MESSAGES = 2, /* of one input */
    MESSAGE_LEN = LEND_SIZE - 1024,
};

/* A step of an input, as its 16 bytes stand (little-endian). seeds.py writes them too. */
struct step {
    uint8_t code;  /* a function of enum function, or one of those below */
    uint8_t fault; /* from 128 on: what is wrong with the call, see spoil() */
    uint8_t who;   /* which session, stream, line, address */
    uint8_t how;   /* the room given, and which side of a buffer is guarded */
    uint16_t length, place;
    uint64_t value;
};

/* What a step may do besides calling a function. */
enum step_code {
    CRAFT_DATAGRAM = FUNCTIONS,
    CRAFT_HEAD,
    CRAFT_CHUNK,
    PATCH,
    CLOCK,
    SET_WORD,
    ANY_BYTES,
    FILL,
    STEP_CODES
};

/* What was sealed or crafted: a datagram, or the bytes on the line of a stream. */
struct message {
    uint8_t bytes[MESSAGE_LEN];
    size_t len, read; /* read: how much of a line was opened */
};

/* Bytes to put into the next text that is crafted. */
struct patch {
    uint16_t place;
    uint8_t count;
    uint64_t value;
};

struct host {
    uint64_t method, sip004_method, clock;
    uint64_t tables[2][RELAY_TABLE_WORDS + SPARE]; /* a server's, a client's */
    uint64_t pool[RELAY_POOL_WORDS + SPARE];
    uint64_t sessions[SESSIONS][RELAY_SESSION_WORDS + SPARE];
    uint64_t streams[STREAMS][RELAY_STREAM_WORDS + SPARE];
    uint64_t plan[PLAN_WORDS + SPARE]; /* the last one made, of so many words */
    size_t plan_len;
    struct patch patches[PATCHES];
    unsigned patch_count, next_datagram, long_messages;
};

extern struct host host;
extern struct message datagrams[DATAGRAMS], lines[LINES];
extern uint8_t key[32 + SPARE], salts[SALTS][32 + SPARE];
extern uint8_t filled[LEND_SIZE + 256]; /* what payloads and lent buffers hold */

/* A host without states, of this method of each edition and clock. */
void host_begin(uint64_t method, uint64_t sip004_method, uint64_t clock);

/* ---- what the fields of a step mean */

uint64_t word_of(uint64_t value); /* a number as it is, or near what the host has */
size_t length_of(uint16_t length);
size_t padding_of(uint16_t place);
struct span address_of(unsigned which); /* one of eight, the last two unlawful */
const uint8_t *salt_of(unsigned which, uint64_t value);
const uint8_t *nonce_of(const struct step *step); /* with some bytes behind it */
struct message *line_of(const struct step *step);

/* ---- calls */

/* A call of the step's function, with the method, key, clock and states of the host. */
struct call new_call(const struct step *step);

void lend_to(struct call *call, enum buffer b, const void *data, size_t len);

/* Room for these bytes, or nearly, as the step has it. */
void give_room(struct call *call, const struct step *step, size_t due);

/* Makes something wrong with one of the buffers or with the method, if the step has it so. */
void spoil(struct call *call, const struct step *step);

/* Makes the call, checks it and takes over the states that it left. */
struct left run(const struct call *call);

/* The same, where only this number may be returned. */
struct left must_run(const struct call *call, uint64_t number, const char *promise);

uint64_t answer_of(const struct left *left, unsigned place);

#endif
