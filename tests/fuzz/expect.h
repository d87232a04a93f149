/*
 * What a call must answer and write, from the scope's tables and the ciphers
 * of cipher.h. The plain half of the fuzz target: no call of the library.
 */
#ifndef EXPECT_H
#define EXPECT_H

#include "calls.h"

enum { RECORD_WORDS_MAX = 13 };

struct expectation {
    uint64_t number;
    uint64_t words[9]; /* the first words of the answer */
    size_t words_len;
    size_t due;          /* bytes of out that are written */
    const uint8_t *text; /* they are these bytes; NULL: zeros */
    uint64_t state[8];   /* the session or stream afterwards */
    size_t state_len;    /* 0: as it was */
    size_t record_at;    /* the words of the table or pool that are written */
    uint64_t record[RECORD_WORDS_MAX];
    size_t record_len; /* 0: none */
    const uint64_t *plan; /* the plan that is written, in so many words */
    size_t plan_len;
};

struct expectation expect(const struct call *call);

/* Of a call about plans whose answer has its length: the number, and what is written. */
uint64_t expect_plan(const struct call *call, struct expectation *e);

#endif
