#include "promises.h"

#include "expect.h"
#include "feedback.h"
#include "relay.h"

#include <stdio.h>
#include <stdlib.h>
#include <string.h>

uint64_t answered[FUNCTIONS][NUMBERS];

static const struct call *last_call;
static uint64_t last_number;

void broken(const char *promise)
{
    fprintf(stderr, "%s returned %llu: %s\n", name_of(last_call->function),
            (unsigned long long)last_number, promise);
    abort();
}

static void promise(int holds, const char *what)
{
    if (!holds)
        broken(what);
}

/* Whether a part of a buffer is as it was, in bytes. */
static int untouched(const struct call *call, const struct left *left, enum buffer b, size_t from,
                     size_t to)
{
    const uint8_t *before = call->buffers[b].data;
    return from >= to || memcmp(left->lent[b].ours + from, before + from, to - from) == 0;
}

static int zero(const uint8_t *bytes, size_t len)
{
    static const uint8_t zeros[LEND_SIZE];
    return memcmp(bytes, zeros, len) == 0;
}

/* Plaintext or sealed bytes where the call is accepted, zeros behind a good tag; the rest stays. */
static void check_out(const struct call *call, const struct left *left, const struct expectation *e)
{
    const struct lent *out = &left->lent[OUT];
    promise(untouched(call, left, OUT, e->due, out->len),
            "bytes of out past those due, or of a refusal before the tag, were written");
    if (e->text != NULL)
        promise(e->due == 0 || memcmp(out->ours, e->text, e->due) == 0, "out has other bytes");
    else
        promise(zero(out->ours, e->due), "a refusal behind a good tag left bytes in out");
    lend_written(out, e->due);
}

static void check_answer(const struct call *call, const struct left *left,
                         const struct expectation *e)
{
    const struct lent *answer = &left->lent[ANSWER];
    size_t written = e->words_len * sizeof(uint64_t);
    promise(written == 0 || memcmp(answer->ours, e->words, written) == 0, "answer has other words");
    promise(untouched(call, left, ANSWER, written, answer->len),
            "words of the answer that are to stay were written");
    lend_written(answer, written);
}

/* A session or stream. */
static void check_state(const struct call *call, const struct left *left, enum buffer b,
                        const struct expectation *e)
{
    const struct lent *state = &left->lent[b];
    size_t written = e->state_len * sizeof(uint64_t);
    int ends = e->number == RELAY_REFUSED_NOT_AUTHENTIC || e->number == RELAY_REFUSED_MALFORMED ||
               e->number == RELAY_REFUSED_EMPTY;
    int opens = call->function == OPEN_CHUNK || call->function == OPEN_VARIABLE ||
                call->function == SIP004_OPEN_CHUNK;
    if (opens && ends) {
        promise(zero(state->ours, sizeof(uint64_t)), "refusal 4, 5 or 14 did not end the stream");
        written = sizeof(uint64_t);
    } else if (e->number != RELAY_OK) {
        written = 0;
    } else {
        promise(memcmp(state->ours, e->state, written) == 0, "the state has other words");
        lend_written(state, written);
    }
    promise(untouched(call, left, b, written, state->len), "a refusal wrote to the state");
}

/* A table or pool: one record of it where the call is accepted, one word of a table where a repeat
 * is counted. */
static void check_records(const struct call *call, const struct left *left, enum buffer b,
                          const struct expectation *e)
{
    const struct lent *records = &left->lent[b];
    size_t at = e->record_at * sizeof(uint64_t), len = e->record_len * sizeof(uint64_t);
    int counted = b == TABLE && e->number == RELAY_REFUSED_REPLAY;
    if (e->number != RELAY_OK && !counted) {
        promise(untouched(call, left, b, 0, records->len), "a refusal changed table or pool");
        return;
    }
    promise(untouched(call, left, b, 0, at) && untouched(call, left, b, at + len, records->len),
            "another word of table or pool was written");
    promise(memcmp(records->ours + at, e->record, len) == 0, "the record has other words");
}

/* A table or pool just made: one word, then zeros. */
static void check_made(const struct call *call, const struct left *left, enum buffer b)
{
    uint64_t first = call->method;
    const struct lent *made = &left->lent[b];
    if (left->number != RELAY_OK) {
        promise(untouched(call, left, b, 0, made->len), "a refusal wrote to table or pool");
        return;
    }
    if (b == TABLE)
        first = call->retention == 0 ? 300 : call->retention;
    promise(memcmp(made->ours, &first, sizeof first) == 0, "table or pool has another first word");
    promise(zero(made->ours + sizeof first, made->len - sizeof first), "not all is zero behind it");
    lend_written(made, made->len);
}

/* The plan that was made; the words behind it, and those of a check, stay. */
static void check_plan(const struct call *call, const struct left *left,
                       const struct expectation *e)
{
    const struct lent *plan = &left->lent[PLAN];
    size_t written = e->plan_len * sizeof(uint64_t);
    promise(written == 0 || memcmp(plan->ours, e->plan, written) == 0, "another plan");
    promise(untouched(call, left, PLAN, written, plan->len), "words behind the plan were written");
    lend_written(plan, written);
}

static void check_buffers(const struct call *call, const struct left *left)
{
    for (enum buffer b = 0; b < BUFFERS; b++) {
        if (!takes(call->function, b))
            continue;
        promise(lend_intact(&left->lent[b]), "memory beside a buffer was written");
        if (b <= INPUT)
            promise(untouched(call, left, b, 0, left->lent[b].len), "an input was written");
    }
}

/* How many bytes of the input a call may read: an accepted one no more than it uses. */
static size_t readable(const struct call *call, const struct expectation *e)
{
    if (e->number == RELAY_OK && call->function == OPEN_VARIABLE)
        return (size_t)e->words[RELAY_AT_HEAD_USED];
    if (e->number == RELAY_OK &&
        (call->function == OPEN_REQUEST || call->function == OPEN_RESPONSE ||
         call->function == OPEN_CHUNK || call->function == SIP004_OPEN_CHUNK))
        return (size_t)e->words[RELAY_AT_USED];
    return call->buffers[INPUT].len;
}

struct left checked_call(const struct call *call)
{
    struct expectation e = expect(call);
    struct left left = make_call(call, readable(call, &e));
    enum function f = call->function;
    last_call = call;
    last_number = left.number;
    promise(left.number < NUMBERS && numbers_of(f) >> left.number & 1,
            "the function may not return that");
    if (left.number != e.number) {
        fprintf(stderr, "%llu was to be returned; ", (unsigned long long)e.number);
        broken("another answer than the scope's");
    }
    check_buffers(call, &left);
    if (takes(f, OUT))
        check_out(call, &left, &e);
    if (takes(f, ANSWER))
        check_answer(call, &left, &e);
    if (takes(f, SESSION))
        check_state(call, &left, SESSION, &e);
    if (takes(f, STREAM))
        check_state(call, &left, STREAM, &e);
    if (takes(f, PLAN))
        check_plan(call, &left, &e);
    enum buffer records = takes(f, TABLE) ? TABLE : POOL;
    if (f == BEGIN_SERVER)
        promise(untouched(call, &left, TABLE, 0, left.lent[TABLE].len),
                "a table that is only read was written");
    else if (f == TABLE_NEW || f == POOL_NEW)
        check_made(call, &left, records);
    else if (takes(f, records))
        check_records(call, &left, records, &e);
    answered[f][left.number]++;
    feedback(call, &left);
    return left;
}
