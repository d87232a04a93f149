/*
 * Steps that plan a report and check plans. A plan that was made passes.
 */
#include "promises.h"
#include "steps.h"

#include <string.h>

/* A call about a report of any length, under a limit that leaves room for a few bytes or for none. */
static struct call new_plan_call(const struct step *step)
{
    struct call call = new_call(step);
    struct span address = address_of(step->who / 8);
    unsigned way = step->place >> 10 & 7;
    uint64_t room = step->place & 0x3ff;
    call.method = 1 + step->who % 8 % 5;
    call.limit = (call.method <= 2 ? 43 : 67) + address.len + room;
    if (way == 6)
        call.limit = RELAY_MAX_DATAGRAM + (room & 1);
    if (way == 7)
        call.limit = room & 0x7f;
    call.length = step->length % 0x1000;
    if (step->length >= 0xf000)
        call.length = word_of(step->value);
    lend_to(&call, ADDRESS, address.bytes, address.len);
    return call;
}

/* So many words for the plan as its datagrams take, or nearly. */
static size_t words_for(const struct call *call, const struct step *step)
{
    static const size_t more[4] = {0, 1, 2, 7};
    size_t fixed = (call->method <= 2 ? 43 : 67) + call->buffers[ADDRESS].len;
    uint64_t room = call->limit > fixed ? call->limit - fixed : 1;
    uint64_t fewest = call->length / room + (call->length % room > 0);
    size_t words = fewest > PLAN_WORDS / 2 ? PLAN_WORDS : (size_t)(2 * fewest);
    switch (step->how & 7) {
    case 6:
        return words - (words > 0);
    case 7:
        return 0;
    default:
        return words + more[step->how & 3] > PLAN_WORDS ? words : words + more[step->how & 3];
    }
}

void plan_report(const struct step *step)
{
    struct call call = new_plan_call(step);
    lend_to(&call, PLAN, filled, words_for(&call, step));
    spoil(&call, step);
    struct left left = run(&call);
    if (left.number != RELAY_OK)
        return;
    host.plan_len = (size_t)(2 * answer_of(&left, RELAY_AT_DATAGRAMS));
    memcpy(host.plan, left.lent[PLAN].ours, host.plan_len * sizeof host.plan[0]);
    call.function = PLAN_CHECK;
    lend_to(&call, PLAN, host.plan, host.plan_len);
    left = must_run(&call, RELAY_OK, "a plan that was made is refused");
    if (answer_of(&left, RELAY_AT_GOOD) != 1)
        broken("a plan that was made does not pass");
}

/* The last plan made, with one word changed and one moved by as much the other way, if the step has
 * it so; and for its own report or another. */
void check_plan_step(const struct step *step)
{
    struct call call = new_plan_call(step);
    uint64_t words[PLAN_WORDS + SPARE];
    memcpy(words, host.plan, sizeof words);
    if (host.plan_len > 0 && step->length < 0xf000) {
        size_t at = step->how % host.plan_len, other = (at + 2) % host.plan_len;
        words[at] += word_of(step->value);
        if (step->how & 0x80)
            words[other] -= word_of(step->value);
    }
    lend_to(&call, PLAN, words, host.plan_len);
    spoil(&call, step);
    run(&call);
}
