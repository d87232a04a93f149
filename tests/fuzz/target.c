/*
 * The fuzz target: an input is a list of steps on one host's states, and every
 * call that a step makes is checked (promises.h). The first step of an input
 * gives the methods and the clock.
 */
#include "blocks.h"
#include "promises.h"
#include "steps.h"

#include <stdio.h>
#include <stdlib.h>
#include <string.h>

int LLVMFuzzerTestOneInput(const uint8_t *data, size_t size);
size_t LLVMFuzzerCustomMutator(uint8_t *data, size_t size, size_t max_size, unsigned seed);
size_t LLVMFuzzerMutate(uint8_t *data, size_t size, size_t max_size);

static void (*const does[STEP_CODES])(const struct step *) = {
    [TABLE_NEW] = make_or_begin,
    [POOL_NEW] = make_or_begin,
    [BEGIN_CLIENT] = make_or_begin,
    [BEGIN_SERVER] = make_or_begin,
    [DATAGRAM_SEAL] = seal_datagram,
    [OPEN_SERVER] = open_datagram,
    [OPEN_CLIENT] = open_datagram,
    [SEAL_REQUEST] = seal_head,
    [OPEN_REQUEST] = open_request,
    [OPEN_VARIABLE] = open_variable,
    [SEAL_RESPONSE] = seal_head,
    [OPEN_RESPONSE] = open_response,
    [SEAL_CHUNK] = seal_chunk,
    [OPEN_CHUNK] = open_chunk,
    [PLAN_MAKE] = plan_report,
    [PLAN_CHECK] = check_plan_step,
    [SIP004_DATAGRAM_SEAL] = seal_sip004_datagram,
    [SIP004_DATAGRAM_OPEN] = open_sip004_datagram,
    [SIP004_BEGIN_SEAL] = begin_sip004_stream,
    [SIP004_BEGIN_OPEN] = begin_sip004_stream,
    [SIP004_SEAL_CHUNK] = seal_chunk,
    [SIP004_OPEN_CHUNK] = open_chunk,
    [CRAFT_DATAGRAM] = craft_datagram_step,
    [CRAFT_HEAD] = craft_head_step,
    [CRAFT_CHUNK] = craft_chunk_step,
    [PATCH] = patch_step,
    [CLOCK] = clock_step,
    [SET_WORD] = set_word_step,
    [ANY_BYTES] = any_bytes_step,
    [FILL] = fill_step,
};

/* Calls by function and number, and the numbers that a function may return and never did. */
static void report(void)
{
    uint64_t calls = 0;
    for (enum function f = 0; f < FUNCTIONS; f++) {
        fprintf(stderr, "%-30s", name_of(f));
        for (unsigned n = 0; n < NUMBERS; n++) {
            calls += answered[f][n];
            if (answered[f][n] > 0)
                fprintf(stderr, " %u: %llu", n, (unsigned long long)answered[f][n]);
            else if (numbers_of(f) >> n & 1)
                fprintf(stderr, " %u: never", n);
        }
        fprintf(stderr, "\n");
    }
    fprintf(stderr, "%llu calls checked\n", (unsigned long long)calls);
    blocks_report();
}

int LLVMFuzzerTestOneInput(const uint8_t *data, size_t size)
{
    static int prepared;
    struct step step;
    if (!prepared) {
        prepared = 1;
        atexit(report);
        blocks_watch();
    }
    if (size < sizeof step)
        return 0;
    memcpy(&step, data, sizeof step);
    host_begin(1 + step.code % 5, 11 + step.who % 3, step.value);
    for (size_t at = sizeof step; at + sizeof step <= size; at += sizeof step) {
        memcpy(&step, data + at, sizeof step);
        does[step.code % STEP_CODES](&step);
    }
    return 0;
}

/* ---- mutation: of whole steps and of their fields, so that most calls stay good ones */

static uint64_t dice; /* xorshift64 */

static unsigned below(unsigned limit)
{
    dice ^= dice << 13;
    dice ^= dice >> 7;
    dice ^= dice << 17;
    return (unsigned)(dice >> 32) % limit;
}

static uint64_t any_value(void)
{
    static const uint64_t near[8] = {0xf0, 0xf1, 0xf2, 0xf3, 0xf0, 0xf1, 0, 0};
    static const uint16_t gaps[16] = {0, 1, 2, 29, 30, 31, 59, 60, 61, 63, 64, 255, 256, 257, 3, 4};
    uint64_t value = near[below(8)] << 56 | gaps[below(16)];
    if (below(4) == 0)
        value = 1ull << below(64);
    return below(6) == 0 ? value ^ dice : value;
}

static uint16_t any_length(void)
{
    static const uint16_t lengths[12] = {0, 1, 2, 15, 16, 17, 31, 32, 33, 255, 899, 900};
    if (below(64) == 0)
        return (uint16_t)(below(3) == 0 ? 0xfd7c + below(8) : 0xffff - below(200));
    return lengths[below(12)];
}

static void change_field(struct step *step)
{
    switch (below(7)) {
    case 0:
        step->code = (uint8_t)below(STEP_CODES);
        break;
    case 1:
        step->fault = (uint8_t)(below(2) ? 0 : below(256));
        break;
    case 2:
        step->who = (uint8_t)below(256);
        break;
    case 3:
        step->how = (uint8_t)below(256);
        break;
    case 4:
        step->length = any_length();
        break;
    case 5:
        step->place = below(2) ? any_length() : (uint16_t)below(65536);
        break;
    default:
        step->value = any_value();
    }
}

static struct step any_step(void)
{
    struct step step = {.code = (uint8_t)below(STEP_CODES), .who = (uint8_t)below(256)};
    step.how = (uint8_t)(below(32) << 3);
    step.length = any_length();
    step.place = any_length();
    if (below(2) == 0)
        step.value = any_value();
    return step;
}

/* Puts a step before the one at a place; gives the number of steps then. */
static size_t insert(struct step *steps, size_t count, size_t at, struct step step)
{
    memmove(steps + at + 1, steps + at, (count - at) * sizeof step);
    steps[at] = step;
    return count + 1;
}

size_t LLVMFuzzerCustomMutator(uint8_t *data, size_t size, size_t max_size, unsigned seed)
{
    static struct step steps[4096];
    size_t count = size / sizeof *steps, most = max_size / sizeof *steps;
    dice = seed * 0x9e3779b97f4a7c15ull + 1;
    if (below(8) == 0 || size > sizeof steps - sizeof *steps || most < 2)
        return LLVMFuzzerMutate(data, size, max_size);
    memcpy(steps, data, count * sizeof *steps);
    if (count == 0)
        count = insert(steps, count, 0, any_step());
    size_t one = below((unsigned)count), other = below((unsigned)count);
    switch (below(6)) {
    case 0:
        if (count < most)
            count = insert(steps, count, one + 1, any_step());
        break;
    case 1:
        if (count < most)
            count = insert(steps, count, one + 1, steps[other]);
        break;
    case 2:
        memmove(steps + one, steps + one + 1, (count - one - 1) * sizeof *steps);
        count--;
        break;
    default:
        change_field(&steps[one]);
        if (below(2) == 0)
            change_field(&steps[other]);
    }
    memcpy(data, steps, count * sizeof *steps);
    return count * sizeof *steps;
}
