#include "feedback.h"

#include "relay.h"

enum { GROUPS = 40, GROUP = 64 };

/* The groups behind those of the functions' numbers. */
enum { INPUT_LENGTHS = FUNCTIONS, HEADERS, PACKETS, TURNS, RECORDS };

__attribute__((section("__libfuzzer_extra_counters"))) static uint8_t features[GROUPS * GROUP];

static void feature(unsigned group, uint64_t value)
{
    uint8_t *counter = &features[group % GROUPS * GROUP + value % GROUP];
    if (*counter < UINT8_MAX)
        ++*counter;
}

static unsigned magnitude(uint64_t value)
{
    unsigned bits = 0;
    for (; value > 0; value >>= 1)
        bits++;
    return bits;
}

/* 0 for AES, 1 to 3 for the methods of ChaCha. */
static unsigned cipher_of(const struct call *call)
{
    uint64_t method = call->method;
    if (takes(call->function, STREAM) && !takes(call->function, KEY) &&
        call->buffers[STREAM].len == RELAY_STREAM_WORDS)
        method = ((const uint64_t *)call->buffers[STREAM].data)[RELAY_STREAM_METHOD];
    if (method < RELAY_CHACHA20_POLY1305 || method > RELAY_CHACHA8_POLY1305)
        return 0;
    return (unsigned)(method - RELAY_CHACHA20_POLY1305 + 1);
}

/* Which words of a record were written, and how far they moved. */
static void changed_words(const struct call *call, const struct left *left, enum buffer b)
{
    const uint64_t *before = call->buffers[b].data;
    const uint64_t *after = (const void *)left->lent[b].ours;
    size_t record = b == TABLE ? RELAY_RECORD_WORDS : 6;
    for (size_t i = 1; i < call->buffers[b].len; i++)
        if (before[i] != after[i])
            feature(RECORDS + (unsigned)((i - 1) % record), magnitude(after[i] - before[i]));
}

void feedback(const struct call *call, const struct left *left)
{
    enum function f = call->function;
    const uint64_t *answer = (const void *)left->lent[ANSWER].ours;
    feature(f, left->number + 16 * cipher_of(call));
    if (takes(f, INPUT))
        feature(INPUT_LENGTHS, left->number * 4 + magnitude(call->buffers[INPUT].len) / 5);
    if (takes(f, STREAM) && call->buffers[STREAM].len > 0)
        feature(TURNS, left->number * 5 + ((const uint64_t *)call->buffers[STREAM].data)[0] % 5);
    if (left->number != RELAY_OK)
        return;
    if (f == OPEN_SERVER || f == OPEN_CLIENT) {
        feature(HEADERS, answer[RELAY_AT_KIND] * 8 + magnitude(answer[RELAY_AT_PADDING]) / 2);
        feature(PACKETS, magnitude(answer[RELAY_AT_PACKET_ID]));
        changed_words(call, left, TABLE);
    }
    if (f == OPEN_REQUEST)
        changed_words(call, left, POOL);
}
