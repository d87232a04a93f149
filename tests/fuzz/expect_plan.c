#include "expect.h"

#include "lend.h"
#include "octets.h"
#include "relay.h"

/* What a datagram has besides address, padding and piece: as it is sealed, and of its header. */
static uint64_t besides(uint64_t method)
{
    return method <= 2 ? 32 + 11 : 40 + 27;
}

/* Whether the words are a plan, of as few datagrams as that. A sum that no word holds is too large. */
static int good(const uint64_t *words, size_t len, uint64_t room, uint64_t length, uint64_t fewest)
{
    uint64_t total = 0, both;
    for (size_t i = 0; i + 1 < len; i += 2) {
        if (words[i] == 0 || __builtin_add_overflow(total, words[i], &total))
            return 0;
        if (__builtin_add_overflow(words[i], words[i + 1], &both) || both > room)
            return 0;
    }
    return len % 2 == 0 && total == length && len / 2 == fewest;
}

uint64_t expect_plan(const struct call *call, struct expectation *e)
{
    static uint64_t plan[LEND_SIZE / sizeof(uint64_t)];
    const struct lending *address = &call->buffers[ADDRESS], *lent = &call->buffers[PLAN];
    size_t whole = address_length(address->data, address->len);
    if (call->method < 1 || call->method > 5)
        return RELAY_REFUSED_SETTINGS;
    if (whole == 0 || whole != address->len || call->limit > RELAY_MAX_DATAGRAM)
        return RELAY_REFUSED_ARGUMENT;
    uint64_t fixed = besides(call->method) + address->len;
    uint64_t room = call->limit > fixed ? call->limit - fixed : 0, fewest = 0;
    if (call->length > 0 && room == 0)
        return RELAY_REFUSED_ARGUMENT;
    if (call->length > 0)
        fewest = call->length / room + (call->length % room > 0);
    e->words_len = 1;
    if (call->function == PLAN_CHECK) {
        e->words[RELAY_AT_GOOD] =
            (uint64_t)good(lent->data, lent->len, room, call->length, fewest);
        return RELAY_OK;
    }
    if (fewest > lent->len / 2) {
        e->words_len = 0;
        return RELAY_REFUSED_ROOM;
    }
    for (uint64_t i = 0; i < fewest; i++) {
        plan[2 * i] = i + 1 < fewest ? room : call->length - room * i;
        plan[2 * i + 1] = 0;
    }
    e->words[RELAY_AT_DATAGRAMS] = fewest;
    e->plan = plan;
    e->plan_len = (size_t)(2 * fewest);
    return RELAY_OK;
}
