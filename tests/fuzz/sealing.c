/*
 * Steps that make, begin and seal. What was sealed must open to the same
 * payload, with a table, pool or stream that has just begun.
 */
#include "cipher.h"
#include "promises.h"
#include "steps.h"

#include <string.h>

void make_or_begin(const struct step *step)
{
    struct call call = new_call(step);
    call.retention = step->value >> 63 ? step->value : step->value % 4096;
    call.id = word_of(step->value);
    call.client = host.sessions[step->who / SESSIONS % SESSIONS][1];
    lend_to(&call, TABLE, host.tables[step->who & 1], RELAY_TABLE_WORDS);
    spoil(&call, step);
    run(&call);
}

/* ---- there and back */

static struct span payload_of(const struct call *sealing)
{
    struct span payload = {sealing->buffers[PAYLOAD].data, sealing->buffers[PAYLOAD].len};
    return payload;
}

/* The payload stands at the start of out, or where a word of the answer says. */
static void must_open(const struct call *call, struct span payload, unsigned place)
{
    struct left left = must_run(call, RELAY_OK, "what was sealed does not open");
    const uint8_t *out = left.lent[OUT].ours + (place > 0 ? answer_of(&left, place) : 0);
    if (payload.len > 0 && memcmp(out, payload.bytes, payload.len) != 0)
        broken("what was sealed opens to another payload");
}

static void datagram_back(const struct call *sealing, const struct message *message)
{
    static uint64_t table[RELAY_TABLE_WORDS];
    const uint64_t *session = sealing->buffers[SESSION].data;
    struct call call = *sealing;
    call.function = TABLE_NEW;
    call.retention = 60;
    lend_to(&call, TABLE, table, RELAY_TABLE_WORDS);
    must_run(&call, RELAY_OK, "no table was made");
    call.function = session[0] == 1 ? OPEN_CLIENT : OPEN_SERVER;
    call.client = session[2];
    lend_to(&call, INPUT, message->bytes, message->len);
    call.buffers[OUT].len = message->len - overhead(call.method);
    must_open(&call, payload_of(sealing), RELAY_AT_PAYLOAD);
}

static void sip004_datagram_back(const struct call *sealing, const struct message *message)
{
    struct call call = *sealing;
    call.function = SIP004_DATAGRAM_OPEN;
    lend_to(&call, INPUT, message->bytes, message->len);
    call.buffers[OUT].len = call.buffers[PAYLOAD].len;
    must_open(&call, payload_of(sealing), 0);
}

static void request_back(const struct call *sealing, const struct message *line)
{
    static uint64_t pool[RELAY_POOL_WORDS], stream[RELAY_STREAM_WORDS];
    struct call call = *sealing;
    call.function = POOL_NEW;
    lend_to(&call, POOL, pool, RELAY_POOL_WORDS);
    must_run(&call, RELAY_OK, "no pool was made");
    call.function = OPEN_REQUEST;
    lend_to(&call, STREAM, stream, RELAY_STREAM_WORDS);
    lend_to(&call, INPUT, line->bytes, line->len);
    struct left left = must_run(&call, RELAY_OK, "a request that was sealed does not open");
    size_t used = (size_t)answer_of(&left, RELAY_AT_USED);
    call.function = OPEN_VARIABLE;
    lend_to(&call, INPUT, line->bytes + used, line->len - used);
    must_open(&call, payload_of(sealing), RELAY_AT_HEAD_PAYLOAD);
}

static void response_back(const struct call *sealing, const struct message *line)
{
    static uint64_t stream[RELAY_STREAM_WORDS];
    struct call call = *sealing;
    call.function = OPEN_RESPONSE;
    lend_to(&call, STREAM, stream, RELAY_STREAM_WORDS);
    lend_to(&call, INPUT, line->bytes, line->len);
    struct left left = must_run(&call, RELAY_OK, "a response that was sealed does not open");
    size_t used = (size_t)answer_of(&left, RELAY_AT_USED);
    call.function = OPEN_CHUNK;
    lend_to(&call, INPUT, line->bytes + used, line->len - used);
    must_open(&call, payload_of(sealing), 0);
}

static void chunk_back(const struct call *sealing, const uint64_t *before, struct span sealed)
{
    static uint64_t stream[RELAY_STREAM_WORDS];
    struct call call = *sealing;
    memcpy(stream, before, sizeof stream);
    stream[RELAY_STREAM_TURN] = RELAY_TURN_LENGTH;
    call.function = of_sip004(sealing->function) ? SIP004_OPEN_CHUNK : OPEN_CHUNK;
    lend_to(&call, STREAM, stream, RELAY_STREAM_WORDS);
    lend_to(&call, INPUT, sealed.bytes, sealed.len);
    must_run(&call, RELAY_OK, "a length that was sealed does not open");
    lend_to(&call, INPUT, sealed.bytes + 18, sealed.len - 18);
    must_open(&call, payload_of(sealing), 0);
}

/* ---- sealing */

static void store(struct message *message, const struct left *left)
{
    message->len = (size_t)answer_of(left, RELAY_AT_SEALED_LENGTH);
    message->read = 0;
    memcpy(message->bytes, left->lent[OUT].ours, message->len);
}

void seal_datagram(const struct step *step)
{
    struct call call = new_call(step);
    struct span address = address_of(step->who / SESSIONS);
    size_t payload = length_of(step->length);
    call.padding = padding_of(step->place);
    lend_to(&call, NONCE, nonce_of(step), RELAY_NONCE_BYTES);
    lend_to(&call, ADDRESS, address.bytes, address.len);
    lend_to(&call, PAYLOAD, filled + (step->value & 0xff), payload);
    size_t fixed = overhead(host.method) + (double_rounds(host.method) > 0 ? 16 : 0);
    fixed += host.sessions[step->who % SESSIONS][0] == 1 ? 19 : 11;
    give_room(&call, step, fixed + (call.padding & 0x1ffff) + address.len + payload);
    spoil(&call, step);
    struct left left = run(&call);
    if (left.number != RELAY_OK)
        return;
    struct message *message = &datagrams[host.next_datagram++ % DATAGRAMS];
    store(message, &left);
    datagram_back(&call, message);
}

void seal_sip004_datagram(const struct step *step)
{
    struct call call = new_call(step);
    size_t salt = call.buffers[KEY].len, payload = length_of(step->length);
    lend_to(&call, SALT, salt_of(step->who / 16, step->value), salt);
    lend_to(&call, PAYLOAD, filled + (step->value & 0xff), payload);
    give_room(&call, step, salt + payload + TAG_LEN);
    spoil(&call, step);
    struct left left = run(&call);
    if (left.number != RELAY_OK)
        return;
    struct message *message = &datagrams[host.next_datagram++ % DATAGRAMS];
    store(message, &left);
    sip004_datagram_back(&call, message);
}

/* A line begins anew where its stream is to be opened. */
void begin_sip004_stream(const struct step *step)
{
    struct call call = new_call(step);
    lend_to(&call, SALT, salt_of(step->who / 16, step->value), call.buffers[KEY].len);
    spoil(&call, step);
    if (run(&call).number == RELAY_OK && call.function == SIP004_BEGIN_OPEN)
        line_of(step)->read = 0;
}

void seal_head(const struct step *step)
{
    struct call call = new_call(step);
    struct message *line = line_of(step);
    struct span address = address_of(step->who / 16);
    size_t salt = key_length(host.method), payload = length_of(step->length);
    call.padding = padding_of(step->place);
    lend_to(&call, SALT, salt_of(step->who / 16, step->value), salt);
    lend_to(&call, REQUEST_SALT, salts[step->place % SALTS], salt);
    lend_to(&call, ADDRESS, address.bytes, address.len);
    lend_to(&call, PAYLOAD, filled + (step->value & 0xff), payload);
    size_t more = salt;
    if (call.function == SEAL_REQUEST)
        more = address.len + 2 + (call.padding & 0x1ffff);
    give_room(&call, step, salt + 27 + payload + more + TAG_LEN);
    spoil(&call, step);
    struct left left = run(&call);
    if (left.number != RELAY_OK)
        return;
    store(line, &left);
    if (call.function == SEAL_REQUEST)
        request_back(&call, line);
    else
        response_back(&call, line);
}

void seal_chunk(const struct step *step)
{
    static uint8_t copy[MESSAGE_LEN];
    uint64_t before[RELAY_STREAM_WORDS];
    struct call call = new_call(step);
    size_t payload = length_of(step->length);
    memcpy(before, call.buffers[STREAM].data, sizeof before);
    lend_to(&call, PAYLOAD, filled + (step->value & 0xff), payload);
    give_room(&call, step, payload + 34);
    spoil(&call, step);
    struct left left = run(&call);
    if (left.number != RELAY_OK)
        return;
    struct span sealed = {copy, (size_t)answer_of(&left, RELAY_AT_SEALED_LENGTH)};
    memcpy(copy, left.lent[OUT].ours, sealed.len);
    append(line_of(step), sealed);
    chunk_back(&call, before, sealed);
}
