/*
 * Steps that open. A datagram or a request's front that was accepted is a
 * replay when it comes again at the same clock.
 */
#include "cipher.h"
#include "promises.h"
#include "steps.h"

static void must_be_replay(const struct call *call)
{
    must_run(call, RELAY_REFUSED_REPLAY, "accepted twice at the same clock");
}

void open_datagram(const struct step *step)
{
    const struct message *message = &datagrams[step->who / 8 % DATAGRAMS];
    struct call call = new_call(step);
    call.client = host.sessions[step->who % SESSIONS][2];
    if (step->value != 0)
        call.client = word_of(step->value);
    call.first = step->value;
    call.second = ~step->value;
    call.port = step->length;
    lend_to(&call, TABLE, host.tables[call.function == OPEN_CLIENT], RELAY_TABLE_WORDS);
    lend_to(&call, INPUT, message->bytes, message->len);
    size_t more = overhead(host.method);
    give_room(&call, step, message->len < more ? 0 : message->len - more);
    spoil(&call, step);
    if (run(&call).number == RELAY_OK)
        must_be_replay(&call);
}

void open_sip004_datagram(const struct step *step)
{
    const struct message *message = &datagrams[step->who / 8 % DATAGRAMS];
    struct call call = new_call(step);
    size_t around = call.buffers[KEY].len + TAG_LEN;
    lend_to(&call, INPUT, message->bytes, message->len);
    give_room(&call, step, message->len < around ? 0 : message->len - around);
    spoil(&call, step);
    run(&call);
}

void open_request(const struct step *step)
{
    struct message *line = line_of(step);
    struct call call = new_call(step);
    lend_to(&call, INPUT, line->bytes, line->len);
    spoil(&call, step);
    struct left left = run(&call);
    if (left.number != RELAY_OK)
        return;
    line->read = (size_t)answer_of(&left, RELAY_AT_USED);
    static uint64_t another[RELAY_STREAM_WORDS]; /* the stream is to stay for its variable header */
    lend_to(&call, STREAM, another, RELAY_STREAM_WORDS);
    must_be_replay(&call);
}

void open_variable(const struct step *step)
{
    struct message *line = line_of(step);
    struct call call = new_call(step);
    const uint64_t *stream = call.buffers[STREAM].data;
    lend_to(&call, INPUT, line->bytes + line->read, line->len - line->read);
    give_room(&call, step,
              stream[RELAY_STREAM_TURN] == RELAY_TURN_VARIABLE ? stream[3] & 0x1ffff : 0);
    spoil(&call, step);
    struct left left = run(&call);
    if (left.number == RELAY_OK)
        line->read += (size_t)answer_of(&left, RELAY_AT_HEAD_USED);
}

void open_response(const struct step *step)
{
    struct message *line = line_of(step);
    struct call call = new_call(step);
    lend_to(&call, REQUEST_SALT, salts[step->place % SALTS], key_length(host.method));
    lend_to(&call, INPUT, line->bytes, line->len);
    spoil(&call, step);
    struct left left = run(&call);
    if (left.number == RELAY_OK)
        line->read = (size_t)answer_of(&left, RELAY_AT_USED);
}

void open_chunk(const struct step *step)
{
    struct message *line = line_of(step);
    struct call call = new_call(step);
    const uint64_t *stream = call.buffers[STREAM].data;
    lend_to(&call, INPUT, line->bytes + line->read, line->len - line->read);
    give_room(&call, step,
              stream[RELAY_STREAM_TURN] == RELAY_TURN_PAYLOAD ? stream[3] & 0x1ffff : 0);
    spoil(&call, step);
    struct left left = run(&call);
    if (left.number == RELAY_OK)
        line->read += (size_t)answer_of(&left, RELAY_AT_USED);
}
