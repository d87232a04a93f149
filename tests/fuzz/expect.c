#include "expect.h"

#include "chacha.h"
#include "cipher.h"
#include "messages.h"
#include "relay.h"

#include <string.h>

enum {
    SEPARATE_LEN = 16,
    TIME_LIMIT = 30,
    MIN_RETENTION = 60,
    MAX_RETENTION = 3600,
    RECORD_WORDS = 13,
    AT_ACCEPTED = 11, /* the counts of a record */
    AT_REPEATS = 12,
    SALT_WORDS = 6,
    WINDOW = 256,
    KEPT = 60,
    MAX_PADDING = 900,
};

enum { LONGEST = RELAY_MAX_CHUNK + 200 }; /* of a head with its tags and salts */

static uint8_t opened[LONGEST]; /* the last plaintext that was opened */
static uint8_t text[LONGEST];   /* the last one that was sealed, and what it was sealed to */
static uint8_t sealed[LONGEST];

static const uint8_t *bytes_of(const struct call *c, enum buffer b)
{
    return c->buffers[b].data;
}

static const uint64_t *words_of(const struct call *c, enum buffer b)
{
    return c->buffers[b].data;
}

static size_t len_of(const struct call *c, enum buffer b)
{
    return c->buffers[b].len;
}

/* What an edition sets: the lengths of keys by method, and of a chunk at least and at most. */
struct edition {
    size_t (*key_length)(uint64_t method);
    size_t least, greatest;
};

static const struct edition *edition_of(const struct call *c)
{
    static const struct edition sip022 = {key_length, 1, RELAY_MAX_CHUNK},
                                sip004 = {sip004_key_length, 0, RELAY_SIP004_MAX_CHUNK};
    return of_sip004(c->function) ? &sip004 : &sip022;
}

static uint64_t larger(uint64_t a, uint64_t b)
{
    return a > b ? a : b;
}

/* Whether the clock is not past a time, or past it by no more than this. */
static int within(uint64_t clock, uint64_t time, uint64_t limit)
{
    return clock <= time || clock - time <= limit;
}

/* ---- refusal 1 */

static int lawful_retention(uint64_t retention)
{
    return retention >= MIN_RETENTION && retention <= MAX_RETENTION;
}

static int lawful_buffer(const struct call *c, enum buffer b)
{
    size_t len = len_of(c, b), key_len = edition_of(c)->key_length(c->method);
    switch (b) {
    case KEY:
    case SALT:
    case REQUEST_SALT:
        return key_len != 0 && len == key_len;
    case NONCE:
        return double_rounds(c->method) == 0 || len == EXTENDED_NONCE_LEN;
    case TABLE:
        return len == RELAY_TABLE_WORDS &&
               (c->function == TABLE_NEW || lawful_retention(words_of(c, TABLE)[0]));
    case POOL:
        return len == RELAY_POOL_WORDS &&
               (c->function == POOL_NEW || words_of(c, POOL)[0] == c->method);
    case SESSION:
        return len == RELAY_SESSION_WORDS &&
               (c->function != DATAGRAM_SEAL || words_of(c, SESSION)[0] <= 1);
    case STREAM:
        return len == RELAY_STREAM_WORDS;
    case ANSWER:
        return len == RELAY_ANSWER_WORDS;
    default:
        return 1;
    }
}

/* Whether a stream is at the turn of its call, or ended, and of a method. */
static int lawful_turn(const struct call *c)
{
    const uint64_t *w = words_of(c, STREAM);
    const struct edition *edition = edition_of(c);
    if (edition->key_length(w[1]) == 0)
        return 0;
    if (c->function == SEAL_CHUNK || c->function == SIP004_SEAL_CHUNK)
        return w[0] == RELAY_TURN_SEALING || w[0] == RELAY_TURN_ENDED;
    if (c->function == OPEN_VARIABLE)
        return w[0] == RELAY_TURN_ENDED ||
               (w[0] == RELAY_TURN_VARIABLE && w[2] == 1 && w[3] <= RELAY_MAX_CHUNK);
    return w[0] <= RELAY_TURN_LENGTH ||
           (w[0] == RELAY_TURN_PAYLOAD && w[3] >= edition->least && w[3] <= edition->greatest);
}

static int lawful(const struct call *c)
{
    for (enum buffer b = 0; b < BUFFERS; b++)
        if (takes(c->function, b) && !lawful_buffer(c, b))
            return 0;
    if (c->function == TABLE_NEW)
        return c->retention == 0 || lawful_retention(c->retention);
    if (c->function == POOL_NEW)
        return key_length(c->method) != 0;
    if (c->function == SEAL_CHUNK || c->function == OPEN_CHUNK || c->function == OPEN_VARIABLE ||
        c->function == SIP004_SEAL_CHUNK || c->function == SIP004_OPEN_CHUNK)
        return lawful_turn(c);
    return 1;
}

/* ---- addresses */

static int one_address(const struct call *c)
{
    size_t len = len_of(c, ADDRESS);
    return len > 0 && address_length(bytes_of(c, ADDRESS), len) == len;
}

/* ---- making and beginning */

static void set_state(struct expectation *e, uint64_t a, uint64_t b, uint64_t c, uint64_t d,
                      const uint64_t *subkey)
{
    uint64_t words[4] = {a, b, c, d};
    memcpy(e->state, words, sizeof words);
    e->state_len = 4;
    if (subkey != NULL) {
        memcpy(e->state + 4, subkey, 4 * sizeof *subkey);
        e->state_len = 8;
    }
}

/* Whether a record that is alive has the ID of a session to be begun. */
static int taken(const struct call *c)
{
    const uint64_t *table = words_of(c, TABLE);
    for (int i = 0; i < 64; i++) {
        const uint64_t *record = table + 1 + RECORD_WORDS * i;
        if (record[0] != 0 && within(c->clock, record[3], table[0]) && record[1] == c->id)
            return 1;
    }
    return 0;
}

static uint64_t expect_begun(const struct call *c, struct expectation *e)
{
    if (c->function == BEGIN_SERVER && (c->id == c->client || taken(c)))
        return RELAY_REFUSED_ARGUMENT;
    int server = c->function == BEGIN_SERVER;
    set_state(e, (uint64_t)server, c->id, server ? c->client : 0, 0, NULL);
    return RELAY_OK;
}

/* ---- sealing */

static struct span span_of(const struct call *c, enum buffer b)
{
    struct span span = {bytes_of(c, b), len_of(c, b)};
    return span;
}

/* Refusals 2 and 3, for a text that must not be longer than this and what is around it. */
static uint64_t expect_size(const struct call *c, struct expectation *e, size_t len, size_t limit,
                            size_t around)
{
    if (len > limit)
        return RELAY_REFUSED_LENGTH;
    if (len + around > len_of(c, OUT))
        return RELAY_REFUSED_ROOM;
    e->due = len + around;
    e->text = sealed;
    e->words[RELAY_AT_SEALED_LENGTH] = e->due;
    e->words_len = 1;
    return RELAY_OK;
}

/* How many bytes of IDs the plaintext of a datagram begins with. */
static size_t inner_ids(const struct call *c)
{
    return double_rounds(c->method) > 0 ? SEPARATE_LEN : 0;
}

/* The datagram of an accepted call, to `sealed`. */
static void seal_datagram(const struct call *c)
{
    const uint64_t *w = words_of(c, SESSION);
    size_t ids = inner_ids(c) > 0 ? ids_text(text, w[1], w[3]) : 0;
    struct span whole = {text, ids};
    whole.len += datagram_text(text + ids, w[0], c->clock, w[2], c->padding, span_of(c, ADDRESS),
                               span_of(c, PAYLOAD));
    if (ids > 0)
        craft_inner(c->method, span_of(c, KEY), bytes_of(c, NONCE), whole, sealed);
    else
        craft_datagram(span_of(c, KEY), w[1], w[3], whole, sealed);
}

static uint64_t expect_datagram(const struct call *c, struct expectation *e)
{
    const uint64_t *w = words_of(c, SESSION);
    if (!one_address(c) || (w[0] == 1 && w[1] == w[2]))
        return RELAY_REFUSED_ARGUMENT;
    if (w[3] == UINT64_MAX)
        return RELAY_REFUSED_COUNTER;
    if (c->padding > RELAY_MAX_DATAGRAM)
        return RELAY_REFUSED_LENGTH;
    size_t len = overhead(c->method) + inner_ids(c) + (w[0] == 1 ? 19 : 11) + c->padding;
    len += len_of(c, ADDRESS) + len_of(c, PAYLOAD);
    uint64_t number = expect_size(c, e, len, RELAY_MAX_DATAGRAM, 0);
    if (number != RELAY_OK)
        return number;
    set_state(e, w[0], w[1], w[2], w[3] + 1, NULL);
    seal_datagram(c);
    return RELAY_OK;
}

static void subkey_words(const struct call *c, const uint8_t *salt, uint64_t *words)
{
    uint8_t subkey[32] = {0};
    size_t len = len_of(c, KEY);
    if (of_sip004(c->function))
        sip004_subkey(bytes_of(c, KEY), len, salt, subkey);
    else
        derive_subkey(bytes_of(c, KEY), len, salt, len, subkey);
    for (int i = 0; i < 4; i++)
        words[i] = get_number(subkey + 8 * i, 8);
}

/* An accepted head, and the stream behind it. */
static void expect_head(const struct call *c, struct expectation *e, struct span fixed,
                        struct span whole)
{
    uint64_t subkey[4];
    subkey_words(c, bytes_of(c, SALT), subkey);
    set_state(e, RELAY_TURN_SEALING, c->method, 2, 0, subkey);
    craft_head(c->method, span_of(c, KEY), bytes_of(c, SALT), fixed, whole, sealed);
}

static uint64_t expect_sealed_request(const struct call *c, struct expectation *e)
{
    int said = c->padding > 0 || len_of(c, PAYLOAD) > 0;
    if (!one_address(c) || c->padding > MAX_PADDING || !said)
        return RELAY_REFUSED_ARGUMENT;
    size_t len = len_of(c, ADDRESS) + 2 + c->padding + len_of(c, PAYLOAD);
    size_t around = key_length(c->method) + 11 + 2 * TAG_LEN;
    uint64_t number = expect_size(c, e, len, RELAY_MAX_CHUNK, around);
    if (number != RELAY_OK)
        return number;
    uint8_t front[11];
    struct span none = {NULL, 0}, fixed = {front, 0}, whole = {text, 0};
    fixed.len = fixed_text(front, 0, c->clock, none, len);
    whole.len = variable_text(text, c->padding, span_of(c, ADDRESS), span_of(c, PAYLOAD));
    expect_head(c, e, fixed, whole);
    return RELAY_OK;
}

static uint64_t expect_sealed_response(const struct call *c, struct expectation *e)
{
    size_t len = len_of(c, PAYLOAD), around = 2 * key_length(c->method) + 11 + 2 * TAG_LEN;
    if (len == 0)
        return RELAY_REFUSED_EMPTY;
    uint64_t number = expect_size(c, e, len, RELAY_MAX_CHUNK, around);
    if (number != RELAY_OK)
        return number;
    uint8_t front[43];
    struct span fixed = {front, 0};
    fixed.len = fixed_text(front, 1, c->clock, span_of(c, REQUEST_SALT), len);
    expect_head(c, e, fixed, span_of(c, PAYLOAD));
    return RELAY_OK;
}

/* The subkey of a stream's words, as bytes. */
static void stream_subkey(const uint64_t *words, uint8_t *subkey)
{
    for (int i = 0; i < 4; i++)
        put_number(subkey + 8 * i, 8, words[4 + i]);
}

static uint64_t expect_sealed_chunk(const struct call *c, struct expectation *e)
{
    const uint64_t *w = words_of(c, STREAM);
    const struct edition *edition = edition_of(c);
    if (len_of(c, PAYLOAD) < edition->least)
        return RELAY_REFUSED_EMPTY;
    if (w[0] == RELAY_TURN_ENDED)
        return RELAY_REFUSED_NOT_AUTHENTIC;
    if (w[2] >= UINT64_MAX - 1)
        return RELAY_REFUSED_COUNTER;
    uint64_t number = expect_size(c, e, len_of(c, PAYLOAD), edition->greatest, 2 + 2 * TAG_LEN);
    if (number != RELAY_OK)
        return number;
    uint8_t subkey[32], said[2];
    struct span length = {said, sizeof said};
    put_number(said, 2, len_of(c, PAYLOAD));
    stream_subkey(w, subkey);
    size_t len = craft_piece(w[1], subkey, w[2], length, sealed);
    craft_piece(w[1], subkey, w[2] + 1, span_of(c, PAYLOAD), sealed + len);
    set_state(e, RELAY_TURN_SEALING, w[1], w[2] + 2, 0, w + 4);
    return RELAY_OK;
}

/* ---- opening datagrams */

/* Refusals 5, 6, 7 and 13 of a plaintext, whose main header is behind its IDs if it has any. */
static uint64_t expect_header(const struct call *c, struct expectation *e)
{
    size_t ids = inner_ids(c), bound = c->function == OPEN_CLIENT ? 8 : 0, end = ids + 11 + bound;
    const uint8_t *header = opened + ids;
    if (e->due < end)
        return RELAY_REFUSED_MALFORMED;
    uint64_t time = get_number(header + 1, 8);
    if (header[0] != (bound ? 1 : 0))
        return RELAY_REFUSED_TYPE;
    if (!within(c->clock, time, TIME_LIMIT) || !within(time, c->clock, TIME_LIMIT))
        return RELAY_REFUSED_TIME;
    if (bound && get_number(header + 9, 8) != c->client)
        return RELAY_REFUSED_BINDING;
    size_t padding = (size_t)get_number(opened + end - 2, 2), place = end + padding;
    size_t address = place < e->due ? address_length(opened + place, e->due - place) : 0;
    if (address == 0)
        return RELAY_REFUSED_MALFORMED;
    address_words(opened, place, address, e->words);
    e->words[RELAY_AT_TIMESTAMP] = time;
    e->words[RELAY_AT_PADDING] = padding;
    e->words[RELAY_AT_PAYLOAD] = place + address;
    return RELAY_OK;
}

/* The record that is alive for an ID, or the first that is not alive where none is; -1: full. */
static int find_record(const uint64_t *table, uint64_t clock, uint64_t id, int *known)
{
    int room = -1;
    *known = 0;
    for (int i = 0; i < 64; i++) {
        const uint64_t *record = table + 1 + RECORD_WORDS * i;
        int alive = record[0] != 0 && within(clock, record[3], table[0]);
        if (alive && record[1] == id) {
            *known = 1;
            return i;
        }
        if (!alive && room < 0)
            room = i;
    }
    return room;
}

static int marked(const uint64_t *record, uint64_t distance)
{
    return (int)(record[4 + distance / 64] >> distance % 64 & 1);
}

static int fresh(const uint64_t *record, uint64_t packet)
{
    uint64_t distance = record[2] - packet;
    return packet > record[2] || (distance < WINDOW && !marked(record, distance));
}

/* The record with a packet accepted: the window moved up if it is above the highest. */
static void accept_packet(uint64_t *next, const uint64_t *record, uint64_t packet, uint64_t clock)
{
    uint64_t up = packet > record[2] ? packet - record[2] : 0;
    memcpy(next, record, RECORD_WORDS * sizeof *next);
    memset(next + 4, 0, 4 * sizeof *next);
    for (uint64_t d = 0; d < WINDOW; d++)
        if (marked(record, d) && d + up >= up && d + up < WINDOW)
            next[4 + (d + up) / 64] |= 1ull << (d + up) % 64;
    next[2] = larger(record[2], packet);
    next[3] = larger(record[3], clock);
    uint64_t distance = next[2] - packet;
    next[4 + distance / 64] |= 1ull << distance % 64;
}

/* A count, which stops at the last number. */
static uint64_t one_more(uint64_t count)
{
    return count == UINT64_MAX ? count : count + 1;
}

static uint64_t expect_admitted(const struct call *c, struct expectation *e)
{
    uint64_t id = e->words[RELAY_AT_SESSION_ID], packet = e->words[RELAY_AT_PACKET_ID];
    int known, place = find_record(words_of(c, TABLE), c->clock, id, &known);
    if (place < 0)
        return RELAY_REFUSED_FULL;
    e->record_at = 1 + RECORD_WORDS * (size_t)place;
    const uint64_t *record = words_of(c, TABLE) + e->record_at;
    uint64_t empty[RECORD_WORDS] = {1, id, packet, c->clock};
    if (known && !fresh(record, packet)) {
        e->record_at += AT_REPEATS;
        e->record[0] = one_more(record[AT_REPEATS]);
        e->record_len = 1;
        return RELAY_REFUSED_REPLAY;
    }
    accept_packet(e->record, known ? record : empty, packet, c->clock);
    e->record[8] = c->first;
    e->record[9] = c->second;
    e->record[10] = c->port;
    e->record[AT_ACCEPTED] = one_more(e->record[AT_ACCEPTED]);
    e->record_len = RECORD_WORDS;
    return RELAY_OK;
}

/* Whether a datagram is authentic. Its plaintext is then in `opened`, and its IDs are where they
 * are written: a plaintext too short for them has none. */
static int datagram_opens(const struct call *c, uint8_t *ids)
{
    const uint8_t *datagram = bytes_of(c, INPUT), *key = bytes_of(c, KEY);
    size_t len = len_of(c, INPUT), key_len = len_of(c, KEY);
    unsigned doubles = double_rounds(c->method);
    uint8_t subkey[32], nonce[12];
    if (doubles == 0) {
        block_decrypt(key, key_len, datagram, ids);
        derive_subkey(key, key_len, ids, 8, subkey);
        return gcm_open(subkey, key_len, ids + 4, datagram + SEPARATE_LEN, len - SEPARATE_LEN,
                        opened);
    }
    chacha_extended(doubles, key, datagram, subkey, nonce);
    int good = chacha_open(doubles, subkey, nonce, datagram + EXTENDED_NONCE_LEN,
                           len - EXTENDED_NONCE_LEN, opened);
    memcpy(ids, opened, SEPARATE_LEN);
    return good;
}

static uint64_t expect_opened(const struct call *c, struct expectation *e)
{
    size_t len = len_of(c, INPUT), more = overhead(c->method);
    uint8_t ids[SEPARATE_LEN];
    if (len < more || len > RELAY_MAX_DATAGRAM)
        return RELAY_REFUSED_LENGTH;
    if (len_of(c, OUT) < len - more)
        return RELAY_REFUSED_ROOM;
    if (!datagram_opens(c, ids))
        return RELAY_REFUSED_NOT_AUTHENTIC;
    e->due = len - more;
    uint64_t number = expect_header(c, e);
    e->words[RELAY_AT_SESSION_ID] = get_number(ids, 8);
    e->words[RELAY_AT_PACKET_ID] = get_number(ids + 8, 8);
    if (number == RELAY_OK)
        number = expect_admitted(c, e);
    if (number == RELAY_OK) {
        e->text = opened;
        e->words_len = 9;
    }
    return number;
}

/* ---- opening streams */

static uint64_t wants(struct expectation *e, size_t wanted)
{
    e->words[0] = wanted;
    e->words_len = 1;
    return RELAY_REFUSED_MORE;
}

/* The refusals that both heads have, of the fixed header; the text is left in `opened`. */
static uint64_t expect_fixed(const struct call *c, struct expectation *e, size_t fixed,
                             uint8_t type, uint8_t *subkey)
{
    size_t salt = key_length(c->method), wanted = salt + fixed + TAG_LEN;
    if (len_of(c, INPUT) < wanted)
        return wants(e, wanted);
    const uint8_t *bytes = bytes_of(c, INPUT);
    derive_subkey(bytes_of(c, KEY), salt, bytes, salt, subkey);
    if (!piece_open(c->method, subkey, 0, bytes + salt, fixed + TAG_LEN, opened))
        return RELAY_REFUSED_NOT_AUTHENTIC;
    uint64_t time = get_number(opened + 1, 8);
    if (opened[0] != type)
        return RELAY_REFUSED_TYPE;
    if (!within(c->clock, time, TIME_LIMIT) || !within(time, c->clock, TIME_LIMIT))
        return RELAY_REFUSED_TIME;
    return RELAY_OK;
}

/* What the front of a head says. */
static void set_front(struct expectation *e, size_t used, uint64_t length, uint64_t time)
{
    e->words[RELAY_AT_USED] = used;
    e->words[RELAY_AT_CHUNK_LENGTH] = length;
    e->words[RELAY_AT_HEAD_TIME] = time;
    e->words_len = 3;
}

/* Refusals 8 and 9, and where the salt is stored. */
static uint64_t expect_stored(const struct call *c, struct expectation *e)
{
    const uint64_t *pool = words_of(c, POOL);
    size_t salt = key_length(c->method);
    uint64_t record[SALT_WORDS] = {1, c->clock};
    for (size_t i = 0; i < salt / 8; i++)
        record[2 + i] = get_number(bytes_of(c, INPUT) + 8 * i, 8);
    memcpy(e->record, record, sizeof record);
    for (size_t at = 1; at < RELAY_POOL_WORDS; at += SALT_WORDS) {
        int kept = pool[at] != 0 && within(c->clock, pool[at + 1], KEPT);
        if (kept && memcmp(pool + at + 2, record + 2, salt) == 0)
            return RELAY_REFUSED_REPLAY;
        if (!kept && e->record_at == 0)
            e->record_at = at;
    }
    return e->record_at == 0 ? RELAY_REFUSED_FULL : RELAY_OK;
}

/* Refusal 5 of a variable header, and what it says. */
static uint64_t expect_header_text(struct expectation *e, size_t used)
{
    size_t address = address_length(opened, e->due);
    if (address == 0 || e->due - address < 2)
        return RELAY_REFUSED_MALFORMED;
    size_t padding = (size_t)get_number(opened + address, 2), place = address + 2 + padding;
    int said = padding > 0 || place < e->due;
    if (padding > MAX_PADDING || place > e->due || !said)
        return RELAY_REFUSED_MALFORMED;
    address_words(opened, 0, address, e->words);
    e->words[RELAY_AT_HEAD_PADDING] = padding;
    e->words[RELAY_AT_HEAD_PAYLOAD] = place;
    e->words[RELAY_AT_HEAD_USED] = used;
    e->words[RELAY_AT_HEAD_LENGTH] = e->due;
    e->words_len = 8;
    e->text = opened;
    return RELAY_OK;
}

static uint64_t expect_request(const struct call *c, struct expectation *e)
{
    uint8_t subkey[32] = {0};
    uint64_t number = expect_fixed(c, e, 11, 0, subkey), words[4];
    if (number != RELAY_OK)
        return number;
    uint64_t time = get_number(opened + 1, 8), length = get_number(opened + 9, 2);
    number = expect_stored(c, e);
    if (number != RELAY_OK)
        return number;
    subkey_words(c, bytes_of(c, INPUT), words);
    set_state(e, RELAY_TURN_VARIABLE, c->method, 1, length, words);
    set_front(e, key_length(c->method) + 11 + TAG_LEN, length, time);
    e->record_len = SALT_WORDS;
    return RELAY_OK;
}

static uint64_t expect_variable(const struct call *c, struct expectation *e)
{
    const uint64_t *w = words_of(c, STREAM);
    size_t len = (size_t)w[3];
    uint8_t subkey[32];
    if (w[0] == RELAY_TURN_ENDED)
        return RELAY_REFUSED_NOT_AUTHENTIC;
    if (len_of(c, INPUT) < len + TAG_LEN)
        return wants(e, len + TAG_LEN);
    if (len_of(c, OUT) < len)
        return RELAY_REFUSED_ROOM;
    stream_subkey(w, subkey);
    if (!piece_open(w[1], subkey, 1, bytes_of(c, INPUT), len + TAG_LEN, opened))
        return RELAY_REFUSED_NOT_AUTHENTIC;
    e->due = len;
    set_state(e, RELAY_TURN_LENGTH, w[1], 2, 0, w + 4);
    return expect_header_text(e, len + TAG_LEN);
}

static uint64_t expect_response(const struct call *c, struct expectation *e)
{
    uint8_t subkey[32] = {0};
    size_t salt = key_length(c->method), fixed = 11 + salt;
    uint64_t number = expect_fixed(c, e, fixed, 1, subkey), words[4];
    if (number != RELAY_OK)
        return number;
    if (memcmp(opened + 9, bytes_of(c, REQUEST_SALT), salt) != 0)
        return RELAY_REFUSED_BINDING;
    uint64_t length = get_number(opened + fixed - 2, 2);
    if (length == 0)
        return RELAY_REFUSED_EMPTY;
    subkey_words(c, bytes_of(c, INPUT), words);
    set_state(e, RELAY_TURN_PAYLOAD, c->method, 1, length, words);
    set_front(e, salt + fixed + TAG_LEN, length, get_number(opened + 1, 8));
    return RELAY_OK;
}

static uint64_t expect_opened_chunk(const struct call *c, struct expectation *e)
{
    const uint64_t *w = words_of(c, STREAM);
    const struct edition *edition = edition_of(c);
    int payload = w[0] == RELAY_TURN_PAYLOAD;
    size_t len = payload ? (size_t)w[3] : 2;
    uint8_t subkey[32];
    if (w[0] == RELAY_TURN_ENDED)
        return RELAY_REFUSED_NOT_AUTHENTIC;
    if (w[2] == UINT64_MAX)
        return RELAY_REFUSED_COUNTER;
    if (len_of(c, INPUT) < len + TAG_LEN)
        return wants(e, len + TAG_LEN);
    if (payload && len_of(c, OUT) < len)
        return RELAY_REFUSED_ROOM;
    stream_subkey(w, subkey);
    if (!piece_open(w[1], subkey, w[2], bytes_of(c, INPUT), len + TAG_LEN, opened))
        return RELAY_REFUSED_NOT_AUTHENTIC;
    uint64_t length = payload ? len : get_number(opened, 2);
    if (length < edition->least)
        return RELAY_REFUSED_EMPTY;
    if (length > edition->greatest)
        return RELAY_REFUSED_MALFORMED;
    uint64_t turn = payload ? RELAY_TURN_LENGTH : RELAY_TURN_PAYLOAD;
    set_state(e, turn, w[1], w[2] + 1, payload ? 0 : length, w + 4);
    e->words[RELAY_AT_USED] = len + TAG_LEN;
    e->words[RELAY_AT_CHUNK_LENGTH] = length;
    e->words_len = 2;
    e->due = payload ? len : 0;
    e->text = opened;
    return RELAY_OK;
}

/* ---- the 2017 edition */

static const uint8_t ZERO_NONCE[12];

static uint64_t expect_sip004_sealed(const struct call *c, struct expectation *e)
{
    size_t len = len_of(c, KEY), around = len + TAG_LEN;
    uint64_t number = expect_size(c, e, len_of(c, PAYLOAD), RELAY_MAX_DATAGRAM - around, around);
    if (number != RELAY_OK)
        return number;
    uint8_t subkey[32];
    sip004_subkey(bytes_of(c, KEY), len, bytes_of(c, SALT), subkey);
    memcpy(sealed, bytes_of(c, SALT), len);
    gcm_seal(subkey, len, ZERO_NONCE, bytes_of(c, PAYLOAD), len_of(c, PAYLOAD), sealed + len);
    return RELAY_OK;
}

static uint64_t expect_sip004_opened(const struct call *c, struct expectation *e)
{
    size_t len = len_of(c, INPUT), key_len = len_of(c, KEY), around = key_len + TAG_LEN;
    const uint8_t *datagram = bytes_of(c, INPUT);
    uint8_t subkey[32];
    if (len < around || len > RELAY_MAX_DATAGRAM)
        return RELAY_REFUSED_LENGTH;
    if (len_of(c, OUT) < len - around)
        return RELAY_REFUSED_ROOM;
    sip004_subkey(bytes_of(c, KEY), key_len, datagram, subkey);
    if (!gcm_open(subkey, key_len, ZERO_NONCE, datagram + key_len, len - key_len, opened))
        return RELAY_REFUSED_NOT_AUTHENTIC;
    e->due = len - around;
    e->text = opened;
    e->words[RELAY_AT_PLAINTEXT_LENGTH] = e->due;
    e->words_len = 1;
    return RELAY_OK;
}

static uint64_t expect_sip004_begun(const struct call *c, struct expectation *e)
{
    uint64_t words[4];
    int seals = c->function == SIP004_BEGIN_SEAL;
    subkey_words(c, bytes_of(c, SALT), words);
    set_state(e, seals ? RELAY_TURN_SEALING : RELAY_TURN_LENGTH, c->method, 0, 0, words);
    return RELAY_OK;
}

/* ---- all */

struct expectation expect(const struct call *call)
{
    static uint64_t (*const rules[FUNCTIONS])(const struct call *, struct expectation *) = {
        [BEGIN_CLIENT] = expect_begun,
        [BEGIN_SERVER] = expect_begun,
        [DATAGRAM_SEAL] = expect_datagram,
        [OPEN_SERVER] = expect_opened,
        [OPEN_CLIENT] = expect_opened,
        [SEAL_REQUEST] = expect_sealed_request,
        [OPEN_REQUEST] = expect_request,
        [SEAL_RESPONSE] = expect_sealed_response,
        [OPEN_RESPONSE] = expect_response,
        [SEAL_CHUNK] = expect_sealed_chunk,
        [OPEN_CHUNK] = expect_opened_chunk,
        [OPEN_VARIABLE] = expect_variable,
        [PLAN_MAKE] = expect_plan,
        [PLAN_CHECK] = expect_plan,
        [SIP004_DATAGRAM_SEAL] = expect_sip004_sealed,
        [SIP004_DATAGRAM_OPEN] = expect_sip004_opened,
        [SIP004_BEGIN_SEAL] = expect_sip004_begun,
        [SIP004_BEGIN_OPEN] = expect_sip004_begun,
        [SIP004_SEAL_CHUNK] = expect_sealed_chunk,
        [SIP004_OPEN_CHUNK] = expect_opened_chunk,
    };
    struct expectation e = {0};
    if (!lawful(call))
        e.number = RELAY_REFUSED_SETTINGS;
    else if (rules[call->function] != NULL)
        e.number = rules[call->function](call, &e);
    return e;
}
