/*
 * The fuzz target of settings files: an input makes settings and a file of them,
 * lawful or not, and what the library writes and reads is held to a second account
 * of the format, which is here. A file that was accepted is taken apart and written
 * again, and must come out the same.
 * Buffers are lent beside pages that nobody may touch (lend.h).
 *
 * An input begins with a byte of ways, one of room and one of the edition. Then come
 * the settings, three bytes each, and patches of two bytes until its end.
 */
#include "blake3.h"
#include "files.h"
#include "lend.h"
#include "octets.h"
#include "relay.h"

#include <stdio.h>
#include <stdlib.h>
#include <string.h>

int LLVMFuzzerTestOneInput(const uint8_t *data, size_t size);

enum {
    FRONT = 4, /* edition and count */
    ENTRY = 6,
    MAX_COUNT = FILE_ROOM / ENTRY,
    LAWFUL_NUMBER = 65535,
    LAWFUL_LIMIT = 65507,
};

/* Ways of an input. */
enum {
    UNSORTED = 1,
    KEEP_HASH = 2, /* patches leave the hash as it was */
    BAD_ANSWER = 4,
    RAW = 8, /* the file is the input */
    AT_START = 16,
    LONG = 32,      /* around the longest file */
    ODD_WORDS = 64, /* settings are lent with a word more */
    OFF_SUMS = 128, /* the last length is another one, or wraps */
};

static int at_start;

/* ---- settings to write */

static uint64_t words[2 * MAX_COUNT + 1]; /* numbers and lengths */
static size_t count;
static struct file bodies;

/* Writes the body of a setting, lawful for most bytes of an input, and gives its length. */
static size_t make_body(uint8_t *body, uint64_t number, uint8_t how, uint8_t fill)
{
    const uint16_t retentions[8] = {0, 60, 300, 3600, 59, 3601, 1, fill};
    const uint32_t limits[8] = {0, 1500, 65507, 65508, 65506, 1u << 31, fill, 256};
    const uint8_t kinds[4] = {1, 4, 3, fill};
    size_t len = how >= 240 ? how % 8 : how % 40;
    memset(body, fill, 300);
    if (how >= 240 || number < 1 || number > 4)
        return len;
    if (number == 1)
        return 1;
    if (number == 2)
        put_number(body, 2, retentions[how % 8]);
    if (number == 3)
        put_number(body, 4, limits[how % 8]);
    if (number < 4)
        return number == 2 ? 2 : 4;
    body[0] = kinds[how % 4];
    len = address_length(body, 300);
    return len > 0 ? len : 7;
}

static void make_settings(struct input *input, uint8_t ways)
{
    static const uint16_t numbers[16] = {1,   2,   3, 4, 1,   2,   3,   4,
                                         128, 200, 0, 5, 127, 129, 300, LAWFUL_NUMBER};
    uint64_t last = 0;
    count = next(input) % 8;
    bodies.len = 0;
    for (size_t i = 0; i < count; i++) {
        uint8_t which = next(input), how = next(input), fill = next(input);
        uint64_t number = numbers[which % 16];
        if (!(ways & UNSORTED) && i > 0 && number <= last)
            number = last < 4 ? last + 1 : last + 124;
        words[2 * i] = number;
        words[2 * i + 1] = make_body(bodies.bytes + bodies.len, number, how, fill);
        bodies.len += (size_t)words[2 * i + 1];
        last = number;
    }
}

/* One setting more, with which a file has 65,534 to 65,537 bytes. */
static void make_long(uint8_t room)
{
    size_t length = RELAY_MAX_SETTINGS - 1 + (size_t)(room % 4);
    size_t len = length - FRONT - HASH_LEN - ENTRY * (count + 1);
    words[2 * count] = LAWFUL_NUMBER;
    words[2 * count + 1] = len - bodies.len;
    count++;
    lengthen(&bodies, len);
}

/* ---- what should be */

static int lawful(uint64_t number, const uint8_t *body, size_t len)
{
    uint64_t value = len <= 4 ? get_number(body, len) : 0;
    switch (number) {
    case 1:
        return len == 1 && ((value >= 1 && value <= 5) || (value >= 11 && value <= 13));
    case 2:
        return len == 2 && (value == 0 || (value >= 60 && value <= 3600));
    case 3:
        return len == 4 && value <= LAWFUL_LIMIT;
    default:
        return len > 0 && address_length(body, len) == len;
    }
}

/* Lays out the settings as a file with its hash, whatever they are. */
static void lay_out(struct file *file, uint64_t edition)
{
    size_t place = FRONT + ENTRY * count;
    put_number(file->bytes, 2, edition);
    put_number(file->bytes + 2, 2, count);
    memcpy(file->bytes + place, bodies.bytes, bodies.len);
    for (size_t i = 0; i < count; i++) {
        uint8_t *entry = file->bytes + FRONT + ENTRY * i;
        put_number(entry, 2, words[2 * i]);
        put_number(entry + 2, 2, place);
        put_number(entry + 4, 2, words[2 * i + 1]);
        place += (size_t)words[2 * i + 1];
    }
    file->len = place + HASH_LEN;
    blake3_hash(file->bytes, place, file->bytes + place);
}

static uint64_t expect_write(size_t words_len, size_t room)
{
    size_t left = bodies.len, at = 0;
    if (words_len % 2 != 0)
        return RELAY_REFUSED_SETTINGS;
    for (size_t i = 0; i < count; i++) {
        if (words[2 * i + 1] > left)
            return RELAY_REFUSED_SETTINGS;
        left -= (size_t)words[2 * i + 1];
    }
    if (left > 0)
        return RELAY_REFUSED_SETTINGS;
    for (size_t i = 0; i < count; i++) {
        uint64_t number = words[2 * i];
        size_t len = (size_t)words[2 * i + 1];
        int known = number >= 1 && number <= 4;
        if ((i > 0 && number <= words[2 * i - 2]) || number > LAWFUL_NUMBER ||
            (known ? !lawful(number, bodies.bytes + at, len) : number < RELAY_SETTING_SKIPPED))
            return RELAY_REFUSED_ARGUMENT;
        at += len;
    }
    if (FRONT + ENTRY * count + bodies.len + HASH_LEN > RELAY_MAX_SETTINGS)
        return RELAY_REFUSED_LENGTH;
    return FRONT + ENTRY * count + bodies.len + HASH_LEN > room ? RELAY_REFUSED_ROOM : RELAY_OK;
}

/* Whether a file has its length and its hash. */
static uint64_t expect_hash(const struct file *file)
{
    uint8_t hash[HASH_LEN];
    if (file->len < RELAY_MIN_SETTINGS || file->len > RELAY_MAX_SETTINGS)
        return RELAY_REFUSED_LENGTH;
    blake3_hash(file->bytes, file->len - HASH_LEN, hash);
    return memcmp(hash, file->bytes + file->len - HASH_LEN, HASH_LEN) != 0
               ? RELAY_REFUSED_NOT_AUTHENTIC
               : RELAY_OK;
}

static void show(const struct file *file, uint64_t number, size_t at, size_t len, uint64_t *answer)
{
    answer[RELAY_AT_SET] |= 1u << (number - 1);
    if (number < RELAY_SETTING_TARGET)
        answer[RELAY_AT_SET + number] = get_number(file->bytes + at, len);
    else
        address_words(file->bytes, at, len, answer + RELAY_AT_TARGET_KIND);
}

/* What the contents of a file come to whose hash is good; with the words of an answer. */
static uint64_t expect_contents(const struct file *file, uint64_t *answer)
{
    size_t end = file->len - HASH_LEN, entries = (size_t)get_number(file->bytes + 2, 2);
    size_t place = FRONT + ENTRY * entries;
    uint64_t last = 0, unknown = RELAY_SETTING_SKIPPED;
    if (place > end)
        return RELAY_REFUSED_MALFORMED;
    answer[RELAY_AT_EDITION] = get_number(file->bytes, 2);
    for (size_t i = 0; i < entries; i++) {
        const uint8_t *entry = file->bytes + FRONT + ENTRY * i;
        uint64_t number = get_number(entry, 2);
        size_t len = (size_t)get_number(entry + 4, 2);
        if ((i > 0 && number <= last) || get_number(entry + 2, 2) != place || len > end - place)
            return RELAY_REFUSED_MALFORMED;
        if (number >= 1 && number <= 4) {
            if (!lawful(number, file->bytes + place, len))
                return RELAY_REFUSED_MALFORMED;
            show(file, number, place, len, answer);
        } else if (number < unknown) {
            unknown = number;
        }
        last = number;
        place += len;
    }
    if (place != end)
        return RELAY_REFUSED_MALFORMED;
    answer[RELAY_AT_SETTING] = unknown < RELAY_SETTING_SKIPPED ? unknown : answer[RELAY_AT_EDITION];
    return unknown < RELAY_SETTING_SKIPPED ? RELAY_REFUSED_UNKNOWN_SETTING : RELAY_OK;
}

/* ---- calls */

static uint64_t reads[NUMBERS], writes[NUMBERS];

static void report(void)
{
    uint64_t calls = tell("relay_settings_read", reads, 0x8037);
    calls += tell("relay_settings_write", writes, 0x100f);
    fprintf(stderr, "%llu calls checked\n", (unsigned long long)calls);
}

static uint64_t check_read(const struct file *file, size_t answer_len)
{
    uint64_t answer[RELAY_ANSWER_WORDS + 1], shown[RELAY_ANSWER_WORDS] = {0}, number;
    memset(answer, 0x5a, sizeof answer);
    number = answer_len == RELAY_ANSWER_WORDS ? expect_hash(file) : RELAY_REFUSED_SETTINGS;
    if (number == RELAY_OK)
        number = expect_contents(file, shown);

    struct lent lent = lend(0, LEND_READ, file->bytes, file->len, at_start);
    struct lent said = lend(1, LEND_CHANGE, answer, answer_len * sizeof *answer, at_start);
    uint64_t got = relay_settings_read(lent.theirs, lent.len, (uint64_t *)(void *)said.theirs,
                                       answer_len);
    if (got != number)
        fail("the number of reading");
    reads[got]++;
    if (number == RELAY_OK)
        memcpy(answer, shown, sizeof shown);
    if (number == RELAY_REFUSED_UNKNOWN_SETTING)
        answer[RELAY_AT_SETTING] = shown[RELAY_AT_SETTING];
    if (memcmp(said.ours, answer, answer_len * sizeof *answer) != 0)
        fail("what is written to `answer` by reading");
    if (!lend_intact(&lent) || !lend_intact(&said))
        fail("nothing is written beside a buffer");
    return got;
}

/* Writes the settings. The file is what is expected, or nothing is written. */
static uint64_t check_write(uint16_t edition, size_t words_len, size_t room, size_t answer_len,
                            struct file *file)
{
    static uint8_t out[FILE_ROOM + 200];
    uint64_t answer[RELAY_ANSWER_WORDS + 1], number = expect_write(words_len, room);
    memset(out, 0xa5, sizeof out);
    memset(answer, 0x5a, sizeof answer);
    if (answer_len != RELAY_ANSWER_WORDS)
        number = RELAY_REFUSED_SETTINGS;

    struct lent given = lend(0, LEND_READ, words, words_len * sizeof *words, at_start);
    struct lent lent = lend(1, LEND_READ, bodies.bytes, bodies.len, at_start);
    struct lent made = lend(2, LEND_CHANGE, out, room, at_start);
    struct lent said = lend(3, LEND_CHANGE, answer, answer_len * sizeof *answer, at_start);
    uint64_t got = relay_settings_write(edition, (const uint64_t *)(const void *)given.theirs,
                                        words_len, lent.theirs, lent.len, made.theirs, made.len,
                                        (uint64_t *)(void *)said.theirs, answer_len);
    if (got != number)
        fail("the number of writing");
    writes[got]++;
    if (number == RELAY_OK) {
        lay_out(file, edition);
        memcpy(out, file->bytes, file->len);
        answer[RELAY_AT_FILE_LENGTH] = file->len;
    }
    if (memcmp(made.ours, out, room) != 0)
        fail("what is written to `out`");
    if (memcmp(said.ours, answer, answer_len * sizeof *answer) != 0)
        fail("what is written to `answer` by writing");
    if (!lend_intact(&given) || !lend_intact(&lent) || !lend_intact(&made) || !lend_intact(&said))
        fail("nothing is written beside a buffer");
    return got;
}

/* An accepted file, taken apart and written again. */
static void check_again(const struct file *file)
{
    static struct file again;
    count = (size_t)get_number(file->bytes + 2, 2);
    for (size_t i = 0; i < count; i++) {
        words[2 * i] = get_number(file->bytes + FRONT + ENTRY * i, 2);
        words[2 * i + 1] = get_number(file->bytes + FRONT + ENTRY * i + 4, 2);
    }
    bodies.len = file->len - HASH_LEN - FRONT - ENTRY * count;
    memcpy(bodies.bytes, file->bytes + FRONT + ENTRY * count, bodies.len);
    uint16_t edition = (uint16_t)get_number(file->bytes, 2);
    if (check_write(edition, 2 * count, file->len, RELAY_ANSWER_WORDS, &again) != RELAY_OK ||
        again.len != file->len || memcmp(again.bytes, file->bytes, file->len) != 0)
        fail("an accepted file is written again as it was");
}

/* Writes what the input's settings are, with the faults that its ways have. */
static void try_writing(uint16_t edition, uint8_t ways, uint8_t room, size_t answer_len)
{
    static struct file written;
    size_t due = FRONT + ENTRY * count + bodies.len + HASH_LEN, words_len = 2 * count;
    uint64_t *last = count > 0 ? &words[2 * count - 1] : words, stood = *last;
    if (ways & ODD_WORDS)
        words[words_len++] = 0;
    if (ways & OFF_SUMS && count > 0)
        *last += room % 2 ? 1 : UINT64_MAX - bodies.len;
    if (due > RELAY_MAX_SETTINGS)
        due = RELAY_MAX_SETTINGS;
    uint64_t number = check_write(edition, words_len, room_of(room, due), answer_len, &written);
    *last = stood;
    if (number == RELAY_OK && check_read(&written, RELAY_ANSWER_WORDS) != RELAY_OK)
        fail("what is written is read");
}

int LLVMFuzzerTestOneInput(const uint8_t *data, size_t size)
{
    static struct file file;
    static int prepared;
    struct input input = {data, size};
    uint8_t ways = next(&input), room = next(&input);
    uint16_t edition = (uint16_t)(257 * next(&input));
    size_t answer_len = answer_words(ways & BAD_ANSWER, room);
    at_start = (ways & AT_START) != 0;
    if (!prepared) {
        prepared = 1;
        atexit(report);
    }
    if (ways & RAW) {
        file.len = input.left;
        memcpy(file.bytes, input.at, file.len);
    } else {
        make_settings(&input, ways);
        if (ways & LONG)
            make_long(room);
        lay_out(&file, edition);
        try_writing(edition, ways, room, answer_len);
        while (input.left > 1)
            patch(&file, &input);
    }
    if (!(ways & KEEP_HASH) && file.len >= HASH_LEN)
        blake3_hash(file.bytes, file.len - HASH_LEN, file.bytes + file.len - HASH_LEN);
    if (check_read(&file, answer_len) == RELAY_OK)
        check_again(&file);
    return 0;
}
