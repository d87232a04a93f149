/*
 * The fuzz target of recordings: an input makes two files, and what the library
 * answers of them, compared and mended, is held to a second account of the
 * format, which is here.
 * Buffers are lent beside pages that nobody may touch (lend.h).
 *
 * An input begins with a byte of ways and one of room. Then come the entries of
 * both files, four bytes each, and patches of three bytes until its end.
 */
#include "files.h"
#include "lend.h"
#include "octets.h"
#include "relay.h"

#include <stdarg.h>
#include <stdio.h>
#include <stdlib.h>
#include <string.h>

int LLVMFuzzerTestOneInput(const uint8_t *data, size_t size);

enum {
    TEXT_ROOM = 65536,
    CONTENTS = 15,
    MAX_FILE = 32768,
    MAX_ENTRIES = 4096,
    MAX_BODY = 65507,
    CHANGES = 4 + 12 * (MAX_FILE + 1) / CONTENTS, /* words of the longest report */
};

/* Ways of an input. */
enum { SAME_ENTRIES = 1, LONG_FILE = 2, TOO_LONG = 4, BAD_ANSWER = 8, RAW = 16, AT_START = 32 };

/* ---- files */

/* A well-formed recording of up to seven entries. */
static void make_file(struct file *file, struct input *input)
{
    size_t count = next(input) % 8, place = 4 + CONTENTS * count;
    put_number(file->bytes, 4, count);
    for (size_t i = 0; i < count; i++) {
        uint8_t kind = next(input), clock = next(input), fill = next(input);
        size_t at = 4 + CONTENTS * i, len = next(input) % 40;
        put_number(file->bytes + at, 4, place);
        put_number(file->bytes + at + 4, 2, len);
        put_number(file->bytes + at + 6, 1, kind % 3);
        put_number(file->bytes + at + 7, 8, (uint64_t)clock << 56 | clock);
        memset(file->bytes + place, fill, len);
        place += len;
    }
    file->len = place;
}

/* ---- what should be */

static int well_formed(const struct file *file)
{
    if (file->len < 4)
        return 0;
    uint64_t count = get_number(file->bytes, 4), place = 4 + CONTENTS * count;
    if (count > MAX_ENTRIES || place > file->len)
        return 0;
    for (size_t at = 4; at < 4 + CONTENTS * count; at += CONTENTS) {
        uint64_t len = get_number(file->bytes + at + 4, 2);
        if (get_number(file->bytes + at, 4) != place || len > MAX_BODY || file->bytes[at + 6] > 2)
            return 0;
        place += len;
    }
    return place <= file->len;
}

static char expected[TEXT_ROOM];
static size_t expected_len;

static void line(const char *format, ...)
{
    va_list values;
    va_start(values, format);
    int len = vsnprintf(expected + expected_len, sizeof expected - expected_len, format, values);
    va_end(values);
    expected_len += (size_t)len;
}

static void expect_index(const struct file *a, const struct file *b, size_t i)
{
    size_t at = 4 + CONTENTS * i, len = (size_t)get_number(a->bytes + at + 4, 2);
    size_t other = (size_t)get_number(b->bytes + at + 4, 2);
    const uint8_t *x = a->bytes + get_number(a->bytes + at, 4);
    const uint8_t *y = b->bytes + get_number(b->bytes + at, 4);
    if (len != other) {
        line("length %zu %zu %zu\n", i, len, other);
    } else if (memcmp(a->bytes + at + 6, b->bytes + at + 6, 9) != 0) {
        line("meta %zu\n", i);
    } else if (memcmp(x, y, len) != 0) {
        size_t p = 0;
        while (x[p] == y[p])
            p++;
        line("differ %zu byte %zu\n", i, p);
    }
}

/* Whether both are compared; then the text. */
static uint64_t expect_compare(const struct file *a, const struct file *b)
{
    if (a->len > MAX_FILE || b->len > MAX_FILE)
        return RELAY_REFUSED_LENGTH;
    if (!well_formed(a) || !well_formed(b))
        return RELAY_REFUSED_MALFORMED;
    size_t m = (size_t)get_number(a->bytes, 4), n = (size_t)get_number(b->bytes, 4);
    expected_len = 0;
    line("entries %zu %zu\n", m, n);
    for (size_t i = 0; i < m || i < n; i++) {
        if (i >= n)
            line("first-only %zu\n", i);
        else if (i >= m)
            line("second-only %zu\n", i);
        else
            expect_index(a, b, i);
    }
    return RELAY_OK;
}

/* What a report is to have, and the mended file. */
static uint64_t changes[CHANGES];
static size_t change_words;
static struct file mended;

static void change(uint64_t entry, uint64_t field, uint64_t old, uint64_t new)
{
    if (old == new)
        return;
    changes[change_words++] = entry;
    changes[change_words++] = field;
    changes[change_words++] = old;
    changes[change_words++] = new;
}

static uint64_t least(uint64_t a, uint64_t b)
{
    return a < b ? a : b;
}

/* Of a file of 4 bytes at least. */
static void expect_mend(const struct file *file)
{
    uint64_t stands = get_number(file->bytes, 4);
    uint64_t count = least(least(stands, MAX_ENTRIES), (file->len - 4) / CONTENTS);
    uint64_t place = 4 + CONTENTS * count;
    change_words = 0;
    mended = *file;
    put_number(mended.bytes, 4, count);
    change(RELAY_CHANGE_OF_COUNT, 0, stands, count);
    for (uint64_t i = 0; i < count; i++) {
        size_t at = 4 + CONTENTS * (size_t)i;
        uint64_t len = get_number(file->bytes + at + 4, 2), direction = file->bytes[at + 6];
        uint64_t cut = least(least(len, MAX_BODY), file->len - place);
        put_number(mended.bytes + at, 4, place);
        put_number(mended.bytes + at + 4, 2, cut);
        put_number(mended.bytes + at + 6, 1, least(direction, 2));
        change(i, 1, get_number(file->bytes + at, 4), place);
        change(i, 2, len, cut);
        change(i, 3, direction, least(direction, 2));
        place += cut;
    }
}

/* ---- calls */

static uint64_t compares[NUMBERS], mends[NUMBERS];

static void report(void)
{
    uint64_t calls = tell("relay_recording_compare", compares, 0x2f);
    calls += tell("relay_recording_mend", mends, 0x0f);
    fprintf(stderr, "%llu calls checked\n", (unsigned long long)calls);
}

static void check_compare(const struct file *a, const struct file *b, uint8_t ways, uint8_t room)
{
    static uint8_t lent_out[TEXT_ROOM + 200];
    uint64_t answer[RELAY_ANSWER_WORDS + 1];
    int at_start = (ways & AT_START) != 0;
    size_t words = answer_words(ways & BAD_ANSWER, room), due;
    uint64_t number = expect_compare(a, b);
    due = room_of(room, number == RELAY_OK ? expected_len : 7);
    memset(lent_out, 0xa5, sizeof lent_out);
    memset(answer, 0x5a, sizeof answer);
    if (words != RELAY_ANSWER_WORDS)
        number = RELAY_REFUSED_SETTINGS;
    else if (number == RELAY_OK && due < expected_len)
        number = RELAY_REFUSED_ROOM;

    struct lent first = lend(0, LEND_READ, a->bytes, a->len, at_start);
    struct lent second = lend(1, LEND_READ, b->bytes, b->len, at_start);
    struct lent out = lend(2, LEND_CHANGE, lent_out, due, at_start);
    struct lent said = lend(3, LEND_CHANGE, answer, words * sizeof *answer, at_start);
    uint64_t got =
        relay_recording_compare(first.theirs, first.len, second.theirs, second.len, out.theirs,
                                out.len, (uint64_t *)(void *)said.theirs, words);
    if (got != number)
        fail("the number");
    compares[got]++;
    if (number == RELAY_OK) {
        memcpy(lent_out, expected, expected_len);
        answer[RELAY_AT_TEXT_LENGTH] = expected_len;
    }
    if (memcmp(out.ours, lent_out, due) != 0)
        fail("what is written to `out`");
    if (memcmp(said.ours, answer, words * sizeof *answer) != 0)
        fail("what is written to `answer`");
    if (!lend_intact(&first) || !lend_intact(&second) || !lend_intact(&out) || !lend_intact(&said))
        fail("nothing is written beside a buffer");
}

static void check_mend(const struct file *file, uint8_t ways, uint8_t room)
{
    static uint64_t lent_report[CHANGES + 100];
    uint64_t answer[RELAY_ANSWER_WORDS + 1];
    int at_start = (ways & AT_START) != 0;
    size_t words = answer_words(ways & BAD_ANSWER, room), due = 0;
    uint64_t number = RELAY_REFUSED_LENGTH;
    if (file->len >= 4) {
        expect_mend(file);
        due = room_of(room, change_words);
        number = due < change_words ? RELAY_REFUSED_ROOM : RELAY_OK;
    }
    if (words != RELAY_ANSWER_WORDS)
        number = RELAY_REFUSED_SETTINGS;
    memset(lent_report, 0xa5, sizeof lent_report);
    memset(answer, 0x5a, sizeof answer);

    struct lent lent_file = lend(0, LEND_CHANGE, file->bytes, file->len, at_start);
    struct lent told = lend(1, LEND_CHANGE, lent_report, due * sizeof *lent_report, at_start);
    struct lent said = lend(2, LEND_CHANGE, answer, words * sizeof *answer, at_start);
    uint64_t got = relay_recording_mend(lent_file.theirs, lent_file.len,
                                        (uint64_t *)(void *)told.theirs, due,
                                        (uint64_t *)(void *)said.theirs, words);
    if (got != number)
        fail("the number of mending");
    mends[got]++;
    if (number == RELAY_OK) {
        memcpy(lent_report, changes, change_words * sizeof *changes);
        answer[RELAY_AT_CHANGES] = change_words / RELAY_CHANGE_WORDS;
        if (!well_formed(&mended))
            fail("what is mended is well formed");
    } else {
        mended = *file;
    }
    if (memcmp(lent_file.ours, mended.bytes, file->len) != 0)
        fail("what is written to `file`");
    if (memcmp(told.ours, lent_report, due * sizeof *lent_report) != 0)
        fail("what is written to `report`");
    if (memcmp(said.ours, answer, words * sizeof *answer) != 0)
        fail("what is written to `answer` by mending");
    if (!lend_intact(&lent_file) || !lend_intact(&told) || !lend_intact(&said))
        fail("nothing is written beside a buffer");
}

int LLVMFuzzerTestOneInput(const uint8_t *data, size_t size)
{
    static struct file a, b;
    static int prepared;
    struct input input = {data, size};
    uint8_t ways = next(&input), room = next(&input);
    if (!prepared) {
        prepared = 1;
        atexit(report);
    }
    if (ways & RAW) {
        a.len = input.left / 2;
        memcpy(a.bytes, input.at, a.len);
        b.len = input.left - a.len;
        memcpy(b.bytes, input.at + a.len, b.len);
    } else {
        make_file(&a, &input);
        if (ways & SAME_ENTRIES)
            b = a;
        else
            make_file(&b, &input);
        while (input.left > 2)
            patch(next(&input) % 2 ? &a : &b, &input);
    }
    if (ways & LONG_FILE)
        lengthen(&a, MAX_FILE);
    if (ways & TOO_LONG)
        lengthen(&b, MAX_FILE + 1);
    check_compare(&a, &b, ways, room);
    check_mend(&a, ways, room);
    return 0;
}
