#include "files.h"

#include "relay.h"

#include <stdio.h>
#include <stdlib.h>
#include <string.h>

uint8_t next(struct input *input)
{
    if (input->left == 0)
        return 0;
    input->left--;
    return *input->at++;
}

void patch(struct file *file, struct input *input)
{
    size_t place = next(input);
    uint8_t value = next(input);
    if (place < file->len)
        file->bytes[place] = value;
}

void lengthen(struct file *file, size_t len)
{
    if (file->len < len) {
        memset(file->bytes + file->len, 0, len - file->len);
        file->len = len;
    }
}

size_t room_of(uint8_t room, size_t due)
{
    const size_t rooms[8] = {due, due, due, due + 1, due ? due - 1 : 0, 0, due + 100, due};
    return rooms[room % 8];
}

size_t answer_words(int odd, uint8_t room)
{
    if (!odd)
        return RELAY_ANSWER_WORDS;
    return room % 2 ? RELAY_ANSWER_WORDS - 1 : RELAY_ANSWER_WORDS + 1;
}

void fail(const char *promise)
{
    fprintf(stderr, "broken: %s\n", promise);
    abort();
}

uint64_t tell(const char *name, const uint64_t *counts, unsigned may)
{
    uint64_t calls = 0;
    fprintf(stderr, "%-28s", name);
    for (unsigned n = 0; n < NUMBERS; n++) {
        calls += counts[n];
        if (counts[n] > 0)
            fprintf(stderr, " %u: %llu", n, (unsigned long long)counts[n]);
        else if (may >> n & 1)
            fprintf(stderr, " %u: never", n);
    }
    fprintf(stderr, "\n");
    return calls;
}
