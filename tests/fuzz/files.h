/* What the fuzz targets of files share: inputs, files, and counts of what was answered. */
#ifndef FILES_H
#define FILES_H

#include <stddef.h>
#include <stdint.h>

enum {
    FILE_ROOM = 66000,
    NUMBERS = 16, /* 0 and the refusals */
};

struct file {
    uint8_t bytes[FILE_ROOM];
    size_t len;
};

/* What is left of an input. */
struct input {
    const uint8_t *at;
    size_t left;
};

/* The next byte; 0 behind the last. */
uint8_t next(struct input *input);

/* Changes one of the first 256 bytes: place and value are the next of the input. */
void patch(struct file *file, struct input *input);

void lengthen(struct file *file, size_t len);

/* The room given: exact, one more, one less, none, much. */
size_t room_of(uint8_t room, size_t due);

/* How many words an answer has: its own number, or by an odd way one less or one more. */
size_t answer_words(int odd, uint8_t room);

void fail(const char *promise);

/* Prints how often each number of a function was given, and those that it may give, by their bits, and
 * never did. Gives the number of calls. */
uint64_t tell(const char *name, const uint64_t *counts, unsigned may);

#endif
