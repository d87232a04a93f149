#define _GNU_SOURCE
#include "blocks.h"

#include "relay.h"

#include <signal.h>
#include <stdint.h>
#include <stdio.h>
#include <stdlib.h>
#include <string.h>
#include <sys/mman.h>
#include <ucontext.h>

enum { MOST = 8192, NAME_LEN = 64, PAGE = 4096, BREAKPOINT = 0xcc };

struct block {
    uint8_t *at;
    uint8_t byte; /* what stood where the breakpoint is */
    uint8_t reached;
    char function[NAME_LEN];
};

static struct block blocks[MOST]; /* by rising address */
static size_t count;

__attribute__((section("__libfuzzer_extra_counters"))) static uint8_t hits[MOST];

static struct block *find(const uint8_t *at)
{
    size_t low = 0, high = count;
    while (low < high) {
        size_t middle = low + (high - low) / 2;
        if (blocks[middle].at < at)
            low = middle + 1;
        else
            high = middle;
    }
    return low < count && blocks[low].at == at ? &blocks[low] : NULL;
}

static void on_breakpoint(int number, siginfo_t *info, void *context)
{
    (void)number;
    (void)info;
    greg_t *instruction = &((ucontext_t *)context)->uc_mcontext.gregs[REG_RIP];
    struct block *block = find((const uint8_t *)(*instruction - 1));
    if (block == NULL)
        abort(); /* a breakpoint that is not ours */
    *block->at = block->byte;
    block->reached = 1;
    hits[block - blocks] = 1;
    *instruction -= 1;
}

/* Each line has a place, counted from relay_table_new, and the name of its function. */
static void read_blocks(FILE *file)
{
    uint8_t *origin = (uint8_t *)(uintptr_t)relay_table_new;
    long long place;
    while (count < MOST && fscanf(file, "%lld %63s", &place, blocks[count].function) == 2) {
        blocks[count].at = origin + place;
        count++;
    }
}

void blocks_watch(void)
{
    const char *name = getenv("FUZZ_BLOCKS");
    FILE *file = name == NULL ? NULL : fopen(name, "r");
    if (file == NULL)
        return;
    read_blocks(file);
    fclose(file);
    if (count == 0)
        return;
    uint8_t *first = blocks[0].at - (uintptr_t)blocks[0].at % PAGE;
    size_t len = (size_t)(blocks[count - 1].at + 1 - first);
    if (mprotect(first, len, PROT_READ | PROT_WRITE | PROT_EXEC) != 0) {
        fprintf(stderr, "code cannot be made writable: no blocks are watched\n");
        count = 0;
        return;
    }
    struct sigaction action = {.sa_flags = SA_SIGINFO};
    action.sa_sigaction = on_breakpoint;
    sigaction(SIGTRAP, &action, NULL);
    for (size_t i = 0; i < count; i++) {
        blocks[i].byte = *blocks[i].at;
        *blocks[i].at = BREAKPOINT;
    }
}

void blocks_report(void)
{
    size_t reached = 0, missing = 0;
    for (size_t i = 0; i < count; i++) {
        int last = i + 1 == count || strcmp(blocks[i].function, blocks[i + 1].function) != 0;
        reached += blocks[i].reached;
        missing += !blocks[i].reached;
        if (last && missing > 0)
            fprintf(stderr, "not reached in %s: %zu blocks\n", blocks[i].function, missing);
        if (last)
            missing = 0;
    }
    if (count > 0)
        fprintf(stderr, "%zu of the library's %zu blocks reached\n", reached, count);
}
