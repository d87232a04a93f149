#define _GNU_SOURCE
#include "lend.h"

#include <stdio.h>
#include <stdlib.h>
#include <string.h>
#include <sys/mman.h>
#include <unistd.h>

#ifdef WITH_VALGRIND
#include <valgrind/memcheck.h>
#else
#define VALGRIND_MAKE_MEM_NOACCESS(at, len) ((void)(at), (void)(len))
#define VALGRIND_MAKE_MEM_DEFINED(at, len) ((void)(at), (void)(len))
#define VALGRIND_MAKE_MEM_UNDEFINED(at, len) ((void)(at), (void)(len))
#define VALGRIND_CHECK_MEM_IS_DEFINED(at, len) ((void)(at), (void)(len))
#endif

enum { PLACES = 16, PAGE = 4096, CANARY_LEN = 64 };

static const uint8_t CANARY[CANARY_LEN] = "what stands beside a buffer, and nobody may write";

/* The same pages twice: for us, and between two guard pages as they are lent. */
static struct view {
    uint8_t *ours, *read, *write;
} views[PLACES];

static void *must_map(void *at, size_t len, int protection, int flags, int file)
{
    void *mapped = mmap(at, len, protection, flags, file, 0);
    if (mapped == MAP_FAILED) {
        perror("mmap");
        abort();
    }
    return mapped;
}

static uint8_t *guarded(int file, int protection)
{
    uint8_t *whole =
        must_map(NULL, LEND_SIZE + 2 * PAGE, PROT_NONE, MAP_PRIVATE | MAP_ANONYMOUS, -1);
    must_map(whole + PAGE, LEND_SIZE, protection, MAP_SHARED | MAP_FIXED, file);
    return whole + PAGE;
}

static struct view *view_of(unsigned place)
{
    struct view *view = &views[place];
    if (view->ours == NULL) {
        int file = memfd_create("lent", 0);
        if (file < 0 || ftruncate(file, LEND_SIZE) != 0) {
            perror("memfd_create");
            abort();
        }
        view->ours = must_map(NULL, LEND_SIZE, PROT_READ | PROT_WRITE, MAP_SHARED, file);
        view->read = guarded(file, PROT_READ);
        view->write = guarded(file, PROT_READ | PROT_WRITE);
        close(file);
    }
    return view;
}

/* The known bytes stand before a buffer at the end, behind one at the start. */
static uint8_t *canary_of(const struct lent *lent)
{
    return lent->at_start ? lent->ours + lent->len : lent->ours - CANARY_LEN;
}

struct lent lend(unsigned place, enum lend_use use, const void *data, size_t len, int at_start)
{
    struct view *view = view_of(place);
    uint8_t *theirs = use == LEND_READ ? view->read : view->write;
    size_t offset = at_start ? 0 : LEND_SIZE - len;
    struct lent lent = {view->ours + offset, theirs + offset, len, at_start, use};
    if (len > LEND_SIZE - CANARY_LEN)
        abort();
    if (len > 0)
        memcpy(lent.ours, data, len);
    memcpy(canary_of(&lent), CANARY, CANARY_LEN);
    VALGRIND_MAKE_MEM_NOACCESS(theirs, LEND_SIZE);
    if (use == LEND_WRITE)
        VALGRIND_MAKE_MEM_UNDEFINED(lent.theirs, len);
    else
        VALGRIND_MAKE_MEM_DEFINED(lent.theirs, len);
    if (len == 0 && at_start)
        lent.theirs = NULL; /* a length of 0 may come with any pointer */
    return lent;
}

int lend_intact(const struct lent *lent)
{
    return memcmp(canary_of(lent), CANARY, CANARY_LEN) == 0;
}

void lend_written(const struct lent *lent, size_t len)
{
    VALGRIND_CHECK_MEM_IS_DEFINED(lent->theirs, len);
}
