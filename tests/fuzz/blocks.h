/*
 * Which blocks of the library's code have run. The library has no
 * instrumentation, so a breakpoint stands at the start of each block; the first
 * time that it is hit it is taken away, and libFuzzer sees a new feature.
 */
#ifndef BLOCKS_H
#define BLOCKS_H

/* Sets breakpoints at the places of the file that FUZZ_BLOCKS names; without it does nothing. */
void blocks_watch(void);

/* Prints how many of them were reached. */
void blocks_report(void);

#endif
