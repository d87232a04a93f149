/*
 * What the library did, for libFuzzer to tell inputs apart by.
 */
#ifndef FEEDBACK_H
#define FEEDBACK_H

#include "calls.h"

/* Counts what a call answered and changed. */
void feedback(const struct call *call, const struct left *left);

#endif
