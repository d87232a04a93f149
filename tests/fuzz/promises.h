/*
 * Makes a call of the library and stops the program where it broke a promise.
 */
#ifndef PROMISES_H
#define PROMISES_H

#include "calls.h"

/* The call, checked: it answers and writes what expect() says, and nothing else. */
struct left checked_call(const struct call *call);

/* Calls so far, by function and number. */
extern uint64_t answered[FUNCTIONS][NUMBERS];

/* Says what is wrong, for the call that was made last, and aborts. */
_Noreturn void broken(const char *promise);

#endif
