/* The exported calls, and what was found of each. */
#ifndef CALLS_H
#define CALLS_H

#include "painted.h"

/* Makes an exported call on the painted stack, and notes what it took and answered. */
#define CALL(function, ...) note((any_function *)function, ON_PAINTED_STACK(function, __VA_ARGS__))

/* Notes what the call just made took and answered; hands the answer back. */
uint64_t note(any_function *function, uint64_t answer);

/* The calls of each part, good and hostile. */
void call_sha256(void);
void call_volume_phases(void);
void call_volume_hostile(void);
void call_tree(void);

/* Prints a line for each call: its name, the most bytes that it took, and how often it was made. */
void print_calls(void);

/* Ends the program where a call did not give every answer that the header names for it, or gave another. */
void check_answers(void);

#endif
