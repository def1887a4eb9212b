#include "painted.h"

#include <stdio.h>
#include <stdlib.h>

enum {
    WORD = sizeof(uint64_t),
    /* The painted words: several times what a call takes. */
    PAINTED = 4096,
    /* The words above them, for the arguments that on_painted_stack copies. */
    ARGUMENTS = 8
};

/* At a call the stack pointer is at painted[PAINTED], which the calling convention asks to be a multiple of 16. */
static _Alignas(16) uint64_t painted[PAINTED + ARGUMENTS];
static uint64_t pattern;

/* on_painted_stack.S, and what it reads. */
uint64_t *const painted_top = painted + PAINTED + ARGUMENTS;
any_function *painted_function;
void on_painted_stack(void);
void take(size_t bytes);

any_function *paint(any_function *function) {
    size_t i;
    /* Another pattern each time: a call that happens to write the pattern itself is caught when it is made again. */
    pattern = pattern * UINT64_C(6364136223846793005) + UINT64_C(1442695040888963407);
    for (i = 0; i < PAINTED; i++) {
        painted[i] = pattern;
    }
    painted_function = function;
    return on_painted_stack;
}

size_t taken(void) {
    size_t lowest = 0;
    while (lowest < PAINTED && painted[lowest] == pattern) {
        lowest++;
    }
    if (lowest == 0) {
        fputs("a call took all of the painted stack\n", stderr);
        exit(1);
    }
    return (PAINTED - lowest) * WORD;
}

void calibrate(void) {
    size_t bytes;
    for (bytes = 2 * WORD; bytes < PAINTED * WORD; bytes += WORD) {
        ON_PAINTED_STACK(take, bytes);
        if (taken() != bytes) {
            fprintf(stderr, "a function that takes %zu bytes of stack was found to take %zu\n", bytes, taken());
            exit(1);
        }
    }
}
