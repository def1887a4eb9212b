#include "calls.h"

#include "gaffreel.h"

#include <stdio.h>
#include <stdlib.h>

struct call {
    const char *name;
    any_function *function;
    /* The answers that the header names for it, a bit each; 0 where what it returns is no answer. */
    uint32_t answers;
    /* Those that it gave; how often it was called; the most bytes that it took. */
    uint32_t given;
    size_t times;
    size_t most;
};

enum {
    DONE = 1 << GAFFREEL_DONE,
    LENGTH_OR_LIMIT = 1 << GAFFREEL_LENGTH_OR_LIMIT,
    OUT_OF_RANGE = 1 << GAFFREEL_OUT_OF_RANGE,
    SUPERBLOCK = 1 << GAFFREEL_SUPERBLOCK,
    INVALID = 1 << GAFFREEL_INVALID,
    SHORT = 1 << GAFFREEL_SHORT,
    SECTOR_RANGE = 1 << GAFFREEL_SECTOR_RANGE,
    TAG_MISMATCH = 1 << GAFFREEL_TAG_MISMATCH,
    FULL = 1 << GAFFREEL_FULL,
    NOT_NOW = 1 << GAFFREEL_NOT_NOW,
    EXHAUSTED = 1 << GAFFREEL_EXHAUSTED,
    MISPLACED = 1 << GAFFREEL_MISPLACED,
    MISMATCH = 1 << GAFFREEL_MISMATCH,
    /* What several calls have in common. */
    ALWAYS = DONE | LENGTH_OR_LIMIT,
    OF_FORMAT = ALWAYS | OUT_OF_RANGE | SHORT | SUPERBLOCK,
    OF_QUERY = OF_FORMAT | INVALID,
    OF_OPEN = OF_QUERY | EXHAUSTED | MISPLACED | SECTOR_RANGE | TAG_MISMATCH,
    OF_WRITE = ALWAYS | NOT_NOW | SECTOR_RANGE | FULL,
    OF_STEP = ALWAYS | SECTOR_RANGE,
    OF_READ = ALWAYS | NOT_NOW | SECTOR_RANGE | TAG_MISMATCH,
    OF_VERIFY = OF_READ
};

#define ROW(function, answers) {#function, (any_function *)function, answers, 0, 0, 0}

static struct call calls[] = {
    ROW(gaffreel_sha256, ALWAYS),
    ROW(gaffreel_sha256_new, ALWAYS),
    ROW(gaffreel_sha256_update, ALWAYS),
    ROW(gaffreel_sha256_finish, ALWAYS),
    ROW(gaffreel_hmac_sha256, ALWAYS | OUT_OF_RANGE),
    ROW(gaffreel_volume_format, OF_FORMAT),
    ROW(gaffreel_volume_query, OF_QUERY),
    ROW(gaffreel_volume_open, OF_OPEN),
    ROW(gaffreel_volume_write, OF_WRITE),
    ROW(gaffreel_volume_flush, ALWAYS | NOT_NOW | EXHAUSTED),
    ROW(gaffreel_volume_step, OF_STEP),
    ROW(gaffreel_volume_next_store, OF_STEP),
    ROW(gaffreel_volume_advance, OF_STEP),
    ROW(gaffreel_volume_read, OF_READ),
    ROW(gaffreel_volume_verify, OF_VERIFY),
    ROW(gaffreel_volume_format_keyed, OF_FORMAT),
    ROW(gaffreel_volume_open_keyed, OF_OPEN),
    ROW(gaffreel_volume_write_keyed, OF_WRITE | OUT_OF_RANGE),
    ROW(gaffreel_volume_read_keyed, OF_READ | OUT_OF_RANGE),
    ROW(gaffreel_volume_verify_keyed, OF_VERIFY | OUT_OF_RANGE),
    ROW(gaffreel_tree_length, 0),
    ROW(gaffreel_tree_build, ALWAYS | OUT_OF_RANGE),
    ROW(gaffreel_tree_verify, ALWAYS | OUT_OF_RANGE | MISMATCH),
};

enum { CALLS = sizeof calls / sizeof *calls };

uint64_t note(any_function *function, uint64_t answer) {
    struct call *call = calls;
    size_t bytes = taken();
    while (call->function != function) {
        call++;
    }
    call->times++;
    if (bytes > call->most) {
        call->most = bytes;
    }
    if (call->answers != 0) {
        call->given |= UINT32_C(1) << answer;
    }
    return answer;
}

void print_calls(void) {
    size_t i;
    for (i = 0; i < CALLS; i++) {
        printf("%s %zu %zu\n", calls[i].name, calls[i].most, calls[i].times);
    }
}

void check_answers(void) {
    size_t i;
    for (i = 0; i < CALLS; i++) {
        if (calls[i].given != calls[i].answers) {
            fprintf(stderr, "%s gave the answers %#x, a bit each, where the header has %#x\n", calls[i].name,
                    (unsigned)calls[i].given, (unsigned)calls[i].answers);
            exit(1);
        }
    }
}
