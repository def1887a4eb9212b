/*
 * The volume's verify of the C interface, without a key and with one: R91's volume (r 0, T 32, N 16, S 1, P 16), each sector and tag
 * of it damaged, ranges of any size, phases, the lengths of keys, and the order of refusals. Also compiled as C++.
 */
#undef NDEBUG

#include "buffers.h"
#include "gaffreel.h"

#include <assert.h>
#include <stdio.h>
#include <string.h>

enum {
    SECTOR = GAFFREEL_VOLUME_SECTOR_SIZE,
    STATE = GAFFREEL_VOLUME_STATE_SIZE,
    ANSWER = GAFFREEL_VOLUME_ANSWER_SIZE,
    LONGEST = GAFFREEL_LONGEST_KEY,
    VOLUME = 120 * SECTOR,
    STAGING = 88 * SECTOR,
    PROVIDED = 16,
    WIDTH = 32,
    /* Where the tags begin, and the data behind them, in bytes. */
    TAGS_AT = 96 * SECTOR,
    DATA_AT = 104 * SECTOR,
    /* Where a state has its phase, its entries and its next commit id. */
    PHASE_AT = 64,
    COUNT_AT = 88,
    ID_AT = 96
};

/* A key as it is lent; a volume without one has `none`. */
struct key {
    const uint8_t *at;
    size_t length;
};

static uint8_t volume[VOLUME], staging[STAGING], state[STATE], answer[ANSWER], bytes[SECTOR];
static uint8_t longest[LONGEST + 1];
static const struct key none = {NULL, 0};

static uint32_t verify(size_t first, size_t count, struct key key) {
    memset(answer, MARK, ANSWER);
    if (key.length == 0) {
        return gaffreel_volume_verify(state, STATE, volume, VOLUME, first, count, answer, ANSWER);
    }
    return gaffreel_volume_verify_keyed(state, STATE, volume, VOLUME, first, count, key.at, key.length, answer, ANSWER);
}

static void assert_answer(uint64_t first, uint64_t second) {
    assert(number_at(answer, 0) == first);
    assert(number_at(answer, 8) == second);
    assert(number_at(answer, 16) == 0 && number_at(answer, 24) == 0 && number_at(answer, 32) == 0);
}

/* The range is carried out or refused, and the answer's numbers are 0. */
static void assert_verify(uint32_t number, size_t first, size_t count, struct key key) {
    assert(verify(first, count, key) == number);
    assert_answer(0, 0);
}

/* A fresh volume, open. */
static void begin(struct key key) {
    memset(volume, 0, VOLUME);
    if (key.length == 0) {
        assert(gaffreel_volume_format(volume, VOLUME, 0, 4, WIDTH, 1, PROVIDED, answer, ANSWER) == GAFFREEL_DONE);
        assert(gaffreel_volume_open(volume, VOLUME, staging, STAGING, 0, state, STATE, answer, ANSWER) == GAFFREEL_DONE);
        return;
    }
    assert(gaffreel_volume_format_keyed(volume, VOLUME, 0, 4, WIDTH, 1, PROVIDED, key.at, key.length, answer, ANSWER)
           == GAFFREEL_DONE);
    assert(gaffreel_volume_open_keyed(volume, VOLUME, staging, STAGING, 0, key.at, key.length, state, STATE, answer, ANSWER)
           == GAFFREEL_DONE);
}

/* Every range that there is, with a byte of this sector damaged: it is named exactly where the range has it. */
static void assert_ranges(size_t damaged, size_t at, struct key key) {
    size_t first, count;
    volume[at] ^= 1;
    for (first = 0; first <= PROVIDED; first++) {
        for (count = 0; count <= PROVIDED - first; count++) {
            if (first <= damaged && damaged < first + count) {
                assert(verify(first, count, key) == GAFFREEL_TAG_MISMATCH);
                assert_answer(1, damaged);
            } else {
                assert_verify(GAFFREEL_DONE, first, count, key);
            }
        }
        assert_verify(GAFFREEL_SECTOR_RANGE, first, PROVIDED - first + 1, key);
    }
    volume[at] ^= 1;
}

/* Data or tag of a sector damaged. Of two such sectors the first is named. Nothing is changed but the answer. */
static void test_damage(struct key key) {
    static uint8_t before[VOLUME];
    uint8_t kept[STATE];
    size_t sector;
    begin(key);
    memcpy(before, volume, VOLUME);
    memcpy(kept, state, STATE);
    for (sector = 0; sector < PROVIDED; sector++) {
        assert_ranges(sector, DATA_AT + sector * SECTOR + 31 * sector, key);
        assert_ranges(sector, TAGS_AT + sector * WIDTH + sector, key);
    }
    assert(memcmp(before, volume, VOLUME) == 0 && memcmp(kept, state, STATE) == 0);
    volume[DATA_AT + 9 * SECTOR] ^= 1;
    volume[TAGS_AT + 4 * WIDTH] ^= 1;
    assert(verify(0, PROVIDED, key) == GAFFREEL_TAG_MISMATCH);
    assert_answer(1, 4);
    assert(verify(5, PROVIDED - 5, key) == GAFFREEL_TAG_MISMATCH);
    assert_answer(1, 9);
    assert_verify(GAFFREEL_DONE, 10, PROVIDED - 10, key);
}

/* Numbers whose sum a size_t does not hold, and those beside them. */
static void test_sizes(struct key key) {
    static const size_t sizes[] = {PROVIDED + 1, SIZE_MAX / 2 + 1, SIZE_MAX - PROVIDED, SIZE_MAX - 1, SIZE_MAX};
    size_t i, j;
    begin(key);
    for (i = 0; i < sizeof sizes / sizeof *sizes; i++) {
        for (j = 0; j <= PROVIDED; j++) {
            assert_verify(GAFFREEL_SECTOR_RANGE, sizes[i], j, key);
            assert_verify(GAFFREEL_SECTOR_RANGE, j, sizes[i], key);
        }
        for (j = 0; j < sizeof sizes / sizeof *sizes; j++) {
            assert_verify(GAFFREEL_SECTOR_RANGE, sizes[i], sizes[j], key);
        }
    }
}

/* The batch is not looked at; from its flush until all its stores are made it is not now. */
static void test_phases(struct key key) {
    size_t stores;
    begin(key);
    memset(bytes, 1, SECTOR);
    if (key.length == 0) {
        assert(gaffreel_volume_write(state, STATE, staging, STAGING, 5, bytes, SECTOR, answer, ANSWER) == GAFFREEL_DONE);
    } else {
        assert(gaffreel_volume_write_keyed(state, STATE, staging, STAGING, 5, bytes, SECTOR, key.at, key.length, answer, ANSWER)
               == GAFFREEL_DONE);
    }
    assert_verify(GAFFREEL_DONE, 0, PROVIDED, key);
    volume[DATA_AT + 5 * SECTOR] ^= 1;
    assert(verify(0, PROVIDED, key) == GAFFREEL_TAG_MISMATCH);
    assert_answer(1, 5);
    assert(gaffreel_volume_flush(state, STATE, answer, ANSWER) == GAFFREEL_DONE);
    for (stores = 0; stores < 90; stores++) {
        assert_verify(GAFFREEL_NOT_NOW, 0, 0, key);
        assert_verify(GAFFREEL_NOT_NOW, SIZE_MAX, SIZE_MAX, key);
        assert(gaffreel_volume_step(state, STATE, volume, VOLUME, staging, STAGING, answer, ANSWER) == GAFFREEL_DONE);
    }
    assert_verify(GAFFREEL_DONE, 0, PROVIDED, key);
    /* A recovery of the batch: not now; beyond its two stores, no sound state. */
    put_number(state, PHASE_AT, GAFFREEL_VOLUME_RECOVERING);
    assert_verify(GAFFREEL_NOT_NOW, 0, PROVIDED, key);
    put_number(state, PHASE_AT + 8, 2);
    assert_verify(GAFFREEL_LENGTH_OR_LIMIT, 0, PROVIDED, key);
}

/* Each length of a key that is taken, another key, and none. */
static void test_keys(void) {
    static const size_t lengths[] = {1, 63, 64, 65, 255, 256};
    size_t i;
    for (i = 0; i < sizeof lengths / sizeof *lengths; i++) {
        struct key key = {longest, lengths[i]}, other = {longest + 1, lengths[i]};
        begin(key);
        assert_verify(GAFFREEL_DONE, 0, PROVIDED, key);
        assert(verify(3, PROVIDED - 3, other) == GAFFREEL_TAG_MISMATCH);
        assert_answer(1, 3);
        assert(verify(7, 1, none) == GAFFREEL_TAG_MISMATCH);
        assert_answer(1, 7);
        assert_verify(GAFFREEL_DONE, 7, 0, other);
    }
}

static uint32_t verify_with(size_t state_length, size_t volume_length, struct key key, size_t answer_length) {
    memset(answer, MARK, ANSWER);
    return gaffreel_volume_verify_keyed(state, state_length, volume, volume_length, SIZE_MAX, 1, key.at, key.length, answer,
                                        answer_length);
}

/* 1, then 2 for a key that is NULL, empty or too long, then 9, then 6. */
static void test_order(void) {
    const struct key right = {longest, 7}, empty = {longest, 0}, too_long = {longest, LONGEST + 1};
    const struct key refused[] = {none, empty, too_long};
    size_t i;
    for (i = 0; i < sizeof refused / sizeof *refused; i++) {
        begin(right);
        assert(verify_with(STATE, VOLUME, refused[i], ANSWER - 1) == GAFFREEL_LENGTH_OR_LIMIT);
        assert_untouched(answer, ANSWER);
        assert(verify_with(STATE - 1, VOLUME, refused[i], ANSWER) == GAFFREEL_LENGTH_OR_LIMIT);
        assert(verify_with(STATE, VOLUME - 1, refused[i], ANSWER) == GAFFREEL_LENGTH_OR_LIMIT);
        assert(verify_with(STATE, VOLUME - SECTOR, refused[i], ANSWER) == GAFFREEL_LENGTH_OR_LIMIT);
        assert(verify_with(STATE, VOLUME, refused[i], ANSWER) == GAFFREEL_OUT_OF_RANGE);
        assert_answer(0, 0);
        /* Committing. */
        put_number(state, PHASE_AT, GAFFREEL_VOLUME_COMMITTING);
        put_number(state, COUNT_AT, 1);
        assert(verify_with(STATE, VOLUME, refused[i], ANSWER) == GAFFREEL_OUT_OF_RANGE);
        assert(verify_with(STATE, VOLUME, right, ANSWER) == GAFFREEL_NOT_NOW);
        put_number(state, ID_AT, 0);
        assert(verify_with(STATE, VOLUME, refused[i], ANSWER) == GAFFREEL_LENGTH_OR_LIMIT);
    }
    begin(right);
    assert(verify_with(STATE, VOLUME, right, ANSWER) == GAFFREEL_SECTOR_RANGE);
}

/* NULL with length 0 in place of a buffer, and of all of them. */
static void test_null(void) {
    begin(none);
    assert(gaffreel_volume_verify(NULL, 0, volume, VOLUME, 0, 1, answer, ANSWER) == GAFFREEL_LENGTH_OR_LIMIT);
    assert(gaffreel_volume_verify(state, STATE, NULL, 0, 0, 0, answer, ANSWER) == GAFFREEL_LENGTH_OR_LIMIT);
    assert(gaffreel_volume_verify(state, STATE, volume, VOLUME, 0, 1, NULL, 0) == GAFFREEL_LENGTH_OR_LIMIT);
    assert(gaffreel_volume_verify(NULL, 0, NULL, 0, 0, 0, NULL, 0) == GAFFREEL_LENGTH_OR_LIMIT);
    assert(gaffreel_volume_verify_keyed(state, STATE, NULL, 0, 0, 0, NULL, 0, answer, ANSWER) == GAFFREEL_LENGTH_OR_LIMIT);
    assert(gaffreel_volume_verify_keyed(NULL, 0, NULL, 0, 0, 0, NULL, 0, NULL, 0) == GAFFREEL_LENGTH_OR_LIMIT);
}

int main(void) {
    struct key key = {longest, 20};
    size_t i;
    for (i = 0; i < sizeof longest; i++) {
        longest[i] = (uint8_t)(i ^ 0x5a);
    }
    test_damage(none);
    test_damage(key);
    test_sizes(none);
    test_sizes(key);
    test_phases(none);
    test_phases(key);
    test_keys();
    test_order();
    test_null();
    puts("verify: all checks passed");
    return 0;
}
