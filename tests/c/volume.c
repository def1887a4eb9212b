/*
 * The volume's calls of the C interface: the examples of R91 and R92 (r 0, T 32, N 16, S 1, P 16), a cut after every store of a
 * batch, and refusals. Also compiled as C++.
 */
#undef NDEBUG

#include "buffers.h"
#include "gaffreel.h"

#include <assert.h>
#include <stdio.h>
#include <string.h>

enum {
    SECTOR = GAFFREEL_VOLUME_SECTOR_SIZE,
    LAYOUT = GAFFREEL_VOLUME_LAYOUT_SIZE,
    STATE = GAFFREEL_VOLUME_STATE_SIZE,
    ANSWER = GAFFREEL_VOLUME_ANSWER_SIZE,
    VOLUME = 120 * SECTOR,
    STAGING = 88 * SECTOR,
    /* The logical sector that is written, where it lies, where its tag does, and the stores of a batch with it alone. */
    WRITTEN = 5,
    DATA_AT = 109,
    TAG_AT = 96,
    COMMIT_STORES = 88,
    STORES = 90,
    /* Where the second entry's logical sector lies in staging. */
    SECOND_ENTRY = 48,
    /* Where a layout has the three numbers that have no meaning yet, and a state its phase and the first of its place. */
    UNUSED_AT = 40,
    PHASE_AT = 64,
    PLACE_AT = 72
};

static uint8_t volume[VOLUME], staging[STAGING], state[STATE], answer[ANSWER], layout[LAYOUT], bytes[SECTOR];

static void assert_answer(uint64_t first, uint64_t second, uint64_t third) {
    assert(number_at(answer, 0) == first);
    assert(number_at(answer, 8) == second);
    assert(number_at(answer, 16) == third);
}

/* How many steps of an advance did something, and whether one said acknowledged. */
static void assert_counts(uint64_t done, uint64_t acknowledged) {
    assert(number_at(answer, 24) == done);
    assert(number_at(answer, 32) == acknowledged);
}

static uint32_t format(void) {
    return gaffreel_volume_format(volume, VOLUME, 0, 4, 32, 1, 16, answer, ANSWER);
}

static uint32_t open_volume(void) {
    return gaffreel_volume_open(volume, VOLUME, staging, STAGING, 0, state, STATE, answer, ANSWER);
}

static uint32_t write_sector(size_t sector, uint8_t value) {
    memset(bytes, value, SECTOR);
    return gaffreel_volume_write(state, STATE, staging, STAGING, sector, bytes, SECTOR, answer, ANSWER);
}

static uint32_t flush(void) {
    return gaffreel_volume_flush(state, STATE, answer, ANSWER);
}

static uint32_t step(void) {
    return gaffreel_volume_step(state, STATE, volume, VOLUME, staging, STAGING, answer, ANSWER);
}

static uint32_t next_store(void) {
    return gaffreel_volume_next_store(state, STATE, volume, VOLUME, staging, STAGING, bytes, SECTOR, answer, ANSWER);
}

static uint32_t advance(size_t steps) {
    return gaffreel_volume_advance(state, STATE, volume, VOLUME, staging, STAGING, steps, answer, ANSWER);
}

static uint32_t read_sector(size_t sector) {
    return gaffreel_volume_read(state, STATE, volume, VOLUME, staging, STAGING, sector, bytes, SECTOR, answer, ANSWER);
}

/* Every byte of the sector is read as this value. */
static void assert_reads(size_t sector, uint8_t value) {
    size_t i;
    memset(bytes, MARK, SECTOR);
    assert(read_sector(sector) == GAFFREEL_DONE);
    for (i = 0; i < SECTOR; i++) {
        assert(bytes[i] == value);
    }
}

/* A fresh volume, open; staging before it has any bytes. */
static void begin(void) {
    memset(volume, 0, VOLUME);
    memset(staging, MARK, STAGING);
    assert(format() == GAFFREEL_DONE);
    assert(open_volume() == GAFFREEL_DONE);
    assert_answer(0, 0, 0);
}

static void test_query(void) {
    size_t i;
    memset(volume, 0, VOLUME);
    assert(gaffreel_volume_query(volume, VOLUME, 0, layout, LAYOUT, answer, ANSWER) == GAFFREEL_SUPERBLOCK);
    begin();
    memset(layout, MARK, LAYOUT);
    assert(gaffreel_volume_query(volume, VOLUME, 0, layout, LAYOUT, answer, ANSWER) == GAFFREEL_DONE);
    assert_answer(STAGING, 0, 0);
    assert(number_at(layout, 0) == 0);
    assert(number_at(layout, 8) == 4);
    assert(number_at(layout, 16) == 32);
    assert(number_at(layout, 24) == 1);
    assert(number_at(layout, 32) == 16);
    for (i = UNUSED_AT; i < LAYOUT; i++) {
        assert(layout[i] == 0);
    }
    assert(memcmp(layout, state, LAYOUT) == 0);
}

/* "the 80th write is taken, the 81st refused 8" */
static void test_full(void) {
    size_t i;
    begin();
    for (i = 0; i < 80; i++) {
        assert(write_sector(WRITTEN, 1) == GAFFREEL_DONE);
    }
    assert(write_sector(WRITTEN, 1) == GAFFREEL_FULL);
    assert_answer(0, 0, 0);
}

/* "stores to 8 to 95, then 109, then 96. Acknowledged by the 88th, filling after the 90th." */
static void test_stores(void) {
    uint64_t i;
    begin();
    assert(flush() == GAFFREEL_DONE);
    assert_answer(1, 0, 0);
    assert(write_sector(WRITTEN, 1) == GAFFREEL_DONE);
    assert(flush() == GAFFREEL_DONE);
    assert_answer(0, 0, 0);
    for (i = 0; i < COMMIT_STORES; i++) {
        assert(number_at(state, PHASE_AT) == GAFFREEL_VOLUME_COMMITTING && number_at(state, PLACE_AT) == i);
        assert(step() == GAFFREEL_DONE);
        assert_answer(GAFFREEL_VOLUME_STORED, 8 + i, i + 1 < COMMIT_STORES ? 0 : GAFFREEL_VOLUME_SAYS_ACKNOWLEDGED);
    }
    assert(number_at(state, PHASE_AT) == GAFFREEL_VOLUME_WRITING_BACK);
    assert(step() == GAFFREEL_DONE);
    assert_answer(GAFFREEL_VOLUME_STORED, DATA_AT, 0);
    assert(step() == GAFFREEL_DONE);
    assert_answer(GAFFREEL_VOLUME_STORED, TAG_AT, GAFFREEL_VOLUME_SAYS_FILLING);
    assert(step() == GAFFREEL_DONE);
    assert_answer(GAFFREEL_VOLUME_IDLE, 0, GAFFREEL_VOLUME_SAYS_FILLING);
    assert_reads(WRITTEN, 1);
}

/* The same stores, told by next_store and made here; beside each, the step on a copy of volume, state and staging. */
static void test_next_stores(void) {
    static uint8_t copy[VOLUME], copied_staging[STAGING];
    uint8_t copied_state[STATE], told[ANSWER];
    size_t stores;
    begin();
    assert(write_sector(WRITTEN, 1) == GAFFREEL_DONE);
    assert(flush() == GAFFREEL_DONE);
    for (stores = 0; stores <= STORES; stores++) {
        memcpy(copy, volume, VOLUME);
        memcpy(copied_staging, staging, STAGING);
        memcpy(copied_state, state, STATE);
        memset(bytes, MARK, SECTOR);
        assert(next_store() == GAFFREEL_DONE);
        assert(memcmp(copy, volume, VOLUME) == 0);
        if (number_at(answer, 0) == GAFFREEL_VOLUME_STORED) {
            memcpy(volume + number_at(answer, 8) * SECTOR, bytes, SECTOR);
        } else {
            assert(stores == STORES);
            assert_untouched(bytes, SECTOR);
        }
        memcpy(told, answer, ANSWER);
        assert(gaffreel_volume_step(copied_state, STATE, copy, VOLUME, copied_staging, STAGING, answer, ANSWER)
               == GAFFREEL_DONE);
        assert(memcmp(told, answer, ANSWER) == 0 && memcmp(copied_state, state, STATE) == 0);
        assert(memcmp(copy, volume, VOLUME) == 0 && memcmp(copied_staging, staging, STAGING) == 0);
    }
    assert_reads(WRITTEN, 1);
    assert(gaffreel_volume_next_store(state, STATE, volume, VOLUME, staging, STAGING, bytes, SECTOR - 1, answer, ANSWER)
           == GAFFREEL_LENGTH_OR_LIMIT);
    assert_answer(0, 0, 0);
}

/* "A cut after 87 stores keeps nothing of it, after 88 all of it", and so on for every other number of stores. */
static void test_cuts(void) {
    size_t stores;
    for (stores = 0; stores <= STORES; stores++) {
        size_t replayed = stores < COMMIT_STORES ? 0 : 2;
        begin();
        assert(write_sector(WRITTEN, 1) == GAFFREEL_DONE);
        assert(flush() == GAFFREEL_DONE);
        assert(advance(stores) == GAFFREEL_DONE);
        assert_counts(stores, stores < COMMIT_STORES ? 0 : 1);

        memset(state, MARK, STATE);
        memset(staging, MARK, STAGING);
        assert(open_volume() == GAFFREEL_DONE);
        assert_answer(replayed, 0, 0);
        assert(advance(replayed) == GAFFREEL_DONE);
        assert_counts(replayed, 0);
        assert_reads(WRITTEN, stores < COMMIT_STORES ? 0 : 1);
        assert_reads(0, 0);
    }
}

static void test_refusals(void) {
    memset(volume, 0, VOLUME);
    assert(gaffreel_volume_format(volume, VOLUME - SECTOR, 0, 4, 32, 1, 16, answer, ANSWER) == GAFFREEL_SHORT);
    assert_answer(1, 120, 0);
    assert(gaffreel_volume_format(volume, VOLUME, 0, 4, 0, 1, 16, answer, ANSWER) == GAFFREEL_OUT_OF_RANGE);
    assert(gaffreel_volume_format(volume, VOLUME, 0, 4, 33, 1, 16, answer, ANSWER) == GAFFREEL_OUT_OF_RANGE);
    assert(gaffreel_volume_format(volume, VOLUME, 0, 4, 256 + 20, 1, 16, answer, ANSWER) == GAFFREEL_OUT_OF_RANGE);
    assert(gaffreel_volume_format(volume, VOLUME - 1, 0, 4, 32, 1, 16, answer, ANSWER) == GAFFREEL_LENGTH_OR_LIMIT);
    begin();
    assert(format() == GAFFREEL_SUPERBLOCK);
    assert(write_sector(16, 1) == GAFFREEL_SECTOR_RANGE);
    assert_answer(0, 0, 0);

    /* A sector whose data was damaged. */
    volume[DATA_AT * SECTOR] ^= 1;
    memset(bytes, MARK, SECTOR);
    assert(read_sector(WRITTEN) == GAFFREEL_TAG_MISMATCH);
    assert_answer(1, WRITTEN, 0);
    assert_untouched(bytes, SECTOR);
    volume[DATA_AT * SECTOR] ^= 1;

    /* A superblock with another version; staging stays. */
    memset(staging, MARK, STAGING);
    volume[8] ^= 1;
    assert(open_volume() == GAFFREEL_INVALID);
    assert_untouched(staging, STAGING);
    volume[8] ^= 1;
    assert(open_volume() == GAFFREEL_DONE);

    /* A flush begun: not now. */
    assert(write_sector(WRITTEN, 1) == GAFFREEL_DONE);
    assert(flush() == GAFFREEL_DONE);
    assert(flush() == GAFFREEL_NOT_NOW);
    assert(write_sector(WRITTEN, 1) == GAFFREEL_NOT_NOW);
}

/* An advance that is refused at the second entry, since staging was damaged after the flush: the steps before it count. */
static void test_refused_advance(void) {
    begin();
    assert(write_sector(WRITTEN, 1) == GAFFREEL_DONE);
    assert(write_sector(WRITTEN, 2) == GAFFREEL_DONE);
    assert(flush() == GAFFREEL_DONE);
    staging[SECOND_ENTRY] = 16;

    assert(advance(SIZE_MAX) == GAFFREEL_SECTOR_RANGE);
    assert_answer(1, 1, 0);
    assert_counts(STORES, 1);
    assert(number_at(state, PHASE_AT) == GAFFREEL_VOLUME_WRITING_BACK && number_at(state, PLACE_AT) == 1);
    assert_reads(WRITTEN, 1);

    /* Nothing more is stored, and nothing acknowledged anew. */
    assert(advance(SIZE_MAX) == GAFFREEL_SECTOR_RANGE);
    assert_answer(1, 1, 0);
    assert_counts(0, 0);
    assert(step() == GAFFREEL_SECTOR_RANGE);
    assert_counts(0, 0);
}

/* A state with another byte at this place is none. */
static void assert_no_state(size_t at, uint8_t value) {
    uint8_t before[STATE];
    begin();
    state[at] = value;
    memcpy(before, state, STATE);
    memset(answer, MARK, ANSWER);
    assert(step() == GAFFREEL_LENGTH_OR_LIMIT);
    assert_answer(0, 0, 0);
    assert(memcmp(before, state, STATE) == 0);
}

/* Bytes that are no state, and buffers of a wrong length. */
static void test_malformed(void) {
    size_t i;
    for (i = UNUSED_AT; i < LAYOUT; i++) {
        assert_no_state(i, 1);
    }
    assert_no_state(PHASE_AT, 4);
    assert_no_state(PLACE_AT, 1);

    memset(answer, MARK, ANSWER);
    assert(gaffreel_volume_flush(state, STATE, answer, ANSWER - 1) == GAFFREEL_LENGTH_OR_LIMIT);
    assert_untouched(answer, ANSWER);
    assert(gaffreel_volume_flush(state, STATE - 1, answer, ANSWER) == GAFFREEL_LENGTH_OR_LIMIT);
    assert_answer(0, 0, 0);
    memset(layout, MARK, LAYOUT);
    memset(answer, MARK, ANSWER);
    assert(gaffreel_volume_query(volume, VOLUME, 0, layout, LAYOUT - 1, answer, ANSWER) == GAFFREEL_LENGTH_OR_LIMIT);
    assert_untouched(layout, LAYOUT);
    assert_answer(0, 0, 0);
    assert_counts(0, 0);
    memset(answer, MARK, ANSWER);
    assert(gaffreel_volume_query(volume, VOLUME, 0, layout, LAYOUT, answer, ANSWER - 1) == GAFFREEL_LENGTH_OR_LIMIT);
    assert_untouched(layout, LAYOUT);
    assert_untouched(answer, ANSWER);
}

/* NULL with length 0: in place of one buffer, and of all of them. */
static void test_null(void) {
    begin();
    memset(answer, MARK, ANSWER);
    assert(gaffreel_volume_format(NULL, 0, 0, 4, 32, 1, 16, answer, ANSWER) == GAFFREEL_SHORT);
    assert_answer(1, 120, 0);
    assert(gaffreel_volume_query(NULL, 0, 0, layout, LAYOUT, answer, ANSWER) == GAFFREEL_SHORT);
    assert_answer(1, 8, 0);
    assert(gaffreel_volume_open(volume, VOLUME, NULL, 0, 0, state, STATE, answer, ANSWER) == GAFFREEL_LENGTH_OR_LIMIT);
    assert_answer(0, 0, 0);
    assert(gaffreel_volume_write(state, STATE, staging, STAGING, 0, NULL, 0, answer, ANSWER) == GAFFREEL_LENGTH_OR_LIMIT);
    assert(gaffreel_volume_next_store(state, STATE, volume, VOLUME, staging, STAGING, NULL, 0, answer, ANSWER)
           == GAFFREEL_LENGTH_OR_LIMIT);
    assert(gaffreel_volume_read(state, STATE, NULL, 0, staging, STAGING, 0, bytes, SECTOR, answer, ANSWER)
           == GAFFREEL_LENGTH_OR_LIMIT);

    assert(gaffreel_volume_format(NULL, 0, 0, 4, 32, 1, 16, NULL, 0) == GAFFREEL_LENGTH_OR_LIMIT);
    assert(gaffreel_volume_query(NULL, 0, 0, NULL, 0, NULL, 0) == GAFFREEL_LENGTH_OR_LIMIT);
    assert(gaffreel_volume_open(NULL, 0, NULL, 0, 0, NULL, 0, NULL, 0) == GAFFREEL_LENGTH_OR_LIMIT);
    assert(gaffreel_volume_write(NULL, 0, NULL, 0, 0, NULL, 0, NULL, 0) == GAFFREEL_LENGTH_OR_LIMIT);
    assert(gaffreel_volume_flush(NULL, 0, NULL, 0) == GAFFREEL_LENGTH_OR_LIMIT);
    assert(gaffreel_volume_step(NULL, 0, NULL, 0, NULL, 0, NULL, 0) == GAFFREEL_LENGTH_OR_LIMIT);
    assert(gaffreel_volume_next_store(NULL, 0, NULL, 0, NULL, 0, NULL, 0, NULL, 0) == GAFFREEL_LENGTH_OR_LIMIT);
    assert(gaffreel_volume_advance(NULL, 0, NULL, 0, NULL, 0, 1, NULL, 0) == GAFFREEL_LENGTH_OR_LIMIT);
    assert(gaffreel_volume_read(NULL, 0, NULL, 0, NULL, 0, 0, NULL, 0, NULL, 0) == GAFFREEL_LENGTH_OR_LIMIT);
    assert_reads(0, 0);
}

int main(void) {
    test_query();
    test_full();
    test_stores();
    test_next_stores();
    test_cuts();
    test_refusals();
    test_refused_advance();
    test_malformed();
    test_null();
    puts("volume: all checks passed");
    return 0;
}
