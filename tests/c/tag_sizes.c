/*
 * The volume's calls with tags of every size: batches and sections; tags of 20 bytes (T 20, N 8, S 1, P 8); and a tag that lies across two
 * sectors, that of sector 17 (T 30, N 32, S 1, P 24), its stores, a cut after each of them, its damage, and the states that name a third
 * store. Also compiled as C++.
 */
#undef NDEBUG

#include "buffers.h"
#include "gaffreel.h"

#include <assert.h>
#include <stdio.h>
#include <string.h>

enum {
    SECTOR = GAFFREEL_VOLUME_SECTOR_SIZE,
    LAYOUT = GAFFREEL_VOLUME_LAYOUT_SIZE,
    STATE = GAFFREEL_VOLUME_STATE_SIZE,
    ANSWER = GAFFREEL_VOLUME_ANSWER_SIZE,
    /* The sectors of the largest section, and of the largest volume here. */
    LARGEST_SECTION = 168,
    MOST_SECTORS = 200,
    MOST_WIDTH = 32,
    /* Where a state has its phase, the two numbers of its place, and its entries. */
    PHASE_AT = 64,
    ENTRY_AT = 72,
    STORE_AT = 80,
    COUNT_AT = 88,
    /* The volume with a tag across two sectors: where its tag area and its data begin, the sector of the tag, the first that is written,
       and the stores that commit a batch and that write sectors 16 to 18 back. */
    TAGS_AT = 96,
    DATA_AT = 104,
    ACROSS = 17,
    FIRST = 16,
    COMMIT_STORES = 88,
    WRITE_BACK_STORES = 7
};

static uint8_t volume[MOST_SECTORS * SECTOR], staging[LARGEST_SECTION * SECTOR], state[STATE], answer[ANSWER], layout[LAYOUT],
    bytes[SECTOR];
static size_t volume_length, staging_length;

static uint32_t open_volume(void) {
    return gaffreel_volume_open(volume, volume_length, staging, staging_length, 0, state, STATE, answer, ANSWER);
}

static uint32_t write_sector(size_t sector) {
    memset(bytes, (int)sector, SECTOR);
    return gaffreel_volume_write(state, STATE, staging, staging_length, sector, bytes, SECTOR, answer, ANSWER);
}

static uint32_t flush(void) {
    return gaffreel_volume_flush(state, STATE, answer, ANSWER);
}

static uint32_t step(void) {
    return gaffreel_volume_step(state, STATE, volume, volume_length, staging, staging_length, answer, ANSWER);
}

static uint32_t next_store(void) {
    return gaffreel_volume_next_store(state, STATE, volume, volume_length, staging, staging_length, bytes, SECTOR, answer, ANSWER);
}

static uint32_t advance(size_t steps) {
    return gaffreel_volume_advance(state, STATE, volume, volume_length, staging, staging_length, steps, answer, ANSWER);
}

static uint32_t read_sector(size_t sector) {
    return gaffreel_volume_read(state, STATE, volume, volume_length, staging, staging_length, sector, bytes, SECTOR, answer,
                                ANSWER);
}

static uint32_t verify(size_t first, size_t count) {
    return gaffreel_volume_verify(state, STATE, volume, volume_length, first, count, answer, ANSWER);
}

/* A fresh volume, open; a shorter one is refused. */
static void begin(size_t shift, size_t width, size_t provided, size_t sectors) {
    assert(sectors <= MOST_SECTORS);
    volume_length = sectors * SECTOR;
    memset(volume, 0, volume_length);
    assert(gaffreel_volume_format(volume, volume_length - SECTOR, 0, shift, width, 1, provided, answer, ANSWER) == GAFFREEL_SHORT);
    assert(number_at(answer, 8) == sectors);
    assert(gaffreel_volume_format(volume, volume_length, 0, shift, width, 1, provided, answer, ANSWER) == GAFFREEL_DONE);
    assert(gaffreel_volume_query(volume, volume_length, 0, layout, LAYOUT, answer, ANSWER) == GAFFREEL_DONE);
    assert(number_at(layout, 16) == width);
    staging_length = (size_t)number_at(answer, 0);
    memset(staging, MARK, sizeof staging);
    assert(open_volume() == GAFFREEL_DONE);
}

/* The sectors of a section by the size of a tag. */
static size_t section_sectors(size_t width) {
    return width <= 8 ? 168 : width <= 16 ? 128 : width <= 24 ? 104 : 88;
}

/* A full batch of every tag size: as many entries as its section has, and two stores for each to write it back. */
static void test_batches(void) {
    size_t width, i;
    for (width = 1; width <= MOST_WIDTH; width++) {
        size_t sectors = section_sectors(width), entries = sectors - 8;
        begin(3, width, 4, 8 + sectors + 8 + 4);
        assert(staging_length == sectors * SECTOR);
        for (i = 0; i < entries; i++) {
            assert(write_sector(i % 4) == GAFFREEL_DONE);
        }
        assert(write_sector(0) == GAFFREEL_FULL);
        assert(flush() == GAFFREEL_DONE && advance(SIZE_MAX) == GAFFREEL_DONE);
        assert(number_at(answer, 24) == sectors + 2 * entries && number_at(answer, 32) == 1);
        assert(verify(0, 4) == GAFFREEL_DONE);
    }
}

/* "T 20 has E 96 and M 104": 128 sectors, and 104 + 2 stores for one write. */
static void test_tags_of_20(void) {
    begin(3, 20, 8, 128);
    assert(staging_length == 104 * SECTOR);
    assert(write_sector(7) == GAFFREEL_DONE && flush() == GAFFREEL_DONE);
    assert(advance(SIZE_MAX) == GAFFREEL_DONE && number_at(answer, 24) == 104 + 2);
    assert(read_sector(7) == GAFFREEL_DONE && bytes[0] == 7);
}

/* Sectors 16 to 18 in a batch, flushed. */
static void begin_across(void) {
    size_t sector;
    begin(5, 30, 24, 128);
    for (sector = FIRST; sector < FIRST + 3; sector++) {
        assert(write_sector(sector) == GAFFREEL_DONE);
    }
    assert(flush() == GAFFREEL_DONE);
}

/* All sectors are as they must be, with the batch or without it. */
static void assert_sectors(int with_batch) {
    size_t sector;
    for (sector = 0; sector < 24; sector++) {
        int written = with_batch && sector >= FIRST && sector < FIRST + 3;
        assert(read_sector(sector) == GAFFREEL_DONE);
        assert(bytes[0] == (written ? sector : 0) && bytes[SECTOR - 1] == bytes[0]);
    }
    assert(verify(0, 24) == GAFFREEL_DONE);
}

/* Data and tag of 16, data and both parts of the tag of 17, the lower one first, data and tag of 18. */
static void test_stores(void) {
    static const uint64_t stores[WRITE_BACK_STORES][3] = {
        {0, 0, DATA_AT + 16}, {0, 1, TAGS_AT},     {1, 0, DATA_AT + 17},  {1, 1, TAGS_AT},
        {1, 2, TAGS_AT + 1},  {2, 0, DATA_AT + 18}, {2, 1, TAGS_AT + 1},
    };
    static uint8_t before[2 * SECTOR];
    size_t i;
    begin_across();
    assert(advance(COMMIT_STORES) == GAFFREEL_DONE && number_at(answer, 32) == 1);
    for (i = 0; i < WRITE_BACK_STORES; i++) {
        uint64_t says = i + 1 < WRITE_BACK_STORES ? 0 : GAFFREEL_VOLUME_SAYS_FILLING;
        assert(number_at(state, PHASE_AT) == GAFFREEL_VOLUME_WRITING_BACK);
        assert(number_at(state, ENTRY_AT) == stores[i][0] && number_at(state, STORE_AT) == stores[i][1]);
        memcpy(before, volume + TAGS_AT * SECTOR, sizeof before);
        assert(step() == GAFFREEL_DONE);
        assert(number_at(answer, 0) == GAFFREEL_VOLUME_STORED && number_at(answer, 8) == stores[i][2]);
        assert(number_at(answer, 16) == says);
        /* Of sector 17's tag the first two bytes, then the other 28, and no other byte of the tag area. */
        if (i == 3) {
            assert(memcmp(before, volume + TAGS_AT * SECTOR, 510) == 0);
            assert(memcmp(before + 512, volume + TAGS_AT * SECTOR + 512, SECTOR) == 0);
        } else if (i == 4) {
            assert(memcmp(before, volume + TAGS_AT * SECTOR, 512) == 0);
            assert(memcmp(before + 540, volume + TAGS_AT * SECTOR + 540, SECTOR - 28) == 0);
        }
    }
    assert_sectors(1);
}

/* A cut after every store, and after every store of the recovery that follows. */
static void test_cuts(void) {
    static uint8_t left[MOST_SECTORS * SECTOR];
    size_t stores, replayed;
    for (stores = 0; stores <= COMMIT_STORES + WRITE_BACK_STORES; stores++) {
        size_t to_come = stores < COMMIT_STORES ? 0 : WRITE_BACK_STORES;
        begin_across();
        assert(advance(stores) == GAFFREEL_DONE && number_at(answer, 24) == stores);
        memcpy(left, volume, volume_length);
        for (replayed = 0; replayed <= to_come; replayed++) {
            memcpy(volume, left, volume_length);
            assert(open_volume() == GAFFREEL_DONE && number_at(answer, 0) == to_come);
            assert(advance(replayed) == GAFFREEL_DONE && number_at(answer, 24) == replayed);
            assert(open_volume() == GAFFREEL_DONE && number_at(answer, 0) == to_come);
            assert(advance(SIZE_MAX) == GAFFREEL_DONE && number_at(answer, 24) == to_come);
            assert_sectors(stores >= COMMIT_STORES);
        }
    }
}

/* Each byte of the tag, in either sector, counts. */
static void test_damage(void) {
    size_t tag = TAGS_AT * SECTOR + ACROSS * 30, i;
    begin(5, 30, 24, 128);
    for (i = 0; i < 30; i++) {
        volume[tag + i] ^= 1;
        assert(read_sector(ACROSS) == GAFFREEL_TAG_MISMATCH && number_at(answer, 8) == ACROSS);
        assert(verify(0, 24) == GAFFREEL_TAG_MISMATCH && number_at(answer, 8) == ACROSS);
        assert(verify(0, ACROSS) == GAFFREEL_DONE && verify(ACROSS + 1, 24 - ACROSS - 1) == GAFFREEL_DONE);
        volume[tag + i] ^= 1;
    }
}

static void put_place(uint64_t entry, uint64_t store) {
    put_number(state, PHASE_AT, GAFFREEL_VOLUME_WRITING_BACK);
    put_number(state, ENTRY_AT, entry);
    put_number(state, STORE_AT, store);
}

/* Step, next store, advance and read of this state answer so; write, flush and verify do not look at the staged entry. */
static void assert_place(uint64_t entry, uint64_t store, uint32_t stepped, uint32_t read) {
    uint32_t untested = store < 3 ? GAFFREEL_NOT_NOW : GAFFREEL_LENGTH_OR_LIMIT;
    put_place(entry, store);
    assert(write_sector(0) == untested && flush() == untested && verify(0, 1) == untested);
    assert(read_sector(0) == read);
    assert(next_store() == stepped);
    put_place(entry, store);
    assert(advance(1) == stepped);
    put_place(entry, store);
    assert(step() == stepped);
}

/* A third store is there where the staged entry's number has one, whether that sector is provided or not; a fourth never. */
static void test_states(void) {
    begin_across();
    assert(advance(COMMIT_STORES) == GAFFREEL_DONE);
    assert_place(0, 1, GAFFREEL_DONE, GAFFREEL_DONE);
    assert_place(0, 2, GAFFREEL_LENGTH_OR_LIMIT, GAFFREEL_LENGTH_OR_LIMIT);
    assert_place(0, 3, GAFFREEL_LENGTH_OR_LIMIT, GAFFREEL_LENGTH_OR_LIMIT);
    assert_place(1, 2, GAFFREEL_DONE, GAFFREEL_DONE);
    assert_place(1, 3, GAFFREEL_LENGTH_OR_LIMIT, GAFFREEL_LENGTH_OR_LIMIT);
    /* The first entry's sector is one that is not provided: with a tag across two sectors, and without. */
    put_number(staging, 0, UINT64_MAX - 14);
    assert_place(0, 2, GAFFREEL_SECTOR_RANGE, GAFFREEL_DONE);
    assert(number_at(answer, 0) == 1 && number_at(answer, 8) == 0);
    put_number(staging, 0, UINT64_MAX);
    assert_place(0, 2, GAFFREEL_LENGTH_OR_LIMIT, GAFFREEL_LENGTH_OR_LIMIT);
    assert_place(0, 1, GAFFREEL_SECTOR_RANGE, GAFFREEL_DONE);
}

/* A write leaves zeros behind its tag; open takes any bytes there. */
static void test_padding(void) {
    size_t entry = 3 * 48, i;
    begin(5, 30, 24, 128);
    memset(staging, MARK, staging_length);
    put_number(state, COUNT_AT, 3);
    assert(write_sector(ACROSS) == GAFFREEL_DONE);
    assert(number_at(staging, entry) == ACROSS);
    assert(staging[entry + 46] == 0 && staging[entry + 47] == 0);
    assert(staging[entry - 1] == MARK && staging[entry + 48] == MARK);

    begin_across();
    assert(advance(COMMIT_STORES) == GAFFREEL_DONE);
    for (i = 0; i < 3; i++) {
        memset(volume + 8 * SECTOR + i * 48 + 46, MARK, 2);
    }
    assert(open_volume() == GAFFREEL_DONE && number_at(answer, 0) == WRITE_BACK_STORES);
    assert(advance(SIZE_MAX) == GAFFREEL_DONE);
    assert_sectors(1);
}

int main(void) {
    test_batches();
    test_tags_of_20();
    test_stores();
    test_cuts();
    test_damage();
    test_states();
    test_padding();
    puts("tag sizes: all checks passed");
    return 0;
}
