/*
 * The volume's calls with a key, of the C interface: R91's and R92's volume (r 0, T 32, N 16, S 1, P 16), its batch of one write, right,
 * wrong and missing keys, the lengths of keys, and their place among the refusals. Also compiled as C++.
 */
#undef NDEBUG

#include "buffers.h"
#include "gaffreel.h"

#include <assert.h>
#include <stdio.h>
#include <string.h>

enum {
    SECTOR = GAFFREEL_VOLUME_SECTOR_SIZE,
    STATE = GAFFREEL_VOLUME_STATE_SIZE,
    ANSWER = GAFFREEL_VOLUME_ANSWER_SIZE,
    DIGEST = GAFFREEL_SHA256_DIGEST_SIZE,
    LONGEST = GAFFREEL_LONGEST_KEY,
    VOLUME = 120 * SECTOR,
    STAGING = 88 * SECTOR,
    PROVIDED = 16,
    /* The logical sector that is written, and where its tag lies, in bytes. */
    WRITTEN = 5,
    TAG_AT = 49312,
    COMMIT_STORES = 88,
    STORES = 90,
    /* Where a state has its phase and its entries. */
    PHASE_AT = 64,
    COUNT_AT = 88
};

/* A key as it is lent. */
struct key {
    const uint8_t *at;
    size_t length;
};

static uint8_t volume[VOLUME], staging[STAGING], state[STATE], answer[ANSWER], bytes[SECTOR], longest[LONGEST + 1];
static const uint8_t right_bytes[] = {'c', 'a', 'b', 'i', 'n', 'e', 't'}, wrong_bytes[] = {'c', 'a', 'b', 'i', 'n', 'e', 'T'};
static const struct key right = {right_bytes, sizeof right_bytes}, wrong = {wrong_bytes, sizeof wrong_bytes}, none = {NULL, 0};

static uint32_t format(struct key key) {
    return gaffreel_volume_format_keyed(volume, VOLUME, 0, 4, 32, 1, PROVIDED, key.at, key.length, answer, ANSWER);
}

static uint32_t open_volume(struct key key) {
    return gaffreel_volume_open_keyed(volume, VOLUME, staging, STAGING, 0, key.at, key.length, state, STATE, answer, ANSWER);
}

static uint32_t write_sector(size_t sector, struct key key) {
    return gaffreel_volume_write_keyed(state, STATE, staging, STAGING, sector, bytes, SECTOR, key.at, key.length, answer,
                                       ANSWER);
}

static uint32_t read_sector(size_t sector, struct key key) {
    return gaffreel_volume_read_keyed(state, STATE, volume, VOLUME, staging, STAGING, sector, bytes, SECTOR, key.at,
                                      key.length, answer, ANSWER);
}

static void assert_answer(uint64_t first, uint64_t second, uint64_t third) {
    assert(number_at(answer, 0) == first);
    assert(number_at(answer, 8) == second);
    assert(number_at(answer, 16) == third);
}

/* A fresh volume of the right key, open, after so many stores of a batch that has one write. */
static void begin(size_t stores) {
    memset(volume, 0, VOLUME);
    assert(format(right) == GAFFREEL_DONE);
    assert(open_volume(right) == GAFFREEL_DONE);
    memset(bytes, 1, SECTOR);
    assert(write_sector(WRITTEN, right) == GAFFREEL_DONE);
    assert(gaffreel_volume_flush(state, STATE, answer, ANSWER) == GAFFREEL_DONE);
    assert(gaffreel_volume_advance(state, STATE, volume, VOLUME, staging, STAGING, stores, answer, ANSWER) == GAFFREEL_DONE);
}

/* The tag is the HMAC of the sector's number and its bytes. */
static void test_tag(void) {
    uint8_t message[8 + SECTOR], digest[DIGEST];
    begin(STORES);
    put_number(message, 0, WRITTEN);
    memset(message + 8, 1, SECTOR);
    assert(gaffreel_hmac_sha256(right.at, right.length, message, sizeof message, digest, DIGEST) == GAFFREEL_DONE);
    assert(memcmp(volume + TAG_AT, digest, DIGEST) == 0);
}

/* A cut after every store: the batch is there exactly from the 88th on, and with it open shows a wrong key. */
static void test_cuts(void) {
    size_t stores;
    for (stores = 0; stores <= STORES; stores++) {
        uint32_t shown = stores < COMMIT_STORES ? GAFFREEL_DONE : GAFFREEL_TAG_MISMATCH;
        begin(stores);
        assert(open_volume(wrong) == shown);
        assert_answer(shown == GAFFREEL_DONE ? 0 : 2, 0, 0);
        assert(gaffreel_volume_open(volume, VOLUME, staging, STAGING, 0, state, STATE, answer, ANSWER) == shown);
        assert(open_volume(right) == GAFFREEL_DONE);
        assert_answer(stores < COMMIT_STORES ? 0 : 2, 0, 0);
        assert(gaffreel_volume_advance(state, STATE, volume, VOLUME, staging, STAGING, SIZE_MAX, answer, ANSWER)
               == GAFFREEL_DONE);
        memset(bytes, MARK, SECTOR);
        assert(read_sector(WRITTEN, right) == GAFFREEL_DONE);
        assert(bytes[0] == (stores < COMMIT_STORES ? 0 : 1) && bytes[SECTOR - 1] == bytes[0]);
    }
}

/* A read under a wrong key, and without one; a write under a wrong key, which nothing shows. */
static void test_wrong_keys(void) {
    size_t sector;
    begin(STORES);
    memset(bytes, MARK, SECTOR);
    for (sector = 0; sector < PROVIDED; sector++) {
        assert(read_sector(sector, wrong) == GAFFREEL_TAG_MISMATCH);
        assert_answer(1, sector, 0);
        assert(gaffreel_volume_read(state, STATE, volume, VOLUME, staging, STAGING, sector, bytes, SECTOR, answer, ANSWER)
               == GAFFREEL_TAG_MISMATCH);
    }
    assert_untouched(bytes, SECTOR);
    assert(read_sector(WRITTEN, right) == GAFFREEL_DONE);
    assert(write_sector(WRITTEN, wrong) == GAFFREEL_DONE);
    assert(gaffreel_volume_flush(state, STATE, answer, ANSWER) == GAFFREEL_DONE);
    assert(gaffreel_volume_advance(state, STATE, volume, VOLUME, staging, STAGING, SIZE_MAX, answer, ANSWER) == GAFFREEL_DONE);
    assert(read_sector(WRITTEN, right) == GAFFREEL_TAG_MISMATCH);
    assert(read_sector(WRITTEN, wrong) == GAFFREEL_DONE);
    assert(open_volume(right) == GAFFREEL_TAG_MISMATCH);
}

/* Each call takes a key of 1 to 256 bytes; with any other, also NULL, it changes nothing but the answer. */
static void test_key_lengths(void) {
    static uint8_t before[VOLUME], staged[STAGING];
    uint8_t kept[STATE];
    size_t length;
    begin(STORES);
    memcpy(before, volume, VOLUME);
    memcpy(staged, staging, STAGING);
    memcpy(kept, state, STATE);
    memset(bytes, MARK, SECTOR);
    for (length = 0; length <= LONGEST + 1; length++) {
        struct key key = {longest, length};
        int refused = length == 0 || length > LONGEST;
        if (length == 0) {
            key = none;
        }
        memset(volume, 0, 8 * SECTOR);
        assert(format(key) == (refused ? GAFFREEL_OUT_OF_RANGE : GAFFREEL_DONE));
        if (refused) {
            assert_answer(0, 0, 0);
            assert(memcmp(volume + 8 * SECTOR, before + 8 * SECTOR, VOLUME - 8 * SECTOR) == 0);
        }
        memcpy(volume, before, VOLUME);
        assert(open_volume(key) == (refused ? GAFFREEL_OUT_OF_RANGE : GAFFREEL_TAG_MISMATCH));
        assert(read_sector(0, key) == (refused ? GAFFREEL_OUT_OF_RANGE : GAFFREEL_TAG_MISMATCH));
        assert_untouched(bytes, SECTOR);
        assert(write_sector(0, key) == (refused ? GAFFREEL_OUT_OF_RANGE : GAFFREEL_DONE));
        if (refused) {
            assert_answer(0, 0, 0);
            assert(memcmp(volume, before, VOLUME) == 0 && memcmp(staging, staged, STAGING) == 0);
            assert(memcmp(state, kept, STATE) == 0);
        }
        memcpy(staging, staged, STAGING);
        memcpy(state, kept, STATE);
    }
}

/* 1 comes before 2 for the key; 2 before all else, and at open before staging's length too. */
static void test_order_at_setup(void) {
    uint8_t small[ANSWER - 1];
    memset(volume, 0, VOLUME);
    assert(gaffreel_volume_format_keyed(volume, VOLUME, 0, 4, 32, 1, 16, NULL, 0, small, sizeof small)
           == GAFFREEL_LENGTH_OR_LIMIT);
    assert(gaffreel_volume_format_keyed(volume, VOLUME - 1, 0, 4, 32, 1, 16, NULL, 0, answer, ANSWER)
           == GAFFREEL_LENGTH_OR_LIMIT);
    assert(gaffreel_volume_format_keyed(volume, SECTOR, 0, 4, 32, 1, 16, NULL, 0, answer, ANSWER) == GAFFREEL_OUT_OF_RANGE);
    assert(gaffreel_volume_open_keyed(volume, VOLUME, staging, STAGING, 0, NULL, 0, state, STATE - 1, answer, ANSWER)
           == GAFFREEL_LENGTH_OR_LIMIT);
    assert(gaffreel_volume_open_keyed(volume, VOLUME - 1, staging, STAGING, 0, NULL, 0, state, STATE, answer, ANSWER)
           == GAFFREEL_LENGTH_OR_LIMIT);
    /* Neither is the superblock there, nor is staging as long as it must be. */
    assert(gaffreel_volume_open_keyed(volume, VOLUME, staging, 0, 0, NULL, 0, state, STATE, answer, ANSWER)
           == GAFFREEL_OUT_OF_RANGE);
    assert(gaffreel_volume_open_keyed(NULL, 0, NULL, 0, 0, NULL, 0, state, STATE, answer, ANSWER) == GAFFREEL_OUT_OF_RANGE);
    assert(gaffreel_volume_open_keyed(NULL, 0, NULL, 0, 0, right.at, right.length, state, STATE, answer, ANSWER)
           == GAFFREEL_SHORT);
    assert_answer(1, 8, 0);
}

static void test_order_in_use(void) {
    begin(STORES);
    assert(gaffreel_volume_write_keyed(state, STATE, staging, STAGING, 0, bytes, SECTOR - 1, NULL, 0, answer, ANSWER)
           == GAFFREEL_LENGTH_OR_LIMIT);
    assert(gaffreel_volume_read_keyed(state, STATE, volume, VOLUME, staging, STAGING - 1, 0, bytes, SECTOR, NULL, 0, answer,
                                      ANSWER) == GAFFREEL_LENGTH_OR_LIMIT);
    assert(write_sector(PROVIDED, none) == GAFFREEL_OUT_OF_RANGE && read_sector(PROVIDED, none) == GAFFREEL_OUT_OF_RANGE);
    assert(write_sector(PROVIDED, right) == GAFFREEL_SECTOR_RANGE && read_sector(PROVIDED, right) == GAFFREEL_SECTOR_RANGE);

    /* Committing: not now, but the key first; and before the key, bytes that are no state. */
    assert(write_sector(0, right) == GAFFREEL_DONE);
    assert(gaffreel_volume_flush(state, STATE, answer, ANSWER) == GAFFREEL_DONE);
    assert(write_sector(0, none) == GAFFREEL_OUT_OF_RANGE);
    assert(write_sector(0, right) == GAFFREEL_NOT_NOW);
    put_number(state, PHASE_AT, 4);
    assert(write_sector(0, none) == GAFFREEL_LENGTH_OR_LIMIT && read_sector(0, none) == GAFFREEL_LENGTH_OR_LIMIT);

    /* Recovering: read is not now, but the key first. */
    assert(open_volume(right) == GAFFREEL_DONE);
    assert(number_at(state, PHASE_AT) == GAFFREEL_VOLUME_RECOVERING);
    assert(read_sector(0, none) == GAFFREEL_OUT_OF_RANGE && read_sector(0, right) == GAFFREEL_NOT_NOW);
    /* A count in recovering is not sound. */
    put_number(state, COUNT_AT, 1);
    assert(read_sector(0, none) == GAFFREEL_LENGTH_OR_LIMIT);
}

/* NULL with length 0 in place of all buffers. */
static void test_null(void) {
    assert(gaffreel_volume_format_keyed(NULL, 0, 0, 4, 32, 1, 16, NULL, 0, NULL, 0) == GAFFREEL_LENGTH_OR_LIMIT);
    assert(gaffreel_volume_open_keyed(NULL, 0, NULL, 0, 0, NULL, 0, NULL, 0, NULL, 0) == GAFFREEL_LENGTH_OR_LIMIT);
    assert(gaffreel_volume_write_keyed(NULL, 0, NULL, 0, 0, NULL, 0, NULL, 0, NULL, 0) == GAFFREEL_LENGTH_OR_LIMIT);
    assert(gaffreel_volume_read_keyed(NULL, 0, NULL, 0, NULL, 0, 0, NULL, 0, NULL, 0, NULL, 0) == GAFFREEL_LENGTH_OR_LIMIT);
}

int main(void) {
    test_tag();
    test_cuts();
    test_wrong_keys();
    test_key_lengths();
    test_order_at_setup();
    test_order_in_use();
    test_null();
    puts("keyed: all checks passed");
    return 0;
}
