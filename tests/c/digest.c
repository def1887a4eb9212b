/* The digest's calls of the C interface: published vectors of SHA-256, and each refusal. Also compiled as C++. */
#undef NDEBUG

#include "buffers.h"
#include "gaffreel.h"

#include <assert.h>
#include <stdio.h>
#include <string.h>

enum { DIGEST = GAFFREEL_SHA256_DIGEST_SIZE, STATE = GAFFREEL_SHA256_STATE_SIZE, COUNT_AT = 96 };

/* A message in one call, and cut in two at each place. */
static void test_vector(const char *text, const char *hex) {
    const uint8_t *message = (const uint8_t *)text;
    size_t length = strlen(text);
    uint8_t state[STATE], digest[DIGEST];
    size_t cut;

    assert(gaffreel_sha256(message, length, digest, DIGEST) == GAFFREEL_DONE);
    assert_digest(digest, hex);
    for (cut = 0; cut <= length; cut++) {
        memset(digest, MARK, DIGEST);
        assert(gaffreel_sha256_new(state, STATE) == GAFFREEL_DONE);
        assert(gaffreel_sha256_update(state, STATE, message, cut) == GAFFREEL_DONE);
        assert(gaffreel_sha256_update(state, STATE, message + cut, length - cut) == GAFFREEL_DONE);
        assert(gaffreel_sha256_finish(state, STATE, digest, DIGEST) == GAFFREEL_DONE);
        assert_digest(digest, hex);
    }
}

/* A million times 'a', in pieces of 1 to 97 bytes. */
static void test_million(void) {
    uint8_t piece[97], state[STATE], digest[DIGEST];
    size_t left = 1000000, length = 1;

    memset(piece, 'a', sizeof piece);
    assert(gaffreel_sha256_new(state, STATE) == GAFFREEL_DONE);
    while (left > 0) {
        if (length > left) {
            length = left;
        }
        assert(gaffreel_sha256_update(state, STATE, piece, length) == GAFFREEL_DONE);
        left -= length;
        length = length % sizeof piece + 1;
    }
    assert(gaffreel_sha256_finish(state, STATE, digest, DIGEST) == GAFFREEL_DONE);
    assert_digest(digest, "cdc76e5c9914fb9281a1c7e284d73e67f1809a48a497200e046d39ccc7112cd0");
}

/* NULL with length 0: an empty message or piece is taken, a buffer to write to is refused. */
static void test_null(void) {
    const char *empty = "e3b0c44298fc1c149afbf4c8996fb92427ae41e4649b934ca495991b7852b855";
    uint8_t state[STATE], digest[DIGEST];

    assert(gaffreel_sha256(NULL, 0, digest, DIGEST) == GAFFREEL_DONE);
    assert_digest(digest, empty);
    assert(gaffreel_sha256_new(state, STATE) == GAFFREEL_DONE);
    assert(gaffreel_sha256_update(state, STATE, NULL, 0) == GAFFREEL_DONE);
    memset(digest, MARK, DIGEST);
    assert(gaffreel_sha256_finish(state, STATE, digest, DIGEST) == GAFFREEL_DONE);
    assert_digest(digest, empty);

    assert(gaffreel_sha256(NULL, 0, NULL, 0) == GAFFREEL_LENGTH_OR_LIMIT);
    assert(gaffreel_sha256_new(NULL, 0) == GAFFREEL_LENGTH_OR_LIMIT);
    assert(gaffreel_sha256_update(NULL, 0, NULL, 0) == GAFFREEL_LENGTH_OR_LIMIT);
    assert(gaffreel_sha256_finish(NULL, 0, NULL, 0) == GAFFREEL_LENGTH_OR_LIMIT);
}

/* Each length but the right one, from 0 to 200, for each buffer. */
static void test_lengths(void) {
    const uint8_t piece[3] = {'a', 'b', 'c'};
    uint8_t state[200], digest[200], good[STATE];
    size_t length;

    memset(state, MARK, sizeof state);
    memset(digest, MARK, sizeof digest);
    assert(gaffreel_sha256_new(good, STATE) == GAFFREEL_DONE);
    for (length = 0; length <= 200; length++) {
        if (length != DIGEST) {
            assert(gaffreel_sha256(piece, 3, digest, length) == GAFFREEL_LENGTH_OR_LIMIT);
            assert(gaffreel_sha256_finish(good, STATE, digest, length) == GAFFREEL_LENGTH_OR_LIMIT);
        }
        if (length != STATE) {
            assert(gaffreel_sha256_new(state, length) == GAFFREEL_LENGTH_OR_LIMIT);
            assert(gaffreel_sha256_update(state, length, piece, 3) == GAFFREEL_LENGTH_OR_LIMIT);
            assert(gaffreel_sha256_finish(state, length, digest, DIGEST) == GAFFREEL_LENGTH_OR_LIMIT);
        }
        assert_untouched(state, sizeof state);
        assert_untouched(digest, sizeof digest);
    }
}

/* The state before any piece, but with a count of its own. */
static void state_with_count(uint8_t *state, uint64_t count) {
    size_t i;
    assert(gaffreel_sha256_new(state, STATE) == GAFFREEL_DONE);
    for (i = 0; i < 8; i++) {
        state[COUNT_AT + i] = (uint8_t)(count >> (8 * i));
    }
}

static void test_limit(void) {
    const uint8_t piece[2] = {0, 0};
    uint8_t state[STATE], before[STATE], digest[DIGEST];

    /* One byte below the limit: a byte is taken, two are not. */
    state_with_count(state, GAFFREEL_SHA256_LIMIT - 1);
    memcpy(before, state, STATE);
    assert(gaffreel_sha256_update(state, STATE, piece, 2) == GAFFREEL_LENGTH_OR_LIMIT);
    assert(memcmp(state, before, STATE) == 0);
    assert(gaffreel_sha256_update(state, STATE, piece, 1) == GAFFREEL_DONE);

    /* At the limit: the state closes, and an empty piece is taken. */
    assert(gaffreel_sha256_finish(state, STATE, digest, DIGEST) == GAFFREEL_DONE);
    assert(gaffreel_sha256_update(state, STATE, piece, 0) == GAFFREEL_DONE);

    /* Past it: nothing is taken, and it does not close. */
    state_with_count(state, GAFFREEL_SHA256_LIMIT + 1);
    memcpy(before, state, STATE);
    memset(digest, MARK, DIGEST);
    assert(gaffreel_sha256_update(state, STATE, piece, 0) == GAFFREEL_LENGTH_OR_LIMIT);
    assert(memcmp(state, before, STATE) == 0);
    assert(gaffreel_sha256_finish(state, STATE, digest, DIGEST) == GAFFREEL_LENGTH_OR_LIMIT);
    assert_untouched(digest, DIGEST);
}

int main(void) {
    test_vector("", "e3b0c44298fc1c149afbf4c8996fb92427ae41e4649b934ca495991b7852b855");
    test_vector("abc", "ba7816bf8f01cfea414140de5dae2223b00361a396177a9cb410ff61f20015ad");
    test_vector("abcdbcdecdefdefgefghfghighijhijkijkljklmklmnlmnomnopnopq",
                "248d6a61d20638b8e5c026930c3e6039a33ce45964ff2167f6ecedd419db06c1");
    test_million();
    test_null();
    test_lengths();
    test_limit();
    puts("digest: all checks passed");
    return 0;
}
