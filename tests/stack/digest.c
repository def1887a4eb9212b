/* The calls of SHA-256 and of HMAC. */
#undef NDEBUG

#include "buffers.h"
#include "calls.h"
#include "gaffreel.h"
#include "hostile.h"

#include <assert.h>

enum {
    STATE = GAFFREEL_SHA256_STATE_SIZE,
    DIGEST = GAFFREEL_SHA256_DIGEST_SIZE,
    /* Where a state has its count of bytes. */
    COUNT_AT = 96,
    /* A few blocks. */
    LONGEST = 300,
    HOSTILE_ROUNDS = 2000
};

static uint8_t message[LONGEST + 1], state[STATE + 1], digest[DIGEST + 1], key[KEY_ROOM];

/* A message at once, and in two pieces. */
static void digest_message(size_t length) {
    size_t first = draw(length + 1);
    uint8_t *start = length == 0 ? NULL : message;
    assert(CALL(gaffreel_sha256, start, length, digest, DIGEST) == GAFFREEL_DONE);
    assert(CALL(gaffreel_sha256_new, state, STATE) == GAFFREEL_DONE);
    assert(CALL(gaffreel_sha256_update, state, STATE, start, first) == GAFFREEL_DONE);
    assert(CALL(gaffreel_sha256_update, state, STATE, message + first, length - first) == GAFFREEL_DONE);
    assert(CALL(gaffreel_sha256_finish, state, STATE, digest, DIGEST) == GAFFREEL_DONE);
}

/* A message under keys of every kind of length, those that are refused too. */
static void mac_message(size_t length) {
    uint8_t *start = length == 0 ? NULL : message;
    size_t i;
    for (i = 0; i < KEY_LENGTHS; i++) {
        struct loan lent = key_of(key, key_lengths[i]);
        CALL(gaffreel_hmac_sha256, LENT(lent), start, length, digest, DIGEST);
    }
}

/* Any bytes as the state, counts around the limit among them, and any lengths. */
static void hostile_calls(void) {
    struct loan piece = any_length((struct loan){message, draw(LONGEST)});
    struct loan lent_state = any_length((struct loan){state, STATE});
    struct loan lent_digest = any_length((struct loan){digest, DIGEST});
    struct loan lent_key = any_key(key);
    uint64_t count = draw(2) ? draw_number() : GAFFREEL_SHA256_LIMIT + draw(LONGEST) - LONGEST / 2;
    fill(state, STATE);
    put_number(state, COUNT_AT, count);
    CALL(gaffreel_sha256, LENT(piece), LENT(lent_digest));
    CALL(gaffreel_hmac_sha256, LENT(lent_key), LENT(piece), LENT(lent_digest));
    CALL(gaffreel_sha256_finish, LENT(lent_state), LENT(lent_digest));
    CALL(gaffreel_sha256_update, LENT(lent_state), LENT(piece));
    CALL(gaffreel_sha256_new, LENT(lent_state));
}

void call_sha256(void) {
    size_t i;
    fill(message, LONGEST);
    fill(key, KEY_ROOM);
    for (i = 0; i <= LONGEST; i++) {
        digest_message(i);
        mac_message(i);
    }
    for (i = 0; i < HOSTILE_ROUNDS; i++) {
        hostile_calls();
    }
}
