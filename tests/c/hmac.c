/* HMAC of the C interface: RFC 4231's cases, the lengths of keys and buffers, and the order of refusals. Also compiled as C++. */
#undef NDEBUG

#include "buffers.h"
#include "gaffreel.h"

#include <assert.h>
#include <stdio.h>
#include <string.h>

enum { DIGEST = GAFFREEL_SHA256_DIGEST_SIZE, LONGEST = GAFFREEL_LONGEST_KEY };

static uint8_t key[LONGEST + 1], digest[DIGEST + 1];

/* The HMAC of a text under a key of one byte, so many times. */
static void test_case(uint8_t byte, size_t length, const char *text, const char *expected) {
    memset(key, byte, length);
    memset(digest, MARK, sizeof digest);
    assert(gaffreel_hmac_sha256(key, length, (const uint8_t *)text, strlen(text), digest, DIGEST) == GAFFREEL_DONE);
    assert_digest(digest, expected);
    assert(digest[DIGEST] == MARK);
}

/* The cases of RFC 4231 that have a text. */
static void test_published(void) {
    static const char second[] = "what do ya want for nothing?";
    test_case(0x0b, 20, "Hi There", "b0344c61d8db38535ca8afceaf0bf12b881dc200c9833da726e9376c2e32cff7");
    assert(gaffreel_hmac_sha256((const uint8_t *)"Jefe", 4, (const uint8_t *)second, strlen(second), digest, DIGEST)
           == GAFFREEL_DONE);
    assert_digest(digest, "5bdcc146bf60754e6a042426089575c75a003f089d2739839dec58b964ec3843");
    test_case(0xaa, 131, "Test Using Larger Than Block-Size Key - Hash Key First",
              "60e431591ee0b67f0d8a26aacbf5b77f8e0bc6213728c5140546040f0ee37f54");
    test_case(0xaa, 131,
              "This is a test using a larger than block-size key and a larger than block-size data. The key needs to be "
              "hashed before being used by the HMAC algorithm.",
              "9b09ffa71b942fcb27635fbcd5b0e944bfdc63644f0713938a7f51535c3a35e2");
}

/* A key of 1 to 256 bytes is taken, and no other: the digest stays. */
static void test_key_lengths(void) {
    static const uint8_t message[3] = {'a', 'b', 'c'};
    size_t length;
    for (length = 0; length <= LONGEST + 1; length++) {
        int taken = length >= 1 && length <= LONGEST;
        memset(digest, MARK, sizeof digest);
        assert(gaffreel_hmac_sha256(key, length, message, 3, digest, DIGEST)
               == (taken ? GAFFREEL_DONE : GAFFREEL_OUT_OF_RANGE));
        if (!taken) {
            assert_untouched(digest, sizeof digest);
        }
    }
}

/* The digest's buffer is tested before the key. */
static void test_order(void) {
    size_t length;
    memset(digest, MARK, sizeof digest);
    for (length = 0; length <= DIGEST + 1; length++) {
        if (length != DIGEST) {
            assert(gaffreel_hmac_sha256(key, 1, key, 1, digest, length) == GAFFREEL_LENGTH_OR_LIMIT);
            assert(gaffreel_hmac_sha256(key, 0, key, 1, digest, length) == GAFFREEL_LENGTH_OR_LIMIT);
            assert(gaffreel_hmac_sha256(key, LONGEST + 1, key, 1, digest, length) == GAFFREEL_LENGTH_OR_LIMIT);
        }
        assert_untouched(digest, sizeof digest);
    }
}

/* NULL with length 0: no key, an empty message, all. Key and message may be one buffer. */
static void test_null(void) {
    memset(digest, MARK, sizeof digest);
    assert(gaffreel_hmac_sha256(NULL, 0, key, 1, digest, DIGEST) == GAFFREEL_OUT_OF_RANGE);
    assert_untouched(digest, sizeof digest);
    key[0] = 'k';
    assert(gaffreel_hmac_sha256(key, 1, NULL, 0, digest, DIGEST) == GAFFREEL_DONE);
    assert_digest(digest, "8bb990c40a7d61cb97597a942125025be50ac8beb74436e3735b98893a7f6620");
    assert(gaffreel_hmac_sha256(key, 1, key, 1, digest, DIGEST) == GAFFREEL_DONE);
    assert(gaffreel_hmac_sha256(NULL, 0, NULL, 0, NULL, 0) == GAFFREEL_LENGTH_OR_LIMIT);
}

int main(void) {
    assert(GAFFREEL_HMAC_SHA256_LIMIT == (UINT64_C(1) << 61) - 65);
    test_published();
    test_key_lengths();
    test_order();
    test_null();
    puts("hmac: all checks passed");
    return 0;
}
