/* What the tests of the C interface have in common. */
#ifndef BUFFERS_H
#define BUFFERS_H

#include <assert.h>
#include <stddef.h>
#include <stdint.h>

enum { MARK = 0xa5 };

/* Every byte of the buffer is MARK, as it was before the call. */
static inline void assert_untouched(const uint8_t *buffer, size_t length) {
    size_t i;
    for (i = 0; i < length; i++) {
        assert(buffer[i] == MARK);
    }
}

/* A number of 8 bytes, little-endian. */
static inline uint64_t number_at(const uint8_t *buffer, size_t at) {
    uint64_t n = 0;
    size_t i;
    for (i = 8; i > 0; i--) {
        n = n << 8 | buffer[at + i - 1];
    }
    return n;
}

static inline void put_number(uint8_t *buffer, size_t at, uint64_t n) {
    size_t i;
    for (i = 0; i < 8; i++) {
        buffer[at + i] = (uint8_t)(n >> 8 * i);
    }
}

/* The value of a hexadecimal digit. */
static inline uint8_t digit(char c) {
    return (uint8_t)(c <= '9' ? c - '0' : c - 'a' + 10);
}

/* The 32 bytes of a digest are those of the text. */
static inline void assert_digest(const uint8_t *digest, const char *hex) {
    size_t i;
    for (i = 0; i < 32; i++) {
        assert(digest[i] == digit(hex[2 * i]) * 16 + digit(hex[2 * i + 1]));
    }
}

#endif
