#include "hostile.h"

enum { SECTOR = 512 };

/* SplitMix64. */
static uint64_t next(void) {
    static uint64_t seed = 1;
    uint64_t z = seed += UINT64_C(0x9e3779b97f4a7c15);
    z = (z ^ z >> 30) * UINT64_C(0xbf58476d1ce4e5b9);
    z = (z ^ z >> 27) * UINT64_C(0x94d049bb133111eb);
    return z ^ z >> 31;
}

size_t draw(size_t bound) {
    return next() % bound;
}

uint64_t draw_number(void) {
    switch (draw(8)) {
    case 0:
        return 0;
    case 1:
        return UINT64_MAX;
    default:
        return next() >> draw(64);
    }
}

void fill(uint8_t *at, size_t length) {
    size_t i;
    for (i = 0; i < length; i++) {
        at[i] = (uint8_t)next();
    }
}

const size_t key_lengths[KEY_LENGTHS] = {0, 1, 63, 64, 65, 255, 256, 257};

struct loan key_of(uint8_t *buffer, size_t length) {
    return (struct loan){length == 0 ? NULL : buffer, length};
}

struct loan any_key(uint8_t *buffer) {
    return key_of(buffer, draw(4) ? 1 + draw(256) : key_lengths[draw(KEY_LENGTHS)]);
}

struct loan any_length(struct loan loan) {
    size_t lengths[] = {loan.length + 1, loan.length - 1, loan.length - SECTOR};
    size_t drawn = draw(64);
    if (drawn >= 4 || loan.at == NULL) {
        return loan;
    }
    /* Also where the length is below what is to be taken off. */
    if (drawn == 3 || lengths[drawn] > loan.length + 1) {
        return (struct loan){NULL, 0};
    }
    return (struct loan){loan.at, lengths[drawn]};
}
