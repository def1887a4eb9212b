/* What hostile calls are made of: numbers drawn from a fixed seed, and buffers of a wrong length. */
#ifndef HOSTILE_H
#define HOSTILE_H

#include <stddef.h>
#include <stdint.h>

/* A buffer as it is lent to a call. Behind it is room for a byte more. */
struct loan {
    uint8_t *at;
    size_t length;
};

/* The two arguments of a loan, which is to be a variable: it is read twice. */
#define LENT(loan) (loan).at, (loan).length

/* A number below the bound. */
size_t draw(size_t bound);

/* A number of any size: 0 and the greatest among them, and the small ones as often as the large. */
uint64_t draw_number(void);

/* Random bytes. */
void fill(uint8_t *at, size_t length);

/* The lengths of keys at which a rule changes, and those beside them; a buffer for keys has room for the longest. */
enum { KEY_LENGTHS = 8, KEY_ROOM = 258 };
extern const size_t key_lengths[KEY_LENGTHS];

/* The first bytes of a buffer for keys as a key of this length, NULL where it is 0. */
struct loan key_of(uint8_t *buffer, size_t length);

/* A key of any length that the buffer has room for; most are taken. */
struct loan any_key(uint8_t *buffer);

/* The loan, or now and then one of another length: a byte or a sector off, or empty and NULL. */
struct loan any_length(struct loan loan);

#endif
