/* A volume with the buffers of its calls, and the calls. */
#ifndef VOLUME_H
#define VOLUME_H

#include "buffers.h"
#include "gaffreel.h"
#include "hostile.h"

enum {
    SECTOR = GAFFREEL_VOLUME_SECTOR_SIZE,
    LAYOUT = GAFFREEL_VOLUME_LAYOUT_SIZE,
    STATE = GAFFREEL_VOLUME_STATE_SIZE,
    ANSWER = GAFFREEL_VOLUME_ANSWER_SIZE,
    /* The most bytes of a tag. */
    MOST_WIDTH = 32,
    MOST_SECTIONS = 64,
    /* The sectors of the largest section, and of the staging buffer for it. */
    LARGEST_SECTION = 168,
    /* Where a state has its phase, the two numbers of its place, its entries and its next commit id. */
    PHASE_AT = 64,
    PLACE_AT = 72,
    STORE_AT = 80,
    COUNT_AT = 88,
    ID_AT = 96,
    /* The sectors of the superblock, and of a section's metadata; where a sector of the journal has its commit id. */
    SUPERBLOCK = 8,
    METADATA = 8,
    COMMIT_ID_AT = 504
};

/*
 * What a call is given; each takes its part of it. Format, open, write, read and verify are those with the key where `keyed` is set.
 * Verify begins at `sector`.
 */
struct given {
    struct loan volume, staging, state, layout, bytes, answer, key;
    int keyed;
    size_t reserved, shift, width, sections, provided, sector, count, steps;
};

/* What fits the volume at hand. */
extern struct given fit;

typedef uint64_t volume_call(const struct given *given);

volume_call format_volume, query_volume, open_volume, write_sector, flush_batch, make_step, make_next_store, advance_steps,
    read_sector, verify_sectors;

/* A fresh volume, open, with tags of so many bytes and so many sections, and a key of so many bytes; without a key where these are 0. */
void begin(size_t width, size_t sections, size_t key_length);

/* The same with tags of 30 bytes, of which that of sector ACROSS lies across two sectors. */
enum { ACROSS = 17 };
void begin_across(size_t sections, size_t key_length);

/* The stores that write an entry for a sector back: two, and three where its tag lies across two sectors. */
uint64_t stores_of(uint64_t sector);

/* The sectors of a section, and its entries. */
size_t section_size(void);
size_t entry_count(void);

/* A section of the journal; an entry of a section. */
uint8_t *section_at(size_t section);
uint8_t *entry_at(uint8_t *section, size_t entry);

/* Puts a commit id on every sector of a section of the journal. */
void put_commit_id(size_t section, uint64_t id);

#endif
