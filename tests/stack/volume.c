#undef NDEBUG

#include "volume.h"

#include "calls.h"

#include <assert.h>
#include <string.h>

enum {
    /* The largest journal that there is, and what stands around it. */
    MOST_SECTORS = MOST_SECTIONS * LARGEST_SECTION + 2500,
    MOST_PROVIDED = 200,
    MOST_RESERVED = 64,
    /* The logarithms of a run's sectors. */
    LEAST_SHIFT = 3,
    SHIFTS = 13
};

/* Each has a byte more than is lent. */
static uint8_t volume[MOST_SECTORS * SECTOR + 1], staging[LARGEST_SECTION * SECTOR + 1], state[STATE + 1],
    layout[LAYOUT + 1], bytes[SECTOR + 1], answer[ANSWER + 1], key[KEY_ROOM];

struct given fit;

uint64_t format_volume(const struct given *g) {
    if (g->keyed) {
        return CALL(gaffreel_volume_format_keyed, LENT(g->volume), g->reserved, g->shift, g->width, g->sections, g->provided,
                    LENT(g->key), LENT(g->answer));
    }
    return CALL(gaffreel_volume_format, LENT(g->volume), g->reserved, g->shift, g->width, g->sections, g->provided,
                LENT(g->answer));
}

uint64_t query_volume(const struct given *g) {
    return CALL(gaffreel_volume_query, LENT(g->volume), g->reserved, LENT(g->layout), LENT(g->answer));
}

uint64_t open_volume(const struct given *g) {
    if (g->keyed) {
        return CALL(gaffreel_volume_open_keyed, LENT(g->volume), LENT(g->staging), g->reserved, LENT(g->key), LENT(g->state),
                    LENT(g->answer));
    }
    return CALL(gaffreel_volume_open, LENT(g->volume), LENT(g->staging), g->reserved, LENT(g->state), LENT(g->answer));
}

uint64_t write_sector(const struct given *g) {
    if (g->keyed) {
        return CALL(gaffreel_volume_write_keyed, LENT(g->state), LENT(g->staging), g->sector, LENT(g->bytes), LENT(g->key),
                    LENT(g->answer));
    }
    return CALL(gaffreel_volume_write, LENT(g->state), LENT(g->staging), g->sector, LENT(g->bytes), LENT(g->answer));
}

uint64_t flush_batch(const struct given *g) {
    return CALL(gaffreel_volume_flush, LENT(g->state), LENT(g->answer));
}

uint64_t make_step(const struct given *g) {
    return CALL(gaffreel_volume_step, LENT(g->state), LENT(g->volume), LENT(g->staging), LENT(g->answer));
}

/* The store is made too, as the call asks. */
uint64_t make_next_store(const struct given *g) {
    uint64_t answered = CALL(gaffreel_volume_next_store, LENT(g->state), LENT(g->volume), LENT(g->staging), LENT(g->bytes),
                             LENT(g->answer));
    if (answered == GAFFREEL_DONE && number_at(answer, 0) == GAFFREEL_VOLUME_STORED) {
        memcpy(volume + number_at(answer, 8) * SECTOR, bytes, SECTOR);
    }
    return answered;
}

uint64_t advance_steps(const struct given *g) {
    return CALL(gaffreel_volume_advance, LENT(g->state), LENT(g->volume), LENT(g->staging), g->steps, LENT(g->answer));
}

uint64_t read_sector(const struct given *g) {
    if (g->keyed) {
        return CALL(gaffreel_volume_read_keyed, LENT(g->state), LENT(g->volume), LENT(g->staging), g->sector, LENT(g->bytes),
                    LENT(g->key), LENT(g->answer));
    }
    return CALL(gaffreel_volume_read, LENT(g->state), LENT(g->volume), LENT(g->staging), g->sector, LENT(g->bytes),
                LENT(g->answer));
}

uint64_t verify_sectors(const struct given *g) {
    if (g->keyed) {
        return CALL(gaffreel_volume_verify_keyed, LENT(g->state), LENT(g->volume), g->sector, g->count, LENT(g->key),
                    LENT(g->answer));
    }
    return CALL(gaffreel_volume_verify, LENT(g->state), LENT(g->volume), g->sector, g->count, LENT(g->answer));
}

static void begin_with(size_t shift, size_t provided, size_t width, size_t sections, size_t key_length) {
    fill(key, KEY_ROOM);
    fit = (struct given){
        .volume = {volume, 0},
        .staging = {staging, 0},
        .state = {state, STATE},
        .layout = {layout, LAYOUT},
        .bytes = {bytes, SECTOR},
        .answer = {answer, ANSWER},
        .key = key_of(key, key_length),
        .keyed = key_length > 0,
        .reserved = draw(MOST_RESERVED + 1),
        .shift = shift,
        .width = width,
        .sections = sections,
        .provided = provided,
    };
    /* The refusal of a volume that is too short tells the sectors that it needs. */
    assert(format_volume(&fit) == GAFFREEL_SHORT);
    fit.volume.length = number_at(answer, 8) * SECTOR;
    assert(fit.volume.length < sizeof volume);
    memset(volume, 0, fit.volume.length);
    assert(format_volume(&fit) == GAFFREEL_DONE);
    assert(query_volume(&fit) == GAFFREEL_DONE);
    fit.staging.length = number_at(answer, 0);
    assert(fit.staging.length < sizeof staging);
    assert(open_volume(&fit) == GAFFREEL_DONE);
}

void begin(size_t width, size_t sections, size_t key_length) {
    begin_with(LEAST_SHIFT + draw(SHIFTS), 1 + draw(MOST_PROVIDED), width, sections, key_length);
}

void begin_across(size_t sections, size_t key_length) {
    begin_with(5, 24, 30, sections, key_length);
}

uint64_t stores_of(uint64_t sector) {
    uint64_t at = sector % (UINT64_C(1) << fit.shift) * fit.width % SECTOR;
    return at + fit.width > SECTOR ? 3 : 2;
}

size_t section_size(void) {
    return fit.staging.length / SECTOR;
}

size_t entry_count(void) {
    return section_size() - METADATA;
}

uint8_t *section_at(size_t section) {
    return volume + (fit.reserved + SUPERBLOCK + section * section_size()) * SECTOR;
}

uint8_t *entry_at(uint8_t *section, size_t entry) {
    size_t in_sector = entry_count() / METADATA;
    /* The tag's part is a multiple of 8 bytes. */
    size_t size = 16 + (fit.width + 7) / 8 * 8;
    return section + entry / in_sector * SECTOR + entry % in_sector * size;
}

void put_commit_id(size_t section, uint64_t id) {
    size_t i;
    for (i = 0; i < section_size(); i++) {
        put_number(section_at(section), i * SECTOR + COMMIT_ID_AT, id);
    }
}
