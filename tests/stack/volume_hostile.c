/*
 * The calls of the volume in any order, with any lengths and numbers; volume, state and staging are damaged now and then. Half of the
 * rounds have a key, and there keys of any length come too, and calls without one.
 */
#include "calls.h"
#include "volume.h"

enum {
    ROUNDS = 500,
    CALLS_IN_ROUND = 40,
    /* The bytes of a superblock up to its last number. */
    NUMBERS = 32
};

static volume_call *const calls[] = {
    format_volume, query_volume,    open_volume,   write_sector, flush_batch,
    make_step,     make_next_store, advance_steps, read_sector,  verify_sectors,
};

static void change_byte(uint8_t *at, size_t length) {
    at[draw(length)] ^= (uint8_t)(1 + draw(255));
}

static void damage_volume(void) {
    change_byte(fit.volume.at, fit.volume.length);
}

static void damage_superblock(void) {
    change_byte(fit.volume.at + fit.reserved * SECTOR, NUMBERS);
}

/* The commit id of a whole section: one that stands in its place, or any. */
static void damage_section(void) {
    size_t section = draw(fit.sections);
    put_commit_id(section, draw(2) ? section + 1 + draw(3) * fit.sections : draw_number());
}

/* The logical sector of an entry. */
static void damage_entry(void) {
    uint8_t *section = draw(2) ? section_at(draw(fit.sections)) : fit.staging.at;
    put_number(entry_at(section, draw(entry_count())), 0, draw(2) ? draw(fit.provided) : draw_number());
}

/* A number of the state. */
static void damage_state(void) {
    put_number(fit.state.at, 8 * draw(STATE / 8), draw(2) ? draw(4) : draw_number());
}

static void random_state(void) {
    fill(fit.state.at, STATE);
}

static void (*const damages[])(void) = {
    damage_volume, damage_superblock, damage_section, damage_entry, damage_state, random_state,
};

/* What fits, or now and then does not. */
static struct given any_given(void) {
    struct given g = fit;
    size_t *numbers[] = {&g.reserved, &g.shift, &g.width, &g.sections, &g.provided};
    g.volume = any_length(g.volume);
    g.staging = any_length(g.staging);
    g.state = any_length(g.state);
    g.layout = any_length(g.layout);
    g.bytes = any_length(g.bytes);
    g.answer = any_length(g.answer);
    g.sector = draw(8) ? draw(g.provided) : draw_number();
    g.count = draw(8) ? draw(g.provided - (g.sector < g.provided ? g.sector : 0) + 1) : draw_number();
    g.steps = draw(2) ? draw(300) : draw_number();
    if (draw(8) == 0) {
        *numbers[draw(sizeof numbers / sizeof *numbers)] = draw_number();
    }
    if (g.keyed && draw(8) == 0) {
        g.key = any_key(g.key.at);
        g.keyed = draw(4) > 0;
    }
    return g;
}

static void hostile_round(void) {
    size_t i;
    size_t sections = 1 + draw(4), key_length = draw(2) ? 1 + draw(GAFFREEL_LONGEST_KEY) : 0;
    if (draw(4)) {
        begin(1 + draw(MOST_WIDTH), sections, key_length);
    } else {
        begin_across(sections, key_length);
    }
    for (i = 0; i < CALLS_IN_ROUND; i++) {
        struct given g = any_given();
        calls[draw(sizeof calls / sizeof *calls)](&g);
        if (draw(10) == 0) {
            damages[draw(sizeof damages / sizeof *damages)]();
        }
    }
}

void call_volume_hostile(void) {
    size_t i;
    for (i = 0; i < ROUNDS; i++) {
        hostile_round();
    }
}
