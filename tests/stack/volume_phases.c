/*
 * The calls of the volume in every phase, at the first, the middle and the last store of each, with full sections; with tags of several
 * sizes, also such as lie across two sectors; without a key, and with keys of the lengths at which a rule changes.
 */
#undef NDEBUG

#include "calls.h"
#include "volume.h"

#include <assert.h>
#include <string.h>

/* The ways to make steps. */
static const struct {
    volume_call *call;
    size_t steps;
} ways[] = {{make_step, 0}, {make_next_store, 0}, {advance_steps, 1}, {advance_steps, 7}, {advance_steps, SIZE_MAX}};

enum {
    WAYS = sizeof ways / sizeof *ways,
    /* How many of a range `spread` names. */
    SPREAD = 3
};

/* The first, the middle and the last of n. */
static size_t spread(size_t n, size_t i) {
    return i * (n - 1) / (SPREAD - 1);
}

static uint64_t phase(void) {
    return number_at(fit.state.at, PHASE_AT);
}

static void put_phase(uint64_t phase, uint64_t place, uint64_t store) {
    put_number(fit.state.at, PHASE_AT, phase);
    put_number(fit.state.at, PLACE_AT, place);
    put_number(fit.state.at, STORE_AT, store);
}

/* A sector that the volume does not provide, with as many stores as this one has. */
static uint64_t beyond(uint64_t sector) {
    uint64_t runs = (fit.provided >> fit.shift) + 1;
    return sector + (runs << fit.shift);
}

static uint64_t step_by(size_t way) {
    fit.steps = ways[way].steps;
    return ways[way].call(&fit);
}

/* Each way from the same state and staging, which are left as they were. */
static void step_each_way(uint64_t answer) {
    static uint8_t state[STATE], staging[LARGEST_SECTION * SECTOR];
    size_t i;
    memcpy(state, fit.state.at, STATE);
    memcpy(staging, fit.staging.at, fit.staging.length);
    for (i = 0; i < WAYS; i++) {
        assert(step_by(i) == answer);
        memcpy(fit.state.at, state, STATE);
        memcpy(fit.staging.at, staging, fit.staging.length);
    }
}

/* Writes until the batch is full, often to sector ACROSS where that has three stores. */
static void fill_batch(void) {
    do {
        fit.sector = draw(fit.provided);
        if (ACROSS < fit.provided && stores_of(ACROSS) == 3 && draw(2)) {
            fit.sector = ACROSS;
        }
        fill(fit.bytes.at, SECTOR);
    } while (write_sector(&fit) == GAFFREEL_DONE);
    assert(number_at(fit.state.at, COUNT_AT) == entry_count());
}

/* A full batch, brought home by steps of every kind. */
static void commit_batch(void) {
    fill_batch();
    assert(flush_batch(&fit) == GAFFREEL_DONE);
    while (phase() != GAFFREEL_VOLUME_FILLING) {
        assert(step_by(draw(WAYS - 1)) == GAFFREEL_DONE);
    }
}

/* Verifies of all sectors and of the last, which are answered so; and of none, and of such as are not there. */
static void verify_each(uint64_t answer) {
    int now = answer != GAFFREEL_NOT_NOW;
    uint64_t of_none = now ? GAFFREEL_DONE : GAFFREEL_NOT_NOW, beyond = now ? GAFFREEL_SECTOR_RANGE : GAFFREEL_NOT_NOW;
    struct {
        size_t first, count;
        uint64_t answer;
    } ranges[] = {
        {0, fit.provided, answer}, {fit.provided - 1, 1, answer}, {fit.provided, 0, of_none}, {0, fit.provided + 1, beyond},
        {1, SIZE_MAX, beyond},     {SIZE_MAX, 0, beyond},         {SIZE_MAX, SIZE_MAX, beyond},
    };
    struct given g = fit;
    size_t i;
    for (i = 0; i < sizeof ranges / sizeof *ranges; i++) {
        g.sector = ranges[i].first;
        g.count = ranges[i].count;
        assert(verify_sectors(&g) == ranges[i].answer);
    }
}

static void committing(void) {
    size_t i;
    for (i = 0; i < SPREAD; i++) {
        put_phase(GAFFREEL_VOLUME_COMMITTING, spread(section_size(), i), 0);
        step_each_way(GAFFREEL_DONE);
        verify_each(GAFFREEL_NOT_NOW);
    }
    put_phase(GAFFREEL_VOLUME_COMMITTING, section_size(), 0);
    step_each_way(GAFFREEL_LENGTH_OR_LIMIT);
}

/*
 * Each store of an entry, as it is, and with a logical sector that the volume does not provide. Behind the last, steps and reads see that
 * the entry has no such store; the others do not look at it.
 */
static void write_entry_back(size_t entry) {
    uint8_t *at = entry_at(fit.staging.at, entry);
    uint64_t sector = number_at(at, 0), stores = stores_of(sector), store;
    fit.sector = 0;
    for (store = 0; store < stores; store++) {
        put_phase(GAFFREEL_VOLUME_WRITING_BACK, entry, store);
        step_each_way(GAFFREEL_DONE);
        verify_each(GAFFREEL_NOT_NOW);
        assert(read_sector(&fit) == GAFFREEL_DONE);
        put_number(at, 0, beyond(sector));
        step_each_way(GAFFREEL_SECTOR_RANGE);
        put_number(at, 0, sector);
    }
    put_phase(GAFFREEL_VOLUME_WRITING_BACK, entry, stores);
    step_each_way(GAFFREEL_LENGTH_OR_LIMIT);
    assert(read_sector(&fit) == GAFFREEL_LENGTH_OR_LIMIT);
    assert(write_sector(&fit) == (stores < 3 ? GAFFREEL_NOT_NOW : GAFFREEL_LENGTH_OR_LIMIT));
    assert(flush_batch(&fit) == (stores < 3 ? GAFFREEL_NOT_NOW : GAFFREEL_LENGTH_OR_LIMIT));
}

/* The first, the middle and the last entry, and one with three stores, which must be there on a volume of begin_across. */
static void writing_back(int across) {
    int found = 0;
    size_t i;
    for (i = 0; i < SPREAD; i++) {
        write_entry_back(spread(entry_count(), i));
    }
    for (i = 0; i < entry_count() && !found; i++) {
        found = stores_of(number_at(entry_at(fit.staging.at, i), 0)) == 3;
        if (found) {
            write_entry_back(i);
        }
    }
    assert(found || !across);
    put_phase(GAFFREEL_VOLUME_WRITING_BACK, entry_count(), 0);
    step_each_way(GAFFREEL_LENGTH_OR_LIMIT);
}

/* The stores of a replay before an entry of the journal, whose sections are full and in order. */
static uint64_t stores_before(size_t section, size_t entry) {
    uint64_t stores = 0;
    size_t i;
    for (i = 0; i < section * entry_count() + entry; i++) {
        stores += stores_of(number_at(entry_at(section_at(i / entry_count()), i % entry_count()), 0));
    }
    return stores;
}

/* Each store of an entry of the journal; then the same with the entry damaged. */
static void recover_entry(size_t section, size_t entry) {
    uint8_t *at = entry_at(section_at(section), entry);
    uint64_t sector = number_at(at, 0), store = stores_before(section, entry), last = store + stores_of(sector) - 1, i;
    for (i = store; i <= last; i++) {
        put_phase(GAFFREEL_VOLUME_RECOVERING, i, 0);
        step_each_way(GAFFREEL_DONE);
    }

    put_number(at, 0, beyond(sector));
    assert(open_volume(&fit) == GAFFREEL_SECTOR_RANGE);
    for (i = store; i <= last; i++) {
        put_phase(GAFFREEL_VOLUME_RECOVERING, i, 0);
        step_each_way(GAFFREEL_SECTOR_RANGE);
    }
    put_phase(GAFFREEL_VOLUME_RECOVERING, 0, 0);
    fit.steps = SIZE_MAX;
    assert(advance_steps(&fit) == GAFFREEL_SECTOR_RANGE);
    assert(number_at(fit.answer.at, 24) == store);
    step_each_way(GAFFREEL_SECTOR_RANGE);
    put_number(at, 0, sector);

    /* A byte of its data. */
    at[8] ^= 1;
    assert(open_volume(&fit) == GAFFREEL_TAG_MISMATCH);
    at[8] ^= 1;
}

/* A journal whose last section has the last commit id, or one that belongs elsewhere; with one section, none does. */
static void wrong_commit_ids(void) {
    size_t last = fit.sections - 1;
    uint64_t id = number_at(section_at(last), COMMIT_ID_AT);
    put_commit_id(last, UINT64_MAX);
    assert(open_volume(&fit) == GAFFREEL_EXHAUSTED);
    put_commit_id(last, id + 1);
    assert(open_volume(&fit) == (last == 0 ? GAFFREEL_DONE : GAFFREEL_MISPLACED));
    put_commit_id(last, id);
}

/* The whole replay of a full journal, and its first, middle and last entry. */
static void recovering(void) {
    uint64_t stores;
    size_t i;
    assert(open_volume(&fit) == GAFFREEL_DONE);
    stores = number_at(fit.answer.at, 0);
    assert(stores == stores_before(fit.sections, 0) && phase() == GAFFREEL_VOLUME_RECOVERING);
    assert(write_sector(&fit) == GAFFREEL_NOT_NOW && read_sector(&fit) == GAFFREEL_NOT_NOW);
    verify_each(GAFFREEL_NOT_NOW);
    for (i = 0; i < SPREAD; i++) {
        recover_entry(spread(fit.sections, i), spread(entry_count(), i));
    }
    put_phase(GAFFREEL_VOLUME_RECOVERING, stores, 0);
    step_each_way(GAFFREEL_LENGTH_OR_LIMIT);
    put_phase(GAFFREEL_VOLUME_RECOVERING, 0, 0);
    assert(step_by(WAYS - 1) == GAFFREEL_DONE && phase() == GAFFREEL_VOLUME_FILLING);
}

/* A volume that is filling: reads of the volume and of the batch and verifies, good and damaged; a flush without an id left. */
static void filling(void) {
    uint8_t *last_byte = fit.volume.at + fit.volume.length - 1;
    uint64_t id = number_at(fit.state.at, ID_AT);
    step_each_way(GAFFREEL_DONE);
    fit.sector = fit.provided - 1;
    assert(read_sector(&fit) == GAFFREEL_DONE);
    verify_each(GAFFREEL_DONE);
    *last_byte ^= 1;
    assert(read_sector(&fit) == GAFFREEL_TAG_MISMATCH);
    verify_each(GAFFREEL_TAG_MISMATCH);
    *last_byte ^= 1;
    assert(flush_batch(&fit) == GAFFREEL_DONE);
    fill_batch();
    for (fit.sector = 0; fit.sector < fit.provided; fit.sector++) {
        assert(read_sector(&fit) == GAFFREEL_DONE);
    }
    assert(read_sector(&fit) == GAFFREEL_SECTOR_RANGE && write_sector(&fit) == GAFFREEL_SECTOR_RANGE);
    put_number(fit.state.at, ID_AT, UINT64_MAX);
    assert(flush_batch(&fit) == GAFFREEL_EXHAUSTED);
    put_number(fit.state.at, ID_AT, id);
    assert(flush_batch(&fit) == GAFFREEL_DONE && flush_batch(&fit) == GAFFREEL_NOT_NOW);
}

/* The calls with a key on a volume that is filling, with keys of each of the lengths: wrong ones, and such as are refused. */
static void other_keys(void) {
    static uint8_t other[KEY_ROOM];
    volume_call *const with_key[] = {format_volume, open_volume, write_sector, read_sector, verify_sectors};
    struct given g = fit;
    size_t i;
    g.sector = 0;
    g.count = g.provided;
    for (i = 0; i < KEY_LENGTHS * sizeof with_key / sizeof *with_key; i++) {
        size_t length = key_lengths[i % KEY_LENGTHS];
        uint64_t answer;
        g.key = key_of(other, length);
        answer = with_key[i / KEY_LENGTHS](&g);
        assert((answer == GAFFREEL_OUT_OF_RANGE) == (length == 0 || length > GAFFREEL_LONGEST_KEY));
    }
}

/* On a volume that is open and fresh, of begin_across or not. */
static void every_phase(int across) {
    size_t i;
    for (i = 0; i < fit.sections; i++) {
        commit_batch();
    }
    wrong_commit_ids();
    recovering();
    if (fit.keyed) {
        other_keys();
        recovering();
    }
    filling();
    committing();
    writing_back(across);
}

void call_volume_phases(void) {
    /* One of each length of an entry and more; with 0, those of begin_across. */
    static const size_t widths[] = {8, 16, 32, 20, 0}, sections[] = {1, 2, 7, MOST_SECTIONS}, taken_keys[] = {1, 64, 65, 256};
    enum { WIDTHS = sizeof widths / sizeof *widths };
    size_t i, j;
    for (i = 0; i < WIDTHS * sizeof sections / sizeof *sections; i++) {
        size_t key_lengths[] = {0, taken_keys[i % (sizeof taken_keys / sizeof *taken_keys)]};
        for (j = 0; j < sizeof key_lengths / sizeof *key_lengths; j++) {
            int across = widths[i % WIDTHS] == 0;
            if (across) {
                begin_across(sections[i / WIDTHS], key_lengths[j]);
            } else {
                begin(widths[i % WIDTHS], sections[i / WIDTHS], key_lengths[j]);
            }
            every_phase(across);
        }
    }
}
