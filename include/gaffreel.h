/*
 * Gaffreel: integrity of stored data, for a controller card. This is the C interface of libgaffreel.a.
 *
 * A function that can refuse answers a number: GAFFREEL_DONE where the call was carried out, else that of the refusal (enum
 * gaffreel_answer). After a refusal every buffer is as it was, but for one that receives what the refusal also returns;
 * gaffreel_volume_advance, which is many steps, keeps those made before the refused one.
 * Each function ends for any input, and is proved to answer, and to leave in its buffers, exactly what its definition says;
 * the definitions are in the folders specs of the crates c_*, on which gaffreel rests.
 *
 * What the caller has to see to, since a C compiler cannot tell:
 *   - A pointer and the length after it are those of one buffer, in bytes, which nobody else writes to during the call.
 *   - A buffer that a call writes to (a pointer without const) overlaps no other buffer of that call; what a call does
 *     otherwise is not defined.
 *   - A pointer may be NULL only where its length is 0. Nothing is then read or written through it, and the call answers
 *     as for any buffer of length 0.
 *   - No alignment is asked.
 *
 * What is assumed of the medium and the firmware, without which a power cut can lose an acknowledged batch:
 *   - Each sector that a step names is on the medium, whole, before the next call. Acknowledged counts from the moment that
 *     the sector named with it is there. A sector half written, or stores that land in another order, are not covered.
 *   - Only steps store to a formatted volume. Format is not covered: after a cut during it the volume is formatted anew.
 *   - After a cut state and staging are thrown away and the volume is opened, with the reserved sectors it was formatted with.
 *   - A state and its staging belong to one open volume and to its calls in order, and are never gone back to.
 *   - The calls of a volume all have the same key, from format on, or all have none.
 *   - gaffreel_volume_advance names only its last sector: it is for a medium that the lent bytes are, as mapped memory;
 *     for a copy of the medium there are gaffreel_volume_step and gaffreel_volume_next_store.
 * What is proved holds of the source, on the language's abstract machine; trusted are the prover, the compiler behind it,
 * memcpy and memset, and that the stack suffices.
 *
 * The archive is for x86-64 with the System V calling convention, and uses SSE2 registers. It needs two symbols from
 * outside, memcpy and memset; it has no writable data, and takes no memory but the stack. So it links into a
 * firmware without a C library, and calls on different buffers may run at the same time.
 *
 * Stack: the most bytes that a call takes below its caller's frame, to which arguments on the stack belong; its return address
 * is included, and memcpy and memset with 8 bytes each, as glibc's take. Measured over good and hostile calls, and rounded up.
 *
 *     gaffreel_sha256               1,600
 *     gaffreel_sha256_new              64
 *     gaffreel_sha256_update        1,152
 *     gaffreel_sha256_finish        1,344
 *     gaffreel_hmac_sha256          2,048
 *     gaffreel_volume_format        3,136
 *     gaffreel_volume_query           256
 *     gaffreel_volume_open          3,456
 *     gaffreel_volume_write         2,368
 *     gaffreel_volume_flush           384
 *     gaffreel_volume_step          2,304
 *     gaffreel_volume_next_store    1,792
 *     gaffreel_volume_advance       3,776
 *     gaffreel_volume_read          2,432
 *     gaffreel_volume_verify        2,240
 *     gaffreel_volume_format_keyed  3,264
 *     gaffreel_volume_open_keyed    3,648
 *     gaffreel_volume_write_keyed   2,496
 *     gaffreel_volume_read_keyed    2,496
 *     gaffreel_volume_verify_keyed  2,240
 *     gaffreel_tree_length             64
 *     gaffreel_tree_build           2,112
 *     gaffreel_tree_verify          1,728
 *
 * An interrupt taken on the same stack comes on top, and must leave the 128 bytes below the stack pointer as they are: the
 * archive uses them, as the calling convention allows (the red zone).
 *
 * Examples, each a whole program. SHA-256 of a message that comes in two pieces:
 *
 *     #include "gaffreel.h"
 *
 *     int main(void) {
 *         static const uint8_t first[] = {'a', 'b'}, second[] = {'c'};
 *         uint8_t state[GAFFREEL_SHA256_STATE_SIZE];
 *         uint8_t digest[GAFFREEL_SHA256_DIGEST_SIZE];
 *
 *         if (gaffreel_sha256_new(state, sizeof state) != GAFFREEL_DONE
 *             || gaffreel_sha256_update(state, sizeof state, first, sizeof first) != GAFFREEL_DONE
 *             || gaffreel_sha256_update(state, sizeof state, second, sizeof second) != GAFFREEL_DONE
 *             || gaffreel_sha256_finish(state, sizeof state, digest, sizeof digest) != GAFFREEL_DONE) {
 *             return 1;
 *         }
 *         return digest[0] == 0xba && digest[31] == 0xad ? 0 : 1;
 *     }
 *
 * A volume of 16 sectors made, opened and written to, and what was written read back. Power may fail between any two steps,
 * each step's sector being on the medium: the next open finds either the whole batch or nothing of it.
 *
 *     #include "gaffreel.h"
 *
 *     static uint8_t volume[120 * GAFFREEL_VOLUME_SECTOR_SIZE], staging[88 * GAFFREEL_VOLUME_SECTOR_SIZE];
 *
 *     int main(void) {
 *         uint8_t state[GAFFREEL_VOLUME_STATE_SIZE], answer[GAFFREEL_VOLUME_ANSWER_SIZE];
 *         uint8_t bytes[GAFFREEL_VOLUME_SECTOR_SIZE] = {1}, found[GAFFREEL_VOLUME_SECTOR_SIZE];
 *
 *         if (gaffreel_volume_format(volume, sizeof volume, 0, 4, 32, 1, 16, answer, sizeof answer) != GAFFREEL_DONE
 *             || gaffreel_volume_open(volume, sizeof volume, staging, sizeof staging, 0, state, sizeof state, answer,
 *                                     sizeof answer) != GAFFREEL_DONE
 *             || gaffreel_volume_write(state, sizeof state, staging, sizeof staging, 5, bytes, sizeof bytes, answer,
 *                                      sizeof answer) != GAFFREEL_DONE
 *             || gaffreel_volume_flush(state, sizeof state, answer, sizeof answer) != GAFFREEL_DONE) {
 *             return 1;
 *         }
 *         do {
 *             if (gaffreel_volume_step(state, sizeof state, volume, sizeof volume, staging, sizeof staging, answer,
 *                                      sizeof answer) != GAFFREEL_DONE) {
 *                 return 1;
 *             }
 *             // The answer names the sector of the volume that is to go to the medium now.
 *         } while ((answer[16] & GAFFREEL_VOLUME_SAYS_FILLING) == 0);
 *         if (gaffreel_volume_read(state, sizeof state, volume, sizeof volume, staging, sizeof staging, 5, found,
 *                                  sizeof found, answer, sizeof answer) != GAFFREEL_DONE) {
 *             return 1;
 *         }
 *         return found[0] == 1 ? 0 : 1;
 *     }
 *
 * A volume whose tags need a key: with another key, none of its sectors is read.
 *
 *     #include "gaffreel.h"
 *
 *     static uint8_t volume[120 * GAFFREEL_VOLUME_SECTOR_SIZE], staging[88 * GAFFREEL_VOLUME_SECTOR_SIZE];
 *
 *     int main(void) {
 *         static const uint8_t key[] = {'k', 'e', 'y'}, other[] = {'K', 'e', 'y'};
 *         uint8_t state[GAFFREEL_VOLUME_STATE_SIZE], answer[GAFFREEL_VOLUME_ANSWER_SIZE];
 *         uint8_t found[GAFFREEL_VOLUME_SECTOR_SIZE];
 *
 *         if (gaffreel_volume_format_keyed(volume, sizeof volume, 0, 4, 32, 1, 16, key, sizeof key, answer, sizeof answer)
 *                 != GAFFREEL_DONE
 *             || gaffreel_volume_open_keyed(volume, sizeof volume, staging, sizeof staging, 0, key, sizeof key, state,
 *                                           sizeof state, answer, sizeof answer) != GAFFREEL_DONE
 *             || gaffreel_volume_read_keyed(state, sizeof state, volume, sizeof volume, staging, sizeof staging, 5, found,
 *                                           sizeof found, key, sizeof key, answer, sizeof answer) != GAFFREEL_DONE) {
 *             return 1;
 *         }
 *         return gaffreel_volume_read_keyed(state, sizeof state, volume, sizeof volume, staging, sizeof staging, 5, found,
 *                                           sizeof found, other, sizeof other, answer, sizeof answer)
 *                        == GAFFREEL_TAG_MISMATCH
 *                    ? 0
 *                    : 1;
 *     }
 *
 * The hash tree over an image of two blocks, and a block of it verified:
 *
 *     #include "gaffreel.h"
 *
 *     static uint8_t image[2 * GAFFREEL_TREE_BLOCK_SIZE], tree[GAFFREEL_TREE_BLOCK_SIZE];
 *
 *     int main(void) {
 *         static const uint8_t salt[] = {1, 2, 3};
 *         uint8_t root[GAFFREEL_TREE_DIGEST_SIZE], level[GAFFREEL_TREE_LEVEL_SIZE];
 *
 *         if (gaffreel_tree_length(2) != sizeof tree
 *             || gaffreel_tree_build(2, salt, sizeof salt, image, sizeof image, tree, sizeof tree, root, sizeof root)
 *                    != GAFFREEL_DONE
 *             || gaffreel_tree_verify(image, GAFFREEL_TREE_BLOCK_SIZE, 0, tree, sizeof tree, 2, salt, sizeof salt, root,
 *                                     sizeof root, level, sizeof level) != GAFFREEL_DONE) {
 *             return 1;
 *         }
 *         return 0;
 *     }
 */
#ifndef GAFFREEL_H
#define GAFFREEL_H

#include <stddef.h>
#include <stdint.h>

#ifdef __cplusplus
extern "C" {
#endif

/* What a call answers. */
enum gaffreel_answer {
    /* The call was carried out. */
    GAFFREEL_DONE = 0,
    /* Refused: a buffer has a wrong length, a state is not sound, or the digest's limit is passed. */
    GAFFREEL_LENGTH_OR_LIMIT = 1,
    /* Refused: a number, or the length of the salt or of a key, is out of range. */
    GAFFREEL_OUT_OF_RANGE = 2,
    /* Refused: the superblock is not zero where a volume is to be formatted, or is zero where one is to be opened. */
    GAFFREEL_SUPERBLOCK = 3,
    /* Refused: the superblock is not valid: a fixed byte is another, or a number is out of range. */
    GAFFREEL_INVALID = 4,
    /* Refused: the volume is shorter than its layout. The sectors needed are also returned. */
    GAFFREEL_SHORT = 5,
    /*
     * Refused: a logical sector is not one that the volume provides. Also returned: nothing for an argument; the entry
     * where it is a staged one's; section and entry where it is in the journal.
     */
    GAFFREEL_SECTOR_RANGE = 6,
    /* Refused: a tag does not fit. Also returned: the sector, or section and entry where it is in the journal. */
    GAFFREEL_TAG_MISMATCH = 7,
    /* Refused: the batch is full. */
    GAFFREEL_FULL = 8,
    /* Refused: not now: write, flush and verify are for a volume that is filling, and read for one that is not recovering. */
    GAFFREEL_NOT_NOW = 9,
    /* Refused: the commit ids are used up. */
    GAFFREEL_EXHAUSTED = 10,
    /* Refused: a whole section of the journal stands in the wrong place. The section is also returned. */
    GAFFREEL_MISPLACED = 11,
    /* Refused: the tree does not verify. The highest failing level is also returned. */
    GAFFREEL_MISMATCH = 12
};

/* ---- SHA-256 (FIPS 180-4) */

/* The length of a digest, in bytes. */
#define GAFFREEL_SHA256_DIGEST_SIZE 32

/*
 * The length of a state, in bytes. A state is what is kept between two pieces of a message: eight words of 4 bytes each at
 * 0, the unfinished block of 64 bytes at 32, and the count of bytes so far, 8 bytes, at 96; words and count are
 * little-endian. Any bytes of this length are a state, and a state may be copied, stored and gone on with elsewhere.
 */
#define GAFFREEL_SHA256_STATE_SIZE 104

/* The most bytes that a message may have: 2^61 - 1. */
#define GAFFREEL_SHA256_LIMIT UINT64_C(0x1fffffffffffffff)

/*
 * Writes the digest of a message to `digest`.
 *
 * Refused with GAFFREEL_LENGTH_OR_LIMIT where digest_length is not GAFFREEL_SHA256_DIGEST_SIZE, or the message is longer
 * than GAFFREEL_SHA256_LIMIT.
 */
uint32_t gaffreel_sha256(const uint8_t *message, size_t message_length, uint8_t *digest, size_t digest_length);

/*
 * Writes the state before any piece to `state`.
 *
 * Refused with GAFFREEL_LENGTH_OR_LIMIT where state_length is not GAFFREEL_SHA256_STATE_SIZE.
 */
uint32_t gaffreel_sha256_new(uint8_t *state, size_t state_length);

/*
 * Adds a piece, and writes the state after it over `state`. However a message is cut into pieces, the digest is the same.
 *
 * Refused with GAFFREEL_LENGTH_OR_LIMIT where state_length is not GAFFREEL_SHA256_STATE_SIZE, or the state's count and the
 * piece's length come to more than GAFFREEL_SHA256_LIMIT.
 */
uint32_t gaffreel_sha256_update(uint8_t *state, size_t state_length, const uint8_t *piece, size_t piece_length);

/*
 * Writes the digest of all pieces so far to `digest`. The state stays, and may take further pieces.
 *
 * Refused with GAFFREEL_LENGTH_OR_LIMIT where state_length is not GAFFREEL_SHA256_STATE_SIZE, digest_length is not
 * GAFFREEL_SHA256_DIGEST_SIZE, or the state's count is more than GAFFREEL_SHA256_LIMIT.
 */
uint32_t gaffreel_sha256_finish(const uint8_t *state, size_t state_length, uint8_t *digest, size_t digest_length);

/* ---- HMAC with SHA-256 (RFC 2104) */

/* The longest key, in bytes, of every call that takes one. The shortest has 1. */
#define GAFFREEL_LONGEST_KEY 256

/* The most bytes that a message may have: 2^61 - 65. The block that is made of the key counts towards SHA-256's limit. */
#define GAFFREEL_HMAC_SHA256_LIMIT (GAFFREEL_SHA256_LIMIT - 64)

/*
 * Writes the HMAC of a message under a key to `digest`.
 *
 * Refused, in this order, with
 *   - GAFFREEL_LENGTH_OR_LIMIT where digest_length is not GAFFREEL_SHA256_DIGEST_SIZE;
 *   - GAFFREEL_OUT_OF_RANGE where key_length is 0 or more than GAFFREEL_LONGEST_KEY;
 *   - GAFFREEL_LENGTH_OR_LIMIT where the message is longer than GAFFREEL_HMAC_SHA256_LIMIT.
 */
uint32_t gaffreel_hmac_sha256(const uint8_t *key, size_t key_length, const uint8_t *message, size_t message_length,
                              uint8_t *digest, size_t digest_length);

/*
 * ---- The volume (after dm-integrity): sectors with a tag each, and a journal
 *
 * A write adds a sector to the batch in staging; a flush begins to commit the batch, and each step then makes one sector
 * store: first to the journal, then, from the acknowledgement on, to the sectors themselves. After a power cut an open
 * finds what is to be replayed, and steps replay it.
 *
 * Between two calls the caller keeps a state, in a buffer of its own, and the staging buffer. With tags of 1 to 8, 9 to 16,
 * 17 to 24 or 25 to 32 bytes staging has 168, 128, 104 or 88 sectors, and a batch takes 160, 120, 96 or 80 writes. Behind its
 * commit a batch takes two stores for each write, or three where the sector's tag lies across two sectors: with N sectors in
 * a run and tags of T bytes, where (s mod N) * T mod 512 + T is above 512. Of sectors that are damaged at random, a tag of T
 * bytes lets one in 256^T pass. All numbers in the buffers below are little-endian and have 8 bytes.
 */

/* The length of a sector, in bytes. */
#define GAFFREEL_VOLUME_SECTOR_SIZE 512

/*
 * The length of a layout, in bytes: the reserved sectors, at 0 (at most 64); the base-two logarithm of the sectors of a run,
 * at 8 (3 to 15); the bytes of a tag, at 16 (1 to 32); the sections of the journal, at 24 (1 to 64); the sectors
 * provided, at 32 (1 to 65,536); three numbers that have no meaning yet and are 0, at 40, 48 and 56.
 */
#define GAFFREEL_VOLUME_LAYOUT_SIZE 64

/*
 * The length of a state, in bytes: a layout, at 0; the phase, at 64; the two numbers of its place, at 72 and 80; the entries
 * of the batch, at 88; the next commit id, at 96. It is good for one open volume, and an earlier one is never gone back to: a
 * batch committed from it would share its id with another. Bytes hold no state where one of the layout's numbers that have no
 * meaning yet is not 0, where the phase is none of enum gaffreel_volume_phase, or where a number of the place that the phase
 * lacks is not 0.
 */
#define GAFFREEL_VOLUME_STATE_SIZE 104

/*
 * The length of an answer, in bytes: five numbers, at 0, 8, 16, 24 and 32. After a refusal: how many values are also
 * returned, the first, the second, 0, 0; in place of the last two gaffreel_volume_advance has its counts. After a call that
 * was carried out, what the call says below; numbers that it does not name are 0. An answer's buffer of this length is
 * written by every call.
 */
#define GAFFREEL_VOLUME_ANSWER_SIZE 40

/* The phases, and the numbers of their places. */
enum gaffreel_volume_phase {
    /* Writes are taken. No place. */
    GAFFREEL_VOLUME_FILLING = 0,
    /* The sector of the section that is stored next. */
    GAFFREEL_VOLUME_COMMITTING = 1,
    /* The entry, and its store that is made next: 0 for its data, 1 for its tag, 2 for the rest of a tag in the next sector. */
    GAFFREEL_VOLUME_WRITING_BACK = 2,
    /* The store of the replay that is made next. */
    GAFFREEL_VOLUME_RECOVERING = 3
};

/* What a step did. There may be more kinds later. */
enum gaffreel_volume_done {
    /* Nothing; a step does nothing only where the volume is filling. */
    GAFFREEL_VOLUME_IDLE = 0,
    /* It stored a sector; gaffreel_volume_next_store leaves that to its caller. */
    GAFFREEL_VOLUME_STORED = 1
};

/* What a step says besides, as the bits of a number. There may be more bits later. */

/* The batch is acknowledged: once the sector that is named with it is on the medium, a power cut keeps it. */
#define GAFFREEL_VOLUME_SAYS_ACKNOWLEDGED 1

/* The volume is filling. */
#define GAFFREEL_VOLUME_SAYS_FILLING 2

/*
 * Makes a volume whose sectors hold zeros, every tag in place: `shift` is the base-two logarithm of the sectors of a run,
 * `width` the bytes of a tag. Reserved sectors and what lies behind the layout keep their bytes. A power cut is not covered:
 * the volume is then formatted anew, its superblock made zero first.
 *
 * Refused, in this order, with
 *   - GAFFREEL_LENGTH_OR_LIMIT where answer_length is not GAFFREEL_VOLUME_ANSWER_SIZE, or the volume is not whole sectors or
 *     has more than 65,536;
 *   - GAFFREEL_OUT_OF_RANGE where a number of the layout is;
 *   - GAFFREEL_SHORT;
 *   - GAFFREEL_SUPERBLOCK where the superblock is not zero.
 */
uint32_t gaffreel_volume_format(uint8_t *volume, size_t volume_length, size_t reserved, size_t shift, size_t width,
                                size_t sections, size_t provided, uint8_t *answer, size_t answer_length);

/*
 * Writes the layout that the superblock behind `reserved` sectors holds to `layout`, for a caller that has only a volume.
 * Answer: the bytes that staging must have.
 *
 * Refused, in this order, with
 *   - GAFFREEL_LENGTH_OR_LIMIT where answer_length is not GAFFREEL_VOLUME_ANSWER_SIZE, layout_length is not
 *     GAFFREEL_VOLUME_LAYOUT_SIZE, or the volume is not whole sectors or has more than 65,536;
 *   - GAFFREEL_OUT_OF_RANGE where reserved is more than 64;
 *   - GAFFREEL_SHORT where the volume has no room for a superblock there;
 *   - GAFFREEL_SUPERBLOCK where the superblock is zero;
 *   - GAFFREEL_INVALID;
 *   - GAFFREEL_SHORT where the volume is shorter than its layout.
 */
uint32_t gaffreel_volume_query(const uint8_t *volume, size_t volume_length, size_t reserved, uint8_t *layout,
                               size_t layout_length, uint8_t *answer, size_t answer_length);

/*
 * Opens a volume: checks it, and writes its state to `state` and an empty batch to `staging`. Nothing is stored on the
 * volume. Answer: how many stores are to come before the volume is filling.
 *
 * Refused as gaffreel_volume_query is, with state_length in place of layout_length; then, in this order, with
 *   - GAFFREEL_LENGTH_OR_LIMIT where staging_length is not what gaffreel_volume_query answers;
 *   - GAFFREEL_EXHAUSTED;
 *   - GAFFREEL_MISPLACED;
 *   - GAFFREEL_SECTOR_RANGE or GAFFREEL_TAG_MISMATCH for the first entry to be replayed that has such a fault.
 */
uint32_t gaffreel_volume_open(const uint8_t *volume, size_t volume_length, uint8_t *staging, size_t staging_length,
                              size_t reserved, uint8_t *state, size_t state_length, uint8_t *answer,
                              size_t answer_length);

/*
 * Adds a logical sector with its bytes to the batch, also where the batch has that sector already.
 *
 * Refused, in this order, with
 *   - GAFFREEL_LENGTH_OR_LIMIT where a buffer has a wrong length, or the state is not sound;
 *   - GAFFREEL_NOT_NOW;
 *   - GAFFREEL_SECTOR_RANGE;
 *   - GAFFREEL_FULL.
 */
uint32_t gaffreel_volume_write(uint8_t *state, size_t state_length, uint8_t *staging, size_t staging_length,
                               size_t sector, const uint8_t *bytes, size_t bytes_length, uint8_t *answer,
                               size_t answer_length);

/*
 * Begins to commit the batch. Answer: 1 where the batch was empty and is acknowledged at once, 0 where committing begins.
 *
 * Refused, in this order, with
 *   - GAFFREEL_LENGTH_OR_LIMIT where a buffer has a wrong length, or the state is not sound;
 *   - GAFFREEL_NOT_NOW;
 *   - GAFFREEL_EXHAUSTED where the batch is not empty and the next commit id is 2^64 - 1, which is given to none.
 */
uint32_t gaffreel_volume_flush(uint8_t *state, size_t state_length, uint8_t *answer, size_t answer_length);

/*
 * Makes one sector store, or none where the volume is filling. Answer: what the step did (enum gaffreel_volume_done); the
 * sector of the volume that was stored, else 0; what the step says, as bits.
 *
 * Refused, in this order, with
 *   - GAFFREEL_LENGTH_OR_LIMIT where a buffer has a wrong length, the state is not sound, it does not fit the volume, or its
 *     place in writing back is a store that the staged entry does not have;
 *   - GAFFREEL_SECTOR_RANGE for the entry that is being written back or replayed.
 */
uint32_t gaffreel_volume_step(uint8_t *state, size_t state_length, uint8_t *volume, size_t volume_length,
                              uint8_t *staging, size_t staging_length, uint8_t *answer, size_t answer_length);

/*
 * Makes a step as gaffreel_volume_step does, but for its store, which the caller makes: for a volume that can be read in
 * place and not stored to, as flash. Where the answer is GAFFREEL_VOLUME_STORED, `bytes` has what that sector of the
 * volume is to hold; else `bytes` is as it was. Answer: as of gaffreel_volume_step.
 *
 * State and staging are those after the step. So the caller
 *   - makes the store, `bytes` at the sector that the answer names, before any other call;
 *   - passes acknowledged or filling on only then;
 *   - where the store fails, makes the same store again, and so keeps `bytes` and the answer until it is made;
 *   - where it cannot be made, throws state and staging away and opens the volume: that is a power cut before the step.
 * A sector that is left half written is outside what is promised.
 *
 * Refused as gaffreel_volume_step is; GAFFREEL_LENGTH_OR_LIMIT also where `bytes` is not GAFFREEL_VOLUME_SECTOR_SIZE long.
 */
uint32_t gaffreel_volume_next_store(uint8_t *state, size_t state_length, const uint8_t *volume, size_t volume_length,
                                    uint8_t *staging, size_t staging_length, uint8_t *bytes, size_t bytes_length,
                                    uint8_t *answer, size_t answer_length);

/*
 * Makes so many steps, one after the other, as that many calls of gaffreel_volume_step would; in a recovery the journal is
 * scanned once for all of them. Once a step does nothing or is refused, the steps that are left change nothing.
 * Answer: the three numbers of the last step (0 where none was asked); how many steps did something, at 24, each a store; 1
 * where a step said acknowledged, else 0, at 32.
 *
 * Refused as gaffreel_volume_step is, where the last step is. Steps before it may have been carried out: the answer has, at 24
 * and 32, how many of them did something and whether one said acknowledged, as where no step is refused.
 */
uint32_t gaffreel_volume_advance(uint8_t *state, size_t state_length, uint8_t *volume, size_t volume_length,
                                 uint8_t *staging, size_t staging_length, size_t steps, uint8_t *answer,
                                 size_t answer_length);

/*
 * Writes the bytes of a logical sector to `bytes`: those of the newest entry for it in the batch, else the volume's.
 *
 * Refused, in this order, with
 *   - GAFFREEL_LENGTH_OR_LIMIT where a buffer has a wrong length, the state is not sound, it does not fit the volume, or its
 *     place in writing back is a store that the staged entry does not have;
 *   - GAFFREEL_NOT_NOW while the volume is recovering;
 *   - GAFFREEL_SECTOR_RANGE;
 *   - GAFFREEL_TAG_MISMATCH.
 */
uint32_t gaffreel_volume_read(const uint8_t *state, size_t state_length, const uint8_t *volume, size_t volume_length,
                              const uint8_t *staging, size_t staging_length, size_t sector, uint8_t *bytes,
                              size_t bytes_length, uint8_t *answer, size_t answer_length);

/*
 * Tests the tags of the `count` logical sectors from `first` on against the volume's data. The batch is not looked at: for a
 * sector that is in it, the volume's data is tested. Nothing is changed but the answer.
 *
 * Refused, in this order, with
 *   - GAFFREEL_LENGTH_OR_LIMIT where a buffer has a wrong length, the state is not sound, or it does not fit the volume;
 *   - GAFFREEL_NOT_NOW where the volume is not filling: a sector's data and tag may then be stored only in part;
 *   - GAFFREEL_SECTOR_RANGE where first and count come to more than the sectors provided; both may be any numbers;
 *   - GAFFREEL_TAG_MISMATCH for the first sector whose tag does not fit. Those behind it are not looked at: a check of a whole
 *     volume goes on behind it.
 */
uint32_t gaffreel_volume_verify(const uint8_t *state, size_t state_length, const uint8_t *volume, size_t volume_length,
                                size_t first, size_t count, uint8_t *answer, size_t answer_length);

/*
 * ---- The volume with a key
 *
 * The calls above make tags by SHA-256, which anybody can compute. Those below make and test them by HMAC with SHA-256 under a
 * key: a tag is the first bytes of the HMAC of the logical sector's number, 8 bytes, and its 512 bytes. All else is as with the
 * call of the same name without a key. gaffreel_volume_query, _flush, _step, _next_store and _advance take no key: they carry
 * tags as they stand.
 *
 * A key has 1 to GAFFREEL_LONGEST_KEY bytes. With any other length the call is refused with GAFFREEL_OUT_OF_RANGE, right behind
 * the first test for GAFFREEL_LENGTH_OR_LIMIT that its list has: before any other refusal of that list, and at open before
 * the test of staging's length too.
 *
 * The same key is lent at every call of a volume, from format on. Neither volume nor state keeps the key, or that there is one.
 *   - A wrong key, or a call without one, shows only where a tag is tested and differs, as GAFFREEL_TAG_MISMATCH: at open for an
 *     entry that is to be replayed, at read for a sector that is not in the batch, at verify for any. It cannot be told from
 *     damage. An open with nothing to replay takes any key; a read behind it, of a sector that is known to be good, tells the
 *     right one: another key passes it once in 256^T times, so that short tags need reads of several sectors.
 *   - A write under a wrong key, or without one, is not noticed: its batch is committed and acknowledged with tags of that key.
 *     Under the right key its sectors are then refused until they are written again, and every open is as long as the
 *     batch stands whole in the journal.
 *   - A format under a wrong key makes a volume of that key.
 *
 * Left open: the key's bytes, and what is computed from them, may stay on the stack after a call; and no time is promised. A
 * comparison looks at all bytes of a tag, wherever they differ.
 */

/* As gaffreel_volume_format, with a key. */
uint32_t gaffreel_volume_format_keyed(uint8_t *volume, size_t volume_length, size_t reserved, size_t shift, size_t width,
                                      size_t sections, size_t provided, const uint8_t *key, size_t key_length,
                                      uint8_t *answer, size_t answer_length);

/* As gaffreel_volume_open, with a key. */
uint32_t gaffreel_volume_open_keyed(const uint8_t *volume, size_t volume_length, uint8_t *staging, size_t staging_length,
                                    size_t reserved, const uint8_t *key, size_t key_length, uint8_t *state,
                                    size_t state_length, uint8_t *answer, size_t answer_length);

/* As gaffreel_volume_write, with a key. */
uint32_t gaffreel_volume_write_keyed(uint8_t *state, size_t state_length, uint8_t *staging, size_t staging_length,
                                     size_t sector, const uint8_t *bytes, size_t bytes_length, const uint8_t *key,
                                     size_t key_length, uint8_t *answer, size_t answer_length);

/*
 * As gaffreel_volume_read, with a key. A check of many sectors is cheaper by gaffreel_volume_verify_keyed: each read sets the key
 * up anew.
 */
uint32_t gaffreel_volume_read_keyed(const uint8_t *state, size_t state_length, const uint8_t *volume,
                                    size_t volume_length, const uint8_t *staging, size_t staging_length, size_t sector,
                                    uint8_t *bytes, size_t bytes_length, const uint8_t *key, size_t key_length,
                                    uint8_t *answer, size_t answer_length);

/* As gaffreel_volume_verify, with a key, which is set up once for all sectors of the call. */
uint32_t gaffreel_volume_verify_keyed(const uint8_t *state, size_t state_length, const uint8_t *volume,
                                      size_t volume_length, size_t first, size_t count, const uint8_t *key,
                                      size_t key_length, uint8_t *answer, size_t answer_length);

/*
 * ---- The hash tree (dm-verity, format 1)
 *
 * Level 0 holds the digests of the data blocks, each further level those of the blocks of the level below, up to one block,
 * the root block; zeros follow the last digest of a level. A tree has its levels one after the other, the root block
 * first. A digest is the SHA-256 of the salt and the block behind it; the root digest is that of the root block. One data
 * block has no hash block above it: its tree is empty, and the root digest is its own. Tree and root digest are those of
 * `veritysetup format --no-superblock`.
 */

/* The length of a data block and of a hash block, in bytes. */
#define GAFFREEL_TREE_BLOCK_SIZE 4096

/* The length of a root digest, in bytes. */
#define GAFFREEL_TREE_DIGEST_SIZE 32

/* The most data blocks. The least is 1. */
#define GAFFREEL_TREE_MOST_BLOCKS 16384

/* The longest salt, in bytes. The shortest is empty. */
#define GAFFREEL_TREE_LONGEST_SALT 32

/* The length of a failing level, in bytes. */
#define GAFFREEL_TREE_LEVEL_SIZE 4

/*
 * The length in bytes of the tree over `count` data blocks; 0 where count is 1, since that tree is empty. It is 0 too where
 * count is 0 or more than GAFFREEL_TREE_MOST_BLOCKS, for which there is no tree. So 0 alone is no sign of a wrong count: look
 * at the count, or at the answer of the calls below, which refuse a wrong one with GAFFREEL_OUT_OF_RANGE.
 */
size_t gaffreel_tree_length(size_t count);

/*
 * Writes the tree over the `count` data blocks of an image to `tree`, and the root digest to `root`. Where count is 1, `tree`
 * has length 0 and may be NULL.
 *
 * Refused, in this order, with
 *   - GAFFREEL_LENGTH_OR_LIMIT where root_length is not GAFFREEL_TREE_DIGEST_SIZE;
 *   - GAFFREEL_OUT_OF_RANGE where count is 0 or more than GAFFREEL_TREE_MOST_BLOCKS, or salt_length is more than
 *     GAFFREEL_TREE_LONGEST_SALT;
 *   - GAFFREEL_LENGTH_OR_LIMIT where image_length is not count blocks, or tree_length is not gaffreel_tree_length(count).
 */
uint32_t gaffreel_tree_build(size_t count, const uint8_t *salt, size_t salt_length, const uint8_t *image,
                             size_t image_length, uint8_t *tree, size_t tree_length, uint8_t *root, size_t root_length);

/*
 * Verifies the data block with this index, of `count`, against the tree and the root digest: the digests along the path
 * from the block to the root block are computed, and compared with what stands above each, from the root digest down.
 *
 * Refused, in this order, with
 *   - GAFFREEL_LENGTH_OR_LIMIT where level_length is not GAFFREEL_TREE_LEVEL_SIZE, block_length is not
 *     GAFFREEL_TREE_BLOCK_SIZE, or root_length is not GAFFREEL_TREE_DIGEST_SIZE;
 *   - GAFFREEL_OUT_OF_RANGE where count is 0 or more than GAFFREEL_TREE_MOST_BLOCKS, salt_length is more than
 *     GAFFREEL_TREE_LONGEST_SALT, or index is not below count;
 *   - GAFFREEL_LENGTH_OR_LIMIT where tree_length is not gaffreel_tree_length(count);
 *   - GAFFREEL_MISMATCH where a digest differs from what stands above it. `level` then receives the highest level where one
 *     does, as a little-endian int32_t in two's complement: -1 for the data block, else the level of the hash block. Where
 *     count is 1 the digest of the data block is held against the root digest, and the level is -1.
 * With every other answer `level` is as it was.
 */
uint32_t gaffreel_tree_verify(const uint8_t *block, size_t block_length, size_t index, const uint8_t *tree,
                              size_t tree_length, size_t count, const uint8_t *salt, size_t salt_length,
                              const uint8_t *root, size_t root_length, uint8_t *level, size_t level_length);

#ifdef __cplusplus
}
#endif

#endif
