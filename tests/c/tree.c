/* The hash tree's calls of the C interface: trees that veritysetup made, damage, and each refusal. Also compiled as C++. */
#undef NDEBUG

#include "buffers.h"
#include "gaffreel.h"

#include <assert.h>
#include <stdio.h>
#include <string.h>

enum {
    BLOCK = GAFFREEL_TREE_BLOCK_SIZE,
    DIGEST = GAFFREEL_TREE_DIGEST_SIZE,
    LEVEL = GAFFREEL_TREE_LEVEL_SIZE,
    /* The tree over 129 blocks: the root block, a full hash block, and one with the digest of block 128. */
    COUNT = 129,
    IMAGE = COUNT * BLOCK,
    TREE = 3 * BLOCK,
    SALT = 8
};

static uint8_t image[IMAGE], tree[TREE], salt[GAFFREEL_TREE_LONGEST_SALT + 1], root[DIGEST];

static uint8_t *block(size_t index) {
    return image + index * BLOCK;
}

static void test_length(void) {
    assert(gaffreel_tree_length(0) == 0);
    assert(gaffreel_tree_length(1) == 0);
    assert(gaffreel_tree_length(2) == BLOCK);
    assert(gaffreel_tree_length(128) == BLOCK);
    assert(gaffreel_tree_length(129) == 3 * BLOCK);
    assert(gaffreel_tree_length(GAFFREEL_TREE_MOST_BLOCKS) == 129 * BLOCK);
    assert(gaffreel_tree_length(GAFFREEL_TREE_MOST_BLOCKS + 1) == 0);
    assert(gaffreel_tree_length(SIZE_MAX) == 0);
}

/* What `veritysetup format --no-superblock` makes of the same image and salt. */
static void test_build(void) {
    uint8_t digest[DIGEST];
    size_t i;

    for (i = 0; i < sizeof image; i++) {
        image[i] = (uint8_t)(7 * i + 13 * (i / BLOCK));
    }
    for (i = 0; i < sizeof salt; i++) {
        salt[i] = (uint8_t)(31 * i + 5);
    }
    memset(tree, MARK, TREE);
    assert(gaffreel_tree_build(1, salt, SALT, image, BLOCK, tree, 0, root, DIGEST) == GAFFREEL_DONE);
    assert_digest(root, "875ad411a659a6327632f3de5ea6d1fcd7e928544539de22170262ffa2db9072");
    assert_untouched(tree, TREE);
    assert(gaffreel_tree_build(COUNT, salt, SALT, image, IMAGE, tree, TREE, root, DIGEST) == GAFFREEL_DONE);
    assert_digest(root, "753c7a150da9ee314b2347920a5866ff5d26cb3955b874786c9418b282fd6f04");
    assert(gaffreel_sha256(tree, TREE, digest, DIGEST) == GAFFREEL_DONE);
    assert_digest(digest, "0016875fd4afad153d60f3a48b89891e006109874e17a2fb3d5776e2f766c89b");
}

/* The answer for a block at an index, the level's buffer being left as it was. */
static uint32_t answer(const uint8_t *data, size_t index) {
    uint8_t level[LEVEL];
    uint32_t number;

    memset(level, MARK, LEVEL);
    number = gaffreel_tree_verify(data, BLOCK, index, tree, TREE, COUNT, salt, SALT, root, DIGEST, level, LEVEL);
    assert_untouched(level, LEVEL);
    return number;
}

/* The answer for a block at an index is GAFFREEL_MISMATCH with this level. */
static void assert_fails(const uint8_t *data, size_t index, int32_t expected) {
    uint8_t level[LEVEL];
    size_t i;

    memset(level, MARK, LEVEL);
    assert(gaffreel_tree_verify(data, BLOCK, index, tree, TREE, COUNT, salt, SALT, root, DIGEST, level, LEVEL)
           == GAFFREEL_MISMATCH);
    for (i = 0; i < LEVEL; i++) {
        assert(level[i] == (uint8_t)((uint32_t)expected >> (8 * i)));
    }
}

static void test_verify(void) {
    size_t index;
    for (index = 0; index < COUNT; index++) {
        assert(answer(block(index), index) == GAFFREEL_DONE);
    }
    assert_fails(block(0), 1, -1);
    assert_fails(block(128), 0, -1);
}

/* A bit is turned over, block 128 fails at this level, and block 0 at that; the bit is turned back. */
static void damage(uint8_t *byte, int32_t level_128, int32_t level_0) {
    *byte ^= 0x10;
    assert_fails(block(128), 128, level_128);
    assert_fails(block(0), 0, level_0);
    *byte ^= 0x10;
    assert(answer(block(128), 128) == GAFFREEL_DONE);
    assert(answer(block(0), 0) == GAFFREEL_DONE);
}

static void test_damage(void) {
    /* The root digest, the salt, and the root block: its digests of each hash block, and its padding. */
    damage(root, 1, 1);
    damage(salt, 1, 1);
    damage(tree, 1, 1);
    damage(tree + DIGEST, 1, 1);
    damage(tree + BLOCK - 1, 1, 1);

    /* The hash block above block 128, and its padding; block 0 is under the other one. */
    tree[2 * BLOCK] ^= 1;
    assert_fails(block(128), 128, 0);
    assert(answer(block(0), 0) == GAFFREEL_DONE);
    tree[2 * BLOCK] ^= 1;
    tree[TREE - 1] ^= 1;
    assert_fails(block(128), 128, 0);
    assert(answer(block(0), 0) == GAFFREEL_DONE);
    tree[TREE - 1] ^= 1;

    /* A data block. */
    block(128)[BLOCK - 1] ^= 1;
    assert_fails(block(128), 128, -1);
    assert(answer(block(0), 0) == GAFFREEL_DONE);
    block(128)[BLOCK - 1] ^= 1;

    /* Of two failures the higher is named. */
    block(128)[0] ^= 1;
    tree[2 * BLOCK] ^= 1;
    assert_fails(block(128), 128, 0);
    tree[0] ^= 1;
    assert_fails(block(128), 128, 1);
    block(128)[0] ^= 1;
    tree[2 * BLOCK] ^= 1;
    tree[0] ^= 1;
    assert(answer(block(128), 128) == GAFFREEL_DONE);
}

/* A build that is refused with this number leaves tree and root as they were. */
static void build_refused(uint32_t number, size_t count, size_t salt_length, size_t image_length, size_t tree_length,
                          size_t root_length) {
    static uint8_t to[TREE + 1], digest[DIGEST + 1];

    memset(to, MARK, sizeof to);
    memset(digest, MARK, sizeof digest);
    assert(gaffreel_tree_build(count, salt, salt_length, image, image_length, to, tree_length, digest, root_length)
           == number);
    assert_untouched(to, sizeof to);
    assert_untouched(digest, sizeof digest);
}

static void test_build_refusals(void) {
    const uint32_t length = GAFFREEL_LENGTH_OR_LIMIT, range = GAFFREEL_OUT_OF_RANGE;

    build_refused(length, 0, 33, 0, 0, DIGEST - 1);
    build_refused(length, COUNT, SALT, IMAGE, TREE, DIGEST + 1);
    build_refused(range, 0, 33, 0, 0, DIGEST);
    build_refused(range, 0, SALT, 0, 0, DIGEST);
    build_refused(range, GAFFREEL_TREE_MOST_BLOCKS + 1, SALT, IMAGE, TREE, DIGEST);
    build_refused(range, SIZE_MAX, SALT, IMAGE, TREE, DIGEST);
    build_refused(range, COUNT, 33, 0, 0, DIGEST);
    build_refused(length, COUNT, SALT, IMAGE - 1, TREE, DIGEST);
    build_refused(length, COUNT, SALT, IMAGE, TREE - 1, DIGEST);
    build_refused(length, COUNT, SALT, IMAGE, TREE + 1, DIGEST);
    build_refused(length, 1, SALT, BLOCK, 1, DIGEST);
    build_refused(length, 1, SALT, BLOCK, BLOCK, DIGEST);
}

/* A block that is refused with this number leaves the level as it was. */
static void verify_refused(uint32_t number, size_t block_length, size_t index, size_t tree_length, size_t count,
                           size_t salt_length, size_t root_length, size_t level_length) {
    uint8_t level[LEVEL + 1];

    memset(level, MARK, sizeof level);
    assert(gaffreel_tree_verify(image, block_length, index, tree, tree_length, count, salt, salt_length, root,
                                root_length, level, level_length)
           == number);
    assert_untouched(level, sizeof level);
}

static void test_verify_refusals(void) {
    const uint32_t length = GAFFREEL_LENGTH_OR_LIMIT, range = GAFFREEL_OUT_OF_RANGE;

    verify_refused(length, 0, 1, 0, 0, 33, 0, LEVEL - 1);
    verify_refused(length, BLOCK, 0, TREE, COUNT, SALT, DIGEST, LEVEL + 1);
    verify_refused(length, BLOCK - 1, 1, 0, 0, 33, DIGEST, LEVEL);
    verify_refused(length, BLOCK, 1, 0, 0, 33, DIGEST - 1, LEVEL);
    verify_refused(range, BLOCK, 0, 0, 0, SALT, DIGEST, LEVEL);
    verify_refused(range, BLOCK, 0, 0, GAFFREEL_TREE_MOST_BLOCKS + 1, SALT, DIGEST, LEVEL);
    verify_refused(range, BLOCK, 0, 0, COUNT, 33, DIGEST, LEVEL);
    verify_refused(range, BLOCK, COUNT, 0, COUNT, SALT, DIGEST, LEVEL);
    verify_refused(length, BLOCK, 0, TREE - 1, COUNT, SALT, DIGEST, LEVEL);
    verify_refused(range, BLOCK, 1, BLOCK, 1, SALT, DIGEST, LEVEL);
    verify_refused(length, BLOCK, 0, 1, 1, SALT, DIGEST, LEVEL);
    verify_refused(length, BLOCK, 0, BLOCK, 1, SALT, DIGEST, LEVEL);
}

/* NULL with length 0: an empty salt and the tree of one block are taken, any other buffer is refused. */
static void test_null(void) {
    static const uint8_t data_block[LEVEL] = {0xff, 0xff, 0xff, 0xff};
    uint8_t digest[DIGEST], level[LEVEL];

    memset(level, MARK, LEVEL);
    assert(gaffreel_tree_build(1, NULL, 0, image, BLOCK, NULL, 0, digest, DIGEST) == GAFFREEL_DONE);
    assert_digest(digest, "d010f6d76d0eb4dce5d5b5b34014a8a157ec4380a66c24d7d455a9bf652db14a");
    assert(gaffreel_tree_verify(image, BLOCK, 0, NULL, 0, 1, NULL, 0, digest, DIGEST, level, LEVEL) == GAFFREEL_DONE);
    assert_untouched(level, LEVEL);
    assert(gaffreel_tree_verify(block(1), BLOCK, 0, NULL, 0, 1, NULL, 0, digest, DIGEST, level, LEVEL)
           == GAFFREEL_MISMATCH);
    assert(memcmp(level, data_block, LEVEL) == 0);
    assert(gaffreel_tree_build(2, NULL, 0, image, 2 * BLOCK, NULL, 0, digest, DIGEST) == GAFFREEL_LENGTH_OR_LIMIT);
    assert(gaffreel_tree_verify(image, BLOCK, 0, NULL, 0, 2, NULL, 0, digest, DIGEST, level, LEVEL)
           == GAFFREEL_LENGTH_OR_LIMIT);
    assert(gaffreel_tree_build(1, NULL, 0, NULL, 0, NULL, 0, digest, DIGEST) == GAFFREEL_LENGTH_OR_LIMIT);
    assert(gaffreel_tree_build(1, NULL, 0, NULL, 0, NULL, 0, NULL, 0) == GAFFREEL_LENGTH_OR_LIMIT);
    assert(gaffreel_tree_verify(NULL, 0, 0, NULL, 0, 1, NULL, 0, NULL, 0, NULL, 0) == GAFFREEL_LENGTH_OR_LIMIT);
}

int main(void) {
    test_length();
    test_build();
    test_verify();
    test_damage();
    test_build_refusals();
    test_verify_refusals();
    test_null();
    puts("tree: all checks passed");
    return 0;
}
