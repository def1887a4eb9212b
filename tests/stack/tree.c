/* The calls of the hash tree. */
#undef NDEBUG

#include "calls.h"
#include "gaffreel.h"
#include "hostile.h"

#include <assert.h>

enum {
    BLOCK = GAFFREEL_TREE_BLOCK_SIZE,
    DIGEST = GAFFREEL_TREE_DIGEST_SIZE,
    LEVEL = GAFFREEL_TREE_LEVEL_SIZE,
    SALT = GAFFREEL_TREE_LONGEST_SALT,
    /* From 129 blocks on, a tree has the two levels that the largest has. */
    MOST_BLOCKS = 130,
    LONGEST_TREE = 3 * BLOCK,
    GOOD_ROUNDS = 60,
    HOSTILE_ROUNDS = 2000
};

static uint8_t image[MOST_BLOCKS * BLOCK + 1], tree[LONGEST_TREE + 1], salt[SALT + 1], root[DIGEST + 1], level[LEVEL + 1];

/* What the calls of the tree are given. */
struct given {
    struct loan image, tree, salt, root, block, level;
    size_t count, index;
};

static uint64_t build(const struct given *g) {
    return CALL(gaffreel_tree_build, g->count, LENT(g->salt), LENT(g->image), LENT(g->tree), LENT(g->root));
}

static uint64_t verify(const struct given *g) {
    return CALL(gaffreel_tree_verify, LENT(g->block), g->index, LENT(g->tree), g->count, LENT(g->salt), LENT(g->root),
                LENT(g->level));
}

/* What fits so many blocks. */
static struct given fitting(size_t count) {
    size_t salt_length = draw(SALT + 1), index = draw(count);
    return (struct given){
        .image = {image, count * BLOCK},
        .tree = {tree, CALL(gaffreel_tree_length, count)},
        .salt = {salt_length == 0 ? NULL : salt, salt_length},
        .root = {root, DIGEST},
        .block = {image + index * BLOCK, BLOCK},
        .level = {level, LEVEL},
        .count = count,
        .index = index,
    };
}

/* A tree built and a block of it verified, as it is, and with a byte changed of the block, the tree or the root digest. */
static void build_and_verify(size_t count) {
    struct given g = fitting(count);
    struct loan damaged[] = {g.block, g.tree, g.root};
    size_t i;
    assert(build(&g) == GAFFREEL_DONE);
    assert(verify(&g) == GAFFREEL_DONE);
    for (i = 0; i < sizeof damaged / sizeof *damaged; i++) {
        /* The tree of one block has no byte. */
        if (damaged[i].length != 0) {
            uint8_t *byte = damaged[i].at + draw(damaged[i].length);
            *byte ^= 1;
            verify(&g);
            *byte ^= 1;
        }
    }
}

/* Any lengths and numbers. */
static void hostile_calls(void) {
    struct given g = fitting(1 + draw(2));
    g.image = any_length(g.image);
    g.tree = any_length(g.tree);
    g.salt = any_length(g.salt);
    g.root = any_length(g.root);
    g.block = any_length(g.block);
    g.level = any_length(g.level);
    g.count = draw(8) ? g.count : draw_number();
    g.index = draw(8) ? g.index : draw_number();
    CALL(gaffreel_tree_length, g.count);
    build(&g);
    verify(&g);
}

void call_tree(void) {
    static const size_t counts[] = {1, 2, 127, 128, 129, MOST_BLOCKS};
    size_t i;
    fill(image, sizeof image);
    fill(salt, sizeof salt);
    for (i = 0; i < GOOD_ROUNDS; i++) {
        build_and_verify(counts[i % (sizeof counts / sizeof *counts)]);
    }
    for (i = 0; i < HOSTILE_ROUNDS; i++) {
        hostile_calls();
    }
}
