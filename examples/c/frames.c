/* A recursive function whose locals stand in frames on the heap, while everything is moved again and again. */
#include "ael.h"
#include <inttypes.h>
#include <stdio.h>
#include <stdlib.h>

enum { LEFT = 0, RIGHT = 1, NODE_LENGTH = 2 };
enum { TREES = 100, DEPTH = 6, PAGES = 32 };
/* where a function has its argument and its result, and others on the way */
enum { TREE = 0, NODE = 1, KEPT = 2, FOUND = 3 };

static void must(int32_t code) {
    if (code == AEL_DONE) return;
    fprintf(stderr, "a call answered %" PRId32 "\n", code);
    exit(1);
}

/* TREE becomes a tree of this depth; one of depth 0 is the number 0. While the right half is made, the left one stands in the frame. */
static void make_tree(ael_mutator *m, int depth) {
    if (depth == 0) {
        must(ael_set(m, TREE, 0));
        return;
    }
    must(ael_frame_push(m, 1));
    make_tree(m, depth - 1);
    must(ael_local_set(m, 0, TREE));
    make_tree(m, depth - 1);
    must(ael_new(m, NODE, NODE_LENGTH));
    must(ael_store(m, NODE, RIGHT, TREE));
    must(ael_local_get(m, TREE, 0));
    must(ael_store(m, NODE, LEFT, TREE));
    must(ael_mov(m, TREE, NODE));
    must(ael_frame_pop(m));
}

/* how many nodes the tree in TREE has */
static uint64_t count(ael_mutator *m) {
    uint64_t value;
    if (ael_reg(m, TREE, &value) == AEL_NUMBER) return 0;
    must(ael_frame_push(m, 1));
    must(ael_local_set(m, 0, TREE));
    must(ael_load(m, TREE, TREE, LEFT));
    uint64_t nodes = 1 + count(m);
    must(ael_local_get(m, TREE, 0));
    must(ael_load(m, TREE, TREE, RIGHT));
    nodes += count(m);
    must(ael_frame_pop(m));
    return nodes;
}

int main(void) {
    ael_mutator mutators[2] = {{0}, {0}};
    must(ael_open(PAGES, PAGES, mutators, 2, NULL, 0));
    ael_mutator *m = &mutators[0], *spare = &mutators[1];
    for (int k = 0; k < TREES; k++) make_tree(m, DEPTH);
    must(ael_board_put(m, 0, TREE));
    must(ael_mov(m, KEPT, TREE));
    printf("nodes of the last tree %" PRIu64 "\n", count(m));
    uint64_t records;
    uint32_t epoch;
    must(ael_tell(m, &records, &epoch));
    printf("records %" PRIu64 ", moved %s\n", records, epoch > 0 ? "true" : "false");

    /* what would end the mutator is told first */
    must(ael_set(m, NODE, 5));
    printf("a load from a number %" PRId32 "\n", ael_try_load(m, FOUND, NODE, 0));
    printf("a load past the end %" PRId32 "\n", ael_try_load(m, FOUND, KEPT, NODE_LENGTH));
    printf("a load at what is no number %" PRId32 "\n", ael_try_load(m, FOUND, KEPT, AEL_IN(KEPT)));
    printf("a load in range %" PRId32 "\n", ael_try_load(m, FOUND, KEPT, LEFT));

    /* and what isn't told ends it; the spare one goes on with what hangs on the board */
    printf("a trap %" PRId32 "\n", ael_load(m, FOUND, KEPT, NODE_LENGTH));
    printf("and then %" PRId32 "\n", ael_set(m, TREE, 0));
    ael_leave_now(m);
    must(ael_board_get(spare, TREE, 0));
    printf("nodes for the spare one %" PRIu64 "\n", count(spare));
    ael_leave_now(spare);
    for (int i = 0; i < 2; i++) must(ael_free(&mutators[i]));
    return 0;
}
