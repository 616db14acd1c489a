/* Two threads on one heap: one builds lists of numbers and leaves each in a box, the other takes it out and makes a checksum. A third
 * thread only copies. It prints what crates/embedding prints, which is the same in Rattle. */
#include "ael.h"
#include <inttypes.h>
#include <pthread.h>
#include <stdbool.h>
#include <stdio.h>
#include <stdlib.h>

enum { LISTS = 40, EACH = 10 };
/* a link of a list: a number, and the rest of the list, which is 0 at the end */
enum { NUMBER_FIELD = 0, REST_FIELD = 1, LINK_LENGTH = 2 };
/* the box is a word of the board, which holds a list, or 0 if it is empty */
enum { BOX = 0 };
/* what is kept in which register */
enum { LIST = 0, LINK = 1, NUMBER = 2, SUM = 3, BASE = 4 };

static void must(int32_t code) {
    if (code == AEL_DONE) return;
    fprintf(stderr, "a call answered %" PRId32 "\n", code);
    exit(1);
}

static bool is_zero(ael_mutator *m, uint32_t r) {
    uint64_t value;
    return ael_reg(m, r, &value) == AEL_NUMBER && value == 0;
}

static void prepend(ael_mutator *m, uint64_t number) {
    must(ael_new(m, LINK, LINK_LENGTH));
    must(ael_set(m, NUMBER, number));
    must(ael_store(m, LINK, NUMBER_FIELD, NUMBER));
    must(ael_store(m, LINK, REST_FIELD, LIST));
    must(ael_mov(m, LIST, LINK));
}

static void *send(void *at) {
    ael_mutator *m = (ael_mutator *)at;
    for (uint64_t list = 0; list < LISTS; list++) {
        must(ael_set(m, LIST, 0));
        for (uint64_t k = 1; k <= EACH; k++) prepend(m, list * EACH + k);
        for (must(ael_board_get(m, LINK, BOX)); !is_zero(m, LINK); must(ael_board_get(m, LINK, BOX))) AEL_YIELD();
        must(ael_board_put(m, BOX, LIST));
    }
    ael_leave_now(m);
    return NULL;
}

static void add_first(ael_mutator *m) {
    must(ael_load(m, NUMBER, LIST, NUMBER_FIELD));
    must(ael_mul(m, SUM, SUM, BASE));
    must(ael_add(m, SUM, SUM, NUMBER));
    must(ael_load(m, LIST, LIST, REST_FIELD));
}

static void *receive(void *at) {
    ael_mutator *m = (ael_mutator *)at;
    must(ael_set(m, BASE, 31));
    for (int list = 0; list < LISTS; list++) {
        must(ael_set(m, LIST, 0));
        for (must(ael_board_swap(m, LIST, BOX)); is_zero(m, LIST); must(ael_board_swap(m, LIST, BOX))) AEL_YIELD();
        for (int k = 0; k < EACH; k++) add_first(m);
    }
    ael_leave_now(m);
    return NULL;
}

int main(void) {
    ael_mutator mutators[2] = {{0}, {0}};
    ael_scanner scanners[1] = {{0}};
    must(ael_open(4, 4, mutators, 2, scanners, 1));
    pthread_t threads[3];
    if (pthread_create(&threads[0], NULL, send, &mutators[0]) || pthread_create(&threads[1], NULL, receive, &mutators[1])
        || pthread_create(&threads[2], NULL, ael_scanner_main, &scanners[0]))
        return 1;
    for (int i = 0; i < 3; i++) pthread_join(threads[i], NULL);
    uint64_t sum = 0, records = 0;
    uint32_t epoch = 0;
    ael_reg(&mutators[1], SUM, &sum);
    ael_tell(&mutators[0], &records, &epoch);
    printf("checksum %" PRIu64 "\n", sum);
    printf("records %" PRIu64 ", moved %s\n", records, epoch > 0 ? "true" : "false");
    for (int i = 0; i < 2; i++) must(ael_free(&mutators[i]));
    must(ael_free(&scanners[0]));
    return 0;
}
