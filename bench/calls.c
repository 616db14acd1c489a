/* The lists of lists_are_summed_by_calls in crates/runtime_tests, built and summed in C by the same calls; with a word on the command line
 * the heap is opened, and nothing else is done. bench/c counts what each takes. */
#include "ael.h"
#include <inttypes.h>
#include <stdio.h>
#include <stdlib.h>

enum { LISTS = 40, EACH = 50, PAGES = 64 };
/* what is kept in which register */
enum { LIST = 0, LINK = 1, NUMBER = 2 };
/* a link of a list: a number, and the rest of the list, which is 0 at the end */
enum { NUMBER_FIELD = 0, REST_FIELD = 1, LINK_LENGTH = 2 };

static void must(int32_t code) {
    if (code == AEL_DONE) return;
    fprintf(stderr, "a call answered %" PRId32 "\n", code);
    exit(1);
}

/* The sum of a list, whose links are built and then read one by one. */
static uint64_t sum_by_calls(ael_mutator *m) {
    must(ael_set(m, LIST, 0));
    for (uint64_t k = 1; k <= EACH; k++) {
        must(ael_new(m, LINK, LINK_LENGTH));
        must(ael_set(m, NUMBER, k));
        must(ael_store(m, LINK, NUMBER_FIELD, NUMBER));
        must(ael_store(m, LINK, REST_FIELD, LIST));
        must(ael_mov(m, LIST, LINK));
    }
    uint64_t sum = 0;
    for (int k = 0; k < EACH; k++) {
        must(ael_load(m, NUMBER, LIST, NUMBER_FIELD));
        uint64_t number;
        if (ael_reg(m, NUMBER, &number) == AEL_NUMBER) sum += number;
        must(ael_load(m, LIST, LIST, REST_FIELD));
    }
    return sum;
}

int main(int count, char **words) {
    (void)words;
    ael_mutator mutators[2] = {{0}, {0}};
    ael_scanner scanners[1] = {{0}};
    must(ael_open(PAGES, PAGES, mutators, 2, scanners, 1));
    if (count > 1) return 0;
    uint64_t sum = 0, records;
    uint32_t epoch;
    for (int k = 0; k < LISTS; k++) sum += sum_by_calls(&mutators[0]);
    must(ael_tell(&mutators[0], &records, &epoch));
    return sum == LISTS * EACH * (EACH + 1) / 2 && records == LISTS * EACH ? 0 : 1;
}
