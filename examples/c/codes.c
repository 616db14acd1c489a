/* Brings about each code of the library, and says which call answered it. It is linked so that calls for memory go through the functions at
 * its end, which can refuse one and count what is there. One thread plays all others, so that what has to wait does. */
#include "ael.h"
#include <inttypes.h>
#include <stdbool.h>
#include <stdio.h>
#include <stdlib.h>
#include <string.h>

enum { PAGES = 4, LEAST_CODE = AEL_HEAP_FULL, CODES = AEL_LEFT - LEAST_CODE + 1 };

static const char *const names[CODES] = {
    [AEL_DONE - LEAST_CODE] = "AEL_DONE",
    [AEL_AGAIN - LEAST_CODE] = "AEL_AGAIN",
    [AEL_NUMBER - LEAST_CODE] = "AEL_NUMBER",
    [AEL_POINTER - LEAST_CODE] = "AEL_POINTER",
    [AEL_LEFT - LEAST_CODE] = "AEL_LEFT",
    [AEL_BAD_HANDLE - LEAST_CODE] = "AEL_BAD_HANDLE",
    [AEL_NO_MEMORY - LEAST_CODE] = "AEL_NO_MEMORY",
    [AEL_IN_USE - LEAST_CODE] = "AEL_IN_USE",
    [AEL_BAD_SIZE - LEAST_CODE] = "AEL_BAD_SIZE",
    [AEL_BAD_INSTRUCTION - LEAST_CODE] = "AEL_BAD_INSTRUCTION",
    [AEL_BAD_REGISTER - LEAST_CODE] = "AEL_BAD_REGISTER",
    [AEL_UNANSWERED - LEAST_CODE] = "AEL_UNANSWERED",
    [AEL_RECORDS_OUT - LEAST_CODE] = "AEL_RECORDS_OUT",
    [AEL_IS_NUMBER - LEAST_CODE] = "AEL_IS_NUMBER",
    [AEL_NO_SUCH_WORD - LEAST_CODE] = "AEL_NO_SUCH_WORD",
    [AEL_IS_POINTER - LEAST_CODE] = "AEL_IS_POINTER",
    [AEL_TOO_LONG - LEAST_CODE] = "AEL_TOO_LONG",
    [AEL_TOO_BIG - LEAST_CODE] = "AEL_TOO_BIG",
    [AEL_HALTED - LEAST_CODE] = "AEL_HALTED",
    [AEL_NOT_POINTER - LEAST_CODE] = "AEL_NOT_POINTER",
    [AEL_NOT_NUMBER - LEAST_CODE] = "AEL_NOT_NUMBER",
    [AEL_OUT_OF_RANGE - LEAST_CODE] = "AEL_OUT_OF_RANGE",
    [AEL_WEAK_CELL - LEAST_CODE] = "AEL_WEAK_CELL",
    [AEL_INTO_RAW - LEAST_CODE] = "AEL_INTO_RAW",
    [AEL_ZERO_DIVISOR - LEAST_CODE] = "AEL_ZERO_DIVISOR",
    [AEL_HEAP_FULL - LEAST_CODE] = "AEL_HEAP_FULL",
};

static bool seen[CODES];

static const char *name(int32_t code) {
    bool is_named = LEAST_CODE <= code && code <= AEL_LEFT && names[code - LEAST_CODE];
    if (is_named) seen[code - LEAST_CODE] = true;
    return is_named ? names[code - LEAST_CODE] : "no code";
}

static void tell(const char *call, int32_t code) { printf("%s: %s\n", call, name(code)); }

static void must(int32_t code) {
    if (code == AEL_DONE) return;
    printf("a call answered %s\n", name(code));
    exit(1);
}

/* a heap of two mutators and a scanner */
typedef struct heap {
    ael_mutator m[2];
    ael_scanner s[1];
} heap;

static heap opened(uint32_t pages) {
    heap h = {{{0}, {0}}, {{0}}};
    must(ael_open(pages, pages, h.m, 2, h.s, 1));
    return h;
}

/* All that aren't freed yet leave, turn by turn, since each may wait for the other. */
static void close_heap(heap *h) {
    int32_t code[2] = {AEL_AGAIN, AEL_AGAIN};
    while (code[0] == AEL_AGAIN || code[1] == AEL_AGAIN)
        for (int i = 0; i < 2; i++) code[i] = ael_leave(&h->m[i]);
    for (int i = 0; i < 2; i++)
        if (code[i] != AEL_BAD_HANDLE) must(ael_free(&h->m[i]));
    while (ael_scan(h->s) != AEL_LEFT) {
    }
    must(ael_free(h->s));
}

static uint64_t in_register(ael_mutator *m, uint32_t r) {
    uint64_t value = 0;
    ael_reg(m, r, &value);
    return value;
}

/* ---- handles, sizes and registers ---- */

static void bad_handles(void) {
    ael_mutator null = {0};
    ael_scanner no_scanner = {0};
    heap h = opened(PAGES);
    ael_mutator *scanner = (ael_mutator *)(void *)h.s;
    uint64_t value = 7, serial = 7;
    uint32_t epoch = 7;
    tell("a call by null", ael_call(&null, AEL_OP_LI, 0, 0, 0, 0, 0));
    tell("a poll by null", ael_poll(&null));
    tell("null leaves", ael_leave(&null));
    tell("a register of null", ael_reg(&null, 0, &value));
    tell("null tells", ael_tell(&null, &serial, &epoch));
    tell("null scans", ael_scan(&no_scanner));
    tell("null is freed", ael_free(&null));
    tell("a call by a scanner", ael_call(scanner, AEL_OP_LI, 0, 0, 0, 0, 0));
    tell("a poll by a scanner", ael_poll(scanner));
    tell("a scanner leaves", ael_leave(scanner));
    tell("a register of a scanner", ael_reg(scanner, 0, &value));
    tell("a scanner tells", ael_tell(scanner, &serial, &epoch));
    tell("a mutator scans", ael_scan((ael_scanner *)(void *)&h.m[0]));
    printf("nothing was told: %s\n", value == 7 && serial == 7 && epoch == 7 ? "yes" : "no");
    tell("no such register", ael_reg(&h.m[0], 8, &value));
    close_heap(&h);
    tell("a call after it was freed", ael_set(&h.m[0], 0, 0));
    tell("freed twice", ael_free(&h.m[0]));
}

static void sizes(void) {
    ael_mutator m[17];
    ael_scanner s[9];
    memset(m, 0, sizeof m);
    memset(s, 0, sizeof s);
    tell("no mutators", ael_open(4, 4, m, 0, s, 0));
    tell("17 mutators", ael_open(4, 4, m, 17, s, 0));
    tell("9 scanners", ael_open(4, 4, m, 1, s, 9));
    tell("3 pages", ael_open(3, 4, m, 1, s, 0));
    tell("a limit below the pages", ael_open(8, 4, m, 1, s, 0));
    tell("2049 pages", ael_open(4, 2049, m, 1, s, 0));
    tell("no mutators, by NULL", ael_open(4, 4, NULL, 0, s, 0));
    tell("NULL for a mutator", ael_open(4, 4, NULL, 1, s, 0));
    tell("NULL for a scanner", ael_open(4, 4, m, 1, NULL, 1));
    tell("no scanners, by NULL", ael_open(4, 4, m, 1, NULL, 0));
    ael_leave_now(&m[0]);
    must(ael_free(&m[0]));
    must(ael_open(4, 2048, m, 16, s, 8));
    tell("handles that are in use", ael_open(4, 4, m, 16, s, 8));
    for (int i = 0; i < 16; i++) ael_leave_now(&m[i]);
    for (int i = 0; i < 16; i++) must(ael_free(&m[i]));
    tell("one handle that is in use", ael_open(4, 4, m, 16, s, 8));
    for (int i = 0; i < 8; i++) must(ael_free(&s[i]));
}

/* ---- instructions ---- */

static void effects(void) {
    heap h = opened(PAGES);
    ael_mutator *m = &h.m[0];
    must(ael_set(m, 0, 17));
    must(ael_mov(m, 1, 0));
    must(ael_set(m, 2, 5));
    must(ael_add(m, 3, 1, 2));
    printf("add %" PRIu64, in_register(m, 3));
    must(ael_sub(m, 3, 1, 2));
    printf(", sub %" PRIu64, in_register(m, 3));
    must(ael_mul(m, 3, 1, 2));
    printf(", mul %" PRIu64, in_register(m, 3));
    must(ael_div(m, 3, 1, 2));
    printf(", div %" PRIu64, in_register(m, 3));
    must(ael_rem(m, 3, 1, 2));
    printf(", rem %" PRIu64, in_register(m, 3));
    must(ael_lt(m, 3, 2, 1));
    printf(", lt %" PRIu64, in_register(m, 3));
    must(ael_eq(m, 3, 2, 1));
    printf(", eq %" PRIu64 "\n", in_register(m, 3));

    must(ael_new(m, 0, 3));
    must(ael_raw(m, 1, AEL_IN(2)));
    must(ael_mix(m, 3, 2, 4));
    must(ael_len(m, 4, 0));
    printf("new %" PRIu64, in_register(m, 4));
    must(ael_len(m, 4, 1));
    printf(", raw %" PRIu64, in_register(m, 4));
    must(ael_len(m, 4, 3));
    printf(", mix %" PRIu64, in_register(m, 4));
    must(ael_weak(m, 5, 0));
    must(ael_load(m, 6, 5, 0));
    must(ael_eq(m, 6, 6, 0));
    printf(", weak %" PRIu64, in_register(m, 6));
    must(ael_store(m, 0, 2, 2));
    must(ael_load(m, 6, 0, 2));
    printf(", ld %" PRIu64, in_register(m, 6));
    must(ael_cas(m, 6, 0, 2, 2, 4));
    must(ael_load(m, 7, 0, 2));
    printf(", cas %" PRIu64 " %" PRIu64, in_register(m, 6), in_register(m, 7));
    must(ael_is_pointer(m, 6, 3));
    printf(", isp %" PRIu64 "\n", in_register(m, 6));

    must(ael_board_put(m, 15, 2));
    must(ael_board_get(m, 6, 15));
    printf("put and get %" PRIu64, in_register(m, 6));
    must(ael_set(m, 7, 9));
    must(ael_board_swap(m, 7, 15));
    must(ael_board_get(m, 6, 15));
    printf(", swap %" PRIu64 " %" PRIu64 "\n", in_register(m, 7), in_register(m, 6));
    uint64_t value;
    tell("a register with a number", ael_reg(m, 7, &value));
    tell("a register with a pointer", ael_reg(m, 0, &value));

    tell("no such instruction", ael_call(m, AEL_OP_SWAP + 1, 0, 0, 0, 0, 0));
    tell("no such register", ael_mov(m, 8, 0));
    tell("too large a number", ael_set(m, 0, AEL_IN(0)));
    tell("a number below 0", ael_set(m, 0, (uint64_t)-1));
    tell("the largest number", ael_set(m, 7, AEL_IN(0) - 1));
    tell("no such operand", ael_load(m, 6, 0, AEL_IN(8)));
    tell("a length below 0", ael_new(m, 0, (uint64_t)-1));
    tell("and nothing has happened", ael_reg(m, 0, &value));
    close_heap(&h);
}

/* ---- calls that test first ---- */

/* Each answers by a code what would end the mutator, which goes on. */
static void tests_first(void) {
    heap h = opened(256);
    ael_mutator *m = &h.m[0], null = {0};
    must(ael_new(m, 0, 2));
    must(ael_set(m, 1, 2));
    tell("a load that tests first, by null", ael_try_load(&null, 3, 0, 0));
    tell("from no register", ael_try_load(m, 3, 8, 0));
    tell("from a number", ael_try_load(m, 3, 1, 0));
    tell("at no register", ael_try_load(m, 3, 0, AEL_IN(8)));
    tell("at no register by far", ael_try_load(m, 3, 0, AEL_IN(UINT64_C(1) << 32)));
    tell("at a pointer", ael_try_load(m, 3, 0, AEL_IN(0)));
    tell("at the end", ael_try_load(m, 3, 0, 2));
    tell("at the end, which a register has", ael_try_load(m, 3, 0, AEL_IN(1)));
    tell("a store that tests first, in a number", ael_try_store(m, 1, 0, 0));
    tell("at a pointer", ael_try_store(m, 0, AEL_IN(0), 0));
    tell("at the end", ael_try_store(m, 0, 2, 0));
    tell("at the last word", ael_try_store(m, 0, 1, 1));
    tell("and a load there", ael_try_load(m, 3, 0, 1));
    printf("it has %" PRIu64 "\n", in_register(m, 3));
    tell("a frame of 4095 locals", ael_frame_push(m, 4095));
    tell("a frame of 4094", ael_frame_push(m, 4094));
    tell("its last local", ael_local_set(m, 4093, 1));
    tell("is read", ael_local_get(m, 4, 4093));
    tell("and the frame is gone", ael_frame_pop(m));
    printf("it had %" PRIu64 ", and below it is %" PRIu64 "\n", in_register(m, 4), in_register(m, AEL_FRAME));
    tell("a safepoint by null", ael_safepoint(&null));
    tell("a safepoint", ael_safepoint(m));
    close_heap(&h);
}

/* ---- traps ---- */

typedef int32_t trap(ael_mutator *m);

static int32_t not_pointer(ael_mutator *m) { return ael_load(m, 0, 0, 0); }
static int32_t not_number(ael_mutator *m) { return ael_add(m, 0, 1, 1); }
static int32_t out_of_range(ael_mutator *m) { return ael_load(m, 0, 1, 2); }
static int32_t into_raw(ael_mutator *m) { return ael_store(m, 2, 0, 1); }
static int32_t weak_cell(ael_mutator *m) { return ael_store(m, 3, 0, 1); }
static int32_t zero_divisor(ael_mutator *m) { return ael_div(m, 0, 0, 0); }

/* A list that is kept fills the heap. */
static int32_t heap_full(ael_mutator *m) {
    int32_t code = AEL_DONE;
    while (code == AEL_DONE) {
        code = ael_new(m, 4, 2);
        if (code == AEL_DONE) code = ael_store(m, 4, 0, 5);
        if (code == AEL_DONE) code = ael_mov(m, 5, 4);
    }
    return code;
}

/* The mutator has 0 in r0, a record of fields, a raw one and a weak cell. After its trap the other goes on. */
static void traps(const char *what, trap *by) {
    heap h = opened(PAGES);
    ael_mutator *m = &h.m[0];
    must(ael_new(m, 1, 2));
    must(ael_raw(m, 2, 2));
    must(ael_weak(m, 3, 1));
    int32_t end = by(m);
    tell(what, end);
    uint64_t serial;
    uint32_t epoch;
    bool stays = ael_set(m, 0, 1) == end && ael_tell(m, &serial, &epoch) == end && ael_try_load(m, 0, 0, 9) == end && ael_try_store(m, 0, 9, 0) == end
        && ael_frame_push(m, 4095) == end && ael_call(m, 99, 0, 0, 0, 0, 0) == AEL_BAD_INSTRUCTION;
    int32_t early = ael_free(m);
    for (int i = 0; i < 100; i++) stays = stays && ael_poll(m) == end;
    printf("and so it stays: %s\n", stays ? "yes" : "no");
    printf("freed before it polls: %s, and then: %s\n", name(early), name(ael_free(m)));
    must(ael_new(&h.m[1], 0, 2));
    close_heap(&h);
}

static void halts(void) {
    heap h = opened(PAGES);
    int32_t first = ael_leave(&h.m[0]);
    tell("it leaves", first);
    tell("and has left", ael_leave_now(&h.m[0]));
    tell("a call of one that has left", ael_set(&h.m[0], 0, 0));
    close_heap(&h);
}

/* ---- who waits ---- */

/* Polls so often that a call is answered, unless it waits for another mutator. */
static int32_t polled(ael_mutator *m, int32_t code) {
    for (int i = 0; i < 10000 && code == AEL_AGAIN; i++) code = ael_poll(m);
    return code;
}

/* Both have come, so a flip waits for the other, which makes no call but then polls. */
static void waits(void) {
    heap h = opened(PAGES);
    ael_mutator *m = &h.m[0], *other = &h.m[1];
    must(ael_new(other, 0, 8));
    int32_t code = AEL_DONE;
    while (code == AEL_DONE) code = polled(m, ael_call(m, AEL_OP_NEW, 0, 8, 0, 0, 0));
    tell("a call that waits", code);
    tell("a poll that waits", ael_poll(m));
    tell("another call meanwhile", ael_call(m, AEL_OP_NEW, 0, 8, 0, 0, 0));
    int32_t others = polled(other, ael_poll(other));
    tell("a safepoint that waits", others);
    tell("the first flips, and waits again", code = polled(m, code));
    tell("the other forwards its registers", polled(other, others));
    tell("and the first has its record", polled(m, code));
    uint64_t serial;
    uint32_t epoch;
    tell("it tells of itself", ael_tell(m, &serial, &epoch));
    printf("epoch %" PRIu32 "\n", epoch);
    close_heap(&h);
}

/* A mutator that waits as there leaves: its call is answered first. */
static void leaves_meanwhile(void) {
    heap h = opened(PAGES);
    ael_mutator *m = &h.m[0], *other = &h.m[1];
    must(ael_new(other, 0, 8));
    int32_t code = AEL_DONE, others = AEL_AGAIN;
    while (code == AEL_DONE) code = polled(m, ael_call(m, AEL_OP_NEW, 0, 8, 0, 0, 0));
    tell("it leaves while its call waits", code = ael_leave(m));
    for (int i = 0; i < 10000 && code == AEL_AGAIN; i++) {
        if (others == AEL_AGAIN) others = ael_poll(other);
        code = ael_leave(m);
    }
    uint64_t value;
    tell("the call is answered", code);
    tell("and it has its record", ael_reg(m, 0, &value));
    tell("then it leaves", ael_leave_now(m));
    tell("and has halted", ael_poll(m));
    close_heap(&h);
}

/* A long record is copied, by a scanner that takes turns with the mutator. */
static void scans(void) {
    heap h = opened(256);
    ael_mutator *m = &h.m[0];
    must(ael_new(m, 0, 2));
    must(ael_new(m, 1, 4000));
    must(ael_store(m, 0, 0, 1));
    must(ael_set(m, 1, 0));
    tell("a scanner with nothing to do", ael_scan(h.s));
    int32_t code = AEL_DONE, scanned = AEL_DONE;
    while (scanned == AEL_DONE) {
        code = code == AEL_AGAIN ? ael_poll(m) : ael_call(m, AEL_OP_NEW, 2, 100, 0, 0, 0);
        scanned = ael_scan(h.s);
    }
    tell("a scanner that copies", scanned);
    tell("freed meanwhile", ael_free(h.s));
    while (code == AEL_AGAIN || scanned == AEL_AGAIN) {
        if (code == AEL_AGAIN) code = ael_poll(m);
        scanned = ael_scan(h.s);
    }
    tell("its round ends", scanned);
    tell("and the mutator's call", code);
    for (int i = 0; i < 2; i++) ael_leave_now(&h.m[i]);
    while (scanned != AEL_LEFT) scanned = ael_scan(h.s);
    tell("once all have left", scanned);
    close_heap(&h);
}

/* ---- memory ---- */

void *__real_malloc(size_t size);
void *__real_realloc(void *old, size_t size);
void __real_free(void *block);
void *__wrap_malloc(size_t size);
void *__wrap_realloc(void *old, size_t size);
void __wrap_free(void *block);

static struct {
    void *at;
    size_t size;
} blocks[64];
static long calls_left = -1, calls_made = 0;

/* Counts a call for memory, and says whether it is refused: the one before which none is left. */
static bool is_refused(void) {
    calls_made++;
    return calls_left >= 0 && calls_left-- == 0;
}

static size_t slot_of(const void *at) {
    size_t i = 0;
    while (i < 64 && blocks[i].at != at) i++;
    if (i == 64) abort();
    return i;
}

static void *noted(void *at, size_t size) {
    size_t i = slot_of(NULL);
    blocks[i].at = at;
    blocks[i].size = size;
    return at;
}

void *__wrap_malloc(size_t size) { return is_refused() ? NULL : noted(__real_malloc(size), size); }

void *__wrap_realloc(void *old, size_t size) {
    if (is_refused()) return NULL;
    if (old) blocks[slot_of(old)].at = NULL;
    return noted(__real_realloc(old, size), size);
}

void __wrap_free(void *block) {
    if (block) blocks[slot_of(block)].at = NULL;
    __real_free(block);
}

static size_t blocks_there(void) {
    size_t n = 0;
    for (size_t i = 0; i < 64; i++) n += blocks[i].at != NULL;
    return n;
}

/* Each call for memory of ael_open is refused in turn. */
static void refused(size_t mutators, size_t scanners) {
    ael_mutator m[16];
    ael_scanner s[8];
    memset(m, 0, sizeof m);
    memset(s, 0, sizeof s);
    int32_t code = AEL_NO_MEMORY;
    long calls = 0;
    bool is_clean = true;
    for (; code == AEL_NO_MEMORY; calls++) {
        calls_left = calls;
        code = ael_open(4, 8, m, mutators, s, scanners);
        if (code != AEL_NO_MEMORY) break;
        is_clean = is_clean && name(code) && blocks_there() == 0;
        for (size_t i = 0; i < mutators; i++) is_clean = is_clean && !m[i].at;
        for (size_t i = 0; i < scanners; i++) is_clean = is_clean && !s[i].at;
    }
    calls_left = -1;
    calls_made = 0;
    tell("with all memory that it asks for", code);
    printf("calls for memory: %ld, nothing is left of those that fail: %s\n", calls, is_clean ? "yes" : "no");
    must(ael_new(&m[0], 0, 100));
    for (size_t i = 0; i < mutators; i++) ael_leave_now(&m[i]);
    for (size_t i = 0; i < mutators; i++) must(ael_free(&m[i]));
    for (size_t i = 0; i < scanners; i++) must(ael_free(&s[i]));
    printf("calls after it take no memory, and all is freed: %s\n", calls_made == 0 && blocks_there() == 0 ? "yes" : "no");
}

/* No run makes 2^40 - 1 records. So this looks behind a handle, as no program may, for the word that ael_tell tells, and writes it. */
static void records_out(void) {
    heap h = opened(PAGES);
    ael_mutator *m = &h.m[0];
    for (int i = 0; i < 77; i++) must(ael_new(m, 0, 1));
    const uint64_t few = 77, most = (UINT64_C(1) << 40) - 1;
    unsigned char *word = (unsigned char *)m->at, *end = word + blocks[slot_of(word)].size;
    uint64_t told = few;
    uint32_t epoch;
    for (; told != most && word + 8 <= end; word += 8) {
        if (memcmp(word, &few, 8) != 0) continue;
        memcpy(word, &most, 8);
        must(ael_tell(m, &told, &epoch));
        if (told != most) memcpy(word, &few, 8);
    }
    tell("one record too many", ael_new(m, 0, 1));
    tell("another call", ael_set(m, 0, 1));
    if (told == most) memcpy(word - 8, &few, 8);
    close_heap(&h);
}

int main(void) {
    bad_handles();
    sizes();
    effects();
    tests_first();
    traps("a load from a number", not_pointer);
    traps("the sum of pointers", not_number);
    traps("a load past the end", out_of_range);
    traps("a pointer into a raw record", into_raw);
    traps("a store in a weak cell", weak_cell);
    traps("a division by zero", zero_divisor);
    traps("a full heap", heap_full);
    halts();
    waits();
    leaves_meanwhile();
    scans();
    refused(1, 0);
    refused(3, 2);
    refused(16, 8);
    records_out();
    for (int i = 0; i < CODES; i++)
        if (names[i] && !seen[i]) printf("not seen: %s\n", names[i]);
    return 0;
}
