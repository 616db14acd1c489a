/* A thread whose mutator has trapped goes on with its loop of safepoints, and holds nobody up: the other thread makes records through many
 * flips, each of which needs all mutators that have come. */
#include "ael.h"
#include <inttypes.h>
#include <pthread.h>
#include <stdio.h>
#include <stdlib.h>
#include <time.h>

/* A space has room for 28 of these records. A flip has to come within so many seconds. */
enum { PAGES = 4, RECORDS = 1000, FIELDS = 8, LEAST_FLIPS = 30, SECONDS = 60 };

static pthread_mutex_t lock = PTHREAD_MUTEX_INITIALIZER;
static pthread_cond_t has_trapped = PTHREAD_COND_INITIALIZER;
static int32_t trap = AEL_DONE;
static int is_over = 0;

static void must(int32_t code) {
    if (code == AEL_DONE) return;
    fprintf(stderr, "a call answered %" PRId32 "\n", code);
    exit(1);
}

static void tell_trap(int32_t code) {
    pthread_mutex_lock(&lock);
    trap = code;
    pthread_cond_signal(&has_trapped);
    pthread_mutex_unlock(&lock);
}

static int goes_on(void) {
    pthread_mutex_lock(&lock);
    int goes = !is_over;
    pthread_mutex_unlock(&lock);
    return goes;
}

/* It comes, traps, and polls as it would without the trap. */
static void *traps(void *at) {
    ael_mutator *m = (ael_mutator *)at;
    must(ael_new(m, 0, 2));
    tell_trap(ael_load(m, 0, 0, 2));
    while (goes_on()) {
        ael_safepoint(m);
        AEL_YIELD();
    }
    return NULL;
}

static int32_t wait_for_trap(void) {
    pthread_mutex_lock(&lock);
    while (trap == AEL_DONE) pthread_cond_wait(&has_trapped, &lock);
    pthread_mutex_unlock(&lock);
    return trap;
}

/* A new record in r0, or AEL_AGAIN if it isn't there by this time. */
static int32_t new_by(ael_mutator *m, time_t end) {
    int32_t code = ael_call(m, AEL_OP_NEW, 0, FIELDS, 0, 0, 0);
    while (code == AEL_AGAIN && time(NULL) < end) {
        AEL_YIELD();
        code = ael_poll(m);
    }
    return code;
}

int main(void) {
    ael_mutator mutators[2] = {{0}, {0}};
    must(ael_open(PAGES, PAGES, mutators, 2, NULL, 0));
    pthread_t thread;
    if (pthread_create(&thread, NULL, traps, &mutators[0])) return 1;
    printf("a trap %" PRId32 "\n", wait_for_trap());
    time_t end = time(NULL) + SECONDS;
    int records = 0;
    while (records < RECORDS && new_by(&mutators[1], end) == AEL_DONE) records++;
    uint64_t serial = 0;
    uint32_t epoch = 0;
    ael_tell(&mutators[1], &serial, &epoch);
    printf("records of the other %d, through many flips %s\n", records, epoch >= LEAST_FLIPS ? "true" : "false");
    if (records < RECORDS) return 1;

    pthread_mutex_lock(&lock);
    is_over = 1;
    pthread_mutex_unlock(&lock);
    pthread_join(thread, NULL);
    /* which has left by its polls */
    printf("freed %" PRId32 "\n", ael_free(&mutators[0]));
    ael_leave_now(&mutators[1]);
    return ael_free(&mutators[1]);
}
