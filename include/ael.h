/* A heap whose concurrent garbage collector is proved, for programs in C and C++. docs/C.md leads from a clone to a running program.
 *
 * Threads work on records while the collector moves them. A thread that works on records has a mutator; one that only copies has a scanner.
 * What lives is what the registers of mutators without an end and the board lead to. No pointer to a record leaves the heap.
 *
 * RULES, which nothing checks:
 *  - A handle is null, {0}, before it is given to ael_open. After that only this library reads or writes it, and it isn't copied or moved.
 *  - On one handle one call runs at a time. Another thread may have it next, if a lock, a thread's start or join, or a seq_cst atomic lies
 *    between the two. Calls on different handles may run at once.
 *  - A pointer that is passed leads to what its type says. Only ael_open takes NULL, for an array without elements.
 *  - No call comes from a signal handler, or in the child of a fork of a process with threads.
 *  - malloc, realloc and free are of one allocator, and align to 16.
 * All else is tested, and told by a code.
 *
 * LIMITS:
 *  - A space has at most 2,048 pages of 64 words of 8 bytes, which is 1 MiB. All memory is taken by ael_open: two spaces, some tables, and
 *    less than 1 KiB for each mutator or scanner.
 *  - A heap has 1 to 16 mutators, at most 8 scanners, and a board of 16 words. A mutator that has left doesn't come back.
 *  - A mutator has eight registers. It needs more roots in records, as in the frames below.
 *  - A record has at most 4,095 words, 4,094 if it is mixed. A number is below 2^62, in a raw word too.
 *  - A mutator makes at most 2^40 - 1 records.
 *  - A trap ends its mutator for good: a load from a number or past a record's end, the sum of a pointer, a division by 0, a pointer stored
 *    among plain numbers, a store in a weak cell, a full heap. That call and each later one answer the end's code; its registers can be read,
 *    but keep nothing alive. ael_try_load and ael_try_store test before they trap.
 *  - A mutator that has made a call, and hasn't left, holds up all who want room while it makes none: let it poll, or leave. One with an end
 *    leaves by polls too, so it may go on polling as the others do, until it has left. */
#ifndef AEL_H
#define AEL_H

#include <stddef.h>
#include <stdint.h>

/* What a thread does while it waits for others. Define it before this file is included to have something else. */
#ifndef AEL_YIELD
#include <sched.h>
#define AEL_YIELD() sched_yield()
#endif

#ifdef __cplusplus
extern "C" {
#endif

typedef struct ael_mutator { void *at; } ael_mutator;
typedef struct ael_scanner { void *at; } ael_scanner;

/* What a function answers. Below 0 the call was not made, or ended the mutator: from AEL_HALTED on it is always the mutator's end. */
enum {
    AEL_DONE = 0,
    AEL_AGAIN = 1,   /* not done yet: poll, or call again */
    AEL_NUMBER = 2,  /* the register holds a number */
    AEL_POINTER = 3, /* the register holds a pointer to a record */
    AEL_LEFT = 4,    /* the mutator has left; or the scanner has seen that all mutators have */
    AEL_BAD_HANDLE = -1,
    AEL_NO_MEMORY = -2,
    AEL_IN_USE = -3,
    AEL_BAD_SIZE = -4,
    AEL_BAD_INSTRUCTION = -5, /* no instruction has this opcode */
    AEL_BAD_REGISTER = -6,    /* it is above 7; so is one that an operand names, as AEL_IN(8) does */
    AEL_UNANSWERED = -7, /* the last call answered AEL_AGAIN, and has not been answered by polls */
    AEL_RECORDS_OUT = -8, /* the mutator has made as many records as it can */
    /* of functions that test before they trap; the mutator goes on */
    AEL_IS_NUMBER = -9,     /* the register that should lead to a record holds a number */
    AEL_NO_SUCH_WORD = -10, /* the record is too short */
    AEL_IS_POINTER = -11,   /* the register that should hold a number leads to a record */
    AEL_TOO_LONG = -12,     /* no record is so long */
    AEL_TOO_BIG = -13,      /* of AEL_OP_LI: the number is 2^62 or more */
    /* the mutator has this end */
    AEL_HALTED = -16, /* it has left, or is about to */
    AEL_NOT_POINTER = -17,
    AEL_NOT_NUMBER = -18,
    AEL_OUT_OF_RANGE = -19,
    AEL_WEAK_CELL = -20,
    AEL_INTO_RAW = -21,
    AEL_ZERO_DIVISOR = -22,
    AEL_HEAP_FULL = -23
};

/* The instructions that ael_call takes, and their operands: d a b c are registers, k is a number, x and y are numbers below 2^62 or
 * AEL_IN(register). */
enum {
    AEL_OP_LI = 0,    /* d k: d becomes k */
    AEL_OP_MOV = 1,   /* d a: d becomes a */
    AEL_OP_ADD = 2,   /* d a b: and so on; numbers wrap at 2^62 */
    AEL_OP_SUB = 3,   /* d a b */
    AEL_OP_MUL = 4,   /* d a b */
    AEL_OP_DIV = 5,   /* d a b */
    AEL_OP_REM = 6,   /* d a b */
    AEL_OP_LT = 7,    /* d a b: d becomes 1 if a is less than b, else 0 */
    AEL_OP_EQ = 8,    /* d a b: d becomes 1 if a and b are one number or lead to one record, else 0 */
    AEL_OP_NEW = 9,   /* d x: d leads to a new record of x fields, which hold 0 */
    AEL_OP_RAW = 10,  /* d x: of x plain numbers */
    AEL_OP_MIX = 11,  /* d x y: of x fields, and y plain numbers behind them */
    AEL_OP_WEAK = 12, /* d a: d leads to a new weak cell of a */
    AEL_OP_LD = 13,   /* d a x: d becomes word x of the record in a */
    AEL_OP_ST = 14,   /* a x b: word x of the record in a becomes b */
    AEL_OP_CAS = 15,  /* d a x b c: if word x of the record in a is what b is, it becomes c and d becomes 1, else d becomes 0 */
    AEL_OP_LEN = 16,  /* d a: d becomes the length of the record in a */
    AEL_OP_ISP = 17,  /* d a: d becomes 1 if a leads to a record, else 0 */
    AEL_OP_GET = 18,  /* d x: d becomes word x of the board */
    AEL_OP_PUT = 19,  /* x a: word x of the board becomes a */
    AEL_OP_SWAP = 20  /* d x: d and word x of the board change places */
};

/* An operand that is in a register. */
#define AEL_IN(r) ((UINT64_C(1) << 62) + (uint64_t)(r))

/* ---- the library's functions, none of which waits for another thread ---- */

/* ael_open, below, if neither array is NULL. */
int32_t ael_open_seats(uint32_t pages, uint32_t limit, ael_mutator *mutators, size_t mutator_count, ael_scanner *scanners, size_t scanner_count);

/* Makes a call. AEL_AGAIN: poll until it is answered. */
int32_t ael_call(ael_mutator *m, uint32_t op, uint64_t a, uint64_t b, uint64_t c, uint64_t d, uint64_t e);

/* Goes on with a call. With none under way it is a safepoint: at AEL_DONE nobody waits for this mutator, before that others may. A mutator
 * with an end goes on to leave, and answers the end's code. */
int32_t ael_poll(ael_mutator *m);

/* Leaves the heap, in several calls, up to AEL_LEFT. If a call is under way it goes on with that, as a poll does, and answers what it came
 * to; then the mutator hasn't left yet. */
int32_t ael_leave(ael_mutator *m);

/* What register i holds. An address is good until the mutator's next call or poll, to be compared with others. */
int32_t ael_reg(ael_mutator *m, uint32_t i, uint64_t *value);

/* The number of records that the mutator has made and the epoch, which each flip raises. It answers AEL_DONE or the mutator's end. */
int32_t ael_tell(ael_mutator *m, uint64_t *serial, uint32_t *epoch);

/* Makes some acts of a round. A scanner's thread may stop at AEL_DONE or AEL_LEFT; at AEL_AGAIN others may wait for it. */
int32_t ael_scan(ael_scanner *s);

/* Frees what a handle, of either kind, leads to, and makes it null: a mutator that has left, or a scanner at which ael_scan has not
 * answered AEL_AGAIN last. */
int32_t ael_free(void *handle);

/* ---- opening ---- */

/* Opens a heap, whose spaces begin with this many pages and double up to the limit, 4 <= pages <= limit <= 2048. The heap goes with the last
 * seat that is freed. An array without elements may be NULL. */
static inline int32_t ael_open(uint32_t pages, uint32_t limit, ael_mutator *mutators, size_t mutator_count, ael_scanner *scanners, size_t scanner_count) {
    ael_mutator no_mutator = {NULL};
    ael_scanner no_scanner = {NULL};
    if ((!mutators && mutator_count > 0) || (!scanners && scanner_count > 0)) return AEL_BAD_SIZE;
    return ael_open_seats(pages, limit, mutators ? mutators : &no_mutator, mutator_count, scanners ? scanners : &no_scanner, scanner_count);
}

/* ---- whole calls, which wait for others if they must ---- */

static inline int32_t ael_do(ael_mutator *m, uint32_t op, uint64_t a, uint64_t b, uint64_t c, uint64_t d, uint64_t e) {
    int32_t code = ael_call(m, op, a, b, c, d, e);
    while (code == AEL_AGAIN) {
        AEL_YIELD();
        code = ael_poll(m);
    }
    return code;
}

static inline int32_t ael_set(ael_mutator *m, uint32_t d, uint64_t k) { return ael_do(m, AEL_OP_LI, d, k, 0, 0, 0); }
static inline int32_t ael_mov(ael_mutator *m, uint32_t d, uint32_t a) { return ael_do(m, AEL_OP_MOV, d, a, 0, 0, 0); }
static inline int32_t ael_add(ael_mutator *m, uint32_t d, uint32_t a, uint32_t b) { return ael_do(m, AEL_OP_ADD, d, a, b, 0, 0); }
static inline int32_t ael_sub(ael_mutator *m, uint32_t d, uint32_t a, uint32_t b) { return ael_do(m, AEL_OP_SUB, d, a, b, 0, 0); }
static inline int32_t ael_mul(ael_mutator *m, uint32_t d, uint32_t a, uint32_t b) { return ael_do(m, AEL_OP_MUL, d, a, b, 0, 0); }
static inline int32_t ael_div(ael_mutator *m, uint32_t d, uint32_t a, uint32_t b) { return ael_do(m, AEL_OP_DIV, d, a, b, 0, 0); }
static inline int32_t ael_rem(ael_mutator *m, uint32_t d, uint32_t a, uint32_t b) { return ael_do(m, AEL_OP_REM, d, a, b, 0, 0); }
static inline int32_t ael_lt(ael_mutator *m, uint32_t d, uint32_t a, uint32_t b) { return ael_do(m, AEL_OP_LT, d, a, b, 0, 0); }
static inline int32_t ael_eq(ael_mutator *m, uint32_t d, uint32_t a, uint32_t b) { return ael_do(m, AEL_OP_EQ, d, a, b, 0, 0); }
static inline int32_t ael_new(ael_mutator *m, uint32_t d, uint64_t x) { return ael_do(m, AEL_OP_NEW, d, x, 0, 0, 0); }
static inline int32_t ael_raw(ael_mutator *m, uint32_t d, uint64_t x) { return ael_do(m, AEL_OP_RAW, d, x, 0, 0, 0); }
static inline int32_t ael_mix(ael_mutator *m, uint32_t d, uint64_t x, uint64_t y) { return ael_do(m, AEL_OP_MIX, d, x, y, 0, 0); }
static inline int32_t ael_weak(ael_mutator *m, uint32_t d, uint32_t a) { return ael_do(m, AEL_OP_WEAK, d, a, 0, 0, 0); }
static inline int32_t ael_load(ael_mutator *m, uint32_t d, uint32_t a, uint64_t x) { return ael_do(m, AEL_OP_LD, d, a, x, 0, 0); }
static inline int32_t ael_store(ael_mutator *m, uint32_t a, uint64_t x, uint32_t b) { return ael_do(m, AEL_OP_ST, a, x, b, 0, 0); }
static inline int32_t ael_cas(ael_mutator *m, uint32_t d, uint32_t a, uint64_t x, uint32_t b, uint32_t c) { return ael_do(m, AEL_OP_CAS, d, a, x, b, c); }
static inline int32_t ael_len(ael_mutator *m, uint32_t d, uint32_t a) { return ael_do(m, AEL_OP_LEN, d, a, 0, 0, 0); }
static inline int32_t ael_is_pointer(ael_mutator *m, uint32_t d, uint32_t a) { return ael_do(m, AEL_OP_ISP, d, a, 0, 0, 0); }
static inline int32_t ael_board_get(ael_mutator *m, uint32_t d, uint64_t x) { return ael_do(m, AEL_OP_GET, d, x, 0, 0, 0); }
static inline int32_t ael_board_put(ael_mutator *m, uint64_t x, uint32_t a) { return ael_do(m, AEL_OP_PUT, x, a, 0, 0, 0); }
static inline int32_t ael_board_swap(ael_mutator *m, uint32_t d, uint64_t x) { return ael_do(m, AEL_OP_SWAP, d, x, 0, 0, 0); }

/* Lets others have room. After it addresses may be compared again. */
static inline int32_t ael_safepoint(ael_mutator *m) {
    int32_t code = ael_poll(m);
    while (code == AEL_AGAIN) {
        AEL_YIELD();
        code = ael_poll(m);
    }
    return code;
}

/* If a call is under way, it answers what that came to, as ael_leave does. */
static inline int32_t ael_leave_now(ael_mutator *m) {
    int32_t code = ael_leave(m);
    while (code == AEL_AGAIN) {
        AEL_YIELD();
        code = ael_leave(m);
    }
    return code;
}

/* A scanner's thread: pthread_create(&thread, NULL, ael_scanner_main, &scanner). It ends once all mutators have left. */
static inline void *ael_scanner_main(void *scanner) {
    int32_t code = AEL_DONE;
    while (code == AEL_DONE || code == AEL_AGAIN) {
        code = ael_scan((ael_scanner *)scanner);
        if (code == AEL_DONE) AEL_YIELD();
    }
    return NULL;
}

/* ---- calls that test before they trap, and a stack of frames ---- */

/* By convention r0 to r5 are the program's, r6 is for what a call needs on the way, and r7 leads to the topmost frame. */
enum { AEL_SCRATCH = 6, AEL_FRAME = 7 };

/* AEL_DONE, or the mutator's end. */
static inline int32_t ael_end(ael_mutator *m) {
    uint64_t serial = 0;
    uint32_t epoch = 0;
    return ael_tell(m, &serial, &epoch);
}

/* Whether the record in a has a word x: AEL_DONE, AEL_IS_NUMBER of a, AEL_IS_POINTER of a register x, or AEL_NO_SUCH_WORD. */
static inline int32_t ael_has(ael_mutator *m, uint32_t a, uint64_t x) {
    uint64_t at = x, len = 0;
    int32_t code = ael_end(m);
    if (code != AEL_DONE) return code;
    code = ael_reg(m, a, &len);
    if (code == AEL_NUMBER) return AEL_IS_NUMBER;
    if (code != AEL_POINTER) return code;
    if (x >= AEL_IN(0)) {
        if (x > AEL_IN(7)) return AEL_BAD_REGISTER;
        code = ael_reg(m, (uint32_t)(x - AEL_IN(0)), &at);
        if (code == AEL_POINTER) return AEL_IS_POINTER;
        if (code != AEL_NUMBER) return code;
    }
    code = ael_len(m, AEL_SCRATCH, a);
    if (code != AEL_DONE) return code;
    code = ael_reg(m, AEL_SCRATCH, &len);
    if (code != AEL_NUMBER) return code;
    return at < len ? AEL_DONE : AEL_NO_SUCH_WORD;
}

/* A load that doesn't trap. */
static inline int32_t ael_try_load(ael_mutator *m, uint32_t d, uint32_t a, uint64_t x) {
    int32_t code = ael_has(m, a, x);
    return code == AEL_DONE ? ael_load(m, d, a, x) : code;
}

/* A store that traps only if it would put a pointer among plain numbers, or anything in a weak cell. */
static inline int32_t ael_try_store(ael_mutator *m, uint32_t a, uint64_t x, uint32_t b) {
    int32_t code = ael_has(m, a, x);
    return code == AEL_DONE ? ael_store(m, a, x, b) : code;
}

/* Puts a frame on top, of at most 4,094 locals, which hold 0. A frame is a record; field 0 leads to the one below. */
static inline int32_t ael_frame_push(ael_mutator *m, uint64_t locals) {
    int32_t code = ael_end(m);
    if (code == AEL_DONE && locals > 4094) return AEL_TOO_LONG;
    if (code == AEL_DONE) code = ael_new(m, AEL_SCRATCH, locals + 1);
    if (code == AEL_DONE) code = ael_store(m, AEL_SCRATCH, 0, AEL_FRAME);
    if (code == AEL_DONE) code = ael_mov(m, AEL_FRAME, AEL_SCRATCH);
    return code;
}

static inline int32_t ael_frame_pop(ael_mutator *m) { return ael_load(m, AEL_FRAME, AEL_FRAME, 0); }
static inline int32_t ael_local_get(ael_mutator *m, uint32_t d, uint64_t i) { return ael_load(m, d, AEL_FRAME, i + 1); }
static inline int32_t ael_local_set(ael_mutator *m, uint64_t i, uint32_t a) { return ael_store(m, AEL_FRAME, i + 1, a); }

#ifdef __cplusplus
}
#endif

#endif
