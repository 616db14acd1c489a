/* An interpreter of a small Lisp, whose values all live on the heap: numbers, symbols, pairs, functions, the environments of functions, and
 * the frames of the interpreter itself. It reads and evaluates the program at the end of this file, which makes more than a hundred times
 * what a space holds. There is one mutator and no scanner, so the mutator copies what is kept.
 *
 * A number is a plain number. All else is a record that begins with its kind. C keeps no pointer to a record: what a function needs after
 * it has called another stands in its frame. */
#include "ael.h"
#include <ctype.h>
#include <inttypes.h>
#include <stdbool.h>
#include <stdio.h>
#include <stdlib.h>
#include <string.h>

/* ---- records ---- */

/* the first word of a record, and what a plain number is */
enum kind { NIL, SYMBOL, PAIR, FUNCTION, BUILT_IN, BINDING, NUMBER };
enum { KIND = 0 };
/* a symbol, by its number; the value that `define` gave it, and whether it did */
enum { ID = 1, VALUE = 2, IS_DEFINED = 3, SYMBOL_LENGTH = 4 };
enum { CAR = 1, CDR = 2, PAIR_LENGTH = 3 };
/* parameters are a list of symbols; the environment is a chain of bindings, or 0 */
enum { PARAMETERS = 1, BODY = 2, ENVIRONMENT = 3, FUNCTION_LENGTH = 4 };
enum { WHICH = 1, BUILT_IN_LENGTH = 2 };
enum { BOUND = 1, BOUND_TO = 2, NEXT_BINDING = 3, BINDING_LENGTH = 4 };

/* ---- registers ---- */

/* R has a function's argument and its result, ENV the environment of what is evaluated; A, B and C are for one function on its way; SYMBOLS
 * leads to the record of all symbols. */
enum { R = 0, ENV = 1, A = 2, B = 3, C = 4, SYMBOLS = 5 };

enum { PAGES = 48, PAGE_WORDS = 64, MOST_SYMBOLS = 64 };

static ael_mutator lisp;
static uint64_t words_made;
static char names[MOST_SYMBOLS][16];
static uint64_t symbol_count;

/* ---- calls ---- */

static _Noreturn void fail(const char *why) {
    fprintf(stderr, "lisp: %s\n", why);
    exit(1);
}

static void must(int32_t code) {
    if (code == AEL_DONE) return;
    fprintf(stderr, "lisp: a call answered %" PRId32 "\n", code);
    exit(1);
}

static void set(uint32_t d, uint64_t n) { must(ael_set(&lisp, d, n)); }
static void move(uint32_t d, uint32_t a) { must(ael_mov(&lisp, d, a)); }
static void load(uint32_t d, uint32_t a, uint64_t i) { must(ael_load(&lisp, d, a, i)); }
static void store(uint32_t a, uint64_t i, uint32_t b) { must(ael_store(&lisp, a, i, b)); }

static void push(uint64_t locals) {
    words_made += locals + 2;
    must(ael_frame_push(&lisp, locals));
}

static void pop(void) { must(ael_frame_pop(&lisp)); }
static void save(uint64_t local, uint32_t a) { must(ael_local_set(&lisp, local, a)); }
static void restore(uint32_t d, uint64_t local) { must(ael_local_get(&lisp, d, local)); }

static bool holds_number(uint32_t a, uint64_t *n) { return ael_reg(&lisp, a, n) == AEL_NUMBER; }

static uint64_t number(uint32_t a) {
    uint64_t n;
    if (!holds_number(a, &n)) fail("not a number");
    return n;
}

static bool is_same(uint32_t a, uint32_t b) {
    uint64_t n;
    must(ael_eq(&lisp, AEL_SCRATCH, a, b));
    return holds_number(AEL_SCRATCH, &n) && n == 1;
}

static enum kind kind(uint32_t a) {
    uint64_t n;
    if (holds_number(a, &n)) return NUMBER;
    load(AEL_SCRATCH, a, KIND);
    return (enum kind)number(AEL_SCRATCH);
}

/* d leads to a new record of this kind, whose other fields are 0 */
static void make(uint32_t d, enum kind k, uint64_t length) {
    words_made += length + 1;
    must(ael_new(&lisp, d, length));
    set(AEL_SCRATCH, k);
    store(d, KIND, AEL_SCRATCH);
}

/* d leads to a new pair of a and b; d is another register than these */
static void cons(uint32_t d, uint32_t a, uint32_t b) {
    make(d, PAIR, PAIR_LENGTH);
    store(d, CAR, a);
    store(d, CDR, b);
}

/* ---- symbols ---- */

/* those that the interpreter knows: nil and t, the forms, and what is built in */
enum { NIL_ID, T_ID, QUOTE, IF, DEFINE, LAMBDA, BEGIN, ADD, SUB, MUL, DIV, REM, LESS, EQ, CONS, CAR_OF, CDR_OF, IS_PAIR, PRINT, KNOWN };

static const char *known[KNOWN] = {"nil", "t", "quote", "if", "define", "lambda", "begin", "+", "-", "*", "/", "%", "<", "=", "cons", "car", "cdr", "pair?", "print"};

static void symbol(uint32_t d, uint64_t id) { load(d, SYMBOLS, id); }

static uint64_t id_of(uint32_t a) {
    load(AEL_SCRATCH, a, ID);
    return number(AEL_SCRATCH);
}

/* a symbol has this value; C is used */
static void define(uint32_t a, uint32_t value) {
    store(a, VALUE, value);
    set(C, 1);
    store(a, IS_DEFINED, C);
}

/* R becomes the symbol of this name */
static void intern(const char *name, size_t length) {
    uint64_t id = 0;
    while (id < symbol_count && (strlen(names[id]) != length || memcmp(names[id], name, length) != 0)) id++;
    if (id == symbol_count) {
        if (id == MOST_SYMBOLS || length >= sizeof names[0]) fail("too many symbols, or too long a name");
        memcpy(names[id], name, length);
        symbol_count++;
        make(R, id == NIL_ID ? NIL : SYMBOL, SYMBOL_LENGTH);
        set(C, id);
        store(R, ID, C);
        store(SYMBOLS, id, R);
    }
    symbol(R, id);
}

static void make_symbols(void) {
    must(ael_new(&lisp, SYMBOLS, MOST_SYMBOLS));
    for (uint64_t id = 0; id < KNOWN; id++) {
        intern(known[id], strlen(known[id]));
        if (id == T_ID) define(R, R);
        if (id < ADD) continue;
        make(A, BUILT_IN, BUILT_IN_LENGTH);
        set(C, id);
        store(A, WHICH, C);
        define(R, A);
    }
}

/* ---- reading ---- */

static const char *text;

static void skip_space(void) {
    while (isspace((unsigned char)*text) || *text == ';')
        if (*text == ';')
            text += strcspn(text, "\n");
        else
            text++;
}

static void read_value(void);

/* R becomes the list of what stands up to the closing bracket. In its frame are the first pair and the last one. */
static void read_list(void) {
    enum { FIRST, LAST, LOCALS };
    push(LOCALS);
    symbol(R, NIL_ID);
    save(FIRST, R);
    save(LAST, R);
    for (skip_space(); *text != ')'; skip_space()) {
        if (!*text) fail("a bracket is not closed");
        read_value();
        symbol(A, NIL_ID);
        cons(B, R, A);
        restore(A, LAST);
        if (kind(A) == NIL)
            save(FIRST, B);
        else
            store(A, CDR, B);
        save(LAST, B);
    }
    text++;
    restore(R, FIRST);
    pop();
}

/* R becomes the value that is written next */
static void read_value(void) {
    skip_space();
    if (*text == '(') {
        text++;
        read_list();
    } else if (*text == '\'') {
        text++;
        read_value();
        symbol(A, NIL_ID);
        cons(B, R, A);
        symbol(A, QUOTE);
        cons(R, A, B);
    } else if (isdigit((unsigned char)*text)) {
        char *end;
        set(R, strtoull(text, &end, 10));
        text = end;
    } else {
        size_t length = strcspn(text, " \t\n()';");
        if (length == 0) fail("no value stands here");
        intern(text, length);
        text += length;
    }
}

/* ---- printing ---- */

/* prints what R holds */
static void print(void) {
    switch (kind(R)) {
    case NUMBER: printf("%" PRIu64, number(R)); break;
    case NIL: printf("()"); break;
    case SYMBOL: printf("%s", names[id_of(R)]); break;
    case PAIR:
        push(1);
        for (char before = '('; kind(R) == PAIR; before = ' ') {
            putchar(before);
            load(A, R, CDR);
            save(0, A);
            load(R, R, CAR);
            print();
            restore(R, 0);
        }
        if (kind(R) != NIL) {
            printf(" . ");
            print();
        }
        putchar(')');
        pop();
        break;
    default: printf("#function"); break;
    }
}

/* ---- evaluating ---- */

/* R, a symbol, becomes its value in ENV, or else what it was defined as */
static void look_up(void) {
    for (move(A, ENV); kind(A) == BINDING; load(A, A, NEXT_BINDING)) {
        load(B, A, BOUND);
        if (is_same(B, R)) {
            load(R, A, BOUND_TO);
            return;
        }
    }
    load(A, R, IS_DEFINED);
    if (number(A) == 0) fail(names[id_of(R)]);
    load(R, R, VALUE);
}

/* R becomes t or nil */
static void truth(bool is) { symbol(R, is ? T_ID : NIL_ID); }

static void part(uint32_t a, uint64_t field) {
    if (kind(a) != PAIR) fail("not a pair");
    load(R, a, field);
}

/* R becomes what the built-in function comes to, of A, and of B if it takes two */
static void call_built_in(uint64_t which) {
    switch (which) {
    case ADD: must(ael_add(&lisp, R, A, B)); break;
    case SUB: must(ael_sub(&lisp, R, A, B)); break;
    case MUL: must(ael_mul(&lisp, R, A, B)); break;
    case DIV: must(ael_div(&lisp, R, A, B)); break;
    case REM: must(ael_rem(&lisp, R, A, B)); break;
    case LESS: truth(number(A) < number(B)); break;
    case EQ: truth(is_same(A, B)); break;
    case CONS: cons(R, A, B); break;
    case CAR_OF: part(A, CAR); break;
    case CDR_OF: part(A, CDR); break;
    case IS_PAIR: truth(kind(A) == PAIR); break;
    default:
        move(R, A);
        print();
        putchar('\n');
    }
}

/* What a call of `eval` keeps in its frame: the form and its environment; the function; what is left of the arguments, and of a function's
 * parameters; and the environment that is made for its body, or the first argument of a built-in one. */
enum { FORM, FORM_ENV, CALLED, REST, PARAMETERS_LEFT, NEW_ENV, FIRST_ARGUMENT = NEW_ENV, EVAL_LOCALS };

static void eval(void);

/* R becomes the value of the next argument, in the form's environment */
static void next_argument(void) {
    restore(A, REST);
    if (kind(A) != PAIR) fail("too few arguments");
    load(R, A, CAR);
    load(A, A, CDR);
    save(REST, A);
    restore(ENV, FORM_ENV);
    eval();
}

static void apply_built_in(void) {
    restore(A, CALLED);
    load(A, A, WHICH);
    uint64_t which = number(A);
    next_argument();
    save(FIRST_ARGUMENT, R);
    if (which <= CONS) {
        next_argument();
        move(B, R);
    }
    restore(A, FIRST_ARGUMENT);
    call_built_in(which);
}

/* R and ENV become the body of the function, and the environment for it, in which its parameters are bound to the arguments. */
static void enter(void) {
    restore(A, CALLED);
    if (kind(A) != FUNCTION) fail("not a function");
    load(B, A, PARAMETERS);
    save(PARAMETERS_LEFT, B);
    load(B, A, ENVIRONMENT);
    save(NEW_ENV, B);
    for (restore(A, PARAMETERS_LEFT); kind(A) == PAIR; restore(A, PARAMETERS_LEFT)) {
        next_argument();
        make(A, BINDING, BINDING_LENGTH);
        store(A, BOUND_TO, R);
        restore(B, PARAMETERS_LEFT);
        load(C, B, CAR);
        store(A, BOUND, C);
        load(B, B, CDR);
        save(PARAMETERS_LEFT, B);
        restore(B, NEW_ENV);
        store(A, NEXT_BINDING, B);
        save(NEW_ENV, A);
    }
    restore(ENV, NEW_ENV);
    restore(A, CALLED);
    load(R, A, BODY);
}

/* R becomes part i of the form, which is part 0 itself */
static void part_of_form(unsigned i) {
    for (restore(R, FORM); i > 0; i--) part(R, CDR);
    part(R, CAR);
}

/* R becomes a function of the form's parameters and body, with the form's environment */
static void make_function(void) {
    make(B, FUNCTION, FUNCTION_LENGTH);
    part_of_form(1);
    store(B, PARAMETERS, R);
    part_of_form(2);
    store(B, BODY, R);
    restore(A, FORM_ENV);
    store(B, ENVIRONMENT, A);
    move(R, B);
}

/* Evaluates all parts of `begin` but the last, which R becomes. */
static void begin(void) {
    restore(A, FORM);
    load(A, A, CDR);
    save(REST, A);
    for (part(A, CDR); kind(R) != NIL; part(A, CDR)) {
        next_argument();
        restore(A, REST);
    }
    part(A, CAR);
    restore(ENV, FORM_ENV);
}

/* Evaluates a form of the interpreter's own. Whether R is then to be evaluated in its place, rather than its value. */
static bool eval_form(uint64_t id) {
    switch (id) {
    case QUOTE: part_of_form(1); return false;
    case LAMBDA: make_function(); return false;
    case BEGIN: begin(); return true;
    case IF:
        part_of_form(1);
        restore(ENV, FORM_ENV);
        eval();
        part_of_form(kind(R) == NIL ? 3 : 2);
        restore(ENV, FORM_ENV);
        return true;
    default:
        part_of_form(2);
        restore(ENV, FORM_ENV);
        eval();
        move(A, R);
        part_of_form(1);
        define(R, A);
        return false;
    }
}

/* Evaluates the form in R, whose first part is a function. Whether R, a function's body, is then to be evaluated in its place. */
static bool apply(void) {
    part(R, CAR);
    eval();
    save(CALLED, R);
    restore(A, FORM);
    load(A, A, CDR);
    save(REST, A);
    restore(A, CALLED);
    if (kind(A) == BUILT_IN) {
        apply_built_in();
        return false;
    }
    enter();
    return true;
}

/* R becomes its value in ENV. A body takes the place of the form that it is called by, so a call at its end needs no frame. */
static void eval(void) {
    if (kind(R) == SYMBOL) look_up();
    else if (kind(R) == PAIR) {
        push(EVAL_LOCALS);
        bool goes_on = true;
        while (goes_on && kind(R) == PAIR) {
            save(FORM, R);
            save(FORM_ENV, ENV);
            load(A, R, CAR);
            uint64_t id = kind(A) == SYMBOL ? id_of(A) : KNOWN;
            goes_on = QUOTE <= id && id <= BEGIN ? eval_form(id) : apply();
        }
        pop();
        if (goes_on && kind(R) == SYMBOL) look_up();
    }
}

/* ---- the program ---- */

static const char *program =
    "(define fib (lambda (n) (if (< n 2) n (+ (fib (- n 1)) (fib (- n 2))))))\n"
    "(define range (lambda (from to) (if (< from to) (cons from (range (+ from 1) to)) nil)))\n"
    "(define map (lambda (f xs) (if (pair? xs) (cons (f (car xs)) (map f (cdr xs))) nil)))\n"
    "(define keep (lambda (f xs) (if (pair? xs) (if (f (car xs)) (cons (car xs) (keep f (cdr xs))) (keep f (cdr xs))) nil)))\n"
    "(define fold (lambda (f x xs) (if (pair? xs) (fold f (f x (car xs)) (cdr xs)) x)))\n"
    "(define append (lambda (xs ys) (if (pair? xs) (cons (car xs) (append (cdr xs) ys)) ys)))\n"
    "(define sort (lambda (xs) (if (pair? xs)\n"
    "    (append (sort (keep (lambda (x) (< x (car xs))) (cdr xs)))\n"
    "            (cons (car xs) (sort (keep (lambda (x) (if (< x (car xs)) nil t)) (cdr xs)))))\n"
    "    nil)))\n"
    "(define sieve (lambda (xs) (if (pair? xs)\n"
    "    (cons (car xs) (sieve (keep (lambda (x) (if (= 0 (% x (car xs))) nil t)) (cdr xs))))\n"
    "    nil)))\n"
    "(define times (lambda (n f) (if (= n 0) nil (begin (f n) (times (- n 1) f)))))\n"
    "(define compose (lambda (f g) (lambda (x) (f (g x)))))\n"
    "(print (fib 13))\n"
    "(print (map (lambda (x) (* x x)) (range 1 11)))\n"
    "(print (fold + 0 (range 0 40)))\n"
    "(print (sort (map (lambda (x) (% (* x 37) 41)) (range 0 20))))\n"
    "(print (sieve (range 2 60)))\n"
    "(print ((compose (lambda (x) (+ x 1)) (lambda (x) (* x 2))) 20))\n"
    "(print '(a (b nil) 3))\n"
    "; a call at the end of a body needs no frame, so this loop may run as long as it likes\n"
    "(define last nil)\n"
    "(times 50 (lambda (n) (define last (sort (range n (+ n 8))))))\n"
    "(print last)\n";

static void run(const char *from) {
    text = from;
    for (skip_space(); *text; skip_space()) {
        read_value();
        set(ENV, 0);
        eval();
    }
}

int main(void) {
    must(ael_open(PAGES, PAGES, &lisp, 1, NULL, 0));
    make_symbols();
    run(program);
    uint64_t records;
    uint32_t epoch;
    must(ael_tell(&lisp, &records, &epoch));
    ael_leave_now(&lisp);
    must(ael_free(&lisp));
    printf("records %" PRIu64 ", words %" PRIu64 "\n", records, words_made);
    printf("more than a hundred spaces: %s\n", words_made > 100 * PAGES * PAGE_WORDS && epoch >= 100 ? "yes" : "no");
    return 0;
}
