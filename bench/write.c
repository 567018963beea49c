/* The writer, timed: microseconds of laurelsnap_write on a file with the most records, its sections in reverse order, of the file check
   alone, which is a part of it, and of memcpy of the bytes written. The least of many turns counts. */
#include "laurelsnap.h"
#include "task.h"
#include <string.h>

enum { TURNS = 2000, CALLS = 20 };

static unsigned char file[FILE_MOST], out[FILE_MOST], copy[FILE_MOST];

static void store(unsigned at, unsigned width, unsigned x) {
    for (unsigned k = 0; k < width; k++) file[at + k] = (unsigned char)(x >> (8 * k));
}

static void store_facts(unsigned at, unsigned count, unsigned from) {
    for (unsigned k = 0; k < count; k++) file[at + 2 * k] = (unsigned char)(from + k);
}

/* 32 variables of two values, and as many operators and terms as there can be, with all their places used. */
static void make(void) {
    const unsigned terms_at = 28, operators_at = terms_at + 12 * TERMS_MOST, variables_at = operators_at + 36 * OPERATORS_MOST;
    const unsigned counts[] = {VARIABLES_MOST, OPERATORS_MOST, TERMS_MOST, BOUND_MOST};
    const unsigned places[] = {variables_at, operators_at, terms_at, FILE_MOST};
    memcpy(file, "BPT1", 4);
    for (unsigned k = 0; k < 4; k++) {
        store(4 + 2 * k, 2, counts[k]);
        store(12 + 4 * k, 4, places[k]);
    }
    for (unsigned v = 0; v < VARIABLES_MOST; v++) store(variables_at + 2 * v, 2, 2);
    for (unsigned o = 0; o < OPERATORS_MOST; o++) {
        unsigned at = operators_at + 36 * o;
        store(at, 4, 1 + o + (8 << 16) + (8 << 24));
        store_facts(at + 4, 8, o % 24);
        store_facts(at + 20, 8, o % 24);
    }
    for (unsigned t = 0; t < TERMS_MOST; t++) {
        unsigned at = terms_at + 12 * t;
        store(at, 4, t + (4 << 16));
        store_facts(at + 4, 4, t % 28);
    }
}

static size_t written;

static void call_write(void) { written = laurelsnap_length(laurelsnap_write(file, sizeof file, out, sizeof out)); }
static void call_check(void) { laurelsnap_check(file, sizeof file); }
static void call_copy(void) {
    memcpy(copy, out, written);
    __asm__ volatile("" : : "r"(copy) : "memory"); /* so that the copy is made */
}

static void turn(void (*call)(void), double *least) {
    double begin = seconds();
    for (int k = 0; k < CALLS; k++) call();
    double time = 1e6 * (seconds() - begin) / CALLS;
    if (time < *least) *least = time;
}

int main(void) {
    make();
    if (!laurelsnap_ok(laurelsnap_check(file, sizeof file))) fail("the file is refused");
    double write = 1e9, check = 1e9, plain = 1e9;
    for (int k = 0; k < TURNS; k++) {
        turn(call_write, &write);
        turn(call_check, &check);
        turn(call_copy, &plain);
    }
    printf("%zu bytes written: %.2f us, the check alone %.2f us, memcpy %.2f us\n", written, write, check, plain);
    return 0;
}
