/* An accepted BPT1 file as bit masks, shared by the planners that ours is measured against. A state is a word in which bit k of the
   diagrams' numbering is worth 2^k; a cube is the bits it cares for and their values. */
#ifndef BENCH_TASK_H
#define BENCH_TASK_H

#include <stdint.h>
#include <stdio.h>
#include <stdlib.h>
#include <time.h>

enum { FILE_MOST = 16384, OPERATORS_MOST = 256, TERMS_MOST = 256, VARIABLES_MOST = 32, VALUES_MOST = 16, BOUND_MOST = 4095,
       PAIRS_MOST = 1048576 };

typedef struct { uint64_t care, value; } Cube;
typedef struct { unsigned cost; Cube pre, eff; } Operator;
typedef struct { unsigned weight; Cube facts; } Term;
typedef struct { unsigned values, first, width; } Variable; /* how many values, the first bit and the number of bits */

typedef struct {
    unsigned variables, bits, operators, terms, bound;
    uint64_t start;
    Variable variable[VARIABLES_MOST];
    Operator operator[OPERATORS_MOST];
    Term term[TERMS_MOST];
} Task;

static inline void fail(const char *message) {
    fprintf(stderr, "%s\n", message);
    exit(2);
}

static inline unsigned number_at(const unsigned char *file, unsigned at, unsigned width) {
    unsigned out = 0;
    for (unsigned k = 0; k < width; k++) out |= (unsigned)file[at + k] << (8 * k);
    return out;
}

static inline void demand(Cube *cube, const Variable *variable, unsigned val) {
    for (unsigned k = 0; k < variable->width; k++) {
        uint64_t bit = 1ull << (variable->first + k);
        cube->care |= bit;
        if (val >> (variable->width - 1 - k) & 1) cube->value |= bit;
    }
}

static inline Cube cube_of(const Variable *variables, const unsigned char *facts, unsigned count) {
    Cube cube = {0, 0};
    for (unsigned k = 0; k < count; k++) demand(&cube, &variables[facts[2 * k]], facts[2 * k + 1]);
    return cube;
}

/* Reads the bytes of a task file; returns their number. */
static inline size_t read_file(const char *name, unsigned char *file) {
    FILE *in = fopen(name, "rb");
    if (!in) fail("the task file cannot be read");
    size_t length = fread(file, 1, FILE_MOST, in);
    fclose(in);
    if (length < 28) fail("the task file is too short");
    return length;
}

/* The masks of an accepted file. */
static inline void read_task(Task *task, const char *name) {
    static unsigned char file[FILE_MOST];
    read_file(name, file);
    unsigned at = number_at(file, 12, 4);
    Cube start = {0, 0};
    *task = (Task){.variables = number_at(file, 4, 2), .operators = number_at(file, 6, 2), .terms = number_at(file, 8, 2),
                   .bound = number_at(file, 10, 2)};
    for (unsigned v = 0; v < task->variables; v++) {
        unsigned width = 1;
        while (1u << width < file[at + 2 * v]) width++;
        task->variable[v] = (Variable){file[at + 2 * v], task->bits, width};
        task->bits += width;
        demand(&start, &task->variable[v], file[at + 2 * v + 1]);
    }
    task->start = start.value;
    for (unsigned o = 0; o < task->operators; o++) {
        const unsigned char *record = file + number_at(file, 16, 4) + 36 * o;
        task->operator[o] = (Operator){number_at(record, 0, 2), cube_of(task->variable, record + 4, record[2]),
                                       cube_of(task->variable, record + 20, record[3])};
    }
    for (unsigned t = 0; t < task->terms; t++) {
        const unsigned char *record = file + number_at(file, 20, 4) + 12 * t;
        task->term[t] = (Term){number_at(record, 0, 2), cube_of(task->variable, record + 4, record[2])};
    }
}

static inline int meets(uint64_t state, Cube cube) { return (state & cube.care) == cube.value; }

static inline uint64_t put(uint64_t state, Cube cube) { return (state & ~cube.care) | cube.value; }

/* A pair of cost and steps as one number, in the order of the pairs; an operator's own cost and its one step add to it. */
static inline uint64_t place(unsigned cost, unsigned steps) { return (uint64_t)cost << 32 | steps; }

static inline unsigned cost_at(uint64_t at) { return (unsigned)(at >> 32); }

static inline uint64_t rise(const Operator *op) { return place(op->cost, 1); }

static inline double seconds(void) {
    struct timespec now;
    clock_gettime(CLOCK_MONOTONIC, &now);
    return now.tv_sec + now.tv_nsec * 1e-9;
}

/* The line that every planner prints: what it found, the non-empty pairs, how many nodes or states it made, how long the search alone took,
   and the plan. What else a planner tells, such as the ceiling, it prints before, as a word and a number each. */
static inline void report(unsigned long utility, unsigned long cost, unsigned long pairs, unsigned long made, double time,
                          const uint16_t *plan, unsigned steps) {
    printf("utility %lu cost %lu steps %u pairs %lu made %lu seconds %.6f plan", utility, cost, steps, pairs, made, time);
    for (unsigned k = 0; k < steps; k++) printf(" %u", plan[k]);
    printf("\n");
}

#endif
