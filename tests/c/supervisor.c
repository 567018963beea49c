/*
 * The static library as the bench supervisor calls it: the stand cases of the file check and the walk, searches in lists that are just long
 * enough, too short and of the greatest lengths, questions, searches that stop at the ceiling, a plan of thousands of free steps, states
 * listed in lists of all these lengths, cases of the writer, then many made-up files and plans, compared with a plain check, walk and writer
 * written here from the documents, and with each other where two engines answer.
 */
#include "laurelsnap.h"

#include <stdio.h>
#include <stdlib.h>
#include <string.h>

enum { MOST_BYTES = 20000, MOST_STEPS = 5000 };

typedef struct laurelsnap_answer Answer;

static unsigned long compared;
static unsigned long faults;

static void same(const char *what, Answer got, uint64_t number, uint64_t first, uint64_t second)
{
    compared++;
    if (got.number == number && got.first == first && got.second == second)
        return;
    faults++;
    printf("%s: %llu %llu %llu in place of %llu %llu %llu\n", what, (unsigned long long)got.number, (unsigned long long)got.first,
        (unsigned long long)got.second, (unsigned long long)number, (unsigned long long)first, (unsigned long long)second);
}

static void same_bytes(const char *what, const uint8_t *got, const uint8_t *expected, size_t count)
{
    compared++;
    if (memcmp(got, expected, count) == 0)
        return;
    faults++;
    printf("%s: other bytes than expected\n", what);
}

/* ---- the plain check, walk and writer */

static size_t le16(const uint8_t *at) { return (size_t)at[0] + 256u * (size_t)at[1]; }
static size_t le32(const uint8_t *at) { return le16(at) + 65536u * le16(at + 2); }

static void store(uint8_t *at, size_t bytes, size_t x)
{
    for (size_t k = 0; k < bytes; k++, x /= 256)
        at[k] = (uint8_t)(x % 256);
}

typedef struct {
    size_t variables, operators, terms, bound;
    const uint8_t *variable, *operator_, *term;
} Task;

static Answer answer(uint64_t number, uint64_t first, uint64_t second)
{
    Answer a = { number, first, second };
    return a;
}

static int row_right(const Task *t, const uint8_t *row, size_t used, size_t places)
{
    for (size_t k = 0; k < places; k++) {
        unsigned variable = row[2 * k], value = row[2 * k + 1];
        if (k >= used) {
            if (variable != 0 || value != 0)
                return 0;
        } else if (variable >= t->variables || value >= t->variable[2 * variable] || (k > 0 && variable <= row[2 * k - 2])) {
            return 0;
        }
    }
    return 1;
}

static unsigned bits_of(unsigned values) { return values <= 2 ? 1 : values <= 4 ? 2 : values <= 8 ? 3 : 4; }

static int overlap(size_t a, size_t m, size_t b, size_t n) { return m > 0 && n > 0 && a < b + n && b < a + m; }

static Answer plain_check(const uint8_t *file, size_t length, Task *t)
{
    if (length < 28)
        return answer(1, 0, 0);
    if (length > 16384)
        return answer(2, 0, 0);
    if (memcmp(file, "BPT1", 4) != 0)
        return answer(3, 0, 0);
    if (le32(file + 24) != length)
        return answer(4, 0, 0);
    t->variables = le16(file + 4);
    t->operators = le16(file + 6);
    t->terms = le16(file + 8);
    t->bound = le16(file + 10);
    if (t->variables < 1 || t->variables > 32 || t->operators > 256 || t->terms > 256 || t->bound > 4095)
        return answer(5, 0, 0);
    size_t at[3] = { le32(file + 12), le32(file + 16), le32(file + 20) };
    size_t bytes[3] = { 2 * t->variables, 36 * t->operators, 12 * t->terms };
    for (int i = 0; i < 3; i++)
        if (at[i] < 28 || at[i] + bytes[i] > length)
            return answer(6, 0, 0);
    for (int i = 0; i < 3; i++)
        for (int j = 0; j < i; j++)
            if (overlap(at[i], bytes[i], at[j], bytes[j]))
                return answer(6, 0, 0);
    t->variable = file + at[0];
    t->operator_ = file + at[1];
    t->term = file + at[2];
    size_t bits = 0;
    for (size_t v = 0; v < t->variables; v++) {
        unsigned values = t->variable[2 * v];
        if (values < 2 || values > 16 || t->variable[2 * v + 1] >= values)
            return answer(7, v, 0);
        bits += bits_of(values);
    }
    if (bits > 48)
        return answer(8, 0, 0);
    for (size_t o = 0; o < t->operators; o++) {
        const uint8_t *r = t->operator_ + 36 * o;
        if (le16(r) > 4095 || r[2] > 8 || r[3] > 8 || !row_right(t, r + 4, r[2], 8) || !row_right(t, r + 20, r[3], 8))
            return answer(9, o, 0);
    }
    for (size_t n = 0; n < t->terms; n++) {
        const uint8_t *r = t->term + 12 * n;
        if (r[2] > 4 || r[3] != 0 || !row_right(t, r + 4, r[2], 4))
            return answer(10, n, 0);
    }
    return answer(0, 0, 0);
}

static int holds(const uint8_t *state, const uint8_t *row, size_t used)
{
    for (size_t k = 0; k < used; k++)
        if (state[row[2 * k]] != row[2 * k + 1])
            return 0;
    return 1;
}

static Answer plain_walk(const uint8_t *file, size_t length, const uint8_t *plan, size_t plan_length)
{
    Task t;
    Answer a = plain_check(file, length, &t);
    if (a.number != 0)
        return a;
    if (plan_length % 2 != 0)
        return answer(16, 0, 0);
    uint8_t state[32];
    for (size_t v = 0; v < t.variables; v++)
        state[v] = t.variable[2 * v + 1];
    size_t cost = 0;
    for (size_t i = 0; i < plan_length / 2; i++) {
        size_t o = le16(plan + 2 * i);
        if (o >= t.operators)
            return answer(17, i, 0);
        const uint8_t *r = t.operator_ + 36 * o;
        if (!holds(state, r + 4, r[2]))
            return answer(18, i, 0);
        cost += le16(r);
        if (cost > t.bound)
            return answer(19, i, 0);
        for (size_t k = 0; k < r[3]; k++)
            state[r[20 + 2 * k]] = r[20 + 2 * k + 1];
    }
    size_t utility = 0;
    for (size_t n = 0; n < t.terms; n++)
        if (holds(state, t.term + 12 * n + 4, t.term[12 * n + 2]))
            utility += le16(t.term + 12 * n);
    return answer(0, cost, utility);
}

static Answer plain_write(const uint8_t *file, size_t length, uint8_t *out, size_t out_length)
{
    Task t;
    Answer a = plain_check(file, length, &t);
    if (a.number != 0)
        return a;
    const uint8_t *section[3] = { t.variable, t.operator_, t.term };
    size_t bytes[3] = { 2 * t.variables, 36 * t.operators, 12 * t.terms };
    if (out_length < 28 + bytes[0] + bytes[1] + bytes[2])
        return answer(22, 0, 0);
    memcpy(out, file, 12);
    size_t at = 28;
    for (int i = 0; i < 3; i++) {
        store(out + 12 + 4 * i, 4, at);
        memcpy(out + at, section[i], bytes[i]);
        at += bytes[i];
    }
    store(out + 24, 4, at);
    return answer(0, at, 0);
}

/* ---- files made in memory: header, variables, operators, terms, one behind the other */

static uint8_t file[MOST_BYTES];
static size_t length;

static void put16(size_t at, size_t x) { store(file + at, 2, x); }
static void put32(size_t at, size_t x) { store(file + at, 4, x); }

static size_t operator_at(size_t o) { return le32(file + 16) + 36 * o; }
static size_t term_at(size_t n) { return le32(file + 20) + 12 * n; }

static void make(size_t variables, size_t operators, size_t terms, size_t bound)
{
    length = 28 + 2 * variables + 36 * operators + 12 * terms;
    memset(file, 0, sizeof file);
    memcpy(file, "BPT1", 4);
    put16(4, variables);
    put16(6, operators);
    put16(8, terms);
    put16(10, bound);
    put32(12, 28);
    put32(16, 28 + 2 * variables);
    put32(20, 28 + 2 * variables + 36 * operators);
    put32(24, length);
    for (size_t v = 0; v < variables; v++)
        file[28 + 2 * v] = 2;
    for (size_t o = 0; o < operators; o++)
        put16(operator_at(o), 1);
}

static void fact(size_t at, unsigned variable, unsigned value)
{
    file[at] = (uint8_t)variable;
    file[at + 1] = (uint8_t)value;
}

static void pre(size_t o, unsigned variable, unsigned value) { fact(operator_at(o) + 4 + 2u * file[operator_at(o) + 2]++, variable, value); }
static void eff(size_t o, unsigned variable, unsigned value) { fact(operator_at(o) + 20 + 2u * file[operator_at(o) + 3]++, variable, value); }
static void asks(size_t n, unsigned variable, unsigned value) { fact(term_at(n) + 4 + 2u * file[term_at(n) + 2]++, variable, value); }

static void make_P(size_t bound)
{
    make(2, 3, 2, bound);
    for (size_t o = 0; o < 3; o++) {
        pre(o, 0, o == 2);
        pre(o, 1, 0);
    }
    eff(0, 1, 1);
    eff(1, 0, 1);
    eff(2, 1, 1);
    put16(term_at(0), 2);
    asks(0, 0, 1);
    put16(term_at(1), 1);
    asks(1, 0, 1);
    asks(1, 1, 1);
}

static void make_Q(size_t bound)
{
    static const unsigned moves[4][3] = { { 0, 2, 5 }, { 0, 1, 2 }, { 1, 2, 2 }, { 0, 2, 4 } };
    make(1, 4, 1, bound);
    file[28] = 3;
    for (size_t o = 0; o < 4; o++) {
        pre(o, 0, moves[o][0]);
        eff(o, 0, moves[o][1]);
        put16(operator_at(o), moves[o][2]);
    }
    put16(term_at(0), 7);
    asks(0, 0, 2);
}

/* ---- the stand cases */

static void walks(const char *what, const char *plan, size_t plan_length, uint64_t number, uint64_t first, uint64_t second)
{
    same(what, laurelsnap_walk(file, length, (const uint8_t *)plan, plan_length), number, first, second);
}

static void checks(const char *what, uint64_t number, uint64_t first)
{
    same(what, laurelsnap_check(file, length), number, first, 0);
}

static void stand_cases(void)
{
    make_P(2);
    checks("P", 0, 0);
    walks("P 2, walk 1 2", "\1\0\2\0", 4, 0, 2, 3);
    walks("P 2, walk 1 1", "\1\0\1\0", 4, 18, 1, 0);
    walks("P 2, walk 3", "\3\0", 2, 17, 0, 0);
    walks("P 2, odd plan", "\3", 1, 16, 0, 0);
    walks("P 2, empty plan", "", 0, 0, 0, 0);
    make_P(1);
    walks("P 1, walk 1 2", "\1\0\2\0", 4, 19, 1, 0);
    make_Q(5);
    walks("Q 5, walk 1 2", "\1\0\2\0", 4, 0, 4, 7);
    make_Q(4);
    walks("Q 4, walk 0", "\0\0", 2, 19, 0, 0);
    make(1, 0, 0, 0);
    file[28] = 16;
    checks("16 values", 0, 0);
    file[28] = 17;
    checks("17 values", 7, 0);
    make(1, 1, 0, 0);
    put16(operator_at(0), 0);
    checks("cost 0", 0, 0);
    put16(operator_at(0), 4096);
    checks("cost 4,096", 9, 0);
    make(12, 0, 0, 0);
    for (size_t v = 0; v < 12; v++)
        file[28 + 2 * v] = 16;
    checks("48 bits", 0, 0);
    make(13, 0, 0, 0);
    for (size_t v = 0; v < 12; v++)
        file[28 + 2 * v] = 16;
    checks("49 bits", 8, 0);
    make(1, 0, 0, 0);
    length = 16384;
    put32(24, length);
    checks("16,384 bytes", 0, 0);
    length = 16385;
    put32(24, length);
    checks("16,385 bytes", 2, 0);
    static const uint8_t nothing[1];
    same("no bytes", laurelsnap_check(nothing, 0), 1, 0, 0);
    make(1, 1, 0, 4095);
    eff(0, 0, 1);
    static uint8_t zeros[2 * MOST_STEPS];
    same("5,000 steps", laurelsnap_walk(file, length, zeros, sizeof zeros), 19, 4095, 0);
}

/* ---- random numbers */

static uint64_t seed = 1;

static size_t below(size_t n)
{
    seed = seed * 6364136223846793005u + 1442695040888963407u;
    return (size_t)(seed >> 33) % n;
}

/* ---- searches */

/* The lists of a search, two numbers longer than lists may be, and the lengths lent: lists of pairs, node lists, utility lists, plan. */
enum { LONGEST = 1048576 };
enum { COSTS, STEPS, SETS, WANTED, BIT, LOW, HIGH, UTILITY_BIT, UTILITY_LOW, UTILITY_HIGH, LISTS };
static uint32_t lists[LISTS][LONGEST + 2], working[3][256];
static uint16_t plan[8192];

struct lengths {
    size_t pairs, nodes, entries, steps;
};

/* The search over the file with these lists, of which one is longer by a number (none of them if it is LISTS). */
static struct laurelsnap_found found_with(struct lengths lent, int longer)
{
    size_t l[LISTS];
    for (int i = 0; i < LISTS; i++)
        l[i] = (i < BIT ? lent.pairs : i < UTILITY_BIT ? lent.nodes : lent.entries) + (i == longer);
    return laurelsnap_search(file, length, lists[COSTS], l[COSTS], lists[STEPS], l[STEPS], lists[SETS], l[SETS], lists[WANTED], l[WANTED],
        lists[BIT], l[BIT], lists[LOW], l[LOW], lists[HIGH], l[HIGH], lists[UTILITY_BIT], l[UTILITY_BIT], lists[UTILITY_LOW],
        l[UTILITY_LOW], lists[UTILITY_HIGH], l[UTILITY_HIGH], working[0], 256, working[1], 256, working[2], 256, plan, lent.steps);
}

/* The lists of the engine that lists states, as long, the lengths lent, and the noise that stands at their fronts before each call. */
static struct {
    uint64_t states[LONGEST + 2];
    uint32_t costs[LONGEST + 2], steps[LONGEST + 2], heads[LONGEST + 2], links[LONGEST + 2];
} listing;

struct state_lengths {
    size_t states, costs, steps, heads, links, plan;
};

enum { FRONT = 6000 };
static struct {
    uint64_t states[FRONT];
    uint32_t costs[FRONT], steps[FRONT], heads[FRONT], links[FRONT];
    uint16_t plan[FRONT];
} noise;

static void make_noise(void)
{
    for (size_t k = 0; k < sizeof noise; k++)
        ((uint8_t *)&noise)[k] = (uint8_t)below(256);
}

/* The lists for so many states and steps, the working lists as long as the header says. */
static struct state_lengths room_for(size_t states, size_t steps)
{
    return (struct state_lengths) { states, states, states, states, states, steps };
}

/* The states of the file listed in lists of these lengths. */
static struct laurelsnap_listed listed_with(struct state_lengths lent)
{
    memcpy(listing.states, noise.states, sizeof noise.states);
    memcpy(listing.costs, noise.costs, sizeof noise.costs);
    memcpy(listing.steps, noise.steps, sizeof noise.steps);
    memcpy(listing.heads, noise.heads, sizeof noise.heads);
    memcpy(listing.links, noise.links, sizeof noise.links);
    memcpy(plan, noise.plan, sizeof noise.plan);
    return laurelsnap_states(file, length, listing.states, lent.states, listing.costs, lent.costs, listing.steps, lent.steps,
        listing.heads, lent.heads, listing.links, lent.links, plan, lent.plan);
}

/* P with the bound 1: number, pairs and steps, and the time 0 1 0, or nothing but zeros after a refusal. */
static void searches(const char *what, size_t pairs, size_t nodes, size_t entries, size_t steps, uint64_t number)
{
    struct laurelsnap_found found = found_with((struct lengths) { pairs, nodes, entries, steps }, LISTS);
    same(what, answer(found.number, found.pairs, found.steps), number, number == 0 ? 2 : 0, number == 0);
    same(what, answer(found.minutes, found.units, found.unused), 0, number == 0, 0);
    same(what, answer(found.value, found.utility, found.ceiling), 0, number == 0 ? 2 : 0, number == 0 ? 3 : 0);
}

/* 12 before 13, which comes before 14 and 23; of these 14 first within a pair: 2 nodes for the starting state, 8 for all sets. */
static void list_lengths(void)
{
    make_P(1);
    searches("lists that are just long enough", 2, 8, 6, 1, 0);
    searches("5 utility entries", 0, 0, 5, 0, 13);
    searches("7 node entries", 2, 7, 6, 0, 14);
    searches("1 pair", 1, 8, 6, 0, 23);
    searches("1 pair and 7 node entries", 1, 7, 6, 0, 14);
    searches("no pair", 0, 2, 6, 0, 23);
    searches("no pair and 1 node entry", 0, 1, 6, 0, 14);
    searches("no step", 2, 8, 6, 0, 15);
    searches("the longest lists", LONGEST, LONGEST, LONGEST, 8192, 0);
    searches("too many pairs", LONGEST + 1, 8, 6, 1, 12);
    searches("too many node entries", 2, LONGEST + 1, 6, 1, 12);
    searches("too many utility entries", 2, 8, LONGEST + 1, 1, 12);
    for (int list = 0; list < LISTS; list++) {
        struct laurelsnap_found found = found_with((struct lengths) { 0, 0, 0, 0 }, list);
        same("a list that is longer than its fellows", answer(found.number, found.value, found.steps), 12, 0, 0);
        found = found_with((struct lengths) { LONGEST, LONGEST, LONGEST, 1 }, list);
        same("a list that is longer than the longest", answer(found.number, found.value, found.steps), 12, 0, 0);
    }
    for (size_t bound = 4; bound <= 5; bound++) {
        make_Q(bound);
        struct laurelsnap_found found = found_with((struct lengths) { 8, 64, 16, 2 }, LISTS);
        same("Q, the plan", answer(found.steps, plan[0], found.cost), 1, 3, 4);
    }
}

/* Where a state stands: the answer's number, cost and steps, and that it is reached; or that it is not, with zeros. */
static void stands(const char *what, struct laurelsnap_place place, uint64_t number, uint64_t reached, uint64_t cost, uint64_t steps)
{
    same(what, answer(place.number, place.value, place.reached), number, 0, reached);
    same(what, answer(0, place.cost, place.steps), 0, cost, steps);
}

/* The question over the lists, of which one is longer by a number, about a state. */
static struct laurelsnap_place asked(const uint8_t *state, struct lengths lent, int longer)
{
    size_t l[UTILITY_BIT];
    for (int i = 0; i < UTILITY_BIT; i++)
        l[i] = (i < BIT ? 8 : 16) + (i == longer);
    return laurelsnap_question(file, length, state, le16(file + 4), lists[COSTS], l[COSTS], lists[STEPS], l[STEPS], lists[SETS], l[SETS],
        lists[WANTED], l[WANTED], lists[BIT], l[BIT], lists[LOW], l[LOW], lists[HIGH], l[HIGH], lent.nodes, lent.pairs);
}

static void questions(void)
{
    static const uint8_t start[2] = { 0, 0 }, moved[2] = { 1, 0 }, both[2] = { 1, 1 }, none[2] = { 2, 0 };
    make_P(1);
    struct laurelsnap_found found = found_with((struct lengths) { 8, 16, 16, 8 }, LISTS);
    struct lengths left = { found.pairs, found.nodes, 0, 0 };
    stands("the start", asked(start, left, LISTS), 0, 1, 0, 0);
    stands("a state at cost 1", asked(moved, left, LISTS), 0, 1, 1, 1);
    stands("a state beyond the bound", asked(both, left, LISTS), 0, 0, 0, 0);
    stands("no state", asked(none, left, LISTS), 20, 0, 0, 0);
    stands("no pairs", asked(start, (struct lengths) { 0, found.nodes, 0, 0 }, LISTS), 0, 0, 0, 0);
    stands("one pair", asked(moved, (struct lengths) { 1, found.nodes, 0, 0 }, LISTS), 0, 0, 0, 0);
    stands("9 pairs of 8", asked(start, (struct lengths) { 9, found.nodes, 0, 0 }, LISTS), 21, 0, 0, 0);
    stands("17 nodes of 16", asked(start, (struct lengths) { found.pairs, 17, 0, 0 }, LISTS), 21, 0, 0, 0);
    for (int list = 0; list < UTILITY_BIT; list++)
        stands("a list that is longer than its fellows", asked(none, left, list), 12, 0, 0, 0);
    lists[WANTED][0] = lists[WANTED][1] = UINT32_MAX;
    stands("a wanted name that is none", asked(moved, left, LISTS), 0, 1, 1, 1);
    lists[COSTS][1] = 77;
    lists[STEPS][1] = UINT32_MAX;
    stands("cost and steps as they are listed", asked(moved, left, LISTS), 0, 1, 77, UINT32_MAX);
    lists[SETS][1] = (uint32_t)found.nodes + 2;
    stands("a set's name that is none", asked(start, left, LISTS), 21, 0, 0, 0);
    stands("a set's name that is none, past the pairs", asked(start, (struct lengths) { 1, found.nodes, 0, 0 }, LISTS), 0, 1, 0, 0);
}

/* Three values with a move from each to the next, and their weights: the ceiling is the greatest weight and not the sum, and no pair is made
   after the first that attains it. Lists for these pairs are long enough, one entry less is not, and what is past them is not reached. */
static void stops(const char *what, const size_t *weights, size_t bound, uint64_t utility, uint64_t ceiling, uint64_t steps, uint64_t pairs)
{
    make(1, 2, 3, bound);
    file[28] = 3;
    for (unsigned x = 0; x < 3; x++) {
        if (x < 2) {
            pre(x, 0, x);
            eff(x, 0, x + 1);
        }
        put16(term_at(x), weights[x]);
        asks(x, 0, x);
    }
    struct laurelsnap_found found = found_with((struct lengths) { pairs - 1, 16, 16, 2 }, LISTS);
    same(what, answer(found.number, found.pairs, found.ceiling), 23, 0, 0);
    found = found_with((struct lengths) { pairs, 16, 16, 2 }, LISTS);
    same(what, answer(found.utility, found.ceiling, found.steps), utility, ceiling, steps);
    same(what, answer(found.number, found.pairs, found.cost), 0, pairs, steps);
    for (uint8_t x = 0; x < 3; x++) {
        uint64_t made = x < pairs;
        stands(what, asked(&x, (struct lengths) { found.pairs, found.nodes, 0, 0 }, LISTS), 0, made, made * x, made * x);
    }
    struct laurelsnap_listed listed = listed_with(room_for(bound + 1, steps)); /* which does not stop */
    same(what, answer(listed.number, listed.states, listed.utility), 0, bound + 1, utility);
    same(what, answer(listed.steps, listed.cost, listed.bound), steps, steps, bound);
}

static void ceilings(void)
{
    stops("a ceiling that the start attains", (const size_t[]) { 5, 3, 2 }, 2, 5, 5, 0, 1);
    stops("weights of 0", (const size_t[]) { 0, 0, 0 }, 2, 0, 0, 0, 1);
    stops("a ceiling that a later pair attains", (const size_t[]) { 1, 5, 2 }, 2, 5, 5, 1, 2);
    stops("a ceiling that two pairs attain", (const size_t[]) { 1, 5, 5 }, 2, 5, 5, 1, 2);
    stops("a ceiling that the last pair attains", (const size_t[]) { 1, 2, 5 }, 2, 5, 5, 2, 3);
    stops("a ceiling beyond the bound", (const size_t[]) { 1, 2, 5 }, 1, 2, 5, 1, 2);
    stops("a ceiling beyond the bound, and nothing better than the start", (const size_t[]) { 3, 2, 5 }, 1, 3, 5, 0, 2);
    make(1, 1, 0, 9);
    eff(0, 0, 1);
    struct laurelsnap_found found = found_with((struct lengths) { 1, 1, 1, 0 }, LISTS);
    same("no terms", answer(found.number, found.pairs, found.ceiling), 0, 1, 0);
}

/* A counter of so many digits of so many values that goes on for nothing, and is worth most at its last number; and, if it has one, a switch
   that can be set for nothing at its last number. */
static void make_counter(unsigned digits, unsigned values, unsigned switches)
{
    unsigned moves = digits * (values - 1), terms = (digits + 3) / 4;
    make(digits + switches, moves + switches, terms, 0);
    for (unsigned v = 0; v < digits; v++)
        file[28 + 2 * v] = (uint8_t)values;
    for (unsigned o = 0; o < moves + switches; o++)
        put16(operator_at(o), 0);
    for (unsigned o = 0; o < moves; o++) {
        unsigned digit = o / (values - 1), value = o % (values - 1);
        pre(o, digit, value);
        eff(o, digit, value + 1);
        for (unsigned v = digit + 1; v < digits; v++) {
            pre(o, v, values - 1);
            eff(o, v, 0);
        }
    }
    for (unsigned n = 0; n < terms; n++)
        put16(term_at(n), 1);
    for (unsigned v = 0; v < digits; v++) {
        asks(v / 4, v, values - 1);
        if (switches)
            pre(moves, v, values - 1);
    }
    if (switches)
        eff(moves, digits, 1);
}

/* More pairs and steps than a bound has units, in lists that are just long enough and shared out of one block; and one short. */
static void one_block(void)
{
    enum { NUMBERS = 9 * 9 * 9 * 9 };
    static const uint8_t last[4] = { 8, 8, 8, 8 }, first[4] = { 0, 0, 0, 0 };
    make_counter(4, 9, 0);
    for (size_t turn = 0; turn < 3; turn++) {
        struct laurelsnap_room room = { .nodes = 65536, .utility = 64, .pairs = NUMBERS - (turn == 1), .steps = NUMBERS - 1 - (turn == 2) };
        uint8_t *block = malloc(laurelsnap_bytes(room));
        if (block == NULL)
            exit(EXIT_FAILURE);
        struct laurelsnap_lists in = laurelsnap_share(room, block);
        struct laurelsnap_found found = laurelsnap_search_in(file, length, &in);
        const uint8_t *begin = (uint8_t *)in.costs.at, *end = (uint8_t *)(in.plan.at + in.plan.length);
        same("the block's ends", answer(begin == block, end == block + laurelsnap_bytes(room), 0), 1, 1, 0);
        uint64_t number = turn == 1 ? 23 : turn == 2 ? 15 : 0;
        same("a long plan", answer(found.number, found.pairs, found.steps), number, turn == 0 ? NUMBERS : 0, turn == 0 ? NUMBERS - 1 : 0);
        if (turn == 0) {
            stands("the first number", laurelsnap_question_in(file, length, first, 4, &in, &found), 0, 1, 0, 0);
            stands("the last number", laurelsnap_question_in(file, length, last, 4, &in, &found), 0, 1, 0, NUMBERS - 1);
            static uint8_t steps[2 * NUMBERS];
            for (size_t k = 0; k < found.steps; k++)
                store(steps + 2 * k, 2, in.plan.at[k]);
            same("a long plan, walked", laurelsnap_walk(file, length, steps, 2 * found.steps), 0, 0, 1);
        }
        free(block);
    }
}

/* One operator of this cost that is worth 1: minutes, units left over and units unused of the best plan. */
static void takes(const char *what, size_t cost, size_t bound, uint64_t minutes, uint64_t units, uint64_t unused)
{
    make(1, 1, 1, bound);
    put16(operator_at(0), cost);
    eff(0, 0, 1);
    put16(term_at(0), 1);
    asks(0, 0, 1);
    struct laurelsnap_found found = found_with((struct lengths) { 2, 16, 8, 1 }, LISTS);
    same(what, answer(found.minutes, found.units, found.unused), minutes, units, unused);
    struct laurelsnap_listed listed = listed_with(room_for(2, 1));
    same(what, answer(listed.minutes, listed.units, listed.unused), minutes, units, unused);
}

static void times(void)
{
    takes("cost 5 of 5", 5, 5, 0, 5, 0);
    takes("cost 6 of 6", 6, 6, 1, 0, 0);
    takes("cost 14 of 20", 14, 20, 2, 2, 6);
    takes("cost 4,095 of 4,095", 4095, 4095, 682, 3, 0);
    takes("an operator that costs more than the bound", 4095, 4094, 0, 0, 4094);
    takes("a free operator", 0, 7, 0, 0, 7);
}

/* ---- the engine that lists states */

/* A state, and its place. */
struct state {
    uint64_t state;
    uint32_t cost, steps;
};

static void kept_list(const char *what, const void *list, const void *before, size_t width, size_t from)
{
    if (from < FRONT)
        same_bytes(what, (const uint8_t *)list + width * from, (const uint8_t *)before + width * from, width * (FRONT - from));
}

/* The lists are as they were from these entries on. */
static void kept_from(const char *what, struct state_lengths from)
{
    kept_list(what, listing.states, noise.states, sizeof *noise.states, from.states);
    kept_list(what, listing.costs, noise.costs, sizeof *noise.costs, from.costs);
    kept_list(what, listing.steps, noise.steps, sizeof *noise.steps, from.steps);
    kept_list(what, listing.heads, noise.heads, sizeof *noise.heads, from.heads);
    kept_list(what, listing.links, noise.links, sizeof *noise.links, from.links);
    kept_list(what, plan, noise.plan, sizeof *plan, from.plan);
}

/* A refusal with lists of these lengths: all figures are 0, and what it leaves is as it was. */
static void refuses(const char *what, struct state_lengths lent, uint64_t number, uint64_t value)
{
    struct laurelsnap_listed got = listed_with(lent), due = { .number = number, .value = value };
    same(what, answer(got.number, got.value, got.states), number, value, 0);
    same_bytes(what, (const uint8_t *)&got, (const uint8_t *)&due, sizeof due);
    if (number <= 12)
        lent = room_for(0, 0);
    lent.plan = 0;
    kept_from(what, lent);
}

/* A success with lists of these lengths: the answer, these states and places, each once, this plan, and everything else as it was. */
static void succeeds(const char *what, struct state_lengths lent, struct laurelsnap_listed due, const struct state *listed, const uint16_t *best)
{
    struct laurelsnap_listed got = listed_with(lent);
    same(what, answer(got.number, got.states, got.steps), 0, due.states, due.steps);
    same_bytes(what, (const uint8_t *)&got, (const uint8_t *)&due, sizeof due);
    for (size_t k = 0; k < due.states; k++) {
        size_t times = 0, at = 0;
        for (size_t i = 0; i < due.states; i++)
            if (listing.states[i] == listed[k].state) {
                times++;
                at = i;
            }
        same(what, answer(times, listing.costs[at], listing.steps[at]), 1, listed[k].cost, listed[k].steps);
    }
    same_bytes(what, (const uint8_t *)plan, (const uint8_t *)best, sizeof *plan * due.steps);
    lent.states = lent.costs = lent.steps = due.states;
    lent.plan = due.steps;
    kept_from(what, lent);
}

/* The states of the file, with the answer, places and plan that are due: in lists that are just long enough, longer and the longest, with
   working lists of many lengths; and the refusals 12, 24 and 15 in this order, by lists that are unequal, too long or one entry short. */
static void lists_states(const char *what, struct laurelsnap_listed due, const struct state *listed, const uint16_t *best)
{
    size_t n = due.states, m = due.steps;
    succeeds(what, room_for(n, m), due, listed, best);
    succeeds(what, room_for(n + 1, m + 1), due, listed, best);
    succeeds(what, room_for(n + 1 + below(100), m + below(100)), due, listed, best);
    succeeds(what, room_for(LONGEST, m), due, listed, best);
    const size_t working_lengths[] = { 0, 1, 3, 7, n - 1, n, 2 * n + 1, 1023, 1024, 1025, 4097 };
    enum { WORKING_LENGTHS = sizeof working_lengths / sizeof *working_lengths };
    for (size_t h = 0; h < WORKING_LENGTHS; h++)
        for (size_t l = 0; l < WORKING_LENGTHS; l++) {
            struct state_lengths lent = room_for(n, m);
            lent.heads = working_lengths[h];
            lent.links = working_lengths[l];
            succeeds(what, lent, due, listed, best);
            lent.states = lent.costs = lent.steps = n - 1;
            refuses(what, lent, 24, 0);
        }
    for (size_t count = 0; count < n; count++)
        refuses(what, room_for(count, m), 24, 0);
    refuses(what, room_for(n - 1, 0), 24, 0);
    for (size_t short_plan = 0; short_plan < m; short_plan++) {
        refuses(what, room_for(n, short_plan), 15, 0);
        refuses(what, room_for(n + 1, short_plan), 15, 0);
    }
    refuses(what, room_for(LONGEST + 1, m), 12, 0);
    for (int longer = 0; longer < 3; longer++)
        for (int turn = 0; turn < 4; turn++) {
            size_t count = turn == 0 ? 0 : turn == 1 ? n - 1 : turn == 2 ? n : LONGEST;
            struct state_lengths lent = room_for(count, turn == 2 ? m : 0);
            *(longer == 0 ? &lent.states : longer == 1 ? &lent.costs : &lent.steps) += 1;
            refuses(what, lent, 12, 0);
        }
}

/* The figures that are due where so many states are listed, and the best plan has this utility, cost and number of steps. */
static struct laurelsnap_listed figures(uint64_t states, uint64_t utility, uint64_t cost, uint64_t steps)
{
    uint64_t bound = le16(file + 10);
    return (struct laurelsnap_listed) { .utility = utility, .cost = cost, .bound = bound, .minutes = cost / 6, .units = cost % 6,
        .unused = bound - cost, .states = states, .steps = steps };
}

/* The stand tasks. In P the bit of p is worth 1 and that of q 2; in Q, whose variable has two bits, the high one is worth 1, so that value 2
   is the state 1 and value 1 the state 2. */
static void listed_stand_cases(void)
{
    static const struct state P[] = { { 0, 0, 0 }, { 1, 1, 1 }, { 2, 1, 1 }, { 3, 2, 2 } };
    static const struct state Q[] = { { 0, 0, 0 }, { 2, 2, 1 }, { 1, 4, 1 } };
    static const uint16_t P_plan[] = { 1, 2 }, Q_plan[] = { 3 };
    make_P(0);
    lists_states("P 0, its states", figures(1, 0, 0, 0), P, P_plan);
    make_P(1);
    lists_states("P 1, its states", figures(3, 2, 1, 1), P, P_plan);
    make_P(2);
    lists_states("P 2, its states", figures(4, 3, 2, 2), P, P_plan);
    make_P(4095);
    lists_states("P 4095, its states", figures(4, 3, 2, 2), P, P_plan);
    for (size_t bound = 0; bound <= 5; bound++) {
        make_Q(bound);
        uint64_t turned = bound >= 4;
        lists_states("Q, its states", figures(1 + (bound >= 2) + turned, 7 * turned, 4 * turned, turned), Q, Q_plan);
    }
    make_P(1);
    file[28] = 1;
    refuses("P with a variable of one value", room_for(4, 2), 7, 0);
    make_Q(5);
    put16(operator_at(2), 4096);
    refuses("Q with cost 4,096, and lists of unequal lengths", (struct state_lengths) { 1, 2, 3, 4, 5, 6 }, 9, 2);
}

/* What the bits of a state are worth: three variables of five, two and sixteen values, and all 48 bits. */
static void listed_bits(void)
{
    static const struct state three[] = { { 1 + 8 + 16 + 128, 0, 0 }, { 2 + 4 + 8 + 32 + 64, 4095, 1 } };
    static const uint16_t only[] = { 0 };
    make(3, 1, 1, 4095);
    memcpy(file + 28, (const uint8_t[]) { 5, 4, 2, 1, 16, 9 }, 6);
    put16(operator_at(0), 4095);
    pre(0, 1, 1);
    eff(0, 0, 3);
    eff(0, 2, 6);
    lists_states("values 4, 1, 9, then 3, 1, 6", figures(2, 0, 0, 0), three, only);
    const uint64_t all = ((uint64_t)1 << 48) - 1;
    const struct state most[] = { { all, 0, 0 }, { all - ((uint64_t)15 << 44), 0, 1 } };
    make(12, 1, 1, 0);
    for (size_t v = 0; v < 12; v++)
        memcpy(file + 28 + 2 * v, (const uint8_t[]) { 16, 15 }, 2);
    put16(operator_at(0), 0);
    eff(0, 11, 0);
    put16(term_at(0), 65535);
    asks(0, 11, 0);
    lists_states("48 bits", figures(2, 65535, 0, 1), most, only);
}

/* The number of the state that has these values. */
static uint64_t state_of(const uint8_t *values, const uint8_t *variable, size_t variables)
{
    uint64_t out = 0, worth = 1;
    for (size_t v = 0; v < variables; v++)
        for (unsigned b = bits_of(variable[2 * v]); b > 0; b--, worth *= 2)
            out += worth * (values[v] >> (b - 1) & 1);
    return out;
}

/* Whether each number of the counter is listed once, at cost 0 and in as many steps. */
static int numbers_listed(const struct laurelsnap_state_lists *in, unsigned digits, unsigned values, size_t numbers)
{
    uint8_t digit[8], *seen = calloc(numbers, 1);
    size_t right = 0;
    for (size_t k = 0; seen != NULL && k < numbers; k++) {
        size_t x = in->steps.at[k], rest = x;
        for (unsigned v = digits; v-- > 0; rest /= values)
            digit[v] = (uint8_t)(rest % values);
        right += x < numbers && !seen[x] && in->costs.at[k] == 0 && in->states.at[k] == state_of(digit, file + 28, digits);
        seen[x % numbers] = 1;
    }
    free(seen);
    return right == numbers;
}

/* The counter's numbers, and the plan through all of them, in lists of one block that are just long enough, with one entry too few, with one
   step too few, and with the switch, which makes one state more. */
static void list_numbers(unsigned digits, unsigned values, size_t numbers)
{
    for (unsigned turn = 0; turn < 4; turn++) {
        make_counter(digits, values, turn == 3);
        struct laurelsnap_state_room room = { .states = numbers - (turn == 1), .steps = numbers - 1 - (turn == 2) };
        uint8_t *block = malloc(laurelsnap_state_bytes(room)), *walked = malloc(2 * numbers);
        if (block == NULL || walked == NULL)
            exit(EXIT_FAILURE);
        struct laurelsnap_state_lists in = laurelsnap_share_states(room, block);
        struct laurelsnap_listed listed = laurelsnap_states_in(file, length, &in);
        const uint8_t *begin = (uint8_t *)in.states.at, *end = (uint8_t *)(in.plan.at + in.plan.length);
        same("the block's ends", answer(begin == block, end == block + laurelsnap_state_bytes(room), 0), 1, 1, 0);
        uint64_t number = turn == 0 ? 0 : turn == 2 ? 15 : 24, done = turn == 0;
        same("many states", answer(listed.number, listed.states, listed.steps), number, done * numbers, done * (numbers - 1));
        if (listed.number == 0) {
            same("many states, their places", answer(numbers_listed(&in, digits, values, numbers), 0, 0), 1, 0, 0);
            for (size_t k = 0; k < listed.steps; k++)
                store(walked + 2 * k, 2, in.plan.at[k]);
            same("many states, their plan", laurelsnap_walk(file, length, walked, 2 * listed.steps), 0, 0, listed.utility);
        }
        free(block);
        free(walked);
    }
}

static void listed_cases(void)
{
    listed_stand_cases();
    listed_bits();
    list_numbers(4, 9, 9 * 9 * 9 * 9);
    list_numbers(5, 16, LONGEST);
}

/* ---- both engines over one file */

/* The next of the task's states, if there is one. */
static int next_state(const Task *t, uint8_t *values)
{
    for (size_t v = 0; v < t->variables; v++) {
        if (++values[v] < t->variable[2 * v])
            return 1;
        values[v] = 0;
    }
    return 0;
}

/* A place as a number, in the order of the pairs. */
static uint64_t pair(uint32_t cost, uint32_t steps) { return ((uint64_t)cost << 32) + steps; }

/* Of `count` listed states each is a different one of the task's, and stands where the question over a search's lists says; but the question
   tells of no place past the last pair that the search has made. */
static void compare_places(const char *what, const Task *t, size_t count, const struct laurelsnap_lists *in, const struct laurelsnap_found *found)
{
    const uint64_t last = pair(in->costs.at[found->pairs - 1], in->steps.at[found->pairs - 1]);
    uint8_t values[32] = { 0 };
    size_t met = 0;
    do {
        uint64_t state = state_of(values, t->variable, t->variables);
        size_t k = 0;
        while (k < count && listing.states[k] != state)
            k++;
        met += k < count;
        uint32_t cost = listing.costs[k], steps = listing.steps[k], told = k < count && pair(cost, steps) <= last;
        struct laurelsnap_place place = laurelsnap_question_in(file, length, values, t->variables, in, found);
        stands(what, place, 0, told, told * cost, told * steps);
    } while (next_state(t, values));
    same(what, answer(met, 0, 0), count, 0, 0);
}

/* Both engines over the file: a refusal of it is the check's and leaves all lists, and else they hand over the same figures and plan and tell
   the same places; of tasks with more states than the comparison has time for, nothing. */
static void compare_engines(const char *what)
{
    enum { MOST_STATES = 1000 };
    static const struct laurelsnap_room room = { .nodes = 65536, .utility = 16384, .pairs = 4096, .steps = 4096 };
    static void *block;
    Task t;
    Answer checked = plain_check(file, length, &t);
    if (checked.number != 0) {
        refuses(what, room_for(below(8), below(8)), checked.number, checked.first);
        return;
    }
    size_t all = 1;
    for (size_t v = 0; v < t.variables && all <= MOST_STATES; v++)
        all *= t.variable[2 * v];
    if (all > MOST_STATES)
        return;
    if (block == NULL && (block = malloc(laurelsnap_bytes(room))) == NULL)
        exit(EXIT_FAILURE);
    const struct laurelsnap_lists in = laurelsnap_share(room, block);
    struct laurelsnap_found found = laurelsnap_search_in(file, length, &in);
    struct laurelsnap_listed listed = listed_with(room_for(all, all));
    same(what, answer(listed.number, listed.value, listed.utility), found.number, found.value, found.utility);
    same(what, answer(listed.cost, listed.bound, listed.steps), found.cost, found.bound, found.steps);
    same(what, answer(listed.minutes, listed.units, listed.unused), found.minutes, found.units, found.unused);
    if (listed.number != 0 || found.number != 0)
        return;
    same_bytes(what, (const uint8_t *)plan, (const uint8_t *)in.plan.at, sizeof *plan * found.steps);
    compare_places(what, &t, listed.states, &in, &found);
    refuses(what, room_for(listed.states - 1, all), 24, 0);
    if (listed.steps > 0)
        refuses(what, room_for(listed.states, listed.steps - 1), 15, 0);
}

/* ---- the writer */

/* The file written into a list of this length. The list has noise in it and around it, and every byte is compared with the plain writer's. */
static void compare_write(const char *what, size_t out_length)
{
    enum { AROUND = 16 };
    size_t count = AROUND + out_length + AROUND;
    uint8_t *got = malloc(count), *expected = malloc(count);
    if (got == NULL || expected == NULL)
        exit(EXIT_FAILURE);
    for (size_t k = 0; k < count; k++)
        got[k] = expected[k] = (uint8_t)below(256);
    Answer plain = plain_write(file, length, expected + AROUND, out_length);
    same(what, laurelsnap_write(file, length, got + AROUND, out_length), plain.number, plain.first, plain.second);
    same_bytes(what, got, expected, count);
    free(got);
    free(expected);
}

/* The file written into lists of no bytes, one too few, just enough and more. */
static void compare_writes(const char *what)
{
    size_t enough = length;
    if (laurelsnap_ok(laurelsnap_check(file, length)))
        enough = 28 + 2 * le16(file + 4) + 36 * le16(file + 6) + 12 * le16(file + 8);
    compare_write(what, 0);
    compare_write(what, enough > 0 ? enough - 1 : 0);
    compare_write(what, enough);
    compare_write(what, enough + 1 + below(60));
}

static void unread_bytes(void)
{
    for (size_t count = below(6); count > 0; count--)
        file[length++] = (uint8_t)below(256);
}

/* Makes another file of the same task: sections in any order, unread bytes around them, empty sections anywhere. */
static void rearrange(void)
{
    static uint8_t from[MOST_BYTES];
    memcpy(from, file, length);
    size_t bytes[3] = { 2 * le16(from + 4), 36 * le16(from + 6), 12 * le16(from + 8) };
    size_t first = below(3), second = (first + 1 + below(2)) % 3;
    size_t order[3] = { first, second, 3 - first - second };
    length = 28;
    for (int i = 0; i < 3; i++) {
        size_t k = order[i];
        unread_bytes();
        put32(12 + 4 * k, length);
        memcpy(file + length, from + le32(from + 12 + 4 * k), bytes[k]);
        length += bytes[k];
    }
    unread_bytes();
    for (size_t k = 0; k < 3; k++)
        if (bytes[k] == 0)
            put32(12 + 4 * k, 28 + below(length - 28 + 1));
    put32(24, length);
}

/* A file as it is made is canonical: it is written as it is, and rearranged it is written as it was made. */
static void compare_rearranged(const char *what)
{
    static uint8_t made[MOST_BYTES], out[MOST_BYTES];
    size_t made_length = length;
    memcpy(made, file, length);
    compare_writes(what);
    rearrange();
    compare_writes(what);
    same(what, laurelsnap_write(file, length, out, sizeof out), 0, made_length, 0);
    same_bytes(what, out, made, made_length);
    memcpy(file, made, made_length);
    length = made_length;
}

/* The answer where the file is written into a list of this length. */
static void writes(const char *what, size_t out_length, uint64_t number, uint64_t first)
{
    static uint8_t out[MOST_BYTES];
    same(what, laurelsnap_write(file, length, out, out_length), number, first, 0);
    compare_writes(what);
}

/* The three offsets and the length in the written file. */
static void written_places(const char *what, size_t variables, size_t operators, size_t terms, size_t written)
{
    static uint8_t out[MOST_BYTES];
    Answer a = laurelsnap_write(file, length, out, sizeof out);
    same(what, answer(a.number, laurelsnap_length(a), le32(out + 24)), 0, written, written);
    same(what, answer(le32(out + 12), le32(out + 16), le32(out + 20)), variables, operators, terms);
}

static void writer_cases(void)
{
    make_P(1);
    writes("P, written", 164, 0, 164);
    writes("P, one byte too few", 163, 22, 0);
    written_places("P, its places", 28, 32, 140, 164);
    compare_rearranged("P");
    make_Q(5);
    written_places("Q, its places", 28, 30, 174, 186);
    compare_rearranged("Q");
    put16(operator_at(2), 4096);
    writes("Q with cost 4,096, no list", 0, 9, 2);
    make(1, 0, 0, 0);
    compare_rearranged("no operators and no terms");
    put32(16, 29);
    put32(20, 28);
    written_places("no operators and no terms, their places", 28, 30, 30, 30);
    make(2, 0, 1, 0);
    compare_rearranged("no operators");
    put32(16, length);
    written_places("no operators, their place", 28, 32, 32, 44);
    make(2, 1, 0, 0);
    compare_rearranged("no terms");
    put32(20, 40);
    written_places("no terms, their place", 28, 32, 68, 68);
    make(32, 256, 256, 4095);
    for (unsigned v = 24; v < 32; v++) {
        pre(255, v, 1);
        eff(255, v, 1);
        if (v >= 28)
            asks(255, v, 1);
    }
    written_places("the most records", 28, 92, 9308, 12380);
    compare_rearranged("the most records");
    length = 16384;
    put32(24, length);
    writes("16,384 bytes", 12380, 0, 12380);
    length = 16385;
    put32(24, length);
    writes("16,385 bytes", 0, 2, 0);
    length = 0;
    writes("no bytes", 0, 1, 0);
}

/* ---- made-up files and plans */

static void some_facts(size_t at, size_t count_at, size_t places, size_t variables)
{
    size_t v = 0;
    while (file[count_at] < places && (v += below(3)) < variables) {
        fact(at + 2u * file[count_at]++, (unsigned)v, (unsigned)below(file[28 + 2 * v]));
        v++;
    }
}

static void make_any(void)
{
    size_t variables = 1 + below(6), operators = below(8), terms = below(5);
    make(variables, operators, terms, below(40));
    for (size_t v = 0; v < variables; v++) {
        file[28 + 2 * v] = (uint8_t)(2 + below(3));
        file[29 + 2 * v] = (uint8_t)below(file[28 + 2 * v]);
    }
    for (size_t o = 0; o < operators; o++) {
        size_t at = operator_at(o);
        put16(at, below(7));
        if (below(2))
            some_facts(at + 4, at + 2, 8, variables);
        some_facts(at + 20, at + 3, 8, variables);
    }
    for (size_t n = 0; n < terms; n++) {
        put16(term_at(n), below(1000));
        some_facts(term_at(n) + 4, term_at(n) + 2, 4, variables);
    }
}

static void compare_walks(const char *what)
{
    uint8_t plan[61];
    for (int round = 0; round < 8; round++) {
        size_t plan_length = below(sizeof plan + 1);
        for (size_t i = 0; i < plan_length; i++)
            plan[i] = i % 2 == 1 ? (uint8_t)(below(50) == 0) : (uint8_t)below(9);
        Answer plain = plain_walk(file, length, plan, plan_length);
        same(what, laurelsnap_walk(file, length, plan, plan_length), plain.number, plain.first, plain.second);
    }
}

static void compare_check(const char *what)
{
    Task t;
    Answer plain = plain_check(file, length, &t);
    same(what, laurelsnap_check(file, length), plain.number, plain.first, plain.second);
}

static void made_up(void)
{
    for (int i = 0; i < 2000; i++) {
        make_any();
        compare_check("a file");
        compare_engines("a file, planned");
        compare_walks("a walk");
        compare_rearranged("a written file");
        if (below(2))
            rearrange();
        for (int change = 0; change < 4; change++) {
            size_t at = below(2) ? below(28) : below(length);
            file[at] = (uint8_t)below(below(2) ? 4 : 256);
            compare_check("a changed file");
            compare_writes("a changed file, written");
            compare_engines("a changed file, planned");
        }
        compare_walks("a walk over a changed file");
    }
    for (int i = 0; i < 3000; i++) {
        length = below(200);
        for (size_t k = 0; k < length; k++)
            file[k] = (uint8_t)below(256);
        if (below(2) && length > 28) {
            memcpy(file, "BPT1", 4);
            put32(24, length);
        }
        compare_check("any bytes");
        compare_writes("any bytes, written");
        compare_engines("any bytes, planned");
    }
}

int main(void)
{
    make_noise();
    stand_cases();
    list_lengths();
    questions();
    ceilings();
    one_block();
    times();
    listed_cases();
    writer_cases();
    made_up();
    printf("the supervisor's calls from C: %lu answers compared, %lu differ\n", compared, faults);
    return faults == 0 ? EXIT_SUCCESS : EXIT_FAILURE;
}
