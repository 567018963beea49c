/*
 * Random sequences of operations on sets of states of up to 12 bits, each compared with a table of all states: the members of every set, the
 * number of entries with the number of different cofactors of the tables, and the answer "full" in lists that are just long enough and in
 * lists that are one entry too short; with working lists of length 0, 1, 7 and 4,096, and memos of 0, 4,104, 4,111 and 8,192. heads begins as
 * noise.
 *
 * And what needs no list: an operation on a set and the empty set, the full set or itself, with noise in the lists, and with lists that can
 * be neither read nor written.
 */
#define _DEFAULT_SOURCE /* for MAP_ANONYMOUS */
#include "diagrams.h"
#include <stdio.h>
#include <stdlib.h>
#include <string.h>
#include <sys/mman.h>

enum { BITS = 12, STATES = 1 << BITS, SETS = 41, ENTRIES = 1024, WORK = 4096, MEMO = 8192, GUARD = 0x5a5a5a5a };

/* An operation: 0 union, 1 difference, 2 intersection, 3 a bit forgotten, 4 a cube demanded; the sets that it is on. */
struct step {
    int kind, i, j, v;
    uint64_t care, value;
};

static struct step steps[SETS];
static uint8_t states[SETS][STATES]; /* set 0 is the full one */
static size_t counts[SETS];          /* the entries after each set */
static uint8_t cofactors[SETS * STATES];
static size_t width;

static int by_bytes(const void *a, const void *b)
{
    return memcmp(a, b, width);
}

/* The number of different inner nodes in the diagrams of the sets up to t: of the different cofactors that depend on their first bit. */
static size_t different(int bits, int t)
{
    size_t all = 0;
    for (int k = 0; k < bits; k++) {
        size_t n = 0;
        width = (size_t)1 << (bits - k);
        for (int set = 0; set <= t; set++)
            for (size_t r = 0; r < (size_t)1 << k; r++) {
                uint8_t *f = cofactors + n * width;
                size_t half = width / 2;
                for (size_t y = 0; y < half; y++) {
                    f[y] = states[set][r + ((2 * y) << k)];
                    f[half + y] = states[set][r + ((2 * y + 1) << k)];
                }
                n += memcmp(f, f + half, half) != 0;
            }
        qsort(cofactors, n, width, by_bytes);
        for (size_t i = 0; i < n; i++)
            all += i == 0 || memcmp(cofactors + (i - 1) * width, cofactors + i * width, width) != 0;
    }
    return all;
}

/* A random sequence, the tables of its sets, and the entries after each. */
static void choose(int bits)
{
    memset(states[0], 1, sizeof states[0]);
    for (int t = 1; t < SETS; t++) {
        struct step *s = &steps[t];
        int kind = (int)draw(14);
        s->kind = t < 16 ? 4 : kind < 5 ? kind : kind < 8 ? 1 : 0;
        s->i = t < 16 ? 0 : (int)draw((uint64_t)t);
        s->j = (int)draw((uint64_t)t);
        s->v = (int)draw((uint64_t)bits);
        s->care = draw((uint64_t)1 << bits) & (draw((uint64_t)1 << bits) | draw((uint64_t)1 << bits));
        s->value = draw((uint64_t)1 << bits);
        for (size_t x = 0; x < (size_t)1 << bits; x++) {
            uint8_t p = states[s->i][x], q = states[s->j][x];
            states[t][x] = s->kind == 0   ? p | q
                           : s->kind == 1 ? p & !q
                           : s->kind == 2 ? p & q
                           : s->kind == 3 ? p | states[s->i][x ^ (size_t)1 << s->v]
                                          : p & ((x & s->care) == (s->value & s->care));
        }
        counts[t] = different(bits, t);
    }
}

static uint32_t bit[ENTRIES], low[ENTRIES], high[ENTRIES], heads[WORK], chain[WORK], memo[MEMO];

static int fail(const char *what, int bits, size_t n, int t)
{
    fprintf(stderr, "diagrams: %s: %d bits, %zu entries, set %d\n", what, bits, n, t);
    return 1;
}

/* The sequence in lists of n entries, with working lists of these lengths. */
static int run(int bits, size_t n, size_t h, size_t c, size_t m)
{
    uint32_t names[SETS] = {1};
    size_t count = 0;
    for (size_t i = 0; i < ENTRIES; i++)
        bit[i] = low[i] = high[i] = GUARD;
    for (size_t i = 0; i < WORK; i++)
        heads[i] = (uint32_t)(draw(2) ? draw(ENTRIES) : draw((uint64_t)1 << 32));
    memset(memo, 0, sizeof memo);
    memset(chain, 0xa5, sizeof chain);
    for (int t = 1; t < SETS; t++) {
        struct step *s = &steps[t];
        uint32_t a = names[s->i], b = names[s->j];
        struct laurelsnap_set r = s->kind < 3 ? on_two[s->kind](bit, n, low, n, high, n, heads, h, chain, c, memo, m, count, a, b)
                                  : s->kind == 3 ? laurelsnap_forget(bit, n, low, n, high, n, heads, h, chain, c, memo, m, count, (uint32_t)s->v, a)
                                                 : laurelsnap_demand(bit, n, low, n, high, n, heads, h, chain, c, memo, m, count, s->care, s->value, a);
        if (r.full != (n < counts[t]))
            return fail("full", bits, n, t);
        if (r.full)
            return 0;
        if (r.count != counts[t])
            return fail("count", bits, n, t);
        count = r.count, names[t] = r.name;
        for (size_t x = 0; x < (size_t)1 << bits; x++)
            if (member(bit, low, high, r.name, x) != states[t][x])
                return fail("member", bits, n, t);
    }
    for (size_t i = count; i < ENTRIES; i++)
        if (bit[i] != GUARD || low[i] != GUARD || high[i] != GUARD)
            return fail("later entry", bits, n, SETS - 1);
    return 0;
}

enum { LISTS = 6, LONGEST = 3, PAGE = 4096 };

/* Whether the known name is handed over, with no entry more, from lists of these lengths. X stands for any set. */
static bool told(uint32_t *const lists[LISTS], const size_t lengths[LISTS], size_t count)
{
    enum { X = 2 };
    static const struct {
        int kind;
        uint32_t a, b, name;
    } known[] = {{UNION, 0, X, X},        {UNION, X, 0, X},        {UNION, 1, X, 1},        {UNION, X, 1, 1},        {UNION, X, X, X},
                 {DIFFERENCE, 0, X, 0},   {DIFFERENCE, X, 0, X},   {DIFFERENCE, X, 1, 0},   {DIFFERENCE, X, X, 0},   {INTERSECTION, 0, X, 0},
                 {INTERSECTION, X, 0, 0}, {INTERSECTION, 1, X, X}, {INTERSECTION, X, 1, X}, {INTERSECTION, X, X, X}};
    static const uint32_t sets[] = {0, 1, 2, 3, LONGEST + 1, LONGEST + 2, 1048577, INT32_MAX, UINT32_MAX};
    for (size_t i = 0; i < sizeof known / sizeof *known; i++)
        for (size_t j = 0; j < sizeof sets / sizeof *sets; j++) {
            uint32_t a = known[i].a == X ? sets[j] : known[i].a, b = known[i].b == X ? sets[j] : known[i].b;
            uint32_t name = known[i].name == X ? sets[j] : known[i].name;
            struct laurelsnap_set r = on_two[known[i].kind](lists[0], lengths[0], lists[1], lengths[1], lists[2], lengths[2], lists[3], lengths[3],
                                                            lists[4], lengths[4], lists[5], lengths[5], count, a, b);
            if (r.full || r.name != name || r.count != count)
                return false;
        }
    return true;
}

/* All lengths from 0 to 3 of the six lists, with counts of which most are beyond them: in noise, which must stay, and in pages out of reach. */
static int shortcuts(void)
{
    static const size_t wrong[] = {0, 1, LONGEST, LONGEST + 1, 1048576, SIZE_MAX};
    uint32_t noise[LISTS][LONGEST], before[LISTS][LONGEST], *open[LISTS], *shut[LISTS];
    char *pages = mmap(NULL, LISTS * PAGE, PROT_NONE, MAP_PRIVATE | MAP_ANONYMOUS, -1, 0);
    if (pages == MAP_FAILED) {
        perror("diagrams: mmap");
        return 1;
    }
    for (size_t i = 0; i < LISTS; i++)
        open[i] = noise[i], shut[i] = (uint32_t *)(pages + i * PAGE);
    seed = 1;
    for (size_t all = 0; all < 1 << 2 * LISTS; all++) {
        size_t lengths[LISTS];
        for (size_t i = 0; i < LISTS; i++) {
            lengths[i] = all >> 2 * i & LONGEST;
            for (size_t j = 0; j < LONGEST; j++)
                noise[i][j] = (uint32_t)(draw(2) ? draw(8) : draw((uint64_t)1 << 32));
        }
        memcpy(before, noise, sizeof noise);
        for (size_t i = 0; i < sizeof wrong / sizeof *wrong; i++)
            if (!told(open, lengths, wrong[i]) || memcmp(before, noise, sizeof noise) != 0 || !told(shut, lengths, wrong[i])) {
                fprintf(stderr, "diagrams: shortcut: choice %zu of the lengths, count %zu\n", all, wrong[i]);
                return 1;
            }
    }
    return 0;
}

int main(void)
{
    if (shortcuts())
        return 1;
    static const size_t lengths[] = {0, 1, 7, WORK}, memos[] = {0, 4104, 4111, MEMO};
    size_t sequences = 0, runs = 0, most = 0;
    for (int bits = 1; bits <= BITS; bits++)
        for (uint64_t round = 1; round <= 3; round++, sequences++) {
            seed = round * 0x9e3779b97f4a7c15u + (uint64_t)bits;
            choose(bits);
            size_t n = counts[SETS - 1];
            most = n > most ? n : most;
            for (int i = 0; i < 4; i++)
                for (int j = 0; j < 4; j++)
                    for (int k = 0; k < 4; k++) {
                        if (bits > 6 && (i != j || j != k))
                            continue;
                        runs += 2;
                        if (run(bits, n, lengths[i], lengths[j], memos[k]) || run(bits, n ? n - 1 : 0, lengths[i], lengths[j], memos[k]))
                            return 1;
                    }
        }
    printf("diagrams: shortcuts are told from any lists; %zu sequences of %d sets, %zu runs, at most %zu entries: members, counts and full lists are right\n", sequences, SETS - 1, runs, most);
    return 0;
}
