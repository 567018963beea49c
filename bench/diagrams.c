/*
 * The operations on sets beside BuDDy's: the same random sequence of unions, differences, intersections, forgotten bits and demanded
 * cubes over both, in one run, until our node lists hold the given number of entries. Prints the time per operation of each, and checks
 * that both have the same sets by asking for random states.
 *
 * Usage: diagrams ENTRIES BITS SEED
 */
#include "diagrams.h"
#include <bdd.h>
#include <stdio.h>
#include <stdlib.h>
#include <string.h>
#include <time.h>

static size_t entries, slots;
static uint32_t *bit, *low, *high, *heads, *chain, *memo;
static size_t count;

#define LENT bit, entries, low, entries, high, entries, heads, entries, chain, entries, memo, slots, count

static double now(void)
{
    struct timespec t;
    clock_gettime(CLOCK_PROCESS_CPUTIME_ID, &t);
    return t.tv_sec * 1e9 + t.tv_nsec;
}

/* A cube of k random bits. */
static void cube(int bits, int k, uint64_t *care, uint64_t *value)
{
    *care = *value = 0;
    for (int i = 0; i < k; i++) {
        int v = draw(bits);
        *care |= 1ull << v;
        if (draw(2))
            *value |= 1ull << v;
    }
    *value &= *care;
}

static BDD cube_bdd(int bits, uint64_t care, uint64_t value)
{
    BDD r = bdd_addref(bddtrue);
    for (int v = bits - 1; v >= 0; v--)
        if (care >> v & 1) {
            BDD s = bdd_addref(bdd_and(r, value >> v & 1 ? bdd_ithvar(v) : bdd_nithvar(v)));
            bdd_delref(r);
            r = s;
        }
    return r;
}

static bool member_bdd(BDD a, uint64_t state)
{
    while (a != bddtrue && a != bddfalse)
        a = state >> bdd_var(a) & 1 ? bdd_high(a) : bdd_low(a);
    return a == bddtrue;
}

enum { POOL = 32 };

int main(int argc, char **argv)
{
    if (argc != 4) {
        fprintf(stderr, "usage: diagrams ENTRIES BITS SEED\n");
        return 2;
    }
    entries = strtoul(argv[1], 0, 10);
    int bits = atoi(argv[2]);
    seed = strtoull(argv[3], 0, 10) * 0x9e3779b97f4a7c15ull + 1;
    slots = 4 * entries;
    bit = malloc(4 * entries), low = malloc(4 * entries), high = malloc(4 * entries);
    chain = malloc(4 * entries), heads = calloc(entries, 4), memo = calloc(slots, 4);
    bdd_init(2 * entries + 1000, entries);
    bdd_setvarnum(bits);
    bdd_setmaxincrease(0);
    bdd_gbc_hook(NULL);

    uint32_t ours[POOL] = {0};
    BDD theirs[POOL];
    for (int i = 0; i < POOL; i++)
        theirs[i] = bdd_addref(bddfalse);
    double t_ours = 0, t_theirs = 0, kind_ours[5] = {0}, kind_theirs[5] = {0};
    long n = 0, kinds[5] = {0}, wrong = 0;
    for (;;) {
        int i = draw(POOL), j = draw(POOL), k = draw(POOL), what = draw(100), kind;
        uint64_t care, value;
        struct laurelsnap_set r;
        BDD s;
        double t0, t1, t2;
        if (theirs[i] == bddfalse || theirs[i] == bddtrue) {
            cube(bits, 4 + draw(8), &care, &value);
            BDD c = cube_bdd(bits, care, value);
            t0 = now();
            r = laurelsnap_demand(LENT, care, value, 1);
            t1 = now();
            s = bdd_addref(bdd_and(bddtrue, c));
            t2 = now();
            bdd_delref(c);
            kind = 4, k = i;
        } else if (what < 60) {
            kind = what < 40 ? UNION : what < 50 ? DIFFERENCE : INTERSECTION;
            t0 = now();
            r = on_two[kind](LENT, ours[i], ours[j]);
            t1 = now();
            s = bdd_addref(kind == UNION ? bdd_or(theirs[i], theirs[j]) : kind == DIFFERENCE ? bdd_apply(theirs[i], theirs[j], bddop_diff) : bdd_and(theirs[i], theirs[j]));
            t2 = now();
        } else if (what < 80) {
            int v = draw(bits);
            t0 = now();
            r = laurelsnap_forget(LENT, v, ours[i]);
            t1 = now();
            s = bdd_addref(bdd_exist(theirs[i], bdd_ithvar(v)));
            t2 = now();
            kind = 3;
        } else {
            cube(bits, 1 + draw(4), &care, &value);
            BDD c = cube_bdd(bits, care, value);
            t0 = now();
            r = laurelsnap_demand(LENT, care, value, ours[i]);
            t1 = now();
            s = bdd_addref(bdd_and(theirs[i], c));
            t2 = now();
            bdd_delref(c);
            kind = 4;
        }
        if (r.full)
            break;
        count = r.count;
        n++, kinds[kind]++;
        t_ours += t1 - t0, t_theirs += t2 - t1;
        kind_ours[kind] += t1 - t0, kind_theirs[kind] += t2 - t1;
        bdd_delref(theirs[k]);
        ours[k] = r.name, theirs[k] = s;
        for (int m = 0; m < 4; m++) {
            uint64_t state = draw(1ull << 40);
            wrong += member(bit, low, high, r.name, state) != member_bdd(s, state);
        }
    }
    printf("%zu entries, %d bits, %ld operations: ours %.0f ns, BuDDy %.0f ns, ratio %.2f%s\n", count, bits, n, t_ours / n, t_theirs / n, t_ours / t_theirs, wrong ? " WRONG" : "");
    static const char *names[] = {"union", "difference", "intersection", "forget", "demand"};
    for (int i = 0; i < 5; i++)
        if (kinds[i])
            printf("    %-12s %7ld: ours %8.0f ns, BuDDy %8.0f ns, ratio %.2f\n", names[i], kinds[i], kind_ours[i] / kinds[i], kind_theirs[i] / kinds[i], kind_ours[i] / kind_theirs[i]);
    return wrong != 0;
}
