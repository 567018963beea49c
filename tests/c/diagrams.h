/*
 * What the test and the benchmark of the operations on sets have in common: the operations, random numbers, and membership.
 */
#ifndef TESTS_DIAGRAMS_H
#define TESTS_DIAGRAMS_H

#include "laurelsnap_sets.h"

/* The operations on two sets. */
enum { UNION, DIFFERENCE, INTERSECTION };

static struct laurelsnap_set (*const on_two[])(LAURELSNAP_LISTS, uint32_t a, uint32_t b) = {laurelsnap_union, laurelsnap_difference,
                                                                                            laurelsnap_intersection};

static uint64_t seed;

/* A random number below the given one (xorshift); the seed must not be 0. */
static uint64_t draw(uint64_t below)
{
    seed ^= seed << 13;
    seed ^= seed >> 7;
    seed ^= seed << 17;
    return (seed >> 11) % below;
}

/* Whether the set of this name holds the state, bit k of which is worth 2^k. */
static bool member(const uint32_t *bit, const uint32_t *low, const uint32_t *high, uint32_t name, uint64_t state)
{
    while (name >= 2)
        name = state >> bit[name - 2] & 1 ? high[name - 2] : low[name - 2];
    return name == 1;
}

#endif
