/*
 * The operations on sets of states, for the tests and the benchmark in C.
 *
 * Link with the static library that `tools/build diagram_bench` writes, target/staticlib/libdiagram_bench.a.
 *
 * A set is a name: 0 the empty set, 1 the full one, k + 2 the entry k of the three node lists of equal length, of which `count` entries are
 * in use. heads, chain and memo are working lists of any lengths. Before the first operation the count is 0 and the memo is all zero (it is
 * used from the first demand on, if it has 4,104 numbers or more), while heads and chain may hold anything; from then on only the operations
 * write to the lists, and each takes the count that the one before it gave. A bit is below 60, and bit k of a state or a cube is worth 2^k. No
 * address is null. After an answer with `full` the lists are of no more use.
 */
#ifndef LAURELSNAP_SETS_H
#define LAURELSNAP_SETS_H

#include <stdbool.h>
#include <stddef.h>
#include <stdint.h>

struct laurelsnap_set {
    uint32_t name;
    size_t count;
    bool full;
};

#define LAURELSNAP_LISTS                                                                                                                  \
    uint32_t *bit, size_t bits, uint32_t *low, size_t lows, uint32_t *high, size_t highs, uint32_t *heads, size_t head_count,             \
        uint32_t *chain, size_t chain_count, uint32_t *memo, size_t memo_count, size_t count

/*
 * The union of two sets. A set joined with the empty set, the full set or itself, on either side, is handed over by its known name, with the
 * count as it was and every list as it was: then nothing is asked of the lists' contents and lengths, of the count or of the names.
 */
struct laurelsnap_set laurelsnap_union(LAURELSNAP_LISTS, uint32_t a, uint32_t b);

/* a less b; likewise where both are one set, a is the empty set, or b is the empty or the full one */
struct laurelsnap_set laurelsnap_difference(LAURELSNAP_LISTS, uint32_t a, uint32_t b);

/* what both have; likewise with the empty set, the full set or itself, on either side */
struct laurelsnap_set laurelsnap_intersection(LAURELSNAP_LISTS, uint32_t a, uint32_t b);

/* the states that are in the set with the bit as it is or changed */
struct laurelsnap_set laurelsnap_forget(LAURELSNAP_LISTS, uint32_t v, uint32_t a);

/* the states of the set whose bits are those of `value` where `care` is 1 */
struct laurelsnap_set laurelsnap_demand(LAURELSNAP_LISTS, uint64_t care, uint64_t value, uint32_t a);

#endif
