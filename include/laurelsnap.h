/*
 * Laurelsnap for C and C++: the best plan of a task file in one call,
 *
 *     void *block = calloc(LAURELSNAP_PLAN_BYTES, 1);
 *     struct laurelsnap_best best = laurelsnap_plan(file, length, block);
 *     if (best.number)
 *         fprintf(stderr, "refused %u %u: %s\n", (unsigned)best.number, (unsigned)best.value, laurelsnap_cause(best.number));
 *     for (uint64_t k = 0; k < best.steps; k++)
 *         printf("%u\n", (unsigned)best.plan[k]);
 *
 * and all of which that is made: the file check, the writer of canonical files, the walk of a given plan, the search for the best plan, the
 * question where a state stands: what it costs at least, and in how many steps; and a second engine, which finds the same plan by listing
 * states.
 *
 * Link with the static library target/staticlib/libsupervisor.a, which `tools/build supervisor` proves and writes.
 *
 * Arguments
 *   A byte string is given by the address of its first byte and its length. The address is never null, not even where the
 *   length is 0: give the address of any object then. Lists, the writer's output list of bytes among them, are lent in the same way, as
 *   address and number of entries; a lent list never shares memory with another one or with a byte string. What is const is only read,
 *   and all of it only during the call; nothing is kept, nothing is allocated, and calls from several threads do not disturb each
 *   other as long as none is lent a list that another one uses. Any bytes will do: every input gets an answer. A walked plan is two
 *   bytes for each step, the operator's number, low byte first.
 *
 * Answers
 *   `number` is 0 for success, else a refusal's number (enum laurelsnap_refusal). The two values, `first` and `second`, are
 *     file check, passed           0, 0
 *     writer, written              the length written, 0
 *     walk, succeeded              cost, utility of the state reached
 *     7, 9 and 10                  the record's number, 0
 *     17, 18 and 19                the step's number, 0
 *     any other refusal            0, 0
 *   The answers of a search (struct laurelsnap_found), of a question (struct laurelsnap_place) and of the engine that lists states (struct
 *   laurelsnap_listed) have one value, the same as `first` above, and 0 for success; then what they report.
 *   Records and steps are counted from 0. Only the first fault is told.
 *
 * What a refusal leaves as it was
 *     1 to 12, 16 to 22            every list, the working lists too
 *     13                           the lists of pairs, the node lists and the plan
 *     14, 15, 23 and 24            the plan
 *
 * What lent lists hold does not matter, and of working lists the library reads what it has not written, so valgrind's memcheck warns about
 * lists that malloc leaves uninitialised. That is no fault, and no answer depends on it; lists from calloc or mmap have no such warning, and
 * take no memory either before they are written to.
 */
#ifndef LAURELSNAP_H
#define LAURELSNAP_H

#include <stddef.h>
#include <stdint.h>

#ifdef __cplusplus
extern "C" {
#endif

#define LAURELSNAP_VERSION "0.1.0"

/* The limits of a task, and of lists. */
#define LAURELSNAP_FILE_MOST 16384      /* bytes of a task file; read one more, so that a longer file is refused as such */
#define LAURELSNAP_CANONICAL_MOST 12380 /* bytes of a canonical file */
#define LAURELSNAP_VARIABLES_MOST 32
#define LAURELSNAP_VALUES_MOST 16       /* of a variable */
#define LAURELSNAP_BITS_MOST 48         /* of all variables together */
#define LAURELSNAP_OPERATORS_MOST 256
#define LAURELSNAP_TERMS_MOST 256
#define LAURELSNAP_BOUND_MOST 4095      /* units of ten seconds, and of an operator's cost */
#define LAURELSNAP_LIST_MOST 1048576    /* entries of a list of pairs, states, nodes or utility entries */

struct laurelsnap_answer {
    uint64_t number;
    uint64_t first;
    uint64_t second;
};

/* The refusals. The file check finds 1 to 10 in this order; the writer those and then 22, the walk those and 16 to 19, the question those,
   12, 20 and 21, the search those, 12 and 13, then at each pair 14 before 23, and 15 last, the engine that lists states those, 12, 24 and
   15. There is no 11. */
enum laurelsnap_refusal {
    LAURELSNAP_OK = 0,
    LAURELSNAP_SHORT_FILE = 1,         /* file under 28 bytes */
    LAURELSNAP_LONG_FILE = 2,          /* file over 16,384 bytes */
    LAURELSNAP_LETTERS = 3,            /* the first four bytes are not BPT1 */
    LAURELSNAP_LENGTH_FIELD = 4,       /* the length field differs from the file's length */
    LAURELSNAP_COUNTS = 5,             /* a count or the bound outside its range */
    LAURELSNAP_SECTIONS = 6,           /* a section outside the file or in the header, or two that overlap */
    LAURELSNAP_VARIABLE = 7,           /* a variable record against the rules */
    LAURELSNAP_BITS = 8,               /* the variables take more than 48 bits */
    LAURELSNAP_OPERATOR = 9,           /* an operator record against the rules */
    LAURELSNAP_TERM = 10,              /* a term record against the rules */
    LAURELSNAP_LISTS = 12,             /* lists of pairs, states, nodes or utility entries of unequal lengths, or over 1,048,576 long */
    LAURELSNAP_UTILITY_ENTRIES = 13,   /* the utility diagram has more entries than its lists */
    LAURELSNAP_NODES = 14,             /* the sets have more nodes than the node lists */
    LAURELSNAP_PLAN_LIST = 15,         /* the plan is longer than the plan list */
    LAURELSNAP_ODD_PLAN = 16,          /* the walked plan has an odd number of bytes */
    LAURELSNAP_NO_OPERATOR = 17,       /* a step names no operator of the file */
    LAURELSNAP_PRECONDITION = 18,      /* a precondition of the step's operator does not hold */
    LAURELSNAP_BOUND = 19,             /* the cost so far, the step's included, is above the bound */
    LAURELSNAP_STATE = 20,             /* the questioned state has a wrong number of values, or one out of range */
    LAURELSNAP_NODE_LISTS = 21,        /* the questioned lists are no diagrams of the task, or shorter than they are said to be */
    LAURELSNAP_OUTPUT_LIST = 22,       /* the output list is shorter than the file to be written */
    LAURELSNAP_PAIRS = 23,             /* more non-empty pairs are made than there are entries in their lists */
    LAURELSNAP_STATES = 24             /* the states within the bound outnumber their lists */
};

/* What a refusal's number means, in words. */
static inline const char *laurelsnap_cause(uint64_t number)
{
    switch (number) {
    case LAURELSNAP_OK: return "no refusal";
    case LAURELSNAP_SHORT_FILE: return "the file is under 28 bytes";
    case LAURELSNAP_LONG_FILE: return "the file is over 16,384 bytes";
    case LAURELSNAP_LETTERS: return "the file does not begin with the letters BPT1";
    case LAURELSNAP_LENGTH_FIELD: return "the length field differs from the file";
    case LAURELSNAP_COUNTS: return "a count or the bound is outside its range";
    case LAURELSNAP_SECTIONS: return "a section lies outside the file or in its header, or two overlap";
    case LAURELSNAP_VARIABLE: return "a variable record is against the rules";
    case LAURELSNAP_BITS: return "the variables take more than 48 bits";
    case LAURELSNAP_OPERATOR: return "an operator record is against the rules";
    case LAURELSNAP_TERM: return "a term record is against the rules";
    case LAURELSNAP_LISTS: return "the lists of pairs, states, nodes or utility entries are unequal or too long";
    case LAURELSNAP_UTILITY_ENTRIES: return "the utility lists are too short";
    case LAURELSNAP_NODES: return "the node lists are too short";
    case LAURELSNAP_PLAN_LIST: return "the plan list is too short";
    case LAURELSNAP_ODD_PLAN: return "the plan has an odd number of bytes";
    case LAURELSNAP_NO_OPERATOR: return "there is no such operator";
    case LAURELSNAP_PRECONDITION: return "a precondition is unmet";
    case LAURELSNAP_BOUND: return "the cost so far is above the bound";
    case LAURELSNAP_STATE: return "the state has a wrong number of values, or one out of range";
    case LAURELSNAP_NODE_LISTS: return "the lists are no diagrams of the task";
    case LAURELSNAP_OUTPUT_LIST: return "the output list is too short";
    case LAURELSNAP_PAIRS: return "the lists of pairs are too short";
    case LAURELSNAP_STATES: return "the lists of states are too short";
    default: return "unknown cause";
    }
}

/* The file check of the `length` bytes at `file`. */
struct laurelsnap_answer laurelsnap_check(const uint8_t *file, size_t length);

/* The writer: puts the canonical file of the task in the `file_length` bytes at `file` at the front of the output list, the `out_length`
   bytes at `out`, and leaves the bytes past it. The canonical file has the variables, operators and terms in this order without gaps, so
   files that differ only in gaps and section order have the same one. It is never longer than `file_length`, nor than 12,380 bytes. */
struct laurelsnap_answer laurelsnap_write(const uint8_t *file, size_t file_length, uint8_t *out, size_t out_length);

/* The walk of the plan of `plan_length` bytes at `plan` over the task in the `file_length` bytes at `file`. */
struct laurelsnap_answer laurelsnap_walk(const uint8_t *file, size_t file_length, const uint8_t *plan, size_t plan_length);

/* Whether the answer is a success. */
static inline int laurelsnap_ok(struct laurelsnap_answer answer) { return answer.number == LAURELSNAP_OK; }

/* Of 7, 9 and 10: the record's number. */
static inline uint64_t laurelsnap_record(struct laurelsnap_answer answer) { return answer.first; }

/* Of a file that was written: its length. */
static inline uint64_t laurelsnap_length(struct laurelsnap_answer answer) { return answer.first; }

/* Of 17, 18 and 19: the step's number. */
static inline uint64_t laurelsnap_step(struct laurelsnap_answer answer) { return answer.first; }

/* Of a walk that succeeded: what it cost, and the utility of the state reached. */
static inline uint64_t laurelsnap_cost(struct laurelsnap_answer answer) { return answer.first; }
static inline uint64_t laurelsnap_utility(struct laurelsnap_answer answer) { return answer.second; }

/* The cost of an operator of an accepted file, which has more operators than this number. */
static inline uint64_t laurelsnap_operator_cost(const uint8_t *file, uint64_t number)
{
    const uint8_t *record = file + (file[16] + 256u * file[17]) + 36 * number; /* the section's offset fits two of its four bytes */
    return record[0] + 256u * record[1];
}

/* What a search reports: number and value as above, then the listing's figures in the listing's order and among them the number of
   non-empty pairs made, all 0 after a refusal. */
struct laurelsnap_found {
    uint64_t number;
    uint64_t value;
    uint64_t utility;
    uint64_t ceiling; /* the greatest utility of any state with permitted values, reached or not */
    uint64_t cost;    /* in units of ten seconds */
    uint64_t bound;   /* in units */
    uint64_t minutes; /* the cost in whole minutes, */
    uint64_t units;   /* and the units left over, 0 to 5: 6 * minutes + units == cost */
    uint64_t unused;  /* units: unused + cost == bound */
    uint64_t nodes;
    uint64_t entries;
    uint64_t pairs;
    uint64_t steps;
};

/* What a question reports: number and value as above; then whether the state is reached by the pairs that the search has made, 1 or 0, and
   its place if it is: the least cost, and the fewest steps at that cost. */
struct laurelsnap_place {
    uint64_t number;
    uint64_t value;
    uint64_t reached;
    uint64_t cost;
    uint64_t steps;
};

/*
 * The search for the best plan: greatest utility, then least cost, then fewest steps, then first in dictionary order (refusals 1 to 10, 12 to
 * 15 and 23). Pairs of cost and steps are made in rising order up to the bound, but none after the first that has a state of the ceiling's utility:
 * no plan is better than the best one that ends there. Lists are lent as pointers and lengths:
 *   costs, steps, sets, wanted   an entry for each non-empty pair made, in rising order: cost, steps, the name of the set of states that have
 *                                this place, and that of those on a way to the best ones, 0 past the best plan's pair
 *   bit, low, high               the node lists: entry k is the set named k + 2; 0 is the empty set and 1 the full one
 *   utility_bit, _low, _high     the utility lists
 *   heads, chain, memo           working lists of any length, which decide the time alone: give heads and chain as many numbers as the node
 *                                lists have entries, and memo twelve times as many and 12,312 more (one shorter than 6,156 is not used)
 *   plan                         16 bits a step
 * laurelsnap_share makes all of them from one block of memory.
 */
struct laurelsnap_found laurelsnap_search(
    const uint8_t *file, size_t file_length, uint32_t *costs, size_t costs_length, uint32_t *steps, size_t steps_length,
    uint32_t *sets, size_t sets_length, uint32_t *wanted, size_t wanted_length, uint32_t *bit, size_t bit_length, uint32_t *low,
    size_t low_length, uint32_t *high, size_t high_length, uint32_t *utility_bit, size_t utility_bit_length, uint32_t *utility_low,
    size_t utility_low_length, uint32_t *utility_high, size_t utility_high_length, uint32_t *heads, size_t heads_length,
    uint32_t *chain, size_t chain_length, uint32_t *memo, size_t memo_length, uint16_t *plan, size_t plan_length);

/* The question about one state, a byte per variable, over the lists that a search has left with `count` node entries and `pairs` pairs
   (refusals 1 to 12, 20 and 21). It answers the first pair whose set holds the state; a state past the last pair made is not reached. */
struct laurelsnap_place laurelsnap_question(
    const uint8_t *file, size_t file_length, const uint8_t *state, size_t state_length, const uint32_t *costs, size_t costs_length,
    const uint32_t *steps, size_t steps_length, const uint32_t *sets, size_t sets_length, const uint32_t *wanted, size_t wanted_length,
    const uint32_t *bit, size_t bit_length, const uint32_t *low, size_t low_length, const uint32_t *high, size_t high_length,
    size_t count, size_t pairs);

/*
 * All lists of a search in one struct, and one block of memory shared out among them. A search in three lines, with all the room that there
 * can be (98 MB, of which it takes what it writes to):
 *
 *     struct laurelsnap_room room = laurelsnap_most();
 *     struct laurelsnap_lists lists = laurelsnap_share(room, calloc(laurelsnap_bytes(room), 1));
 *     struct laurelsnap_found found = laurelsnap_search_in(file, length, &lists);
 *
 * The plan is then lists.plan.at[0] to lists.plan.at[found.steps - 1], and laurelsnap_question_in answers where a state stands.
 */

/* A list of 32-bit numbers, and one of steps. */
struct laurelsnap_list {
    uint32_t *at;
    size_t length;
};
struct laurelsnap_steps {
    uint16_t *at;
    size_t length;
};

/* What the lists have room for: nodes, utility entries, pairs, and steps of the plan. A plan has fewer steps than there are pairs, and
   there are no more pairs than states. */
struct laurelsnap_room {
    size_t nodes;
    size_t utility;
    size_t pairs;
    size_t steps;
};

/* As much room as lists may have. */
static inline struct laurelsnap_room laurelsnap_most(void)
{
    struct laurelsnap_room room = { LAURELSNAP_LIST_MOST, LAURELSNAP_LIST_MOST, LAURELSNAP_LIST_MOST, LAURELSNAP_LIST_MOST };
    return room;
}

struct laurelsnap_lists {
    struct laurelsnap_list costs, steps, sets, wanted;
    struct laurelsnap_list bit, low, high;
    struct laurelsnap_list utility_bit, utility_low, utility_high;
    struct laurelsnap_list heads, chain, memo;
    struct laurelsnap_steps plan;
};

/* The length of heads and of chain for such a room, and that of memo. */
static inline size_t laurelsnap_working(struct laurelsnap_room room) { return room.nodes > room.utility ? room.nodes : room.utility; }
static inline size_t laurelsnap_memo(struct laurelsnap_room room) { return 12 * laurelsnap_working(room) + 12312; }

/* How many bytes the lists take. */
static inline size_t laurelsnap_bytes(struct laurelsnap_room room)
{
    size_t numbers = 4 * room.pairs + 3 * room.nodes + 3 * room.utility + 2 * laurelsnap_working(room) + laurelsnap_memo(room);
    return sizeof(uint32_t) * numbers + sizeof(uint16_t) * room.steps;
}

/* The next list of the block that begins at *rest, which moves behind it. */
static inline struct laurelsnap_list laurelsnap_next(uint32_t **rest, size_t length)
{
    struct laurelsnap_list list = { *rest, length };
    *rest += length;
    return list;
}

/* Shares out a block of laurelsnap_bytes(room) bytes, aligned as malloc does and not null. What it holds before a search does not matter. */
static inline struct laurelsnap_lists laurelsnap_share(struct laurelsnap_room room, void *block)
{
    uint32_t *rest = (uint32_t *)block;
    struct laurelsnap_lists lists;
    lists.costs = laurelsnap_next(&rest, room.pairs);
    lists.steps = laurelsnap_next(&rest, room.pairs);
    lists.sets = laurelsnap_next(&rest, room.pairs);
    lists.wanted = laurelsnap_next(&rest, room.pairs);
    lists.bit = laurelsnap_next(&rest, room.nodes);
    lists.low = laurelsnap_next(&rest, room.nodes);
    lists.high = laurelsnap_next(&rest, room.nodes);
    lists.utility_bit = laurelsnap_next(&rest, room.utility);
    lists.utility_low = laurelsnap_next(&rest, room.utility);
    lists.utility_high = laurelsnap_next(&rest, room.utility);
    lists.heads = laurelsnap_next(&rest, laurelsnap_working(room));
    lists.chain = laurelsnap_next(&rest, laurelsnap_working(room));
    lists.memo = laurelsnap_next(&rest, laurelsnap_memo(room));
    lists.plan.at = (uint16_t *)(void *)rest;
    lists.plan.length = room.steps;
    return lists;
}

/* The search, with all lists in one struct. */
static inline struct laurelsnap_found laurelsnap_search_in(const uint8_t *file, size_t file_length, const struct laurelsnap_lists *lists)
{
    return laurelsnap_search(file, file_length, lists->costs.at, lists->costs.length, lists->steps.at, lists->steps.length, lists->sets.at,
        lists->sets.length, lists->wanted.at, lists->wanted.length, lists->bit.at, lists->bit.length, lists->low.at, lists->low.length,
        lists->high.at, lists->high.length, lists->utility_bit.at, lists->utility_bit.length, lists->utility_low.at,
        lists->utility_low.length, lists->utility_high.at, lists->utility_high.length, lists->heads.at, lists->heads.length,
        lists->chain.at, lists->chain.length, lists->memo.at, lists->memo.length, lists->plan.at, lists->plan.length);
}

/* The question, over the lists of a search that has reported `found`. */
static inline struct laurelsnap_place laurelsnap_question_in(const uint8_t *file, size_t file_length, const uint8_t *state,
    size_t state_length, const struct laurelsnap_lists *lists, const struct laurelsnap_found *found)
{
    return laurelsnap_question(file, file_length, state, state_length, lists->costs.at, lists->costs.length, lists->steps.at,
        lists->steps.length, lists->sets.at, lists->sets.length, lists->wanted.at, lists->wanted.length, lists->bit.at,
        lists->bit.length, lists->low.at, lists->low.length, lists->high.at, lists->high.length, (size_t)found->nodes,
        (size_t)found->pairs);
}

/*
 * The engine that lists states, without diagrams. Both engines find the same best plan, with the same utility, cost and steps, wherever both
 * accept. Which to use when:
 *
 *                            laurelsnap_search                              laurelsnap_states
 *   keeps                    sets of states as diagrams, for each pair      every single state, with its place
 *   use it for               many states in few nodes                       few states: 1,048,576 at most
 *   room                     68 bytes a node, 12 a utility entry,           24 bytes a state
 *                            16 a pair
 *   ceiling                  reported; nothing is made past it              not reported; everything up to the bound is made
 *   where a state stands     laurelsnap_question, over its lists            in its entry; without one it is not reached within the bound
 */

/* What the engine that lists states reports: number and value as above, then the figures that a search reports, and how many states are
   listed, all 0 after a refusal. */
struct laurelsnap_listed {
    uint64_t number;
    uint64_t value;
    uint64_t utility;
    uint64_t cost;    /* in units of ten seconds */
    uint64_t bound;   /* in units */
    uint64_t minutes; /* the cost in whole minutes, */
    uint64_t units;   /* and the units left over, 0 to 5: 6 * minutes + units == cost */
    uint64_t unused;  /* units: unused + cost == bound */
    uint64_t states;
    uint64_t steps;
};

/*
 * The best plan, as the search finds it, from a list of all states that can be reached within the bound (refusals 1 to 12, 24 and 15).
 * Every pair of cost and steps up to the bound is made, past the ceiling too. Lists are lent as pointers and lengths:
 *   states, costs, steps         an entry for each of those states, once and in any order: the state, and its place, which is its least cost
 *                                and the fewest steps at that cost. A state is a number: a variable takes the fewest bits that can number
 *                                its values, bits follow the file's variables, high bit first, and bit k, from 0 on, is worth 2^k
 *   heads, links                 working lists of any length, which decide the time alone: give each as many numbers as there are entries
 *   plan                         16 bits a step
 * Entries past the states that are listed, and past the plan, stay as they were. laurelsnap_share_states makes all lists from one block of
 * memory.
 */
struct laurelsnap_listed laurelsnap_states(
    const uint8_t *file, size_t file_length, uint64_t *states, size_t states_length, uint32_t *costs, size_t costs_length,
    uint32_t *steps, size_t steps_length, uint32_t *heads, size_t heads_length, uint32_t *links, size_t links_length, uint16_t *plan,
    size_t plan_length);

/*
 * All lists of this engine in one struct, and one block of memory shared out among them:
 *
 *     struct laurelsnap_state_room room = laurelsnap_most_states();
 *     struct laurelsnap_state_lists lists = laurelsnap_share_states(room, calloc(laurelsnap_state_bytes(room), 1));
 *     struct laurelsnap_listed listed = laurelsnap_states_in(file, length, &lists);
 *
 * The plan is then lists.plan.at[0] to lists.plan.at[listed.steps - 1], and the states are lists.states.at[0] to
 * lists.states.at[listed.states - 1], with lists.costs and lists.steps beside them.
 */

/* A list of states. */
struct laurelsnap_words {
    uint64_t *at;
    size_t length;
};

/* What the lists have room for: states, and steps of the plan, which has fewer than there are states. */
struct laurelsnap_state_room {
    size_t states;
    size_t steps;
};

/* As much room as these lists may have. */
static inline struct laurelsnap_state_room laurelsnap_most_states(void)
{
    struct laurelsnap_state_room room = { LAURELSNAP_LIST_MOST, LAURELSNAP_LIST_MOST - 1 };
    return room;
}

struct laurelsnap_state_lists {
    struct laurelsnap_words states;
    struct laurelsnap_list costs, steps;
    struct laurelsnap_list heads, links;
    struct laurelsnap_steps plan;
};

/* How many bytes the lists take. */
static inline size_t laurelsnap_state_bytes(struct laurelsnap_state_room room)
{
    return (sizeof(uint64_t) + 4 * sizeof(uint32_t)) * room.states + sizeof(uint16_t) * room.steps;
}

/* Shares out a block of laurelsnap_state_bytes(room) bytes, aligned as malloc does and not null. What it holds before does not matter. */
static inline struct laurelsnap_state_lists laurelsnap_share_states(struct laurelsnap_state_room room, void *block)
{
    struct laurelsnap_state_lists lists;
    lists.states.at = (uint64_t *)block;
    lists.states.length = room.states;
    uint32_t *rest = (uint32_t *)(void *)(lists.states.at + room.states);
    lists.costs = laurelsnap_next(&rest, room.states);
    lists.steps = laurelsnap_next(&rest, room.states);
    lists.heads = laurelsnap_next(&rest, room.states);
    lists.links = laurelsnap_next(&rest, room.states);
    lists.plan.at = (uint16_t *)(void *)rest;
    lists.plan.length = room.steps;
    return lists;
}

/* The engine that lists states, with all lists in one struct. */
static inline struct laurelsnap_listed laurelsnap_states_in(
    const uint8_t *file, size_t file_length, const struct laurelsnap_state_lists *lists)
{
    return laurelsnap_states(file, file_length, lists->states.at, lists->states.length, lists->costs.at, lists->costs.length,
        lists->steps.at, lists->steps.length, lists->heads.at, lists->heads.length, lists->links.at, lists->links.length, lists->plan.at,
        lists->plan.length);
}

/*
 * The best plan in one call: by the engine that lists states and, if there are more states than that has room for (24), by the search. Both use
 * the same block, LAURELSNAP_PLAN_BYTES bytes, aligned as malloc does and not null.
 */
#define LAURELSNAP_PLAN_BYTES (((size_t)4 * (4 + 3 + 3 + 2 + 12) + 2) * LAURELSNAP_LIST_MOST + 4 * 12312)

/* What it reports: the figures that both engines report, the plan, which stands in the block, and how much the engine that found it took. */
struct laurelsnap_best {
    uint64_t number; /* the refusal of the engine that was used last: 1 to 10, or 13, 14 or 23 where neither has room */
    uint64_t value;
    uint64_t utility;
    uint64_t cost;    /* in units of ten seconds */
    uint64_t bound;   /* in units */
    uint64_t minutes; /* the cost in whole minutes, */
    uint64_t units;   /* and the units left over, 0 to 5: 6 * minutes + units == cost */
    uint64_t unused;  /* units: unused + cost == bound */
    uint64_t states;  /* within the bound; 0 if the search was used */
    uint64_t nodes;   /* these three of the search; 0 if states were listed */
    uint64_t entries;
    uint64_t pairs;
    uint64_t steps;
    const uint16_t *plan;
};

/* The best plan by the search alone. */
static inline struct laurelsnap_best laurelsnap_plan_by_search(const uint8_t *file, size_t length, void *block)
{
    struct laurelsnap_lists lists = laurelsnap_share(laurelsnap_most(), block);
    struct laurelsnap_found found = laurelsnap_search_in(file, length, &lists);
    struct laurelsnap_best best = { found.number, found.value, found.utility, found.cost, found.bound, found.minutes, found.units,
        found.unused, 0, found.nodes, found.entries, found.pairs, found.steps, lists.plan.at };
    return best;
}

/* The best plan by the engine that lists states alone. */
static inline struct laurelsnap_best laurelsnap_plan_by_states(const uint8_t *file, size_t length, void *block)
{
    struct laurelsnap_state_lists lists = laurelsnap_share_states(laurelsnap_most_states(), block);
    struct laurelsnap_listed listed = laurelsnap_states_in(file, length, &lists);
    struct laurelsnap_best best = { listed.number, listed.value, listed.utility, listed.cost, listed.bound, listed.minutes, listed.units,
        listed.unused, listed.states, 0, 0, 0, listed.steps, lists.plan.at };
    return best;
}

static inline struct laurelsnap_best laurelsnap_plan(const uint8_t *file, size_t length, void *block)
{
    struct laurelsnap_best best = laurelsnap_plan_by_states(file, length, block);
    return best.number == LAURELSNAP_STATES ? laurelsnap_plan_by_search(file, length, block) : best;
}

/*
 * The ceiling, `first` of the answer: the greatest utility of any state with permitted values, reached or not (refusals 1 to 10 and 13). The
 * search tells it of the same task without moves: a copy of the file with no operators and the bound 0. The block is as above, and a plan that
 * stands in it is gone.
 */
static inline struct laurelsnap_answer laurelsnap_ceiling(const uint8_t *file, size_t length, void *block)
{
    struct laurelsnap_answer answer = laurelsnap_check(file, length);
    if (!laurelsnap_ok(answer))
        return answer;
    struct laurelsnap_room room = { LAURELSNAP_BITS_MOST, LAURELSNAP_LIST_MOST, 1, 0 };
    struct laurelsnap_lists lists = laurelsnap_share(room, block);
    uint8_t *still = (uint8_t *)block + laurelsnap_bytes(room); /* the block has room for it behind these lists */
    for (size_t k = 0; k < length; k++)
        still[k] = file[k];
    still[6] = still[7] = still[10] = still[11] = 0;
    struct laurelsnap_found found = laurelsnap_search_in(still, length, &lists);
    answer.number = found.number;
    answer.first = found.number ? found.value : found.ceiling;
    return answer;
}

#ifdef __cplusplus
}
#endif

#endif
