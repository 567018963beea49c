/*
 * Whole searches with working lists of many lengths and contents. Each must give what a search with working lists of full length, all zero,
 * gives: the answer, the plan, the pairs, the node entries and the utility entries, in the same order, with all later entries as they were.
 * Node lists that are shorter than the node count must be refused 14, utility lists that are shorter than the entry count 13, lists of pairs
 * that are one entry short 23, and no others. Then the same of the engine that lists states: the answer, the plan, the states and their
 * places, in the same order; lists that are shorter than the states must be refused 24, a plan list that is one step short 15, and no others.
 *
 * Every list ends at a page that can be neither read nor written, and the numbers before it must stay.
 *
 * Usage: working_lists FILE...
 */
#define _DEFAULT_SOURCE /* for MAP_ANONYMOUS */
#include "laurelsnap.h"

#include <signal.h>
#include <stdbool.h>
#include <stdio.h>
#include <stdlib.h>
#include <string.h>
#include <sys/mman.h>
#include <unistd.h>

enum { PAGE = 4096, MOST_BYTES = 16384, MOST_PAIRS = 8192, ENTRIES = 1 << 17, FULL_MEMO = 12 * ENTRIES + 12312 };
enum { LATER = 5, BEFORE = 16, UNTOUCHED = 0x5a };

/* The lists of a search, and that of the states. The engine that lists them takes costs, steps, heads and plan too, and chain for its links. */
enum { STATES, COSTS, STEPS, SETS, WANTED, BIT, LOW, HIGH, UTILITY_BIT, UTILITY_LOW, UTILITY_HIGH, HEADS, CHAIN, MEMO, PLAN, LISTS };

static const char *const names[LISTS] = { "states", "costs", "steps", "sets", "wanted", "bit", "low", "high", "utility bit",
    "utility low", "utility high", "heads", "chain", "memo", "plan" };
static uint8_t *ends[LISTS];     /* a list stands in front of its end */
static size_t lengths[LISTS];    /* how many numbers are lent */
static uint8_t *expected[LISTS]; /* what the call with full-length working lists wrote */
static uint8_t *untouched;

struct task {
    const char *name;
    uint8_t file[MOST_BYTES + 1];
    size_t length;
};

static struct task tasks[2], *task, *other; /* the task that is searched, and the one before it */
static struct laurelsnap_found full;
static struct laurelsnap_listed full_list;
static size_t made; /* the nodes of the one, or the states of the other */
static unsigned long searches, listings;

static size_t width(int list) { return list == STATES ? 8 : list == PLAN ? 2 : 4; }
static uint8_t *first(int list) { return ends[list] - width(list) * lengths[list]; }
static uint32_t *words(int list) { return (uint32_t *)(void *)first(list); }

/* ---- what is told of a fault */

/* The contents of the working lists. */
enum { ZEROS, ONES, LINKS, NAMES, SLOTS, CIRCLES, NOISE, CONTENTS };

static const char *const content_names[CONTENTS] = { "zeros", "ones", "links", "names", "slots", "circles", "noise" };
static int contents[LISTS];
static bool used;

static void fail(const char *what)
{
    fprintf(stderr, "working_lists: %s: %s:", task->name, what);
    for (int list = 0; list < LISTS; list++) {
        fprintf(stderr, "%s %s %zu", list == 0 ? "" : ",", names[list], lengths[list]);
        if (HEADS <= list && list <= MEMO)
            fprintf(stderr, " of %s", content_names[contents[list]]);
    }
    fprintf(stderr, "%s; of full length: nodes %llu, entries %llu, states %llu\n", used ? ", used before" : "",
        (unsigned long long)full.nodes, (unsigned long long)full.entries, (unsigned long long)full_list.states);
    _exit(EXIT_FAILURE);
}

static void fail_at(const char *what, int list)
{
    char text[80];
    snprintf(text, sizeof text, "%s: %s", names[list], what);
    fail(text);
}

static void on_signal(int number) { fail(number == SIGALRM ? "the call does not end" : "the call reads or writes outside the lists"); }

/* ---- random numbers */

static uint64_t seed = 1;

static size_t below(size_t n)
{
    seed = seed * 6364136223846793005u + 1442695040888963407u;
    return (size_t)(seed >> 33) % n;
}

/* ---- the lists */

static void *pages(size_t bytes)
{
    size_t whole = (bytes + PAGE - 1) / PAGE * PAGE + PAGE;
    uint8_t *at = mmap(NULL, whole + PAGE, PROT_READ | PROT_WRITE, MAP_PRIVATE | MAP_ANONYMOUS, -1, 0);
    if (at == MAP_FAILED || mprotect(at + whole, PAGE, PROT_NONE) != 0) {
        perror("working_lists: mmap");
        exit(EXIT_FAILURE);
    }
    return at + whole;
}

static void make_lists(void)
{
    for (int list = 0; list < LISTS; list++) {
        size_t most = list <= WANTED || list == PLAN ? MOST_PAIRS : list == MEMO ? FULL_MEMO : ENTRIES;
        ends[list] = pages(width(list) * most + BEFORE);
        expected[list] = malloc(width(list) * most);
        lengths[list] = most;
    }
    untouched = malloc(4 * FULL_MEMO);
    memset(untouched, UNTOUCHED, 4 * FULL_MEMO);
}

/* Readies all lists but the working lists, and what stands before every list. */
static void untouch(void)
{
    for (int list = 0; list < LISTS; list++) {
        memset(first(list) - BEFORE, UNTOUCHED, BEFORE);
        if (list < HEADS || list > MEMO)
            memset(first(list), UNTOUCHED, width(list) * lengths[list]);
    }
}

/* Whether the list begins with so many of the expected numbers and has all later ones as they were. */
static void check_list(int list, size_t written)
{
    size_t bytes = width(list) * written;
    if (memcmp(first(list), expected[list], bytes) != 0)
        fail_at("other numbers", list);
    if (memcmp(first(list) + bytes, untouched, width(list) * lengths[list] - bytes) != 0)
        fail_at("a number that should have stayed", list);
}

static void check_lists(int from, int to, size_t written)
{
    for (int list = from; list <= to; list++)
        check_list(list, written);
}

/* ---- contents of the working lists, made once for each task; a list takes them from some place on */

enum { DRAWN = 1 << 17 };

static uint32_t drawn[CONTENTS][DRAWN];

static void draw_contents(void)
{
    for (size_t i = 0; i < DRAWN; i++) {
        drawn[ONES][i] = UINT32_MAX;
        drawn[LINKS][i] = (uint32_t)(1 + below(made));
        drawn[NAMES][i] = (uint32_t)(2 + below(made));
        drawn[SLOTS][i] = (uint32_t)(i % 4 == 0 ? 1 + below(below(2) ? 6 : 600) : below(made + 2));
        drawn[NOISE][i] = (uint32_t)below((size_t)1 << 31) * 2u + (uint32_t)below(2);
    }
}

/* Fills a working list. Links and names are of entries that are there in the end; slots are an operation, two names and a result each. */
static void fill(int list, int content)
{
    uint32_t *at = words(list);
    size_t n = lengths[list];
    contents[list] = content;
    if (content == CIRCLES) {
        for (size_t i = 0; i < n; i++)
            at[i] = list == CHAIN ? (uint32_t)i + 1 : (uint32_t)made;
    } else {
        for (size_t i = 0; i < n;) {
            size_t from = content == SLOTS ? 0 : below(64), more = DRAWN - from;
            more = more < n - i ? more : n - i;
            memcpy(at + i, drawn[content] + from, 4 * more);
            i += more;
        }
    }
    if (list == MEMO && content == SLOTS && n >= 2) {
        /* a memo that seems to be in use: the last stamp and the number of slots */
        at[0] = below(4) == 0 ? UINT32_MAX - (uint32_t)below(3) : 600;
        at[1] = (uint32_t)(n / 4);
    }
}

/* ---- searches */

static struct laurelsnap_found search(const struct task *t)
{
    alarm(60);
    searches++;
    struct laurelsnap_found found = laurelsnap_search(t->file, t->length, words(COSTS), lengths[COSTS], words(STEPS), lengths[STEPS],
        words(SETS), lengths[SETS], words(WANTED), lengths[WANTED], words(BIT), lengths[BIT], words(LOW), lengths[LOW], words(HIGH),
        lengths[HIGH], words(UTILITY_BIT), lengths[UTILITY_BIT], words(UTILITY_LOW), lengths[UTILITY_LOW], words(UTILITY_HIGH),
        lengths[UTILITY_HIGH], words(HEADS), lengths[HEADS], words(CHAIN), lengths[CHAIN], words(MEMO), lengths[MEMO],
        (uint16_t *)(void *)first(PLAN), lengths[PLAN]);
    alarm(0);
    return found;
}

static void lend(size_t pairs, size_t nodes, size_t entries, size_t plan)
{
    lengths[STATES] = 0;
    lengths[COSTS] = lengths[STEPS] = lengths[SETS] = lengths[WANTED] = pairs;
    lengths[BIT] = lengths[LOW] = lengths[HIGH] = nodes;
    lengths[UTILITY_BIT] = lengths[UTILITY_LOW] = lengths[UTILITY_HIGH] = entries;
    lengths[PLAN] = plan;
}

/* Working lists of full length, all zero, and all other lists ready. */
static void fill_full(size_t memo)
{
    lengths[HEADS] = lengths[CHAIN] = ENTRIES;
    lengths[MEMO] = memo;
    used = false;
    for (int list = HEADS; list <= MEMO; list++)
        fill(list, ZEROS);
    untouch();
}

/* Notes what a call with such lists wrote, and draws contents that fit it. */
static void keep_full(uint64_t number, size_t count)
{
    if (number != 0)
        fail("refused with working lists of full length");
    for (int list = 0; list < LISTS; list++)
        memcpy(expected[list], first(list), width(list) * lengths[list]);
    made = count;
    draw_contents();
}

/* The search with working lists of full length, and what it wrote. */
static void search_full(void)
{
    lend(MOST_PAIRS, ENTRIES, ENTRIES, MOST_PAIRS);
    fill_full(FULL_MEMO);
    memset(&full, 0, sizeof full);
    memset(&full_list, 0, sizeof full_list);
    full = search(task);
    keep_full(full.number, full.nodes);
}

/* The number of an answer is the one that is due, the rest too, and what stands before the lists is as it was. */
static void check_answer(uint64_t number, uint64_t due, bool same)
{
    if (number != due) {
        char text[80];
        snprintf(text, sizeof text, "number %llu in place of %llu", (unsigned long long)number, (unsigned long long)due);
        fail(text);
    }
    if (!same)
        fail("another answer");
    for (int list = 0; list < LISTS; list++)
        if (memcmp(first(list) - BEFORE, untouched, BEFORE) != 0)
            fail_at("a number before the list", list);
}

/* The search with working lists of these lengths and drawn contents, in node lists, utility lists and lists of pairs of these lengths. Too few
   nodes are never lent together with too few pairs, so that it is plain which refusal is due. */
static void search_with(size_t heads, size_t chain, size_t memo, size_t nodes, size_t entries, size_t pairs)
{
    lengths[HEADS] = heads;
    lengths[CHAIN] = chain;
    lengths[MEMO] = memo;
    for (int list = HEADS; list <= MEMO; list++)
        fill(list, (int)below(CONTENTS));
    used = below(8) == 0;
    if (used) {
        lend(MOST_PAIRS, ENTRIES, ENTRIES, MOST_PAIRS);
        search(other);
    }
    lend(pairs, nodes, entries, full.steps + LATER);
    untouch();
    struct laurelsnap_found found = search(task), due = { 0 };
    due.number = entries < full.entries ? 13 : nodes < full.nodes ? 14 : pairs < full.pairs ? 23 : 0;
    if (due.number == 0)
        due = full;
    check_answer(found.number, due.number, memcmp(&found, &due, sizeof due) == 0);
    bool done = due.number == 0;
    check_list(PLAN, done ? full.steps : 0);
    if (done || due.number == 13) {
        check_lists(COSTS, WANTED, done ? full.pairs : 0);
        check_lists(BIT, HIGH, done ? full.nodes : 0);
    }
    if (done)
        check_lists(UTILITY_BIT, UTILITY_HIGH, full.entries);
}

/* Node lists, utility lists and lists of pairs with more room, just enough, one entry too short, and any number too short. */
static void search_rooms(size_t heads, size_t chain, size_t memo, int room)
{
    size_t nodes = full.nodes, entries = full.entries, pairs = full.pairs;
    switch (room) {
    case 0:
        search_with(heads, chain, memo, nodes + LATER, entries + LATER, pairs + LATER);
        break;
    case 1:
        search_with(heads, chain, memo, nodes, entries, pairs);
        break;
    case 2:
        search_with(heads, chain, memo, nodes - 1, entries, pairs);
        break;
    case 3:
        search_with(heads, chain, memo, nodes + LATER, entries - 1, pairs);
        break;
    case 4:
        search_with(heads, chain, memo, below(nodes), entries + LATER, pairs + LATER);
        break;
    case 5:
        search_with(heads, chain, memo, below(nodes + 1), below(entries), below(pairs + 1));
        break;
    default:
        search_with(heads, chain, memo, nodes + LATER, entries, below(pairs));
    }
}

enum { ROOMS = 7, HEAD_LENGTHS = 9, CHAIN_LENGTHS = 8, MEMO_LENGTHS = 10, SLOW_HEADS = 3, SLOW_CHAINS = 4, SLOW_MEMOS = 5 };

/* One of the lengths; seldom one of the first few, with which a search with many entries is slow. */
static size_t some(const size_t *from, size_t count, size_t slow) { return from[below(20) == 0 ? below(slow) : slow + below(count - slow)]; }

static void search_task(void)
{
    search_full();
    size_t nodes = full.nodes, entries = full.entries;
    const size_t heads[HEAD_LENGTHS] = { 0, 1, 3, 777, nodes / 2, nodes, nodes + 1, 4105, 70001 };
    const size_t chain[CHAIN_LENGTHS] = { 0, 1, nodes / 2, entries - 1, nodes - 1, nodes, nodes + entries, 70001 };
    const size_t memo[MEMO_LENGTHS] = { 0, 1, 777, 4104, 6155, 6156, 6157, 12312, 70001, 12 * nodes + 12312 };
    for (int round = 0; round < (nodes < 100 ? 2 : nodes < 400 ? 1 : 0); round++)
        for (int h = 0; h < HEAD_LENGTHS; h++)
            for (int c = 0; c < CHAIN_LENGTHS; c++)
                for (int m = 0; m < MEMO_LENGTHS; m++)
                    for (int room = 0; room < ROOMS; room++)
                        search_rooms(heads[h], chain[c], memo[m], room);
    for (int round = 0; round < (nodes < 400 ? 0 : nodes < 5000 ? 80 : 6); round++)
        for (int room = 0; room < ROOMS; room++)
            search_rooms(some(heads, HEAD_LENGTHS, SLOW_HEADS), some(chain, CHAIN_LENGTHS, SLOW_CHAINS), some(memo, MEMO_LENGTHS, SLOW_MEMOS), room);
}

/* ---- the engine that lists states */

static struct laurelsnap_listed list_states(const struct task *t)
{
    alarm(60);
    listings++;
    struct laurelsnap_listed listed = laurelsnap_states(t->file, t->length, (uint64_t *)(void *)first(STATES), lengths[STATES], words(COSTS),
        lengths[COSTS], words(STEPS), lengths[STEPS], words(HEADS), lengths[HEADS], words(CHAIN), lengths[CHAIN],
        (uint16_t *)(void *)first(PLAN), lengths[PLAN]);
    alarm(0);
    return listed;
}

static void lend_states(size_t states, size_t plan)
{
    lend(0, 0, 0, plan);
    lengths[STATES] = lengths[COSTS] = lengths[STEPS] = states;
}

static void list_full(void)
{
    lend_states(MOST_PAIRS, MOST_PAIRS);
    fill_full(0);
    full_list = list_states(task);
    keep_full(full_list.number, full_list.states);
}

/* The states listed with working lists of these lengths and drawn contents, in lists and with a plan list of these lengths. */
static void list_with(size_t heads, size_t links, size_t states, size_t plan)
{
    lengths[HEADS] = heads;
    lengths[CHAIN] = links;
    lengths[MEMO] = 0;
    for (int list = HEADS; list <= CHAIN; list++)
        fill(list, (int)below(CONTENTS));
    used = below(8) == 0;
    if (used) {
        lend_states(MOST_PAIRS, MOST_PAIRS);
        list_states(other);
    }
    lend_states(states, plan);
    untouch();
    struct laurelsnap_listed listed = list_states(task), due = { 0 };
    due.number = states < full_list.states ? 24 : plan < full_list.steps ? 15 : 0;
    if (due.number == 0)
        due = full_list;
    check_answer(listed.number, due.number, memcmp(&listed, &due, sizeof due) == 0);
    check_list(PLAN, due.steps);
    if (due.number == 0)
        check_lists(STATES, STEPS, due.states);
}

/* Lists with more room, just enough, one entry too short, any number too short, and a plan list that is one step too short. */
static void list_rooms(size_t heads, size_t links)
{
    size_t states = full_list.states, steps = full_list.steps;
    list_with(heads, links, states + LATER, steps + LATER);
    list_with(heads, links, states, steps);
    list_with(heads, links, states - 1, steps);
    list_with(heads, links, below(states), below(steps + 1));
    if (steps > 0)
        list_with(heads, links, states + below(LATER), steps - 1);
}

enum { STATE_HEADS = 13, STATE_LINKS = 11, SLOW_LENGTHS = 3 };

static void list_task(void)
{
    list_full();
    size_t states = full_list.states;
    const size_t heads[STATE_HEADS] = { 0, 1, 3, 777, states - 1, states, states + 1, 1023, 1024, 1025, 4096, 4097, 70001 };
    const size_t links[STATE_LINKS] = { 0, 1, 3, states / 2, states - 1, states, states + 1, 1023, 1024, 2 * states + 1, 70001 };
    for (int round = 0; round < (states < 100 ? 4 : states < 1000 ? 1 : 0); round++)
        for (int h = 0; h < STATE_HEADS; h++)
            for (int l = 0; l < STATE_LINKS; l++)
                list_rooms(heads[h], links[l]);
    for (int round = 0; round < (states < 1000 ? 0 : 20); round++)
        list_rooms(some(heads, STATE_HEADS, SLOW_LENGTHS), some(links, STATE_LINKS, SLOW_LENGTHS));
}

static void read_task(struct task *t, const char *name)
{
    t->name = name;
    FILE *in = fopen(name, "rb");
    if (in == NULL) {
        perror(name);
        exit(EXIT_FAILURE);
    }
    t->length = fread(t->file, 1, sizeof t->file, in);
    fclose(in);
}

int main(int argc, char **argv)
{
    signal(SIGSEGV, on_signal);
    signal(SIGBUS, on_signal);
    signal(SIGALRM, on_signal);
    make_lists();
    for (int i = 1; i < argc; i++) {
        task = &tasks[i % 2];
        other = &tasks[i == 1 ? 1 : (i - 1) % 2];
        read_task(task, argv[i]);
        search_task();
        list_task();
    }
    printf("working lists: %d tasks, %lu searches and %lu lists of states are what they are with lists of full length\n", argc - 1, searches,
        listings);
    return EXIT_SUCCESS;
}
