/*
 * The library's calls on a stack of a given size: check, search, walk, question, writer and the engine that lists states, over a task of 48
 * bits with 256 operators and 256 terms, and over each file. Below the stack lie pages that can be neither read nor written, more of them
 * than any call's arrays take, so a call that needs more stack ends the program with a message. Prints how much of the stack each call has
 * used.
 *
 * Usage: stack BYTES FILE...
 */
#define _DEFAULT_SOURCE /* for MAP_ANONYMOUS */
#include "laurelsnap.h"

#include <signal.h>
#include <stdio.h>
#include <stdlib.h>
#include <string.h>
#include <sys/mman.h>
#include <ucontext.h>
#include <unistd.h>

enum { PAGE = 4096, GUARD = 1 << 20, MARK = 0xa5, MOST_BYTES = 16384, MOST_PAIRS = 1 << 17, ENTRIES = 1 << 20 };

enum { CHECK, SEARCH, WALK, QUESTION, WRITE, STATES, CALLS };

static const char *const names[CALLS] = { "check", "search", "walk", "question", "write", "states" };
static size_t used[CALLS];

static const char *name;
static int call;
static uint8_t *stack;
static size_t size;
static ucontext_t here, there;

static uint8_t file[MOST_BYTES + 1], out[MOST_BYTES], steps[2 * MOST_PAIRS], state[32];
static size_t length, variables;
static struct laurelsnap_lists lists;
static struct laurelsnap_found found;
static struct laurelsnap_answer answer;
static struct laurelsnap_place place;
static struct laurelsnap_state_lists state_lists;
static struct laurelsnap_listed listed;

static void fail(const char *what)
{
    fprintf(stderr, "stack: %s: %s: %s, with %zu bytes of stack\n", name, names[call], what, size);
    _exit(EXIT_FAILURE);
}

static void on_fault(int number, siginfo_t *info, void *context)
{
    (void)number;
    (void)context;
    const uint8_t *at = info->si_addr;
    fail(stack - GUARD <= at && at < stack ? "the stack is too small" : "a fault");
}

/* What runs on the stack: one call and as little else as can be. */
static void run(void)
{
    switch (call) {
    case CHECK:
        answer = laurelsnap_check(file, length);
        break;
    case SEARCH:
        found = laurelsnap_search_in(file, length, &lists);
        break;
    case WALK:
        answer = laurelsnap_walk(file, length, steps, 2 * found.steps);
        break;
    case QUESTION:
        place = laurelsnap_question_in(file, length, state, variables, &lists, &found);
        break;
    case WRITE:
        answer = laurelsnap_write(file, length, out, sizeof out);
        break;
    default:
        listed = laurelsnap_states_in(file, length, &state_lists);
    }
}

/* Makes the call on the stack, which is full of marks before, and notes how many bytes at its end have changed. */
static void on_stack(int which)
{
    call = which;
    memset(stack, MARK, size);
    getcontext(&there);
    there.uc_stack.ss_sp = stack;
    there.uc_stack.ss_size = size;
    there.uc_link = &here;
    makecontext(&there, run, 0);
    swapcontext(&here, &there);
    size_t k = 0;
    while (k < size && stack[k] == MARK)
        k++;
    used[call] = used[call] > size - k ? used[call] : size - k;
}

static void expect(uint64_t first, uint64_t second)
{
    if (answer.number != 0 || answer.first != first || answer.second != second)
        fail("another answer than expected");
}

static size_t le16(size_t at) { return file[at] + 256u * file[at + 1]; }

static void put(size_t at, size_t bytes, size_t x)
{
    for (size_t k = 0; k < bytes; k++, x /= 256)
        file[at + k] = (uint8_t)(x % 256);
}

/* A task with this bound and the most bits and records: variables of two and of four values in turn. An operator sets one or two of them,
   the first four for nothing; half of the operators ask for a value before; a term is worth something where a variable, or two, have the
   value 1. */
static void make_large(size_t bound)
{
    enum { VARIABLES = 32, RECORDS = 256, OPERATORS_AT = 28 + 2 * VARIABLES, TERMS_AT = OPERATORS_AT + 36 * RECORDS };
    name = "a task of 48 bits";
    length = TERMS_AT + 12 * RECORDS;
    memset(file, 0, sizeof file);
    memcpy(file, "BPT1", 4);
    put(4, 2, VARIABLES);
    put(6, 2, RECORDS);
    put(8, 2, RECORDS);
    put(10, 2, bound);
    put(12, 4, 28);
    put(16, 4, OPERATORS_AT);
    put(20, 4, TERMS_AT);
    put(24, 4, length);
    for (size_t v = 0; v < VARIABLES; v++)
        put(28 + 2 * v, 1, v % 2 == 0 ? 2 : 4);
    for (size_t k = 0; k < RECORDS; k++) {
        size_t v = k % VARIABLES, round = k / VARIABLES, other = v + 1 + round, at = OPERATORS_AT + 36 * k;
        put(at, 2, k < 4 ? 0 : 1 + (k + round) % 4);
        put(at + 2, 1, round % 2);
        put(at + 3, 1, other < VARIABLES ? 2 : 1);
        if (round % 2 == 1)
            put(at + 4, 1, v);
        put(at + 20, 1, v);
        put(at + 21, 1, v % 2 == 0 ? 1 : 1 + round % 3);
        if (other < VARIABLES)
            put(at + 22, 1, other);
        at = TERMS_AT + 12 * k;
        put(at, 2, 1 + k % 2);
        put(at + 2, 1, round < 7 || v == VARIABLES - 1 ? 1 : 2);
        put(at + 4, 2, v + 256);
        if (file[at + 2] == 2)
            put(at + 6, 2, v + 1 + 256);
    }
}

static void read_file(void)
{
    FILE *in = fopen(name, "rb");
    if (in == NULL) {
        perror(name);
        exit(EXIT_FAILURE);
    }
    length = fread(file, 1, sizeof file, in);
    fclose(in);
}

/* The plan that the engine which lists states finds must be the search's, if it has room for the states. */
static void list_states(void)
{
    on_stack(STATES);
    if (listed.number == LAURELSNAP_STATES)
        return;
    if (listed.number != 0)
        fail("refused");
    if (listed.utility != found.utility || listed.cost != found.cost || listed.steps != found.steps
        || memcmp(state_lists.plan.at, lists.plan.at, sizeof *lists.plan.at * found.steps) != 0)
        fail("another plan than the search's");
}

static void make_calls(void)
{
    on_stack(CHECK);
    expect(0, 0);
    on_stack(SEARCH);
    if (found.number != 0)
        fail("refused");
    for (size_t k = 0; k < found.steps; k++) {
        steps[2 * k] = (uint8_t)(lists.plan.at[k] % 256);
        steps[2 * k + 1] = (uint8_t)(lists.plan.at[k] / 256);
    }
    on_stack(WALK);
    expect(found.cost, found.utility);
    variables = le16(4);
    for (size_t v = 0; v < variables; v++)
        state[v] = file[le16(12) + 65536 * le16(14) + 2 * v + 1];
    on_stack(QUESTION); /* about the starting state, */
    if (place.number != 0 || place.reached != 1 || place.cost != 0 || place.steps != 0)
        fail("another place than the start's");
    for (size_t v = 0; v < variables; v++)
        state[v] = 0;
    on_stack(QUESTION); /* and about one that need not be reached */
    if (place.number != 0)
        fail("refused");
    on_stack(WRITE);
    expect(28 + 2 * variables + 36 * le16(6) + 12 * le16(8), 0);
    list_states();
}

int main(int argc, char **argv)
{
    size = argc < 2 ? 0 : strtoul(argv[1], NULL, 10);
    if (size == 0 || size % PAGE != 0) {
        fprintf(stderr, "usage: stack BYTES FILE...; BYTES is a multiple of %d\n", PAGE);
        return EXIT_FAILURE;
    }
    uint8_t *pages = mmap(NULL, GUARD + size, PROT_READ | PROT_WRITE, MAP_PRIVATE | MAP_ANONYMOUS, -1, 0);
    static uint8_t other[1 << 16]; /* the stack for the handler of faults */
    stack_t handlers = { .ss_sp = other, .ss_size = sizeof other };
    struct sigaction action = { .sa_sigaction = on_fault, .sa_flags = SA_SIGINFO | SA_ONSTACK };
    if (pages == MAP_FAILED || mprotect(pages, GUARD, PROT_NONE) != 0 || sigaltstack(&handlers, NULL) != 0
        || sigaction(SIGSEGV, &action, NULL) != 0 || sigaction(SIGBUS, &action, NULL) != 0) {
        perror("stack");
        return EXIT_FAILURE;
    }
    stack = pages + GUARD;
    struct laurelsnap_room room = { .nodes = ENTRIES, .utility = ENTRIES, .pairs = MOST_PAIRS, .steps = MOST_PAIRS };
    struct laurelsnap_state_room state_room = { .states = ENTRIES, .steps = MOST_PAIRS };
    void *block = malloc(laurelsnap_bytes(room)), *state_block = malloc(laurelsnap_state_bytes(state_room));
    if (block == NULL || state_block == NULL) {
        perror("stack");
        return EXIT_FAILURE;
    }
    lists = laurelsnap_share(room, block);
    state_lists = laurelsnap_share_states(state_room, state_block);
    make_large(5);
    make_calls();
    make_large(3); /* with which there are few enough states to list them */
    make_calls();
    if (listed.number != 0)
        fail("refused");
    for (int i = 2; i < argc; i++) {
        name = argv[i];
        read_file();
        make_calls();
    }
    printf("stack: %d tasks with %zu bytes of stack, of which", argc, size);
    for (call = 0; call < CALLS; call++)
        printf("%s %s used %zu", call == 0 ? "" : ",", names[call], used[call]);
    printf("\n");
    return EXIT_SUCCESS;
}
