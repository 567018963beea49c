/*
 * Plans a task file from C by listing its states, a million at most: prints utility, cost and time as in osp-list's listing, how many states
 * there are within the bound, and the steps; or the refusal.
 *
 *   cc -O2 -Iinclude examples/states.c target/staticlib/libsupervisor.a -o states
 *   ./states examples/calibration.bpt
 */
#include "laurelsnap.h"

#include <stdio.h>
#include <stdlib.h>

enum { FILE_MOST = 16384 };

static const struct laurelsnap_state_room ROOM = { .states = 1048576, .steps = 1048575 };

/* The file's bytes; one more than a task may have, so that a longer file is refused. */
static size_t read_task(const char *name, uint8_t *file)
{
    FILE *in = fopen(name, "rb");
    size_t length = in ? fread(file, 1, FILE_MOST + 1, in) : 0;
    if (!in || ferror(in)) {
        fprintf(stderr, "%s cannot be read\n", name);
        exit(2);
    }
    fclose(in);
    return length;
}

/* The cost of an operator of an accepted file: the first two bytes of its record of 36. */
static unsigned cost_of(const uint8_t *file, unsigned operator)
{
    size_t at = file[16] + 256u * file[17] + 36u * operator;
    return file[at] + 256u * file[at + 1];
}

int main(int argc, char **argv)
{
    static uint8_t file[FILE_MOST + 1];
    if (argc != 2) {
        fprintf(stderr, "usage: states FILE\n");
        return 2;
    }
    size_t length = read_task(argv[1], file);
    void *block = malloc(laurelsnap_state_bytes(ROOM));
    if (!block) {
        fprintf(stderr, "no memory\n");
        return 2;
    }
    struct laurelsnap_state_lists lists = laurelsnap_share_states(ROOM, block);
    struct laurelsnap_listed listed = laurelsnap_states_in(file, length, &lists);
    if (listed.number) {
        printf("refused %llu %llu\n", (unsigned long long)listed.number, (unsigned long long)listed.value);
        return 1;
    }
    printf("utility %llu\n", (unsigned long long)listed.utility);
    printf("cost %llu of %llu\n", (unsigned long long)listed.cost, (unsigned long long)listed.bound);
    printf("time %llu %llu %llu\n", (unsigned long long)listed.minutes, (unsigned long long)listed.units,
        (unsigned long long)listed.unused);
    printf("states %llu\n", (unsigned long long)listed.states);
    printf("steps %llu\n", (unsigned long long)listed.steps);
    for (unsigned k = 0, spent = 0; k < listed.steps; k++) {
        unsigned cost = cost_of(file, lists.plan.at[k]);
        spent += cost;
        printf("%u %u %u %u\n", k, lists.plan.at[k], cost, spent);
    }
    free(block);
    return 0;
}
