/*
 * Plans a task file from C, with a million node entries: prints the listing that osp-list prints, or the refusal.
 *
 *   cc -O2 -Iinclude examples/plan.c target/staticlib/libsupervisor.a -o plan
 *   ./plan examples/calibration.bpt
 */
#include "laurelsnap.h"

#include <stdio.h>
#include <stdlib.h>

enum { FILE_MOST = 16384 };

static const struct laurelsnap_room ROOM = { .nodes = 1048576, .utility = 1048576, .pairs = 1048576, .steps = 1048576 };

/* The file's bytes; one more than a task may have, so that a longer file is refused. */
static size_t read_task(const char *name, uint8_t *file)
{
    FILE *in = fopen(name, "rb");
    size_t length = in ? fread(file, 1, FILE_MOST + 1, in) : 0;
    if (!in || ferror(in)) {
        fprintf(stderr, "%s cannot be read\n", name);
        exit(2);
    }
    fclose(in);
    return length;
}

/* The cost of an operator of an accepted file: the first two bytes of its record of 36. */
static unsigned cost_of(const uint8_t *file, unsigned operator)
{
    size_t at = file[16] + 256u * file[17] + 36u * operator;
    return file[at] + 256u * file[at + 1];
}

int main(int argc, char **argv)
{
    static uint8_t file[FILE_MOST + 1];
    if (argc != 2) {
        fprintf(stderr, "usage: plan FILE\n");
        return 2;
    }
    size_t length = read_task(argv[1], file);
    void *block = malloc(laurelsnap_bytes(ROOM));
    if (!block) {
        fprintf(stderr, "no memory\n");
        return 2;
    }
    struct laurelsnap_lists lists = laurelsnap_share(ROOM, block);
    struct laurelsnap_found found = laurelsnap_search_in(file, length, &lists);
    if (found.number) {
        printf("refused %llu %llu\n", (unsigned long long)found.number, (unsigned long long)found.value);
        return 1;
    }
    printf("utility %llu of %llu\n", (unsigned long long)found.utility, (unsigned long long)found.ceiling);
    printf("cost %llu of %llu\n", (unsigned long long)found.cost, (unsigned long long)found.bound);
    printf("time %llu %llu %llu\n", (unsigned long long)found.minutes, (unsigned long long)found.units,
        (unsigned long long)found.unused);
    printf("nodes %llu %llu\n", (unsigned long long)found.nodes, (unsigned long long)found.entries);
    printf("steps %llu\n", (unsigned long long)found.steps);
    for (unsigned k = 0, spent = 0; k < found.steps; k++) {
        unsigned cost = cost_of(file, lists.plan.at[k]);
        spent += cost;
        printf("%u %u %u %u\n", k, lists.plan.at[k], cost, spent);
    }
    free(block);
    return 0;
}
