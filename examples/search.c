/*
 * Plans a task file from C by the search, in lists as long as they may be: prints the listing that osp-list prints, or the refusal.
 *
 *   cc -O2 -Iinclude examples/search.c target/staticlib/libsupervisor.a -o search
 *   ./search examples/calibration.bpt
 */
#include "read_task.h"

int main(int argc, char **argv)
{
    size_t length = read_task(argc, argv);
    struct laurelsnap_room room = laurelsnap_most();
    void *block = lend(laurelsnap_bytes(room));
    struct laurelsnap_lists lists = laurelsnap_share(room, block);
    struct laurelsnap_found found = laurelsnap_search_in(file, length, &lists);
    if (found.number) {
        printf("refused %u %u\n", (unsigned)found.number, (unsigned)found.value);
        free(block);
        return 1;
    }
    printf("utility %u of %u\n", (unsigned)found.utility, (unsigned)found.ceiling);
    printf("cost %u of %u\n", (unsigned)found.cost, (unsigned)found.bound);
    printf("time %u %u %u\n", (unsigned)found.minutes, (unsigned)found.units, (unsigned)found.unused);
    printf("nodes %u %u\n", (unsigned)found.nodes, (unsigned)found.entries);
    printf("steps %u\n", (unsigned)found.steps);
    for (unsigned k = 0, spent = 0; k < found.steps; k++) {
        unsigned cost = (unsigned)laurelsnap_operator_cost(file, lists.plan.at[k]);
        spent += cost;
        printf("%u %u %u %u\n", k, lists.plan.at[k], cost, spent);
    }
    free(block);
    return 0;
}
