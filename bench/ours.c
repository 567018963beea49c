/* The proved planner, timed: one call of laurelsnap_search with a million node entries and as many memo slots (of four words) as
   BuDDy's caches have. The lists are touched before, as BuDDy's are; clearing them is part of the search.
   usage: ours FILE */
#include "laurelsnap.h"
#include "task.h"
#include <string.h>

enum { ENTRIES = 1048576 };

int main(int argc, char **argv) {
    if (argc != 2) fail("usage: ours FILE");
    static unsigned char file[FILE_MOST];
    size_t length = read_file(argv[1], file);
    struct laurelsnap_room room = {.nodes = ENTRIES, .utility = ENTRIES, .pairs = PAIRS_MOST, .steps = PAIRS_MOST};
    void *block = malloc(laurelsnap_bytes(room));
    if (!block) fail("no memory");
    memset(block, 0xff, laurelsnap_bytes(room));
    struct laurelsnap_lists lists = laurelsnap_share(room, block);
    double begin = seconds();
    struct laurelsnap_found found = laurelsnap_search_in(file, length, &lists);
    double time = seconds() - begin;
    if (found.number) {
        printf("refused %lu %lu\n", (unsigned long)found.number, (unsigned long)found.value);
        return 0;
    }
    printf("ceiling %lu entries %lu ", (unsigned long)found.ceiling, (unsigned long)found.entries);
    report(found.utility, found.cost, found.pairs, found.nodes, time, lists.plan.at, found.steps);
    return 0;
}
