/* The engine that lists states, timed: one call of laurelsnap_states with a million state entries and working lists as long. It makes every
   pair up to the bound. The lists are touched before, as those of the search are; clearing what is used of the working lists is part of the
   call. Prints also how many bytes a state takes in the lists and in the working lists.
   usage: states FILE */
#include "laurelsnap.h"
#include "task.h"
#include <string.h>

enum { STATES_MOST = 1048576 };

/* The pairs of a list by rising cost and steps. */
static unsigned long pairs_of(const struct laurelsnap_state_lists *lists, uint64_t count) {
    unsigned long pairs = count > 0;
    for (uint64_t k = 1; k < count; k++)
        pairs += lists->costs.at[k] != lists->costs.at[k - 1] || lists->steps.at[k] != lists->steps.at[k - 1];
    return pairs;
}

int main(int argc, char **argv) {
    if (argc != 2) fail("usage: states FILE");
    static unsigned char file[FILE_MOST];
    size_t length = read_file(argv[1], file);
    struct laurelsnap_state_room room = {.states = STATES_MOST, .steps = STATES_MOST};
    void *block = malloc(laurelsnap_state_bytes(room));
    if (!block) fail("no memory");
    memset(block, 0xff, laurelsnap_state_bytes(room));
    struct laurelsnap_state_lists lists = laurelsnap_share_states(room, block);
    double begin = seconds();
    struct laurelsnap_listed listed = laurelsnap_states_in(file, length, &lists);
    double time = seconds() - begin;
    if (listed.number) {
        printf("refused %lu %lu\n", (unsigned long)listed.number, (unsigned long)listed.value);
        return 0;
    }
    size_t entry = sizeof *lists.states.at + sizeof *lists.costs.at + sizeof *lists.steps.at;
    printf("entry %zu working %zu ", entry, laurelsnap_state_bytes((struct laurelsnap_state_room){.states = 1}) - entry);
    report(listed.utility, listed.cost, pairs_of(&lists, listed.states), listed.states, time, lists.plan.at, listed.steps);
    return 0;
}
