/*
 * Plans a task file from C in one call, by the engine that has room for it: prints utility, cost, steps and how much it took, then each step
 * with its cost; or the refusal.
 *
 *   cc -O2 -Iinclude examples/best.c target/staticlib/libsupervisor.a -o best
 *   ./best examples/calibration.bpt
 */
#include "read_task.h"

int main(int argc, char **argv)
{
    size_t length = read_task(argc, argv);
    void *block = lend(LAURELSNAP_PLAN_BYTES);
    struct laurelsnap_best best = laurelsnap_plan(file, length, block);
    if (best.number) {
        printf("refused %u %u: %s\n", (unsigned)best.number, (unsigned)best.value, laurelsnap_cause(best.number));
        free(block);
        return 1;
    }
    printf("utility %u, cost %u of %u, %u steps", (unsigned)best.utility, (unsigned)best.cost, (unsigned)best.bound, (unsigned)best.steps);
    printf(best.states ? ", %u states\n" : ", %u nodes\n", (unsigned)(best.states ? best.states : best.nodes));
    for (uint64_t k = 0; k < best.steps; k++)
        printf("%u %u\n", best.plan[k], (unsigned)laurelsnap_operator_cost(file, best.plan[k]));
    free(block);
    return 0;
}
