#include <inttypes.h>
#include <stdio.h>

#include "hawkmortar.h"

#define SLOTS 1024
#define CELLS (3 * HAWKMORTAR_MAX_SET_WRITES)

int main(void)
{
    static uint32_t addresses[SLOTS], tags[SLOTS];
    uint32_t plan[CELLS];
    struct hawkmortar_outcome outcome;

    /* 10.20.0.0/16 with next hop 2: planned, then all of the plan's writes made */
    outcome = hawkmortar_plan_set(addresses, SLOTS, tags, SLOTS, 0x0a140000, 16, 2, plan, CELLS);
    if (outcome.refusal == 0)
        outcome = hawkmortar_apply(addresses, SLOTS, tags, SLOTS, plan, CELLS, outcome.value);
    if (outcome.refusal != 0) {
        fprintf(stderr, "refusal %" PRIu64 " at %" PRIu64 "\n", outcome.refusal, outcome.value);
        return 1;
    }

    outcome = hawkmortar_slot_lookup(addresses, SLOTS, tags, SLOTS, 0x0a140409);
    printf("10.20.4.9: hop %" PRIu64 "\n", outcome.value);
    outcome = hawkmortar_slot_lookup(addresses, SLOTS, tags, SLOTS, 0x0b000000);
    printf("11.0.0.0: hop %" PRIu64 "\n", outcome.value);
    return 0;
}
