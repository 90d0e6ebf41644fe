/* Reads the sample sheet, draws its map and prints it as the program does. */
#include "clearance.h"

#include <stdio.h>
#include <string.h>

static const char sheet[] =
    "(job\n"
    "(plate -8 -8 4)\n"
    "(cell 1)\n"
    "(reach 4)\n"
    "(grain 1)\n"
    "(edge (0 0) (0 0) (0 0) (0 0))\n"
    ")\n";

/* As much as the program lends. */
static int32_t store[16379];
static uint8_t cells[CLEARANCE_CELLS_MOST];

int main(void)
{
    int32_t job[CLEARANCE_JOB_NUMBERS];
    size_t nodes, side, row;
    uint8_t refusal = clearance_read((const uint8_t *)sheet, strlen(sheet), job);

    if (refusal == CLEARANCE_ACCEPTED)
        refusal = clearance_map(job, CLEARANCE_JOB_NUMBERS,
                                store, sizeof store / sizeof store[0],
                                cells, sizeof cells, &nodes);
    if (refusal != CLEARANCE_ACCEPTED) {
        printf("(refused %d)\n", refusal);
        return 0;
    }
    side = (size_t)1 << (job[CLEARANCE_N] - job[CLEARANCE_M]);
    printf("(map %lu\n", (unsigned long)side);
    for (row = 0; row < side; row++)
        printf("(row %.*s)\n", (int)side, (const char *)cells + row * side);
    printf(")\n");
    return 0;
}
