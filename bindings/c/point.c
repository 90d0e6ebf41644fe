/* Asks one point of an outline that is not its own mirror image, so that x and
 * y, and lo and hi, cannot pass for each other; then three points of an outline
 * whose first and third edge are the same, so that the first is to be named. */
#include "clearance.h"

#include <stdio.h>
#include <string.h>

static const char bent[] =
    "(job\n"
    "(plate 0 0 1)\n"
    "(cell 0)\n"
    "(reach 90)\n"
    "(edge (10 0) (10 0) (10 0) (11 0))\n"
    ")\n";

static const char dots[] =
    "(job\n"
    "(plate 0 0 1)\n"
    "(cell 0)\n"
    "(reach 90)\n"
    "(line (0 0) (0 0))\n"
    "(line (8 0) (8 0))\n"
    "(line (0 0) (0 0))\n"
    ")\n";

static int32_t job[CLEARANCE_JOB_NUMBERS], store[3 * CLEARANCE_NODE_NUMBERS];
static const size_t row = CLEARANCE_JOB_NUMBERS, trees = 3 * CLEARANCE_NODE_NUMBERS;

static int draw(const char *sheet)
{
    uint8_t cells[4];
    size_t nodes;

    if (clearance_read((const uint8_t *)sheet, strlen(sheet), job)) return 1;
    if (clearance_map(job, row, store, trees, cells, sizeof cells, &nodes)) return 1;
    printf("nodes %d\n", (int)nodes);
    return 0;
}

static int ask(int32_t x, int32_t y)
{
    int64_t nearest[CLEARANCE_NEAREST_NUMBERS];

    if (clearance_point(job, row, x, y, store, trees, nearest)) return 1;
    printf("lo %d, hi %d, edge %d\n", (int)nearest[CLEARANCE_LO],
           (int)nearest[CLEARANCE_HI], (int)nearest[CLEARANCE_EDGE]);
    return 0;
}

int main(void)
{
    if (draw(bent) || ask(3, 4)) return 1;
    return draw(dots) || ask(4, 0) || ask(8, 0) || ask(0, 0);
}
