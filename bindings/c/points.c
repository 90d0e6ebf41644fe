/* Asks two spots of one job in one call, and in the other order, so that spots
 * and answers cannot pass for each other; then calls that are refused, each for
 * another reason. What stands past the answers, and after a refused call all of
 * the reply, is as it was. */
#include "clearance.h"

#include <stdio.h>
#include <string.h>

static const char dots[] =
    "(job\n"
    "(plate -8 -8 4)\n"
    "(cell 1)\n"
    "(reach 4)\n"
    "(grain 1)\n"
    "(edge (0 0) (0 0) (0 0) (0 0))\n"
    "(edge (8 0) (8 0) (8 0) (8 0))\n"
    ")\n";

/* Two answers and one number more. */
enum { LENT = 2 * CLEARANCE_NEAREST_NUMBERS + 1 };

static int32_t job[CLEARANCE_JOB_NUMBERS], store[2 * CLEARANCE_NODE_NUMBERS];
static const size_t row = CLEARANCE_JOB_NUMBERS, trees = 2 * CLEARANCE_NODE_NUMBERS;

static int draw(void)
{
    uint8_t cells[64];
    size_t nodes;

    if (clearance_read((const uint8_t *)dots, strlen(dots), job)) return 1;
    if (clearance_map(job, row, store, trees, cells, sizeof cells, &nodes)) return 1;
    printf("nodes %d\n", (int)nodes);
    return 0;
}

/* Lends the first numbers of a reply of sevens. */
static void ask(const char *what, const int32_t *spots, size_t numbers, size_t lent)
{
    int64_t reply[LENT] = {7, 7, 7, 7, 7, 7, 7};
    int refusal = clearance_points(job, row, spots, numbers, store, trees, reply, lent);
    size_t place;

    printf("%s: %d;", what, refusal);
    for (place = 0; place < LENT; place++)
        printf(" %d", (int)reply[place]);
    printf("\n");
}

int main(void)
{
    static const int32_t two[] = {3, 4, 8, 0}, turned[] = {8, 0, 3, 4};
    static const int32_t outside[] = {3, 4, CLEARANCE_COORDINATE_MOST + 1};
    static const int32_t many[2 * CLEARANCE_SPOTS_MOST + 2] = {0};

    if (draw()) return 1;
    ask("two spots", two, 4, LENT);
    ask("turned", turned, 4, LENT);
    ask("one", two, 2, LENT);
    ask("out of range", outside, 3, LENT);
    ask("none", two, 0, LENT);
    ask("odd", two, 3, LENT);
    ask("too many", many, sizeof many / sizeof many[0], LENT);
    ask("short reply", two, 4, LENT - 2);
    store[0] = 1;
    ask("another store", two, 4, LENT);
    ask("both", two, 4, LENT - 2);
    return 0;
}
