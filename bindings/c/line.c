/* Lays a line and a cubic into a row, prints its sheet and its map, and then the
 * sheet of the same row without its marks, which has cubics alone. */
#include "clearance.h"

#include <stdio.h>
#include <string.h>

/* The plate, a line from (-6, -3) to (6, 3) in the first place, and a cubic in
 * the second, whose control points are all (0, 0). */
static const int32_t head[] = {-8, -8, 4, 1, 4, 2, 2};
static const int32_t ends[CLEARANCE_LINE_NUMBERS] = {-6, -3, 6, 3};

static int32_t job[CLEARANCE_JOB_NUMBERS], store[CLEARANCE_STORE_MOST];
static uint8_t bytes[CLEARANCE_CELLS_MOST];

static int print_sheet(size_t numbers)
{
    size_t length;

    if (clearance_write(job, numbers, bytes, sizeof bytes, &length)) return 1;
    printf("%.*s", (int)length, (const char *)bytes);
    return 0;
}

static int print_map(void)
{
    size_t nodes, row;

    if (clearance_map(job, CLEARANCE_JOB_NUMBERS, store, CLEARANCE_STORE_MOST, bytes, sizeof bytes, &nodes)) return 1;
    printf("nodes %d\n", (int)nodes);
    for (row = 0; row < 8; row++)
        printf("%.8s\n", (const char *)bytes + 8 * row);
    return 0;
}

int main(void)
{
    memcpy(job, head, sizeof head);
    memcpy(job + CLEARANCE_PLACES, ends, sizeof ends);
    job[CLEARANCE_MARKS] = CLEARANCE_LINE;
    return print_sheet(CLEARANCE_JOB_NUMBERS) || print_map() || print_sheet(CLEARANCE_MARKS);
}
