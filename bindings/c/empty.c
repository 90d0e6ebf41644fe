/* Lends nothing as a null pointer with the length 0, in each place that takes a
 * length, and prints the refusals. */
#include "clearance.h"

#include <stdio.h>
#include <string.h>

static const char sheet[] =
    "(job\n"
    "(plate 0 0 1)\n"
    "(cell 0)\n"
    "(reach 90)\n"
    "(edge (0 0) (0 0) (0 0) (0 0))\n"
    ")\n";

int main(void)
{
    int32_t job[CLEARANCE_JOB_NUMBERS], store[CLEARANCE_NODE_NUMBERS];
    int64_t nearest[CLEARANCE_NEAREST_NUMBERS];
    const int32_t spot[] = {3, 4};
    uint8_t bytes[100];
    size_t count;
    const size_t row = CLEARANCE_JOB_NUMBERS, trees = CLEARANCE_NODE_NUMBERS;
    const size_t three = CLEARANCE_NEAREST_NUMBERS;

    printf("no sheet: %d\n", clearance_read(NULL, 0, job));
    printf("a sheet: %d\n", clearance_read((const uint8_t *)sheet, strlen(sheet), job));
    printf("no row: %d %d %d %d\n",
           clearance_write(NULL, 0, bytes, sizeof bytes, &count),
           clearance_map(NULL, 0, store, trees, bytes, sizeof bytes, &count),
           clearance_point(NULL, 0, 3, 4, store, trees, nearest),
           clearance_points(NULL, 0, spot, 2, store, trees, nearest, three));
    printf("no bytes: %d\n", clearance_write(job, row, NULL, 0, &count));
    printf("no store: %d %d %d\n",
           clearance_map(job, row, NULL, 0, bytes, sizeof bytes, &count),
           clearance_point(job, row, 3, 4, NULL, 0, nearest),
           clearance_points(job, row, spot, 2, NULL, 0, nearest, three));
    printf("no cells: %d\n", clearance_map(job, row, store, trees, NULL, 0, &count));
    printf("no spots: %d\n", clearance_points(job, row, NULL, 0, store, trees, nearest, three));
    printf("no reply: %d\n", clearance_points(job, row, spot, 2, store, trees, NULL, 0));
    return 0;
}
