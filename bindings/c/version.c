/*
 * Says which library this program runs with, and whether it was built for it.
 */
#include <inttypes.h>
#include <stdio.h>

#include "clearance.h"

int main(void)
{
    uint64_t found = clearance_version();
    if (found / 1000000 != CLEARANCE_VERSION / 1000000) {
        printf("built for %" PRIu64 ", and the library is %" PRIu64 "\n", CLEARANCE_VERSION, found);
        return 1;
    }
    printf("%" PRIu64 " numbers a job, %" PRIu64 " a node, version %" PRIu64 ".%" PRIu64 ".%" PRIu64 "\n", found / 100000000000,
           found / 1000000000 % 100, found / 1000000 % 1000, found / 1000 % 1000, found % 1000);
    return found == CLEARANCE_VERSION ? 0 : 1;
}
