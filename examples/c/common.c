/* The numbers that two lists have in common:
 *
 *     ./install --prefix DIR --library
 *     cc -I DIR/include examples/c/common.c DIR/lib/librhset.a -o common && ./common
 */
#include <inttypes.h>
#include <stdio.h>

#include "rhset.h"

int main(void) {
    const uint64_t spring[] = {4, 9, 16, 25, 36, 1};
    const uint64_t summer[] = {2, 4, 8, 16, 32};
    uint64_t both[5];
    struct rhset_detail detail;
    const uint32_t status = rhset_intersect(spring, 6, summer, 5, both, 5, &detail);
    if (status != RHSET_DONE) {
        fprintf(stderr, "status %" PRIu32 ", list %" PRIu64 ", number %" PRIu64 "\n", status, detail.list, detail.number);
        return 1;
    }
    for (uint64_t place = 0; place < detail.number; place++) {
        printf("%" PRIu64 "\n", both[place]);
    }
    return 0;
}
