/* A set, its snapshot, and the set of that snapshot:
 *
 *     ./install --prefix DIR --library
 *     cc -I DIR/include examples/c/set.c DIR/lib/librhset.a -o set && ./set
 */
#include <inttypes.h>
#include <stdio.h>
#include <stdlib.h>

#include "rhset.h"

/* Ends the program where a call does not answer that it is done. */
static void done(uint32_t status) {
    if (status != RHSET_DONE) {
        fprintf(stderr, "status %" PRIu32 "\n", status);
        exit(1);
    }
}

int main(void) {
    struct rhset_set squares = {0}, kept = {0};
    struct rhset_detail detail;
    for (uint64_t number = 1; number <= 6; number++) {
        done(rhset_set_insert(&squares, number * number, &detail));
    }
    rhset_set_remove(&squares, 25);

    /* Without room the call tells how many bytes there are. */
    uint8_t none = 0;
    if (rhset_set_snapshot(&squares, &none, 0, &detail) != RHSET_NO_ROOM) {
        return 1;
    }
    const size_t room = detail.number;
    uint8_t *snapshot = malloc(room);
    if (snapshot == NULL) {
        return 1;
    }
    done(rhset_set_snapshot(&squares, snapshot, room, &detail));
    done(rhset_set_restore(&kept, snapshot, room));
    free(snapshot);
    rhset_set_free(&squares);

    uint64_t numbers[6];
    done(rhset_set_list(&kept, numbers, 6, &detail));
    for (uint64_t place = 0; place < detail.number; place++) {
        printf("%" PRIu64 "\n", numbers[place]);
    }
    rhset_set_free(&kept);
    return 0;
}
