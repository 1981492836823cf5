/* What lists of whole numbers have in common, and sets of such numbers: the calls of librhset, a library
 * that is proved. The calls on sets, rhset_set_*, are at the end of this file.
 *
 *     uint64_t into[3];
 *     struct rhset_detail detail;
 *     if (rhset_intersect(first, 3, second, 5, into, 3, &detail) == RHSET_DONE)
 *         ... detail.number numbers stand in into
 *
 * ./install --library makes librhset.a and librhset.so.
 *
 * A list is a pointer to numbers and how many they are. They may come in any order, with repeats, and
 * each is at most RHSET_MAX_KEY. A call puts the numbers that come of two lists at the front of
 * `into`, each once, in rising order. There are at most so many of them: of rhset_intersect the
 * length of the shorter list, of rhset_subtract that of the first, of the others the sum of both.
 * Where a call does not answer RHSET_DONE, `into` is as it was.
 *
 * Time grows as the sum of the lengths does; but where many keys are chosen to have one place in a
 * table, as the square of how many these are. Beside the answer a call holds some 8 bytes for each
 * number, at a few levels, by malloc and realloc, and frees them before it returns. It starts no
 * thread and keeps nothing between two calls, but for what a set has. So any number of threads may call
 * at once, and share the work on one pair of lists by rhset_within.
 *
 * What the caller owes, and nothing checks: each pointer is not null, aligned to 8 bytes, and has as
 * many numbers behind it as is said, also where these are none; `into` and `detail` overlap nothing
 * else that is given; no other thread writes what a call reads.
 */
#ifndef RHSET_H
#define RHSET_H

#include <stdbool.h>
#include <stddef.h>
#include <stdint.h>

#ifdef __cplusplus
extern "C" {
#endif

/* The version that this file speaks of: of 1.2.3 it would be 10203. */
#define RHSET_VERSION 100

/* The greatest number that a list or a set may have. */
#define RHSET_MAX_KEY UINT64_C(4611686018427387902)

/* What a call answers. */
enum {
    /* detail.number numbers were put. */
    RHSET_DONE = 0,
    /* The number at place detail.number of list detail.list, both from 0, is greater than
     * RHSET_MAX_KEY; it is the first one that is. */
    RHSET_BAD_KEY = 1,
    /* detail.number numbers come of the lists, and there is room for fewer. */
    RHSET_NO_ROOM = 2,
    /* Memory was refused. */
    RHSET_NO_MEMORY = 3,

    /* Of sets alone. Where a call may answer BAD_KEY, NO_ROOM or NO_MEMORY too, its comment says so. */

    /* A set of 196,608 keys or more takes no key more. */
    RHSET_FULL = 4,
    /* The bytes are no snapshot: the first four are neither RHS1 nor RHS2. */
    RHSET_NOT_SNAPSHOT = 5,
    /* The snapshot ends early. */
    RHSET_SHORT = 6,
    /* Its table has a size that there is not. */
    RHSET_BAD_BITS = 7,
    /* Its seal does not match. */
    RHSET_DAMAGED = 8,
    /* Its cells are not the table of a set, though its seal matches. */
    RHSET_NOT_A_LAYOUT = 9,
    /* It goes on after its seal. */
    RHSET_LONG = 10
};

/* What an answer is about. A field of which the answer tells nothing is 0. */
struct rhset_detail {
    uint64_t list;
    uint64_t number;
};

/* The numbers that stand in both lists. */
uint32_t rhset_intersect(const uint64_t *first, size_t firsts, const uint64_t *second, size_t seconds,
                         uint64_t *into, size_t room, struct rhset_detail *detail);

/* The numbers that stand in one list or in both. */
uint32_t rhset_union(const uint64_t *first, size_t firsts, const uint64_t *second, size_t seconds,
                     uint64_t *into, size_t room, struct rhset_detail *detail);

/* The numbers that stand in the first list alone. */
uint32_t rhset_subtract(const uint64_t *first, size_t firsts, const uint64_t *second, size_t seconds,
                        uint64_t *into, size_t room, struct rhset_detail *detail);

/* The numbers that stand in one of the lists alone. */
uint32_t rhset_xor(const uint64_t *first, size_t firsts, const uint64_t *second, size_t seconds,
                   uint64_t *into, size_t room, struct rhset_detail *detail);

/* The numbers of one list that are `from` or more and less than `to`, in the list's order, with
 * repeats; there are at most so many of them as the list has. It answers RHSET_DONE or
 * RHSET_NO_ROOM, takes no memory, and looks at each number twice.
 *
 * So threads share the work on two lists: each has a range of its own, cuts both lists to it, and
 * calls rhset_intersect or its like on the parts. Where each range begins as the one before it ends,
 * and all numbers lie in them, what the threads are answered, one behind the other, is what one call
 * on the whole lists answers. That is proved. */
uint32_t rhset_within(const uint64_t *numbers, size_t many, uint64_t from, uint64_t to,
                      uint64_t *into, size_t room, struct rhset_detail *detail);

/* The version of the library that is linked with: RHSET_VERSION, unless it is another one than this file is of. */
uint32_t rhset_version(void);

/* A set of numbers from 0 to RHSET_MAX_KEY.
 *
 *     struct rhset_set set = {0};
 *     struct rhset_detail detail;
 *     if (rhset_set_insert(&set, 17, &detail) == RHSET_DONE && rhset_set_contains(&set, 17))
 *         ...
 *     rhset_set_free(&set);
 *
 * It begins as {0}, which is the empty set, and is the library's from then on: `held` is written by these
 * calls alone, and a copy of the struct is not used beside it. A set that is moved in memory is still
 * the set, where what it was moved from is not used again. That apart, the calls may come in any order,
 * and none of them can break a set: rhset_set_free leaves the empty set, on which each call may go on,
 * and to free it again does nothing. What each call answers and makes of the set is proved.
 *
 * One call at a time may use a set, whatever the call: also one that only looks takes the set in hand.
 * Another thread may make the next one, where a lock, or the start or the end of a thread, comes between.
 * Different sets have nothing in common.
 *
 * A set has one table of 8 to 262,144 cells of 8 bytes, of which at most three quarters are filled by
 * rhset_set_insert. It grows by factors of 2, and gets no smaller until it is freed. Where a call does
 * not answer RHSET_DONE, the set and `into` are as they were. */
struct rhset_set {
    void *held;
};

/* Adds a number: detail.number is 1 where it was not there, and 0 where it was. Else it answers
 * RHSET_BAD_KEY, RHSET_FULL or RHSET_NO_MEMORY. It takes memory for the first number of a set, and where
 * the table grows, that of the larger table; the smaller one is freed then. It looks at a few cells on
 * the average; where the table grows, at each. */
uint32_t rhset_set_insert(struct rhset_set *set, uint64_t number, struct rhset_detail *detail);

/* Takes a number out, and answers whether it was there. It takes no memory, and looks at a few cells on
 * the average, as does rhset_set_insert; of numbers that are chosen to have one place, at all of them. */
bool rhset_set_remove(struct rhset_set *set, uint64_t number);

/* Whether a number is there. It takes no memory, and looks at a few cells on the average. */
bool rhset_set_contains(struct rhset_set *set, uint64_t number);

/* How many numbers there are. It takes no memory, and looks at no cell. */
size_t rhset_set_length(struct rhset_set *set);

/* Puts the numbers of the set into `into`, in rising order: detail.number of them. Else it answers
 * RHSET_NO_ROOM, with how many there are, or RHSET_NO_MEMORY: for a while it takes 8 bytes for each
 * number, and for an empty set those of the least table. It looks at each cell, and sorts. */
uint32_t rhset_set_list(struct rhset_set *set, uint64_t *into, size_t room, struct rhset_detail *detail);

/* Puts a snapshot of the set into `into`: detail.number bytes, sealed by their SHA-256, which `rhset check`
 * and the scripts of rhset read, and which is the same for a set of the same numbers and size. Else it
 * answers RHSET_NO_ROOM, with how many bytes there are, or RHSET_NO_MEMORY. For a while it takes
 * so many bytes, also where there is no room for them: 45, and 8 for each cell of the table. */
uint32_t rhset_set_snapshot(struct rhset_set *set, uint8_t *into, size_t room, struct rhset_detail *detail);

/* Puts the set of a snapshot, of either version, in the place of this one, which is freed. Else it answers
 * the first fault in the bytes, from RHSET_NOT_SNAPSHOT to RHSET_LONG, or RHSET_NO_MEMORY. It takes the
 * memory of the set's table. Such a set may have up to 262,143 numbers: the table is as full as it was. */
uint32_t rhset_set_restore(struct rhset_set *set, const uint8_t *bytes, size_t many);

/* Frees what the set has. It is the empty one then. */
void rhset_set_free(struct rhset_set *set);

#ifdef __cplusplus
}
#endif

#endif
