/* Two states are the same if every byte is: a state has no padding. */
#ifndef TESTS_SAME_H
#define TESTS_SAME_H

#include "gritgarland.h"
#include "libc.h"

_Static_assert(sizeof(gritgarland_wait) == 4 + 2 * 4 && sizeof(gritgarland_task) == 8 + sizeof(gritgarland_wait) + 3 * 4, "a record has no padding");
_Static_assert(sizeof(gritgarland_numbers) == 4 * (31 + 2 * 13 + 2 * 9 + 1 + 9 + 9 + 9 * 16), "nor have the numbers");
_Static_assert(sizeof(gritgarland_state) == 25 * sizeof(gritgarland_task) + (31 + 29) * sizeof(gritgarland_queue) + sizeof(gritgarland_numbers), "nor has a state");

static inline int same(const gritgarland_state *a, const gritgarland_state *b)
{
    return memcmp(a, b, sizeof *a) == 0;
}

#endif
