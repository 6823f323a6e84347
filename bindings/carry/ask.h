/*
 * How a call goes through the pipe. There: an ask, then the numbers of its list, pivots, out and scratch. Back: the reply,
 * then out and scratch. All numbers are little-endian, and a list that the call does not take has length 0.
 */
#ifndef ASK_H
#define ASK_H

#include <stdint.h>

#if __BYTE_ORDER__ != __ORDER_LITTLE_ENDIAN__
#error "numbers go through the pipe as they lie in memory, so both sides must be little-endian"
#endif

enum call {
    DISTANCES_FROM,
    DISTANCES_TO,
    TABLE,
    FORWARD_ECCENTRICITY,
    BACKWARD_ECCENTRICITY,
    DIAMETER,
    PIVOT_DIAMETER,
    OFFICE_CHECK
};

struct ask {
    uint32_t call;
    uint32_t n, asker, a, w;
    uint32_t stop; /* the named source, target or stop */
    uint64_t list_len, pivots_len, out_len, scratch_len;
};

_Static_assert(sizeof(struct ask) == 56, "both sides lay an ask out alike");

#endif
