/*
 * The journey figures of the enquiry desk, for C.
 *
 * A day list holds rows of five numbers: from, to, start, travel, owner. Stops are 0 to n - 1. Times are whole seconds.
 * Owner 0 is public; an asker sees the rows whose owner is 0 or the asker, and those are the asker's rows, numbered from 0
 * in list order. No answer, refusal or lent list depends on a row that the asker does not see, but for the refusals 1 and
 * 2, which are about the list as a whole. Only the office check reads all rows, and numbers them in the whole list.
 *
 * `a` and `w` are the interval's two clock readings: a journey starts at `a` or later and ends by `w`. A distance is the
 * earliest arrival, less `a`.
 *
 * Every call takes numbers of any value, and answers or refuses. It allocates nothing, keeps nothing between calls, and may
 * be called from several threads at once where they lend it different lists. It needs less than FIGURES_STACK bytes of stack.
 *
 * A list is a pointer and how many 32-bit numbers it has. The pointer is never null and is aligned as uint32_t is, even
 * for a list of 0 numbers. A list that a call writes to (`out`, `scratch`, `reply`) overlaps no other list of the call.
 *
 * Reply: five numbers, always written.
 *
 *     reply[0]            reply[1]   reply[2]  reply[3]  reply[4]
 *     FIGURES_REFUSED  0  number     place     0         0
 *     FIGURES_ANSWER   1  value      from      to        visits     0 for what the call has not
 *     FIGURES_NONE     2  0          0         0         visits     0 for what the call has not
 *
 * Refusals. Checks go in this order, and a call skips what it does not take. A refusal writes to no list but `reply`.
 *
 *     number  given exactly when                                                       place
 *      1      list_len is not a multiple of 5                                          0
 *      2      more than 2,048 rows                                                     0
 *      3      n is 0 or above 256                                                      0
 *      4      asker above 255                                                          0
 *      5      a > w, or w above 259,200 (72 hours)                                     0
 *      6      one of the asker's rows is not sound, or starts before the asker's row   the first such row's number
 *             preceding it. Sound: from and to are below n and differ, travel is at
 *             least 1, and start + travel is at most 259,200
 *      7      the named source, target or stop is not below n                          0
 *      8      pivots_len is odd, or more than 16 pivots                                0
 *      9      a pivot's stop is not below n, or its reading lies outside a to w        the first such pivot's number
 *     10      out_len below n (table: n * n), or scratch_len below 16,384              0
 *     11      office check: an owner above 255; on one row 6 goes first                the row's number
 *     12      a joined pair without a route: proved never to come                      0
 */
#ifndef FIGURES_H
#define FIGURES_H

#include <stddef.h>
#include <stdint.h>

#ifdef __cplusplus
extern "C" {
#endif

#define FIGURES_REPLY 5 /* numbers of a reply */
#define FIGURES_REFUSED 0
#define FIGURES_ANSWER 1
#define FIGURES_NONE 2

#define FIGURES_ROW 5                           /* numbers of a row */
#define FIGURES_MOST_ROWS 2048                  /* rows of a list */
#define FIGURES_MOST_STOPS 256                  /* stops */
#define FIGURES_MOST_PIVOTS 16                  /* pivots */
#define FIGURES_HORIZON UINT32_C(259200)        /* the latest reading */
#define FIGURES_SCRATCH 16384                   /* numbers of scratch */
#define FIGURES_UNREACHED UINT32_C(4294967295)  /* a distance in a list where there is no journey */
#define FIGURES_STACK 262144                    /* bytes of stack, enough for any call */

/* Distances from `source`: out[v] becomes the distance to stop v, for the first n places; the rest is kept.
 * Answer: {1, 0, 0, 0, 0}. Refuses by 1 to 7 and 10. */
void figures_distances_from(const uint32_t *list, size_t list_len, uint32_t n, uint32_t asker, uint32_t a, uint32_t w,
                            uint32_t source, uint32_t *out, size_t out_len, uint32_t reply[FIGURES_REPLY]);

/* Distances to `target`: out[u] becomes the distance from stop u, for the first n places; the rest is kept. The first
 * 16,384 places of scratch become 0; the rest is kept.
 * Answer: {1, 0, 0, 0, 0}. Refuses by 1 to 7 and 10. */
void figures_distances_to(const uint32_t *list, size_t list_len, uint32_t n, uint32_t asker, uint32_t a, uint32_t w,
                          uint32_t target, uint32_t *out, size_t out_len, uint32_t *scratch, size_t scratch_len,
                          uint32_t reply[FIGURES_REPLY]);

/* The whole table: out[u * n + v] becomes the distance from u to v, for the first n * n places; the rest is kept.
 * Answer: {1, 0, 0, 0, 0}. Refuses by 1 to 6 and 10. */
void figures_table(const uint32_t *list, size_t list_len, uint32_t n, uint32_t asker, uint32_t a, uint32_t w, uint32_t *out,
                   size_t out_len, uint32_t reply[FIGURES_REPLY]);

/* The greatest distance from `stop` to a different stop that is reached.
 * Answer: {1, value, 0, 0, 0}, or none {2, 0, 0, 0, 0}. Refuses by 1 to 7. */
void figures_forward_eccentricity(const uint32_t *list, size_t list_len, uint32_t n, uint32_t asker, uint32_t a, uint32_t w,
                                  uint32_t stop, uint32_t reply[FIGURES_REPLY]);

/* The greatest distance to `stop` from a different stop that reaches it. The first 16,384 places of scratch become 0; the
 * rest is kept.
 * Answer: {1, value, 0, 0, 0}, or none {2, 0, 0, 0, 0}. Refuses by 1 to 7 and 10. */
void figures_backward_eccentricity(const uint32_t *list, size_t list_len, uint32_t n, uint32_t asker, uint32_t a, uint32_t w,
                                   uint32_t stop, uint32_t *scratch, size_t scratch_len, uint32_t reply[FIGURES_REPLY]);

/* The greatest distance over reached pairs of different stops, its pair, and how many targets were visited. The first
 * 16,384 places of scratch become 0; the rest is kept.
 * Answer: {1, value, from, to, visits}, or none {2, 0, 0, 0, visits}. Refuses by 1 to 6 and 10. */
void figures_diameter(const uint32_t *list, size_t list_len, uint32_t n, uint32_t asker, uint32_t a, uint32_t w,
                      uint32_t *scratch, size_t scratch_len, uint32_t reply[FIGURES_REPLY]);

/* The same over the pairs that at least one pivot joins. A pivot is two numbers, a stop and a reading; pivots_len counts
 * numbers. With no pivot the answer is none with 0 visits.
 * Answer: {1, value, from, to, visits}, or none {2, 0, 0, 0, visits}. Refuses by 1 to 6 and 8 to 10. */
void figures_pivot_diameter(const uint32_t *list, size_t list_len, uint32_t n, uint32_t asker, uint32_t a, uint32_t w,
                            const uint32_t *pivots, size_t pivots_len, uint32_t *scratch, size_t scratch_len,
                            uint32_t reply[FIGURES_REPLY]);

/* What is wrong with the list, all rows read, for the data office.
 * Answer: {1, number of rows, 0, 0, 0}. Refuses by 1, 2, 3, 6 and 11. */
void figures_office_check(const uint32_t *list, size_t list_len, uint32_t n, uint32_t reply[FIGURES_REPLY]);

#ifdef __cplusplus
}
#endif

#endif
