/* Asks over day D, five stops and seven rows, two of them of clients 7 and 9, and prints what comes. */
#include "figures.h"

#include <inttypes.h>
#include <stdio.h>

#define STOPS 5
#define COUNT(list) (sizeof(list) / sizeof((list)[0]))

/* from, to, start, travel, owner */
static const uint32_t day_d[] = {
    0, 1, 100, 20, 0,
    1, 2, 120, 30, 0,
    0, 2, 130, 10, 7,
    1, 4, 130, 5, 9,
    2, 3, 145, 15, 0,
    2, 3, 150, 40, 0,
    3, 4, 200, 5, 0,
};

static uint32_t scratch[FIGURES_SCRATCH];

static void print_refusal(const uint32_t reply[FIGURES_REPLY])
{
    printf("refused %" PRIu32 ", place %" PRIu32 "\n", reply[1], reply[2]);
}

static void print_answer(const uint32_t reply[FIGURES_REPLY])
{
    if (reply[0] == FIGURES_REFUSED)
        print_refusal(reply);
    else if (reply[0] == FIGURES_NONE)
        printf("none, visits %" PRIu32 "\n", reply[4]);
    else
        printf("%" PRIu32 " from %" PRIu32 " to %" PRIu32 ", visits %" PRIu32 "\n", reply[1], reply[2], reply[3], reply[4]);
}

static void ask_diameter(uint32_t asker, uint32_t a, uint32_t w)
{
    uint32_t reply[FIGURES_REPLY];
    figures_diameter(day_d, COUNT(day_d), STOPS, asker, a, w, scratch, FIGURES_SCRATCH, reply);
    printf("diameter for asker %" PRIu32 ", %" PRIu32 " to %" PRIu32 ": ", asker, a, w);
    print_answer(reply);
}

static void ask_pivot_diameter(uint32_t stop, uint32_t reading)
{
    uint32_t pivots[] = {stop, reading};
    uint32_t reply[FIGURES_REPLY];
    figures_pivot_diameter(day_d, COUNT(day_d), STOPS, 0, 100, 199, pivots, COUNT(pivots), scratch, FIGURES_SCRATCH, reply);
    printf("pivot-diameter by stop %" PRIu32 " at %" PRIu32 ": ", stop, reading);
    print_answer(reply);
}

static void ask_distances_from(uint32_t source)
{
    uint32_t out[STOPS];
    uint32_t reply[FIGURES_REPLY];
    figures_distances_from(day_d, COUNT(day_d), STOPS, 0, 100, 300, source, out, STOPS, reply);
    printf("distances from %" PRIu32 ":", source);
    if (reply[0] == FIGURES_REFUSED) {
        printf(" ");
        print_refusal(reply);
        return;
    }
    for (size_t v = 0; v < STOPS; v++) {
        if (out[v] == FIGURES_UNREACHED)
            printf(" unreached");
        else
            printf(" %" PRIu32, out[v]);
    }
    printf("\n");
}

static void ask_office_check(size_t list_len, uint32_t n)
{
    uint32_t reply[FIGURES_REPLY];
    figures_office_check(day_d, list_len, n, reply);
    printf("office check with %" PRIu32 " stops: ", n);
    if (reply[0] == FIGURES_REFUSED)
        print_refusal(reply);
    else
        printf("%" PRIu32 " rows\n", reply[1]);
}

int main(void)
{
    ask_diameter(0, 100, 300);
    ask_diameter(7, 100, 300);
    ask_diameter(9, 100, 300);
    ask_diameter(0, 100, 100);
    ask_diameter(0, 300, 100);
    ask_pivot_diameter(2, 150);
    ask_pivot_diameter(2, 99);
    ask_distances_from(0);
    ask_distances_from(2);
    ask_distances_from(5);
    ask_office_check(COUNT(day_d), STOPS);
    ask_office_check(COUNT(day_d), 4);
    return 0;
}
