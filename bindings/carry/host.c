/* The host: an x86-64 program linked with the proved archive. It answers the asks of standard input on standard output. */
#include "ask.h"
#include "figures.h"

/* The calls of the C library that are used here, since the toolchain has no headers. */
long read(int file, void *bytes, size_t count);
long write(int file, const void *bytes, size_t count);
int close(int file);
int fork(void);
int setsid(void);
void *malloc(size_t size);
void free(void *block);
void _exit(int status) __attribute__((noreturn));

/* The lists of one ask. They lie in one block, in this order, so that none is null and what goes back is one piece. */
struct lists {
    uint32_t *list, *pivots, *reply, *out, *scratch, *end;
};

/* Whether all the bytes came; 0 at the end of the input. */
static int take(void *bytes, size_t count)
{
    char *at = bytes;
    while (count > 0) {
        long got = read(0, at, count);
        if (got <= 0)
            return 0;
        at += got;
        count -= (size_t)got;
    }
    return 1;
}

static int give(const void *bytes, size_t count)
{
    const char *at = bytes;
    while (count > 0) {
        long given = write(1, at, count);
        if (given <= 0)
            return 0;
        at += given;
        count -= (size_t)given;
    }
    return 1;
}

static size_t bytes_between(const uint32_t *start, const uint32_t *end)
{
    return (size_t)(end - start) * sizeof(uint32_t);
}

static int lay_out(const struct ask *ask, struct lists *its)
{
    size_t numbers = ask->list_len + ask->pivots_len + FIGURES_REPLY + ask->out_len + ask->scratch_len;
    its->list = malloc(numbers * sizeof(uint32_t));
    if (!its->list)
        return 0;
    its->pivots = its->list + ask->list_len;
    its->reply = its->pivots + ask->pivots_len;
    its->out = its->reply + FIGURES_REPLY;
    its->scratch = its->out + ask->out_len;
    its->end = its->scratch + ask->scratch_len;
    return 1;
}

#define DAY its->list, ask->list_len, ask->n
#define SEEN DAY, ask->asker, ask->a, ask->w
#define OUT its->out, ask->out_len
#define SCRATCH its->scratch, ask->scratch_len

static void answer(const struct ask *ask, struct lists *its)
{
    switch (ask->call) {
    case DISTANCES_FROM:
        figures_distances_from(SEEN, ask->stop, OUT, its->reply);
        return;
    case DISTANCES_TO:
        figures_distances_to(SEEN, ask->stop, OUT, SCRATCH, its->reply);
        return;
    case TABLE:
        figures_table(SEEN, OUT, its->reply);
        return;
    case FORWARD_ECCENTRICITY:
        figures_forward_eccentricity(SEEN, ask->stop, its->reply);
        return;
    case BACKWARD_ECCENTRICITY:
        figures_backward_eccentricity(SEEN, ask->stop, SCRATCH, its->reply);
        return;
    case DIAMETER:
        figures_diameter(SEEN, SCRATCH, its->reply);
        return;
    case PIVOT_DIAMETER:
        figures_pivot_diameter(SEEN, its->pivots, ask->pivots_len, SCRATCH, its->reply);
        return;
    case OFFICE_CHECK:
        figures_office_check(DAY, its->reply);
        return;
    default:
        _exit(1);
    }
}

/* The work goes on in a child that the caller's program does not know, away from its terminal's signals and open files. */
static void settle(void)
{
    int child = fork();
    if (child != 0)
        _exit(child < 0);
    setsid();
    for (int file = 3; file < 1024; file++)
        close(file);
}

int main(void)
{
    struct ask ask;
    struct lists its;
    settle();
    while (take(&ask, sizeof ask)) {
        if (!lay_out(&ask, &its) || !take(its.list, bytes_between(its.list, its.reply)) ||
            !take(its.out, bytes_between(its.out, its.end)))
            return 1;
        answer(&ask, &its);
        if (!give(its.reply, bytes_between(its.reply, its.end)))
            return 1;
        free(its.list);
    }
    return 0;
}
