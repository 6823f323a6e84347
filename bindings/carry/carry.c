/* The calls of figures.h for a processor that cannot link the archive: each is carried to the host, which has it. */
#include "ask.h"
#include "figures.h"

#include <errno.h>
#include <fcntl.h>
#include <pthread.h>
#include <spawn.h>
#include <stdio.h>
#include <stdlib.h>
#include <sys/socket.h>
#include <sys/wait.h>
#include <unistd.h>

#ifndef FIGURES_HOST
#error "give the path of the host's command as FIGURES_HOST"
#endif

extern char **environ;

static pthread_mutex_t one_ask = PTHREAD_MUTEX_INITIALIZER;
static int host = -1; /* the pipe to the host; -1 before the first call */

/* The command that starts the host. */
static const char *command(void)
{
    const char *named = getenv("FIGURES_HOST");
    return named && *named ? named : FIGURES_HOST;
}

static void give_up(const char *what)
{
    fprintf(stderr, "figures: the host %s: %s\n", what, command());
    abort();
}

static void lock(void)
{
    pthread_mutex_lock(&one_ask);
}

static void unlock(void)
{
    pthread_mutex_unlock(&one_ask);
}

/* A child of the caller's program may not share the pipe: it starts a host of its own. */
static void forget(void)
{
    if (host >= 0)
        close(host);
    host = -1;
    unlock();
}

/* Before any call, so that no fork can come between. */
__attribute__((constructor)) static void watch_fork(void)
{
    pthread_atfork(lock, unlock, forget);
}

/* The started process ends as soon as the host runs apart from it, so no child is left for the caller's program. */
static void wait_until_apart(pid_t started)
{
    int status;
    pid_t ended;
    do
        ended = waitpid(started, &status, 0);
    while (ended < 0 && errno == EINTR);
    if (ended == started && status != 0)
        give_up("could not be started");
}

static void start(void)
{
    char *words[] = {(char *)command(), NULL};
    posix_spawn_file_actions_t files;
    int ends[2];
    pid_t started;
    if (socketpair(AF_UNIX, SOCK_STREAM | SOCK_CLOEXEC, 0, ends) != 0 || posix_spawn_file_actions_init(&files) != 0 ||
        posix_spawn_file_actions_adddup2(&files, ends[1], STDIN_FILENO) != 0 ||
        posix_spawn_file_actions_adddup2(&files, ends[1], STDOUT_FILENO) != 0 ||
        posix_spawn(&started, words[0], &files, NULL, words, environ) != 0)
        give_up("could not be started");
    posix_spawn_file_actions_destroy(&files);
    close(ends[1]);
    wait_until_apart(started);
    /* never 0, 1 or 2, also where the caller has closed these: it might read or print there */
    host = fcntl(ends[0], F_DUPFD_CLOEXEC, STDERR_FILENO + 1);
    close(ends[0]);
    if (host < 0)
        give_up("could not be started");
}

/* MSG_NOSIGNAL: where the host has ended, the caller's program gets no SIGPIPE. */
static void give(const void *bytes, size_t count)
{
    const char *at = bytes;
    while (count > 0) {
        ssize_t given = send(host, at, count, MSG_NOSIGNAL);
        if (given < 0 && errno == EINTR)
            continue;
        if (given <= 0)
            give_up("ended");
        at += given;
        count -= (size_t)given;
    }
}

static void take(void *bytes, size_t count)
{
    char *at = bytes;
    while (count > 0) {
        ssize_t got = recv(host, at, count, 0);
        if (got < 0 && errno == EINTR)
            continue;
        if (got <= 0)
            give_up("ended");
        at += got;
        count -= (size_t)got;
    }
}

/* A list that the call does not take has length 0 in the ask, and is not looked at. */
static void carry(const struct ask *ask, const uint32_t *list, const uint32_t *pivots, uint32_t *out, uint32_t *scratch,
                  uint32_t *reply)
{
    lock();
    if (host < 0)
        start();
    give(ask, sizeof *ask);
    give(list, ask->list_len * sizeof *list);
    give(pivots, ask->pivots_len * sizeof *pivots);
    give(out, ask->out_len * sizeof *out);
    give(scratch, ask->scratch_len * sizeof *scratch);
    take(reply, FIGURES_REPLY * sizeof *reply);
    take(out, ask->out_len * sizeof *out);
    take(scratch, ask->scratch_len * sizeof *scratch);
    unlock();
}

void figures_distances_from(const uint32_t *list, size_t list_len, uint32_t n, uint32_t asker, uint32_t a, uint32_t w,
                            uint32_t source, uint32_t *out, size_t out_len, uint32_t reply[FIGURES_REPLY])
{
    struct ask ask = {DISTANCES_FROM, n, asker, a, w, source, list_len, 0, out_len, 0};
    carry(&ask, list, NULL, out, NULL, reply);
}

void figures_distances_to(const uint32_t *list, size_t list_len, uint32_t n, uint32_t asker, uint32_t a, uint32_t w,
                          uint32_t target, uint32_t *out, size_t out_len, uint32_t *scratch, size_t scratch_len,
                          uint32_t reply[FIGURES_REPLY])
{
    struct ask ask = {DISTANCES_TO, n, asker, a, w, target, list_len, 0, out_len, scratch_len};
    carry(&ask, list, NULL, out, scratch, reply);
}

void figures_table(const uint32_t *list, size_t list_len, uint32_t n, uint32_t asker, uint32_t a, uint32_t w, uint32_t *out,
                   size_t out_len, uint32_t reply[FIGURES_REPLY])
{
    struct ask ask = {TABLE, n, asker, a, w, 0, list_len, 0, out_len, 0};
    carry(&ask, list, NULL, out, NULL, reply);
}

void figures_forward_eccentricity(const uint32_t *list, size_t list_len, uint32_t n, uint32_t asker, uint32_t a, uint32_t w,
                                  uint32_t stop, uint32_t reply[FIGURES_REPLY])
{
    struct ask ask = {FORWARD_ECCENTRICITY, n, asker, a, w, stop, list_len, 0, 0, 0};
    carry(&ask, list, NULL, NULL, NULL, reply);
}

void figures_backward_eccentricity(const uint32_t *list, size_t list_len, uint32_t n, uint32_t asker, uint32_t a, uint32_t w,
                                   uint32_t stop, uint32_t *scratch, size_t scratch_len, uint32_t reply[FIGURES_REPLY])
{
    struct ask ask = {BACKWARD_ECCENTRICITY, n, asker, a, w, stop, list_len, 0, 0, scratch_len};
    carry(&ask, list, NULL, NULL, scratch, reply);
}

void figures_diameter(const uint32_t *list, size_t list_len, uint32_t n, uint32_t asker, uint32_t a, uint32_t w,
                      uint32_t *scratch, size_t scratch_len, uint32_t reply[FIGURES_REPLY])
{
    struct ask ask = {DIAMETER, n, asker, a, w, 0, list_len, 0, 0, scratch_len};
    carry(&ask, list, NULL, NULL, scratch, reply);
}

void figures_pivot_diameter(const uint32_t *list, size_t list_len, uint32_t n, uint32_t asker, uint32_t a, uint32_t w,
                            const uint32_t *pivots, size_t pivots_len, uint32_t *scratch, size_t scratch_len,
                            uint32_t reply[FIGURES_REPLY])
{
    struct ask ask = {PIVOT_DIAMETER, n, asker, a, w, 0, list_len, pivots_len, 0, scratch_len};
    carry(&ask, list, pivots, NULL, scratch, reply);
}

void figures_office_check(const uint32_t *list, size_t list_len, uint32_t n, uint32_t reply[FIGURES_REPLY])
{
    struct ask ask = {OFFICE_CHECK, n, 0, 0, 0, 0, list_len, 0, 0, 0};
    carry(&ask, list, NULL, NULL, NULL, reply);
}
