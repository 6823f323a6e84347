/* Asks over one row: `twice`, with a line of standard input between; `interrupted`, by a signal again and again; or as a
 * `family`, from threads and children at once. */
#include "figures.h"

#include <errno.h>
#include <fcntl.h>
#include <pthread.h>
#include <signal.h>
#include <stdio.h>
#include <string.h>
#include <sys/time.h>
#include <sys/wait.h>
#include <unistd.h>

#define THREADS 4
#define CHILDREN 8

static const uint32_t row[] = {0, 1, 100, 20, 0};

/* Whether the distance from stop 0 to stop 1 is right. It tells who asked, since each asker has an `a` of its own. */
static int is_right(uint32_t a)
{
    uint32_t out[2];
    uint32_t reply[FIGURES_REPLY];
    figures_distances_from(row, 5, 2, 0, a, 300, 0, out, 2, reply);
    return reply[0] == FIGURES_ANSWER && out[0] == 0 && out[1] == 120 - a;
}

static void *ask_often(void *a)
{
    for (int i = 0; i < 100; i++)
        if (!is_right(*(uint32_t *)a))
            return a;
    return NULL;
}

/* A child asks, and a child of its own. */
static int descend(uint32_t a)
{
    int status;
    pid_t pid = fork();
    if (ask_often(&a))
        _exit(1);
    if (pid == 0)
        _exit(0);
    return pid < 0 || waitpid(pid, &status, 0) != pid || status != 0;
}

static int family(void)
{
    pthread_t threads[THREADS];
    uint32_t as[THREADS];
    int wrong = 0;
    for (uint32_t i = 0; i < THREADS; i++) {
        as[i] = i;
        pthread_create(&threads[i], NULL, ask_often, &as[i]);
    }
    for (uint32_t i = 0; i < CHILDREN; i++)
        if (fork() == 0)
            _exit(descend(50 + i));
    for (int i = 0; i < CHILDREN; i++) {
        int status;
        wrong |= wait(&status) < 0 || status != 0;
    }
    for (int i = 0; i < THREADS; i++) {
        void *a;
        pthread_join(threads[i], &a);
        wrong |= a != NULL;
    }
    return wrong;
}

static void pass_on(int number)
{
    (void)number;
}

static int interrupted(void)
{
    struct sigaction action = {.sa_handler = pass_on}; /* without SA_RESTART: a call that is interrupted ends with EINTR */
    struct itimerval often = {{0, 50}, {0, 50}};
    uint32_t a = 7;
    sigaction(SIGALRM, &action, NULL);
    setitimer(ITIMER_REAL, &often, NULL);
    return ask_often(&a) || ask_often(&a) || ask_often(&a);
}

/* How many open files a program that is started from here would have. */
static int files_to_pass_on(void)
{
    int count = 0;
    for (int file = 0; file < 100; file++) {
        int flags = fcntl(file, F_GETFD);
        count += flags >= 0 && !(flags & FD_CLOEXEC);
    }
    return count;
}

static int has_child(void)
{
    return waitpid(-1, NULL, WNOHANG) != -1 || errno != ECHILD;
}

static int twice(void)
{
    int files = files_to_pass_on();
    if (!is_right(0))
        return 1;
    if (has_child() || files_to_pass_on() != files)
        return 2;
    puts("asked");
    fflush(stdout);
    getchar();
    return !is_right(1);
}

int main(int count, char **words)
{
    const char *how = count == 2 ? words[1] : "";
    if (strcmp(how, "family") == 0)
        return !is_right(0) || family();
    return strcmp(how, "interrupted") == 0 ? interrupted() : twice();
}
