/*
 * How long a command takes from its start to its end, with nothing to read: the least of so many runs, in nanoseconds.
 *
 *   starts RUNS COMMAND WORD..
 */
#include <fcntl.h>
#include <spawn.h>
#include <stdio.h>
#include <stdlib.h>
#include <sys/wait.h>
#include <time.h>
#include <unistd.h>

extern char **environ;

static long long now(void)
{
    struct timespec t;
    clock_gettime(CLOCK_MONOTONIC, &t);
    return t.tv_sec * 1000000000ll + t.tv_nsec;
}

int main(int argc, char **argv)
{
    long long best = -1, runs = argc > 2 ? atoll(argv[1]) : 0;
    int nothing = open("/dev/null", O_RDWR);
    if (runs < 1 || nothing < 0)
        return 2;
    dup2(nothing, 0);
    while (runs--) {
        long long began = now(), took;
        int status;
        pid_t child;
        if (posix_spawn(&child, argv[2], 0, 0, argv + 2, environ) || waitpid(child, &status, 0) < 0 || status)
            return 1;
        took = now() - began;
        if (best < 0 || took < best)
            best = took;
    }
    printf("%lld\n", best);
    return 0;
}
