// Stands in place of a program, and runs it under strace, each run with a trace of its own. It is linked statically, so
// that a library that is preloaded isn't loaded into it. A run beside such a library, or with a limit that would be strace's
// too, isn't traced.
#include <stdio.h>
#include <stdlib.h>
#include <sys/resource.h>
#include <time.h>
#include <unistd.h>

static int is_limited(int which, rlim_t least) {
    struct rlimit limit;
    return getrlimit(which, &limit) != 0 || limit.rlim_cur < least;
}

int main(int count, char **words) {
    static char trace[4096];
    struct timespec now;
    char **given = calloc((size_t)count + 9, sizeof *given);
    if (!given) return 125;
    if (getenv("LD_PRELOAD") || is_limited(RLIMIT_AS, RLIM_INFINITY) || is_limited(RLIMIT_FSIZE, RLIM_INFINITY)
        || is_limited(RLIMIT_NOFILE, 64)) {
        execv(PROGRAM, words);
        return 125;
    }
    clock_gettime(CLOCK_REALTIME, &now);
    snprintf(trace, sizeof trace, "%s/%ld.%ld.%d", TRACES, (long)now.tv_sec, now.tv_nsec, (int)getpid());
    // The tracer is no parent of the program: so a signal to this process is one to the program.
    char *first[] = {"strace", "-D", "-v", "-xx", "-s", "65536", "-o", trace, PROGRAM};
    int at = 0;
    for (; at < 9; at++) given[at] = first[at];
    for (int word = 1; word < count; word++) given[at++] = words[word];
    execv(STRACE, given);
    return 125;
}
