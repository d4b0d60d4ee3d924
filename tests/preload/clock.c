// Preloaded into a program, it gives the program a clock. The file that CLOCK names begins with a second, counted from 1970:
// so late it is when the file has changed, and from then on the clock goes as the real one does, so that a pause ends.
#include "preload.h"
#include <sys/time.h>
#include <time.h>

typedef int Clock(clockid_t, struct timespec *);

static struct timespec told(void) {
    static char last[64];
    static struct timespec since;
    static Clock *real;
    static int file = -1;
    if (!real) real = (Clock *)dlsym(RTLD_NEXT, "clock_gettime");
    if (file < 0 && getenv("CLOCK")) file = open(getenv("CLOCK"), O_RDONLY | O_CLOEXEC);
    struct timespec now;
    real(CLOCK_MONOTONIC, &now);
    char held[sizeof last] = "";
    if (file >= 0 && pread(file, held, sizeof held - 1, 0) > 0 && strcmp(held, last) != 0) {
        strcpy(last, held);
        since = now;
    }
    now.tv_sec -= since.tv_sec;
    now.tv_nsec -= since.tv_nsec;
    if (now.tv_nsec < 0) {
        now.tv_nsec += 1000000000;
        now.tv_sec--;
    }
    now.tv_sec += atol(last);
    return now;
}

int clock_gettime(clockid_t clock, struct timespec *now) {
    if (clock != CLOCK_REALTIME) return ((Clock *)dlsym(RTLD_NEXT, "clock_gettime"))(clock, now);
    *now = told();
    return 0;
}

int timespec_get(struct timespec *now, int base) {
    *now = told();
    return base;
}

int gettimeofday(struct timeval *restrict now, void *restrict zone) {
    (void)zone;
    struct timespec moment = told();
    now->tv_sec = moment.tv_sec;
    now->tv_usec = moment.tv_nsec / 1000;
    return 0;
}

time_t time(time_t *now) {
    struct timespec moment = told();
    if (now) *now = moment.tv_sec;
    return moment.tv_sec;
}
