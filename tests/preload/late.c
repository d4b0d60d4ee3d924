// Preloaded into a program, it kills it so many microseconds after its start as LATE says.
#include "preload.h"
#include <time.h>

__attribute__((constructor)) static void start(void) {
    const char *late = getenv("LATE");
    timer_t timer;
    struct sigevent event = {.sigev_notify = SIGEV_SIGNAL, .sigev_signo = SIGKILL};
    if (!late || timer_create(CLOCK_MONOTONIC, &event, &timer) != 0) return;
    long nanoseconds = strtol(late, NULL, 10) * 1000 + 1;
    struct itimerspec at = {.it_value = {nanoseconds / 1000000000, nanoseconds % 1000000000}};
    timer_settime(timer, 0, &at, NULL);
}
