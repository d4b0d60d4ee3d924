// Preloaded into a program, it dates a file as a later change by another program would. LATER and LATER_BIRTH say by how many
// seconds the file whose name is in LATER_FILE was changed and made after the system says it was. In the place of /proc/stat
// the program opens the file BOOT, where that is set.
#include "preload.h"
#include <stdio.h>

static int is_dated(const char *path) {
    const char *name = getenv("LATER_FILE"), *last = strrchr(path, '/');
    return name && strcmp(last ? last + 1 : path, name) == 0;
}

int statx(int folder, const char *path, int flags, unsigned int mask, struct statx *into) {
    int answer = REAL(int (*)(int, const char *, int, unsigned int, struct statx *), "statx")(folder, path, flags, mask, into);
    if (answer == 0 && is_dated(path)) {
        if (getenv("LATER")) into->stx_ctime.tv_sec += number_in("LATER");
        if (getenv("LATER_BIRTH")) into->stx_btime.tv_sec += number_in("LATER_BIRTH");
    }
    return answer;
}

static const char *instead(const char *path) {
    const char *boot = getenv("BOOT");
    return boot && strcmp(path, "/proc/stat") == 0 ? boot : path;
}

int open(const char *path, int flags, ...) {
    va_list more;
    va_start(more, flags);
    mode_t mode = flags & O_CREAT ? va_arg(more, mode_t) : 0;
    va_end(more);
    return REAL(int (*)(const char *, int, ...), "open")(instead(path), flags, mode);
}
