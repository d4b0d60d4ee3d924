// Stands before open and openat, in a library that says in `opening` what comes first.
#include "preload.h"

// What comes before a file is opened. Where it answers other than 0 the call fails, with the errno that it left.
static int opening(int folder, const char *path, int flags);

static mode_t mode_in(int flags, va_list more) { return flags & O_CREAT ? va_arg(more, mode_t) : 0; }

int open(const char *path, int flags, ...) {
    va_list more;
    va_start(more, flags);
    mode_t mode = mode_in(flags, more);
    va_end(more);
    return opening(AT_FDCWD, path, flags) ? -1 : REAL(int (*)(const char *, int, ...), "open")(path, flags, mode);
}

int openat(int folder, const char *path, int flags, ...) {
    va_list more;
    va_start(more, flags);
    mode_t mode = mode_in(flags, more);
    va_end(more);
    return opening(folder, path, flags) ? -1 : REAL(int (*)(int, const char *, int, ...), "openat")(folder, path, flags, mode);
}
