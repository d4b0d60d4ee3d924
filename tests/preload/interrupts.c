// Preloaded into a program, it lets a signal interrupt every other look at a file and every other opening of one.
#include "open.h"

static long made;

static int interrupted(void) {
    errno = EINTR;
    return made++ % 2 == 0;
}

static int opening(int folder, const char *path, int flags) {
    (void)folder, (void)path, (void)flags;
    return interrupted();
}

int statx(int folder, const char *path, int flags, unsigned int mask, struct statx *into) {
    return interrupted()
               ? -1
               : REAL(int (*)(int, const char *, int, unsigned int, struct statx *), "statx")(folder, path, flags, mask, into);
}
