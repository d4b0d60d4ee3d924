// Preloaded into a program, it uses its user's quota up: while the file QUOTA_WHILE is there, each write to a file of the
// folder QUOTA_OF fails with EDQUOT. The folder itself has room then, for all that others ask of it.
#include "preload.h"
#include <limits.h>
#include <stdio.h>

static int refused(int file) {
    const char *folder = getenv("QUOTA_OF"), *while_there = getenv("QUOTA_WHILE");
    char link[64], path[PATH_MAX];
    if (!folder || !while_there || access(while_there, F_OK) != 0) return 0;
    snprintf(link, sizeof link, "/proc/self/fd/%d", file);
    ssize_t length = readlink(link, path, sizeof path - 1);
    if (length < 0) return 0;
    path[length] = 0;
    if (strncmp(path, folder, strlen(folder)) != 0) return 0;
    errno = EDQUOT;
    return 1;
}

ssize_t write(int file, const void *bytes, size_t size) {
    return refused(file) ? -1 : REAL(ssize_t (*)(int, const void *, size_t), "write")(file, bytes, size);
}

ssize_t pwrite(int file, const void *bytes, size_t size, off_t from) {
    return size && refused(file) ? -1 : REAL(ssize_t (*)(int, const void *, size_t, off_t), "pwrite")(file, bytes, size, from);
}
