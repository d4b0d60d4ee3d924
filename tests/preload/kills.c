// Preloaded into a program, it kills the program before one of the calls with which it changes the folder KILLS_IN: the one
// whose number, from 1, is in KILLS_AT. Such a call opens a file for writing, writes or cuts one, makes a folder, renames or
// deletes. Where KILLS_FROM names a file, calls count from when that one is deleted.
#include "open.h"
#include <limits.h>
#include <stdio.h>

static long made;
static int counts;

__attribute__((constructor)) static void start(void) { counts = getenv("KILLS_FROM") == NULL; }

static int is_below(const char *path) {
    const char *folder = getenv("KILLS_IN");
    size_t length = folder ? strlen(folder) : 0;
    return length > 0 && strncmp(path, folder, length) == 0 && path[length] == '/';
}

// Kills the program, where this call in the folder is the one.
static void count(void) {
    if (counts && getenv("KILLS_AT") && ++made == number_in("KILLS_AT")) kill(getpid(), SIGKILL);
}

static void count_file(int file) {
    char link[64], path[PATH_MAX] = "";
    snprintf(link, sizeof link, "/proc/self/fd/%d", file);
    if (readlink(link, path, sizeof path - 1) > 0 && is_below(path)) count();
}

static void count_path(int folder, const char *path) {
    char link[64], whole[2 * PATH_MAX] = "";
    int end = 0;
    if (sscanf(path, "/proc/self/fd/%d/%n", &folder, &end) == 1 && end > 0) path += end;
    if (path[0] != '/') {
        snprintf(link, sizeof link, folder == AT_FDCWD ? "/proc/self/cwd" : "/proc/self/fd/%d", folder);
        if (readlink(link, whole, PATH_MAX - 1) < 0) return;
        strcat(whole, "/");
    }
    strncat(whole, path, PATH_MAX - 1);
    if (is_below(whole)) count();
}

static int opening(int folder, const char *path, int flags) {
    if ((flags & O_ACCMODE) != O_RDONLY) count_path(folder, path);
    return 0;
}

int open64(const char *path, int flags, ...) __attribute__((alias("open")));

int openat64(int folder, const char *path, int flags, ...) __attribute__((alias("openat")));

ssize_t write(int file, const void *bytes, size_t size) {
    count_file(file);
    return REAL(ssize_t (*)(int, const void *, size_t), "write")(file, bytes, size);
}

ssize_t pwrite(int file, const void *bytes, size_t size, off_t from) {
    count_file(file);
    return REAL(ssize_t (*)(int, const void *, size_t, off_t), "pwrite")(file, bytes, size, from);
}

ssize_t pwrite64(int file, const void *bytes, size_t size, off_t from) __attribute__((alias("pwrite")));

int ftruncate(int file, off_t size) {
    count_file(file);
    return REAL(int (*)(int, off_t), "ftruncate")(file, size);
}

int ftruncate64(int file, off_t size) __attribute__((alias("ftruncate")));

int mkdir(const char *path, mode_t mode) {
    count_path(AT_FDCWD, path);
    return REAL(int (*)(const char *, mode_t), "mkdir")(path, mode);
}

int rename(const char *from, const char *to) {
    count_path(AT_FDCWD, from);
    return REAL(int (*)(const char *, const char *), "rename")(from, to);
}

int renameat2(int folder, const char *from, int other, const char *to, unsigned int flags) {
    count_path(folder, from);
    return REAL(int (*)(int, const char *, int, const char *, unsigned int), "renameat2")(folder, from, other, to, flags);
}

int unlink(const char *path) {
    const char *from = getenv("KILLS_FROM");
    if (from && strcmp(path, from) == 0) counts = 1;
    count_path(AT_FDCWD, path);
    return REAL(int (*)(const char *), "unlink")(path);
}
