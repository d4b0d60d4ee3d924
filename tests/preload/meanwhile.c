// Preloaded into a program, it writes a file as another program does, at a moment of the run: before the call whose number,
// from 1, is in MEANWHILE_AT. Calls that open, look at, read, write, cut and sync files count. MEANWHILE_HOW says how the
// bytes of the file MEANWHILE_FROM get into the file MEANWHILE_TO:
//   append   at its end, in place
//   save     in place of its bytes, as an editor saves in place
//   replace  by rename, as an editor saves that keeps a backup
// Each call is noted in the file MEANWHILE_CALLS, by its name and the name of its file. A look at a file by its name is noted
// as look, one at an open file as see.
#include "open.h"
#include <limits.h>
#include <stdio.h>
#include <sys/syscall.h>

static long made;

static void write_over(const char *from, const char *to, int flags) {
    char bytes[4096];
    int source = syscall(SYS_openat, AT_FDCWD, from, O_RDONLY), target = syscall(SYS_openat, AT_FDCWD, to, O_WRONLY | flags);
    ssize_t size = source < 0 ? 0 : read(source, bytes, sizeof bytes);
    if (size > 0 && write(target, bytes, (size_t)size) == size) unlink(from);
    close(source);
    close(target);
}

static void change(void) {
    const char *how = getenv("MEANWHILE_HOW"), *from = getenv("MEANWHILE_FROM"), *to = getenv("MEANWHILE_TO");
    if (strcmp(how, "replace") == 0) rename(from, to);
    else write_over(from, to, strcmp(how, "append") == 0 ? O_APPEND : O_TRUNC);
}

static void note(const char *call, const char *path) {
    const char *calls = getenv("MEANWHILE_CALLS");
    char line[PATH_MAX];
    if (!calls) return;
    int file = syscall(SYS_openat, AT_FDCWD, calls, O_WRONLY | O_CREAT | O_APPEND, 0600);
    const char *last = strrchr(path, '/');
    int length = snprintf(line, sizeof line, "%s %s\n", call, last ? last + 1 : path);
    if (write(file, line, (size_t)length) != length) abort();
    close(file);
}

static void count(const char *call, const char *path) {
    if (++made == number_in("MEANWHILE_AT")) change();
    note(call, path);
}

static void count_file(const char *call, int file) {
    char link[64], path[PATH_MAX] = "";
    snprintf(link, sizeof link, "/proc/self/fd/%d", file);
    if (readlink(link, path, sizeof path - 1) < 0) path[0] = 0;
    count(call, path);
}

static int opening(int folder, const char *path, int flags) {
    (void)folder;
    (void)flags;
    count("open", path);
    return 0;
}

ssize_t pread(int file, void *into, size_t size, off_t from) {
    count_file("read", file);
    return REAL(ssize_t (*)(int, void *, size_t, off_t), "pread")(file, into, size, from);
}

ssize_t pwrite(int file, const void *bytes, size_t size, off_t from) {
    count_file("write", file);
    return REAL(ssize_t (*)(int, const void *, size_t, off_t), "pwrite")(file, bytes, size, from);
}

int ftruncate(int file, off_t size) {
    count_file("cut", file);
    return REAL(int (*)(int, off_t), "ftruncate")(file, size);
}

int fsync(int file) {
    count_file("sync", file);
    return REAL(int (*)(int), "fsync")(file);
}

int fdatasync(int file) {
    count_file("sync", file);
    return REAL(int (*)(int), "fdatasync")(file);
}

int statx(int folder, const char *path, int flags, unsigned int mask, struct statx *into) {
    if (path && *path) count("look", path);
    else count_file("see", folder);
    return REAL(int (*)(int, const char *, int, unsigned int, struct statx *), "statx")(folder, path, flags, mask, into);
}
