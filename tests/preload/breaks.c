// Preloaded into a program, it lets so many of its calls of the file system pass as the number in PASSES says; each later
// one fails.
#include "open.h"

static long made;

static int fails(void) {
    long passes = number_in("PASSES");
    if (passes < 0 || made++ < passes) return 0;
    errno = EIO;
    return 1;
}

static int opening(int folder, const char *path, int flags) {
    (void)folder, (void)path, (void)flags;
    return fails();
}

ssize_t pread(int file, void *into, size_t size, off_t from) {
    return fails() ? -1 : REAL(ssize_t (*)(int, void *, size_t, off_t), "pread")(file, into, size, from);
}

ssize_t pwrite(int file, const void *bytes, size_t size, off_t from) {
    return fails() ? -1 : REAL(ssize_t (*)(int, const void *, size_t, off_t), "pwrite")(file, bytes, size, from);
}

int fchmod(int file, mode_t mode) { return fails() ? -1 : REAL(int (*)(int, mode_t), "fchmod")(file, mode); }

int ftruncate(int file, off_t size) { return fails() ? -1 : REAL(int (*)(int, off_t), "ftruncate")(file, size); }

int mkdir(const char *path, mode_t mode) {
    return fails() ? -1 : REAL(int (*)(const char *, mode_t), "mkdir")(path, mode);
}

int fsync(int file) { return fails() ? -1 : REAL(int (*)(int), "fsync")(file); }

int fdatasync(int file) { return fails() ? -1 : REAL(int (*)(int), "fdatasync")(file); }

int statx(int folder, const char *path, int flags, unsigned int mask, struct statx *into) {
    return fails() ? -1
                   : REAL(int (*)(int, const char *, int, unsigned int, struct statx *), "statx")(folder, path, flags, mask, into);
}
