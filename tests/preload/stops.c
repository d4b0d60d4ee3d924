// Preloaded into a program, it ends or fails one of its calls of the file system: the one whose number, from 1, is in
// STOPS_AT. What happens there STOPS_HOW says:
//   kill    the program is killed before the call; of a write the first half goes out first
//   stop    the program is stopped before the call, as one that hangs
//   full    this write and each later one fails, as on a full disk; only writes are counted
// Where STOPS_DENIED names a file, opening it for writing fails, as it does for a user who may only read it.
#include "open.h"

static long made;

static int is_how(const char *how) {
    const char *wanted = getenv("STOPS_HOW");
    return wanted && strcmp(wanted, how) == 0;
}

// Counts a call, and says whether it is the one; where WRITES isn't 0 it is a write.
static int stops(int writes) {
    long at = number_in("STOPS_AT");
    if (at < 0) return 0;
    return is_how("full") ? writes && ++made >= at : ++made == at;
}

static void die(void) { kill(getpid(), is_how("stop") ? SIGSTOP : SIGKILL); }

static int denied(const char *path, int flags) {
    const char *name = getenv("STOPS_DENIED"), *last = strrchr(path, '/');
    if (!name || (flags & O_ACCMODE) == O_RDONLY || strcmp(last ? last + 1 : path, name) != 0) return 0;
    errno = EACCES;
    return 1;
}

static int opening(int folder, const char *path, int flags) {
    (void)folder;
    if (stops(0)) die();
    return denied(path, flags);
}

ssize_t pread(int file, void *into, size_t size, off_t from) {
    if (stops(0)) die();
    return REAL(ssize_t (*)(int, void *, size_t, off_t), "pread")(file, into, size, from);
}

ssize_t pwrite(int file, const void *bytes, size_t size, off_t from) {
    ssize_t (*real)(int, const void *, size_t, off_t) = REAL(ssize_t (*)(int, const void *, size_t, off_t), "pwrite");
    if (stops(1)) {
        if (is_how("full")) {
            errno = ENOSPC;
            return -1;
        }
        if (!is_how("stop")) real(file, bytes, size / 2, from);
        die();
    }
    return real(file, bytes, size, from);
}

int ftruncate(int file, off_t size) {
    if (stops(0)) die();
    return REAL(int (*)(int, off_t), "ftruncate")(file, size);
}

int fsync(int file) {
    if (stops(0)) die();
    return REAL(int (*)(int), "fsync")(file);
}

int fdatasync(int file) {
    if (stops(0)) die();
    return REAL(int (*)(int), "fdatasync")(file);
}

int statx(int folder, const char *path, int flags, unsigned int mask, struct statx *into) {
    if (stops(0)) die();
    return REAL(int (*)(int, const char *, int, unsigned int, struct statx *), "statx")(folder, path, flags, mask, into);
}
