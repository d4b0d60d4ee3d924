// Preloaded into a program, it takes the disk's room away. FULL_ERROR is the number of the error that calls fail with then.
//   FULL_ROOM=N    files grow by N bytes in all: a write that needs more writes what there is room for, and later ones fail
//   FULL_AT=N      the call whose number, from 1, is N fails, and each later one, or with FULL_ONCE=1 that one alone; with
//                  FULL_SHORT=1 a write there writes its first half, and the next call is the one that fails. Counted are
//                  calls that may need room: those that make, write, cut or sync a file
#include "open.h"

static long made, grown;

static int refuse(void) {
    errno = (int)number_in("FULL_ERROR");
    return -1;
}

// Counts a call, and says whether it fails.
static int fails(void) {
    long at = number_in("FULL_AT");
    if (at < 0) return 0;
    made++;
    return number_in("FULL_ONCE") == 1 ? made == at : made >= at;
}

static int opening(int folder, const char *path, int flags) {
    (void)folder, (void)path;
    return flags & O_CREAT && fails() ? refuse() : 0;
}

// How many bytes of a write to this file there is room for.
static size_t room_for(int file, size_t size, off_t from) {
    long room = number_in("FULL_ROOM");
    struct stat now;
    if (room < 0 || fstat(file, &now) != 0) return size;
    off_t fit = (now.st_size > from ? now.st_size : from) + (room - grown);
    size_t written = from + (off_t)size <= fit ? size : (size_t)(fit - from);
    if (from + (off_t)written > now.st_size) grown += from + (off_t)written - now.st_size;
    return written;
}

ssize_t pwrite(int file, const void *bytes, size_t size, off_t from) {
    ssize_t (*real)(int, const void *, size_t, off_t) = REAL(ssize_t (*)(int, const void *, size_t, off_t), "pwrite");
    if (size > 1 && number_in("FULL_SHORT") == 1 && made + 1 == number_in("FULL_AT")) {
        unsetenv("FULL_SHORT");
        return real(file, bytes, size / 2, from);
    }
    size_t fit = fails() ? 0 : room_for(file, size, from);
    return size > 0 && fit == 0 ? refuse() : real(file, bytes, fit, from);
}

// as programs for large files call it
ssize_t pwrite64(int, const void *, size_t, off64_t) __attribute__((alias("pwrite")));

int ftruncate(int file, off_t size) { return fails() ? refuse() : REAL(int (*)(int, off_t), "ftruncate")(file, size); }

int fsync(int file) { return fails() ? refuse() : REAL(int (*)(int), "fsync")(file); }

int fdatasync(int file) { return fails() ? refuse() : REAL(int (*)(int), "fdatasync")(file); }
