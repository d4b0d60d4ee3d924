// Preloaded into a program, it appends to a file as another program does, at a moment of the run: before the sync of a file
// whose number, from 1, is in APPENDS_AT, it moves the bytes of the file APPENDS_FROM to the end of the file APPENDS_TO.
#include "preload.h"

static long made;

static void append(const char *from, const char *to) {
    char bytes[4096];
    int source = open(from, O_RDONLY), target = open(to, O_WRONLY | O_APPEND);
    ssize_t size = source < 0 ? 0 : read(source, bytes, sizeof bytes);
    if (size > 0 && write(target, bytes, (size_t)size) == size) unlink(from);
    close(source);
    close(target);
}

int fdatasync(int file) {
    if (++made == number_in("APPENDS_AT")) append(getenv("APPENDS_FROM"), getenv("APPENDS_TO"));
    return REAL(int (*)(int), "fdatasync")(file);
}
