// Preloaded into a program, it tells each sync that succeeds, as a line with the last part of what was synced, after the
// file that SYNCS names. The sync whose number, from 1, is in FAIL fails; with 0 none does.
#include "preload.h"
#include <limits.h>
#include <stdio.h>

static unsigned long made;

static int synced(const char *call, int number) {
    const char *failing = getenv("FAIL"), *told = getenv("SYNCS");
    if (failing && ++made == strtoul(failing, NULL, 10)) {
        errno = EIO;
        return -1;
    }
    char link[64], path[PATH_MAX] = "";
    snprintf(link, sizeof link, "/proc/self/fd/%d", number);
    if (told && readlink(link, path, sizeof path - 1) > 0) {
        FILE *file = fopen(told, "a");
        if (file) {
            const char *last = strrchr(path, '/');
            fprintf(file, "%s\n", last ? last + 1 : path);
            fclose(file);
        }
    }
    int (*real)(int) = (int (*)(int))dlsym(RTLD_NEXT, call);
    return real(number);
}

int fsync(int number) { return synced("fsync", number); }

int fdatasync(int number) { return synced("fdatasync", number); }
