// Preloaded into a program, it saves a file by rename as an editor does, at a moment of the run: before the sync of a file
// whose number, from 1, is in RENAMES_AT, it renames the file RENAMES_FROM to RENAMES_TO.
#include "preload.h"
#include <stdio.h>

static long made;

int fdatasync(int file) {
    if (++made == number_in("RENAMES_AT")) rename(getenv("RENAMES_FROM"), getenv("RENAMES_TO"));
    return REAL(int (*)(int), "fdatasync")(file);
}
