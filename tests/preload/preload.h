// What the libraries of this folder share. Each is preloaded into a program (LD_PRELOAD), stands before some of its calls,
// and makes them through REAL.
#ifndef _GNU_SOURCE
#define _GNU_SOURCE
#endif
#include <dlfcn.h>
#include <errno.h>
#include <fcntl.h>
#include <signal.h>
#include <stdarg.h>
#include <stdlib.h>
#include <string.h>
#include <sys/stat.h>
#include <unistd.h>

// The call of this type that the library stands before.
#define REAL(type, name) ((type)dlsym(RTLD_NEXT, name))

// The number in a variable of the environment, or -1 where there is none.
static inline long number_in(const char *name) {
    const char *text = getenv(name);
    return text ? atol(text) : -1;
}
