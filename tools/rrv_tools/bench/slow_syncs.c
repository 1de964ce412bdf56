/* Stands between a program and the C library, so that each sync takes LATER nanoseconds more. */
#define _GNU_SOURCE
#include <dlfcn.h>
#include <time.h>

static int slow(const char *name, int file) {
    int (*next)(int) = (int (*)(int))dlsym(RTLD_NEXT, name);
    struct timespec more = {LATER / 1000000000, LATER % 1000000000};
    int result = next(file);
    nanosleep(&more, 0);
    return result;
}

int fsync(int file) { return slow("fsync", file); }
int fdatasync(int file) { return slow("fdatasync", file); }
