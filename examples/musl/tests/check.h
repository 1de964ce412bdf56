/* Each test prints a line for what it looks at, with values that POSIX fixes, so that Linux prints the same. */
#include <errno.h>
#include <pthread.h>
#include <stdio.h>
#include <stdlib.h>
#include <string.h>
#include <time.h>
#include <unistd.h>

#define SHOW(what) printf("%s: %ld\n", #what, (long)(what))

static inline const char *error_name(int error)
{
    static const struct { int number; const char *name; } names[] = {
        {0, "0"}, {EAGAIN, "EAGAIN"}, {EBADF, "EBADF"}, {EBUSY, "EBUSY"}, {EDEADLK, "EDEADLK"}, {EEXIST, "EEXIST"},
        {EINTR, "EINTR"}, {EINVAL, "EINVAL"}, {EISDIR, "EISDIR"}, {ENOENT, "ENOENT"}, {ENOSYS, "ENOSYS"},
        {ENOTTY, "ENOTTY"}, {EPERM, "EPERM"}, {EPIPE, "EPIPE"}, {ESPIPE, "ESPIPE"}, {ESRCH, "ESRCH"},
        {ETIMEDOUT, "ETIMEDOUT"}, {ENOTDIR, "ENOTDIR"}, {EMFILE, "EMFILE"}, {ENOSPC, "ENOSPC"},
        {ENAMETOOLONG, "ENAMETOOLONG"}};
    for (unsigned i = 0; i < sizeof names / sizeof *names; i++)
        if (names[i].number == error)
            return names[i].name;
    return strerror(error);
}

/* For what returns an error, and for what returns -1 and sets errno. */
#define SHOW_ERROR(what) printf("%s: %s\n", #what, error_name(what))
#define SHOW_ERRNO(what) printf("%s: %s\n", #what, (errno = 0, (long)(what) == -1 ? error_name(errno) : "no error"))

static inline struct timespec after(clockid_t clock, long milliseconds)
{
    struct timespec t;
    clock_gettime(clock, &t);
    t.tv_nsec += milliseconds * 1000000;
    t.tv_sec += t.tv_nsec / 1000000000;
    t.tv_nsec %= 1000000000;
    return t;
}
