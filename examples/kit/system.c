/* What picolibc asks of a system: input and output, memory, the clock, locks, and an end. */

#include "pthread.h"
#include "kit.h"

#include <errno.h>
#include <stdio.h>
#include <stdlib.h>
#include <sys/time.h>
#include <unistd.h>

enum { LINE_BYTES = 256, INPUT_BYTES = 512 };

/* Answers the result of a call, or -1 and sets errno. */
static int checked(int result)
{
    if (result >= 0 || result < -4095)
        return result;
    errno = -result;
    return -1;
}

ssize_t read(int fd, void *bytes, size_t count)
{
    return checked(call(READ, fd, (int)bytes, (int)count, 0));
}

ssize_t write(int fd, const void *bytes, size_t count)
{
    return checked(call(WRITE, fd, (int)bytes, (int)count, 0));
}

/* Each thread gathers its own line, so that no lock is needed and lines stay whole. A thread that another ends by `exit` loses what it has
   of one. */
static __thread struct {
    int fd, length;
    char bytes[LINE_BYTES];
} line;

void kit_flush(void)
{
    for (int at = 0, count; at < line.length; at += count) {
        count = call(WRITE, line.fd, (int)line.bytes + at, line.length - at, 0);
        if (count <= 0)
            break;
    }
    line.length = 0;
}

static int put(int fd, char byte)
{
    if (line.fd != fd || line.length == LINE_BYTES)
        kit_flush();
    line.fd = fd;
    line.bytes[line.length++] = byte;
    if (byte == '\n')
        kit_flush();
    return (unsigned char)byte;
}

static int put_out(char byte, FILE *file)
{
    (void)file;
    return put(STDOUT_FILENO, byte);
}

static int put_error(char byte, FILE *file)
{
    (void)file;
    return put(STDERR_FILENO, byte);
}

static int flush(FILE *file)
{
    (void)file;
    kit_flush();
    return 0;
}

static int get(FILE *file)
{
    static pthread_mutex_t lock = PTHREAD_MUTEX_INITIALIZER;
    static unsigned char bytes[INPUT_BYTES];
    static int next, end;
    (void)file;
    pthread_mutex_lock(&lock);
    if (next == end) {
        next = 0;
        end = call(READ, STDIN_FILENO, (int)bytes, INPUT_BYTES, 0);
        end = end < 0 ? 0 : end;
    }
    int byte = next < end ? bytes[next++] : _FDEV_EOF;
    pthread_mutex_unlock(&lock);
    return byte;
}

static FILE in = FDEV_SETUP_STREAM(NULL, get, NULL, _FDEV_SETUP_READ);
static FILE out = FDEV_SETUP_STREAM(put_out, NULL, flush, _FDEV_SETUP_WRITE);
static FILE error = FDEV_SETUP_STREAM(put_error, NULL, flush, _FDEV_SETUP_WRITE);
FILE *const stdin = &in;
FILE *const stdout = &out;
FILE *const stderr = &error;

void _exit(int status)
{
    kit_flush();
    for (;;)
        call(EXIT_GROUP, status, 0, 0, 0);
}

pid_t getpid(void)
{
    return 1;
}

/* The only signal is one's own, which ends the program, with the status that a shell gives. 0 only asks who is there. */
int kill(pid_t pid, int number)
{
    if (pid > 1 || pid < -1)
        return checked(-ESRCH);
    if (number)
        _exit(128 + number);
    return 0;
}

/* malloc has its lock here. */
void *sbrk(ptrdiff_t bytes)
{
    static int end;
    if (!end)
        end = call(BRK, 0, 0, 0, 0);
    int old = end;
    if (call(BRK, old + bytes, 0, 0, 0) != old + bytes) {
        errno = ENOMEM;
        return (void *)-1;
    }
    end = old + bytes;
    return (void *)old;
}

int clock_gettime(clockid_t id, struct timespec *now)
{
    return checked(call(CLOCK_GETTIME, id == CLOCK_REALTIME ? 0 : 1, (int)now, 0, 0));
}

int gettimeofday(struct timeval *now, void *zone)
{
    struct timespec time;
    (void)zone;
    if (clock_gettime(CLOCK_REALTIME, &time))
        return -1;
    now->tv_sec = time.tv_sec;
    now->tv_usec = time.tv_nsec / 1000;
    return 0;
}

int getentropy(void *bytes, size_t count)
{
    return checked(call(GETRANDOM, (int)bytes, (int)count, 0, 0)) == (int)count ? 0 : -1;
}

int sched_yield(void)
{
    return call(YIELD, 0, 0, 0, 0);
}

/* Who sleeps gives up its turn, in stores of either kind. */
int nanosleep(const struct timespec *time, struct timespec *left)
{
    (void)time, (void)left;
    return sched_yield();
}

int usleep(useconds_t time)
{
    (void)time;
    return sched_yield();
}

unsigned sleep(unsigned seconds)
{
    (void)seconds;
    return (unsigned)sched_yield();
}

/* The locks of picolibc. malloc, the environment and the clock share one; others are made with a stream. */
struct __lock {
    pthread_mutex_t mutex;
};

struct __lock __lock___libc_recursive_mutex = {PTHREAD_RECURSIVE_MUTEX_INITIALIZER_NP};

void __retarget_lock_acquire(struct __lock *lock)
{
    pthread_mutex_lock(&lock->mutex);
}

void __retarget_lock_release(struct __lock *lock)
{
    pthread_mutex_unlock(&lock->mutex);
}

void __retarget_lock_init(struct __lock **lock)
{
    *lock = calloc(1, sizeof **lock);
    if (!*lock)
        abort();
    (*lock)->mutex.kind = PTHREAD_MUTEX_RECURSIVE;
}

void __retarget_lock_close(struct __lock *lock)
{
    free(lock);
}

void __retarget_lock_acquire_recursive(struct __lock *lock) __attribute__((alias("__retarget_lock_acquire")));
void __retarget_lock_release_recursive(struct __lock *lock) __attribute__((alias("__retarget_lock_release")));
void __retarget_lock_init_recursive(struct __lock **lock) __attribute__((alias("__retarget_lock_init")));
void __retarget_lock_close_recursive(struct __lock *lock) __attribute__((alias("__retarget_lock_close")));
