// What stands between the program and the C library: it notes the program's calls of files and streams, and of the clocks, and
// does otherwise with one of them. It has no headers, so that any compiler builds it. rrv_tools.preload runs the program so.
//
// Each call is noted as it begins, and as it ends, in the order of these moments, to the descriptor CALLS_LOG.
// CHOSEN_CALLS has a letter for each kind of call of which CHOSEN_NTH is counted: w writes a file at a place, s is a sync, c
// cuts, l locks, o writes to standard output, e to standard error, f writes on to another file, n gives a file one more
// name, r reads a file at a place, and i reads on from where the last read ended. Of the chosen one nothing is done, half of
// its bytes, or all (CHOSEN_DONE 0, 1, 2); then it fails with CHOSEN_ERROR, or with 0 returns what it did; and CHANGED_BY
// makes its file longer or shorter once it is done. The file REPLACED_BY is then put in the place of REPLACED, and the bytes
// of OVERWRITTEN_BY are written over those of OVERWRITTEN. A read at a place that is chosen is made whole after all that, or
// fails; one that reads on reads nothing. With SKIPS_SYNCS no sync is passed on: what one does is not seen as long as the
// machine goes on, and a slow disk would leave too few commits. READ_MOST is how many bytes a read takes that reads on, and
// OUTPUT_MOST how many standard output takes of a write; once it has OUTPUT_ROOM of them there is no space left. REAL_LATER
// and MONOTONIC_LATER are seconds that a clock is later by; with MONOTONIC_STEP each reading of the monotonic one is this
// many seconds more after the one before.
typedef __SIZE_TYPE__ size;
typedef long long number;
char *getenv(const char *);
long atol(const char *);
void *dlsym(void *, const char *);
long readlink(const char *, char *, size);
int sched_yield(void);
int rename(const char *, const char *);
int open(const char *, int, ...);
int *__errno_location(void);
enum { WRITE, PWRITE, FTRUNCATE, FSYNC, FDATASYNC, PREAD, STATX, FADVISE, FLOCK, CLOSE };
struct noted { number call, ended, descriptor, at, result, chosen, length; };
#define NEXT(result, name, ...) \
    static result (*next)(__VA_ARGS__); \
    if (!next) next = (result (*)(__VA_ARGS__))dlsym((void *)-1L, name)

static long option(const char *name) {
    const char *text = getenv(name);
    return text ? atol(text) : 0;
}
static long real_write(int file, const void *bytes, size many) {
    NEXT(long, "write", int, const void *, size);
    return next(file, bytes, many);
}
static long real_read(int file, void *bytes, size many) {
    NEXT(long, "read", int, void *, size);
    return next(file, bytes, many);
}
static long real_pwrite(int file, const void *bytes, size many, long at) {
    NEXT(long, "pwrite", int, const void *, size, long);
    return next(file, bytes, many, at);
}
static int real_ftruncate(int file, long length) {
    NEXT(int, "ftruncate", int, long);
    return next(file, length);
}
static void note(struct noted it, const void *bytes) {
    static char lock;
    int log = option("CALLS_LOG"), error = *__errno_location();
    while (__atomic_test_and_set(&lock, __ATOMIC_ACQUIRE)) sched_yield();
    real_write(log, &it, sizeof it);
    if (it.length) real_write(log, bytes, it.length);
    __atomic_clear(&lock, __ATOMIC_RELEASE);
    *__errno_location() = error;
}
static void note_begin(int call, int file, long at, const void *bytes, long many) {
    note((struct noted){call, 0, file, at, 0, 0, many}, bytes);
}
static long note_end(int call, int file, long at, long result, int chosen) {
    note((struct noted){call, 1, file, at, result, chosen, 0}, 0);
    return result;
}
static int is_chosen(char kind) {
    static long made;
    const char *kinds = getenv("CHOSEN_CALLS");
    for (; kinds && *kinds; kinds++)
        if (*kinds == kind) return __atomic_add_fetch(&made, 1, __ATOMIC_SEQ_CST) == option("CHOSEN_NTH");
    return 0;
}
static long part_of(long many) {
    long done = option("CHOSEN_DONE");
    return done == 0 ? 0 : done == 1 ? (many + 1) / 2 : many;
}
static long told(long result) {
    long error = option("CHOSEN_ERROR");
    if (!error) return result;
    *__errno_location() = error;
    return -1;
}
static int real_close(int file) {
    NEXT(int, "close", int);
    return next(file);
}
static void overwrite(const char *path, const char *by) {
    static char bytes[1 << 16];
    int from = open(by, 0), to = open(path, 1);
    long at = 0, many;
    while ((many = real_read(from, bytes, sizeof bytes)) > 0) at += real_pwrite(to, bytes, many, at);
    real_close(from);
    real_close(to);
}
static void change(int file) {
    NEXT(long, "lseek", int, long, int);
    long by = option("CHANGED_BY"), length = by ? next(file, 0, 2) : 0;
    if (by > 0) real_pwrite(file, "another program", by, length);
    if (by < 0) real_ftruncate(file, length + by);
    if (getenv("REPLACED_BY")) rename(getenv("REPLACED_BY"), getenv("REPLACED"));
    if (getenv("OVERWRITTEN_BY")) overwrite(getenv("OVERWRITTEN"), getenv("OVERWRITTEN_BY"));
}

static long least(long one, long other) {
    return one < other ? one : other;
}
static long output(const void *bytes, long many) {
    static long taken;
    long left = option("OUTPUT_ROOM") - taken;
    if (!left) {
        *__errno_location() = 28; // ENOSPC
        return -1;
    }
    many = real_write(1, bytes, least(many, least(left, option("OUTPUT_MOST"))));
    taken += many > 0 ? many : 0;
    return many;
}

long write(int file, const void *bytes, size many) {
    int chosen = 0;
    long result;
    note_begin(WRITE, file, 0, bytes, many);
    if (file == 1 && getenv("OUTPUT_ROOM")) return note_end(WRITE, file, 0, output(bytes, many), 0);
    chosen = is_chosen(file == 1 ? 'o' : file == 2 ? 'e' : 'f');
    if (chosen) many = part_of(many);
    result = many ? real_write(file, bytes, many) : 0;
    if (chosen) result = told(result);
    if (chosen && file > 2) change(file);
    return note_end(WRITE, file, 0, result, chosen);
}
long pwrite(int file, const void *bytes, size many, long at) {
    int chosen = is_chosen('w');
    long result;
    note_begin(PWRITE, file, at, bytes, many);
    if (chosen) many = part_of(many);
    result = many ? real_pwrite(file, bytes, many, at) : 0;
    if (chosen) result = told(result), change(file);
    return note_end(PWRITE, file, at, result, chosen);
}
long pwrite64(int file, const void *bytes, size many, long at) __attribute__((alias("pwrite")));
int ftruncate(int file, long length) {
    int chosen = is_chosen('c'), result = 0;
    note_begin(FTRUNCATE, file, length, 0, 0);
    if (!chosen || part_of(2)) result = real_ftruncate(file, length);
    if (chosen) result = told(result), change(file);
    return note_end(FTRUNCATE, file, length, result, chosen);
}
int ftruncate64(int file, long length) __attribute__((alias("ftruncate")));
static int sync(int call, int file, int (*next)(int)) {
    char link[32] = "/proc/self/fd/", digits[16], path[4096];
    int chosen = is_chosen('s'), result = 0, count = 0, place = 14, left = file;
    do digits[count++] = '0' + left % 10; while (left /= 10);
    while (count) link[place++] = digits[--count];
    long length = readlink(link, path, sizeof path);
    note_begin(call, file, 0, path, length < 0 ? 0 : length);
    if (!option("SKIPS_SYNCS") && (!chosen || part_of(2))) result = next(file);
    if (chosen) result = told(result), change(file);
    return note_end(call, file, 0, result, chosen);
}
int fsync(int file) {
    NEXT(int, "fsync", int);
    return sync(FSYNC, file, next);
}
int fdatasync(int file) {
    NEXT(int, "fdatasync", int);
    return sync(FDATASYNC, file, next);
}
long read(int file, void *bytes, size many) {
    if (is_chosen('i')) return told(0);
    return real_read(file, bytes, getenv("READ_MOST") ? least(many, option("READ_MOST")) : (long)many);
}
long pread(int file, void *bytes, size many, long at) {
    NEXT(long, "pread", int, void *, size, long);
    int chosen = is_chosen('r');
    if (chosen) change(file);
    return note_end(PREAD, file, at, chosen && option("CHOSEN_ERROR") ? told(0) : next(file, bytes, many, at), chosen);
}
long pread64(int file, void *bytes, size many, long at) __attribute__((alias("pread")));
int statx(int file, const char *path, int flags, unsigned mask, void *found) {
    NEXT(int, "statx", int, const char *, int, unsigned, void *);
    int result = next(file, path, flags, mask, found);
    return path[0] ? result : note_end(STATX, file, 0, result, 0);
}
int posix_fadvise(int file, long at, long many, int advice) {
    NEXT(int, "posix_fadvise", int, long, long, int);
    return note_end(FADVISE, file, at, next(file, at, many, advice), 0);
}
int flock(int file, int operation) {
    NEXT(int, "flock", int, int);
    int chosen = is_chosen('l'), result = !chosen || part_of(2) ? next(file, operation) : 0;
    if (chosen) result = told(result), change(file);
    return note_end(FLOCK, file, 0, result, chosen);
}
int link(const char *from, const char *to) {
    NEXT(int, "link", const char *, const char *);
    int chosen = is_chosen('n'), result = !chosen || part_of(2) ? next(from, to) : 0;
    if (chosen) result = told(result), change(-1);
    return result;
}
int close(int file) {
    note_begin(CLOSE, file, 0, 0, 0);
    return real_close(file);
}

struct time { long seconds, nanoseconds; };
int clock_gettime(int clock, struct time *time) {
    NEXT(int, "clock_gettime", int, struct time *);
    int result = next(clock, time);
    if (!result && clock == 0) time->seconds += option("REAL_LATER");
    if (!result && clock == 1) {
        static long readings;
        time->seconds += option("MONOTONIC_LATER") + option("MONOTONIC_STEP") * __atomic_add_fetch(&readings, 1, __ATOMIC_SEQ_CST);
    }
    return result;
}
