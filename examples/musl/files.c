/* Files of a guest: those that are linked in, and those that the program makes, which end with it. The three standard
   descriptors are the guest's own. There are no permissions and no times. Comments name sections as layer.c does. */

#include "layer.h"
#include <fcntl.h>
#include <string.h>
#include <sys/mman.h>
#include <sys/stat.h>

enum { NAME_BYTES = 100, NAMES = 256, FILES = 256, OPENS = GUEST_OPENS, PAGE_BYTES = 4096, MAPPED_BYTES = 1 << 20 };

struct file {
    unsigned char *data;
    size_t size, room;   /* one that is linked in has no room of its own */
    mode_t mode;         /* 0 if it isn't used */
    int names, ends[2], maps; /* how many names it has, who read and write it, and who map it as shared */
};
struct open {
    struct file *file;
    size_t at;
    int flags, uses, std; /* `std` is 1 and the guest's descriptor, or 0 */
};
extern weak const struct linked { const char *name; unsigned char *data; size_t size; } __start_guest_files[],
    __stop_guest_files[];
static struct file files[FILES], standard[3] = {[0 ... 2] = {.mode = S_IFIFO | 0600, .names = 1}};
static struct name { char text[NAME_BYTES]; struct file *file; } names[NAMES];
static struct open opens[OPENS] = {
    {standard, 0, O_RDONLY, 1, 1}, {standard + 1, 0, O_WRONLY, 1, 2}, {standard + 2, 0, O_WRONLY, 1, 3}};
static struct open *descriptors[OPENS] = {opens, opens + 1, opens + 2};
static char cleaned[NAME_BYTES];         /* the path that was looked for last */
static volatile int files_lock, changes; /* `changes` is raised if bytes come into a pipe, or an end of one is closed */
static int mapped;                       /* the number of all shared mappings */

/* The first row of a table that isn't used, or 0. */
#define UNUSED(table, most, used) \
    ({ typeof(&*table) it = table; while (it < table + most && it->used) it++; it < table + most ? it : 0; })

static int reads(const struct open *o) { return (o->flags & O_ACCMODE) != O_WRONLY; }
static int writes(const struct open *o) { return (o->flags & O_ACCMODE) != O_RDONLY; }
static void tell_pipes(void) { a_inc(&changes), RAW(SYS_futex, &changes, FUTEX_WAKE | FUTEX_PRIVATE, INT_MAX, 0, 0); }

static struct file *new_file(mode_t mode) {
    struct file *f = UNUSED(files, FILES, mode);
    return f ? *f = (struct file){.mode = mode}, f : 0;
}

/* Names a file: XSH link. */
static long add_name(const char *text, struct file *f) {
    struct name *n = UNUSED(names, NAMES, file);
    if (!n || !f) return -ENOSPC;
    return strcpy(n->text, text), n->file = f, f->names++, 0;
}

/* Names what is there at first. XBD 10.1 has the folders and the devices. */
static void begin_files(void) {
    static const struct { const char *name; mode_t mode; } first[] = {
        {"", S_IFDIR | 0755}, {"tmp", S_IFDIR | 0777}, {"dev", S_IFDIR | 0755}, {"dev/null", S_IFCHR | 0666},
        {"dev/urandom", S_IFCHR | 0444}};
    for (unsigned i = 0; i < sizeof first / sizeof *first; i++) add_name(first[i].name, new_file(first[i].mode));
    for (const struct linked *l = __start_guest_files; l < __stop_guest_files; l++) {
        struct file *f = new_file(S_IFREG | 0644);
        if (!add_name(l->name, f)) f->data = l->data, f->size = l->size;
    }
}

/* The name of a path, or 0 and the errno. The working folder is the root; others needn't be there. XBD 4.13. */
static struct name *find(const char *path, long *error) {
    *error = -ENOENT;
    if (!names->file) begin_files();
    if (!*path) return 0;
    while (*path == '/' || (*path == '.' && (path[1] == '/' || !path[1]))) path++;
    if (strlen(path) >= NAME_BYTES) return *error = -ENAMETOOLONG, (void *)0;
    strcpy(cleaned, path);
    for (struct name *n = names; n < names + NAMES; n++)
        if (n->file && !strcmp(n->text, cleaned)) return n;
    return 0;
}

/* Gives up a file that has no name and isn't open or mapped. XSH unlink, XSH close. */
static void drop(struct file *f) {
    if (f->names || f->ends[0] || f->ends[1] || f->maps) return;
    if (f->room) RAW(SYS_munmap, f->data, f->room, 0, 0, 0);
    *f = (struct file){0};
}

/* Gives a file room of its own. One that is mapped can't move. XSH write, ENOSPC. */
static long grow(struct file *f, size_t size) {
    if (size <= f->room) return 0;
    if (f->maps || size > INT_MAX) return -ENOSPC;
    size_t room = ((size > 2 * f->room ? size : 2 * f->room) + PAGE_BYTES - 1) & -PAGE_BYTES;
    long more = RAW(SYS_mmap2, 0, room, PROT_READ | PROT_WRITE, MAP_PRIVATE | MAP_ANON, -1);
    if ((unsigned long)more > -4096UL) return -ENOSPC;
    memcpy((void *)more, f->data, f->size < room ? f->size : room);
    if (f->room) RAW(SYS_munmap, f->data, f->room, 0, 0, 0);
    return f->data = (void *)more, f->room = room, 0;
}

/* The lowest descriptor that is free, from one on, with an open file. XSH 2.14. */
static long describe(struct open *o, unsigned from) {
    while (from < OPENS && descriptors[from]) from++;
    return from == OPENS ? -EMFILE : (descriptors[from] = o, o->uses++, (long)from);
}

static long open_file(struct file *f, int flags) {
    struct open *o = UNUSED(opens, OPENS, uses);
    if (!o) return -EMFILE;
    *o = (struct open){.file = f, .flags = flags};
    long fd = describe(o, 0);
    return fd >= 0 ? f->ends[0] += reads(o), f->ends[1] += writes(o), fd : fd;
}

/* XSH open. */
static long open_path(const char *path, int flags) {
    long error;
    struct name *n = find(path, &error);
    struct file *f = n ? n->file : 0;
    if (n && (flags & (O_CREAT | O_EXCL)) == (O_CREAT | O_EXCL)) return -EEXIST;
    if (n && S_ISDIR(f->mode) && (flags & O_ACCMODE) != O_RDONLY) return -EISDIR;
    if (n && !S_ISDIR(f->mode) && flags & O_DIRECTORY) return -ENOTDIR;
    if (!n && (error != -ENOENT || !*path || !(flags & O_CREAT))) return error;
    if (!n && (error = add_name(cleaned, f = new_file(S_IFREG | 0644)))) return error;
    if (flags & O_TRUNC && S_ISREG(f->mode)) f->size = 0;
    return open_file(f, flags);
}

/* XSH close. */
static long close_descriptor(int fd) {
    struct open *o = descriptors[fd];
    descriptors[fd] = 0;
    if (--o->uses) return 0;
    o->file->ends[0] -= reads(o), o->file->ends[1] -= writes(o);
    if (S_ISFIFO(o->file->mode)) tell_pipes();
    return drop(o->file), 0;
}

/* XSH pipe. */
static long make_pipe(int *fds, int flags) {
    struct file *f = new_file(S_IFIFO | 0600);
    long one = f ? open_file(f, flags | O_RDONLY) : -ENFILE, other = one < 0 ? one : open_file(f, flags | O_WRONLY);
    if (other < 0 && one >= 0) close_descriptor(one);
    return other < 0 ? other : (fds[0] = one, fds[1] = other, 0);
}

/* Waits until a pipe has bytes, or nobody writes it. XSH read, of pipes. */
static long await_bytes(struct open *o) {
    for (int seen; seen = changes, !o->file->size && o->file->ends[1];) {
        if (o->flags & O_NONBLOCK) return -EAGAIN;
        __guest_leave(&files_lock);
        long result = __guest_wait(&changes, FUTEX_PRIVATE, seen, 0, 1);
        __guest_enter(&files_lock);
        if (result == -EINTR) return result;
    }
    return 0;
}

/* XSH read, XSH pread. */
static long read_bytes(struct open *o, unsigned char *bytes, size_t count, size_t *at) {
    struct file *f = o->file;
    int is_pipe = S_ISFIFO(f->mode);
    long error = is_pipe ? await_bytes(o) : S_ISDIR(f->mode) ? -EISDIR : 0;
    size_t from = is_pipe ? 0 : *at, have = from < f->size ? f->size - from : 0;
    if (error) return error;
    if (S_ISCHR(f->mode)) return f->mode & 2 ? 0 : RAW(SYS_getrandom, bytes, count < 256 ? count : 256, 0, 0, 0);
    if (count > have) count = have;
    memcpy(bytes, f->data + from, count);
    if (is_pipe) memmove(f->data, f->data + count, f->size -= count);
    else *at += count;
    return count;
}

/* XSH write, XSH pwrite. */
static long write_bytes(struct open *o, const unsigned char *bytes, size_t count, size_t *at) {
    struct file *f = o->file;
    if (S_ISCHR(f->mode)) return count;
    if (S_ISFIFO(f->mode) && !f->ends[0]) return -EPIPE;
    size_t from = S_ISFIFO(f->mode) || o->flags & O_APPEND ? f->size : *at;
    if (count > INT_MAX - from || grow(f, from + count)) return -ENOSPC;
    if (from > f->size) memset(f->data + f->size, 0, from - f->size);
    memcpy(f->data + from, bytes, count);
    f->size = from + count > f->size ? from + count : f->size;
    if (S_ISFIFO(f->mode)) tell_pipes();
    return *at = from + count, count;
}

/* Reads or writes some buffers, at a place if one is given. XSH readv, XSH writev, XSH pread, XSH 2.9.7. */
hidden long __guest_transfer(unsigned fd, const struct iovec *parts, int count, const nanos *place, int is_write) {
    struct open *o = fd < OPENS ? descriptors[fd] : 0;
    long done = 0, result = 0;
    if (!o || !(is_write ? writes(o) : reads(o))) return -EBADF;
    if (place && S_ISFIFO(o->file->mode)) return -ESPIPE;
    if (o->std && is_write) return RAW(SYS_writev, o->std - 1, parts, count, 0, 0);
    if (!o->std) __guest_enter(&files_lock);
    size_t own = place ? *place : 0, *at = place ? &own : &o->at;
    for (int i = 0; i < count && result >= 0; i++) {
        void *bytes = parts[i].iov_base;
        size_t length = parts[i].iov_len;
        result = !length ? 0 : o->std ? RAW(SYS_read, o->std - 1, bytes, length, 0, 0)
                               : is_write ? write_bytes(o, bytes, length, at) : read_bytes(o, bytes, length, at);
        done += result > 0 ? result : 0;
        if (result < (long)length || (length && !is_write && !S_ISREG(o->file->mode))) break;
    }
    if (!o->std) __guest_leave(&files_lock);
    if (result == -EPIPE) __guest_send(__pthread_self()->tid, SIGPIPE);
    return done ? done : result;
}

/* XSH lseek. */
static long seek(struct open *o, nanos by, nanos *result, unsigned whence) {
    if (S_ISFIFO(o->file->mode)) return -ESPIPE;
    nanos from = whence == SEEK_CUR ? o->at : whence == SEEK_END ? o->file->size : 0;
    if (whence > SEEK_END || from + by < 0 || from + by > INT_MAX) return -EINVAL;
    return *result = o->at = from + by, 0;
}

/* XSH ftruncate. */
static long cut(struct open *o, size_t size) {
    struct file *f = o->file;
    if (!S_ISREG(f->mode) || !writes(o)) return -EINVAL;
    if (grow(f, size)) return -ENOSPC;
    if (size > f->size) memset(f->data + f->size, 0, size - f->size);
    return f->size = size, 0;
}

/* XSH fcntl. All locks are had: there is one process. */
static long control(struct open *o, int what, long value) {
    switch (what) {
    case F_DUPFD: case F_DUPFD_CLOEXEC: return value < 0 || value >= OPENS ? -EINVAL : describe(o, value);
    case F_GETFL: return o->flags;
    case F_SETFL: o->flags = (o->flags & O_ACCMODE) | (value & ~O_ACCMODE); return 0;
    case F_GETLK: ((struct flock *)value)->l_type = F_UNLCK; return 0;
    case F_GETFD: case F_SETFD: case F_SETLK: case F_SETLKW: return 0;
    }
    return -EINVAL;
}

/* XSH unlink, XSH rmdir. */
static long remove_name(struct name *n) { return n->file->names--, drop(n->file), n->file = 0, 0; }

/* XSH link and, if `moves`, XSH rename. */
static long rename_path(struct name *from, const char *path, int moves) {
    long error;
    struct name *old = find(path, &error);
    if (old ? !moves : error != -ENOENT || !*path) return old ? -EEXIST : error;
    if (old && old->file == from->file) return 0;
    if ((error = add_name(cleaned, from->file))) return error;
    return old ? remove_name(old) : 0, moves ? remove_name(from) : 0;
}

/* XSH fstat, XSH stat. */
static long status(const struct file *f, struct statx *x) {
    return *x = (struct statx){.stx_blksize = PAGE_BYTES, .stx_nlink = f->names, .stx_mode = f->mode,
                               .stx_size = f->size, .stx_blocks = (f->size + 511) / 512, .stx_ino = (long)f}, 0;
}

/* XSH mmap. SHARED of a file is its own room, which then stays where it is; of no file it is PRIVATE. */
static long map(long address, size_t length, int protection, int flags, unsigned fd, size_t page) {
    if (flags & MAP_ANON) return RAW(SYS_mmap2, address, length, protection, (flags & ~MAP_SHARED) | MAP_PRIVATE, -1);
    struct open *o = fd < OPENS ? descriptors[fd] : 0;
    int is_shared = (flags & MAP_TYPE) != MAP_PRIVATE;
    if (is_shared && (flags & (MAP_TYPE | MAP_FIXED)) != MAP_SHARED) return -EINVAL;
    if (!o || !S_ISREG(o->file->mode)) return o ? -ENODEV : -EBADF;
    if (!reads(o) || (is_shared && protection & PROT_WRITE && !writes(o))) return -EACCES;
    struct file *f = o->file;
    size_t from = page * PAGE_BYTES, have = from < f->size ? f->size - from : 0;
    if (is_shared) {
        if (grow(f, from + length) || (!f->maps && grow(f, MAPPED_BYTES))) return -ENOMEM;
        return f->maps++, mapped++, (long)f->data + from;
    }
    long at = RAW(SYS_mmap2, address, length, PROT_READ | PROT_WRITE, flags | MAP_ANON, -1);
    if ((unsigned long)at > -4096UL) return at;
    memcpy((void *)at, f->data + from, have < length ? have : length);
    return RAW(SYS_mprotect, at, length, protection, 0, 0), at;
}

/* XSH munmap. The room of a file stays with it. */
static long unmap(unsigned char *at, size_t length) {
    for (struct file *f = files; mapped && length && !((long)at % PAGE_BYTES) && f < files + FILES; f++)
        if (f->maps && at >= f->data && at < f->data + f->room) return f->maps--, mapped--, drop(f), 0;
    return RAW(SYS_munmap, at, length, 0, 0, 0);
}

/* The calls over files, under their lock. There is no disk, one process and one user. XBD 4.13, of paths, XSH 2.14. */
static long locked_call(long n, long a, long b, long c, long d, long e, long f) {
    struct open *o = (unsigned long)a < OPENS ? descriptors[a] : 0;
    long error = -EBADF;
    switch (n) {
    case SYS_pipe2: return make_pipe((int *)a, b);
    case SYS_mmap2: return map(a, b, c, d, e, f);
    case SYS_munmap: return unmap((void *)a, b);
    case SYS_openat: return open_path((const char *)b, c);
    case SYS_chdir: case SYS_faccessat: case SYS_fchmodat: case SYS_fchownat: case SYS_linkat: case SYS_readlinkat:
    case SYS_renameat2: case SYS_statx: case SYS_unlinkat: case SYS_utimensat:
        if (n == SYS_statx && !*(const char *)b) return o ? status(o->file, (void *)e) : error;
        if (n == SYS_utimensat && !b) return o ? 0 : error;
        struct name *name = find((const char *)(n == SYS_chdir ? a : b), &error);
        if (!name || n == SYS_readlinkat) return name ? -EINVAL : error;
        if (n == SYS_unlinkat) return S_ISDIR(name->file->mode) && !(c & AT_REMOVEDIR) ? -EISDIR : remove_name(name);
        if (n == SYS_statx) return status(name->file, (void *)e);
        return n == SYS_linkat || n == SYS_renameat2 ? rename_path(name, (const char *)d, n == SYS_renameat2) : 0;
    case SYS_close: return o ? close_descriptor(a) : error;
    case SYS_dup: return o ? describe(o, 0) : error;
    case SYS_dup3:
        if (!o || (unsigned long)b >= OPENS) return error;
        o->uses++;
        return descriptors[b] ? close_descriptor(b) : 0, descriptors[b] = o, b;
    case SYS_fcntl64: return o ? control(o, b, c) : error;
    case SYS__llseek: return o ? seek(o, (nanos)b << 32 | (unsigned long)c, (void *)d, e) : error;
    case SYS_ftruncate64: return o ? (c || b < 0 ? -ENOSPC : cut(o, b)) : error;
    case SYS_ioctl: return o ? -ENOTTY : error;
    case SYS_fadvise: case SYS_fchmod: case SYS_fchown: case SYS_fdatasync: case SYS_flock: case SYS_fsync:
        return o ? 0 : error;
    }
    return ELSE;
}

hidden long __guest_file_call(long n, long a, long b, long c, long d, long e, long f) {
    if ((n == SYS_mmap2 && d & MAP_ANON) || (n == SYS_munmap && !mapped)) return locked_call(n, a, b, c, d, e, f);
    __guest_enter(&files_lock);
    long result = locked_call(n, a, b, c, d, e, f);
    return __guest_leave(&files_lock), result;
}
