/* Files: places, descriptors, names, pipes and mappings. It begins in a folder without these files. */
#define _GNU_SOURCE
#include "check.h"
#include <fcntl.h>
#include <poll.h>
#include <signal.h>
#include <sys/mman.h>
#include <sys/stat.h>
#include <sys/uio.h>

static char bytes[100];

static int made(const char *name, const char *text)
{
    int fd = open(name, O_RDWR | O_CREAT | O_TRUNC, 0644);
    if (write(fd, text, strlen(text)) != (ssize_t)strlen(text))
        perror(name);
    return fd;
}

static void places(void)
{
    int fd = made("one", "0123456789"), other = dup(fd), more;
    struct stat st;
    SHOW(lseek(fd, 2, SEEK_SET));
    SHOW(read(other, bytes, 3));
    SHOW(bytes[0]);
    SHOW(lseek(fd, 0, SEEK_CUR));
    SHOW(pread(fd, bytes, 5, 8));
    SHOW(pwrite(fd, "ab", 2, 12));
    SHOW(fstat(fd, &st) || st.st_size != 14 || !S_ISREG(st.st_mode));
    SHOW(pread(fd, bytes, 100, 9));
    SHOW(bytes[1]);
    SHOW(ftruncate(fd, 3));
    SHOW(lseek(fd, 0, SEEK_END));
    SHOW(ftruncate(fd, 6));
    SHOW(pread(fd, bytes, 100, 0));
    SHOW(bytes[4]);
    more = open("one", O_WRONLY | O_APPEND);
    SHOW(write(more, "end", 3));
    SHOW(pread(fd, bytes, 100, 6));
    SHOW_ERRNO(read(more, bytes, 1));
    SHOW_ERRNO(lseek(fd, -1, SEEK_SET));
    SHOW(fcntl(more, F_GETFL) & O_ACCMODE);
    SHOW(dup2(fd, 40));
    SHOW(close(40));
    SHOW_ERRNO(close(40));
    SHOW(close(fd));
    SHOW(read(other, bytes, 100));
    SHOW(close(other) || close(more));
    struct iovec parts[] = {{bytes, 2}, {bytes + 50, 3}};
    fd = open("one", O_RDONLY);
    SHOW(readv(fd, parts, 2));
    SHOW(bytes[50]);
    SHOW_ERRNO(write(fd, "x", 1));
    SHOW(futimens(fd, NULL));
    close(fd);
}

static void names(void)
{
    struct stat st;
    int fd = made("./two", "two");
    SHOW_ERRNO(open("none", O_RDONLY));
    SHOW_ERRNO(open("two", O_CREAT | O_EXCL | O_RDWR, 0600));
    SHOW_ERRNO(rename("none", "other"));
    SHOW_ERRNO(rename("two", "one"));
    SHOW_ERRNO(access("two", R_OK));
    SHOW_ERRNO(link("one", "three"));
    SHOW_ERRNO(link("one", "three"));
    SHOW(fstat(fd, &st) || st.st_nlink != 2);
    SHOW_ERRNO(unlink("one"));
    SHOW_ERRNO(unlink("one"));
    SHOW_ERRNO(stat("one", &st));
    SHOW_ERRNO(unlink("three"));
    SHOW(pread(fd, bytes, 100, 0));
    SHOW(close(fd));
    SHOW(open("/dev/null", O_RDWR) < 0);
    SHOW_ERRNO(open("/tmp", O_WRONLY));
    SHOW(open("/tmp", O_RDONLY | O_DIRECTORY) < 0);
    SHOW_ERRNO(open("", O_RDONLY));
}

static void *writes(void *fd)
{
    for (int i = 0; i < 5; i++) {
        usleep(2000);
        if (write(*(int *)fd, "line\n", 5) != 5)
            perror("write");
    }
    close(*(int *)fd);
    return NULL;
}

static void pipes(void)
{
    int fds[2], sum = 0, got;
    pthread_t thread;
    SHOW(pipe(fds));
    pthread_create(&thread, NULL, writes, &fds[1]);
    while ((got = read(fds[0], bytes, 3)) > 0)
        sum += got;
    SHOW(got);
    SHOW(sum);
    pthread_join(thread, NULL);
    SHOW_ERRNO(lseek(fds[0], 0, SEEK_SET));
    close(fds[0]);
    SHOW(pipe(fds));
    close(fds[0]);
    signal(SIGPIPE, SIG_IGN);
    SHOW_ERRNO(write(fds[1], "x", 1));
    close(fds[1]);
}

static void mappings(void)
{
    int fd = made("four", "mapped");
    char *shared = mmap(NULL, 4096, PROT_READ | PROT_WRITE, MAP_SHARED, fd, 0);
    char *private = mmap(NULL, 4096, PROT_READ | PROT_WRITE, MAP_PRIVATE, fd, 0);
    SHOW(shared == MAP_FAILED || private == MAP_FAILED);
    SHOW(memcmp(private, "mapped", 7));
    private[0] = 'x';
    shared[0] = 'M';
    SHOW(pread(fd, bytes, 6, 0));
    SHOW(memcmp(bytes, "Mapped", 6));
    SHOW(pwrite(fd, "!", 1, 5));
    SHOW(shared[5]);
    SHOW(ftruncate(fd, 100000));
    SHOW(pread(fd, bytes, 10, 99990));
    SHOW(shared[0]);
    int reads = open("four", O_RDONLY);
    SHOW_ERRNO(mmap(NULL, 4096, PROT_READ | PROT_WRITE, MAP_SHARED, reads, 0));
    SHOW_ERRNO(mmap(NULL, 4096, PROT_READ, 0, fd, 0));
    SHOW_ERRNO(munmap(shared, 0));
    SHOW_ERRNO(munmap(shared + 1, 4096));
    SHOW(munmap(shared, 4096) || munmap(private, 4096));
    SHOW(unlink("four") || close(fd));
}

int main(void)
{
    places();
    names();
    pipes();
    mappings();
    SHOW_ERRNO(close(99));
    struct pollfd none;
    SHOW(poll(&none, 0, 3));
    FILE *file = tmpfile();
    if (file) {
        fprintf(file, "%d %s", 42, "words");
        rewind(file);
        int number = 0;
        SHOW(fscanf(file, "%d %99s", &number, bytes));
        SHOW(number);
        fclose(file);
    }
    return 0;
}
