/* How many threads, descriptors and names a guest has: README.md. The program goes on. This test isn't run on Linux. */
#include "check.h"
#include <fcntl.h>
#include <limits.h>
#include <sys/stat.h>

static void *wait_for_lock(void *lock)
{
    pthread_mutex_lock(lock);
    pthread_mutex_unlock(lock);
    return NULL;
}

static void threads(void)
{
    static pthread_mutex_t lock = PTHREAD_MUTEX_INITIALIZER;
    pthread_t made[100];
    int count = 0, error = 0;
    pthread_mutex_lock(&lock);
    while (count < 100 && !(error = pthread_create(&made[count], NULL, wait_for_lock, &lock)))
        count++;
    pthread_mutex_unlock(&lock);
    printf("%d threads, and then %s\n", count + 1, error_name(error));
    for (int i = 0; i < count; i++)
        pthread_join(made[i], NULL);
    SHOW_ERROR(pthread_create(made, NULL, wait_for_lock, &lock));
    pthread_join(*made, NULL);
}

static void descriptors(void)
{
    int fd, last = 2;
    while ((fd = open("/dev/null", O_RDONLY)) >= 0)
        last = fd;
    printf("%d descriptors, and then %s\n", last + 1, error_name(errno));
    while (last > 2)
        close(last--);
    SHOW_ERRNO(open("/dev/null", O_RDONLY));
    close(3);
}

static void names(void)
{
    struct stat found;
    char name[NAME_MAX];
    int count = 0, fd;
    for (const char *const *it = (const char *const[]){"/", "/tmp", "/dev", "/dev/null", "/dev/urandom", 0}; *it; it++)
        count += stat(*it, &found) == 0;
    for (;; count++) {
        sprintf(name, "/tmp/%d", count);
        if ((fd = open(name, O_CREAT | O_WRONLY, 0600)) < 0)
            break;
        close(fd);
    }
    printf("%d names, and then %s\n", count, error_name(errno));
    SHOW_ERRNO(unlink("/tmp/100"));
    for (int length = 98; length <= 100; length++) {
        memset(name, 'a', length);
        name[length] = 0;
        SHOW_ERRNO(rename("/tmp/101", name));
        rename(name, "/tmp/101");
    }
}

int main(void)
{
    threads();
    descriptors();
    names();
    return 0;
}
