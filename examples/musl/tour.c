/* What guests of musl have, in one program: threads, a barrier, a semaphore, a lock for readers, a condition with a
   timeout, sleep, doubles, arguments, the environment, and files. It prints the same on Linux and in a guest:

       examples/musl/cc --args '3 "two words"' --env PLACE=here --file input.txt=examples/musl/tour.txt \
           examples/musl/tour.c -o tour.elf

   On Linux it runs in a folder that has input.txt. */

#include <errno.h>
#include <math.h>
#include <pthread.h>
#include <semaphore.h>
#include <signal.h>
#include <stdio.h>
#include <stdlib.h>
#include <string.h>
#include <time.h>
#include <unistd.h>

enum { THREADS = 4 };

static pthread_barrier_t barrier;
static pthread_rwlock_t table = PTHREAD_RWLOCK_INITIALIZER;
static pthread_mutex_t lock = PTHREAD_MUTEX_INITIALIZER;
static pthread_cond_t changed = PTHREAD_COND_INITIALIZER;
static sem_t done;
static double roots[THREADS];
static char lines[THREADS][80];
static int arrived, is_open;
static volatile sig_atomic_t signals;

static void count_signal(int number)
{
    (void)number;
    signals++;
}

/* Waits for all, writes its root, reads the others', and waits to be let go. */
static void *work(void *argument)
{
    int me = *(int *)argument;
    double sum = 0;
    pthread_barrier_wait(&barrier);
    pthread_rwlock_wrlock(&table);
    roots[me] = sqrt(me + 2);
    pthread_rwlock_unlock(&table);
    pthread_barrier_wait(&barrier);
    pthread_rwlock_rdlock(&table);
    for (int i = 0; i < THREADS; i++)
        sum += roots[i];
    pthread_rwlock_unlock(&table);
    snprintf(lines[me], sizeof lines[me], "thread %d: %.6f of %.6f, %e", me, roots[me], sum, roots[me] / sum);
    pthread_mutex_lock(&lock);
    arrived++;
    while (!is_open)
        pthread_cond_wait(&changed, &lock);
    pthread_mutex_unlock(&lock);
    sem_post(&done);
    return argument;
}

/* Waits for a time at a condition that nobody signals; returns the error. */
static int wait_in_vain(void)
{
    struct timespec until;
    int error = 0;
    clock_gettime(CLOCK_REALTIME, &until);
    until.tv_nsec += 20000000;
    until.tv_sec += until.tv_nsec / 1000000000;
    until.tv_nsec %= 1000000000;
    pthread_mutex_lock(&lock);
    while (!error)
        error = pthread_cond_timedwait(&changed, &lock, &until);
    pthread_mutex_unlock(&lock);
    return error;
}

static void use_threads(void)
{
    pthread_t threads[THREADS];
    int numbers[THREADS], is_there = 0;
    pthread_barrier_init(&barrier, NULL, THREADS);
    sem_init(&done, 0, 0);
    for (int i = 0; i < THREADS; i++) {
        numbers[i] = i;
        if (pthread_create(&threads[i], NULL, work, &numbers[i]))
            exit(1);
    }
    while (!is_there) {
        usleep(1000);
        pthread_mutex_lock(&lock);
        is_there = arrived == THREADS;
        pthread_mutex_unlock(&lock);
    }
    printf("waiting in vain: %s\n", wait_in_vain() == ETIMEDOUT ? "the time was over" : "an error");
    pthread_mutex_lock(&lock);
    is_open = 1;
    pthread_cond_broadcast(&changed);
    pthread_mutex_unlock(&lock);
    for (int i = 0; i < THREADS; i++)
        sem_wait(&done);
    for (int i = 0; i < THREADS; i++) {
        void *result;
        pthread_join(threads[i], &result);
        printf("%s, returned %d\n", lines[i], *(int *)result);
    }
}

/* Counts the words of a file, and writes them in capitals into another, which it reads again. */
static void use_files(void)
{
    char word[64];
    int words = 0;
    FILE *from = fopen("input.txt", "r"), *to = fopen("capitals.txt", "w+");
    if (!from || !to) {
        perror("fopen");
        exit(1);
    }
    for (; fscanf(from, "%63s", word) == 1; words++) {
        for (char *at = word; *at; at++)
            *at = *at >= 'a' && *at <= 'z' ? *at - 32 : *at;
        fprintf(to, "%s\n", word);
    }
    rewind(to);
    printf("%d words, %s", words, fgets(word, sizeof word, to));
    fclose(from);
    fclose(to);
    int removed = remove("capitals.txt");
    printf("removed: %d, and again: %s\n", removed, fopen("capitals.txt", "r") ? "there" : strerror(errno));
}

int main(int count, char **words)
{
    const struct timespec pause = {0, 5000000};
    printf("%d arguments", count - 1);
    for (int i = 1; i < count; i++)
        printf(", '%s'", words[i]);
    printf("; PLACE is %s\n", getenv("PLACE") ? getenv("PLACE") : "not set");
    use_threads();
    use_files();
    signal(SIGUSR1, count_signal);
    raise(SIGUSR1);
    kill(getpid(), SIGUSR1);
    printf("%d signals, sleep: %d\n", (int)signals, nanosleep(&pause, NULL));
    return 0;
}
