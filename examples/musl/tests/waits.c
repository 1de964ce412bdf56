/* Conditions, mutexes, cancellation, keys and joins. */
#define _GNU_SOURCE
#include "check.h"
#include <sched.h>
#include <semaphore.h>
#include <stdint.h>

enum { WAITERS = 7, ROUNDS = 20 };

static pthread_mutex_t lock = PTHREAD_MUTEX_INITIALIZER;
static pthread_cond_t turn = PTHREAD_COND_INITIALIZER, all = PTHREAD_COND_INITIALIZER;
static int round_now, waiting, woken, cleaned;
static pthread_key_t key;
static int destroyed;

/* Waits for each round: all are woken by a broadcast, or one after another by signals. */
static void *wait_rounds(void *unused)
{
    pthread_mutex_lock(&lock);
    for (int next = 1; next <= ROUNDS; next++) {
        if (++waiting == WAITERS)
            pthread_cond_signal(&all);
        while (round_now < next)
            pthread_cond_wait(&turn, &lock);
        woken++;
    }
    pthread_mutex_unlock(&lock);
    return unused;
}

static void broadcasts(void)
{
    pthread_t threads[WAITERS];
    for (int i = 0; i < WAITERS; i++)
        pthread_create(&threads[i], NULL, wait_rounds, NULL);
    pthread_mutex_lock(&lock);
    for (int round = 1; round <= ROUNDS; round++) {
        while (waiting < WAITERS)
            pthread_cond_wait(&all, &lock);
        waiting = 0;
        round_now = round;
        if (round % 2)
            pthread_cond_broadcast(&turn);
        for (int i = 0; !(round % 2) && i < WAITERS; i++)
            pthread_cond_signal(&turn);
    }
    pthread_mutex_unlock(&lock);
    for (int i = 0; i < WAITERS; i++)
        pthread_join(threads[i], NULL);
    SHOW(woken);
    SHOW_ERROR(pthread_cond_destroy(&turn));
}

static void clean(void *unused)
{
    (void)unused;
    cleaned++;
    pthread_mutex_unlock(&lock);
}

static void *wait_for_ever(void *argument)
{
    pthread_cond_t *cond = argument;
    pthread_mutex_lock(&lock);
    pthread_cleanup_push(clean, NULL);
    waiting++;
    pthread_cond_signal(&all);
    for (;;)
        pthread_cond_wait(cond, &lock);
    pthread_cleanup_pop(1);
    return NULL;
}

static void *sleep_for_ever(void *unused)
{
    for (;;)
        sleep(1000);
    return unused;
}

static void *run_for_ever(void *unused)
{
    pthread_setcanceltype(PTHREAD_CANCEL_DEFERRED, NULL);
    for (;;) {
        sched_yield();
        pthread_testcancel();
    }
    return unused;
}

static void cancellation(void)
{
    pthread_cond_t never = PTHREAD_COND_INITIALIZER;
    pthread_t threads[3];
    void *result;
    int cancelled = 0;
    waiting = 0;
    pthread_create(&threads[0], NULL, wait_for_ever, &never);
    pthread_create(&threads[1], NULL, sleep_for_ever, NULL);
    pthread_create(&threads[2], NULL, run_for_ever, NULL);
    pthread_mutex_lock(&lock);
    while (!waiting)
        pthread_cond_wait(&all, &lock);
    pthread_mutex_unlock(&lock);
    for (int i = 0; i < 3; i++)
        pthread_cancel(threads[i]);
    for (int i = 0; i < 3; i++) {
        pthread_join(threads[i], &result);
        cancelled += result == PTHREAD_CANCELED;
    }
    SHOW(cancelled);
    SHOW(cleaned);
}

static void timeouts(void)
{
    pthread_mutexattr_t attr;
    pthread_mutex_t checked;
    pthread_cond_t cond;
    pthread_condattr_t of_cond;
    sem_t sem;
    struct timespec t = after(CLOCK_REALTIME, 5);
    pthread_mutexattr_init(&attr);
    pthread_mutexattr_settype(&attr, PTHREAD_MUTEX_ERRORCHECK);
    pthread_mutex_init(&checked, &attr);
    SHOW_ERROR(pthread_mutex_lock(&checked));
    SHOW_ERROR(pthread_mutex_lock(&checked));
    SHOW_ERROR(pthread_mutex_trylock(&checked));
    pthread_condattr_init(&of_cond);
    pthread_condattr_setclock(&of_cond, CLOCK_MONOTONIC);
    pthread_cond_init(&cond, &of_cond);
    t = after(CLOCK_MONOTONIC, 5);
    int error = 0;
    while (!error)
        error = pthread_cond_timedwait(&cond, &checked, &t);
    SHOW_ERROR(error);
    SHOW_ERROR(pthread_mutex_unlock(&checked));
    SHOW_ERROR(pthread_mutex_unlock(&checked));
    sem_init(&sem, 0, 0);
    t = after(CLOCK_REALTIME, 5);
    SHOW_ERRNO(sem_timedwait(&sem, &t));
    pthread_mutex_t plain = PTHREAD_MUTEX_INITIALIZER;
    pthread_mutex_lock(&plain);
    t = after(CLOCK_REALTIME, 5);
    SHOW_ERROR(pthread_mutex_timedlock(&plain, &t));
}

static void destroy(void *value) { destroyed += (int)(intptr_t)value; }

static void *set_key(void *value)
{
    pthread_setspecific(key, value);
    return NULL;
}

static void *stack_of(void *place)
{
    double values[2] = {1.5, 2.5};
    char text[40];
    snprintf(text, sizeof text, "%.1f %d %.1f", values[0], 7, values[1]);
    return strcpy(place, text);
}

int main(void)
{
    pthread_t thread;
    char text[40];
    struct timespec bad = {0, 1000000000};
    SHOW_ERRNO(clock_settime(CLOCK_REALTIME, &bad));
    SHOW_ERRNO(clock_settime(CLOCK_MONOTONIC, &bad));
    broadcasts();
    cancellation();
    timeouts();
    pthread_key_create(&key, destroy);
    for (int i = 1; i <= 4; i++) {
        pthread_create(&thread, NULL, set_key, (void *)(intptr_t)i);
        pthread_join(thread, NULL);
    }
    SHOW(destroyed);
    pthread_create(&thread, NULL, stack_of, text);
    pthread_join(thread, NULL);
    puts(text);
    return 0;
}
