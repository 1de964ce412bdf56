/* Signals that a program sends itself: handlers, masks, waits, alarms. */
#define _GNU_SOURCE
#include "check.h"
#include <setjmp.h>
#include <signal.h>
#include <sys/time.h>

static volatile sig_atomic_t counts[65], last;
static volatile int is_waiting;
static pthread_mutex_t lock = PTHREAD_MUTEX_INITIALIZER;
static pthread_cond_t cond = PTHREAD_COND_INITIALIZER;
static sigjmp_buf place;

static void count(int sig) { counts[sig]++, last = sig; }
static void jump(int sig) { siglongjmp(place, sig); }

static void handle(int sig, void (*handler)(int), int flags)
{
    struct sigaction action = {.sa_handler = handler, .sa_flags = flags};
    sigemptyset(&action.sa_mask);
    sigaction(sig, &action, NULL);
}

static sigset_t set_of(int sig)
{
    sigset_t set;
    sigemptyset(&set);
    sigaddset(&set, sig);
    return set;
}

static void masks(void)
{
    sigset_t set = set_of(SIGUSR1), pending, old;
    handle(SIGUSR1, count, 0);
    SHOW(raise(SIGUSR1));
    SHOW(counts[SIGUSR1]);
    pthread_sigmask(SIG_BLOCK, &set, &old);
    raise(SIGUSR1);
    kill(getpid(), SIGUSR1);
    SHOW(counts[SIGUSR1]);
    sigpending(&pending);
    SHOW(sigismember(&pending, SIGUSR1));
    pthread_sigmask(SIG_SETMASK, &old, NULL);
    SHOW(counts[SIGUSR1] > 1);
    sigpending(&pending);
    SHOW(sigismember(&pending, SIGUSR1));
    handle(SIGUSR2, count, SA_RESETHAND);
    raise(SIGUSR2);
    handle(SIGUSR2, SIG_IGN, 0);
    raise(SIGUSR2);
    SHOW(counts[SIGUSR2]);
    SHOW_ERRNO(kill(getpid(), 0));
    SHOW_ERRNO(kill(getpid(), 1000));
    SHOW_ERRNO(raise(SIGCHLD));
}

static void jumps(void)
{
    int sig = sigsetjmp(place, 1);
    if (!sig) {
        handle(SIGUSR2, jump, 0);
        raise(SIGUSR2);
        puts("not reached");
    }
    SHOW(sig == SIGUSR2);
    sigset_t now;
    pthread_sigmask(SIG_BLOCK, NULL, &now);
    SHOW(sigismember(&now, SIGUSR2));
}

/* Waits by sigsuspend, for a handler that restarts calls and for one that doesn't. */
static void *suspends(void *flags)
{
    sigset_t none, set = set_of(SIGUSR1);
    sigemptyset(&none);
    pthread_sigmask(SIG_BLOCK, &set, NULL);
    handle(SIGUSR1, count, *(int *)flags);
    is_waiting = 1;
    SHOW_ERRNO(sigsuspend(&none));
    return NULL;
}

static void *waits(void *unused)
{
    sigset_t set = set_of(SIGTERM);
    int sig = 0;
    pthread_sigmask(SIG_BLOCK, &set, NULL);
    is_waiting = 1;
    sigwait(&set, &sig);
    SHOW(sig == SIGTERM);
    struct timespec t = {0, 3000000};
    SHOW_ERRNO(sigtimedwait(&set, NULL, &t));
    return unused;
}

static void *sleeps(void *seconds)
{
    struct timespec t = {*(time_t *)seconds, 0}, rest = {0, 0};
    is_waiting = 1;
    SHOW_ERRNO(nanosleep(&t, &rest));
    SHOW(rest.tv_sec >= 998);
    return NULL;
}

static void *blocks(void *unused)
{
    pthread_mutex_lock(&lock);
    is_waiting = 1;
    while (is_waiting)
        pthread_cond_wait(&cond, &lock);
    pthread_mutex_unlock(&lock);
    return unused;
}

/* Sends a signal to a thread that waits. */
static void send(void *(*work)(void *), void *argument, int sig)
{
    pthread_t thread;
    is_waiting = 0;
    pthread_create(&thread, NULL, work, argument);
    while (!is_waiting)
        usleep(1000);
    usleep(20000);
    int error = pthread_kill(thread, sig);
    if (work == blocks) {
        while (counts[sig] < 1)
            usleep(1000);
        pthread_mutex_lock(&lock);
        is_waiting = 0;
        pthread_cond_broadcast(&cond);
        pthread_mutex_unlock(&lock);
    }
    pthread_join(thread, NULL);
    SHOW_ERROR(error);
}

static void alarms(void)
{
    struct itimerval every = {{0, 5000}, {0, 5000}}, none = {{0, 0}, {0, 0}};
    sigset_t set = set_of(SIGALRM), old;
    handle(SIGALRM, count, 0);
    pthread_sigmask(SIG_BLOCK, &set, &old);
    setitimer(ITIMER_REAL, &every, NULL);
    while (counts[SIGALRM] < 3)
        sigsuspend(&old);
    setitimer(ITIMER_REAL, &none, NULL);
    pthread_sigmask(SIG_SETMASK, &old, NULL);
    SHOW(counts[SIGALRM] >= 3);
    SHOW(alarm(100));
    SHOW(alarm(0) >= 99);
}

int main(void)
{
    int flags[] = {0, SA_RESTART};
    time_t seconds[] = {1000, (time_t)1 << 60};
    struct sigaction ignoring = {.sa_handler = SIG_IGN};
    SHOW_ERRNO(sigaction(SIGKILL, &ignoring, NULL));
    SHOW_ERRNO(killpg(getpgrp(), 0));
    masks();
    jumps();
    send(suspends, &flags[0], SIGUSR1);
    send(suspends, &flags[1], SIGUSR1);
    send(waits, NULL, SIGTERM);
    handle(SIGHUP, count, SA_RESTART);
    send(sleeps, &seconds[0], SIGHUP);
    send(sleeps, &seconds[1], SIGHUP);
    handle(SIGINT, count, SA_RESTART);
    send(blocks, NULL, SIGINT);
    SHOW(counts[SIGINT]);
    alarms();
    fflush(stdout);
    handle(SIGABRT, count, 0);
    raise(SIGABRT);
    SHOW(counts[SIGABRT]);
    return 0;
}
