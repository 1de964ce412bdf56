/* What musl asks of Linux and a guest doesn't have, over the calls that it has (docs/GUEST.md): waits, time, signals
   that the program sends itself, and what Linux says where there are one user and one process; files are in files.c.
   build-musl compiles it with musl's own folders of headers, as a part of crt1.o. A negative result is an errno.
   Comments name sections of IEEE Std 1003.1-2017: XBD is its volume Base Definitions, XSH System Interfaces. */
#include "layer.h"
#include <poll.h>
#include <string.h>
#include <sys/resource.h>
#include <sys/sysinfo.h>
#include <sys/utsname.h>
#include <ucontext.h>
#include "ksigaction.h"
#include "stdio_impl.h"

extern const char guest_processors[]; /* its address is their number, which cc gives */
extern hidden weak FILE __stdout_FILE;
weak hidden long __cancel(void);  /* these two are there if the program has threads */
weak hidden void __tl_lock(void), __tl_unlock(void);
hidden const char __cp_begin[1], __cp_end[1], __cp_cancel[1]; /* what musl's own __syscall_cp_asm defines */

/* A time as Linux has it, and what a receiver is told of a signal. */
#define PARTS(time) ((nanos[]){(time) / SECOND, (time) % SECOND})
#define SENT(sig) ((siginfo_t){.si_signo = sig, .si_code = SI_TKILL, .si_pid = 1})

/* ---- Signals: a table of actions, and of each thread what follows. They are taken at calls. */

static __thread struct mine {
    sigs mask, pending, wanted;      /* `wanted` is what it waits for in sigwait */
    volatile int *volatile waits_at; /* the word at which it waits, if it does */
    int is_private;                  /* FUTEX_PRIVATE, if that wait is */
    volatile int sent;               /* raised by each signal to it; it sleeps at this word */
    unsigned handled;                /* the number of handlers that it has run */
    int policy, priority;            /* of scheduling: kept, and of no effect */
    stack_t stack;
} mine;
static struct k_sigaction actions[_NSIG];
static sigs shared; /* pending for whichever thread takes it */
static volatile int signals_lock;
static nanos alarm_at, alarm_every;

static struct mine *of(pthread_t t) { return (void *)((char *)&mine - (char *)__pthread_self() + (char *)t); }
static sigs bit(int sig) { return sig ? 1ULL << (sig - 1) : 0; }
static sigs due(void) { return (mine.pending | shared) & ~mine.mask; }
static void yield(void) { RAW(SYS_sched_yield, 0, 0, 0, 0, 0); }
static nanos whole(const nanos *time) { return time[0] < 1LL << 33 ? time[0] * SECOND + time[1] : 1LL << 62; }

/* Whether the thread is to be cancelled. XSH 2.9.5.1. */
static int cancelled(void) {
    return __pthread_self()->cancel && __pthread_self()->canceldisable != PTHREAD_CANCEL_DISABLE;
}

/* A lock that is held for a few lines. Who waits for it runs no handler. XSH 2.4.3. */
hidden void __guest_enter(volatile int *lock) { while (a_swap(lock, 1)) yield(); }
hidden void __guest_leave(volatile int *lock) { a_store(lock, 0); }

/* Takes one of these signals from what is pending, and returns it, or 0. XSH 2.4.1. */
static int take(sigs some) {
    __guest_enter(&signals_lock);
    some &= mine.pending | shared;
    int sig = some ? __builtin_ctzll(some) + 1 : 0;
    *(mine.pending & bit(sig) ? &mine.pending : &shared) &= ~bit(sig);
    return __guest_leave(&signals_lock), sig;
}

/* The guest ends as by EBREAK for SIGABRT, and else with the status of a shell. XSH 2.4.3, XBD signal.h. */
static void act_by_default(int sig) {
    if (bit(sig) & (bit(SIGCHLD) | bit(SIGCONT) | bit(SIGURG) | bit(SIGWINCH))) return;
    if (sig == SIGABRT) __asm__ volatile("ebreak");
    RAW(SYS_exit_group, 128 + sig, 0, 0, 0, 0);
}

/* Runs a handler, with the mask that it asks for. XSH 2.4.3, XSH sigaction. */
static void handle(int sig, const struct k_sigaction *action) {
    ucontext_t context = {0};
    sigs *old = (void *)&context.uc_sigmask;
    *old = mine.mask;
    mine.mask |= *(const sigs *)action->mask | (action->flags & SA_NODEFER ? 0 : bit(sig));
    if (action->flags & SA_RESETHAND) actions[sig].handler = SIG_DFL;
    ((void (*)(int, siginfo_t *, void *))action->handler)(sig, &SENT(sig), &context);
    mine.mask = *old;
    mine.handled++;
}

/* Acts on all that is due. Returns 2 if a handler ran that ends a call, 1 if only others (SA_RESTART). XSH 2.4.4. */
static int deliver(void) {
    pthread_t self = __pthread_self();
    int ran = 0;
    while (due()) {
        int sig = take(~mine.mask);
        struct k_sigaction action = actions[sig];
        if (sig == SIGCANCEL && self->cancel && self->cancelasync && self->canceldisable == PTHREAD_CANCEL_ENABLE)
            __cancel();
        if (!sig || sig == SIGCANCEL || action.handler == SIG_IGN) continue;
        if (action.handler == SIG_DFL) act_by_default(sig);
        else handle(sig, &action), ran |= action.flags & SA_RESTART ? 1 : 2;
    }
    return ran & 2 ? 2 : ran;
}

/* Who gets a signal: this tid; with 0 the caller, or one that waits, or another that doesn't block it. XSH 2.4.1. */
static pthread_t receiver(int tid, int sig) {
    pthread_t self = __pthread_self(), t = self, found = 0;
    do {
        int takes = !(of(t)->mask & ~of(t)->wanted & bit(sig));
        if (tid ? t->tid == tid : takes && (!found || (found != self && !of(found)->waits_at))) found = t;
    } while ((t = t->next) != self);
    return found;
}

/* Sends a signal to a thread, or with tid 0 to the process. Who waits is woken until it has seen it. XSH 2.4.1. */
hidden long __guest_send(int tid, int sig) {
    if ((unsigned)sig >= _NSIG) return -EINVAL;
    if (__tl_lock) __tl_lock();
    pthread_t to = receiver(tid, sig);
    if (sig && (to || !tid)) {
        __guest_enter(&signals_lock);
        if (actions[sig].handler != SIG_IGN || (to && of(to)->mask & bit(sig)))
            *(tid ? &of(to)->pending : &shared) |= bit(sig);
        __guest_leave(&signals_lock);
        if (to) a_inc(&of(to)->sent);
        for (volatile int *at; to && to != __pthread_self() && (at = of(to)->waits_at) &&
                               (of(to)->pending | shared) & bit(sig) & (of(to)->wanted | ~of(to)->mask); yield())
            RAW(SYS_futex, at, FUTEX_WAKE | of(to)->is_private, INT_MAX, 0, 0);
    }
    if (__tl_lock) __tl_unlock();
    return tid && !to ? -ESRCH : (deliver(), 0);
}

/* ---- Waits and time */

/* The guest has two clocks, of those that Linux has. XSH 2.8.5. */
static nanos now(int clock) { nanos t[2]; RAW(SYS_clock_gettime64, clock, t, 0, 0, 0); return whole(t); }
static int clock_of(int id) { return id == CLOCK_REALTIME || id == 5 || id == 8 || id == CLOCK_TAI ? 0 : 1; }

/* Sends SIGALRM if the time of alarm or setitimer is over. Calls and those who wait look. XSH alarm. */
static void ring(void) {
    if (!alarm_at || now(1) < alarm_at) return;
    alarm_at = alarm_every ? alarm_at + alarm_every : 0;
    __guest_send(0, SIGALRM);
}

/* Waits at a word, for a time or less: who waits looks again. In version 1 a timed one yields, by ENOSYS. XSH 2.4.4. */
hidden long __guest_wait(volatile int *word, int is_private, int value, const nanos *time, int is_cp) {
    nanos left = alarm_at ? alarm_at - now(1) : 0;
    const nanos *rest = PARTS(left), *until = left > 0 && (!time || left < whole(time)) ? rest : time;
    mine.is_private = is_private, mine.waits_at = word;
    long result = due() || (is_cp && cancelled()) ? -EINTR
                                                  : RAW(SYS_futex, word, FUTEX_WAIT | is_private, value, until, 0);
    mine.waits_at = 0;
    if (result == -ENOSYS && until) yield();
    ring();
    int ran = deliver();
    if (ran == 2 || (ran && time) || (is_cp && cancelled())) return -EINTR;
    return result == -EINTR || (until == rest && result == -ETIMEDOUT) ? 0 : result;
}

/* An operation that moves waiters wakes them all: each looks again. XSH pthread_cond_broadcast allows that. */
static long futex(volatile int *word, int op, int value, const nanos *time, int is_cp) {
    int is_private = op & FUTEX_PRIVATE, what = op & 127, moves = what == FUTEX_REQUEUE || what == FUTEX_CMP_REQUEUE;
    if (moves || what == FUTEX_WAKE || what == 10)
        return RAW(SYS_futex, word, FUTEX_WAKE | is_private, moves ? INT_MAX : value, 0, 0);
    if (what == 9 && time) { /* WAIT_BITSET: until a time, of the real clock if bit 256 says so */
        nanos left = whole(time) - now(op & 256 ? 0 : 1);
        return left <= 0 ? -ETIMEDOUT : __guest_wait(word, is_private, value, PARTS(left), is_cp);
    }
    return what == FUTEX_WAIT || what == 9 ? __guest_wait(word, is_private, value, time, is_cp) : -ENOSYS;
}

/* Waits for a signal to this thread after the first `seen` ones, until a time of a clock if one is given. XSH 2.4.1. */
static long wait_sent(int seen, int clock, const nanos *end, int is_cp) {
    long result = futex(&mine.sent, 9 | FUTEX_PRIVATE | (clock ? 0 : 256), seen, end ? PARTS(*end) : 0, is_cp);
    return result == -EAGAIN ? 0 : result;
}

/* XSH clock_nanosleep, XSH nanosleep: `rest` gets what a handler left of the time. */
static long sleep_until(int clock, nanos end, nanos *rest, int is_cp) {
    long result = 0;
    while (!result) result = wait_sent(mine.sent, clock, &end, is_cp);
    if (result != -EINTR) return 0;
    nanos left = end - now(clock);
    return rest ? memcpy(rest, PARTS(left > 0 ? left : 0), 2 * sizeof left) : 0, result;
}

/* Waits with another mask until a handler has run. XSH sigsuspend, XSH pause. */
static long suspend(sigs mask, int is_cp) {
    sigs old = mine.mask;
    unsigned handled = mine.handled;
    mine.mask = mask;
    for (int seen; seen = mine.sent, mine.handled == handled && !(is_cp && cancelled());)
        if (!deliver()) wait_sent(seen, 0, 0, is_cp);
    return mine.mask = old, -EINTR;
}

/* XSH sigwait, XSH sigtimedwait. */
static long await_signal(sigs some, siginfo_t *info, const nanos *time, int is_cp) {
    nanos end = time ? now(1) + whole(time) : 0;
    long sig, result = 0;
    mine.wanted = some;
    for (int seen; seen = mine.sent, !(sig = take(some)) && result != -EINTR && result != -ETIMEDOUT;)
        result = wait_sent(seen, 1, time ? &end : 0, is_cp);
    mine.wanted = 0;
    if (sig && info) *info = SENT(sig);
    return sig ? sig : result == -EINTR ? result : -EAGAIN;
}

/* ---- The calls, by groups */

/* Each descriptor is ready at once; without one it is a sleep. XSH poll, XSH pselect. */
static long poll_some(struct pollfd *fds, long count, const nanos *time, const sigs *mask, int is_cp) {
    if (!count) return time ? sleep_until(1, now(1) + whole(time), 0, is_cp) : suspend(mask ? *mask : mine.mask, is_cp);
    for (long i = 0; fds && i < count; i++)
        fds[i].revents = fds[i].fd < 0 ? 0 : fds[i].events & (POLLIN | POLLOUT | POLLRDNORM | POLLWRNORM);
    return count;
}

/* XSH 2.8.5. The processor's time is what has gone by since it was first asked for. */
static long clock_call(long n, long a, long b, long c, long d, int is_cp) {
    static nanos first;
    nanos t, *pair = (void *)b;
    int is_processor = a == CLOCK_PROCESS_CPUTIME_ID || a == CLOCK_THREAD_CPUTIME_ID || (a < 0 && (a & 3) == 2);
    int is_clock = is_processor || (unsigned long)a <= CLOCK_TAI;
    switch (n) {
    case SYS_clock_gettime64:
        if (!is_clock) return -EINVAL;
        if (!is_processor) return RAW(n, clock_of(a), b, 0, 0, 0);
        t = now(1), first = first ? first : t;
        return memcpy(pair, PARTS(t - first), 2 * sizeof t), 0;
    case SYS_clock_getres_time64:
        return !is_clock ? -EINVAL : pair ? pair[0] = 0, pair[1] = 1, 0 : 0;
    case SYS_clock_settime64: return a || (unsigned long long)pair[1] >= SECOND ? -EINVAL : -EPERM;
    case SYS_clock_nanosleep_time64:
        pair = (void *)c;
        if (!is_clock || is_processor || pair[0] < 0 || (unsigned long long)pair[1] >= SECOND) return -EINVAL;
        t = whole(pair) + (b & TIMER_ABSTIME ? 0 : now(clock_of(a)));
        return sleep_until(clock_of(a), t, b & TIMER_ABSTIME ? 0 : (void *)d, is_cp);
    }
    return ELSE;
}

/* XSH getitimer, XSH setitimer, of the one timer that there is. */
static long timer_call(int which, const long *new, long *old) {
    nanos left = alarm_at ? (alarm_at - now(1)) / 1000 : 0, every = alarm_every / 1000;
    if (which != ITIMER_REAL) return -EINVAL;
    if (old) old[0] = every / 1000000, old[1] = every % 1000000, old[2] = left / 1000000, old[3] = left % 1000000;
    if (new) alarm_every = new[0] * SECOND + new[1] * 1000LL;
    if (new) alarm_at = new[2] || new[3] ? now(1) + new[2] * SECOND + new[3] * 1000LL : 0;
    return 0;
}

/* XSH 2.4. */
static long signal_call(long n, long a, long b, long c, int is_cp) {
    sigs old = mine.mask, set = 0;
    switch (n) {
    case SYS_rt_sigaction:
        if ((unsigned long)a >= _NSIG || (b && bit(a) & (bit(SIGKILL) | bit(SIGSTOP)))) return -EINVAL;
        if (c) memcpy((void *)c, &actions[a], sizeof *actions);
        if (b) actions[a] = *(struct k_sigaction *)b;
        return 0;
    case SYS_rt_sigprocmask:
        set = b ? *(sigs *)b & ~(bit(SIGKILL) | bit(SIGSTOP)) : 0;
        if (b) mine.mask = a == SIG_BLOCK ? old | set : a == SIG_UNBLOCK ? old & ~set : set;
        if (c) *(sigs *)c = old;
        return deliver(), 0;
    case SYS_rt_sigpending: *(sigs *)a = (mine.pending | shared) & mine.mask; return 0;
    case SYS_rt_sigsuspend: return suspend(*(sigs *)a, is_cp);
    case SYS_rt_sigtimedwait_time64: return await_signal(*(sigs *)a, (void *)b, (void *)c, is_cp);
    case SYS_sigaltstack: /* kept: handlers run on the stack of their thread */
        if (b) *(stack_t *)b = mine.stack.ss_sp ? mine.stack : (stack_t){.ss_flags = SS_DISABLE};
        if (a) mine.stack = ((stack_t *)a)->ss_flags & SS_DISABLE ? (stack_t){0} : *(stack_t *)a;
        return 0;
    case SYS_tkill: return __guest_send(a, b);
    case SYS_tgkill: return __guest_send(b, c);
    case SYS_kill: case SYS_rt_sigqueueinfo:
        return a && a != -1 && a != RAW(SYS_getpid, 0, 0, 0, 0, 0) ? -ESRCH : __guest_send(0, b);
    }
    return ELSE;
}

/* musl lists a thread once it has set its policy, which is kept in `made` until then. XSH pthread_setschedparam. */
static long schedule_call(long n, int tid, long b, long c) {
    static struct mine made;
    static int made_tid;
    if (__tl_lock) __tl_lock();
    pthread_t t = made_tid ? receiver(made_tid, 0) : 0;
    if (t) of(t)->policy = made.policy, of(t)->priority = made.priority, made_tid = 0;
    t = receiver(tid ? tid : __pthread_self()->tid, 0);
    if (!t) made_tid = tid;
    struct mine *its = t ? of(t) : &made;
    if (n == SYS_sched_setscheduler) its->policy = b, its->priority = *(int *)c;
    if (n == SYS_sched_setparam) its->priority = *(int *)b;
    if (n == SYS_sched_getparam) *(int *)b = its->priority;
    if (__tl_lock) __tl_unlock();
    return n == SYS_sched_getscheduler ? its->policy : 0;
}

/* What Linux says of the machine: as many processors as cc says, 64 MiB, one user. XSH sysconf, XSH uname. */
static long machine_call(long n, long a, long b, long c, long d) {
    nanos time = 0;
    switch (n) {
    case SYS_sched_getaffinity:
        memset((void *)c, 0, b);
        for (unsigned long i = 0; i < (unsigned long)guest_processors && i / 8 < (unsigned long)b; i++)
            ((char *)c)[i / 8] |= 1 << i % 8;
        return b < 8 ? b : 8;
    case SYS_sched_get_priority_max: case SYS_sched_get_priority_min:
        if ((unsigned long)a > SCHED_BATCH) return -EINVAL;
        return a == SCHED_FIFO || a == SCHED_RR ? (n == SYS_sched_get_priority_max ? 99 : 1) : 0;
    case SYS_getcpu: return a ? *(int *)a = 0 : 0;
    case SYS_sched_setscheduler: case SYS_sched_setparam: case SYS_sched_getparam: case SYS_sched_getscheduler:
        return schedule_call(n, a, b, c);
    case SYS_sched_rr_get_interval_time64: return memcpy((void *)b, PARTS(SECOND / 10), 2 * sizeof(nanos)), 0;
    case SYS_prlimit64:
        if (d) ((nanos *)d)[0] = ((nanos *)d)[1] = b == RLIMIT_STACK ? 1 << 20 : b == RLIMIT_NOFILE ? GUEST_OPENS : -1;
        return 0;
    case SYS_sysinfo:
        return *(struct sysinfo *)a = (struct sysinfo){.totalram = 64 << 20, .freeram = 48 << 20, .mem_unit = 1}, 0;
    case SYS_uname: *(struct utsname *)a = (struct utsname){"Linux", "guest", "6.0.0", "#1", "riscv32", ""}; return 0;
    case SYS_times:
        return time = now(1) / (SECOND / 100), a ? memcpy((void *)a, (long[4]){time}, 4 * sizeof(long)) : 0, time;
    case SYS_getrusage:
        return time = now(1), memcpy((void *)b, (long[18]){time / SECOND, time % SECOND / 1000}, 18 * sizeof(long)), 0;
    case SYS_getcwd: return b < 2 ? -ERANGE : (strcpy((char *)a, "/"), 2);
    case SYS_getpgid: case SYS_getsid: return !a || a == RAW(SYS_getpid, 0, 0, 0, 0, 0) ? 1 : -ESRCH;
    case SYS_umask: return 022;
    case SYS_getpriority: return 20;
    case SYS_mremap: return a < 0x7FF00000 && a >= 0x7FEFE000 ? -EFAULT : -ENOMEM; /* how musl finds the stack's end */
    case SYS_getuid: case SYS_geteuid: case SYS_getgid: case SYS_getegid: case SYS_getppid: case SYS_setpriority:
    case SYS_mlock: case SYS_munlock: case SYS_msync: case SYS_set_robust_list: case SYS_get_robust_list:
    case SYS_sched_setaffinity: return 0;
    }
    return ELSE;
}

/* All that isn't an ECALL in place. */
static long call(long n, long a, long b, long c, long d, long e, long f, int is_cp) {
    nanos place = (unsigned long)d;
    if (alarm_at) ring();
    switch (n) {
    case SYS_mmap2: case SYS_munmap: return __guest_file_call(n, a, b, c, d, e, f); /* also before threads can be */
    case SYS_futex: return futex((void *)a, b, c, (void *)d, is_cp);
    case SYS_read: case SYS_write: return __guest_transfer(a, &(struct iovec){(void *)b, c}, 1, 0, n == SYS_write);
    case SYS_readv: case SYS_writev: return __guest_transfer(a, (void *)b, c, 0, n == SYS_writev);
    case SYS_pread64: case SYS_pwrite64:
        return __guest_transfer(a, &(struct iovec){(void *)b, c}, 1, &place, n == SYS_pwrite64);
    case SYS_ppoll_time64: return poll_some((void *)a, b, (void *)c, (void *)d, is_cp);
    case SYS_pselect6_time64: return poll_some(0, a, (void *)e, f ? *(sigs **)f : 0, is_cp);
    case SYS_getitimer: return timer_call(a, 0, (void *)b);
    case SYS_setitimer: return timer_call(a, (void *)b, (void *)c);
    }
    long result = machine_call(n, a, b, c, d);
    if (result == ELSE) result = signal_call(n, a, b, c, is_cp);
    if (result == ELSE) result = clock_call(n, a, b, c, d, is_cp);
    if (result == ELSE) result = __guest_file_call(n, a, b, c, d, e, f);
    return result != ELSE ? result : __GUEST_HAS(n, b) ? RAW(n, a, b, c, d, e) : -ENOSYS;
}

long __guest_call(long n, long a, long b, long c, long d, long e, long f) { return call(n, a, b, c, d, e, f, 0); }

/* In place of musl's, which makes the ECALL itself: a call at which a thread may be cancelled. XSH 2.9.5.2. */
hidden long __syscall_cp_asm(volatile int *cancel, long n, long a, long b, long c, long d, long e, long f) {
    return *cancel && __cancel ? __cancel() : call(n, a, b, c, d, e, f, 1);
}

/* Before main: standard output is by lines, unless the program says otherwise. XSH 2.5 leaves that open. */
hidden void __guest_begin(void) { if (&__stdout_FILE) __stdout_FILE.flags |= F_SVB; }

/* In place of musl's, by which the stack of a thread is at a multiple of 4: a double among variable arguments is then
   read beside itself. What is no thread isn't made. A thread idles before it begins. Its stack has 0 where that of its
   maker has the place to return to, so that a debugger goes no further. XSH pthread_create. */
__asm__(".text\n.global __clone\n.hidden __clone\n.type __clone, %function\n__clone:\n.cfi_startproc\n"
        "li t0, 0x10000\nand t0, t0, a2\nbnez t0, 1f\nli a0, -38\nret\n"
        "1: addi sp, sp, -16\n.cfi_adjust_cfa_offset 16\nsw ra, 12(sp)\n.cfi_offset ra, -4\n"
        "andi a1, a1, -16\naddi a1, a1, -16\nsw a0, 0(a1)\nsw a3, 4(a1)\nsw zero, 12(a1)\n"
        "mv a0, a2\nmv a2, a4\nmv a3, a5\nmv a4, a6\nli a7, 220\necall\n"
        "lui t0, %hi(guest_idle)\naddi t0, t0, %lo(guest_idle)\nbeqz t0, 3f\n2: addi t0, t0, -1\nbnez t0, 2b\n"
        "3: beqz a0, __guest_thread\nlw ra, 12(sp)\naddi sp, sp, 16\nret\n.cfi_endproc\n.size __clone, . - __clone\n"
        ".type __guest_thread, %function\n__guest_thread:\n.cfi_startproc\n.cfi_undefined ra\nlw a1, 0(sp)\n"
        "lw a0, 4(sp)\njalr a1\nli a7, 93\necall\n.cfi_endproc\n.size __guest_thread, . - __guest_thread\n");
