/* The threads of pthread.h, over the calls clone, futex and mmap. */

#include "pthread.h"
#include "kit.h"

#include <errno.h>
#include <limits.h>
#include <stdint.h>
#include <stdlib.h>
#include <string.h>

enum { PAGE = 4096, STACK_BYTES = 65536, WAIT = 0, WAKE = 1, PROT_RW = 3, MAP_PRIVATE_ANONYMOUS = 0x22 };
static const unsigned DESTROYED = 0x80000000; /* of a condition's waiters */

/* A thread: one range of pages has a page that nobody may touch, its stack, this, and its thread-local variables, where tp points. */
struct pthread {
    volatile int tid; /* the thread's end clears it and wakes who waits for it */
    void *(*work)(void *);
    void *argument, *result;
    char *map;
    size_t map_bytes;
    struct pthread *next_detached;
    unsigned values_end; /* no key from here on has a value */
    void *values[PTHREAD_KEYS_MAX];
} __attribute__((aligned(16)));

extern char kit_tls_start[], kit_tdata_bytes[], kit_tls_bytes[]; /* guest.ld */
extern void (*kit_init_start[])(void), (*kit_init_end[])(void);

int kit_clone(char *stack_end, void *tls, volatile int *tid); /* start.S */
void kit_start(int count, char **words);
void kit_run(void);
int main(int count, char **words, char **environment);

static pthread_mutex_t kit_lock = PTHREAD_MUTEX_INITIALIZER; /* of the detached threads and the keys */
static struct pthread *detached;
static struct {
    int used;
    void (*destructor)(void *);
} keys[PTHREAD_KEYS_MAX];

static void wait_while(volatile void *word, unsigned value)
{
    call(FUTEX, (int)word, WAIT, (int)value, 0);
}

static void wake(volatile void *word, int count)
{
    call(FUTEX, (int)word, WAKE, count, 0);
}

pthread_t pthread_self(void)
{
    register struct pthread *tp __asm__("tp");
    return tp - 1;
}

int pthread_equal(pthread_t one, pthread_t other)
{
    return one == other;
}

/* Answers a new thread, or 0 where there is no memory. It has no stack where stack_bytes is 0. */
static struct pthread *new_thread(size_t stack_bytes)
{
    size_t guard = stack_bytes ? PAGE : 0;
    size_t below = guard + ((stack_bytes + PAGE - 1) & -PAGE);
    size_t all = (below + sizeof(struct pthread) + (size_t)kit_tls_bytes + PAGE - 1) & -PAGE;
    int map = call(MMAP, 0, (int)all, PROT_RW, MAP_PRIVATE_ANONYMOUS);
    if (map < 0 && map > -PAGE)
        return 0;
    if (guard)
        call(MPROTECT, map, (int)guard, 0, 0);
    struct pthread *thread = (struct pthread *)(map + below);
    thread->map = (char *)map;
    thread->map_bytes = all;
    memcpy(thread + 1, kit_tls_start, (size_t)kit_tdata_bytes);
    return thread;
}

static void free_thread(struct pthread *thread)
{
    call(MUNMAP, (int)thread->map, (int)thread->map_bytes, 0, 0);
}

/* The start of the program: thread 1 has the stack that it was given. */
void kit_start(int count, char **words)
{
    struct pthread *thread = new_thread(0);
    __asm__ volatile("mv tp, %0" : : "r"(thread + 1) : "memory");
    thread->tid = call(SET_TID_ADDRESS, (int)&thread->tid, 0, 0, 0);
    for (void (**init)(void) = kit_init_start; init < kit_init_end; init++)
        (*init)();
    exit(main(count, words, words + count + 1));
}

/* Frees the detached threads that have ended. */
static void free_ended(void)
{
    pthread_mutex_lock(&kit_lock);
    for (struct pthread **at = &detached; *at;) {
        struct pthread *thread = *at;
        if (thread->tid) {
            at = &thread->next_detached;
        } else {
            *at = thread->next_detached;
            free_thread(thread);
        }
    }
    pthread_mutex_unlock(&kit_lock);
}

int pthread_create(pthread_t *made, const pthread_attr_t *attr, void *(*work)(void *), void *argument)
{
    free_ended();
    struct pthread *thread = new_thread(attr && attr->stack_bytes ? attr->stack_bytes : STACK_BYTES);
    if (!thread)
        return EAGAIN;
    thread->work = work;
    thread->argument = argument;
    *made = thread;
    int tid = kit_clone((char *)thread, thread + 1, &thread->tid);
    if (tid < 0) {
        free_thread(thread);
        return -tid;
    }
    if (attr && attr->detached)
        pthread_detach(thread);
    return 0;
}

void kit_run(void)
{
    struct pthread *thread = pthread_self();
    pthread_exit(thread->work(thread->argument));
}

/* A destructor may set values again; POSIX allows to look four times at least. */
static void drop_values(struct pthread *thread)
{
    for (int round = 0; round < 4; round++)
        for (unsigned key = 0; key < thread->values_end; key++) {
            void *value = thread->values[key];
            thread->values[key] = 0;
            if (value && keys[key].used && keys[key].destructor)
                keys[key].destructor(value);
        }
}

void pthread_exit(void *result)
{
    struct pthread *thread = pthread_self();
    drop_values(thread);
    kit_flush();
    thread->result = result;
    for (;;)
        call(EXIT, 0, 0, 0, 0);
}

int pthread_join(pthread_t thread, void **result)
{
    int tid;
    if (thread == pthread_self())
        return EDEADLK;
    while ((tid = thread->tid) != 0)
        wait_while(&thread->tid, tid);
    if (result)
        *result = thread->result;
    free_thread(thread);
    return 0;
}

int pthread_detach(pthread_t thread)
{
    pthread_mutex_lock(&kit_lock);
    thread->next_detached = detached;
    detached = thread;
    pthread_mutex_unlock(&kit_lock);
    return 0;
}

int pthread_mutex_init(pthread_mutex_t *mutex, const pthread_mutexattr_t *attr)
{
    *mutex = (pthread_mutex_t){.kind = attr ? attr->kind : PTHREAD_MUTEX_NORMAL};
    return 0;
}

/* Whether the word was free and is now locked. */
static int take(pthread_mutex_t *mutex)
{
    unsigned seen = 0;
    return __atomic_compare_exchange_n(&mutex->word, &seen, 1, 0, __ATOMIC_ACQUIRE, __ATOMIC_RELAXED);
}

/* Whether the mutex looks who has it, and the calling thread has it. */
static int is_mine(const pthread_mutex_t *mutex)
{
    return mutex->kind != PTHREAD_MUTEX_NORMAL && mutex->owner == pthread_self()->tid;
}

int pthread_mutex_lock(pthread_mutex_t *mutex)
{
    if (is_mine(mutex))
        return mutex->kind == PTHREAD_MUTEX_RECURSIVE ? (mutex->depth++, 0) : EDEADLK;
    if (!take(mutex))
        while (__atomic_exchange_n(&mutex->word, 2, __ATOMIC_ACQUIRE) != 0)
            wait_while(&mutex->word, 2);
    mutex->owner = pthread_self()->tid;
    return 0;
}

int pthread_mutex_trylock(pthread_mutex_t *mutex)
{
    if (is_mine(mutex) && mutex->kind == PTHREAD_MUTEX_RECURSIVE)
        return mutex->depth++, 0;
    if (!take(mutex))
        return EBUSY;
    mutex->owner = pthread_self()->tid;
    return 0;
}

int pthread_mutex_unlock(pthread_mutex_t *mutex)
{
    if (mutex->kind != PTHREAD_MUTEX_NORMAL && !is_mine(mutex))
        return EPERM;
    if (mutex->depth)
        return mutex->depth--, 0;
    mutex->owner = 0;
    if (__atomic_exchange_n(&mutex->word, 0, __ATOMIC_RELEASE) == 2)
        wake(&mutex->word, 1);
    return 0;
}

int pthread_mutex_destroy(pthread_mutex_t *mutex)
{
    return mutex->word ? EBUSY : 0;
}

int pthread_cond_init(pthread_cond_t *cond, const pthread_condattr_t *attr)
{
    (void)attr;
    *cond = (pthread_cond_t){0, 0};
    return 0;
}

/* A signal between the unlocking and the wait raises the sequence, so the wait ends at once. Who was woken looks at the condition no
   more once it has left: it may be freed then. */
int pthread_cond_wait(pthread_cond_t *cond, pthread_mutex_t *mutex)
{
    unsigned seen = __atomic_load_n(&cond->sequence, __ATOMIC_ACQUIRE);
    __atomic_add_fetch(&cond->waiters, 1, __ATOMIC_ACQ_REL);
    int error = pthread_mutex_unlock(mutex);
    if (!error)
        wait_while(&cond->sequence, seen);
    if (__atomic_sub_fetch(&cond->waiters, 1, __ATOMIC_ACQ_REL) == DESTROYED)
        wake(&cond->waiters, 1);
    return error ? error : pthread_mutex_lock(mutex);
}

static int signal_some(pthread_cond_t *cond, int count)
{
    if (__atomic_load_n(&cond->waiters, __ATOMIC_ACQUIRE)) {
        __atomic_add_fetch(&cond->sequence, 1, __ATOMIC_ACQ_REL);
        wake(&cond->sequence, count);
    }
    return 0;
}

int pthread_cond_signal(pthread_cond_t *cond)
{
    return signal_some(cond, 1);
}

int pthread_cond_broadcast(pthread_cond_t *cond)
{
    return signal_some(cond, INT_MAX);
}

/* Waits until those who were woken have left. */
int pthread_cond_destroy(pthread_cond_t *cond)
{
    unsigned left = __atomic_or_fetch(&cond->waiters, DESTROYED, __ATOMIC_ACQ_REL);
    for (; left != DESTROYED; left = __atomic_load_n(&cond->waiters, __ATOMIC_ACQUIRE))
        wait_while(&cond->waiters, left);
    return 0;
}

int pthread_once(pthread_once_t *once, void (*work)(void))
{
    unsigned seen = 0;
    if (__atomic_compare_exchange_n(once, &seen, 1, 0, __ATOMIC_ACQ_REL, __ATOMIC_ACQUIRE)) {
        work();
        __atomic_store_n(once, 2, __ATOMIC_RELEASE);
        wake(once, INT_MAX);
    }
    while (__atomic_load_n(once, __ATOMIC_ACQUIRE) != 2)
        wait_while(once, 1);
    return 0;
}

int pthread_key_create(pthread_key_t *key, void (*destructor)(void *))
{
    int error = EAGAIN;
    pthread_mutex_lock(&kit_lock);
    for (unsigned at = 0; error && at < PTHREAD_KEYS_MAX; at++)
        if (!keys[at].used) {
            keys[at].used = 1;
            keys[at].destructor = destructor;
            *key = at;
            error = 0;
        }
    pthread_mutex_unlock(&kit_lock);
    return error;
}

int pthread_key_delete(pthread_key_t key)
{
    if (key >= PTHREAD_KEYS_MAX || !keys[key].used)
        return EINVAL;
    keys[key].used = 0;
    return 0;
}

void *pthread_getspecific(pthread_key_t key)
{
    return key < PTHREAD_KEYS_MAX ? pthread_self()->values[key] : 0;
}

int pthread_setspecific(pthread_key_t key, const void *value)
{
    if (key >= PTHREAD_KEYS_MAX || !keys[key].used)
        return EINVAL;
    struct pthread *thread = pthread_self();
    thread->values[key] = (void *)value;
    if (key >= thread->values_end)
        thread->values_end = key + 1;
    return 0;
}

int pthread_attr_init(pthread_attr_t *attr)
{
    *attr = (pthread_attr_t){0, 0};
    return 0;
}

int pthread_attr_setdetachstate(pthread_attr_t *attr, int state)
{
    attr->detached = state;
    return 0;
}

int pthread_attr_setstacksize(pthread_attr_t *attr, size_t bytes)
{
    if (bytes < PTHREAD_STACK_MIN)
        return EINVAL;
    attr->stack_bytes = bytes;
    return 0;
}

int pthread_mutexattr_init(pthread_mutexattr_t *attr)
{
    attr->kind = PTHREAD_MUTEX_NORMAL;
    return 0;
}

int pthread_mutexattr_settype(pthread_mutexattr_t *attr, int kind)
{
    attr->kind = kind;
    return 0;
}

int pthread_condattr_init(pthread_condattr_t *attr)
{
    (void)attr;
    return 0;
}

int pthread_attr_destroy(pthread_attr_t *attr)
{
    (void)attr;
    return 0;
}

int pthread_mutexattr_destroy(pthread_mutexattr_t *attr)
{
    (void)attr;
    return 0;
}

int pthread_condattr_destroy(pthread_condattr_t *attr)
{
    (void)attr;
    return 0;
}
