/* POSIX threads for guests: what most programs use, by the names of IEEE Std 1003.1-2017. An error is answered as its errno.
   There are no timeouts, and no signals or cancellation: a guest has none. */

#ifndef KIT_PTHREAD_H
#define KIT_PTHREAD_H

#include <sched.h>
#include <stddef.h>
#include <time.h>

#define PTHREAD_KEYS_MAX 128
#define PTHREAD_STACK_MIN 4096
#define PTHREAD_CREATE_JOINABLE 0
#define PTHREAD_CREATE_DETACHED 1
#define PTHREAD_MUTEX_NORMAL 0
#define PTHREAD_MUTEX_DEFAULT 0
#define PTHREAD_MUTEX_ERRORCHECK 1
#define PTHREAD_MUTEX_RECURSIVE 2

typedef struct pthread *pthread_t;
typedef unsigned pthread_key_t;

typedef struct {
    int detached;
    size_t stack_bytes;
} pthread_attr_t;

typedef struct {
    int kind;
} pthread_mutexattr_t;

typedef struct {
    char nothing;
} pthread_condattr_t;

typedef struct {
    unsigned word; /* 0 free, 1 locked, 2 locked and others may wait */
    int owner;     /* the tid of the thread that has it */
    int depth;     /* how often more it has it, where it is recursive */
    int kind;
} pthread_mutex_t;

typedef struct {
    unsigned sequence; /* raised by each signal */
    unsigned waiters;  /* bit 31: a thread waits in pthread_cond_destroy until there are none */
} pthread_cond_t;

typedef unsigned pthread_once_t; /* 0 not begun, 1 begun, 2 done */

#define PTHREAD_MUTEX_INITIALIZER {0, 0, 0, PTHREAD_MUTEX_NORMAL}
#define PTHREAD_RECURSIVE_MUTEX_INITIALIZER_NP {0, 0, 0, PTHREAD_MUTEX_RECURSIVE}
#define PTHREAD_COND_INITIALIZER {0, 0}
#define PTHREAD_ONCE_INIT 0

int pthread_create(pthread_t *thread, const pthread_attr_t *attr, void *(*work)(void *), void *argument);
int pthread_join(pthread_t thread, void **result);
int pthread_detach(pthread_t thread);
void pthread_exit(void *result) __attribute__((noreturn));
pthread_t pthread_self(void);
int pthread_equal(pthread_t one, pthread_t other);

int pthread_mutex_init(pthread_mutex_t *mutex, const pthread_mutexattr_t *attr);
int pthread_mutex_lock(pthread_mutex_t *mutex);
int pthread_mutex_trylock(pthread_mutex_t *mutex);
int pthread_mutex_unlock(pthread_mutex_t *mutex);
int pthread_mutex_destroy(pthread_mutex_t *mutex);

int pthread_cond_init(pthread_cond_t *cond, const pthread_condattr_t *attr);
int pthread_cond_wait(pthread_cond_t *cond, pthread_mutex_t *mutex);
int pthread_cond_signal(pthread_cond_t *cond);
int pthread_cond_broadcast(pthread_cond_t *cond);
int pthread_cond_destroy(pthread_cond_t *cond);

int pthread_once(pthread_once_t *once, void (*work)(void));
int pthread_key_create(pthread_key_t *key, void (*destructor)(void *));
int pthread_key_delete(pthread_key_t key);
void *pthread_getspecific(pthread_key_t key);
int pthread_setspecific(pthread_key_t key, const void *value);

int pthread_attr_init(pthread_attr_t *attr);
int pthread_attr_destroy(pthread_attr_t *attr);
int pthread_attr_setdetachstate(pthread_attr_t *attr, int state);
int pthread_attr_setstacksize(pthread_attr_t *attr, size_t bytes);
int pthread_mutexattr_init(pthread_mutexattr_t *attr);
int pthread_mutexattr_destroy(pthread_mutexattr_t *attr);
int pthread_mutexattr_settype(pthread_mutexattr_t *attr, int kind);
int pthread_condattr_init(pthread_condattr_t *attr);
int pthread_condattr_destroy(pthread_condattr_t *attr);

int sched_yield(void);

#endif
