/* What layer.c and files.c share. The names that begin with two underscores are those of the C library's side. */

#ifndef GUEST_LAYER_H
#define GUEST_LAYER_H

#define _GNU_SOURCE
#include <sys/uio.h>
#include "pthread_impl.h"

#define RAW(n, a, b, c, d, e) __guest_ecall(n, (long)(a), (long)(b), (long)(c), (long)(d), (long)(e))
#define SECOND 1000000000LL

/* How many files may be open, and what a group of calls returns of one that isn't its own. */
enum { GUEST_OPENS = 64, ELSE = INT_MIN };

typedef unsigned long long sigs; /* a set of signals, the first in bit 0 */
typedef long long nanos;

hidden void __guest_enter(volatile int *lock);
hidden void __guest_leave(volatile int *lock);
hidden long __guest_send(int tid, int sig);
hidden long __guest_wait(volatile int *word, int is_private, int value, const nanos *time, int is_cp);
hidden long __guest_transfer(unsigned fd, const struct iovec *parts, int count, const nanos *place, int is_write);
hidden long __guest_file_call(long n, long a, long b, long c, long d, long e, long f);

#endif
