/* Stands before musl's own file of this name by the order of -I, so that no file of musl's is changed. A call that a
   guest has (docs/GUEST.md), by a number that the compiler knows, is an ECALL in place. All others go to layer.c. */

#define __SYSCALL_LL_E(x) (long)(x), (long)((unsigned long long)(x) >> 32)
#define __SYSCALL_LL_O(x) __SYSCALL_LL_E((x))
#define IPC_64 0

long __guest_call(long n, long a, long b, long c, long d, long e, long f);

/* A choice of the scheduler has 64 instructions at least. A thread that idles as long after each call can be switched
   before any instruction of its own. guest_idle is the number of rounds of two instructions: cc gives it. */
#define GUEST_IDLE \
    "lui t0, %%hi(guest_idle)\naddi t0, t0, %%lo(guest_idle)\nbeqz t0, 2f\n1: addi t0, t0, -1\nbnez t0, 1b\n2:"

static inline __attribute__((always_inline)) long __guest_ecall(long n, long a, long b, long c, long d, long e)
{
    register long a7 __asm__("a7") = n;
    register long a0 __asm__("a0") = a;
    register long a1 __asm__("a1") = b;
    register long a2 __asm__("a2") = c;
    register long a3 __asm__("a3") = d;
    register long a4 __asm__("a4") = e;
    __asm__ volatile("ecall\n" GUEST_IDLE
                     : "+r"(a0) : "r"(a7), "r"(a1), "r"(a2), "r"(a3), "r"(a4) : "t0", "memory");
    return a0;
}

/* exit, exit_group, set_tid_address, sched_yield, getpid, gettid, brk, mprotect, getrandom; futex, if it wakes */
#define __GUEST_HAS(n, b) \
    ((n) == 93 || (n) == 94 || (n) == 96 || (n) == 124 || (n) == 172 || (n) == 178 || (n) == 214 || (n) == 226 || \
     (n) == 278 || ((n) == 422 && __builtin_constant_p(b) && ((b) & ~128) == 1))

#define __GUEST_INLINE static inline __attribute__((always_inline)) long

__GUEST_INLINE __syscall6(long n, long a, long b, long c, long d, long e, long f)
{
    if (__builtin_constant_p(n) && __GUEST_HAS(n, b))
        return __guest_ecall(n, a, b, c, d, e);
    return __guest_call(n, a, b, c, d, e, f);
}

__GUEST_INLINE __syscall0(long n) { return __syscall6(n, 0, 0, 0, 0, 0, 0); }
__GUEST_INLINE __syscall1(long n, long a) { return __syscall6(n, a, 0, 0, 0, 0, 0); }
__GUEST_INLINE __syscall2(long n, long a, long b) { return __syscall6(n, a, b, 0, 0, 0, 0); }
__GUEST_INLINE __syscall3(long n, long a, long b, long c) { return __syscall6(n, a, b, c, 0, 0, 0); }
__GUEST_INLINE __syscall4(long n, long a, long b, long c, long d) { return __syscall6(n, a, b, c, d, 0, 0); }
__GUEST_INLINE __syscall5(long n, long a, long b, long c, long d, long e) { return __syscall6(n, a, b, c, d, e, 0); }
