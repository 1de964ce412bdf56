/* Four threads add to one sum under a lock, each its own amount. The first thread waits for each of them to end, and prints the sum
   and what the threads counted on their own stacks. Which thread runs when makes no difference to what it prints. */

enum { THREADS = 4, TURNS = 1000, STACK_BYTES = 8192 };

/* Calls of Linux on 32-bit RISC-V, and what they are passed. */
enum { WRITE = 64, EXIT = 93, EXIT_GROUP = 94, YIELD = 124, GETTID = 178, MUNMAP = 215, CLONE = 220, MMAP = 222, FUTEX = 422 };
enum { WAIT = 0, WAKE = 1, PRIVATE = 128 };
/* VM, FS, FILES, SIGHAND, THREAD, SYSVSEM, SETTLS, PARENT_SETTID and CHILD_CLEARTID, as a C library's pthread_create passes them */
enum { FLAGS = 0x3D0F00 };

/* A thread; its thread pointer points here. */
struct thread {
    unsigned tid; /* set by clone, and cleared when the thread has ended */
    unsigned amount;
    char *stack;
};

static struct thread threads[THREADS];
static unsigned lock; /* 0 free, 1 taken, 2 taken and some thread may wait */
static unsigned sum;
static unsigned counted;
static char line[32];

static int call(int number, int a, int b, int c, int d)
{
    register int a0 __asm__("a0") = a;
    register int a1 __asm__("a1") = b;
    register int a2 __asm__("a2") = c;
    register int a3 __asm__("a3") = d;
    register int a4 __asm__("a4") = 0;
    register int a5 __asm__("a5") = 0;
    register int a7 __asm__("a7") = number;
    __asm__ volatile("ecall" : "+r"(a0) : "r"(a1), "r"(a2), "r"(a3), "r"(a4), "r"(a5), "r"(a7) : "memory");
    return a0;
}

static unsigned exchanged(unsigned expected, unsigned desired) /* LR and SC */
{
    __atomic_compare_exchange_n(&lock, &expected, desired, 0, __ATOMIC_SEQ_CST, __ATOMIC_SEQ_CST);
    return expected;
}

static void take_lock(void)
{
    unsigned was = exchanged(0, 1);
    while (was != 0) {
        if (was == 2 || exchanged(1, 2) != 0)
            call(FUTEX, (int)&lock, WAIT | PRIVATE, 2, 0);
        was = exchanged(0, 2);
    }
}

static void free_lock(void)
{
    if (__atomic_fetch_sub(&lock, 1, __ATOMIC_SEQ_CST) != 1) { /* AMOADD */
        __atomic_store_n(&lock, 0, __ATOMIC_SEQ_CST);
        call(FUTEX, (int)&lock, WAKE | PRIVATE, 1, 0);
    }
}

__attribute__((noreturn, used)) void work(void)
{
    struct thread *self;
    volatile unsigned own = 0; /* on the thread's own stack */
    __asm__("mv %0, tp" : "=r"(self));
    for (int turn = 0; turn < TURNS; turn++) {
        take_lock();
        sum += self->amount;
        own += self->amount;
        if (turn % 64 == 0) /* so that other threads come while the lock is taken */
            call(YIELD, 0, 0, 0, 0);
        free_lock();
    }
    take_lock();
    counted += own;
    free_lock();
    call(EXIT, 0, 0, 0, 0);
    __builtin_unreachable();
}

/* Makes a thread that begins at work, and answers what clone answers. */
static int start(struct thread *thread)
{
    register int a0 __asm__("a0") = FLAGS;
    register char *a1 __asm__("a1") = thread->stack + STACK_BYTES;
    register unsigned *a2 __asm__("a2") = &thread->tid;
    register struct thread *a3 __asm__("a3") = thread;
    register unsigned *a4 __asm__("a4") = &thread->tid;
    register int a7 __asm__("a7") = CLONE;
    __asm__ volatile("ecall\n"
                     "    bnez a0, 1f\n"
                     "    j work\n"
                     "1:" : "+r"(a0) : "r"(a1), "r"(a2), "r"(a3), "r"(a4), "r"(a7) : "memory");
    return a0;
}

static void wait_for(struct thread *thread)
{
    unsigned tid;
    while ((tid = __atomic_load_n(&thread->tid, __ATOMIC_SEQ_CST)) != 0)
        call(FUTEX, (int)&thread->tid, WAIT, tid, 0);
}

static void print(unsigned number)
{
    int at = sizeof line;
    line[--at] = '\n';
    do {
        line[--at] = '0' + number % 10;
        number /= 10;
    } while (number);
    call(WRITE, 1, (int)(line + at), sizeof line - at, 0);
}

__asm__(".globl _start\n"
        "_start:\n"
        ".option push\n"
        ".option norelax\n"
        "    la gp, __global_pointer$\n"
        ".option pop\n"
        "    j run\n");

__attribute__((noreturn, used)) void run(void)
{
    int failed = 0;
    for (int i = 0; i < THREADS; i++) {
        threads[i].amount = i + 1;
        threads[i].stack = (char *)call(MMAP, 0, STACK_BYTES, 3, 0x20022);
        failed |= start(&threads[i]) < 2;
    }
    for (int i = 0; i < THREADS; i++) {
        wait_for(&threads[i]);
        failed |= call(MUNMAP, (int)threads[i].stack, STACK_BYTES, 0, 0);
    }
    print(sum);
    print(counted);
    call(EXIT_GROUP, failed, 0, 0, 0);
    __builtin_unreachable();
}
