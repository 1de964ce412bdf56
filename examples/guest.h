/* Calls of Linux for the examples, which have no C library. docs/GUEST.md has their rules. */

enum { WRITE = 64, MMAP = 222, FUTEX = 422 };
enum { STACK_BYTES = 4096 };

int start_thread(void (*work)(void *), void *argument, char *stack_end, unsigned *tid); /* start.S */

static int call(int number, int a, int b, int c, int d)
{
    register int a0 __asm__("a0") = a;
    register int a1 __asm__("a1") = b;
    register int a2 __asm__("a2") = c;
    register int a3 __asm__("a3") = d;
    register int a7 __asm__("a7") = number;
    __asm__ volatile("ecall" : "+r"(a0) : "r"(a1), "r"(a2), "r"(a3), "r"(a7) : "memory");
    return a0;
}

/* A stack for a thread: pages to read and write, private and of no file. Answers its end, since it grows down. */
static inline char *new_stack(void)
{
    return (char *)call(MMAP, 0, STACK_BYTES, 1 | 2, 2 | 0x20) + STACK_BYTES;
}

/* Waits until the thread has ended, which clears the word of its tid and wakes who waits there. */
static inline void wait_for(unsigned *tid)
{
    unsigned seen;
    while ((seen = *(volatile unsigned *)tid) != 0)
        call(FUTEX, (int)tid, 0, seen, 0);
}

/* Writes a text, a number and a newline, as one call. */
static inline void print(const char *text, unsigned number)
{
    char line[64], digits[10];
    int length = 0, count = 0;
    while (length < 48 && text[length]) {
        line[length] = text[length];
        length++;
    }
    do
        digits[count++] = '0' + number % 10;
    while ((number /= 10) != 0);
    while (count)
        line[length++] = digits[--count];
    line[length++] = '\n';
    call(WRITE, 1, (int)line, length, 0);
}
