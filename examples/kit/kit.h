/* What the files of the kit share. docs/GUEST.md has the rules of the calls. */

enum {
    READ = 63, WRITE = 64, EXIT = 93, EXIT_GROUP = 94, SET_TID_ADDRESS = 96, YIELD = 124, BRK = 214, MUNMAP = 215, MMAP = 222,
    MPROTECT = 226, GETRANDOM = 278, CLOCK_GETTIME = 403, FUTEX = 422
};

static inline int call(int number, int a, int b, int c, int d)
{
    register int a0 __asm__("a0") = a;
    register int a1 __asm__("a1") = b;
    register int a2 __asm__("a2") = c;
    register int a3 __asm__("a3") = d;
    register int a7 __asm__("a7") = number;
    __asm__ volatile("ecall" : "+r"(a0) : "r"(a1), "r"(a2), "r"(a3), "r"(a7) : "memory");
    return a0;
}

/* Writes out what the thread has of a line. */
void kit_flush(void);
