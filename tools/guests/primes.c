/* Primes below 10,000 by a sieve, and 48 numbers of a generator sorted by a heap. */

enum { LIMIT = 10000, MANY = 48 };

static unsigned char composite[LIMIT]; /* .bss */
static unsigned numbers[MANY];         /* .bss */
static unsigned prime_count;           /* .bss */
static unsigned lock;                  /* .bss */
static unsigned seed = 20191213;       /* .data */
static char line[32] = "primes below 10000: ";

static int call(int number, int a, int b, int c)
{
    register int a0 __asm__("a0") = a;
    register int a1 __asm__("a1") = b;
    register int a2 __asm__("a2") = c;
    register int a7 __asm__("a7") = number;
    __asm__ volatile("ecall" : "+r"(a0) : "r"(a1), "r"(a2), "r"(a7) : "memory");
    return a0;
}

static void write_all(const char *bytes, int len)
{
    call(64, 1, (int)bytes, len);
}

/* Puts a number in decimal digits and a newline, and answers how many bytes these are. */
static int put_number(char *at, unsigned number)
{
    char digits[10];
    int count = 0;
    int written = 0;
    do {
        digits[count++] = '0' + number % 10;
        number /= 10;
    } while (number);
    while (count)
        at[written++] = digits[--count];
    at[written++] = '\n';
    return written;
}

static void sift(unsigned root, unsigned end)
{
    for (unsigned child; (child = 2 * root + 1) < end; root = child) {
        if (child + 1 < end && numbers[child] < numbers[child + 1])
            child++;
        if (numbers[root] >= numbers[child])
            return;
        unsigned swapped = numbers[root];
        numbers[root] = numbers[child];
        numbers[child] = swapped;
    }
}

static void sort(void)
{
    for (unsigned root = MANY / 2; root-- > 0;)
        sift(root, MANY);
    for (unsigned end = MANY; --end > 0;) {
        unsigned greatest = numbers[0];
        numbers[0] = numbers[end];
        numbers[end] = greatest;
        sift(0, end);
    }
}

static unsigned sieve(void)
{
    unsigned sum = 0;
    for (unsigned n = 2; n < LIMIT; n++) {
        if (composite[n])
            continue;
        __atomic_fetch_add(&prime_count, 1, __ATOMIC_SEQ_CST); /* AMOADD */
        sum += n;
        for (unsigned multiple = n * n; multiple < LIMIT; multiple += n)
            composite[multiple] = 1;
    }
    return sum;
}

__asm__(".globl _start\n"
        "_start:\n"
        ".option push\n"
        ".option norelax\n"
        "    la gp, __global_pointer$\n"
        ".option pop\n"
        "    j run\n");

__attribute__((noreturn, used)) void run(void)
{
    unsigned sum = sieve();
    unsigned free = 0;
    write_all(line, 20 + put_number(line + 20, prime_count));
    write_all(line, put_number(line, sum));
    for (int i = 0; i < MANY; i++)
        numbers[i] = (seed = seed * 1103515245 + 12345) >> 8;
    sort();
    for (int i = 0; i < MANY; i += MANY / 2 - 1)
        write_all(line, put_number(line, numbers[i]));
    /* LR and SC */
    if (__atomic_compare_exchange_n(&lock, &free, 1, 0, __ATOMIC_SEQ_CST, __ATOMIC_SEQ_CST))
        write_all("done\n", 5);
    call(94, 7, 0, 0);
    __builtin_unreachable();
}
