// Quicksort, a sieve, copies, CRC, recursion and remainders, TURNS times (6); then exit(0). About 16,000,000 instructions.

#ifndef TURNS
#define TURNS 6
#endif

typedef unsigned int u32;
typedef unsigned char u8;

static u32 numbers[4096];
static u8 sieve[65536];
static u8 text[8192], copy[8192];
static u32 seed = 1;

static u32 next_number(void) {
    seed ^= seed << 13;
    seed ^= seed >> 17;
    seed ^= seed << 5;
    return seed;
}

static void sort(u32 *a, int low, int high) {
    while (low < high) {
        u32 middle = a[(low + high) / 2];
        int i = low, j = high;
        while (i <= j) {
            while (a[i] < middle) i++;
            while (a[j] > middle) j--;
            if (i <= j) {
                u32 kept = a[i];
                a[i++] = a[j];
                a[j--] = kept;
            }
        }
        if (j - low < high - i) {
            sort(a, low, j);
            low = i;
        } else {
            sort(a, i, high);
            high = j;
        }
    }
}

static u32 primes(void) {
    u32 count = 0;
    for (int i = 0; i < 65536; i++) sieve[i] = 1;
    for (u32 i = 2; i < 65536; i++) {
        if (!sieve[i]) continue;
        count++;
        for (u32 j = i + i; j < 65536; j += i) sieve[j] = 0;
    }
    return count;
}

static u32 crc(const u8 *bytes, u32 count) {
    u32 sum = ~0u;
    for (u32 i = 0; i < count; i++) {
        sum ^= bytes[i];
        for (int k = 0; k < 8; k++) sum = (sum >> 1) ^ (0xEDB88320u & -(sum & 1));
    }
    return ~sum;
}

static u32 fibonacci(u32 n) { return n < 2 ? n : fibonacci(n - 1) + fibonacci(n - 2); }

static u32 divisor(u32 a, u32 b) {
    while (b) {
        u32 rest = a % b;
        a = b;
        b = rest;
    }
    return a;
}

static u32 round_of_all(void) {
    u32 sum = 0;
    for (int i = 0; i < 4096; i++) numbers[i] = next_number();
    sort(numbers, 0, 4095);
    sum += numbers[17] + primes();
    for (int i = 0; i < 8192; i++) text[i] = next_number();
    for (int i = 0; i < 8192; i++) copy[i] = text[8191 - i];
    sum += crc(copy, 8192) + fibonacci(20);
    for (int i = 0; i < 2000; i++) sum += divisor(next_number(), next_number()) * 7;
    return sum;
}

// the sum is stored, so that none of it is left out
static volatile u32 sum;

void _start(void) {
    for (int i = 0; i < TURNS; i++) sum += round_of_all();
    register u32 status asm("a0") = 0;
    register u32 number asm("a7") = 93;
    asm volatile("ecall" ::"r"(status), "r"(number));
    for (;;) {
    }
}
