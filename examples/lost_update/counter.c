/* Two threads count the primes below 1000, and both raise one word. Prints the count; exits with 0 where it is right, else with 1. */

#include "guest.h"

enum { THREADS = 2, PRIMES = 168 };

struct range {
    unsigned from, below;
};

static struct range ranges[THREADS] = {{2, 620}, {620, 1000}}; /* about as much work each */
static unsigned tids[THREADS];
static volatile unsigned found; /* the fault: volatile makes no step of the three that raise it */

static int is_prime(unsigned number)
{
    for (unsigned divisor = 2; divisor * divisor <= number; divisor++)
        if (number % divisor == 0)
            return 0;
    return 1;
}

static void count(void *argument)
{
    const struct range *range = argument;
    for (unsigned number = range->from; number < range->below; number++)
        if (is_prime(number))
            found = found + 1;
}

int main(void)
{
    for (int i = 0; i < THREADS; i++)
        start_thread(count, &ranges[i], new_stack(), &tids[i]);
    for (int i = 0; i < THREADS; i++)
        wait_for(&tids[i]);
    print("primes below 1000: ", found);
    return found == PRIMES ? 0 : 1;
}
