/* Waits at a word for half a second at most, and no thread wakes it. Prints a line before the wait, and one after it with the errno
   that the wait returned. Exits with 0 if that is ETIMEDOUT, else with 1. */

#include "guest.h"

enum { WAIT = 0, ETIMEDOUT = 110 };

struct timeout {
    unsigned long long seconds, nanoseconds; /* 8 bytes each, the low byte first */
};

static const struct timeout half_a_second = {0, 500000000};
static unsigned word;

int main(void)
{
    print("waiting at a word that is ", word);
    int result = call(FUTEX, (int)&word, WAIT, 0, (int)&half_a_second);
    print("the wait returned errno ", -result);
    return result == -ETIMEDOUT ? 0 : 1;
}
