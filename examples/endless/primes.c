/* Prints the primes, one a line behind the program's name, and never ends. */

#include "guest.h"

int main(int count, char **words)
{
    char text[36];
    int length = 0;
    while (count > 0 && length < 32 && words[0][length]) {
        text[length] = words[0][length];
        length++;
    }
    text[length++] = ':';
    text[length++] = ' ';
    text[length] = 0;
    for (unsigned number = 2;; number++) {
        unsigned divisor = 2;
        while (divisor * divisor <= number && number % divisor)
            divisor++;
        if (divisor * divisor > number)
            print(text, number);
    }
}
