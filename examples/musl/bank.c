/* Two threads move money between two accounts, and forget the lock: now and then some is lost or made. */

#include <assert.h>
#include <pthread.h>
#include <stdio.h>

enum { MOVES = 400, BEGINNING = 1000 };

static int accounts[2] = {BEGINNING, BEGINNING};

static void *move(void *argument)
{
    int from = *(int *)argument;
    for (int i = 0; i < MOVES; i++) {
        accounts[from] -= 1;
        accounts[!from] += 1;
    }
    return NULL;
}

int main(void)
{
    pthread_t threads[2];
    int numbers[2] = {0, 1};
    for (int i = 0; i < 2; i++)
        pthread_create(&threads[i], NULL, move, &numbers[i]);
    for (int i = 0; i < 2; i++)
        pthread_join(threads[i], NULL);
    printf("%d and %d\n", accounts[0], accounts[1]);
    assert(accounts[0] + accounts[1] == 2 * BEGINNING);
    return 0;
}
