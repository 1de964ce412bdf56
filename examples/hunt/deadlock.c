/* Two threads move money between two accounts, in both directions. The fault: each locks the account first that it takes from, so the two
   orders cross. Prints the balances, and exits with 0 where no money was lost. */

#include <pthread.h>
#include <stdio.h>

enum { MOVES = 10, MONEY = 100 };

struct account {
    pthread_mutex_t lock;
    int balance;
};

struct order {
    struct account *from, *to;
    int amount;
};

static struct account alice = {PTHREAD_MUTEX_INITIALIZER, MONEY}, bob = {PTHREAD_MUTEX_INITIALIZER, MONEY};

static void move(struct account *from, struct account *to, int amount)
{
    pthread_mutex_lock(&from->lock);
    pthread_mutex_lock(&to->lock);
    from->balance -= amount;
    to->balance += amount;
    pthread_mutex_unlock(&to->lock);
    pthread_mutex_unlock(&from->lock);
}

static void *work(void *argument)
{
    const struct order *order = argument;
    for (int i = 0; i < MOVES; i++)
        move(order->from, order->to, order->amount);
    return NULL;
}

int main(void)
{
    struct order orders[2] = {{&alice, &bob, 3}, {&bob, &alice, 5}};
    pthread_t threads[2];
    for (int i = 0; i < 2; i++)
        if (pthread_create(&threads[i], NULL, work, &orders[i]) != 0)
            return 2;
    for (int i = 0; i < 2; i++)
        pthread_join(threads[i], NULL);
    printf("alice %d, bob %d\n", alice.balance, bob.balance);
    return alice.balance + bob.balance == 2 * MONEY ? 0 : 1;
}
