/* A baker bakes a loaf and rings. A customer comes, looks for the loaf, and where there is none sits down and waits for the bell. The fault: the
   customer looks without the lock, so the bell may ring after the look and before the wait. Prints what was bought, and exits with 0. */

#include <pthread.h>
#include <stdio.h>

enum { WALK = 80, SIT = 12, BAKING = 300 };

static pthread_mutex_t shop = PTHREAD_MUTEX_INITIALIZER;
static pthread_cond_t bell = PTHREAD_COND_INITIALIZER;
static volatile int loaf;

static void work(int steps)
{
    for (volatile int i = 0; i < steps; i++)
        ;
}

static void *buy(void *argument)
{
    int *bought = argument;
    work(WALK);
    if (!loaf) {
        work(SIT);
        pthread_mutex_lock(&shop);
        pthread_cond_wait(&bell, &shop);
        pthread_mutex_unlock(&shop);
    }
    *bought = loaf;
    return NULL;
}

static void *bake(void *argument)
{
    (void)argument;
    work(BAKING);
    pthread_mutex_lock(&shop);
    loaf = 1;
    pthread_cond_signal(&bell);
    pthread_mutex_unlock(&shop);
    return NULL;
}

int main(void)
{
    pthread_t customer, baker;
    int bought = 0;
    if (pthread_create(&customer, NULL, buy, &bought) != 0 || pthread_create(&baker, NULL, bake, NULL) != 0)
        return 2;
    pthread_join(customer, NULL);
    pthread_join(baker, NULL);
    printf("bought: %s\n", bought ? "a loaf" : "nothing");
    return bought ? 0 : 1;
}
