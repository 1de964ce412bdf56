/* Five philosophers sit at a round table, with a fork between each two. Who eats takes the left fork, then the right one. The fault: where all
   hold the left fork, each waits for the next for ever. Prints how many meals were eaten, and exits with 0 where all had theirs. */

#include <pthread.h>
#include <stdio.h>

enum { SEATS = 5, MEALS = 12, THOUGHTS = 40 };

static pthread_mutex_t forks[SEATS];
static int meals[SEATS];

static unsigned think(unsigned thought)
{
    for (int i = 0; i < THOUGHTS; i++)
        thought = thought * 1103515245 + 12345;
    return thought;
}

static void *dine(void *argument)
{
    int seat = (int)(size_t)argument;
    pthread_mutex_t *left = &forks[seat], *right = &forks[(seat + 1) % SEATS];
    unsigned thought = (unsigned)seat;
    while (meals[seat] < MEALS) {
        thought = think(thought);
        pthread_mutex_lock(left);
        pthread_mutex_lock(right);
        meals[seat]++;
        pthread_mutex_unlock(right);
        pthread_mutex_unlock(left);
    }
    return (void *)(size_t)thought;
}

int main(void)
{
    pthread_t philosophers[SEATS];
    int eaten = 0;
    for (int seat = 0; seat < SEATS; seat++)
        pthread_mutex_init(&forks[seat], NULL);
    for (int seat = 0; seat < SEATS; seat++)
        if (pthread_create(&philosophers[seat], NULL, dine, (void *)(size_t)seat) != 0)
            return 2;
    for (int seat = 0; seat < SEATS; seat++)
        pthread_join(philosophers[seat], NULL);
    for (int seat = 0; seat < SEATS; seat++)
        eaten += meals[seat];
    printf("meals eaten: %d\n", eaten);
    return eaten == SEATS * MEALS ? 0 : 1;
}
