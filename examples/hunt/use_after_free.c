/* One thread reads a list of names to its end, another takes names off its front and makes other things of the memory. The fault: the reader has
   the lock only to find the first node, so that node or a later one may be freed under it. Prints how many letters were read, and exits with 0. */

#include <pthread.h>
#include <stdio.h>
#include <stdlib.h>
#include <string.h>

enum { NAMES = 8, DRAWING = 400 };

struct node {
    struct node *next;
    const char *name;
};

static const char *const names[NAMES] = {"Ada", "Barbara", "Edsger", "Frances", "Grace", "Leslie", "Niklaus", "Tony"};
static pthread_mutex_t lock = PTHREAD_MUTEX_INITIALIZER;
static struct node *first;
static size_t letters;

static void *read_names(void *argument)
{
    struct node *node;
    (void)argument;
    pthread_mutex_lock(&lock);
    node = first;
    pthread_mutex_unlock(&lock);
    while (node) {
        letters += strlen(node->name);
        node = node->next;
    }
    return NULL;
}

/* Draws for a while, then takes the first nodes off and puts a row of the picture where each was. */
static void *drop_names(void *argument)
{
    volatile unsigned picture = 0;
    (void)argument;
    for (int i = 0; i < DRAWING; i++)
        picture = picture * 5 + 1;
    for (int i = 0; i < NAMES / 2; i++) {
        pthread_mutex_lock(&lock);
        struct node *node = first;
        first = node->next;
        pthread_mutex_unlock(&lock);
        free(node);
        char *row = malloc(sizeof *node);
        if (row)
            memset(row, '*', sizeof *node);
    }
    return NULL;
}

int main(void)
{
    pthread_t reader, dropper;
    for (int i = NAMES; i > 0; i--) {
        struct node *node = malloc(sizeof *node);
        if (!node)
            return 2;
        node->name = names[i - 1];
        node->next = first;
        first = node;
    }
    if (pthread_create(&reader, NULL, read_names, NULL) != 0 || pthread_create(&dropper, NULL, drop_names, NULL) != 0)
        return 2;
    pthread_join(reader, NULL);
    pthread_join(dropper, NULL);
    printf("letters: %zu\n", letters);
    return 0;
}
