/* Two threads give the numbers of standard input new values, in a hash table of liburcu, and three look at all of them,
   without a lock. An entry that was replaced is freed once nobody can look at it. What is printed is the same in each order. */

#include <urcu.h>
#include <urcu/rculfhash.h>

#include <pthread.h>
#include <stdio.h>
#include <stdlib.h>

enum { WRITERS = 2, READERS = 3, ROUNDS = 10, MOST = 1000 };

struct entry {
    struct cds_lfht_node node;
    struct rcu_head head;
    unsigned long number, value, check; /* `check` fits the two others, until the entry is freed */
};

static struct cds_lfht *table;
static unsigned long numbers[MOST], firsts[WRITERS] = {0, 1}, count, released, wrong;

static int is_of(struct cds_lfht_node *node, const void *number)
{
    return caa_container_of(node, struct entry, node)->number == *(const unsigned long *)number;
}

static void release(struct rcu_head *head)
{
    struct entry *old = caa_container_of(head, struct entry, head);
    old->check = 0;
    free(old);
    uatomic_inc(&released);
}

/* Gives a number a value, in place of the one that it has. */
static void set(unsigned long number, unsigned long value)
{
    struct entry *new = malloc(sizeof *new);
    if (!new)
        abort();
    cds_lfht_node_init(&new->node);
    new->number = number;
    new->value = value;
    new->check = number * 31 + value;
    rcu_read_lock();
    struct cds_lfht_node *old = cds_lfht_add_replace(table, number * 2654435761u, is_of, &number, &new->node);
    rcu_read_unlock();
    if (old)
        call_rcu(&caa_container_of(old, struct entry, node)->head, release);
}

static void *write_numbers(void *first)
{
    rcu_register_thread();
    for (unsigned long round = 1; round <= ROUNDS; round++)
        for (unsigned long at = *(unsigned long *)first; at < count; at += WRITERS)
            set(numbers[at], round);
    rcu_unregister_thread();
    return NULL;
}

static void *read_numbers(void *unused)
{
    rcu_register_thread();
    for (unsigned long round = 1; round <= ROUNDS; round++)
        for (unsigned long at = 0; at < count; at++) {
            struct cds_lfht_iter place;
            rcu_read_lock();
            cds_lfht_lookup(table, numbers[at] * 2654435761u, is_of, &numbers[at], &place);
            struct cds_lfht_node *node = cds_lfht_iter_get_node(&place);
            struct entry *found = node ? caa_container_of(node, struct entry, node) : NULL;
            if (!found || found->check != found->number * 31 + found->value)
                uatomic_inc(&wrong);
            rcu_read_unlock();
        }
    rcu_unregister_thread();
    return unused;
}

/* Takes all entries out, and sums them up. */
static void empty(void)
{
    unsigned long entries = 0, sum = 0;
    struct cds_lfht_iter place;
    struct entry *it;
    rcu_read_lock();
    cds_lfht_for_each_entry(table, &place, it, node) {
        entries++;
        sum += it->number * it->value;
        if (!cds_lfht_del(table, &it->node))
            call_rcu(&it->head, release);
    }
    rcu_read_unlock();
    printf("%lu entries, sum %lu\n", entries, sum);
}

int main(void)
{
    pthread_t threads[WRITERS + READERS];
    rcu_register_thread();
    table = cds_lfht_new(4, 4, 0, CDS_LFHT_AUTO_RESIZE, NULL);
    while (count < MOST && scanf("%lu", &numbers[count]) == 1)
        set(numbers[count++], 0);
    for (int i = 0; i < WRITERS + READERS; i++)
        if (pthread_create(&threads[i], NULL, i < WRITERS ? write_numbers : read_numbers, i < WRITERS ? &firsts[i] : NULL))
            return 1;
    for (int i = 0; i < WRITERS + READERS; i++)
        pthread_join(threads[i], NULL);
    empty();
    rcu_barrier();
    printf("%lu released, %lu wrong\n", uatomic_read(&released), uatomic_read(&wrong));
    printf("destroyed: %d\n", cds_lfht_destroy(table, NULL));
    rcu_unregister_thread();
    return 0;
}
