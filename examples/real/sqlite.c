/* Three threads put the numbers of standard input into a database in a file, each a third of them by a connection of its
   own, and the first thread then asks for sums. The database has a log that is written ahead, so that connections share
   a mapped file. */

#include "sqlite3.h"

#include <pthread.h>
#include <stdio.h>
#include <stdlib.h>
#include <unistd.h>

enum { THREADS = 3, MOST = 1000 };

static const char *const name = "numbers.db";
static int numbers[MOST], count;

static void check(sqlite3 *db, int error)
{
    if (error == SQLITE_OK || error == SQLITE_ROW || error == SQLITE_DONE)
        return;
    fprintf(stderr, "sqlite: %d %s\n", error, sqlite3_errmsg(db));
    exit(1);
}

static sqlite3 *opened(void)
{
    sqlite3 *db;
    check(NULL, sqlite3_open(name, &db));
    sqlite3_busy_timeout(db, 60000);
    return db;
}

static void *insert(void *first)
{
    sqlite3 *db = opened();
    sqlite3_stmt *row;
    check(db, sqlite3_prepare_v2(db, "INSERT INTO numbers VALUES (?, ?)", -1, &row, NULL));
    for (int at = *(int *)first; at < count; at += THREADS) {
        sqlite3_bind_int(row, 1, numbers[at]);
        sqlite3_bind_double(row, 2, numbers[at] / 7.0);
        check(db, sqlite3_step(row));
        sqlite3_reset(row);
    }
    sqlite3_finalize(row);
    check(db, sqlite3_close(db));
    return NULL;
}

static int print(void *unused, int columns, char **values, char **names)
{
    (void)unused;
    for (int i = 0; i < columns; i++)
        printf("%s=%s%c", names[i], values[i], i + 1 < columns ? ' ' : '\n');
    return 0;
}

int main(void)
{
    pthread_t threads[THREADS];
    int firsts[THREADS];
    unlink(name);
    while (count < MOST && scanf("%d", &numbers[count]) == 1)
        count++;
    sqlite3 *db = opened();
    check(db, sqlite3_exec(db, "PRAGMA journal_mode=WAL; CREATE TABLE numbers (n INTEGER, seventh REAL)", print, NULL, NULL));
    for (int i = 0; i < THREADS; i++) {
        firsts[i] = i;
        pthread_create(&threads[i], NULL, insert, &firsts[i]);
    }
    for (int i = 0; i < THREADS; i++)
        pthread_join(threads[i], NULL);
    check(db, sqlite3_exec(db, "SELECT count(*) AS count, sum(n) AS sum, round(sum(seventh), 6) AS sevenths FROM numbers;"
                               "SELECT n % 3 AS rest, count(*) AS count, max(n) AS most FROM numbers GROUP BY rest",
                           print, NULL, NULL));
    check(db, sqlite3_exec(db, "PRAGMA integrity_check", print, NULL, NULL));
    check(db, sqlite3_close(db));
    return 0;
}
