/* Sets a value of a table of SQLite many times, each time in a transaction of its own, and prints the seconds.
 *
 *     sqlite_client FILE COUNT
 *
 * In WAL mode with full syncs, as confstore syncs each command. */
#include <sqlite3.h>
#include <stdio.h>
#include <stdlib.h>
#include <time.h>

static void need(int status, int wanted) {
    if (status == wanted) return;
    fprintf(stderr, "SQLite's status %d\n", status);
    exit(1);
}

int main(int count, char **words) {
    if (count != 3) return 2;
    sqlite3 *base;
    sqlite3_stmt *set;
    long commands = atol(words[2]);
    need(sqlite3_open(words[1], &base), SQLITE_OK);
    need(sqlite3_exec(base, "PRAGMA journal_mode=WAL; PRAGMA synchronous=FULL", NULL, NULL, NULL), SQLITE_OK);
    need(sqlite3_exec(base, "CREATE TABLE app (k TEXT PRIMARY KEY, v TEXT)", NULL, NULL, NULL), SQLITE_OK);
    need(sqlite3_prepare_v2(base, "INSERT OR REPLACE INTO app VALUES ('n', ?)", -1, &set, NULL), SQLITE_OK);
    struct timespec start, end;
    clock_gettime(CLOCK_MONOTONIC, &start);
    for (long number = 0; number < commands; number++) {
        char value[32];
        snprintf(value, sizeof value, "v%09ld", number);
        need(sqlite3_bind_text(set, 1, value, -1, SQLITE_TRANSIENT), SQLITE_OK);
        need(sqlite3_step(set), SQLITE_DONE);
        need(sqlite3_reset(set), SQLITE_OK);
    }
    clock_gettime(CLOCK_MONOTONIC, &end);
    printf("%.6f\n", (double)(end.tv_sec - start.tv_sec) + (double)(end.tv_nsec - start.tv_nsec) / 1e9);
    sqlite3_finalize(set);
    sqlite3_close(base);
    return 0;
}
