// sqlite.c: SQLite in memory, with the work of `load` as one connection can do it: one thread and one prepared statement insert the rows
// 0, 1, .., each with a = key mod 7 and by a transaction of its own. The index on a is created when half of them are there, and the other
// half waits meanwhile.
// gcc -O2 -o /tmp/sqlite tools/peers/sqlite.c -lsqlite3 && /tmp/sqlite
#include <sqlite3.h>
#include <stdio.h>
#include <time.h>

enum { ROWS = 100000 };

static double now(void) {
    struct timespec at;
    clock_gettime(CLOCK_MONOTONIC, &at);
    return at.tv_sec + at.tv_nsec * 1e-9;
}

/* Inserts the rows from one key up to another: whether all went well. */
static int insert_rows(sqlite3_stmt *insert, int from, int to) {
    for (int key = from; key < to; key++) {
        sqlite3_bind_int64(insert, 1, key);
        sqlite3_bind_int64(insert, 2, key % 7);
        if (sqlite3_step(insert) != SQLITE_DONE) {
            return 0;
        }
        sqlite3_reset(insert);
    }
    return 1;
}

int main(void) {
    sqlite3 *db;
    sqlite3_stmt *insert;
    if (sqlite3_open(":memory:", &db) != SQLITE_OK ||
        sqlite3_exec(db, "create table t (id integer primary key, a integer)", 0, 0, 0) != SQLITE_OK ||
        sqlite3_prepare_v2(db, "insert into t values (?, ?)", -1, &insert, 0) != SQLITE_OK) {
        return 1;
    }
    double begun = now();
    if (!insert_rows(insert, 0, ROWS / 2) ||
        sqlite3_exec(db, "create index i on t (a)", 0, 0, 0) != SQLITE_OK ||
        !insert_rows(insert, ROWS / 2, ROWS)) {
        return 1;
    }
    double taken = now() - begun;
    printf("%d rows, %.3f s, %.0f rows/s\n", ROWS, taken, ROWS / taken);
    return 0;
}
