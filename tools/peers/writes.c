/* writes.c: single-row writes into a table with one index, by the library or by SQLite in memory, each a transaction of its own:
   writes library|sqlite rising|scattered ROWS. The library's log is cut after each ten.
   gcc -O2 -I include -I tools/embedded -o /tmp/writes tools/peers/writes.c out/libcagzhomul.a -lsqlite3 && /tmp/writes library rising 100000 */
#define _POSIX_C_SOURCE 199309L
#include "cagzhomul.h"
#include "codes.h"
#include <sqlite3.h>
#include <stdbool.h>
#include <stdio.h>
#include <stdlib.h>
#include <time.h>

enum { BETWEEN_CUTS = 10 };

static double now(void) {
    struct timespec at;
    clock_gettime(CLOCK_MONOTONIC, &at);
    return at.tv_sec + at.tv_nsec * 1e-9;
}

static void demand(bool holds, const char *what) {
    if (holds) return;
    fprintf(stderr, "not so: %s\n", what);
    exit(1);
}

/* The key of a row: its number, or far from those beside it, and each another. */
static int64_t key_of(long row, bool rises) { return rises ? row : (int64_t)(uint32_t)((uint64_t)row * 2654435761u); }

static const char *town_of(long row) {
    static const char *const TOWNS[7] = {"Ulm", "Hof", "Bonn", "Trier", "Kassel", "Worms", "Jena"};
    return TOWNS[row % 7];
}

static double by_library(long rows, bool rises) {
    cagzhomul_world_handle world = {0};
    cagzhomul_lease_handle lease = {0};
    code opening = opening_code(10, "town");
    opening.length -= 8;
    put_number(&opening, 1, 8), put_name(&opening, "by_town"), put_number(&opening, 1, 8), put_name(&opening, "town");
    demand(cagzhomul_open(&world, opening.bytes, opening.length, CAGZHOMUL_ANY_JUMP) == CAGZHOMUL_OK, "a store is opened");
    demand(cagzhomul_lease(&world, 5, &lease).status == CAGZHOMUL_OK, "a lease is granted");
    double begun = now();
    for (long row = 0; row < rows; row++) {
        code ops = ops_code(1);
        put_op(&ops, INSERT, PEOPLE, key_of(row, rises), TOWN, town_of(row));
        demand(cagzhomul_write(&world, 5, &lease, ops.bytes, ops.length).status == CAGZHOMUL_OK, "a row is written");
        if (row % BETWEEN_CUTS == BETWEEN_CUTS - 1) demand(cagzhomul_cut(&world, 0) == CAGZHOMUL_OK, "the log is cut");
    }
    double taken = now() - begun;
    cagzhomul_checked found = cagzhomul_check(&world);
    demand(found.status == CAGZHOMUL_OK && found.rows == (uint64_t)rows && !found.missing && !found.extra, "the store is sound");
    cagzhomul_close_lease(&lease), cagzhomul_close_world(&world);
    return taken;
}

static double by_sqlite(long rows, bool rises) {
    sqlite3 *db;
    sqlite3_stmt *insert;
    demand(sqlite3_open(":memory:", &db) == SQLITE_OK, "a store is opened");
    demand(sqlite3_exec(db, "create table people (id integer primary key, town text); create index by_town on people (town)", 0, 0, 0) == SQLITE_OK, "there is a table");
    demand(sqlite3_prepare_v2(db, "insert into people values (?, ?)", -1, &insert, 0) == SQLITE_OK, "a statement is prepared");
    double begun = now();
    for (long row = 0; row < rows; row++) {
        sqlite3_bind_int64(insert, 1, key_of(row, rises));
        sqlite3_bind_text(insert, 2, town_of(row), -1, SQLITE_STATIC);
        demand(sqlite3_step(insert) == SQLITE_DONE, "a row is written");
        sqlite3_reset(insert);
    }
    double taken = now() - begun;
    sqlite3_finalize(insert), sqlite3_close(db);
    return taken;
}

int main(int count, char **words) {
    demand(count == 4, "there are three words");
    long rows = atol(words[3]);
    bool rises = strcmp(words[2], "rising") == 0;
    double taken = strcmp(words[1], "library") == 0 ? by_library(rows, rises) : by_sqlite(rows, rises);
    printf("%ld rows, %.3f s, %.0f rows/s\n", rows, taken, (double)rows / taken);
    return 0;
}
