/* How long a writer waits for the lock of a world beside calls whose time grows with the table, which take a snapshot or a checkpoint
   under the lock, and answer from that without it. waits ROWS prints for each call how long it takes, and the longest write meanwhile, in
   milliseconds, the least of some tries. It ends with 0 if each is below 5 ms, or a quarter of the call; of an index that is added, which
   is tried once, ten times as long, as a busy machine may hold a thread back. */
#define _POSIX_C_SOURCE 199309L
#define CODE_ROOM 8192
#include "cagzhomul.h"
#include "codes.h"
#include <pthread.h>
#include <stdatomic.h>
#include <stdio.h>
#include <stdlib.h>
#include <time.h>

enum { BATCH = 64, PIECES = 8, LIMIT = 1000, TRIES = 5 };

static pthread_mutex_t lock = PTHREAD_MUTEX_INITIALIZER;
static cagzhomul_world_handle world;
static cagzhomul_lease_handle lease;
static uint64_t moment;
static long rows;
static atomic_int ends;

static double now(void) {
    struct timespec it;
    clock_gettime(CLOCK_MONOTONIC, &it);
    return 1e3 * (double)it.tv_sec + 1e-6 * (double)it.tv_nsec;
}

static void demand(int holds, const char *what) {
    if (holds) return;
    fprintf(stderr, "not so: %s\n", what);
    exit(1);
}

static void insert(long many) {
    static code ops;
    ops.length = 0;
    put_byte(&ops, 1), put_number(&ops, (uint64_t)many, 8);
    for (long i = 0; i < many; i++, rows++) put_op(&ops, INSERT, PEOPLE, rows, TOWN, rows % 7 ? "Ulm" : "Bonn");
    demand(cagzhomul_write(&world, moment, &lease, ops.bytes, ops.length).status == CAGZHOMUL_OK, "rows are written");
}

/* Writes a row every half millisecond until the call has ended, and one more; gives the longest time of one. */
static void *write_on(void *longest) {
    const struct timespec pause = {0, 500000};
    for (bool is_last = false; !is_last;) {
        nanosleep(&pause, NULL);
        is_last = atomic_load(&ends);
        double from = now();
        pthread_mutex_lock(&lock);
        insert(1);
        pthread_mutex_unlock(&lock);
        double taken = now() - from;
        if (taken > *(double *)longest) *(double *)longest = taken;
    }
    return NULL;
}

static void take_snapshot(cagzhomul_snapshot_handle *snapshot) {
    pthread_mutex_lock(&lock);
    demand(cagzhomul_snapshot(&world, moment, &lease, snapshot) == CAGZHOMUL_OK, "a snapshot is taken");
    pthread_mutex_unlock(&lock);
}

static void take_checkpoint(cagzhomul_checkpoint_handle *checkpoint) {
    pthread_mutex_lock(&lock);
    demand(cagzhomul_checkpoint(&world, checkpoint) == CAGZHOMUL_OK, "a checkpoint is taken");
    pthread_mutex_unlock(&lock);
}

static void query(code wanted) {
    cagzhomul_snapshot_handle snapshot = {0};
    cagzhomul_bytes_handle found = {0};
    take_snapshot(&snapshot);
    demand(cagzhomul_snapshot_query(&snapshot, wanted.bytes, wanted.length, &found).status == CAGZHOMUL_OK, "it is answered");
    cagzhomul_close_bytes(&found), cagzhomul_close_snapshot(&snapshot);
}

static void query_without_index(void) {
    code wanted = query_code(PEOPLE, TOWN, 1);
    put_equal(&wanted, TOWN, "Hof");
    query(wanted);
}

static void query_all(void) { query(query_code(PEOPLE, TOWN, 0)); }

/* By a world of its own, which shares the pairs. */
static void check(void) {
    cagzhomul_checkpoint_handle checkpoint = {0};
    cagzhomul_world_handle fork = {0};
    take_checkpoint(&checkpoint);
    demand(cagzhomul_open_checkpoint(&checkpoint, CAGZHOMUL_ANY_JUMP, &fork) == CAGZHOMUL_OK, "a fork opens");
    cagzhomul_checked found = cagzhomul_check(&fork);
    demand(found.status == CAGZHOMUL_OK && !found.missing && !found.extra, "the audit finds nothing");
    cagzhomul_close_world(&fork);
}

static void save(void) {
    cagzhomul_checkpoint_handle checkpoint = {0};
    cagzhomul_bytes_handle bytes = {0};
    take_checkpoint(&checkpoint);
    demand(cagzhomul_save(&checkpoint, &bytes) == CAGZHOMUL_OK, "it is saved");
    cagzhomul_close_bytes(&bytes), cagzhomul_close_checkpoint(&checkpoint);
}

/* An index that enters and is filled: each act is a call under the lock, which others may have in between. */
static void act_on(void) {
    const struct timespec pause = {0, 50000};
    for (;;) {
        nanosleep(&pause, NULL);
        pthread_mutex_lock(&lock);
        cagzhomul_advanced it = cagzhomul_advance(&world, moment, PIECES, LIMIT);
        if (it.status == CAGZHOMUL_WAITING) {
            moment = it.until;
            cagzhomul_close_lease(&lease);
            demand(cagzhomul_lease(&world, moment, &lease).status == CAGZHOMUL_OK, "a lease is granted");
        }
        pthread_mutex_unlock(&lock);
        if (it.status == CAGZHOMUL_FINISHED) return;
        demand(it.status == CAGZHOMUL_OK || it.status == CAGZHOMUL_WAITING, "the index is added");
    }
}

static void add_index(void) {
    code step = enter_code();
    pthread_mutex_lock(&lock);
    moment += 10;
    demand(cagzhomul_publish(&world, moment, step.bytes, step.length).status == CAGZHOMUL_OK, "a version is published");
    cagzhomul_close_lease(&lease);
    demand(cagzhomul_lease(&world, moment, &lease).status == CAGZHOMUL_OK, "a lease is granted");
    pthread_mutex_unlock(&lock);
    act_on();
}

/* The least of some tries of the longest write beside a call. */
static int measure(const char *what, void (*call)(void), int tries, double most) {
    double least = 1e9, taken_then = 0;
    for (int it = 0; it < tries; it++) {
        pthread_t writer;
        double longest = 0, from = now();
        atomic_store(&ends, 0);
        demand(!pthread_create(&writer, NULL, write_on, &longest), "a thread starts");
        call();
        double taken = now() - from;
        atomic_store(&ends, 1);
        pthread_join(writer, NULL);
        if (longest < least) least = longest, taken_then = taken;
    }
    printf("%s,%.2f,%.2f\n", what, taken_then, least);
    fflush(stdout);
    return least < most || least < taken_then / 4;
}

int main(int count, char **words) {
    long wanted = count > 1 ? atol(words[1]) : 20000;
    code opening = opening_code(10, "town");
    demand(cagzhomul_open(&world, opening.bytes, opening.length, CAGZHOMUL_ANY_JUMP) == CAGZHOMUL_OK, "tables are opened");
    demand(cagzhomul_lease(&world, 0, &lease).status == CAGZHOMUL_OK, "a lease is granted");
    while (rows + BATCH <= wanted) insert(BATCH);
    printf("call beside writes of %ld rows and more,takes (ms),longest write (ms)\n", rows);
    int short_ones = measure("query without an index", query_without_index, TRIES, 5) & measure("query of all rows", query_all, TRIES, 5) & measure("check", check, TRIES, 5)
                     & measure("checkpoint and its bytes", save, TRIES, 5) & measure("an index is added", add_index, 1, 50);
    cagzhomul_close_lease(&lease), cagzhomul_close_world(&world);
    demand(short_ones, "no call keeps a writer for long");
    return 0;
}
