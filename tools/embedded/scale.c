/* Times of calls as a table grows, by the library: scale ROWS .. prints, for each number of rows, microseconds of single-row
   inserts, of a begin, publications, snapshots and pieces while an index is added, bytes of memory a pair, and how many queries by
   key threads make a second, each of its own snapshot, beside a writer. Keys are scattered. Comma-separated: rows, what, median,
   99.9 of 100, longest; of queries the number in the place of the median. */
#define _POSIX_C_SOURCE 199309L
#define CODE_ROOM 8192
#include "cagzhomul.h"
#include "codes.h"
#include <pthread.h>
#include <stdatomic.h>
#include <stdio.h>
#include <stdlib.h>
#include <time.h>
#include <unistd.h>

enum { BATCH = 64, PIECES = 64, LIMIT = 1000, BY_TOWN = 2, TIMES = 2000, BETWEEN = 32, SNAPSHOT_EVERY = 16, THREADS = 4 };

static double now(void) {
    struct timespec it;
    clock_gettime(CLOCK_MONOTONIC, &it);
    return 1e6 * (double)it.tv_sec + 1e-3 * (double)it.tv_nsec;
}

static void demand(int holds, const char *what) {
    if (holds) return;
    fprintf(stderr, "not so: %s\n", what);
    exit(1);
}

/* Times of one kind of call, in microseconds. */
typedef struct times {
    double *each;
    size_t many, room;
} times;

static void note(times *it, double taken) {
    if (it->many == it->room) {
        it->room = it->room ? 2 * it->room : 1024;
        it->each = realloc(it->each, it->room * sizeof *it->each);
        demand(it->each != NULL, "there is memory");
    }
    it->each[it->many++] = taken;
}

static int compare(const void *one, const void *other) {
    double a = *(const double *)one, b = *(const double *)other;
    return (a > b) - (a < b);
}

static void print(long rows, const char *what, times *it) {
    qsort(it->each, it->many, sizeof *it->each, compare);
    size_t rare = it->many - 1 - it->many / 1000;
    printf("%ld,%s,%.1f,%.1f,%.1f\n", rows, what, it->each[it->many / 2], it->each[rare], it->each[it->many - 1]);
    fflush(stdout);
    free(it->each);
    *it = (times){0};
}

/* Keys that are far from one another, and each another. */
static int64_t key_of(long row) { return (int64_t)(uint32_t)((uint64_t)row * 2654435761u); }

static const char *town_of(long row) {
    static const char *const TOWNS[7] = {"Ulm", "Hof", "Bonn", "Trier", "Kassel", "Worms", "Jena"};
    return TOWNS[row % 7];
}

/* A store, its present lease and moment, and how many rows it has. */
typedef struct store {
    cagzhomul_world_handle world;
    cagzhomul_lease_handle lease;
    uint64_t moment;
    long rows;
} store;

static void renew(store *it, uint64_t moment) {
    it->moment = moment;
    if (it->lease.is_open) cagzhomul_close_lease(&it->lease);
    demand(cagzhomul_lease(&it->world, moment, &it->lease).status == CAGZHOMUL_OK, "a lease is granted");
}

static void insert(store *it, long many) {
    static _Thread_local code ops;
    ops.length = 0;
    put_byte(&ops, 1), put_number(&ops, (uint64_t)many, 8);
    for (long i = 0; i < many; i++, it->rows++) put_op(&ops, INSERT, PEOPLE, key_of(it->rows), TOWN, town_of(it->rows));
    demand(cagzhomul_write(&it->world, it->moment, &it->lease, ops.bytes, ops.length).status == CAGZHOMUL_OK, "rows are written");
}

static void insert_timed(store *it, long many, times *taken) {
    for (long i = 0; i < many; i++) {
        double from = now();
        insert(it, 1);
        note(taken, now() - from);
    }
}

static void snapshot_timed(store *it, times *taken) {
    cagzhomul_snapshot_handle snapshot = {0};
    double from = now();
    demand(cagzhomul_snapshot(&it->world, it->moment, &it->lease, &snapshot) == CAGZHOMUL_OK, "a snapshot is taken");
    note(taken, now() - from);
    cagzhomul_close_snapshot(&snapshot);
}

static void publish_timed(store *it, uint64_t moment, code step, times *taken) {
    double from = now();
    demand(cagzhomul_publish(&it->world, moment, step.bytes, step.length).status == CAGZHOMUL_OK, "a version is published");
    note(taken, now() - from);
    renew(it, moment);
}

/* One piece of work: read, prepared and committed; whether the piece has ended. */
static bool work_timed(store *it, uint32_t piece, times *read, times *commit) {
    cagzhomul_piece_handle work = {0};
    cagzhomul_prepared_piece_handle prepared = {0};
    double from = now();
    demand(cagzhomul_read_piece(&it->world, BY_TOWN, piece, LIMIT, &work) == CAGZHOMUL_OK, "a piece is read");
    note(read, now() - from);
    demand(cagzhomul_prepare_piece(&work, &prepared) == CAGZHOMUL_OK, "it is prepared");
    from = now();
    cagzhomul_pieced done = cagzhomul_commit_piece(&it->world, it->moment, &prepared);
    note(commit, now() - from);
    demand(done.status == CAGZHOMUL_OK, "it is committed");
    return done.ended;
}

static void add_index(store *it, long rows) {
    times publish = {0}, begin = {0}, read = {0}, commit = {0}, inserted = {0}, taken = {0};
    publish_timed(it, it->moment + 10, enter_code(), &publish);
    publish_timed(it, it->moment + 10, go_code(BY_TOWN, WRITE_ONLY), &publish);
    renew(it, it->moment + 10);
    double from = now();
    demand(cagzhomul_begin_reorg(&it->world, it->moment, BY_TOWN, PIECES).status == CAGZHOMUL_OK, "the fill begins");
    note(&begin, now() - from);
    long turn = 0;
    for (uint32_t piece = 0; piece < PIECES; piece++)
        for (bool ended = false; !ended; turn++) {
            ended = work_timed(it, piece, &read, &commit);
            insert_timed(it, BETWEEN, &inserted);
            if (turn % SNAPSHOT_EVERY == 0) snapshot_timed(it, &taken);
        }
    publish_timed(it, it->moment, go_code(BY_TOWN, PUBLIC), &publish);
    print(rows, "begin", &begin), print(rows, "publish", &publish), print(rows, "read a piece", &read), print(rows, "commit a piece", &commit);
    print(rows, "insert while an index is added", &inserted), print(rows, "snapshot while an index is added", &taken);
}

/* A thread that asks for rows by their keys, of its own snapshot. */
typedef struct reader {
    cagzhomul_snapshot_handle snapshot;
    long rows, asked;
    atomic_int *ends;
} reader;

static void *read_rows(void *given) {
    reader *it = given;
    for (uint64_t at = 1; !atomic_load(it->ends); it->asked++) {
        cagzhomul_bytes_handle rows = {0};
        at = at * 6364136223846793005u + 1442695040888963407u;
        code query = query_code(PEOPLE, TOWN, 1);
        put_key(&query, key_of((long)((at >> 33) % (uint64_t)it->rows)));
        demand(cagzhomul_snapshot_query(&it->snapshot, query.bytes, query.length, &rows).status == CAGZHOMUL_OK, "a row is read");
        cagzhomul_close_bytes(&rows);
    }
    return NULL;
}

static void read_on(store *it, int threads, long rows) {
    reader readers[THREADS] = {0};
    pthread_t ids[THREADS];
    atomic_int ends = 0;
    long asked = 0, before = it->rows;
    for (int i = 0; i < threads; i++) {
        readers[i].rows = it->rows, readers[i].ends = &ends;
        demand(cagzhomul_snapshot(&it->world, it->moment, &it->lease, &readers[i].snapshot) == CAGZHOMUL_OK, "a snapshot is taken");
    }
    double from = now();
    for (int i = 0; i < threads; i++) demand(!pthread_create(&ids[i], NULL, read_rows, &readers[i]), "a thread starts");
    while (now() - from < 1e6) insert(it, 1);
    atomic_store(&ends, 1);
    for (int i = 0; i < threads; i++) pthread_join(ids[i], NULL), asked += readers[i].asked, cagzhomul_close_snapshot(&readers[i].snapshot);
    double seconds = (now() - from) / 1e6;
    printf("%ld,queries a second on %d threads,%.0f,,\n%ld,inserts a second beside them,%.0f,,\n", rows, threads, (double)asked / seconds, rows,
           (double)(it->rows - before) / seconds);
}

static long resident(void) {
    long pages = 0, all = 0;
    FILE *file = fopen("/proc/self/statm", "r");
    demand(file && fscanf(file, "%ld %ld", &all, &pages) == 2, "the memory is known");
    fclose(file);
    return pages * sysconf(_SC_PAGESIZE);
}

static void measure(long rows) {
    store it = {0};
    times plain = {0}, indexed = {0}, taken = {0};
    code opening = opening_code(10, "town");
    long before = resident();
    demand(cagzhomul_open(&it.world, opening.bytes, opening.length, CAGZHOMUL_ANY_JUMP) == CAGZHOMUL_OK, "tables are opened");
    renew(&it, 5);
    double from = now();
    while (it.rows + BATCH <= rows) insert(&it, BATCH);
    printf("%ld,rows a second by transactions of 64,%.0f,,\n", rows, (double)it.rows / (now() - from) * 1e6);
    insert_timed(&it, TIMES, &plain);
    print(rows, "insert", &plain);
    for (int i = 0; i < 200; i++) insert(&it, 1), snapshot_timed(&it, &taken);
    print(rows, "snapshot", &taken);
    add_index(&it, rows);
    insert_timed(&it, TIMES, &indexed);
    print(rows, "insert with the index", &indexed);
    printf("%ld,bytes a pair with the log,%.0f,,\n", rows, (double)(resident() - before) / (3.0 * (double)it.rows));
    for (int threads = 1; threads <= THREADS; threads *= 2) read_on(&it, threads, rows);
    cagzhomul_close_lease(&it.lease), cagzhomul_close_world(&it.world);
}

int main(int count, char **words) {
    printf("rows,what,median,99.9 of 100,longest\n");
    for (int i = 1; i < count; i++) measure(atol(words[i]));
    return 0;
}
