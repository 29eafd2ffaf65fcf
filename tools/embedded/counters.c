/* Eight threads add 1 to five counters, 10,000 times each, by transactions that read what they
   change: the world is locked for one call at a time, not for a whole transaction, so that others
   commit between its calls, and it begins again after a conflict. It ends with 0 if no addition was
   lost, and at least one was a conflict. */
#include "cagzhomul.h"
#include "codes.h"
#include <pthread.h>
#include <stdio.h>

enum { THREADS = 8, ADDITIONS = 10000, COUNTERS = 5, TABLE = 1, COUNT = 1, VALUE = 39, ROW = 47, KEY = 64, MOMENT = 5 };

static cagzhomul_world_handle world;
static cagzhomul_lease_handle lease;
static pthread_mutex_t lock = PTHREAD_MUTEX_INITIALIZER;

/* The table counters (id int key, count int), and leases of 1,000 moments. */
static code counters_code(void) {
    code it = {{1}, 1};
    put_number(&it, 1000, 8), put_number(&it, 1, 8), put_name(&it, "counters");
    put_number(&it, 1, 8), put_name(&it, "id"), put_byte(&it, 0);
    put_number(&it, 1, 8), put_name(&it, "count"), put_byte(&it, 0);
    put_number(&it, 0, 8);
    return it;
}

/* The operation that gives a counter a value. */
static code set_code(uint8_t kind, int64_t id, int64_t value) {
    code it = ops_code(1);
    put_byte(&it, kind), put_number(&it, TABLE, 4), put_number(&it, 1, 8), put_int(&it, id);
    put_number(&it, 1, 8), put_number(&it, COUNT, 4), put_int(&it, value);
    return it;
}

/* The operation that names a counter and changes nothing in it. */
static code touch_code(int64_t id) {
    code it = ops_code(1);
    put_op(&it, UPDATE, TABLE, id, COUNT, NULL);
    return it;
}

/* The value in the code of one row, or -1 if the handle does not hold one. */
static int64_t value_in(cagzhomul_bytes_handle *rows) {
    uint8_t out[ROW];
    uint64_t number = 0;
    cagzhomul_outcome it = cagzhomul_bytes_from(rows, 0, out, sizeof out);
    if (cagzhomul_close_bytes(rows) != CAGZHOMUL_OK || it.status != CAGZHOMUL_OK || it.length != ROW) return -1;
    for (int at = VALUE; at < ROW; at++) number = number << 8 | out[at];
    return (int64_t)(number ^ UINT64_C(1) << 63);
}

static int64_t value_read(cagzhomul_reads_handle *reads, int64_t id) {
    cagzhomul_bytes_handle rows = {0};
    code asked = query_code(TABLE, COUNT, 1);
    put_key(&asked, id);
    return cagzhomul_query_read(reads, asked.bytes, asked.length, &rows).status == CAGZHOMUL_OK ? value_in(&rows) : -1;
}

static int32_t read_locked(cagzhomul_reads_handle *reads, int64_t id) {
    code ops = touch_code(id);
    pthread_mutex_lock(&lock);
    int32_t status = cagzhomul_read(&world, &lease, ops.bytes, ops.length, reads);
    pthread_mutex_unlock(&lock);
    return status;
}

static int32_t read_again_locked(cagzhomul_reads_handle *reads, code ops) {
    pthread_mutex_lock(&lock);
    int32_t status = cagzhomul_read_again(&world, reads, ops.bytes, ops.length);
    pthread_mutex_unlock(&lock);
    return status;
}

static int32_t commit_locked(cagzhomul_txn_handle *txn) {
    uint8_t key[KEY] = {0};
    pthread_mutex_lock(&lock);
    int32_t status = cagzhomul_commit(&world, MOMENT, txn, key, KEY).status;
    pthread_mutex_unlock(&lock);
    return status;
}

/* One try to add 1 to a counter; its status. */
static int32_t add_once(int64_t id) {
    cagzhomul_reads_handle reads = {0};
    cagzhomul_txn_handle txn = {0};
    int32_t status = read_locked(&reads, id);
    if (status == CAGZHOMUL_OK) status = read_again_locked(&reads, set_code(UPDATE, id, value_read(&reads, id) + 1));
    if (status == CAGZHOMUL_OK) status = cagzhomul_prepare(&reads, &txn).status;
    if (status == CAGZHOMUL_OK) status = commit_locked(&txn);
    if (txn.is_open) cagzhomul_close_txn(&txn);
    if (reads.is_open) cagzhomul_close_reads(&reads);
    return status;
}

typedef struct thread {
    pthread_t id;
    int first;
    long conflicts, wrong;
} thread;

static void *add_all(void *own) {
    thread *it = own;
    for (int at = 0; at < ADDITIONS; at++) {
        int32_t status;
        while ((status = add_once((it->first + at) % COUNTERS)) == CAGZHOMUL_CONFLICT) it->conflicts++;
        it->wrong += status != CAGZHOMUL_OK;
    }
    return NULL;
}

/* The value that a counter has in the end. */
static int64_t value_of(int64_t id) {
    cagzhomul_bytes_handle rows = {0};
    code asked = query_code(TABLE, COUNT, 1);
    put_key(&asked, id);
    return cagzhomul_query(&world, MOMENT, &lease, asked.bytes, asked.length, &rows).status == CAGZHOMUL_OK ? value_in(&rows) : -1;
}

static int open_counters(void) {
    code opening = counters_code();
    if (cagzhomul_open(&world, opening.bytes, opening.length, CAGZHOMUL_ANY_JUMP) != CAGZHOMUL_OK) return 0;
    if (cagzhomul_lease(&world, MOMENT, &lease).status != CAGZHOMUL_OK) return 0;
    for (int64_t id = 0; id < COUNTERS; id++) {
        code ops = set_code(INSERT, id, 0);
        if (cagzhomul_write(&world, MOMENT, &lease, ops.bytes, ops.length).status != CAGZHOMUL_OK) return 0;
    }
    return 1;
}

int main(void) {
    thread threads[THREADS] = {{0}};
    long wrong = 0, conflicts = 0;
    if (!open_counters()) return 1;
    for (int at = 0; at < THREADS; at++) {
        threads[at].first = at;
        if (pthread_create(&threads[at].id, NULL, add_all, &threads[at])) return 1;
    }
    for (int at = 0; at < THREADS; at++) {
        pthread_join(threads[at].id, NULL);
        wrong += threads[at].wrong, conflicts += threads[at].conflicts;
    }
    for (int64_t id = 0; id < COUNTERS; id++) wrong += value_of(id) != THREADS * ADDITIONS / COUNTERS;
    wrong += cagzhomul_close_lease(&lease) != CAGZHOMUL_OK || cagzhomul_close_world(&world) != CAGZHOMUL_OK;
    printf("%d additions, %ld wrong\n", THREADS * ADDITIONS, wrong);
    return wrong || !conflicts;
}
