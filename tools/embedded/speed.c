/* Single-row inserts a second: by text lines, by one typed call for each, and by three; and the ratios to the lines.
   speed [ROWS [PASSES]]: the passes take turns, and the best of each counts. */
#define _POSIX_C_SOURCE 199309L
#include "cagzhomul.h"
#include "codes.h"
#include <stdio.h>
#include <stdlib.h>
#include <time.h>

enum { ROOM = 512, LEASE_LENGTH = 10 };

static double seconds(void) {
    struct timespec now;
    clock_gettime(CLOCK_MONOTONIC, &now);
    return (double)now.tv_sec + 1e-9 * (double)now.tv_nsec;
}

static void demand(int holds, const char *what) {
    if (holds) return;
    fprintf(stderr, "not so: %s\n", what);
    exit(1);
}

static void open_world(cagzhomul_world_handle *world) {
    code opening = opening_code(LEASE_LENGTH, "town");
    demand(cagzhomul_open(world, opening.bytes, opening.length, CAGZHOMUL_ANY_JUMP) == CAGZHOMUL_OK, "tables are opened");
}

static void answer(cagzhomul_session_handle *session, cagzhomul_world_handle *world, const char *line, const char *wanted) {
    uint8_t out[ROOM] = {0};
    cagzhomul_outcome it = cagzhomul_reply_to(session, world, (const uint8_t *)line, strlen(line), out, ROOM);
    demand(it.status == CAGZHOMUL_OK && !memcmp(out, wanted, strlen(wanted)), line);
}

static double by_lines(long rows) {
    cagzhomul_world_handle world = {0};
    cagzhomul_session_handle session = {0};
    char line[ROOM];
    open_world(&world);
    demand(cagzhomul_session_attach(&session) == CAGZHOMUL_OK, "lines are answered in this world");
    answer(&session, &world, "lease a at 5", "ok lease ");
    double from = seconds();
    for (long row = 0; row < rows; row++) {
        snprintf(line, sizeof line, "txn a at 5: insert people (%ld) set town = 'Ulm'", row);
        answer(&session, &world, line, "ok done ");
    }
    double taken = seconds() - from;
    cagzhomul_close_session(&session), cagzhomul_close_world(&world);
    return taken;
}

static double by_calls(long rows) {
    cagzhomul_world_handle world = {0};
    cagzhomul_lease_handle lease = {0};
    cagzhomul_reads_handle reads = {0};
    cagzhomul_txn_handle txn = {0};
    open_world(&world);
    demand(cagzhomul_lease(&world, 5, &lease).status == CAGZHOMUL_OK, "a lease is granted");
    uint8_t key[ROOM] = {0};
    double from = seconds();
    for (long row = 0; row < rows; row++) {
        code ops = ops_code(1);
        put_op(&ops, INSERT, PEOPLE, row, TOWN, "Ulm");
        demand(cagzhomul_read(&world, &lease, ops.bytes, ops.length, &reads) == CAGZHOMUL_OK, "a transaction is read");
        demand(cagzhomul_prepare(&reads, &txn).status == CAGZHOMUL_OK, "it is prepared");
        demand(cagzhomul_commit(&world, 5, &txn, key, ROOM).status == CAGZHOMUL_OK, "it is committed");
        cagzhomul_close_reads(&reads);
    }
    double taken = seconds() - from;
    cagzhomul_close_lease(&lease), cagzhomul_close_world(&world);
    return taken;
}

static double at_once(long rows) {
    cagzhomul_world_handle world = {0};
    cagzhomul_lease_handle lease = {0};
    open_world(&world);
    demand(cagzhomul_lease(&world, 5, &lease).status == CAGZHOMUL_OK, "a lease is granted");
    double from = seconds();
    for (long row = 0; row < rows; row++) {
        code ops = ops_code(1);
        put_op(&ops, INSERT, PEOPLE, row, TOWN, "Ulm");
        demand(cagzhomul_write(&world, 5, &lease, ops.bytes, ops.length).status == CAGZHOMUL_OK, "a row is written");
    }
    double taken = seconds() - from;
    cagzhomul_close_lease(&lease), cagzhomul_close_world(&world);
    return taken;
}

static void keep_less(double *least, double it) {
    if (it < *least) *least = it;
}

int main(int count, char **words) {
    long rows = count > 1 ? atol(words[1]) : 100000, passes = count > 2 ? atol(words[2]) : 5;
    double lines = 1e9, once = 1e9, calls = 1e9;
    for (long pass = 0; pass < passes; pass++) {
        keep_less(&lines, by_lines(rows));
        keep_less(&once, at_once(rows));
        keep_less(&calls, by_calls(rows));
    }
    printf("%.0f lines a second; %.0f by one typed call, ratio %.2f; %.0f by three, ratio %.2f\n", (double)rows / lines,
           (double)rows / once, lines / once, (double)rows / calls, lines / calls);
    return 0;
}
