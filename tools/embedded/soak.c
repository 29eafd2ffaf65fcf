/* Whether a world that lives for long takes no more memory than its data: 1,000 rows take so many updates, under leases that end, while
   an index comes and goes a hundred times, and the log is cut a thousand times. The resident memory at the end has to be within a tenth of
   that at a tenth of the way.
   soak [UPDATES]: 10,000,000 if it is not said, which takes some minutes. */
#define _POSIX_C_SOURCE 200112L
#include "cagzhomul.h"
#include "codes.h"
#include <stdio.h>
#include <stdlib.h>
#include <unistd.h>

enum { ROOM = 512, ROWS = 1000, LEASE_LENGTH = 10, FOR_EACH_MOMENT = 100, PIECES = 4, LIMIT = 100 };

static cagzhomul_world_handle world;
static cagzhomul_session_handle session;
static cagzhomul_lease_handle lease;
static uint64_t moment, until;

static void demand(int holds, const char *what) {
    if (holds) return;
    fprintf(stderr, "not so: %s\n", what);
    exit(1);
}

/* Kilobytes that are in memory. */
static long resident(void) {
    FILE *file = fopen("/proc/self/statm", "r");
    long all = 0, pages = 0;
    demand(file && fscanf(file, "%ld %ld", &all, &pages) == 2, "/proc/self/statm is read");
    fclose(file);
    return pages * (sysconf(_SC_PAGESIZE) / 1024);
}

static void answer(const char *line, const char *wanted) {
    uint8_t out[ROOM] = {0};
    cagzhomul_outcome it = cagzhomul_reply_to(&session, &world, (const uint8_t *)line, strlen(line), out, ROOM - 1);
    demand(it.status == CAGZHOMUL_OK && !strncmp((const char *)out, wanted, strlen(wanted)), line);
}

/* A lease that is in force, the old one's successor if that has ended. */
static void renew(void) {
    if (lease.is_open && moment < until) return;
    if (lease.is_open) cagzhomul_close_lease(&lease);
    cagzhomul_granted it = cagzhomul_lease(&world, moment, &lease);
    demand(it.status == CAGZHOMUL_OK, "a lease is granted");
    until = it.until;
}

static void write_row(uint8_t kind, long row, long round) {
    static const char *const towns[] = {"Bonn", "Kiel", "Ulm"};
    code ops = ops_code(1);
    renew();
    put_op(&ops, kind, PEOPLE, row, TOWN, towns[(row + round) % 3]);
    demand(cagzhomul_write(&world, moment, &lease, ops.bytes, ops.length).status == CAGZHOMUL_OK, "a row is written");
}

/* The index comes, or goes. */
static void change_index(int comes) {
    char line[ROOM];
    moment += LEASE_LENGTH;
    answer(comes ? "plan: add index by_town on people (town)" : "plan: drop index by_town on people", "step 1: people.by_town ");
    snprintf(line, sizeof line, "next at %llu", (unsigned long long)moment);
    answer(line, "ok version ");
    for (;;) {
        cagzhomul_advanced it = cagzhomul_advance(&world, moment, PIECES, LIMIT);
        if (it.status == CAGZHOMUL_FINISHED) break;
        demand(it.status == CAGZHOMUL_OK || (it.status == CAGZHOMUL_WAITING && it.until > moment), "the change goes on");
        if (it.status == CAGZHOMUL_WAITING) moment = it.until;
    }
}

int main(int count, char **words) {
    long updates = count > 1 ? atol(words[1]) : 10000000, first = 0;
    code opening = opening_code(LEASE_LENGTH, "town");
    demand(updates >= 1000 && updates % 1000 == 0, "thousands of updates");
    demand(cagzhomul_open(&world, opening.bytes, opening.length, 2 * LEASE_LENGTH) == CAGZHOMUL_OK, "tables are opened");
    demand(cagzhomul_session_attach(&session) == CAGZHOMUL_OK, "lines are answered in this world");
    for (long row = 0; row < ROWS; row++) write_row(INSERT, row, 0);
    for (long done = 1; done <= updates; done++) {
        write_row(UPDATE, done * 7 % ROWS, done / ROWS);
        if (done % FOR_EACH_MOMENT == 0) moment++;
        if (done % (updates / 100) == 0) change_index(done / (updates / 100) % 2);
        if (done % (updates / 1000) == 0) demand(cagzhomul_cut(&world, 0) == CAGZHOMUL_OK, "the log is cut");
        if (done == updates / 10) first = resident();
    }
    long last = resident();
    cagzhomul_checked audit = cagzhomul_check(&world);
    demand(audit.status == CAGZHOMUL_OK && audit.rows == ROWS && !audit.missing && !audit.extra, "the audit finds nothing");
    size_t length = cagzhomul_log_length(&world).length;
    demand(length > (size_t)updates && cagzhomul_log_start(&world).length == length, "no entry is in memory");
    printf("%ld updates, %zu entries ever: %ld KB at a tenth of the way, %ld KB at the end\n", updates, length, first, last);
    demand(10 * last <= 11 * first, "the memory at the end is within a tenth");
    cagzhomul_close_lease(&lease), cagzhomul_close_session(&session), cagzhomul_close_world(&world);
    return 0;
}
