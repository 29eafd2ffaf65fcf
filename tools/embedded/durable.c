/* A writer whose rows outlive it: it goes on from the checkpoint and the log in a folder, and inserts rows 0, 1, .. into the table of
   codes.h, each by a transaction of its own. A line has a row's number once it is on the disk; at each fiftieth the log begins anew.
   durable FOLDER: until it is killed. */
#define _GNU_SOURCE
#include "cagzhomul_log.h"
#include "codes.h"

enum { LEASE_LENGTH = 1000, RESTART = 50 };

static cagzhomul_world_handle world;
static cagzhomul_lease_handle lease;
static cagzhomul_log log_file;

static void demand(int holds, const char *what) {
    if (holds) return;
    fprintf(stderr, "not so: %s (%s)\n", what, strerror(errno));
    exit(1);
}

/* Opens the world at the checkpoint in a file, or anew. */
static void open_world(const char *path) {
    int file = open(path, O_RDONLY);
    if (file < 0) {
        code opening = opening_code(LEASE_LENGTH, "town");
        demand(cagzhomul_open(&world, opening.bytes, opening.length, CAGZHOMUL_ANY_JUMP) == CAGZHOMUL_OK, "tables are opened");
        return;
    }
    size_t length = 0;
    uint8_t *saved = cagzhomul_log_read(file, &length);
    demand(saved != NULL && cagzhomul_saved_form(saved, length) == 2, "the checkpoint has its digest");
    demand(cagzhomul_open_at(&world, saved, length, CAGZHOMUL_ANY_JUMP) == CAGZHOMUL_OK, "a world opens at the checkpoint");
    free(saved);
    close(file);
}

/* Puts a checkpoint into a file, and lets the entries before it go from the log. */
static void restart(const char *path) {
    cagzhomul_checkpoint_handle taken = {0};
    cagzhomul_bytes_handle bytes = {0};
    uint8_t none[1] = {0};
    demand(cagzhomul_checkpoint(&world, &taken) == CAGZHOMUL_OK && cagzhomul_save(&taken, &bytes) == CAGZHOMUL_OK, "a checkpoint is taken");
    size_t length = cagzhomul_bytes_from(&bytes, 0, none, 0).length;
    uint8_t *saved = (uint8_t *)calloc(length, 1);
    demand(saved != NULL && cagzhomul_bytes_from(&bytes, 0, saved, length).status == CAGZHOMUL_OK, "its bytes are fetched");
    demand(cagzhomul_log_restart(&log_file, path, saved, length) == 0, "it is in its file");
    free(saved);
    cagzhomul_close_bytes(&bytes), cagzhomul_close_checkpoint(&taken);
}

/* Inserts a row, under a lease that is in force. False if it is there. */
static int insert(int64_t row) {
    code ops = ops_code(1);
    put_op(&ops, INSERT, PEOPLE, row, TOWN, "Ulm");
    cagzhomul_committed it = cagzhomul_write(&world, 0, &lease, ops.bytes, ops.length);
    if (it.status == CAGZHOMUL_DUPLICATE) return 0;
    demand(it.status == CAGZHOMUL_OK, "a row is inserted");
    return 1;
}

int main(int count, char **words) {
    char checkpoint[CAGZHOMUL_LOG_PATH], log_path[CAGZHOMUL_LOG_PATH];
    demand(count == 2, "a folder is named");
    snprintf(checkpoint, sizeof checkpoint, "%s/checkpoint", words[1]);
    snprintf(log_path, sizeof log_path, "%s/log", words[1]);
    open_world(checkpoint);
    demand(cagzhomul_log_open(&log_file, log_path, &world) == 0, "the log goes on from the checkpoint");
    demand(cagzhomul_lease(&world, 0, &lease).status == CAGZHOMUL_OK, "a lease is granted");
    for (int64_t row = 0, done = 0;; row++) {
        if (!insert(row)) continue;
        demand(cagzhomul_log_append(&log_file, &world) == 0, "the log has the entry");
        printf("%lld\n", (long long)row);
        fflush(stdout);
        if (++done % RESTART == 0) restart(checkpoint);
    }
}
