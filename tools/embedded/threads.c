/* Four threads insert rows through one session and its world, which they lock, while a fifth one lets
   an index enter the table; each writer has both of its own beside them, without a lock. Then all is
   audited. It ends with 0 if nothing was lost. */
#include "talk.h"
#include <pthread.h>
#include <stdio.h>

enum { WRITERS = 4, ROWS = 2000, ROOM = 4096 };

static talk shared;
static pthread_mutex_t lock = PTHREAD_MUTEX_INITIALIZER;

/* Whether the reply to the line begins so. */
static int begins(talk *with, const char *line, const char *wanted) {
    uint8_t out[ROOM] = {0};
    cagzhomul_outcome outcome = say(with, line, out, ROOM);
    int is_so = outcome.status == CAGZHOMUL_OK && outcome.length >= strlen(wanted) &&
                memcmp(out, wanted, strlen(wanted)) == 0;
    if (!is_so) fprintf(stderr, "%s: %.*s\n", line, (int)strcspn((char *)out, "\n"), (char *)out);
    return is_so;
}

static int begins_under_lock(const char *line, const char *wanted) {
    pthread_mutex_lock(&lock);
    int is_so = begins(&shared, line, wanted);
    pthread_mutex_unlock(&lock);
    return is_so;
}

static void *write_rows(void *which) {
    long writer = (long)which, wrong = 0;
    char line[128];
    talk own = {{0}, {0}};
    wrong += cagzhomul_session_open(&own.session) != CAGZHOMUL_OK;
    wrong += !begins(&own, "table people (id int key)", "ok\n") || !begins(&own, "open", "ok version 1\n");
    for (long row = writer; row < ROWS; row += WRITERS) {
        snprintf(line, sizeof line, "txn s%ld at 5: insert people (%ld) set town = 'Ulm'", writer, row);
        wrong += !begins_under_lock(line, "ok done ");
        wrong += !begins(&own, "check", "ok rows 0 missing 0 extra 0\n");
    }
    if (!is_over(&own)) wrong++;
    return (void *)wrong;
}

static void *add_index(void *unused) {
    (void)unused;
    long wrong = 0;
    wrong += !begins_under_lock("plan: add index by_town on people (town)", "step 1");
    wrong += !begins_under_lock("next at 10", "ok version 2\n");
    return (void *)wrong;
}

int main(void) {
    long wrong = 0;
    char line[64];
    pthread_t threads[WRITERS + 1];
    if (cagzhomul_session_open(&shared.session) != CAGZHOMUL_OK) return 1;
    wrong += !begins(&shared, "table people (id int key, town text)", "ok\n");
    wrong += !begins(&shared, "open", "ok version 1\n");
    for (long writer = 0; writer < WRITERS; writer++) {
        snprintf(line, sizeof line, "lease s%ld at 5", writer);
        wrong += !begins(&shared, line, "ok lease ");
    }
    for (long writer = 0; writer < WRITERS; writer++)
        if (pthread_create(&threads[writer], NULL, write_rows, (void *)writer)) return 1;
    if (pthread_create(&threads[WRITERS], NULL, add_index, NULL)) return 1;
    for (int at = 0; at <= WRITERS; at++) {
        void *many;
        pthread_join(threads[at], &many);
        wrong += (long)many;
    }
    snprintf(line, sizeof line, "ok rows %d missing 0 extra 0\n", ROWS);
    wrong += !begins(&shared, "check", line);
    if (!is_over(&shared)) wrong++;
    printf("%d rows, %ld wrong\n", ROWS, wrong);
    return wrong != 0;
}
