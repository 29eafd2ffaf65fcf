/* An index enters while a server with an older version writes. */
#include <cagzhomul.h>
#include <stdio.h>
#include <string.h>

static const char *const LINES[] = {
    "table people (id int key, town text)",
    "open",
    "lease a at 5",
    "txn a at 5: insert people (1) set town = 'Ulm'; insert people (2) set town = 'Bonn'",
    "plan: add index by_town on people (town)",
    "next at 10",
    "txn a at 14: insert people (3) set town = 'Ulm'",
    "next at 20",
    "reorganise people.by_town at 30 pieces 1",
    "work people.by_town at 30 limit 100",
    "next at 30",
    "lease b at 30",
    "query b at 30: select town from people where town = 'Ulm'",
};

int main(void) {
    cagzhomul_session_handle session = {0};
    cagzhomul_world_handle world = {0};
    uint8_t out[1000];
    int32_t status = cagzhomul_session_open(&session);
    for (size_t at = 0; status == CAGZHOMUL_OK && at < sizeof LINES / sizeof *LINES; at++) {
        const uint8_t *line = (const uint8_t *)LINES[at];
        cagzhomul_outcome it =
            cagzhomul_reply_to(&session, &world, line, strlen(LINES[at]), out, sizeof out);
        status = it.status;
        /* a longer reply is fetched from any byte on by cagzhomul_reply_from */
        fwrite(out, 1, it.length < sizeof out ? it.length : sizeof out, stdout);
    }
    if (status != CAGZHOMUL_OK) {
        size_t length = cagzhomul_text_of(status, out, sizeof out);
        fprintf(stderr, "%.*s\n", (int)length, (const char *)out);
    }
    cagzhomul_close_world(&world);
    cagzhomul_close_session(&session);
    return status != CAGZHOMUL_OK;
}
