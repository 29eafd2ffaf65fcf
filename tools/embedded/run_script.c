/* Runs the script on standard input over the library, line by line, as `shell run` does: 1 if a
   line was bad, else 0. The room for replies is small, so that long ones are fetched in parts. */
#define _GNU_SOURCE
#include "cagzhomul.h"
#include <stdio.h>
#include <stdlib.h>

enum { ROOM = 100, FAULT = 3 };

/* Writes the whole reply, of which the first part is in `out`. */
static int write_reply(cagzhomul_session_handle *session, uint8_t *out, size_t length) {
    for (size_t from = 0; from < length;) {
        size_t part = length - from < ROOM ? length - from : ROOM;
        fwrite(out, 1, part, stdout);
        from += part;
        cagzhomul_outcome rest = cagzhomul_reply_from(session, from, out, ROOM);
        if (rest.status != CAGZHOMUL_OK || rest.length != length) return FAULT;
    }
    return 0;
}

int main(void) {
    cagzhomul_session_handle session = {0};
    cagzhomul_world_handle world = {0};
    char *line = NULL;
    size_t room = 0;
    ssize_t got;
    int status = 0;
    if (cagzhomul_session_open(&session) != CAGZHOMUL_OK) return FAULT;
    while (status != FAULT && (got = getline(&line, &room, stdin)) >= 0) {
        uint8_t out[ROOM] = {0};
        size_t length = (size_t)got;
        if (length > 0 && line[length - 1] == '\n') {
            length--;
            if (length > 0 && line[length - 1] == '\r') length--;
        }
        cagzhomul_outcome outcome =
            cagzhomul_reply_to(&session, &world, (const uint8_t *)line, length, out, ROOM);
        if (outcome.status > CAGZHOMUL_BAD_LINE) {
            uint8_t text[ROOM];
            size_t of_text = cagzhomul_text_of(outcome.status, text, ROOM);
            fprintf(stderr, "fault: %.*s\n", (int)of_text, (const char *)text);
            status = FAULT;
        } else {
            if (outcome.status == CAGZHOMUL_BAD_LINE) status = 1;
            if (write_reply(&session, out, outcome.length)) status = FAULT;
        }
    }
    free(line);
    if (world.is_open && cagzhomul_close_world(&world) != CAGZHOMUL_OK) return FAULT;
    return cagzhomul_close_session(&session) == CAGZHOMUL_OK ? status : FAULT;
}
