/* A conversation by lines: a session, and the world in which its lines are answered. */
#ifndef TALK_H
#define TALK_H

#include "cagzhomul.h"
#include <string.h>

typedef struct talk {
    cagzhomul_session_handle session;
    cagzhomul_world_handle world;
} talk;

static inline cagzhomul_outcome say(talk *with, const char *line, uint8_t *out, size_t room) {
    return cagzhomul_reply_to(&with->session, &with->world, (const uint8_t *)line, strlen(line), out, room);
}

/* Whether both could be closed. */
static inline int is_over(talk *with) {
    int32_t session = cagzhomul_close_session(&with->session), world = cagzhomul_close_world(&with->world);
    return session == CAGZHOMUL_OK && world == CAGZHOMUL_OK;
}

#endif
