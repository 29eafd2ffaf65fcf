/* Calls that are made again once memory has run out, and a run for each allocation that is refused. */
#ifndef CALLS_H
#define CALLS_H

#include "cagzhomul.h"
#include "refusing.h"

static long again;

/* Whether memory ran out, and the call is to be made again. */
static int is_short(int32_t status) {
    if (status != CAGZHOMUL_OUT_OF_MEMORY) return 0;
    check(is_reached, "memory runs out only after a refusal");
    again++;
    return !wrong;
}

/* Plays with the first allocation refused, then the second, and so on, until none is left; prints how many there were, and is 0 if all
   was as it should be. */
static int refuse_each(void (*play)(void)) {
    is_ample = refused = again = 0;
    do {
        count = is_reached = 0;
        refused++;
        play();
    } while (is_reached && !wrong);
    printf("%ld allocations were refused, and %ld calls made again\n", refused - 1, again);
    return wrong || !again;
}

#endif
