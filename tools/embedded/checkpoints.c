/* The bytes of a checkpoint, from anywhere. Of a small one each bit is flipped, it is cut at each place, and a byte is added:
   cagzhomul_open_at refuses each. Of its parts without their digest, as earlier releases wrote them, each byte is changed, to nine other
   values, and they are cut at each place: it refuses what it is given, or opens a world in which an audit finds nothing missing and nothing
   extra. What it takes
   of memory at once is at most FACTOR times the length of the bytes and BASE bytes more, whatever they are; and of ten times as many rows
   it takes at most eleven times as much, in between nine and eleven times as many allocations.
   It prints how many were tried and opened, and the most memory a byte; it ends with 0 if all was so. */
#include "cagzhomul.h"
#include <malloc.h>
#include <stdio.h>
#include <stdlib.h>
#include <string.h>

enum { ROOM = 256, SMALL = 5, ROWS = 1000, FACTOR = 16, BASE = 4096, BEFORE = 8, BEHIND = 32 };

void *__real_malloc(size_t);
void *__real_calloc(size_t, size_t);
void *__real_realloc(void *, size_t);
void __real_free(void *);
void *__wrap_malloc(size_t);
void *__wrap_calloc(size_t, size_t);
void *__wrap_realloc(void *, size_t);
void __wrap_free(void *);

static size_t live, most, made;

static void *gained(void *at) {
    live += malloc_usable_size(at);
    made++;
    if (live > most) most = live;
    return at;
}

void *__wrap_malloc(size_t size) { return gained(__real_malloc(size)); }
void *__wrap_calloc(size_t many, size_t size) { return gained(__real_calloc(many, size)); }

void *__wrap_realloc(void *old, size_t size) {
    live -= malloc_usable_size(old);
    return gained(__real_realloc(old, size));
}

void __wrap_free(void *at) {
    live -= malloc_usable_size(at);
    __real_free(at);
}

static void demand(int holds, const char *what) {
    if (holds) return;
    fprintf(stderr, "not so: %s\n", what);
    exit(1);
}

static void answer(cagzhomul_session_handle *session, cagzhomul_world_handle *world, const char *line) {
    uint8_t out[ROOM] = {0};
    cagzhomul_outcome it = cagzhomul_reply_to(session, world, (const uint8_t *)line, strlen(line), out, ROOM - 1);
    demand(it.status == CAGZHOMUL_OK && !strncmp((const char *)out, "ok", 2), line);
}

/* A world with so many rows, an index that is public and one that is being filled. */
static void make_world(cagzhomul_world_handle *world, int rows) {
    static const char *const opening[] = {"table people (id int key, town text, age int)", "index by_town on people (town)", "open", "lease a at 0"};
    static const char *const change[] = {"publish at 10: add index by_age on people (age)", "publish at 20: move people.by_age to write_only",
                                         "lease a at 20", "reorganise people.by_age at 30 pieces 2"};
    char line[ROOM];
    cagzhomul_session_handle session = {0};
    demand(cagzhomul_session_open(&session) == CAGZHOMUL_OK, "a session opens");
    for (size_t it = 0; it < sizeof opening / sizeof *opening; it++) answer(&session, world, opening[it]);
    for (int row = 0; row < rows; row++) {
        snprintf(line, sizeof line, "txn a at 0: insert people (%d) set town = 'Ulm %d', age = %d", row, row % 7, row % 90);
        answer(&session, world, line);
    }
    for (size_t it = 0; it < sizeof change / sizeof *change; it++) answer(&session, world, change[it]);
    answer(&session, world, "work people.by_age at 30 limit 2");
    demand(cagzhomul_close_session(&session) == CAGZHOMUL_OK, "the session is closed, and the world stays");
}

/* The bytes of the world's checkpoint, which the caller frees. */
static uint8_t *bytes_of(cagzhomul_world_handle *world, size_t *length) {
    cagzhomul_checkpoint_handle checkpoint = {0};
    cagzhomul_bytes_handle written = {0};
    uint8_t none[1] = {0};
    demand(cagzhomul_checkpoint(world, &checkpoint) == CAGZHOMUL_OK && cagzhomul_save(&checkpoint, &written) == CAGZHOMUL_OK, "it is written");
    *length = cagzhomul_bytes_from(&written, 0, none, 0).length;
    uint8_t *bytes = calloc(*length + 1, 1);
    demand(bytes && cagzhomul_bytes_from(&written, 0, bytes, *length).length == *length, "it is read");
    demand(cagzhomul_close_checkpoint(&checkpoint) == CAGZHOMUL_OK && cagzhomul_close_bytes(&written) == CAGZHOMUL_OK, "both are closed");
    return bytes;
}

static size_t tried, opened;
static double dearest;

/* Whether a world opens at these bytes: nothing else than a refusal may come of them, or a sound world; nothing is lost. */
static int opens(const uint8_t *bytes, size_t length) {
    cagzhomul_world_handle later = {0};
    size_t before = live;
    most = live;
    made = 0;
    int32_t status = cagzhomul_open_at(&later, bytes, length, CAGZHOMUL_ANY_JUMP);
    size_t taken = most - before;
    demand(taken <= FACTOR * length + BASE, "its memory has a bound");
    if (taken > BASE && (double)(taken - BASE) / (double)length > dearest) dearest = (double)(taken - BASE) / (double)length;
    tried++;
    if (status != CAGZHOMUL_OK) {
        demand(status == CAGZHOMUL_BAD_CODE && !later.is_open && live == before, "it is refused, and nothing is left");
        return 0;
    }
    opened++;
    cagzhomul_checked it = cagzhomul_check(&later);
    demand(it.status == CAGZHOMUL_OK && it.missing == 0 && it.extra == 0, "what opens is sound");
    demand(cagzhomul_close_world(&later) == CAGZHOMUL_OK && live == before, "and gives all its memory back");
    return 1;
}

/* Each bit of bytes with their digest is flipped, they are cut at each place, and a byte is added. */
static void try_damaged(uint8_t *bytes, size_t length) {
    for (size_t at = 0; at < 8 * length; at++) {
        bytes[at / 8] ^= (uint8_t)(1 << at % 8);
        demand(!opens(bytes, length), "no flipped bit opens");
        demand(cagzhomul_saved_form(bytes, length) == (at < 64 ? 1 : 0), "the form is told");
        bytes[at / 8] ^= (uint8_t)(1 << at % 8);
    }
    for (size_t at = 0; at < length; at++) demand(!opens(bytes, at), "no part of them opens");
    demand(!opens(bytes, length + 1), "nothing may follow them");
    demand(opens(bytes, length) && cagzhomul_saved_form(bytes, length) == 2, "the whole ones open");
}

/* Each byte is changed to its neighbours, to bounds and with each half turned; and the bytes are cut at each place, and go on after their end. */
static void try_changed(uint8_t *bytes, size_t length) {
    for (size_t at = 0; at < length; at++) {
        const uint8_t was = bytes[at];
        const uint8_t others[] = {0, 1, 0x7f, 0x80, 0xff, was + 1, was - 1, was ^ 0x0f, was ^ 0xf0};
        for (size_t it = 0; it < sizeof others; it++) {
            bytes[at] = others[it];
            opens(bytes, length);
        }
        bytes[at] = was;
        demand(!opens(bytes, at), "a part of a checkpoint is none");
    }
    demand(opens(bytes, length), "the whole one opens");
}

/* The memory that a checkpoint of so many rows takes, and how many allocations. */
static void weigh(int rows, double *memory, double *allocations) {
    cagzhomul_world_handle world = {0}, later = {0};
    size_t length, before;
    make_world(&world, rows);
    uint8_t *bytes = bytes_of(&world, &length);
    before = live;
    most = live;
    made = 0;
    demand(cagzhomul_open_at(&later, bytes, length, CAGZHOMUL_ANY_JUMP) == CAGZHOMUL_OK, "a checkpoint opens");
    *memory = (double)(most - before);
    *allocations = (double)made;
    demand(cagzhomul_close_world(&later) == CAGZHOMUL_OK && cagzhomul_close_world(&world) == CAGZHOMUL_OK, "both are closed");
    free(bytes);
}

int main(void) {
    cagzhomul_world_handle world = {0};
    size_t length;
    double memory, allocations, of_more, made_of_more;
    make_world(&world, SMALL);
    uint8_t *bytes = bytes_of(&world, &length);
    try_damaged(bytes, length);
    demand(cagzhomul_saved_form(bytes + BEFORE, length - BEFORE - BEHIND) == 1, "parts without a digest are told");
    try_changed(bytes + BEFORE, length - BEFORE - BEHIND);
    free(bytes);
    demand(cagzhomul_close_world(&world) == CAGZHOMUL_OK, "the world is closed");
    weigh(ROWS, &memory, &allocations);
    weigh(10 * ROWS, &of_more, &made_of_more);
    demand(of_more / memory < 11, "ten times the rows take at most eleven times the memory");
    demand(made_of_more / allocations > 9 && made_of_more / allocations < 11, "in ten times as many allocations");
    printf("%zu of %zu opened; at most %.0f bytes of memory a byte\n", opened, tried, dearest);
    return 0;
}
