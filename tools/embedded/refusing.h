/* An allocator that refuses one allocation, the one of number `refused`, unless memory is ample. A
   program that includes this is linked with --wrap for malloc, calloc and realloc. */
#ifndef REFUSING_H
#define REFUSING_H

#include <stdio.h>
#include <stdlib.h>

static long count, refused;
static int is_reached, is_ample, wrong;

void *__real_malloc(size_t);
void *__real_calloc(size_t, size_t);
void *__real_realloc(void *, size_t);
void *__wrap_malloc(size_t);
void *__wrap_calloc(size_t, size_t);
void *__wrap_realloc(void *, size_t);

static int is_refused(void) {
    if (is_ample || ++count != refused) return 0;
    is_reached = 1;
    return 1;
}

void *__wrap_malloc(size_t size) { return is_refused() ? NULL : __real_malloc(size); }
void *__wrap_calloc(size_t many, size_t size) { return is_refused() ? NULL : __real_calloc(many, size); }
void *__wrap_realloc(void *old, size_t size) { return is_refused() ? NULL : __real_realloc(old, size); }

/* Notes what does not hold of the run. */
static void check(int holds, const char *what) {
    if (holds) return;
    fprintf(stderr, "allocation %ld refused: not so: %s\n", refused, what);
    wrong++;
}

#endif
