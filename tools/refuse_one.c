/* Preloaded before a program (LD_PRELOAD), it counts the allocations, malloc, calloc, realloc and their kin, from 1, answers NULL to the
   one whose number stands in REFUSE, and then writes a line to the file descriptor in REFUSE_TOLD. Where REFUSE_FROM_MARK is set it counts
   from the program's first write to standard output on. Made for GNU's C library, whose own allocator and write it calls by their second
   names. */
#include <errno.h>
#include <stdatomic.h>
#include <stddef.h>
#include <stdlib.h>
#include <unistd.h>

void *__libc_malloc(size_t);
void *__libc_calloc(size_t, size_t);
void *__libc_realloc(void *, size_t);
void *__libc_memalign(size_t, size_t);
ssize_t __write(int, const void *, size_t);

static atomic_long count;
static atomic_int is_counted;
static long refused = -1;
static int told = -1;

__attribute__((constructor)) static void begin(void) {
    const char *number = getenv("REFUSE"), *to = getenv("REFUSE_TOLD");
    count = 0;
    is_counted = getenv("REFUSE_FROM_MARK") == NULL;
    refused = number ? atol(number) : -1;
    told = to ? atoi(to) : -1;
}

/* Whether this allocation is the one. */
static int is_refused(void) {
    if (refused < 0 || !is_counted || ++count != refused) return 0;
    if (told >= 0 && __write(told, "refused\n", 8) != 8) _exit(99);
    errno = ENOMEM;
    return 1;
}

ssize_t write(int to, const void *bytes, size_t many) {
    ssize_t written = __write(to, bytes, many);
    if (to == STDOUT_FILENO) is_counted = 1;
    return written;
}

void *malloc(size_t size) { return is_refused() ? NULL : __libc_malloc(size); }
void *calloc(size_t many, size_t size) { return is_refused() ? NULL : __libc_calloc(many, size); }
void *realloc(void *old, size_t size) { return is_refused() ? NULL : __libc_realloc(old, size); }
void *memalign(size_t align, size_t size) { return is_refused() ? NULL : __libc_memalign(align, size); }
void *aligned_alloc(size_t align, size_t size) { return is_refused() ? NULL : __libc_memalign(align, size); }
int posix_memalign(void **to, size_t align, size_t size) {
    if (is_refused()) return ENOMEM;
    *to = __libc_memalign(align, size);
    return *to ? 0 : ENOMEM;
}
