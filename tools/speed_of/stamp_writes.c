// stamp_writes.c: each write to standard output is noted with the moment at which it was called, and left out; at the end the moments and the
// lines go to standard error together. So a program's lines are timed by no reader that may be late. -DCLOCK=.. names another clock.
// gcc -O2 -shared -fPIC -o stamp_writes.so stamp_writes.c; LD_PRELOAD=./stamp_writes.so PROGRAM
#include <stdio.h>
#include <string.h>
#include <sys/syscall.h>
#include <time.h>
#include <unistd.h>

#ifndef CLOCK
#define CLOCK CLOCK_MONOTONIC
#endif

enum { MOST = 1 << 20, WIDTH = 48 };

static struct {
    struct timespec at;
    char line[WIDTH];
} notes[MOST];
static size_t count;

ssize_t write(int file, const void *bytes, size_t length) {
    if (file != 1 || count == MOST || length >= WIDTH) {
        return syscall(SYS_write, file, bytes, length);
    }
    clock_gettime(CLOCK, &notes[count].at);
    memcpy(notes[count++].line, bytes, length);
    return (ssize_t)length;
}

// The program ends by _exit, which runs no destructor.
void _exit(int status) {
    for (size_t i = 0; i < count; i++) {
        dprintf(2, "at %lld.%09ld %s", (long long)notes[i].at.tv_sec, notes[i].at.tv_nsec, notes[i].line);
    }
    syscall(SYS_exit_group, status);
    __builtin_unreachable();
}
