/* Log files of a world, for C and C++ on POSIX systems: a program that appends each entry to such a
 * file before it tells anybody of what was done goes on after any end of the process, from a checkpoint
 * and the log behind it (docs/DURABILITY.md; docs/FORMAT.md has the form). All is inline: it takes
 * cagzhomul.h and the C library, with _GNU_SOURCE defined before the first header.
 *
 * A program begins so; `saved` is the bytes of a checkpoint, if there is one:
 *
 *     cagzhomul_log log;
 *     (saved ? cagzhomul_open_at(&world, saved, n, jump) : cagzhomul_open(&world, opening, m, jump));
 *     cagzhomul_log_open(&log, "people.log", &world);
 *     .. cagzhomul_commit(&world, ..);
 *     cagzhomul_log_append(&log, &world);       and now the commit is on the disk
 *
 * Each function gives 0, or a status of cagzhomul.h, or -1 with errno. The caller has the lock of the
 * world where it is passed. One process at a time has a log file open.
 */
#ifndef CAGZHOMUL_LOG_H
#define CAGZHOMUL_LOG_H

#include "cagzhomul.h"

#include <errno.h>
#include <fcntl.h>
#include <libgen.h>
#include <stdio.h>
#include <stdlib.h>
#include <string.h>
#include <sys/file.h>
#include <sys/stat.h>
#include <unistd.h>

#ifdef __cplusplus
extern "C" {
#endif

/* What a record has before its entry, and behind it; and the longest path of a file. */
enum { CAGZHOMUL_LOG_BEFORE = 16, CAGZHOMUL_LOG_BEHIND = 32, CAGZHOMUL_LOG_PATH = 4096 };

/* An open log file. */
typedef struct {
    int file;       /* -1 if it is closed, as after a write that failed */
    uint64_t place; /* of the last entry that the file has, or behind which the first is to come */
    uint64_t lost;  /* how many bytes behind the sound part were cut off when it was opened */
    char path[CAGZHOMUL_LOG_PATH];
} cagzhomul_log;

static inline uint64_t cagzhomul_log_number(const uint8_t *at) {
    uint64_t number = 0;
    for (int byte = 0; byte < 8; byte++)
        number = number << 8 | at[byte];
    return number;
}

/* The length of the whole record of this place with which the bytes begin; 0 if there is none. */
static inline size_t cagzhomul_log_size(uint64_t place, const uint8_t *bytes, size_t length) {
    cagzhomul_outcome it = cagzhomul_log_entry(place, bytes, length);
    return it.status == CAGZHOMUL_OK ? it.length + CAGZHOMUL_LOG_BEFORE + CAGZHOMUL_LOG_BEHIND : 0;
}

/* Has the folder of a file keep the names in it. */
static inline int cagzhomul_log_sync_folder(const char *path) {
    char copy[CAGZHOMUL_LOG_PATH];
    snprintf(copy, sizeof copy, "%s", path);
    int folder = open(dirname(copy), O_RDONLY | O_CLOEXEC);
    if (folder < 0)
        return -1;
    int answer = fsync(folder);
    close(folder);
    return answer;
}

/* Writes all the bytes. */
static inline int cagzhomul_log_write(int file, const uint8_t *bytes, size_t length) {
    while (length > 0) {
        ssize_t some = write(file, bytes, length);
        if (some < 0 && errno != EINTR)
            return -1;
        bytes += some > 0 ? some : 0;
        length -= some > 0 ? (size_t)some : 0;
    }
    return 0;
}

/* A new file with these bytes, which takes the name `path` once it is whole and on the disk; until then
 * that has what it had. Gives the file, open, or -1. */
static inline int cagzhomul_log_replace(const char *path, const uint8_t *bytes, size_t length) {
    char beside[CAGZHOMUL_LOG_PATH + 32];
    snprintf(beside, sizeof beside, "%s.new", path);
    if (unlink(beside) != 0 && errno != ENOENT) /* a killed process left it */
        return -1;
    int file = open(beside, O_RDWR | O_CREAT | O_EXCL | O_APPEND | O_CLOEXEC, 0666);
    if (file < 0)
        return -1;
    if (flock(file, LOCK_EX | LOCK_NB) == 0 && cagzhomul_log_write(file, bytes, length) == 0
        && fsync(file) == 0 && rename(beside, path) == 0 && cagzhomul_log_sync_folder(path) == 0)
        return file;
    int error = errno;
    unlink(beside);
    close(file);
    errno = error;
    return -1;
}

/* All that a file has, to be freed; NULL with errno. */
static inline uint8_t *cagzhomul_log_read(int file, size_t *length) {
    struct stat found;
    if (fstat(file, &found) != 0)
        return NULL;
    uint8_t *bytes = (uint8_t *)malloc((size_t)found.st_size + 1);
    for (*length = 0; bytes != NULL && *length < (size_t)found.st_size;) {
        ssize_t some = pread(file, bytes + *length, (size_t)found.st_size - *length, (off_t)*length);
        if (some == 0 || (some < 0 && errno != EINTR)) {
            free(bytes);
            return NULL;
        }
        *length += some > 0 ? (size_t)some : 0;
    }
    return bytes;
}

/* Repeats in the world the entries of these bytes that it does not have, and gives how many bytes are
 * sound. -1 with EILSEQ: an entry does not follow in this world, or entries before the first are
 * missing. */
static inline int cagzhomul_log_repeat(cagzhomul_log *log, cagzhomul_world_handle *world,
                                       const uint8_t *bytes, size_t length, size_t *sound) {
    uint64_t place = length < 8 ? 0 : cagzhomul_log_number(bytes);
    size_t size;
    for (*sound = 0; (size = cagzhomul_log_size(place, bytes + *sound, length - *sound)) > 0;) {
        uint64_t before = cagzhomul_log_length(world).length;
        int32_t status = CAGZHOMUL_OK;
        if (place > before + 1)
            status = CAGZHOMUL_NOT_NEXT;
        else if (place == before + 1)
            status = cagzhomul_repeat(world, bytes + *sound + CAGZHOMUL_LOG_BEFORE,
                                      size - CAGZHOMUL_LOG_BEFORE - CAGZHOMUL_LOG_BEHIND);
        if (status == CAGZHOMUL_NOT_NEXT || status == CAGZHOMUL_BAD_ENTRY) {
            errno = EILSEQ;
            return -1;
        }
        if (status != CAGZHOMUL_OK)
            return status;
        log->place = place++;
        *sound += size;
    }
    return 0;
}

/* Closes the file. It may be closed. */
static inline void cagzhomul_log_close(cagzhomul_log *log) {
    if (log->file >= 0)
        close(log->file);
    log->file = -1;
}

/* Lets the entries up to this place go from the file. */
static inline int cagzhomul_log_behind(cagzhomul_log *log, uint64_t before) {
    size_t length, from = 0, size;
    uint8_t *bytes = cagzhomul_log_read(log->file, &length);
    if (bytes == NULL)
        return -1;
    uint64_t place = length < 8 ? 0 : cagzhomul_log_number(bytes);
    while (place <= before && (size = cagzhomul_log_size(place, bytes + from, length - from)) > 0) {
        from += size;
        place++;
    }
    int file = cagzhomul_log_replace(log->path, bytes + from, length - from);
    free(bytes);
    if (file < 0)
        return -1;
    cagzhomul_log_close(log);
    log->file = file;
    log->place = log->place > before ? log->place : before;
    return 0;
}

/* Opens a log file, or makes it; repeats in the world the entries that it does not have; and cuts off
 * what is behind the sound part: what was being written when a process ended, or is damaged.
 * CAGZHOMUL_OUT_OF_MEMORY; CAGZHOMUL_CLOSED; -1 with errno, EILSEQ if the log does not go on from the
 * world, EWOULDBLOCK if another process has it open. After a refusal the log is closed, the file has
 * what it had, and the world may have some of the entries. */
static inline int cagzhomul_log_open(cagzhomul_log *log, const char *path,
                                     cagzhomul_world_handle *world) {
    cagzhomul_outcome it = cagzhomul_log_length(world);
    size_t length, sound = 0;
    log->place = it.length;
    log->lost = 0;
    log->file = -1;
    if (it.status != CAGZHOMUL_OK)
        return it.status;
    if ((size_t)snprintf(log->path, sizeof log->path, "%s", path) >= sizeof log->path) {
        errno = ENAMETOOLONG;
        return -1;
    }
    log->file = open(path, O_RDWR | O_CREAT | O_APPEND | O_CLOEXEC, 0666);
    if (log->file < 0)
        return -1;
    uint8_t *bytes = NULL;
    int answer = -1;
    if (flock(log->file, LOCK_EX | LOCK_NB) == 0 && (bytes = cagzhomul_log_read(log->file, &length)) != NULL)
        answer = cagzhomul_log_repeat(log, world, bytes, length, &sound);
    if (answer == 0) {
        log->lost = length - sound;
        if (log->lost > 0 && (ftruncate(log->file, (off_t)sound) != 0 || fsync(log->file) != 0))
            answer = -1;
        else if (cagzhomul_log_sync_folder(path) != 0 || (log->place < it.length && cagzhomul_log_behind(log, it.length) != 0))
            answer = -1;
    }
    int error = errno;
    free(bytes);
    if (answer != 0)
        cagzhomul_log_close(log);
    errno = error;
    return answer;
}

/* The record of the world's entry of this place, to be freed; NULL, and the status. */
static inline uint8_t *cagzhomul_log_made(cagzhomul_world_handle *world, uint64_t place,
                                          size_t *length, int32_t *status) {
    uint8_t none[1] = {0};
    cagzhomul_outcome it = cagzhomul_entry(world, place, none, 0);
    size_t size = it.length;
    uint8_t *entry = (uint8_t *)malloc(size + 1);
    uint8_t *record = (uint8_t *)malloc(size + CAGZHOMUL_LOG_BEFORE + CAGZHOMUL_LOG_BEHIND);
    *status = it.status != CAGZHOMUL_OK ? it.status : CAGZHOMUL_OUT_OF_MEMORY;
    if (it.status == CAGZHOMUL_OK && entry != NULL && record != NULL) {
        memset(entry, 0, size + 1);
        memset(record, 0, size + CAGZHOMUL_LOG_BEFORE + CAGZHOMUL_LOG_BEHIND);
        cagzhomul_entry(world, place, entry, size);
        it = cagzhomul_log_record(place, entry, size, record, size + CAGZHOMUL_LOG_BEFORE + CAGZHOMUL_LOG_BEHIND);
        *status = it.status;
        *length = it.length;
    }
    free(entry);
    if (*status != CAGZHOMUL_OK) {
        free(record);
        record = NULL;
    }
    return record;
}

/* Closes the file after a write that failed, and gives -1 with its errno. */
static inline int cagzhomul_log_failed(cagzhomul_log *log) {
    int error = errno;
    cagzhomul_log_close(log);
    errno = error;
    return -1;
}

/* Appends the entries that the world has and the file has not; they are on the disk then. Refusals:
 * CAGZHOMUL_CLOSED; CAGZHOMUL_NO_ENTRY if the world has cut an entry that the file has not;
 * CAGZHOMUL_OUT_OF_MEMORY, and some may be appended; -1 with errno, and the log is closed: open it
 * again with a new world. */
static inline int cagzhomul_log_append(cagzhomul_log *log, cagzhomul_world_handle *world) {
    cagzhomul_outcome all = cagzhomul_log_length(world);
    if (all.status != CAGZHOMUL_OK || log->file < 0)
        return all.status != CAGZHOMUL_OK ? all.status : CAGZHOMUL_CLOSED;
    int32_t status = CAGZHOMUL_OK;
    while (log->place < all.length && status == CAGZHOMUL_OK) {
        size_t length = 0;
        uint8_t *record = cagzhomul_log_made(world, log->place + 1, &length, &status);
        int written = record == NULL ? 0 : cagzhomul_log_write(log->file, record, length);
        free(record);
        if (written != 0)
            return cagzhomul_log_failed(log);
        log->place += status == CAGZHOMUL_OK;
    }
    return fsync(log->file) != 0 ? cagzhomul_log_failed(log) : status;
}

/* Puts these saved bytes of the world into a file, which keeps what it had until the new one is whole
 * and on the disk, and lets the entries before them go from the log: `cagzhomul_checkpoint` is called
 * under the lock of the world, and this without it, while nobody appends. Refusals: CAGZHOMUL_CLOSED;
 * CAGZHOMUL_BAD_CODE if the bytes have no digest, or another; -1 with errno. */
static inline int cagzhomul_log_restart(cagzhomul_log *log, const char *path, const uint8_t *saved,
                                        size_t length) {
    if (log->file < 0)
        return CAGZHOMUL_CLOSED;
    if (cagzhomul_saved_form(saved, length) != 2 || length < 25)
        return CAGZHOMUL_BAD_CODE;
    int file = cagzhomul_log_replace(path, saved, length);
    if (file < 0)
        return -1;
    close(file);
    return cagzhomul_log_behind(log, cagzhomul_log_number(saved + 17));
}

#ifdef __cplusplus
}
#endif
#endif
