/* Cagzhomul for C and C++: worlds of tables, whose schema changes while they are read and written,
 * by typed calls; and sessions, which take lines of a script language. Both may be mixed on one
 * world.
 *
 * A typed call takes numbers, and codes in bytes: tables, operations, steps and queries, as
 * docs/FORMAT.md describes them. What it makes, such as a lease, a transaction or a query's rows,
 * is in a handle of its own.
 *
 * The language is described in docs/SCRIPT.md: a session takes one line after another, and each has
 * a reply in UTF-8, of no line, one or several, each with its line ending.
 *
 * Each thing has a handle type of its own, so that a C compiler refuses a wrong one. A handle that
 * holds something of another type, which takes a cast, counts as closed; but no call fills it: that
 * is CAGZHOMUL_ALREADY_OPEN; and each close function closes whatever a handle holds.
 *
 * What a caller owes, which nothing checks:
 * - A handle begins as all zeros (`cagzhomul_world_handle world = {0};`), which is closed. Only the
 *   functions below write it, and it is neither copied nor moved while it is open.
 * - One call at a time uses a handle. It may go from one thread to another, under a lock or at a
 *   thread's start or join. Different handles are independent and need no lock between them. The
 *   handles of one call are different handles.
 * - No pointer is null, also beside a length of 0. `out` has `out_length` bytes, which have some
 *   value, and overlaps neither what else the call is given nor a handle. A length is below 2^63.
 * - malloc, realloc and free are of one allocator, and align as C asks. No call comes from a signal
 *   handler, or from the forked child of a process with threads.
 *
 * Who owns what: the caller owns the handle, the line, the entry, each code and `out`, and the
 * library keeps no pointer to them after a call. What an open handle points to, such as the rows of
 * a query, is the library's, and the close function of its type frees it.
 *
 * Of the refusals of a function the first in its list that applies is given. But where a function
 * takes a code, CAGZHOMUL_OUT_OF_MEMORY may come in place of CAGZHOMUL_BAD_CODE and of each refusal
 * after that; and some functions say of which it may. The call may then be made again.
 * A refused call changes neither a handle, nor what it holds, nor `out`, except that
 * CAGZHOMUL_OUT_OF_MEMORY of cagzhomul_reply_to closes both handles. All lengths are in bytes.
 *
 * Moments: time is a number that the caller gives, the present `moment`. The one that counts is the
 * greater of it and the moment of the log's last entry, so time never goes back. A mistaken moment
 * that is far ahead would stay the least that counts for all calls after it. So a world is opened
 * with a furthest jump, in moments: a call with a moment that is more than so many moments beyond
 * that of the log's last entry is CAGZHOMUL_TOO_FAR, and nothing changed. Before the first entry no
 * moment is too far. All replicas of one log open with the same furthest jump.
 */
#ifndef CAGZHOMUL_H
#define CAGZHOMUL_H

#include <stdbool.h>
#include <stddef.h>
#include <stdint.h>

#ifdef __cplusplus
extern "C" {
#endif

/* The version of this header: a thousand times the major one, and the minor one. A program that was
 * compiled with it works with each library of the same major version that has no lower minor
 * one. */
#define CAGZHOMUL_VERSION 2001

/* The library's version. */
uint32_t cagzhomul_version(void);

/* The statuses. Any other number is none. */
enum {
    CAGZHOMUL_OK = 0,
    CAGZHOMUL_BAD_LINE = 1,      /* the line has its reply, which is `bad line` */
    CAGZHOMUL_CLOSED = 2,        /* the handle is closed */
    CAGZHOMUL_ALREADY_OPEN = 3,  /* the handle is open */
    CAGZHOMUL_NOT_UTF8 = 4,      /* the line is not UTF-8 */
    CAGZHOMUL_OUT_OF_MEMORY = 5, /* malloc or realloc refused */
    CAGZHOMUL_NO_ENTRY = 7,      /* the log has no such place */
    CAGZHOMUL_BAD_ENTRY = 8,     /* the bytes are the code of no entry */
    CAGZHOMUL_NOT_NEXT = 9,      /* no accepted call of this world would add the entry */
    CAGZHOMUL_WAITING = 10,      /* changes are under way, and nothing can be done yet */
    CAGZHOMUL_FINISHED = 11,     /* no change is under way */
    CAGZHOMUL_BAD_COUNT = 12,    /* the pieces are not 1 to 64, or the limit is not 1 to 1,000 */
    CAGZHOMUL_MOMENT_TOO_LARGE = 13, /* the moment is above 2^62 */
    CAGZHOMUL_VERSIONS_SPENT = 14, /* a publication is due, and there are 1,000,000 versions */
    CAGZHOMUL_BAD_CODE = 17,       /* the bytes are no code of what they should be */
    CAGZHOMUL_BAD_TABLE = 18,      /* the declaration breaks a limit, or uses a name twice */
    CAGZHOMUL_BAD_LENGTH = 19,     /* the lease length is not from 1 to 2^32 */
    CAGZHOMUL_NO_TABLE = 20,       /* the lease's version has no such table */
    CAGZHOMUL_NOT_PUBLIC = 21,     /* a named column is not a public column of its table */
    CAGZHOMUL_WRONG_TYPE = 22,     /* a value of another type, or a column named twice */
    CAGZHOMUL_TOO_MANY_OPS = 23,   /* more than 64 operations */
    CAGZHOMUL_VIEW_MISMATCH = 24,  /* what was read is not what the transaction reads */
    CAGZHOMUL_BAD_LEASE = 25,      /* no grant could have given the lease */
    CAGZHOMUL_LEASE_ENDED = 26,    /* the lease has ended */
    CAGZHOMUL_WRONG_SCHEMA = 27,   /* prepared under another schema than that of its lease */
    CAGZHOMUL_CONFLICT = 28,       /* a pair changed since it was read */
    CAGZHOMUL_DUPLICATE = 29,      /* an insert of a key that is there */
    CAGZHOMUL_NO_ROW = 30,         /* an update or a delete of a key that is not there */
    CAGZHOMUL_TOO_EARLY = 31,      /* the newest version has not been it for a lease length */
    CAGZHOMUL_UNKNOWN = 32,        /* a step names no table, element or column that is there */
    CAGZHOMUL_NOT_ADJACENT = 33,   /* no move joins the two states */
    CAGZHOMUL_WRONG_WAY = 34,      /* a move of the other way */
    CAGZHOMUL_DEPENDENT = 35,      /* another element stands against it */
    CAGZHOMUL_NAME_TAKEN = 36,     /* the name is taken */
    CAGZHOMUL_OVER_LIMIT = 37,     /* a name, a list, a default or a count is over its limit */
    CAGZHOMUL_UNFINISHED = 38,     /* a reorganisation that the step needs is not finished */
    CAGZHOMUL_NOT_WANTED = 39,     /* the element wants no reorganisation, or none has begun */
    CAGZHOMUL_STILL_USED = 40,     /* the version before may still be used */
    CAGZHOMUL_BEGUN = 41,          /* the reorganisation has begun */
    CAGZHOMUL_BAD_PIECE = 42,      /* the reorganisation has no such piece */
    CAGZHOMUL_SPENT = 43,          /* the piece has ended */
    CAGZHOMUL_WRONG_ELEMENT = 44,  /* the piece is not one of the element's reorganisation */
    CAGZHOMUL_MOVED = 45,          /* the piece has moved since it was read */
    CAGZHOMUL_IN_CHANGE = 46,      /* an element that a change names is in change */
    CAGZHOMUL_TOO_FAR = 47         /* the moment is further beyond that of the last entry than the
                                      world allows */
};

/* ---- the handles: all zeros is closed, and the fields are the library's */

/* A world: tables, pairs, versions, and its log. */
typedef struct cagzhomul_world_handle {
    void *at;
    bool is_open;
} cagzhomul_world_handle;

/* A lease. */
typedef struct cagzhomul_lease_handle {
    void *at;
    bool is_open;
} cagzhomul_lease_handle;

/* A transaction's operations, and what they read. */
typedef struct cagzhomul_reads_handle {
    void *at;
    bool is_open;
} cagzhomul_reads_handle;

/* A prepared transaction. */
typedef struct cagzhomul_txn_handle {
    void *at;
    bool is_open;
} cagzhomul_txn_handle;

/* A snapshot. */
typedef struct cagzhomul_snapshot_handle {
    void *at;
    bool is_open;
} cagzhomul_snapshot_handle;

/* The items of a piece, as they were read. */
typedef struct cagzhomul_piece_handle {
    void *at;
    bool is_open;
} cagzhomul_piece_handle;

/* A prepared piece. */
typedef struct cagzhomul_prepared_piece_handle {
    void *at;
    bool is_open;
} cagzhomul_prepared_piece_handle;

/* A checkpoint of a world. */
typedef struct cagzhomul_checkpoint_handle {
    void *at;
    bool is_open;
} cagzhomul_checkpoint_handle;

/* What a conversation by lines keeps: its last reply, declarations, leases by name, prepared work
 * and the plan. The world is not in it. */
typedef struct cagzhomul_session_handle {
    void *at;
    bool is_open;
} cagzhomul_session_handle;

/* Bytes that a call gave: rows, a schema, an entry, or those of a checkpoint. */
typedef struct cagzhomul_bytes_handle {
    void *at;
    bool is_open;
} cagzhomul_bytes_handle;

/* ---- what the calls answer */

/* What a call answers. */
typedef struct cagzhomul_outcome {
    int32_t status;
    size_t length; /* of the whole reply, code or text, however much of it fitted, or of the log; 0
                      after a refusal */
} cagzhomul_outcome;

/* What the grant of a lease came to. */
typedef struct cagzhomul_granted {
    int32_t status;    /* the other fields are 0 if it is not CAGZHOMUL_OK */
    uint64_t version;  /* the number of the newest version, which the lease is on */
    uint64_t granted;  /* the moment from which on it is in force */
    uint64_t until;    /* the moment at which it ends: it is in force before it */
    uint64_t place;    /* the place of its entry in the log */
} cagzhomul_granted;

/* What the preparation of a transaction came to. */
typedef struct cagzhomul_prepared {
    int32_t status;
    uint32_t column; /* at CAGZHOMUL_NOT_PUBLIC the number that was named; else 0 */
} cagzhomul_prepared;

/* What a transaction came to, with all that is known of a refusal. */
typedef struct cagzhomul_committed {
    int32_t status;
    uint32_t column;  /* at CAGZHOMUL_NOT_PUBLIC the number that was named; else 0 */
    uint64_t place;   /* at CAGZHOMUL_OK the place of its entry in the log; else 0 */
    size_t operation; /* at CAGZHOMUL_DUPLICATE and CAGZHOMUL_NO_ROW the first operation that is
                         refused, counted from 0; else 0 */
    uint64_t until;   /* at CAGZHOMUL_LEASE_ENDED the moment at which the lease ended; else 0 */
    uint64_t now;     /* at CAGZHOMUL_LEASE_ENDED the moment that counted; else 0 */
    size_t length;    /* at CAGZHOMUL_CONFLICT the length of the key of the pair that changed,
                         however much of it fitted; else 0 */
} cagzhomul_committed;

/* What a query came to. */
typedef struct cagzhomul_queried {
    int32_t status;
    uint32_t column; /* at CAGZHOMUL_NOT_PUBLIC the number that was named; else 0 */
} cagzhomul_queried;

/* What a page came to. */
typedef struct cagzhomul_paged {
    int32_t status;
    uint32_t column; /* at CAGZHOMUL_NOT_PUBLIC the number that was named; else 0 */
    uint32_t more;   /* 1 if the range has further rows that are asked for; else 0 */
} cagzhomul_paged;

/* What an audit found. */
typedef struct cagzhomul_checked {
    int32_t status;   /* the other fields are 0 if it is not CAGZHOMUL_OK */
    uint64_t rows;    /* how many rows there are */
    uint64_t missing; /* how many pairs that indexes and required columns give them are missing */
    uint64_t extra;   /* how many pairs no row gives */
} cagzhomul_checked;

/* What an advance did. */
typedef struct cagzhomul_advanced {
    int32_t status;
    uint64_t until; /* at CAGZHOMUL_WAITING the moment before which nothing can be done; else 0 */
} cagzhomul_advanced;

/* What a schema change came to. */
typedef struct cagzhomul_changed {
    int32_t status;
    uint64_t number; /* at CAGZHOMUL_OK the number of the version, or the place of the begin's
                        entry; at CAGZHOMUL_DEPENDENT and CAGZHOMUL_UNFINISHED the element; at
                        CAGZHOMUL_TOO_EARLY and CAGZHOMUL_STILL_USED the first moment at which the
                        call is not refused so; else 0 */
} cagzhomul_changed;

/* What the commit of a piece came to. */
typedef struct cagzhomul_pieced {
    int32_t status; /* the other fields are 0 if it is not CAGZHOMUL_OK */
    bool ended;     /* whether the piece has come to its end */
    uint64_t place; /* the place of its entry in the log */
} cagzhomul_pieced;

/* How far a reorganisation is. */
typedef struct cagzhomul_progressed {
    int32_t status; /* the other fields are 0 if it is not CAGZHOMUL_OK */
    bool ended;     /* whether all its pieces have ended */
    uint32_t next;  /* the number of the first piece that has not, from 0; 0 if all have */
    uint64_t left;  /* how many items are left, of those that are there now */
    uint64_t all;   /* how many there are */
} cagzhomul_progressed;

/* What is wrong with a value. */
#define CAGZHOMUL_FAULT_NONE 0         /* nothing is wrong */
#define CAGZHOMUL_FAULT_KEY_LENGTH 1   /* a key has `place` values, and its table's key has another
                                          number of columns */
#define CAGZHOMUL_FAULT_KEY_VALUE 2    /* the value at `place` of a key, counted from 0, is not one
                                          of its column's type */
#define CAGZHOMUL_FAULT_COLUMN_VALUE 3 /* the value for `column` is not one of its type */
#define CAGZHOMUL_FAULT_NAMED_TWICE 4  /* `column` is named twice */

/* The type of a null. The others are 0 int, 1 text and 2 bool, as in the code of a table. */
#define CAGZHOMUL_NO_TYPE 3

/* Which value is wrong. The fields that a cause does not name are 0. */
typedef struct cagzhomul_value_fault {
    int32_t status;  /* the other fields are 0 if it is not CAGZHOMUL_OK */
    uint32_t cause;  /* CAGZHOMUL_FAULT_NONE, or one of the four after it */
    size_t item;     /* the operation, or the condition of a query, counted from 0 */
    size_t place;    /* of a key */
    uint32_t column; /* the number of the column */
    uint32_t wanted; /* at KEY_VALUE and COLUMN_VALUE the type of the column */
    uint32_t given;  /* at these the type of the value */
} cagzhomul_value_fault;

/* Why a table may not be declared. */
#define CAGZHOMUL_FAULT_NO_TABLE 1         /* no table is declared */
#define CAGZHOMUL_FAULT_TOO_MANY_TABLES 2  /* more than 16 tables are; `table` is 16 */
#define CAGZHOMUL_FAULT_TABLE_NAME 3       /* its name is none: 1 to 32 bytes, an ASCII letter and
                                              then letters, digits and underscores */
#define CAGZHOMUL_FAULT_TABLE_TWICE 4      /* a later table has the same name */
#define CAGZHOMUL_FAULT_TABLE_KEY 5        /* its key has no column, or more than 4 */
#define CAGZHOMUL_FAULT_TOO_MANY_COLUMNS 6 /* more than 32 columns besides its key */
#define CAGZHOMUL_FAULT_TOO_MANY_INDEXES 7 /* more than 16 indexes */
#define CAGZHOMUL_FAULT_NAME 8             /* the name at `place` is none */
#define CAGZHOMUL_FAULT_NAME_TWICE 9       /* a later name is the same as that at `place` */
#define CAGZHOMUL_FAULT_LIST_LENGTH 10     /* `index` lists no column, or more than 4 */
#define CAGZHOMUL_FAULT_LISTED_TWICE 11    /* `index` lists the column at `place` again later */
#define CAGZHOMUL_FAULT_NOT_A_COLUMN 12    /* what `index` lists at `place` is no column of the
                                              table outside its key */

/* Which declaration is wrong. The fields that a cause does not name are 0. */
typedef struct cagzhomul_table_fault {
    int32_t status; /* the other fields are 0 if it is not CAGZHOMUL_OK */
    uint32_t cause; /* CAGZHOMUL_FAULT_NONE, or one of the twelve above */
    size_t table;   /* the table, counted from 0 */
    size_t index;   /* an index of the table, counted from 0 */
    size_t place;   /* a name of the table, counted from 0 over the columns of its key, the other
                       columns and the indexes; or one of those that the index lists */
} cagzhomul_table_fault;

/* ---- worlds */

/* A furthest jump that refuses no moment. */
#define CAGZHOMUL_ANY_JUMP UINT64_MAX

/* Opens a world in the closed handle: with a lease length, in moments, and with the tables whose
 * code the bytes are, and with a furthest jump. Its log is empty.
 * CAGZHOMUL_OK. Refusals: CAGZHOMUL_ALREADY_OPEN; CAGZHOMUL_BAD_CODE; CAGZHOMUL_BAD_TABLE;
 * CAGZHOMUL_BAD_LENGTH; CAGZHOMUL_OUT_OF_MEMORY, which may come in place of CAGZHOMUL_BAD_CODE
 * alone. */
int32_t cagzhomul_open(cagzhomul_world_handle *world, const uint8_t *opening,
                       size_t opening_length, uint64_t furthest_jump);

/* How many entries the world's log had ever, as `length`: also those that cagzhomul_cut gave back.
 * CAGZHOMUL_OK. Refusal: CAGZHOMUL_CLOSED. */
cagzhomul_outcome cagzhomul_log_length(cagzhomul_world_handle *world);

/* How many entries of the log come before those that are in memory, as `length`: 0 until it is cut.
 * cagzhomul_entry has those of the places above it.
 * CAGZHOMUL_OK. Refusal: CAGZHOMUL_CLOSED. */
cagzhomul_outcome cagzhomul_log_start(cagzhomul_world_handle *world);

/* Gives the memory of the log's entries back, but for the last `keep` of those that are in memory,
 * so that a world that lives for long takes no more memory than its data. No answer changes but
 * those of cagzhomul_entry, which then has none of these entries, and of cagzhomul_log_start; a
 * receipt's place goes on counting from the first entry ever. It takes no memory, and time with the
 * entries that were in memory.
 * CAGZHOMUL_OK. Refusal: CAGZHOMUL_CLOSED. */
int32_t cagzhomul_cut(cagzhomul_world_handle *world, size_t keep);

/* Writes the code of an entry of the world's log, as far as it fits in `out`; the bytes of `out`
 * after it stay. `place` counts from 1, so the last one is what cagzhomul_log_length gives. A place
 * keeps its entry, and an entry has one code.
 * CAGZHOMUL_OK, with the length of the whole code. Refusals: CAGZHOMUL_CLOSED; CAGZHOMUL_NO_ENTRY,
 * also of an entry that cagzhomul_cut gave back; CAGZHOMUL_OUT_OF_MEMORY. Nothing changes. */
cagzhomul_outcome cagzhomul_entry(cagzhomul_world_handle *world, size_t place, uint8_t *out,
                                  size_t out_length);

/* Repeats an entry of another world's log, given by its code: makes the call that added it again in
 * this world, at the entry's moment, so that the log has exactly this entry more. The bytes may
 * come from anywhere. A world that was opened alike and repeats each entry once, in the order of
 * its place, is an equal world; an entry that is handed in again may be accepted again.
 * CAGZHOMUL_OK. Refusals: CAGZHOMUL_CLOSED; CAGZHOMUL_BAD_ENTRY; CAGZHOMUL_NOT_NEXT, also of an
 * entry whose moment is too far; CAGZHOMUL_OUT_OF_MEMORY, which may come in place of the two before
 * it. */
int32_t cagzhomul_repeat(cagzhomul_world_handle *world, const uint8_t *entry,
                         size_t entry_length);

/* Audits the world's pairs by the newest version. It takes time with the pairs: if writers are not to
 * wait for the lock meanwhile, take a checkpoint under it, and audit a world that
 * cagzhomul_open_checkpoint makes of it without copying a pair.
 * CAGZHOMUL_OK. Refusals: CAGZHOMUL_CLOSED; CAGZHOMUL_OUT_OF_MEMORY. Nothing changes. */
cagzhomul_checked cagzhomul_check(cagzhomul_world_handle *world);

/* How the world stands: writes one line of JSON without a line end, as the line `status` answers it
 * (docs/SCRIPT.md), as much of it as fits in `out`. Nothing changes, so it may be asked again with
 * more room.
 * CAGZHOMUL_OK, with the length of the whole line. Refusals: CAGZHOMUL_CLOSED;
 * CAGZHOMUL_OUT_OF_MEMORY. */
cagzhomul_outcome cagzhomul_status(cagzhomul_world_handle *world, uint8_t *out,
                                   size_t out_length);

/* ---- leases */

/* Grants a lease on the newest version of the world, which the closed handle `lease` then holds.
 * CAGZHOMUL_OK. Refusals: CAGZHOMUL_ALREADY_OPEN, of `lease`; CAGZHOMUL_CLOSED, of `world`;
 * CAGZHOMUL_TOO_FAR; CAGZHOMUL_MOMENT_TOO_LARGE; CAGZHOMUL_OUT_OF_MEMORY, which may come in place
 * of the two before it. */
cagzhomul_granted cagzhomul_lease(cagzhomul_world_handle *world, uint64_t moment,
                                  cagzhomul_lease_handle *lease);

/* Writes the code of the schema of a lease's version into the closed handle `bytes`, as
 * cagzhomul_schema does for the newest. It takes no world, so it needs no lock of one. The lease
 * stays.
 * CAGZHOMUL_OK. Refusals: CAGZHOMUL_ALREADY_OPEN, of `bytes`; CAGZHOMUL_CLOSED;
 * CAGZHOMUL_OUT_OF_MEMORY. */
int32_t cagzhomul_lease_schema(cagzhomul_lease_handle *lease, cagzhomul_bytes_handle *bytes);

/* ---- transactions: read, prepare, commit; or write, which is all in one */

/* Begins a transaction under a lease: reads the rows that its operations, whose code the bytes are,
 * name in the world, into the closed handle `reads`. It is prepared next, and committed. The lease
 * stays, and may be closed.
 * CAGZHOMUL_OK. Refusals: CAGZHOMUL_ALREADY_OPEN, of `reads`; CAGZHOMUL_CLOSED, of `world`;
 * CAGZHOMUL_CLOSED, of `lease`; CAGZHOMUL_BAD_CODE; CAGZHOMUL_OUT_OF_MEMORY. Nothing changes in the
 * world. */
int32_t cagzhomul_read(cagzhomul_world_handle *world, cagzhomul_lease_handle *lease,
                       const uint8_t *operations, size_t operations_length,
                       cagzhomul_reads_handle *reads);

/* Gives a transaction other operations, by their code, and reads the rows that they name and that
 * it has not read yet: of the others it keeps what it read first, so that its commit is a conflict
 * if they have changed since. A row that the new operations do not name is forgotten.
 * CAGZHOMUL_OK. Refusals: CAGZHOMUL_CLOSED, of `world`; CAGZHOMUL_CLOSED, of `reads`;
 * CAGZHOMUL_BAD_CODE; CAGZHOMUL_OUT_OF_MEMORY. Nothing changes in the world. */
int32_t cagzhomul_read_again(cagzhomul_world_handle *world, cagzhomul_reads_handle *reads,
                             const uint8_t *operations, size_t operations_length);

/* Answers a query of one row, as the transaction read it, under the schema of its lease's version,
 * into the closed handle `bytes`: the query's only condition is a key. It takes no world, so it
 * needs no lock of one. The transaction stays.
 * With it a program changes a row by what it holds, and no update is lost: cagzhomul_read with
 * operations that name the rows, cagzhomul_query_read, then, with the new values,
 * cagzhomul_read_again, cagzhomul_prepare and cagzhomul_commit; after CAGZHOMUL_CONFLICT it begins
 * again.
 * CAGZHOMUL_OK, with the row, or with no row if there is none of this key. Refusals:
 * CAGZHOMUL_ALREADY_OPEN, of `bytes`; CAGZHOMUL_CLOSED; CAGZHOMUL_BAD_CODE, also of a query with
 * other conditions than one key; CAGZHOMUL_NO_TABLE; CAGZHOMUL_NOT_PUBLIC, with the column, or
 * CAGZHOMUL_WRONG_TYPE, as for cagzhomul_query; CAGZHOMUL_VIEW_MISMATCH if the transaction did not
 * read this row; CAGZHOMUL_OUT_OF_MEMORY. */
cagzhomul_queried cagzhomul_query_read(cagzhomul_reads_handle *reads, const uint8_t *query,
                                       size_t query_length, cagzhomul_bytes_handle *bytes);

/* Prepares a transaction that was read, by the schema of its lease's version: the closed handle
 * `txn` then holds it, prepared. It takes no world, so it needs no lock of one. `reads` stays as it
 * was, and may be prepared again, or closed.
 * CAGZHOMUL_OK. Refusals: CAGZHOMUL_ALREADY_OPEN, of `txn`; CAGZHOMUL_CLOSED, of `reads`; of the
 * first operation with one of them, the first of CAGZHOMUL_NO_TABLE, CAGZHOMUL_NOT_PUBLIC, with the
 * column, and CAGZHOMUL_WRONG_TYPE; CAGZHOMUL_TOO_MANY_OPS; CAGZHOMUL_VIEW_MISMATCH;
 * CAGZHOMUL_OUT_OF_MEMORY, which may come in place of all but the first two. */
cagzhomul_prepared cagzhomul_prepare(cagzhomul_reads_handle *reads, cagzhomul_txn_handle *txn);

/* Commits a prepared transaction to the world: it is logged and written, or the rows refuse it; in
 * both cases `txn` is closed. After another refusal it may be committed again, or closed.
 * - At CAGZHOMUL_LEASE_ENDED it says when the lease ended and the moment that counted.
 * - At CAGZHOMUL_CONFLICT it gives the key of a pair, as it is stored: of the pairs that the
 *   transaction read and that have changed, gone or come since, the one with the least key, in the
 *   order of its bytes. As much of it as fits is written to `out`; the bytes of `out` after it
 *   stay. It is the byte 82 (`R`); the number of the table, as a u32; the values of the row's key,
 *   one after another, as many as the table has key columns; and as a u32 the number of the column,
 *   or 0 if it is the pair that says that the row is there. cagzhomul_codes.h reads it, by
 *   cagzhomul_get_byte, cagzhomul_get_u32 and cagzhomul_get_value.
 * In all other cases `out` stays as it was.
 * CAGZHOMUL_OK, with the place of its entry; CAGZHOMUL_DUPLICATE or CAGZHOMUL_NO_ROW, with the
 * operation, if the rows refuse it, and nothing changes in the world. Refusals: CAGZHOMUL_CLOSED,
 * of `world`; CAGZHOMUL_CLOSED, of `txn`; CAGZHOMUL_TOO_FAR; CAGZHOMUL_MOMENT_TOO_LARGE;
 * CAGZHOMUL_BAD_LEASE; CAGZHOMUL_LEASE_ENDED; CAGZHOMUL_WRONG_SCHEMA; CAGZHOMUL_CONFLICT;
 * CAGZHOMUL_OUT_OF_MEMORY, which may come in place of the one before it alone. */
cagzhomul_committed cagzhomul_commit(cagzhomul_world_handle *world, uint64_t moment,
                                     cagzhomul_txn_handle *txn, uint8_t *out, size_t out_length);

/* Answers what cagzhomul_commit would answer, but the world does not change: at CAGZHOMUL_OK the
 * closed handle `bytes` then holds the code of the entry that a commit would add now, and the
 * answer has its place. cagzhomul_repeat of it, in a world that stands as this one does, is that
 * commit. So a program can hand an entry to others before any world has it. An entry has what the
 * transaction writes, and not what it read: it is for this place, since a world that has gone on
 * may accept it although a row has changed.
 * At CAGZHOMUL_OK, CAGZHOMUL_DUPLICATE and CAGZHOMUL_NO_ROW `txn` is closed: for another try
 * `reads` is prepared again. After any other answer `txn` stays, and only at CAGZHOMUL_OK is
 * `bytes` opened.
 * CAGZHOMUL_OK; CAGZHOMUL_DUPLICATE or CAGZHOMUL_NO_ROW. Refusals: CAGZHOMUL_ALREADY_OPEN, of
 * `bytes`; then as for cagzhomul_commit, but that CAGZHOMUL_OUT_OF_MEMORY may come in place of
 * CAGZHOMUL_TOO_FAR and those after it. */
cagzhomul_committed cagzhomul_txn_entry(cagzhomul_world_handle *world, uint64_t moment,
                                        cagzhomul_txn_handle *txn, uint8_t *out,
                                        size_t out_length, cagzhomul_bytes_handle *bytes);

/* Makes a transaction in one call: its operations, whose code the bytes are, are read, prepared and
 * committed in the world under a lease, as by cagzhomul_read, cagzhomul_prepare and
 * cagzhomul_commit, but with no handle of its own and no copy between them. It is the faster way
 * for a caller who is alone, or holds the world's lock for all three. Nothing comes between its
 * read and its commit, so there is no conflict. The lease stays.
 * CAGZHOMUL_OK, with the place of its entry; CAGZHOMUL_DUPLICATE or CAGZHOMUL_NO_ROW, with the
 * operation, if the rows refuse it. Refusals: CAGZHOMUL_CLOSED, of `world`; CAGZHOMUL_CLOSED, of
 * `lease`; CAGZHOMUL_TOO_FAR; CAGZHOMUL_BAD_CODE; of the first operation with one of them, the
 * first of CAGZHOMUL_NO_TABLE, CAGZHOMUL_NOT_PUBLIC, with the column, and CAGZHOMUL_WRONG_TYPE;
 * CAGZHOMUL_TOO_MANY_OPS; CAGZHOMUL_MOMENT_TOO_LARGE; CAGZHOMUL_BAD_LEASE; CAGZHOMUL_LEASE_ENDED,
 * with both moments; CAGZHOMUL_WRONG_SCHEMA; CAGZHOMUL_OUT_OF_MEMORY. Nothing changes but at
 * CAGZHOMUL_OK. */
cagzhomul_committed cagzhomul_write(cagzhomul_world_handle *world, uint64_t moment,
                                    cagzhomul_lease_handle *lease, const uint8_t *operations,
                                    size_t operations_length);

/* ---- queries */

/* Answers a query of the world under a lease: the bytes are the query's code, and the closed handle
 * `bytes` then holds the code of its rows, in the order of their primary keys, which
 * cagzhomul_bytes_from gives. A row has no cell of a column in which it has no value. The query
 * runs under the schema of the lease's version. The world and the lease stay, and the rows stay
 * what they are, whatever happens to them. If it names no key it takes time with the rows that it goes
 * over: if writers are not to wait for the lock meanwhile, take a cagzhomul_snapshot under it, and ask
 * that without it.
 * CAGZHOMUL_OK. Refusals: CAGZHOMUL_ALREADY_OPEN, of `bytes`; CAGZHOMUL_CLOSED, of `world`;
 * CAGZHOMUL_CLOSED, of `lease`; CAGZHOMUL_TOO_FAR; CAGZHOMUL_BAD_CODE, also of a query with a text
 * of more than 1,024 bytes; CAGZHOMUL_MOMENT_TOO_LARGE; CAGZHOMUL_BAD_LEASE; CAGZHOMUL_LEASE_ENDED;
 * CAGZHOMUL_NO_TABLE; of the named columns in their order, and then of the conditions in theirs,
 * the first with a fault: CAGZHOMUL_NOT_PUBLIC, with the column, or CAGZHOMUL_WRONG_TYPE (also of a
 * key with another number of values, and of a null in a key or as a bound);
 * CAGZHOMUL_OUT_OF_MEMORY. */
cagzhomul_queried cagzhomul_query(cagzhomul_world_handle *world, uint64_t moment,
                                  cagzhomul_lease_handle *lease, const uint8_t *query,
                                  size_t query_length, cagzhomul_bytes_handle *bytes);

/* Answers a page of a query of the world under a lease: the bytes are the request's code, which has
 * a range of keys, a limit and the query, and the closed handle `bytes` then holds the code of the
 * page's rows: the first, at most as many as the limit says, of those that cagzhomul_query answers
 * and whose key is in the range, in the order of their primary keys. `more` says whether the range
 * has further ones. The next page comes after the key of the last row: pages so asked of a snapshot
 * are together the whole answer in the range. It takes time with the rows that it goes over, from
 * the range's start to one row more than the page has, and with no others.
 * CAGZHOMUL_OK. Refusals: as for cagzhomul_query, but that CAGZHOMUL_BAD_COUNT, of a limit that is
 * not 1 to 1,000, comes after CAGZHOMUL_LEASE_ENDED, and CAGZHOMUL_WRONG_TYPE is also that of a key
 * of the range with another number of values than the table's key, with a value of another type, or
 * with null, after those of the query. */
cagzhomul_paged cagzhomul_query_page(cagzhomul_world_handle *world, uint64_t moment,
                                     cagzhomul_lease_handle *lease, const uint8_t *request,
                                     size_t request_length, cagzhomul_bytes_handle *bytes);

/* ---- snapshots */

/* Takes a snapshot of what the world holds, under a lease, which the closed handle `snapshot` then
 * holds. The world and the lease stay, and the snapshot stays what it is, whatever happens to them.
 * CAGZHOMUL_OK. Refusals: CAGZHOMUL_ALREADY_OPEN, of `snapshot`; CAGZHOMUL_CLOSED, of `world`;
 * CAGZHOMUL_CLOSED, of `lease`; CAGZHOMUL_TOO_FAR; CAGZHOMUL_MOMENT_TOO_LARGE; CAGZHOMUL_BAD_LEASE;
 * CAGZHOMUL_LEASE_ENDED; CAGZHOMUL_OUT_OF_MEMORY. */
int32_t cagzhomul_snapshot(cagzhomul_world_handle *world, uint64_t moment,
                           cagzhomul_lease_handle *lease, cagzhomul_snapshot_handle *snapshot);

/* Answers a query of a snapshot, as it was taken, under the schema of the version of the lease that
 * it was taken under, into the closed handle `bytes`. It takes no world, so it needs no lock of
 * one. The snapshot stays.
 * CAGZHOMUL_OK. Refusals: CAGZHOMUL_ALREADY_OPEN, of `bytes`; CAGZHOMUL_CLOSED; CAGZHOMUL_BAD_CODE;
 * CAGZHOMUL_NO_TABLE; CAGZHOMUL_NOT_PUBLIC, with the column, or CAGZHOMUL_WRONG_TYPE, as for
 * cagzhomul_query; CAGZHOMUL_OUT_OF_MEMORY. */
cagzhomul_queried cagzhomul_snapshot_query(cagzhomul_snapshot_handle *snapshot,
                                           const uint8_t *query, size_t query_length,
                                           cagzhomul_bytes_handle *bytes);

/* Answers a page of a query of a snapshot, as it was taken, under the schema of the version of the
 * lease that it was taken under, into the closed handle `bytes`, as cagzhomul_query_page does. It
 * takes no world, so it needs no lock of one. The snapshot stays.
 * CAGZHOMUL_OK. Refusals: CAGZHOMUL_ALREADY_OPEN, of `bytes`; CAGZHOMUL_CLOSED; CAGZHOMUL_BAD_CODE;
 * CAGZHOMUL_BAD_COUNT; CAGZHOMUL_NO_TABLE; CAGZHOMUL_NOT_PUBLIC, with the column, or
 * CAGZHOMUL_WRONG_TYPE, as for cagzhomul_query_page; CAGZHOMUL_OUT_OF_MEMORY. */
cagzhomul_paged cagzhomul_snapshot_query_page(cagzhomul_snapshot_handle *snapshot,
                                              const uint8_t *request, size_t request_length,
                                              cagzhomul_bytes_handle *bytes);

/* Audits the pairs of a snapshot by the version that was the newest when it was taken. It takes
 * time with the pairs, and no world, so it needs no lock of one.
 * CAGZHOMUL_OK. Refusals: CAGZHOMUL_CLOSED; CAGZHOMUL_OUT_OF_MEMORY. Nothing changes. */
cagzhomul_checked cagzhomul_snapshot_check(cagzhomul_snapshot_handle *snapshot);

/* ---- schema changes */

/* Writes the code of the schema of the world's newest version into the closed handle `bytes`. It
 * has the tables with their key columns, the columns and indexes with their numbers, names, types,
 * defaults, states and ways, and the next free number (docs/FORMAT.md). The world stays.
 * CAGZHOMUL_OK. Refusals: CAGZHOMUL_ALREADY_OPEN, of `bytes`; CAGZHOMUL_CLOSED;
 * CAGZHOMUL_OUT_OF_MEMORY. */
int32_t cagzhomul_schema(cagzhomul_world_handle *world, cagzhomul_bytes_handle *bytes);

/* Plans a batch of changes, by its code, from the newest version of the world: writes the code of
 * the least plan, as much of it as fits in `out`. A step of the plan has the reorganisations that
 * must end before it, and moves; cagzhomul_plan_step gives the moves as the code of a step. Nothing
 * changes, so it may be asked again with more room.
 * CAGZHOMUL_OK, with the length of the whole code. Refusals: CAGZHOMUL_CLOSED; CAGZHOMUL_BAD_CODE,
 * also of a default with a text of more than 1,024 bytes; of the first change that cannot be
 * planned the first of CAGZHOMUL_UNKNOWN, CAGZHOMUL_NAME_TAKEN, CAGZHOMUL_DEPENDENT if an index is
 * on the column, CAGZHOMUL_IN_CHANGE and CAGZHOMUL_OVER_LIMIT; CAGZHOMUL_OUT_OF_MEMORY. */
cagzhomul_outcome cagzhomul_plan(cagzhomul_world_handle *world, const uint8_t *changes,
                                 size_t changes_length, uint8_t *out, size_t out_length);

/* Writes the code of a step of a plan, of which the first has the number 0, as cagzhomul_publish takes
 * it, as much of it as fits in `out`; the bytes of `out` after it stay. It uses no handle. So a
 * program in any language begins a change by cagzhomul_plan, its step 0 and cagzhomul_publish, and
 * cagzhomul_advance does the rest.
 * CAGZHOMUL_OK, with the length of the code. Refusals: CAGZHOMUL_BAD_CODE if the bytes are the code of
 * no plan; CAGZHOMUL_BAD_COUNT if it has no step of this number; CAGZHOMUL_OUT_OF_MEMORY, which may
 * come in place of both. */
cagzhomul_outcome cagzhomul_plan_step(const uint8_t *plan, size_t plan_length, size_t number,
                                      uint8_t *out, size_t out_length);

/* Publishes the version that a step gives, by its code, in the world. What the step needs next is
 * done by cagzhomul_advance.
 * CAGZHOMUL_OK, with the version's number. Refusals: CAGZHOMUL_CLOSED; CAGZHOMUL_TOO_FAR;
 * CAGZHOMUL_BAD_CODE; CAGZHOMUL_MOMENT_TOO_LARGE; CAGZHOMUL_TOO_EARLY; the step's own:
 * CAGZHOMUL_UNKNOWN, CAGZHOMUL_NOT_ADJACENT, CAGZHOMUL_WRONG_WAY, CAGZHOMUL_DEPENDENT,
 * CAGZHOMUL_NAME_TAKEN or CAGZHOMUL_OVER_LIMIT; CAGZHOMUL_UNFINISHED; CAGZHOMUL_VERSIONS_SPENT;
 * CAGZHOMUL_OUT_OF_MEMORY. */
cagzhomul_changed cagzhomul_publish(cagzhomul_world_handle *world, uint64_t moment,
                                    const uint8_t *step, size_t step_length);

/* Begins the fill or the clear that an element wants, in `pieces` pieces (1 to 64), in the world.
 * CAGZHOMUL_OK, with the place of its entry. Refusals: CAGZHOMUL_CLOSED; CAGZHOMUL_TOO_FAR;
 * CAGZHOMUL_MOMENT_TOO_LARGE; CAGZHOMUL_NOT_WANTED; CAGZHOMUL_STILL_USED; CAGZHOMUL_BEGUN;
 * CAGZHOMUL_BAD_COUNT; CAGZHOMUL_OUT_OF_MEMORY. */
cagzhomul_changed cagzhomul_begin_reorg(cagzhomul_world_handle *world, uint64_t moment,
                                        uint32_t element, uint32_t pieces);

/* How far the reorganisation that has begun of an element is. Its items are counted, not walked
 * over. The world stays.
 * CAGZHOMUL_OK. Refusals: CAGZHOMUL_CLOSED; CAGZHOMUL_NOT_WANTED if none has begun, or it is
 * over. */
cagzhomul_progressed cagzhomul_progress(cagzhomul_world_handle *world, uint32_t element);

/* Does the one act that is due of the schema changes under way, whoever began them: begins a fill
 * or a clear in `pieces` pieces (1 to 64), publishes a step in which all elements that are ready
 * move on, or works `limit` items of a piece (1 to 1,000).
 * CAGZHOMUL_OK, and the log has exactly one entry more; CAGZHOMUL_WAITING, with the moment, or
 * CAGZHOMUL_FINISHED, and nothing changed. Refusals: CAGZHOMUL_CLOSED; CAGZHOMUL_TOO_FAR;
 * CAGZHOMUL_BAD_COUNT; CAGZHOMUL_MOMENT_TOO_LARGE; CAGZHOMUL_VERSIONS_SPENT;
 * CAGZHOMUL_OUT_OF_MEMORY, which may come in place of the one before it. */
cagzhomul_advanced cagzhomul_advance(cagzhomul_world_handle *world, uint64_t moment,
                                     uint32_t pieces, uint32_t limit);

/* Answers what cagzhomul_advance would answer, but the world does not change: at CAGZHOMUL_OK the
 * closed handle `bytes` then holds the code of the entry that it would add now. cagzhomul_repeat of
 * it, in a world that stands as this one does, is that advance.
 * CAGZHOMUL_OK; CAGZHOMUL_WAITING, with the moment, or CAGZHOMUL_FINISHED, and `bytes` stays
 * closed. Refusals: CAGZHOMUL_ALREADY_OPEN, of `bytes`; then as for cagzhomul_advance, but that
 * CAGZHOMUL_OUT_OF_MEMORY may come in place of all after CAGZHOMUL_TOO_FAR. */
cagzhomul_advanced cagzhomul_due_entry(cagzhomul_world_handle *world, uint64_t moment,
                                       uint32_t pieces, uint32_t limit,
                                       cagzhomul_bytes_handle *bytes);

/* ---- pieces of a reorganisation, beside writers */

/* Reads the next `limit` items (1 to 1,000) of a piece of the reorganisation that has begun of an
 * element, into the closed handle `work`. Pieces count from 0. The world stays.
 * CAGZHOMUL_OK. Refusals: CAGZHOMUL_ALREADY_OPEN, of `work`; CAGZHOMUL_CLOSED, of `world`;
 * CAGZHOMUL_NOT_WANTED; CAGZHOMUL_BAD_PIECE; CAGZHOMUL_SPENT; CAGZHOMUL_BAD_COUNT;
 * CAGZHOMUL_OUT_OF_MEMORY. */
int32_t cagzhomul_read_piece(cagzhomul_world_handle *world, uint32_t element, uint32_t piece,
                             uint32_t limit, cagzhomul_piece_handle *work);

/* Prepares the items of a piece that were read: what is put or removed for them. The closed handle
 * `prepared` then holds it, and `work` is closed. It takes no world, so it needs no lock of one.
 * CAGZHOMUL_OK. Refusals: CAGZHOMUL_ALREADY_OPEN, of `prepared`; CAGZHOMUL_CLOSED, of `work`;
 * CAGZHOMUL_OUT_OF_MEMORY. */
int32_t cagzhomul_prepare_piece(cagzhomul_piece_handle *work,
                                cagzhomul_prepared_piece_handle *prepared);

/* Commits the items of a piece that were prepared to the world, and `prepared` is closed: its pairs
 * are written, and the piece goes on behind them.
 * CAGZHOMUL_OK. Refusals: CAGZHOMUL_CLOSED, of `world`; CAGZHOMUL_CLOSED, of `prepared`;
 * CAGZHOMUL_TOO_FAR; CAGZHOMUL_MOMENT_TOO_LARGE; CAGZHOMUL_NOT_WANTED; CAGZHOMUL_WRONG_ELEMENT;
 * CAGZHOMUL_MOVED; CAGZHOMUL_CONFLICT; CAGZHOMUL_OUT_OF_MEMORY, which may come in place of the two
 * before it. A refusal leaves `prepared` as it was: at CAGZHOMUL_MOVED and CAGZHOMUL_CONFLICT it is
 * to be closed, and the piece read again. */
cagzhomul_pieced cagzhomul_commit_piece(cagzhomul_world_handle *world, uint64_t moment,
                                        cagzhomul_prepared_piece_handle *prepared);

/* ---- checkpoints */

/* Takes the checkpoint of the world into the closed handle `checkpoint`: all that a world needs to
 * go on from here. The world goes on. Pairs are shared, so its time does not grow with them.
 * CAGZHOMUL_OK. Refusals: CAGZHOMUL_ALREADY_OPEN, of `checkpoint`; CAGZHOMUL_CLOSED, of `world`;
 * CAGZHOMUL_OUT_OF_MEMORY. */
int32_t cagzhomul_checkpoint(cagzhomul_world_handle *world,
                             cagzhomul_checkpoint_handle *checkpoint);

/* Writes the bytes of a checkpoint, with SHA-256 of them at the end, into the closed handle `bytes`.
 * It takes no world, so it needs no lock of one, and time and memory with the pairs. The checkpoint
 * stays.
 * CAGZHOMUL_OK. Refusals: CAGZHOMUL_ALREADY_OPEN, of `bytes`; CAGZHOMUL_CLOSED;
 * CAGZHOMUL_OUT_OF_MEMORY. */
int32_t cagzhomul_save(cagzhomul_checkpoint_handle *checkpoint, cagzhomul_bytes_handle *bytes);

/* Makes a world of a checkpoint, in the closed handle `world`, with a furthest jump, and
 * `checkpoint` is closed: the world goes on from there, as that of cagzhomul_open_at does, apart
 * from the one that the checkpoint was taken of. So a program can try calls before it makes them.
 * It takes no memory, and its time does not grow with the pairs.
 * CAGZHOMUL_OK. Refusals: CAGZHOMUL_ALREADY_OPEN, of `world`; CAGZHOMUL_CLOSED, of `checkpoint`. */
int32_t cagzhomul_open_checkpoint(cagzhomul_checkpoint_handle *checkpoint, uint64_t furthest_jump,
                                  cagzhomul_world_handle *world);

/* Opens a world in the closed handle, with a furthest jump, which goes on from the checkpoint that
 * these bytes are: places go on counting, and each call answers what it would answer in the world
 * of which it is the checkpoint. Bytes may come from anyone: their digest is compared before all
 * else, and then they are tested, for which all pairs are read. Bytes that an earlier release saved
 * have no digest, and are opened, too; cagzhomul_saved_form tells them.
 * CAGZHOMUL_OK. Refusals: CAGZHOMUL_ALREADY_OPEN; CAGZHOMUL_BAD_CODE if no world may open from
 * these bytes, as they are damaged or forged; CAGZHOMUL_OUT_OF_MEMORY. */
int32_t cagzhomul_open_at(cagzhomul_world_handle *world, const uint8_t *bytes, size_t length,
                          uint64_t furthest_jump);

/* The form of saved bytes: 2 if SHA-256 of them is at their end, 1 if they do not begin as such
 * bytes do, as those of releases before 2.1, and 0 if they begin so and have another digest: they
 * are damaged. It says nothing more of them. It uses no handle, and refuses nothing. */
uint32_t cagzhomul_saved_form(const uint8_t *bytes, size_t length);

/* ---- log files: entries in a file, each with a digest, by which a program goes on after it was
 * ended at any point (docs/DURABILITY.md); include/cagzhomul_log.h reads and writes such files */

/* Writes the record of an entry of this place (the first is 1), as far as it fits in `out`; the bytes
 * of `out` after it stay. It has 48 bytes more than the entry. It uses no handle.
 * CAGZHOMUL_OK, with the length of the record. Refusal: CAGZHOMUL_OUT_OF_MEMORY. */
cagzhomul_outcome cagzhomul_log_record(uint64_t place, const uint8_t *entry, size_t entry_length,
                                       uint8_t *out, size_t out_length);

/* Looks for the record of this place with which the bytes begin. It uses no handle and no memory.
 * CAGZHOMUL_OK, with the length of its entry, which begins at byte 16; the next record begins 32
 * bytes after it. Refusal: CAGZHOMUL_BAD_CODE if the bytes begin with no whole record of this
 * place. */
cagzhomul_outcome cagzhomul_log_entry(uint64_t place, const uint8_t *bytes, size_t length);

/* ---- what a refusal is for, by codes in bytes: no handle, no lock, and nothing changes */

/* Which value of a transaction is wrong: exactly if its preparation under this schema is
 * CAGZHOMUL_WRONG_TYPE, there is a cause. It is of the operation that decides, and there the first
 * of: the length of its key, the values of its key, the values for columns, a column that is named
 * twice.
 * `schema` is what cagzhomul_lease_schema or cagzhomul_schema gives, or the record of a layer's
 * version, which is the same.
 * CAGZHOMUL_OK. Refusals: CAGZHOMUL_BAD_CODE, also of a text of more than 1,024 bytes;
 * CAGZHOMUL_OUT_OF_MEMORY, which may come in its place. */
cagzhomul_value_fault cagzhomul_txn_fault(const uint8_t *schema, size_t schema_length,
                                          const uint8_t *operations, size_t operations_length);

/* Which value of a query is wrong: exactly if the query under this schema is CAGZHOMUL_WRONG_TYPE,
 * there is a cause. It is of the condition that decides; of two bounds the lower comes first. Of a
 * page's request the keys of its range are not looked at, whose types count after its query.
 * CAGZHOMUL_OK. Refusals: as for cagzhomul_txn_fault. */
cagzhomul_value_fault cagzhomul_query_fault(const uint8_t *schema, size_t schema_length,
                                            const uint8_t *query, size_t query_length);

/* Why the tables of an opening may not be declared: exactly if cagzhomul_open with them is
 * CAGZHOMUL_BAD_TABLE, there is a cause. The number of tables comes first; then table by table the
 * causes in the order of their numbers. But its names are gone over place by place, and so are its
 * indexes, and what each of them lists.
 * CAGZHOMUL_OK. Refusals: CAGZHOMUL_BAD_CODE; CAGZHOMUL_OUT_OF_MEMORY, which may come in its
 * place. */
cagzhomul_table_fault cagzhomul_opening_fault(const uint8_t *opening, size_t opening_length);

/* ---- sessions by lines */

/* Opens a session at its start, before its line `open`. That line opens its world, with
 * CAGZHOMUL_ANY_JUMP.
 * CAGZHOMUL_OK. Refusals: CAGZHOMUL_ALREADY_OPEN; CAGZHOMUL_OUT_OF_MEMORY. */
int32_t cagzhomul_session_open(cagzhomul_session_handle *session);

/* Opens a session behind its line `open`, with no leases, nothing prepared and no plan: for a world
 * that is open.
 * CAGZHOMUL_OK. Refusals: CAGZHOMUL_ALREADY_OPEN; CAGZHOMUL_OUT_OF_MEMORY. */
int32_t cagzhomul_session_attach(cagzhomul_session_handle *session);

/* Answers one line, which is given without its line ending, in a world, keeps the reply until the
 * next one, and writes as much of it to `out` as fits; the bytes of `out` after it stay. A session
 * before its line `open` takes a closed world, which that line opens; one behind it takes an open
 * one. It need not be the same each time: leases and prepared work of another world are refused as
 * any stale ones are.
 * CAGZHOMUL_OK, or CAGZHOMUL_BAD_LINE with the reply `bad line`. Refusals: CAGZHOMUL_CLOSED, of
 * `session`; CAGZHOMUL_ALREADY_OPEN, of `world`, if the session is before its line `open`;
 * CAGZHOMUL_CLOSED, of `world`, if it is behind it; CAGZHOMUL_NOT_UTF8; CAGZHOMUL_TOO_FAR of a line
 * that names a moment that is too far; CAGZHOMUL_OUT_OF_MEMORY, which may come in its place, and
 * both the session and the world are freed and their handles closed. After each other refusal the
 * last reply stays. (A reply
 * `refused Memory` is another thing: that line was refused by the session, which goes on.) */
cagzhomul_outcome cagzhomul_reply_to(cagzhomul_session_handle *session,
                                     cagzhomul_world_handle *world, const uint8_t *line,
                                     size_t line_length, uint8_t *out, size_t out_length);

/* Writes the last reply from its byte `from` on (the first is 0), as far as it fits in `out`; the
 * bytes of `out` after it stay. Nothing is written if `from` is the reply's length or more. Before
 * the first line the reply is empty. It takes no world. Typed calls leave the reply.
 * CAGZHOMUL_OK, with the length of the whole reply. Refusal: CAGZHOMUL_CLOSED. */
cagzhomul_outcome cagzhomul_reply_from(cagzhomul_session_handle *session, size_t from,
                                       uint8_t *out, size_t out_length);

/* ---- bytes */

/* Writes the bytes that the handle holds from byte `from` on (the first is 0), as far as they fit
 * in `out`; the bytes of `out` after them stay. Nothing is written if `from` is their number or
 * more. The handle holds them until it is closed.
 * CAGZHOMUL_OK, with the length of all of them. Refusal: CAGZHOMUL_CLOSED. */
cagzhomul_outcome cagzhomul_bytes_from(cagzhomul_bytes_handle *bytes, size_t from, uint8_t *out,
                                       size_t out_length);

/* ---- closing: frees what the handle holds and closes it; it may be opened again.
 * CAGZHOMUL_OK. Refusal: CAGZHOMUL_CLOSED. */

int32_t cagzhomul_close_world(cagzhomul_world_handle *world);
int32_t cagzhomul_close_lease(cagzhomul_lease_handle *lease);
int32_t cagzhomul_close_reads(cagzhomul_reads_handle *reads);
int32_t cagzhomul_close_txn(cagzhomul_txn_handle *txn);
int32_t cagzhomul_close_snapshot(cagzhomul_snapshot_handle *snapshot);
int32_t cagzhomul_close_piece(cagzhomul_piece_handle *work);
int32_t cagzhomul_close_prepared_piece(cagzhomul_prepared_piece_handle *prepared);
int32_t cagzhomul_close_checkpoint(cagzhomul_checkpoint_handle *checkpoint);
int32_t cagzhomul_close_session(cagzhomul_session_handle *session);
int32_t cagzhomul_close_bytes(cagzhomul_bytes_handle *bytes);

/* ---- texts */

/* Writes a status's text in English, ASCII without a zero at its end, as far as it fits in `out`,
 * and gives the text's length; the bytes of `out` after it stay. Any number has a text. It uses no
 * handle, and refuses nothing. */
size_t cagzhomul_text_of(int32_t status, uint8_t *out, size_t out_length);

#ifdef __cplusplus
}
#endif
#endif
