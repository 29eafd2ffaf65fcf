/* A handle of another type, which a C program can give by a cast alone: for each handle that a call takes, each of the nine other
   types counts as closed, and where a call would fill a handle it is ALREADY_OPEN; nothing changes. Each close function closes whatever a handle
   holds. Two sets of handles are open: one is given in the wrong places, and the other one in the right ones. It prints how much was checked, and
   ends with 0 if all was so. */
#include "cagzhomul.h"
#include "codes.h"
#include <stdio.h>

enum { ROOM = 512, BY_TOWN = 2, KINDS = 10 };

/* An open handle of each type. */
typedef struct set {
    cagzhomul_world_handle world;
    cagzhomul_session_handle session;
    cagzhomul_lease_handle lease;
    cagzhomul_reads_handle reads;
    cagzhomul_txn_handle txn;
    cagzhomul_snapshot_handle snapshot;
    cagzhomul_bytes_handle bytes;
    cagzhomul_piece_handle piece;
    cagzhomul_prepared_piece_handle prepared_piece;
    cagzhomul_checkpoint_handle checkpoint;
} set;

static set right, strange;
static long tried, wrong_answers;

static void check(int holds, const char *what) {
    tried++;
    if (holds) return;
    fprintf(stderr, "not so: %s\n", what);
    wrong_answers++;
}

/* The handle of this number in a set. */
static void *handle_at(set *of, int kind) {
    void *const all[KINDS] = {&of->world, &of->session, &of->lease, &of->reads, &of->txn, &of->snapshot, &of->bytes, &of->piece, &of->prepared_piece, &of->checkpoint};
    return all[kind];
}

/* Whether a handle of any type is open. */
static int is_open(const void *handle) {
    cagzhomul_world_handle copy;
    memcpy(&copy, handle, sizeof copy);
    return copy.is_open;
}

/* The call's status is this one if `it`, for which the call has to have a handle of the type, is each of the other types in turn. */
#define EACH_IS(status_due, type, call)                                                                              \
    for (int kind = 0; kind < KINDS; kind++)                                                                         \
        if (handle_at(&strange, kind) != (void *)&strange.type) {                                                    \
            cagzhomul_##type##_handle *it = (cagzhomul_##type##_handle *)handle_at(&strange, kind);                  \
            check((call) == (status_due) && is_open(it), #call);                                                     \
        }

#define EACH_CLOSED(type, call) EACH_IS(CAGZHOMUL_CLOSED, type, call)
#define EACH_OPEN(type, call) EACH_IS(CAGZHOMUL_ALREADY_OPEN, type, call)

static code one(int64_t id) {
    code ops = ops_code(1);
    put_op(&ops, INSERT, PEOPLE, id, TOWN, "Ulm");
    return ops;
}

/* A world whose index by_town is being filled, and one of each thing of it. */
static void fill(set *it) {
    code opening = opening_code(10, "town"), ops = one(1), more = one(2), enter = enter_code(), write_only = go_code(BY_TOWN, WRITE_ONLY);
    cagzhomul_piece_handle work = {0};
    check(cagzhomul_open(&it->world, opening.bytes, opening.length, CAGZHOMUL_ANY_JUMP) == CAGZHOMUL_OK, "a world");
    check(cagzhomul_lease(&it->world, 5, &it->lease).status == CAGZHOMUL_OK, "a lease");
    check(cagzhomul_write(&it->world, 5, &it->lease, ops.bytes, ops.length).status == CAGZHOMUL_OK, "a row");
    check(cagzhomul_publish(&it->world, 10, enter.bytes, enter.length).status == CAGZHOMUL_OK, "an index enters");
    check(cagzhomul_publish(&it->world, 20, write_only.bytes, write_only.length).status == CAGZHOMUL_OK, "it is written");
    check(cagzhomul_begin_reorg(&it->world, 30, BY_TOWN, 1).status == CAGZHOMUL_OK, "its fill begins");
    check(cagzhomul_close_lease(&it->lease) == CAGZHOMUL_OK && cagzhomul_lease(&it->world, 30, &it->lease).status == CAGZHOMUL_OK, "a lease on the newest version");
    check(cagzhomul_read(&it->world, &it->lease, more.bytes, more.length, &it->reads) == CAGZHOMUL_OK, "a transaction is read");
    check(cagzhomul_prepare(&it->reads, &it->txn).status == CAGZHOMUL_OK, "and prepared");
    check(cagzhomul_snapshot(&it->world, 30, &it->lease, &it->snapshot) == CAGZHOMUL_OK, "a snapshot");
    check(cagzhomul_schema(&it->world, &it->bytes) == CAGZHOMUL_OK, "bytes");
    check(cagzhomul_read_piece(&it->world, BY_TOWN, 0, 1, &work) == CAGZHOMUL_OK && cagzhomul_prepare_piece(&work, &it->prepared_piece) == CAGZHOMUL_OK, "a prepared piece");
    check(cagzhomul_read_piece(&it->world, BY_TOWN, 0, 1, &it->piece) == CAGZHOMUL_OK, "a piece");
    check(cagzhomul_checkpoint(&it->world, &it->checkpoint) == CAGZHOMUL_OK, "a checkpoint");
    check(cagzhomul_session_attach(&it->session) == CAGZHOMUL_OK, "a session");
}

/* Closes a handle of any type by the function for this type: once, as it then is closed. */
#define CLOSES(type, at)                                                                                             \
    check(cagzhomul_close_##type((cagzhomul_##type##_handle *)(at)) == CAGZHOMUL_OK && !is_open(at), "it is closed"); \
    check(cagzhomul_close_##type((cagzhomul_##type##_handle *)(at)) == CAGZHOMUL_CLOSED, "and not twice");

/* Closes each handle of a set by a function for another type: the one that many further on. */
static void close_strangely(set *of, int further) {
    for (int kind = 0; kind < KINDS; kind++) {
        void *at = handle_at(of, kind);
        switch ((kind + further) % KINDS) {
        case 0: CLOSES(world, at) break;
        case 1: CLOSES(session, at) break;
        case 2: CLOSES(lease, at) break;
        case 3: CLOSES(reads, at) break;
        case 4: CLOSES(txn, at) break;
        case 5: CLOSES(snapshot, at) break;
        case 6: CLOSES(bytes, at) break;
        case 7: CLOSES(piece, at) break;
        case 8: CLOSES(prepared_piece, at) break;
        default: CLOSES(checkpoint, at) break;
        }
    }
}

/* Closes each handle by the function for its type. */
static void empty(set *it) {
    check(cagzhomul_close_world(&it->world) == CAGZHOMUL_OK && cagzhomul_close_session(&it->session) == CAGZHOMUL_OK, "the world and the session stayed");
    check(cagzhomul_close_lease(&it->lease) == CAGZHOMUL_OK && cagzhomul_close_reads(&it->reads) == CAGZHOMUL_OK, "the lease and what was read stayed");
    check(cagzhomul_close_txn(&it->txn) == CAGZHOMUL_OK && cagzhomul_close_snapshot(&it->snapshot) == CAGZHOMUL_OK, "the transaction and the snapshot stayed");
    check(cagzhomul_close_bytes(&it->bytes) == CAGZHOMUL_OK && cagzhomul_close_piece(&it->piece) == CAGZHOMUL_OK, "the bytes and the piece stayed");
    check(cagzhomul_close_prepared_piece(&it->prepared_piece) == CAGZHOMUL_OK && cagzhomul_close_checkpoint(&it->checkpoint) == CAGZHOMUL_OK, "the others stayed");
    for (int kind = 0; kind < KINDS; kind++) check(!is_open(handle_at(it, kind)), "all are closed");
}

/* What calls write to, which stays 9. */
static uint8_t out[ROOM];

/* What fills a handle, of the types that a call fills; each is closed. */
static set none;

static void try_worlds(void) {
    code ops = one(3), step = go_code(BY_TOWN, PUBLIC), asked = query_code(PEOPLE, TOWN, 0), changes = changes_code(0);
    EACH_CLOSED(world, cagzhomul_log_length(it).status)
    EACH_CLOSED(world, cagzhomul_log_start(it).status)
    EACH_CLOSED(world, cagzhomul_cut(it, 0))
    EACH_CLOSED(world, cagzhomul_entry(it, 1, out, ROOM).status)
    EACH_CLOSED(world, cagzhomul_repeat(it, ops.bytes, ops.length))
    EACH_CLOSED(world, cagzhomul_check(it).status)
    EACH_CLOSED(world, cagzhomul_status(it, out, ROOM).status)
    EACH_CLOSED(world, cagzhomul_lease(it, 30, &none.lease).status)
    EACH_CLOSED(world, cagzhomul_read(it, &right.lease, ops.bytes, ops.length, &none.reads))
    EACH_CLOSED(world, cagzhomul_read_again(it, &right.reads, ops.bytes, ops.length))
    EACH_CLOSED(world, cagzhomul_commit(it, 30, &right.txn, out, ROOM).status)
    EACH_CLOSED(world, cagzhomul_txn_entry(it, 30, &right.txn, out, ROOM, &none.bytes).status)
    EACH_CLOSED(world, cagzhomul_write(it, 30, &right.lease, ops.bytes, ops.length).status)
    EACH_CLOSED(world, cagzhomul_query(it, 30, &right.lease, asked.bytes, asked.length, &none.bytes).status)
    EACH_CLOSED(world, cagzhomul_query_page(it, 30, &right.lease, asked.bytes, asked.length, &none.bytes).status)
    EACH_CLOSED(world, cagzhomul_snapshot(it, 30, &right.lease, &none.snapshot))
    EACH_CLOSED(world, cagzhomul_schema(it, &none.bytes))
    EACH_CLOSED(world, cagzhomul_plan(it, changes.bytes, changes.length, out, ROOM).status)
    EACH_CLOSED(world, cagzhomul_publish(it, 30, step.bytes, step.length).status)
    EACH_CLOSED(world, cagzhomul_begin_reorg(it, 30, BY_TOWN, 1).status)
    EACH_CLOSED(world, cagzhomul_progress(it, BY_TOWN).status)
    EACH_CLOSED(world, cagzhomul_advance(it, 30, 1, 1).status)
    EACH_CLOSED(world, cagzhomul_due_entry(it, 30, 1, 1, &none.bytes).status)
    EACH_CLOSED(world, cagzhomul_read_piece(it, BY_TOWN, 0, 1, &none.piece))
    EACH_CLOSED(world, cagzhomul_commit_piece(it, 30, &right.prepared_piece).status)
    EACH_CLOSED(world, cagzhomul_checkpoint(it, &none.checkpoint))
    EACH_CLOSED(world, cagzhomul_reply_to(&right.session, it, (const uint8_t *)"log", 3, out, ROOM).status)
}

static void try_others(void) {
    code ops = one(3), asked = query_code(PEOPLE, TOWN, 0);
    EACH_CLOSED(lease, cagzhomul_lease_schema(it, &none.bytes))
    EACH_CLOSED(lease, cagzhomul_read(&right.world, it, ops.bytes, ops.length, &none.reads))
    EACH_CLOSED(lease, cagzhomul_write(&right.world, 30, it, ops.bytes, ops.length).status)
    EACH_CLOSED(lease, cagzhomul_query(&right.world, 30, it, asked.bytes, asked.length, &none.bytes).status)
    EACH_CLOSED(lease, cagzhomul_query_page(&right.world, 30, it, asked.bytes, asked.length, &none.bytes).status)
    EACH_CLOSED(lease, cagzhomul_snapshot(&right.world, 30, it, &none.snapshot))
    EACH_CLOSED(reads, cagzhomul_read_again(&right.world, it, ops.bytes, ops.length))
    EACH_CLOSED(reads, cagzhomul_query_read(it, asked.bytes, asked.length, &none.bytes).status)
    EACH_CLOSED(reads, cagzhomul_prepare(it, &none.txn).status)
    EACH_CLOSED(txn, cagzhomul_commit(&right.world, 30, it, out, ROOM).status)
    EACH_CLOSED(txn, cagzhomul_txn_entry(&right.world, 30, it, out, ROOM, &none.bytes).status)
    EACH_CLOSED(snapshot, cagzhomul_snapshot_query(it, asked.bytes, asked.length, &none.bytes).status)
    EACH_CLOSED(snapshot, cagzhomul_snapshot_query_page(it, asked.bytes, asked.length, &none.bytes).status)
    EACH_CLOSED(snapshot, cagzhomul_snapshot_check(it).status)
    EACH_CLOSED(piece, cagzhomul_prepare_piece(it, &none.prepared_piece))
    EACH_CLOSED(prepared_piece, cagzhomul_commit_piece(&right.world, 30, it).status)
    EACH_CLOSED(checkpoint, cagzhomul_save(it, &none.bytes))
    EACH_CLOSED(checkpoint, cagzhomul_open_checkpoint(it, CAGZHOMUL_ANY_JUMP, &none.world))
    EACH_CLOSED(session, cagzhomul_reply_to(it, &right.world, (const uint8_t *)"log", 3, out, ROOM).status)
    EACH_CLOSED(session, cagzhomul_reply_from(it, 0, out, ROOM).status)
    EACH_CLOSED(bytes, cagzhomul_bytes_from(it, 0, out, ROOM).status)
}

/* Handles that a call would fill. */
static void try_filled(void) {
    code opening = opening_code(10, "town"), ops = one(3), asked = query_code(PEOPLE, TOWN, 0);
    cagzhomul_session_handle early = {0};
    EACH_OPEN(world, cagzhomul_open(it, opening.bytes, opening.length, CAGZHOMUL_ANY_JUMP))
    EACH_OPEN(world, cagzhomul_open_at(it, ops.bytes, ops.length, CAGZHOMUL_ANY_JUMP))
    EACH_OPEN(world, cagzhomul_open_checkpoint(&right.checkpoint, CAGZHOMUL_ANY_JUMP, it))
    EACH_OPEN(session, cagzhomul_session_open(it))
    EACH_OPEN(session, cagzhomul_session_attach(it))
    EACH_OPEN(lease, cagzhomul_lease(&right.world, 30, it).status)
    EACH_OPEN(reads, cagzhomul_read(&right.world, &right.lease, ops.bytes, ops.length, it))
    EACH_OPEN(txn, cagzhomul_prepare(&right.reads, it).status)
    EACH_OPEN(snapshot, cagzhomul_snapshot(&right.world, 30, &right.lease, it))
    EACH_OPEN(piece, cagzhomul_read_piece(&right.world, BY_TOWN, 0, 1, it))
    EACH_OPEN(prepared_piece, cagzhomul_prepare_piece(&right.piece, it))
    EACH_OPEN(checkpoint, cagzhomul_checkpoint(&right.world, it))
    EACH_OPEN(bytes, cagzhomul_lease_schema(&right.lease, it))
    EACH_OPEN(bytes, cagzhomul_query_read(&right.reads, asked.bytes, asked.length, it).status)
    EACH_OPEN(bytes, cagzhomul_txn_entry(&right.world, 30, &right.txn, out, ROOM, it).status)
    EACH_OPEN(bytes, cagzhomul_query(&right.world, 30, &right.lease, asked.bytes, asked.length, it).status)
    EACH_OPEN(bytes, cagzhomul_query_page(&right.world, 30, &right.lease, asked.bytes, asked.length, it).status)
    EACH_OPEN(bytes, cagzhomul_snapshot_query(&right.snapshot, asked.bytes, asked.length, it).status)
    EACH_OPEN(bytes, cagzhomul_snapshot_query_page(&right.snapshot, asked.bytes, asked.length, it).status)
    EACH_OPEN(bytes, cagzhomul_schema(&right.world, it))
    EACH_OPEN(bytes, cagzhomul_due_entry(&right.world, 30, 1, 1, it).status)
    EACH_OPEN(bytes, cagzhomul_save(&right.checkpoint, it))
    check(cagzhomul_session_open(&early) == CAGZHOMUL_OK, "a session before its line `open`");
    EACH_OPEN(world, cagzhomul_reply_to(&early, it, (const uint8_t *)"open", 4, out, ROOM).status)
    check(cagzhomul_close_session(&early) == CAGZHOMUL_OK, "it is closed");
}

int main(void) {
    memset(out, 9, ROOM);
    fill(&right), fill(&strange);
    size_t length = cagzhomul_log_length(&right.world).length;
    try_worlds(), try_others(), try_filled();
    for (size_t at = 0; at < ROOM; at++) check(out[at] == 9, "nothing was written");
    for (int kind = 0; kind < KINDS; kind++) check(!is_open(handle_at(&none, kind)), "nothing was filled");
    check(cagzhomul_log_length(&right.world).length == length && cagzhomul_log_length(&strange.world).length == length, "neither log has another entry");
    check(cagzhomul_commit(&right.world, 30, &right.txn, out, ROOM).place == length + 1, "the transaction is as it was");
    code more = one(4);
    check(cagzhomul_read_again(&right.world, &right.reads, more.bytes, more.length) == CAGZHOMUL_OK && cagzhomul_prepare(&right.reads, &right.txn).status == CAGZHOMUL_OK, "another one takes its place");
    empty(&right), empty(&strange);
    for (int further = 1; further < KINDS; further++) fill(&strange), close_strangely(&strange, further);
    printf("%ld checks, %ld wrong\n", tried, wrong_answers);
    return wrong_answers != 0;
}
