/* The entries that calls would add, before any of them is made: of a prepared transaction and of what is due of a change, to its end. Each is
   asked of a world, which stays as it is; a fork of that world makes the call itself, which adds an entry of the same code; and a replica,
   which had the same log, repeats the bytes, as the world itself then does: all three have the same status, the same pairs and the same entry.
   Also what stands against an entry: the rows, a conflict with its key, a lease that has ended.
   Each allocation is refused in turn, one in each run: the call that met it answers CAGZHOMUL_OUT_OF_MEMORY, changed nothing, and is made again.
   It prints how many allocations were refused, and ends with 0 if all was as include/cagzhomul.h says. */
#include "calls.h"
#include "codes.h"
#include "talk.h"

enum { ROOM = 2048, LENGTH = 10 };

/* How long the keys of pairs of rows of people are. */
static const size_t KEY = 18;

/* A world, a replica of it, and lines that are answered in either. */
static cagzhomul_world_handle world, replica;
static cagzhomul_session_handle session;

static code one(uint8_t kind, int64_t id, const char *town) {
    code ops = ops_code(1);
    put_op(&ops, kind, PEOPLE, id, TOWN, town);
    return ops;
}

/* Bytes of a handle, an entry or a reply. */
typedef struct text {
    uint8_t bytes[ROOM];
    size_t length;
} text;

static int is_same(const text *one, const text *other) { return one->length > 0 && one->length == other->length && !memcmp(one->bytes, other->bytes, ROOM); }

static text entry_of(cagzhomul_world_handle *of, size_t place) {
    text it = {{0}, 0};
    cagzhomul_outcome outcome = cagzhomul_entry(of, place, it.bytes, ROOM);
    check(outcome.status == CAGZHOMUL_OK && outcome.length <= ROOM, "an entry");
    it.length = outcome.length;
    return it;
}

/* The reply to a line in a world; memory is ample for it. */
static text reply_of(cagzhomul_world_handle *of, const char *line) {
    text it = {{0}, 0};
    cagzhomul_outcome outcome = cagzhomul_reply_to(&session, of, (const uint8_t *)line, strlen(line), it.bytes, ROOM);
    check(outcome.status == CAGZHOMUL_OK && outcome.length <= ROOM, line);
    it.length = outcome.length;
    return it;
}

static text status_of(cagzhomul_world_handle *of) {
    text it = {{0}, 0};
    cagzhomul_outcome outcome = cagzhomul_status(of, it.bytes, ROOM);
    check(outcome.status == CAGZHOMUL_OK && outcome.length <= ROOM, "a status");
    it.length = outcome.length;
    return it;
}

static int are_equal(cagzhomul_world_handle *first, cagzhomul_world_handle *second) {
    text status = status_of(first), same = status_of(second), pairs = reply_of(first, "pairs"), too = reply_of(second, "pairs");
    return is_same(&status, &same) && is_same(&pairs, &too);
}

/* A world that goes on apart from this one, and is equal to it. */
static void fork_of(cagzhomul_world_handle *of, cagzhomul_world_handle *apart) {
    cagzhomul_checkpoint_handle checkpoint = {0};
    check(cagzhomul_checkpoint(of, &checkpoint) == CAGZHOMUL_OK && cagzhomul_open_checkpoint(&checkpoint, CAGZHOMUL_ANY_JUMP, apart) == CAGZHOMUL_OK, "a fork");
}

/* The bytes of a handle, which is then closed. */
static text bytes_of(cagzhomul_bytes_handle *handle) {
    text it = {{0}, 0};
    cagzhomul_outcome outcome = cagzhomul_bytes_from(handle, 0, it.bytes, ROOM);
    check(outcome.status == CAGZHOMUL_OK && outcome.length <= ROOM && cagzhomul_close_bytes(handle) == CAGZHOMUL_OK, "the bytes of an entry");
    it.length = outcome.length;
    return it;
}

/* The entry is repeated, of which any allocation may be refused. */
static void repeat(cagzhomul_world_handle *in, const text *entry, size_t place) {
    int32_t status = cagzhomul_repeat(in, entry->bytes, entry->length);
    if (is_short(status)) {
        check(cagzhomul_log_length(in).length == place - 1, "nothing was repeated");
        status = cagzhomul_repeat(in, entry->bytes, entry->length);
    }
    check(status == CAGZHOMUL_OK && cagzhomul_log_length(in).length == place, "the entry is repeated");
}

/* After a fork of the world made the call itself: its entry at this place is these bytes, and with them the replica, and then the world, come to the
   same. The world is still what it was before the bytes were asked for, whose status is given. */
static void comes_to(const text *entry, cagzhomul_world_handle *made, size_t place, const text *before) {
    int was_ample = is_ample;
    is_ample = 1;
    text own = entry_of(made, place), still = status_of(&world);
    check(is_same(entry, &own), "the call itself adds this entry");
    check(is_same(before, &still) && cagzhomul_log_length(&world).length == place - 1, "which the world does not have yet");
    is_ample = was_ample;
    repeat(&replica, entry, place);
    is_ample = 1;
    text repeated = entry_of(&replica, place);
    check(is_same(entry, &repeated) && are_equal(&replica, made), "the replica has it, and is what the fork is");
    is_ample = was_ample;
    repeat(&world, entry, place);
    is_ample = 1;
    check(are_equal(&world, &replica), "and so is the world");
    is_ample = was_ample;
}

static cagzhomul_granted take_lease(cagzhomul_world_handle *of, uint64_t moment, cagzhomul_lease_handle *lease) {
    cagzhomul_granted it = cagzhomul_lease(of, moment, lease);
    return is_short(it.status) ? cagzhomul_lease(of, moment, lease) : it;
}

/* The replica follows a call that the world made. */
static void follow(size_t place) {
    int was_ample = is_ample;
    is_ample = 1;
    text entry = entry_of(&world, place);
    check(cagzhomul_repeat(&replica, entry.bytes, entry.length) == CAGZHOMUL_OK && are_equal(&world, &replica), "the replica follows");
    is_ample = was_ample;
}

static void open_both(void) {
    code opening = opening_code(LENGTH, "town");
    int was_ample = is_ample;
    is_ample = 1;
    check(cagzhomul_open(&world, opening.bytes, opening.length, CAGZHOMUL_ANY_JUMP) == CAGZHOMUL_OK, "a world");
    check(cagzhomul_open(&replica, opening.bytes, opening.length, CAGZHOMUL_ANY_JUMP) == CAGZHOMUL_OK, "a replica");
    check(cagzhomul_session_attach(&session) == CAGZHOMUL_OK, "a session of lines");
    is_ample = was_ample;
}

static void close_both(void) {
    check(cagzhomul_close_session(&session) == CAGZHOMUL_OK && cagzhomul_close_world(&world) == CAGZHOMUL_OK && cagzhomul_close_world(&replica) == CAGZHOMUL_OK, "all are closed");
}

static int is_committed(cagzhomul_committed it, int32_t status, uint64_t place, size_t operation) {
    return it.status == status && it.place == place && it.operation == operation && !it.column && !it.until && !it.now && !it.length;
}

/* Reads and prepares; what was read stays. */
static void make_ready(cagzhomul_lease_handle *lease, code ops, cagzhomul_reads_handle *reads, cagzhomul_txn_handle *txn) {
    int32_t status = cagzhomul_read(&world, lease, ops.bytes, ops.length, reads);
    if (is_short(status)) status = cagzhomul_read(&world, lease, ops.bytes, ops.length, reads);
    cagzhomul_prepared it = cagzhomul_prepare(reads, txn);
    if (is_short(it.status)) it = cagzhomul_prepare(reads, txn);
    check(status == CAGZHOMUL_OK && it.status == CAGZHOMUL_OK, "a transaction is prepared");
}

/* What would a commit come to? `out` is 9 where nothing was written. */
static uint8_t out[ROOM];

static cagzhomul_committed ask(uint64_t moment, cagzhomul_txn_handle *txn, size_t room, cagzhomul_bytes_handle *bytes) {
    memset(out, 9, ROOM);
    cagzhomul_committed it = cagzhomul_txn_entry(&world, moment, txn, out, room, bytes);
    if (!is_short(it.status)) return it;
    check(is_committed(it, CAGZHOMUL_OUT_OF_MEMORY, 0, 0) && txn->is_open && !bytes->is_open && out[0] == 9, "nothing was told");
    return cagzhomul_txn_entry(&world, moment, txn, out, room, bytes);
}

/* A transaction's entry, at this place, is asked for, and then committed in a fork. */
static void propose(cagzhomul_lease_handle *lease, uint64_t moment, code ops, size_t place) {
    cagzhomul_world_handle apart = {0};
    cagzhomul_reads_handle reads = {0};
    cagzhomul_txn_handle txn = {0};
    cagzhomul_bytes_handle bytes = {0};
    int was_ample = is_ample;
    is_ample = 1;
    text before = status_of(&world);
    is_ample = was_ample;
    make_ready(lease, ops, &reads, &txn);
    check(is_committed(ask(moment, &txn, ROOM, &bytes), CAGZHOMUL_OK, place, 0) && bytes.is_open && !txn.is_open && out[0] == 9, "a commit would add an entry");
    text entry = bytes_of(&bytes);
    is_ample = 1;
    fork_of(&world, &apart);
    check(cagzhomul_prepare(&reads, &txn).status == CAGZHOMUL_OK, "it is prepared again");
    check(is_committed(cagzhomul_commit(&apart, moment, &txn, out, ROOM), CAGZHOMUL_OK, place, 0) && !txn.is_open, "and committed in a fork");
    is_ample = was_ample;
    comes_to(&entry, &apart, place, &before);
    check(cagzhomul_close_reads(&reads) == CAGZHOMUL_OK && cagzhomul_close_world(&apart) == CAGZHOMUL_OK, "the fork is closed");
}

/* A transaction that the rows refuse: its handle is closed, and no bytes are given. */
static void rows_refuse(cagzhomul_lease_handle *lease, uint64_t moment, code ops, int32_t status, size_t operation) {
    cagzhomul_reads_handle reads = {0};
    cagzhomul_txn_handle txn = {0};
    cagzhomul_bytes_handle bytes = {0};
    size_t length = cagzhomul_log_length(&world).length;
    make_ready(lease, ops, &reads, &txn);
    check(is_committed(ask(moment, &txn, ROOM, &bytes), status, 0, operation) && !txn.is_open && !bytes.is_open && out[0] == 9, "the rows refuse it");
    cagzhomul_prepared it = cagzhomul_prepare(&reads, &txn);
    if (is_short(it.status)) it = cagzhomul_prepare(&reads, &txn);
    check(it.status == CAGZHOMUL_OK && is_committed(ask(moment, &txn, ROOM, &bytes), status, 0, operation) && !txn.is_open, "and again, once it is prepared again");
    check(cagzhomul_close_reads(&reads) == CAGZHOMUL_OK && cagzhomul_log_length(&world).length == length, "nothing is added");
}

static code two(uint8_t first, int64_t id, uint8_t second, int64_t other) {
    code ops = ops_code(2);
    put_op(&ops, first, PEOPLE, id, TOWN, "Ulm"), put_op(&ops, second, PEOPLE, other, TOWN, "Ulm");
    return ops;
}

/* Of the row of id 1, whose town has changed. */
static int is_conflict(cagzhomul_committed it, size_t room) {
    code key = {{'R'}, 1};
    put_number(&key, PEOPLE, 4), put_int(&key, 1), put_number(&key, TOWN, 4);
    size_t fits = room < KEY ? room : KEY;
    return it.status == CAGZHOMUL_CONFLICT && !it.place && !it.operation && it.length == KEY && key.length == KEY && !memcmp(out, key.bytes, fits) && out[fits] == 9;
}

/* Row 1 changes after it was read. What stays is committed by no one. */
static void meet_conflicts(cagzhomul_lease_handle *lease) {
    cagzhomul_reads_handle reads = {0};
    cagzhomul_txn_handle txn = {0};
    cagzhomul_bytes_handle bytes = {0};
    make_ready(lease, one(UPDATE, 1, "Kiel"), &reads, &txn);
    propose(lease, 8, one(UPDATE, 1, "Hof"), 3);
    check(is_conflict(ask(8, &txn, ROOM, &bytes), ROOM) && txn.is_open && !bytes.is_open, "its town has changed");
    check(is_conflict(ask(8, &txn, 5, &bytes), 5) && is_conflict(ask(8, &txn, 0, &bytes), 0) && txn.is_open && !bytes.is_open, "a part of the key");
    cagzhomul_committed it = ask(15, &txn, ROOM, &bytes);
    check(it.status == CAGZHOMUL_LEASE_ENDED && it.until == 15 && it.now == 15 && !it.place && !it.length && txn.is_open && !bytes.is_open && out[0] == 9, "the lease ends first");
    check(is_committed(ask((UINT64_C(1) << 62) + 1, &txn, ROOM, &bytes), CAGZHOMUL_MOMENT_TOO_LARGE, 0, 0) && txn.is_open && !bytes.is_open, "a moment above 2^62");
    check(cagzhomul_close_txn(&txn) == CAGZHOMUL_OK && cagzhomul_close_reads(&reads) == CAGZHOMUL_OK, "it is closed");
}

static void play_commits(void) {
    cagzhomul_lease_handle lease = {0};
    open_both();
    check(take_lease(&world, 5, &lease).status == CAGZHOMUL_OK, "a lease is granted");
    follow(1);
    propose(&lease, 5, two(INSERT, 1, INSERT, 3), 2);
    meet_conflicts(&lease);
    propose(&lease, 9, one(INSERT, 2, NULL), 4);
    propose(&lease, 3, two(DELETE, 3, UPDATE, 2), 5);
    rows_refuse(&lease, 9, one(INSERT, 1, "Ulm"), CAGZHOMUL_DUPLICATE, 0);
    rows_refuse(&lease, 9, two(UPDATE, 1, DELETE, 9), CAGZHOMUL_NO_ROW, 1);
    check(cagzhomul_close_lease(&lease) == CAGZHOMUL_OK, "the lease is closed");
    close_both();
}

/* ---- what is due */

static cagzhomul_advanced ask_due(uint64_t moment, uint32_t pieces, uint32_t limit, cagzhomul_bytes_handle *bytes) {
    cagzhomul_advanced it = cagzhomul_due_entry(&world, moment, pieces, limit, bytes);
    if (!is_short(it.status)) return it;
    check(it.until == 0 && !bytes->is_open, "nothing was told");
    return cagzhomul_due_entry(&world, moment, pieces, limit, bytes);
}

/* The entry that is due is asked for, and a fork advances; what the answer is, if there is none. */
static cagzhomul_advanced propose_due(uint64_t moment, uint32_t pieces, uint32_t limit) {
    cagzhomul_world_handle apart = {0};
    cagzhomul_bytes_handle bytes = {0};
    int was_ample = is_ample;
    is_ample = 1;
    text before = status_of(&world);
    fork_of(&world, &apart);
    cagzhomul_advanced due = cagzhomul_advance(&apart, moment, pieces, limit);
    is_ample = was_ample;
    cagzhomul_advanced it = ask_due(moment, pieces, limit, &bytes);
    check(it.status == due.status && it.until == due.until && bytes.is_open == (it.status == CAGZHOMUL_OK), "it answers what an advance does");
    if (it.status == CAGZHOMUL_OK) {
        text entry = bytes_of(&bytes);
        comes_to(&entry, &apart, cagzhomul_log_length(&apart).length, &before);
    }
    check(cagzhomul_close_world(&apart) == CAGZHOMUL_OK, "the fork is closed");
    return it;
}

/* Carries the changes under way to their end, by entries alone; how many there were. */
static long finish(uint64_t *moment, uint32_t pieces, uint32_t limit) {
    long entries = 0;
    for (int acts = 0; acts < 40 && !wrong; acts++) {
        cagzhomul_advanced it = propose_due(*moment, pieces, limit);
        if (it.status == CAGZHOMUL_FINISHED) return entries;
        check(it.status == CAGZHOMUL_OK || (it.status == CAGZHOMUL_WAITING && it.until > *moment), "an entry, or a wait");
        entries += it.status == CAGZHOMUL_OK;
        if (it.status == CAGZHOMUL_WAITING) *moment = it.until;
    }
    check(wrong, "the changes end");
    return entries;
}

/* An index enters a table of three rows, and a row is written on the way. */
static void play_due(void) {
    cagzhomul_lease_handle lease = {0};
    code enter = enter_code();
    uint64_t moment = 10;
    open_both();
    check(take_lease(&world, 5, &lease).status == CAGZHOMUL_OK, "a lease is granted");
    follow(1);
    propose(&lease, 5, two(INSERT, 1, INSERT, 3), 2);
    propose(&lease, 5, one(INSERT, 2, NULL), 3);
    check(propose_due(9, 1, 1).status == CAGZHOMUL_FINISHED, "no change is under way");
    cagzhomul_changed it = cagzhomul_publish(&world, moment, enter.bytes, enter.length);
    if (is_short(it.status)) it = cagzhomul_publish(&world, moment, enter.bytes, enter.length);
    check(it.status == CAGZHOMUL_OK, "an index enters");
    follow(4);
    cagzhomul_advanced wait = propose_due(moment, 2, 1);
    check(wait.status == CAGZHOMUL_WAITING && wait.until == 20, "its version is to be the newest for a lease length");
    propose(&lease, 14, one(UPDATE, 1, "Hof"), 5);
    check(finish(&moment, 2, 1) >= 6 && cagzhomul_log_length(&world).length >= 11, "two versions, a begin, and three rows in two pieces");
    int was_ample = is_ample;
    is_ample = 1;
    cagzhomul_checked audit = cagzhomul_check(&world), other = cagzhomul_check(&replica);
    check(audit.rows == 3 && !audit.missing && !audit.extra && other.rows == 3 && !other.missing && !other.extra, "no pair is missing");
    is_ample = was_ample;
    check(cagzhomul_close_lease(&lease) == CAGZHOMUL_OK, "the lease is closed");
    close_both();
}

/* ---- refusals */

static void look_at_refusals(void) {
    cagzhomul_world_handle other = {0}, none = {0};
    cagzhomul_lease_handle lease = {0}, strange = {0};
    cagzhomul_reads_handle reads = {0}, foreign = {0};
    cagzhomul_txn_handle txn = {0}, no_txn = {0}, odd = {0};
    cagzhomul_bytes_handle bytes = {0}, full = {0};
    code longer = opening_code(2 * LENGTH, "town"), enter = enter_code();
    const uint64_t too_large = (UINT64_C(1) << 62) + 1;
    open_both();
    check(cagzhomul_open(&other, longer.bytes, longer.length, CAGZHOMUL_ANY_JUMP) == CAGZHOMUL_OK, "a world with other leases");
    check(take_lease(&world, 5, &lease).status == CAGZHOMUL_OK && take_lease(&other, 5, &strange).status == CAGZHOMUL_OK, "leases");
    make_ready(&lease, one(INSERT, 1, "Ulm"), &reads, &txn), make_ready(&strange, one(INSERT, 1, "Ulm"), &foreign, &odd);
    check(cagzhomul_schema(&world, &full) == CAGZHOMUL_OK, "bytes");
    check(is_committed(ask(5, &txn, ROOM, &full), CAGZHOMUL_ALREADY_OPEN, 0, 0) && is_committed(ask(5, &no_txn, ROOM, &full), CAGZHOMUL_ALREADY_OPEN, 0, 0), "they are not overwritten");
    check(is_committed(cagzhomul_txn_entry(&none, 5, &txn, out, ROOM, &bytes), CAGZHOMUL_CLOSED, 0, 0) && is_committed(ask(5, &no_txn, ROOM, &bytes), CAGZHOMUL_CLOSED, 0, 0), "no world, no transaction");
    check(is_committed(ask(5, &odd, ROOM, &bytes), CAGZHOMUL_BAD_LEASE, 0, 0) && odd.is_open, "a lease of another world");
    check(is_committed(ask(too_large, &odd, ROOM, &bytes), CAGZHOMUL_MOMENT_TOO_LARGE, 0, 0) && odd.is_open && txn.is_open && !bytes.is_open, "a moment above 2^62");
    check(cagzhomul_publish(&world, 10, enter.bytes, enter.length).status == CAGZHOMUL_OK, "an index enters");
    check(cagzhomul_due_entry(&world, 20, 1, 1, &full).status == CAGZHOMUL_ALREADY_OPEN && cagzhomul_due_entry(&none, 20, 1, 1, &full).status == CAGZHOMUL_ALREADY_OPEN, "not over bytes");
    check(cagzhomul_due_entry(&none, 20, 0, 1, &bytes).status == CAGZHOMUL_CLOSED, "no world");
    check(cagzhomul_due_entry(&world, too_large, 0, 1, &bytes).status == CAGZHOMUL_BAD_COUNT && cagzhomul_due_entry(&world, 20, 65, 1, &bytes).status == CAGZHOMUL_BAD_COUNT, "pieces");
    check(cagzhomul_due_entry(&world, 20, 1, 0, &bytes).status == CAGZHOMUL_BAD_COUNT && cagzhomul_due_entry(&world, 20, 1, 1001, &bytes).status == CAGZHOMUL_BAD_COUNT, "limits");
    check(cagzhomul_due_entry(&world, too_large, 1, 1, &bytes).status == CAGZHOMUL_MOMENT_TOO_LARGE && !bytes.is_open, "a moment above 2^62");
    check(cagzhomul_log_length(&world).length == 2 && cagzhomul_close_bytes(&full) == CAGZHOMUL_OK, "nothing was added");
    check(is_committed(cagzhomul_commit(&world, 5, &txn, out, ROOM), CAGZHOMUL_OK, 3, 0), "the transaction is as it was");
    cagzhomul_close_txn(&odd), cagzhomul_close_reads(&foreign), cagzhomul_close_reads(&reads);
    cagzhomul_close_lease(&strange), cagzhomul_close_lease(&lease), cagzhomul_close_world(&other);
    close_both();
}

int main(void) {
    is_ample = 1;
    look_at_refusals();
    return refuse_each(play_commits) | refuse_each(play_due);
}
