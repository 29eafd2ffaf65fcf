/* What is reported of a refused transaction: when its lease ended and which moment counted, and the key of
   the pair of a conflict, which is read by cagzhomul_codes.h.
   Each allocation is refused in turn, one in each run: the call that met it answers
   CAGZHOMUL_OUT_OF_MEMORY, tells nothing, changed nothing, and is made again. All values are worked out by
   hand. It prints how many allocations were refused, and ends with 0 if all was as include/cagzhomul.h
   says. */
#include "calls.h"
#include "cagzhomul_codes.h"
#include "codes.h"

enum { ROOM = 64 };

/* How long the keys of pairs of rows of people are. */
static const size_t KEY = 18;

/* The bytes that a call may write to; it is given how many it may. Those that nothing was written to are 9. */
static uint8_t out[ROOM];

static void clear_out(void) { memset(out, 9, ROOM); }

/* Whether nothing was written from this byte on. */
static int is_clear(size_t from) {
    for (size_t at = from; at < ROOM; at++)
        if (out[at] != 9) return 0;
    return 1;
}

static int is_detailed(cagzhomul_committed it, int32_t status, uint32_t column, uint64_t place, size_t operation) {
    return it.status == status && it.column == column && it.place == place && it.operation == operation;
}

/* Whether it says no more than these, and wrote nothing. */
static int is_alone(cagzhomul_committed it, int32_t status, uint32_t column, uint64_t place, size_t operation) {
    return is_detailed(it, status, column, place, operation) && it.until == 0 && it.now == 0 && it.length == 0 && is_clear(0);
}

static int is_ended(cagzhomul_committed it, uint64_t until, uint64_t now) {
    return is_detailed(it, CAGZHOMUL_LEASE_ENDED, 0, 0, 0) && it.until == until && it.now == now && it.length == 0 && is_clear(0);
}

/* Whether it is a conflict on a pair of the row of this id in people, for which there was so much room: the pair of this column, or for 0
   that which says that the row is there. */
static int is_conflict(cagzhomul_committed it, size_t room, int64_t id, uint32_t column) {
    code due = {{'R'}, 1};
    put_number(&due, PEOPLE, 4), put_int(&due, id), put_number(&due, column, 4);
    size_t fits = room < KEY ? room : KEY;
    return due.length == KEY && is_detailed(it, CAGZHOMUL_CONFLICT, 0, 0, 0) && it.until == 0 && it.now == 0 && it.length == KEY
        && !memcmp(out, due.bytes, fits) && is_clear(fits);
}

/* The same by the header for codes. */
static int reads(int64_t id, uint32_t column) {
    cagzhomul_reader it = cagzhomul_read_from(out, KEY);
    int is_row = cagzhomul_get_byte(&it) == 'R' && cagzhomul_get_u32(&it) == PEOPLE;
    cagzhomul_value value = cagzhomul_get_value(&it);
    return is_row && value.kind == CAGZHOMUL_INT && value.number == id && cagzhomul_get_u32(&it) == column && cagzhomul_is_over(&it);
}

static cagzhomul_committed commits(cagzhomul_world_handle *world, uint64_t moment, cagzhomul_txn_handle *txn, size_t room) {
    clear_out();
    cagzhomul_committed it = cagzhomul_commit(world, moment, txn, out, room);
    if (!is_short(it.status)) return it;
    check(is_alone(it, CAGZHOMUL_OUT_OF_MEMORY, 0, 0, 0) && txn->is_open, "nothing was committed or reported");
    return cagzhomul_commit(world, moment, txn, out, room);
}

static cagzhomul_committed writes(cagzhomul_world_handle *world, uint64_t moment, cagzhomul_lease_handle *lease, code ops) {
    clear_out();
    cagzhomul_committed it = cagzhomul_write(world, moment, lease, ops.bytes, ops.length);
    if (!is_short(it.status)) return it;
    check(is_alone(it, CAGZHOMUL_OUT_OF_MEMORY, 0, 0, 0) && lease->is_open, "nothing was written or reported");
    return cagzhomul_write(world, moment, lease, ops.bytes, ops.length);
}

static code one(uint8_t kind, int64_t id, const char *town) {
    code ops = ops_code(1);
    put_op(&ops, kind, PEOPLE, id, TOWN, town);
    return ops;
}

static code two(uint8_t first, int64_t id, uint8_t second, int64_t other) {
    code ops = ops_code(2);
    put_op(&ops, first, PEOPLE, id, TOWN, "Ulm"), put_op(&ops, second, PEOPLE, other, TOWN, "Ulm");
    return ops;
}

static void take_lease(cagzhomul_world_handle *world, uint64_t moment, cagzhomul_lease_handle *lease) {
    cagzhomul_granted it = cagzhomul_lease(world, moment, lease);
    if (is_short(it.status)) it = cagzhomul_lease(world, moment, lease);
    check(it.status == CAGZHOMUL_OK && it.until == moment + 10, "a lease of ten moments");
}

static void open_people(cagzhomul_world_handle *world, uint64_t lease_length) {
    code opening = opening_code(lease_length, "town");
    int32_t status = cagzhomul_open(world, opening.bytes, opening.length, CAGZHOMUL_ANY_JUMP);
    if (is_short(status)) status = cagzhomul_open(world, opening.bytes, opening.length, CAGZHOMUL_ANY_JUMP);
    check(status == CAGZHOMUL_OK, "tables are opened");
}

/* Reads and prepares a transaction. */
static void make_ready(cagzhomul_world_handle *world, cagzhomul_lease_handle *lease, code ops, cagzhomul_txn_handle *txn) {
    cagzhomul_reads_handle reads = {0};
    int32_t status = cagzhomul_read(world, lease, ops.bytes, ops.length, &reads);
    if (is_short(status)) status = cagzhomul_read(world, lease, ops.bytes, ops.length, &reads);
    cagzhomul_prepared it = cagzhomul_prepare(&reads, txn);
    if (is_short(it.status)) it = cagzhomul_prepare(&reads, txn);
    check(status == CAGZHOMUL_OK && it.status == CAGZHOMUL_OK && cagzhomul_close_reads(&reads) == CAGZHOMUL_OK, "a transaction is prepared");
}

/* Rows 1 and 3 are there, and 2 is not. Each transaction is prepared, and then another call writes. */
static void tell_conflicts(cagzhomul_world_handle *world, cagzhomul_lease_handle *lease) {
    cagzhomul_txn_handle txn = {0}, other = {0};
    make_ready(world, lease, one(UPDATE, 1, "Hof"), &txn);
    check(is_alone(writes(world, 8, lease, one(UPDATE, 1, "Bonn")), CAGZHOMUL_OK, 0, 3, 0), "row 1 goes to Bonn");
    check(is_conflict(commits(world, 8, &txn, ROOM), ROOM, 1, TOWN) && reads(1, TOWN), "its town has changed");
    for (size_t room = 0; room <= KEY; room++) check(is_conflict(commits(world, 8, &txn, room), room, 1, TOWN), "a part of the key");
    check(is_ended(commits(world, 15, &txn, ROOM), 15, 15) && is_ended(commits(world, 17, &txn, 0), 15, 17), "the lease ends first");
    check(is_alone(commits(world, (UINT64_C(1) << 62) + 1, &txn, ROOM), CAGZHOMUL_MOMENT_TOO_LARGE, 0, 0, 0), "a moment above 2^62");
    check(txn.is_open && cagzhomul_close_txn(&txn) == CAGZHOMUL_OK, "it stays, and is closed");
    make_ready(world, lease, two(UPDATE, 3, UPDATE, 1), &txn), make_ready(world, lease, two(DELETE, 2, UPDATE, 3), &other);
    check(is_alone(writes(world, 8, lease, one(DELETE, 3, NULL)), CAGZHOMUL_OK, 0, 4, 0), "row 3 goes");
    check(is_conflict(commits(world, 8, &txn, ROOM), ROOM, 3, 0) && reads(3, 0), "of its pairs, that it is there is the least");
    check(is_alone(writes(world, 8, lease, one(INSERT, 2, "Hof")), CAGZHOMUL_OK, 0, 5, 0), "row 2 comes");
    check(is_conflict(commits(world, 8, &other, ROOM), ROOM, 2, 0), "which is less than row 3, though the rows refused it, too");
    check(cagzhomul_close_txn(&txn) == CAGZHOMUL_OK && cagzhomul_close_txn(&other) == CAGZHOMUL_OK, "both stay, and are closed");
}

/* After another lease the log's last entry is of moment 20, and a call at an earlier one is of that. */
static void tell_ends(cagzhomul_world_handle *world, cagzhomul_lease_handle *lease) {
    cagzhomul_lease_handle later = {0};
    cagzhomul_txn_handle txn = {0};
    make_ready(world, lease, one(UPDATE, 1, "Hof"), &txn);
    check(is_ended(writes(world, 15, lease, one(UPDATE, 1, "Hof")), 15, 15), "it is in force before 15");
    take_lease(world, 20, &later);
    check(is_ended(commits(world, 6, &txn, ROOM), 15, 20) && is_ended(commits(world, 21, &txn, ROOM), 15, 21), "the greater moment counts");
    check(is_ended(writes(world, 6, lease, one(UPDATE, 1, "Hof")), 15, 20) && is_ended(writes(world, 21, lease, one(UPDATE, 1, "Hof")), 15, 21), "here, too");
    check(txn.is_open && cagzhomul_close_txn(&txn) == CAGZHOMUL_OK, "it stays, and is closed");
    make_ready(world, &later, one(INSERT, 1, "Ulm"), &txn);
    check(is_alone(commits(world, 20, &txn, ROOM), CAGZHOMUL_DUPLICATE, 0, 0, 0) && !txn.is_open, "row 1 is there");
    make_ready(world, &later, two(UPDATE, 1, DELETE, 9), &txn);
    check(is_alone(commits(world, 20, &txn, ROOM), CAGZHOMUL_NO_ROW, 0, 0, 1) && !txn.is_open, "row 9 is not");
    make_ready(world, &later, one(UPDATE, 1, "Ulm"), &txn);
    check(is_alone(commits(world, 20, &txn, ROOM), CAGZHOMUL_OK, 0, 7, 0) && !txn.is_open, "row 1 goes to Ulm by entry 7");
    check(cagzhomul_close_lease(&later) == CAGZHOMUL_OK, "the lease is closed");
}

static void play(void) {
    cagzhomul_world_handle world = {0};
    cagzhomul_lease_handle lease = {0};
    open_people(&world, 10), take_lease(&world, 5, &lease);
    check(is_alone(writes(&world, 5, &lease, two(INSERT, 1, INSERT, 3)), CAGZHOMUL_OK, 0, 2, 0), "two rows are entry 2");
    check(is_alone(writes(&world, 5, &lease, one(INSERT, 1, "Hof")), CAGZHOMUL_DUPLICATE, 0, 0, 0), "row 1 is there");
    check(is_alone(writes(&world, 5, &lease, two(UPDATE, 1, DELETE, 2)), CAGZHOMUL_NO_ROW, 0, 0, 1), "row 2 is not");
    tell_conflicts(&world, &lease);
    tell_ends(&world, &lease);
    check(cagzhomul_close_lease(&lease) == CAGZHOMUL_OK && cagzhomul_close_world(&world) == CAGZHOMUL_OK, "both are closed");
}

/* Refusals of closed handles, and of operations with a fault: a status, and of a column its number. */
static void look_at_refusals(void) {
    cagzhomul_world_handle world = {0}, other = {0};
    cagzhomul_lease_handle lease = {0}, strange = {0};
    cagzhomul_txn_handle txn = {0};
    code ops = one(INSERT, 1, "Ulm"), part = ops, bad = ops_code(1);
    part.length--, put_op(&bad, INSERT, PEOPLE, 1, 9, "Ulm");
    check(is_alone(commits(&world, 5, &txn, ROOM), CAGZHOMUL_CLOSED, 0, 0, 0) && is_alone(writes(&world, 5, &lease, ops), CAGZHOMUL_CLOSED, 0, 0, 0), "a closed world");
    open_people(&world, 10), open_people(&other, 20), take_lease(&world, 5, &lease);
    check(cagzhomul_lease(&other, 5, &strange).status == CAGZHOMUL_OK, "a lease of another world");
    check(is_alone(commits(&world, 5, &txn, ROOM), CAGZHOMUL_CLOSED, 0, 0, 0), "nothing to commit");
    make_ready(&world, &strange, ops, &txn);
    check(is_alone(commits(&world, 5, &txn, ROOM), CAGZHOMUL_BAD_LEASE, 0, 0, 0) && txn.is_open, "its lease is none of this one");
    check(cagzhomul_close_world(&other) == CAGZHOMUL_OK && is_alone(commits(&other, 5, &txn, ROOM), CAGZHOMUL_CLOSED, 0, 0, 0) && txn.is_open, "no world to commit to");
    check(is_alone(writes(&other, 5, &lease, ops), CAGZHOMUL_CLOSED, 0, 0, 0), "nor to write to");
    check(is_alone(writes(&world, 5, &lease, part), CAGZHOMUL_BAD_CODE, 0, 0, 0) && is_alone(writes(&world, 5, &lease, bad), CAGZHOMUL_NOT_PUBLIC, 9, 0, 0), "operations");
    check(is_alone(writes(&world, 5, &strange, ops), CAGZHOMUL_BAD_LEASE, 0, 0, 0), "it is none of this one");
    check(cagzhomul_close_lease(&strange) == CAGZHOMUL_OK && is_alone(writes(&world, 5, &strange, ops), CAGZHOMUL_CLOSED, 0, 0, 0), "no lease");
    cagzhomul_close_txn(&txn), cagzhomul_close_lease(&lease), cagzhomul_close_world(&world);
}

int main(void) {
    is_ample = 1;
    look_at_refusals();
    return refuse_each(play);
}
