/* An operator and a writer by typed calls: plans an index, publishes the plan's steps, fills the index piece by piece
   while rows are written, each in one call, and tells how far it is.
   Each allocation is refused in turn, one in each run: the call that met it answers CAGZHOMUL_OUT_OF_MEMORY, changed
   nothing, and is made again. All values are worked out by hand. It prints how many allocations were refused, and ends
   with 0 if all was as include/cagzhomul.h says. */
#include "calls.h"
#include "codes.h"

enum { ROOM = 512, BY_TOWN = 2 };

static const uint64_t TOO_LARGE = (UINT64_C(1) << 62) + 1;

static code one(uint8_t kind, int64_t id, const char *town) {
    code ops = ops_code(1);
    put_op(&ops, kind, PEOPLE, id, TOWN, town);
    return ops;
}

static void open_people(cagzhomul_world_handle *world, uint64_t lease_length) {
    code opening = opening_code(lease_length, "town");
    int32_t status = cagzhomul_open(world, opening.bytes, opening.length, CAGZHOMUL_ANY_JUMP);
    if (is_short(status)) status = cagzhomul_open(world, opening.bytes, opening.length, CAGZHOMUL_ANY_JUMP);
    check(status == CAGZHOMUL_OK, "tables are opened");
}

static void take_lease(cagzhomul_world_handle *world, uint64_t moment, cagzhomul_lease_handle *lease) {
    int32_t status = cagzhomul_lease(world, moment, lease).status;
    if (is_short(status)) status = cagzhomul_lease(world, moment, lease).status;
    check(status == CAGZHOMUL_OK, "a lease is granted");
}

/* Whether a transaction in one call comes to this. */
static int writes(cagzhomul_world_handle *world, uint64_t moment, cagzhomul_lease_handle *lease, code ops, int32_t status, uint64_t number) {
    cagzhomul_committed it = cagzhomul_write(world, moment, lease, ops.bytes, ops.length);
    if (is_short(it.status)) {
        check(it.column == 0 && it.place == 0 && it.operation == 0 && it.until == 0 && it.now == 0 && it.length == 0, "nothing was written");
        it = cagzhomul_write(world, moment, lease, ops.bytes, ops.length);
    }
    uint64_t column = status == CAGZHOMUL_NOT_PUBLIC ? number : 0, place = status == CAGZHOMUL_OK ? number : 0;
    return it.status == status && it.column == column && it.place == place && it.operation == number - column - place;
}

static int publishes(cagzhomul_world_handle *world, uint64_t moment, const uint8_t *step, size_t length, uint64_t version) {
    cagzhomul_changed it = cagzhomul_publish(world, moment, step, length);
    if (is_short(it.status)) it = cagzhomul_publish(world, moment, step, length);
    return it.status == CAGZHOMUL_OK && it.number == version;
}

static cagzhomul_outcome plan(cagzhomul_world_handle *world, const code *changes, uint8_t *out, size_t length) {
    cagzhomul_outcome it = cagzhomul_plan(world, changes->bytes, changes->length, out, length);
    return is_short(it.status) ? cagzhomul_plan(world, changes->bytes, changes->length, out, length) : it;
}

static int32_t read_piece(cagzhomul_world_handle *world, uint32_t element, uint32_t piece, uint32_t limit, cagzhomul_piece_handle *work) {
    int32_t status = cagzhomul_read_piece(world, element, piece, limit, work);
    if (!is_short(status)) return status;
    check(!work->is_open, "nothing was read");
    return cagzhomul_read_piece(world, element, piece, limit, work);
}

static int32_t prepare_piece(cagzhomul_piece_handle *work, cagzhomul_prepared_piece_handle *prepared) {
    int32_t status = cagzhomul_prepare_piece(work, prepared);
    if (is_short(status)) {
        check(work->is_open && !prepared->is_open, "nothing was prepared");
        status = cagzhomul_prepare_piece(work, prepared);
    }
    check(status != CAGZHOMUL_OK || (!work->is_open && prepared->is_open), "what was read is prepared");
    return status;
}

static int commits(cagzhomul_world_handle *world, uint64_t moment, cagzhomul_prepared_piece_handle *prepared, int32_t status, bool ended, uint64_t place) {
    cagzhomul_pieced it = cagzhomul_commit_piece(world, moment, prepared);
    if (is_short(it.status)) {
        check(!it.ended && it.place == 0 && prepared->is_open, "nothing was committed");
        it = cagzhomul_commit_piece(world, moment, prepared);
    }
    return it.status == status && it.ended == ended && it.place == place;
}

static int is_far(cagzhomul_world_handle *world, uint32_t element, int32_t status, bool ended, uint64_t left, uint64_t all) {
    cagzhomul_progressed it = cagzhomul_progress(world, element);
    return it.status == status && it.ended == ended && it.next == 0 && it.left == left && it.all == all;
}

static int stands(cagzhomul_world_handle *world, const char *wanted) {
    uint8_t out[ROOM] = {0};
    size_t length = strlen(wanted);
    cagzhomul_outcome it = cagzhomul_status(world, out, length);
    if (is_short(it.status)) it = cagzhomul_status(world, out, length);
    return it.status == CAGZHOMUL_OK && it.length == length && !memcmp(out, wanted, length) && out[length] == 0;
}

/* The code of the plan that adds by_town: delete-only, write-only, and public after its fill. */
static code planned_code(void) {
    code it = {{1}, 1};
    put_number(&it, 3, 8);
    put_number(&it, 0, 8), put_number(&it, 1, 8), put_enter(&it);
    put_number(&it, 0, 8), put_number(&it, 1, 8), put_go(&it, BY_TOWN, WRITE_ONLY);
    put_number(&it, 1, 8), put_byte(&it, 0), put_number(&it, BY_TOWN, 4);
    put_number(&it, 1, 8), put_go(&it, BY_TOWN, PUBLIC);
    return it;
}

static void plan_the_index(cagzhomul_world_handle *world) {
    uint8_t out[ROOM] = {0}, few[4] = {9, 9, 9, 9};
    code changes = changes_code(1), due = planned_code();
    put_add_index(&changes, "by_town", "town");
    cagzhomul_outcome it = plan(world, &changes, out, ROOM), part = plan(world, &changes, few, 3);
    check(it.status == CAGZHOMUL_OK && it.length == due.length && !memcmp(out, due.bytes, due.length) && out[due.length] == 0, "the plan has three steps");
    check(part.status == CAGZHOMUL_OK && part.length == due.length && !memcmp(few, due.bytes, 3) && few[3] == 9, "three bytes of it");
    changes = changes_code(0);
    it = plan(world, &changes, out, ROOM);
    check(it.status == CAGZHOMUL_OK && it.length == 9 && out[0] == 1 && out[8] == 0, "no change needs no step");
}

static int is_unplanned(cagzhomul_world_handle *world, code changes, int32_t status) {
    uint8_t out[2] = {9, 9};
    cagzhomul_outcome it = plan(world, &changes, out, 2);
    return it.status == status && it.length == 0 && out[0] == 9 && out[1] == 9;
}

static code named(uint8_t kind, const char *name) {
    code it = changes_code(1);
    put_named(&it, kind, name);
    return it;
}

/* The index under way has two steps behind it: it is write-only. */
static void look_at_plans(cagzhomul_world_handle *world) {
    code changes = changes_code(1);
    put_add_index(&changes, "by_name", "name");
    check(is_unplanned(world, changes, CAGZHOMUL_UNKNOWN), "there is no column name");
    for (size_t length = 0; length < changes.length; length++) {
        code part = changes;
        part.length = length;
        check(is_unplanned(world, part, CAGZHOMUL_BAD_CODE), "a part is no batch");
    }
    put_byte(&changes, 0);
    check(is_unplanned(world, changes, CAGZHOMUL_BAD_CODE), "nor is more");
    changes = changes_code(1), put_add_index(&changes, "town", "town");
    check(is_unplanned(world, changes, CAGZHOMUL_NAME_TAKEN), "town is a column");
    check(is_unplanned(world, named(DROP_COLUMN, "town"), CAGZHOMUL_DEPENDENT), "an index is on it");
    check(is_unplanned(world, named(DROP_INDEX, "by_town"), CAGZHOMUL_IN_CHANGE), "the index is under way");
    changes = changes_code(1), put_add_index(&changes, "a_name_of_more_than_thirty_two_bytes", "town");
    check(is_unplanned(world, changes, CAGZHOMUL_OVER_LIMIT), "the name is too long");
}

/* Rows are written in one call each, and by_town enters until its fill has begun, in so many pieces. */
static void begin_the_fill(cagzhomul_world_handle *world, cagzhomul_lease_handle *lease, uint32_t pieces) {
    code enter = enter_code(), write_only = go_code(BY_TOWN, WRITE_ONLY);
    take_lease(world, 5, lease);
    check(writes(world, 5, lease, one(INSERT, 1, "Ulm"), CAGZHOMUL_OK, 2), "row 1 is entry 2");
    check(writes(world, 5, lease, one(INSERT, 2, "Bonn"), CAGZHOMUL_OK, 3), "row 2 is entry 3");
    check(writes(world, 5, lease, one(INSERT, 3, NULL), CAGZHOMUL_OK, 4), "row 3 is entry 4");
    plan_the_index(world);
    check(is_far(world, BY_TOWN, CAGZHOMUL_NOT_WANTED, false, 0, 0), "nothing has begun");
    check(publishes(world, 10, enter.bytes, enter.length, 2), "version 2 has the index");
    check(publishes(world, 20, write_only.bytes, write_only.length, 3), "version 3 writes it");
    cagzhomul_changed it = cagzhomul_begin_reorg(world, 30, BY_TOWN, pieces);
    if (is_short(it.status)) it = cagzhomul_begin_reorg(world, 30, BY_TOWN, pieces);
    check(it.status == CAGZHOMUL_OK && it.number == 7, "the fill is entry 7");
    cagzhomul_close_lease(lease);
    take_lease(world, 30, lease);
}

/* Two readings of the piece, of which one goes on, and a row that changes under a third. */
static void fill_the_index(cagzhomul_world_handle *world, cagzhomul_lease_handle *lease) {
    cagzhomul_piece_handle work = {0}, other = {0};
    cagzhomul_prepared_piece_handle first = {0}, late = {0};
    check(is_far(world, BY_TOWN, CAGZHOMUL_OK, false, 3, 3), "three rows are left");
    check(read_piece(world, BY_TOWN, 0, 2, &work) == CAGZHOMUL_OK && read_piece(world, BY_TOWN, 0, 1, &other) == CAGZHOMUL_OK, "two readings");
    check(commits(world, 30, &first, CAGZHOMUL_CLOSED, false, 0) && work.is_open, "it is to be prepared first");
    check(prepare_piece(&work, &first) == CAGZHOMUL_OK && cagzhomul_prepare_piece(&other, &first) == CAGZHOMUL_ALREADY_OPEN, "one is prepared");
    check(other.is_open && prepare_piece(&other, &late) == CAGZHOMUL_OK, "and then the other");
    check(cagzhomul_prepare_piece(&work, &late) == CAGZHOMUL_ALREADY_OPEN, "once");
    check(commits(world, TOO_LARGE, &first, CAGZHOMUL_MOMENT_TOO_LARGE, false, 0) && first.is_open, "a moment above 2^62");
    check(commits(world, 30, &first, CAGZHOMUL_OK, false, 9) && !first.is_open, "two rows are entry 9");
    check(cagzhomul_prepare_piece(&work, &first) == CAGZHOMUL_CLOSED && !first.is_open, "nothing is left to prepare");
    check(is_far(world, BY_TOWN, CAGZHOMUL_OK, false, 1, 3), "one row is left");
    check(commits(world, 30, &late, CAGZHOMUL_MOVED, false, 0) && late.is_open, "the piece has moved");
    check(cagzhomul_close_prepared_piece(&late) == CAGZHOMUL_OK && read_piece(world, BY_TOWN, 0, 1000, &work) == CAGZHOMUL_OK, "it is read again");
    check(prepare_piece(&work, &late) == CAGZHOMUL_OK, "it is prepared");
    check(writes(world, 31, lease, one(UPDATE, 3, "Hof"), CAGZHOMUL_OK, 10), "row 3 moves to Hof");
    check(commits(world, 31, &late, CAGZHOMUL_CONFLICT, false, 0) && late.is_open, "which the piece has read");
    check(cagzhomul_close_prepared_piece(&late) == CAGZHOMUL_OK && read_piece(world, BY_TOWN, 0, 1000, &work) == CAGZHOMUL_OK, "it is read again");
    check(prepare_piece(&work, &late) == CAGZHOMUL_OK && commits(world, 31, &late, CAGZHOMUL_OK, true, 11) && !late.is_open, "the rest is entry 11");
    check(is_far(world, BY_TOWN, CAGZHOMUL_OK, true, 0, 3), "all pieces have ended");
    check(read_piece(world, BY_TOWN, 0, 1, &work) == CAGZHOMUL_SPENT && !work.is_open, "nothing is left to read");
}

/* A piece of another world's reorganisation, which has other bounds. */
static void look_at_strangers(cagzhomul_world_handle *world) {
    cagzhomul_world_handle other = {0};
    cagzhomul_lease_handle lease = {0};
    cagzhomul_piece_handle work = {0};
    cagzhomul_prepared_piece_handle prepared = {0};
    open_people(&other, 10);
    begin_the_fill(&other, &lease, 3);
    check(read_piece(&other, BY_TOWN, 1, 1, &work) == CAGZHOMUL_OK && prepare_piece(&work, &prepared) == CAGZHOMUL_OK, "its second piece");
    check(commits(world, 30, &prepared, CAGZHOMUL_WRONG_ELEMENT, false, 0) && prepared.is_open, "there is one piece");
    cagzhomul_close_prepared_piece(&prepared), cagzhomul_close_lease(&lease), cagzhomul_close_world(&other);
}

static void play(void) {
    cagzhomul_world_handle world = {0};
    cagzhomul_lease_handle lease = {0};
    cagzhomul_piece_handle work = {0};
    cagzhomul_prepared_piece_handle late = {0};
    code public = go_code(BY_TOWN, PUBLIC);
    open_people(&world, 10);
    check(stands(&world, "{\"elements\":[{\"name\":\"town\",\"number\":1,\"state\":\"public\",\"table\":\"people\",\"way\":\"adding\"}],\"log\":0,\"moment\":0,\"usable\":[1],\"version\":1}"), "a world at its start");
    begin_the_fill(&world, &lease, 1);
    look_at_plans(&world);
    look_at_strangers(&world);
    check(read_piece(&world, BY_TOWN, 0, 1, &work) == CAGZHOMUL_OK && prepare_piece(&work, &late) == CAGZHOMUL_OK, "a reading that stays");
    fill_the_index(&world, &lease);
    check(publishes(&world, 31, public.bytes, public.length, 4), "version 4 reads it");
    check(commits(&world, 31, &late, CAGZHOMUL_NOT_WANTED, false, 0) && late.is_open, "no fill is under way");
    check(is_far(&world, BY_TOWN, CAGZHOMUL_NOT_WANTED, false, 0, 0), "the fill is over");
    check(read_piece(&world, BY_TOWN, 0, 1, &work) == CAGZHOMUL_NOT_WANTED && !work.is_open, "no piece is left");
    check(stands(&world, "{\"elements\":[{\"name\":\"town\",\"number\":1,\"state\":\"public\",\"table\":\"people\",\"way\":\"adding\"},{\"name\":\"by_town\",\"number\":2,\"state\":\"public\",\"table\":\"people\",\"way\":\"adding\"}],\"log\":12,\"moment\":31,\"usable\":[3,4],\"version\":4}"), "the index is public");
    cagzhomul_checked it = cagzhomul_check(&world);
    if (is_short(it.status)) it = cagzhomul_check(&world);
    check(it.status == CAGZHOMUL_OK && it.rows == 3 && it.missing == 0 && it.extra == 0, "no pair is missing");
    cagzhomul_close_prepared_piece(&late), cagzhomul_close_lease(&lease), cagzhomul_close_world(&world);
}

/* Transactions in one call that are refused. */
static void look_at_writes(void) {
    cagzhomul_world_handle world = {0}, other = {0}, blank = {0};
    cagzhomul_lease_handle lease = {0}, strange = {0};
    code ops = one(INSERT, 1, "Ulm");
    check(writes(&world, 5, &lease, ops, CAGZHOMUL_CLOSED, 0), "a closed world");
    open_people(&world, 10), open_people(&other, 20);
    check(writes(&world, 5, &lease, ops, CAGZHOMUL_CLOSED, 0), "a closed lease");
    take_lease(&world, 5, &lease), take_lease(&other, 5, &strange);
    check(writes(&blank, 5, &lease, ops, CAGZHOMUL_CLOSED, 0), "no world");
    for (size_t length = 0; length < ops.length; length++) {
        code part = ops;
        part.length = length;
        check(writes(&world, 5, &lease, part, CAGZHOMUL_BAD_CODE, 0), "a part is no operations");
    }
    code bad = ops_code(1);
    put_op(&bad, INSERT, 7, 1, TOWN, "Ulm");
    check(writes(&world, 5, &lease, bad, CAGZHOMUL_NO_TABLE, 0), "no such table");
    bad = ops_code(1), put_op(&bad, INSERT, PEOPLE, 1, 9, "Ulm");
    check(writes(&world, 5, &lease, bad, CAGZHOMUL_NOT_PUBLIC, 9), "no such column");
    bad = ops_code(1), put_byte(&bad, DELETE), put_number(&bad, PEOPLE, 4), put_number(&bad, 1, 8), put_text(&bad, "a");
    check(writes(&world, 5, &lease, bad, CAGZHOMUL_WRONG_TYPE, 0), "a text in place of a number");
    check(writes(&world, TOO_LARGE, &lease, ops, CAGZHOMUL_MOMENT_TOO_LARGE, 0), "a moment above 2^62");
    check(writes(&world, 5, &strange, ops, CAGZHOMUL_BAD_LEASE, 0) && writes(&world, 15, &lease, ops, CAGZHOMUL_LEASE_ENDED, 0), "leases");
    bad = ops_code(2), put_op(&bad, INSERT, PEOPLE, 1, TOWN, "Ulm"), put_op(&bad, DELETE, PEOPLE, 2, 0, NULL);
    check(writes(&world, 5, &lease, bad, CAGZHOMUL_NO_ROW, 1), "row 2 is not there");
    check(writes(&world, 5, &lease, ops, CAGZHOMUL_OK, 2) && writes(&world, 5, &lease, ops, CAGZHOMUL_DUPLICATE, 0), "row 1 is entry 2, and is there");
    cagzhomul_outcome it = cagzhomul_log_length(&world);
    check(it.status == CAGZHOMUL_OK && it.length == 2, "there are two entries");
    cagzhomul_close_lease(&strange), cagzhomul_close_lease(&lease), cagzhomul_close_world(&other), cagzhomul_close_world(&world);
}

/* The calls of an operator on a world that is closed. */
static void are_refused(cagzhomul_world_handle *world) {
    cagzhomul_piece_handle work = {0};
    uint8_t out[ROOM] = {0};
    code changes = changes_code(0);
    cagzhomul_outcome planned = cagzhomul_plan(world, changes.bytes, changes.length, out, ROOM), told = cagzhomul_status(world, out, ROOM);
    check(planned.status == CAGZHOMUL_CLOSED && planned.length == 0 && told.status == CAGZHOMUL_CLOSED && told.length == 0 && out[0] == 0, "no plan, no status");
    check(cagzhomul_read_piece(world, 1, 0, 1, &work) == CAGZHOMUL_CLOSED && !work.is_open, "no piece");
    check(is_far(world, 1, CAGZHOMUL_CLOSED, false, 0, 0), "no progress");
}

/* Calls on handles that are closed or open, and of pieces and limits that are none. */
static void look_at_refusals(void) {
    cagzhomul_world_handle world = {0}, none = {0};
    cagzhomul_lease_handle lease = {0};
    cagzhomul_piece_handle work = {0};
    cagzhomul_prepared_piece_handle prepared = {0}, nothing = {0};
    are_refused(&world);
    open_people(&world, 10);
    begin_the_fill(&world, &lease, 1);
    check(cagzhomul_read_piece(&world, 1, 0, 1, &work) == CAGZHOMUL_NOT_WANTED, "a public column has no pieces");
    check(cagzhomul_read_piece(&world, BY_TOWN, 1, 1, &work) == CAGZHOMUL_BAD_PIECE, "there is one piece");
    check(cagzhomul_read_piece(&world, BY_TOWN, 0, 0, &work) == CAGZHOMUL_BAD_COUNT && cagzhomul_read_piece(&world, BY_TOWN, 0, 1001, &work) == CAGZHOMUL_BAD_COUNT, "limits");
    check(!work.is_open && cagzhomul_prepare_piece(&work, &prepared) == CAGZHOMUL_CLOSED && !prepared.is_open, "no piece to prepare");
    check(read_piece(&world, BY_TOWN, 0, 1, &work) == CAGZHOMUL_OK && cagzhomul_read_piece(&world, BY_TOWN, 0, 1, &work) == CAGZHOMUL_ALREADY_OPEN, "a piece is not read over");
    check(cagzhomul_read_piece(&none, BY_TOWN, 0, 1, &work) == CAGZHOMUL_ALREADY_OPEN && prepare_piece(&work, &prepared) == CAGZHOMUL_OK, "it is prepared");
    check(cagzhomul_prepare_piece(&work, &prepared) == CAGZHOMUL_ALREADY_OPEN && prepared.is_open, "nor prepared over");
    check(commits(&none, 30, &prepared, CAGZHOMUL_CLOSED, false, 0) && prepared.is_open, "no world");
    check(commits(&none, 30, &nothing, CAGZHOMUL_CLOSED, false, 0) && commits(&world, 30, &nothing, CAGZHOMUL_CLOSED, false, 0), "no piece to commit");
    check(commits(&world, 30, &prepared, CAGZHOMUL_OK, false, 9) && commits(&world, 30, &prepared, CAGZHOMUL_CLOSED, false, 0), "it is committed once");
    check(read_piece(&world, BY_TOWN, 0, 1, &work) == CAGZHOMUL_OK && cagzhomul_close_piece(&work) == CAGZHOMUL_OK, "what was read is closed");
    check(cagzhomul_close_piece(&work) == CAGZHOMUL_CLOSED && cagzhomul_close_prepared_piece(&prepared) == CAGZHOMUL_CLOSED, "and not twice");
    cagzhomul_close_lease(&lease), cagzhomul_close_world(&world);
}

int main(void) {
    is_ample = 1;
    look_at_writes();
    look_at_refusals();
    return refuse_each(play);
}
