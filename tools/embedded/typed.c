/* One writer by typed calls: opens tables, takes a lease, commits transactions, meets a conflict and
   refusals by the rows, looks at the result by queries and by lines in the same world, and lets an
   index enter, which then serves queries. Another one queries what its transactions read, and
   changes rows by what they hold.
   Each allocation is refused in turn, one in each run: the call that met it answers
   CAGZHOMUL_OUT_OF_MEMORY, changed nothing, and is made again. All values are worked out by hand. It prints how many allocations were refused, and ends with 0 if all was as
   include/cagzhomul.h says. */
#include "calls.h"
#include "codes.h"
#include "talk.h"

enum { ROOM = 512 };

/* Whether the line has this reply; memory is ample for it. */
static int replies(talk *with, const char *line, const char *wanted) {
    uint8_t out[ROOM];
    int was_ample = is_ample;
    is_ample = 1;
    cagzhomul_outcome it = say(with, line, out, ROOM);
    is_ample = was_ample;
    return it.status == CAGZHOMUL_OK && it.length == strlen(wanted) && !memcmp(out, wanted, it.length);
}

static int is_lease(cagzhomul_granted it, int32_t status, uint64_t version, uint64_t granted, uint64_t until, uint64_t place) {
    return it.status == status && it.version == version && it.granted == granted && it.until == until && it.place == place;
}

static cagzhomul_granted take_lease(cagzhomul_world_handle *world, uint64_t moment, cagzhomul_lease_handle *lease) {
    cagzhomul_granted it = cagzhomul_lease(world, moment, lease);
    if (!is_short(it.status)) return it;
    check(is_lease(it, CAGZHOMUL_OUT_OF_MEMORY, 0, 0, 0, 0) && !lease->is_open, "no lease was granted");
    return cagzhomul_lease(world, moment, lease);
}

static int32_t read_txn(cagzhomul_world_handle *world, cagzhomul_lease_handle *lease, const code *ops, cagzhomul_reads_handle *reads) {
    int32_t status = cagzhomul_read(world, lease, ops->bytes, ops->length, reads);
    if (!is_short(status)) return status;
    check(!reads->is_open, "nothing was read");
    return cagzhomul_read(world, lease, ops->bytes, ops->length, reads);
}

static cagzhomul_prepared prepare(cagzhomul_reads_handle *reads, cagzhomul_txn_handle *txn) {
    cagzhomul_prepared it = cagzhomul_prepare(reads, txn);
    if (!is_short(it.status)) return it;
    check(it.column == 0 && reads->is_open && !txn->is_open, "nothing was prepared");
    return cagzhomul_prepare(reads, txn);
}

static cagzhomul_committed commit(cagzhomul_world_handle *world, uint64_t moment, cagzhomul_txn_handle *txn) {
    uint8_t key[ROOM] = {0};
    cagzhomul_committed it = cagzhomul_commit(world, moment, txn, key, ROOM);
    if (!is_short(it.status)) return it;
    check(it.place == 0 && it.operation == 0 && txn->is_open, "nothing was committed");
    return cagzhomul_commit(world, moment, txn, key, ROOM);
}

static int ends(cagzhomul_committed it, int32_t status, uint64_t place, size_t operation) {
    return it.status == status && it.place == place && it.operation == operation;
}

/* Reads and prepares a transaction. */
static void make_ready(cagzhomul_world_handle *world, cagzhomul_lease_handle *lease, const code *ops, cagzhomul_txn_handle *txn) {
    cagzhomul_reads_handle reads = {0};
    check(read_txn(world, lease, ops, &reads) == CAGZHOMUL_OK, "a transaction is read");
    cagzhomul_prepared it = prepare(&reads, txn);
    check(it.status == CAGZHOMUL_OK && it.column == 0 && txn->is_open, "it is prepared");
    check(cagzhomul_close_reads(&reads) == CAGZHOMUL_OK, "what it read is closed");
}

static cagzhomul_committed run(cagzhomul_world_handle *world, cagzhomul_lease_handle *lease, uint64_t moment, const code *ops) {
    cagzhomul_txn_handle txn = {0};
    make_ready(world, lease, ops, &txn);
    cagzhomul_committed it = commit(world, moment, &txn);
    if (txn.is_open) cagzhomul_close_txn(&txn);
    return it;
}

static code one(uint8_t kind, int64_t id, const char *town) {
    code ops = ops_code(1);
    put_op(&ops, kind, PEOPLE, id, TOWN, town);
    return ops;
}

/* What its preparation comes to, after it was read. */
static cagzhomul_prepared unprepared(cagzhomul_world_handle *world, cagzhomul_lease_handle *lease, const code *ops) {
    cagzhomul_reads_handle reads = {0};
    cagzhomul_txn_handle txn = {0};
    check(read_txn(world, lease, ops, &reads) == CAGZHOMUL_OK, "it is read");
    cagzhomul_prepared it = prepare(&reads, &txn), same = prepare(&reads, &txn);
    check(it.status == same.status && it.column == same.column && !txn.is_open, "a refused preparation changes nothing");
    check(cagzhomul_close_reads(&reads) == CAGZHOMUL_OK, "it is closed");
    return it;
}

static void look_at_preparations(cagzhomul_world_handle *world, cagzhomul_lease_handle *lease) {
    code ops = ops_code(1);
    put_op(&ops, INSERT, 7, 1, TOWN, "Ulm");
    check(unprepared(world, lease, &ops).status == CAGZHOMUL_NO_TABLE, "no such table");
    ops = ops_code(1);
    put_op(&ops, INSERT, PEOPLE, 1, 9, "Ulm");
    cagzhomul_prepared it = unprepared(world, lease, &ops);
    check(it.status == CAGZHOMUL_NOT_PUBLIC && it.column == 9, "no such column");
    ops = ops_code(1);
    put_byte(&ops, INSERT), put_number(&ops, PEOPLE, 4), put_number(&ops, 1, 8), put_text(&ops, "a"), put_number(&ops, 0, 8);
    check(unprepared(world, lease, &ops).status == CAGZHOMUL_WRONG_TYPE, "a text in place of a number");
}

/* A transaction whose rows change after it was read, and one whose lease has ended. */
static void look_at_conflicts(cagzhomul_world_handle *world, cagzhomul_lease_handle *lease) {
    cagzhomul_txn_handle txn = {0};
    code later = one(UPDATE, 1, "Hof"), ops = one(UPDATE, 1, "Bonn");
    make_ready(world, lease, &later, &txn);
    check(ends(run(world, lease, 8, &ops), CAGZHOMUL_OK, 5, 0), "an update is entry 5");
    check(ends(commit(world, 8, &txn), CAGZHOMUL_CONFLICT, 0, 0), "the row has changed");
    check(ends(commit(world, 15, &txn), CAGZHOMUL_LEASE_ENDED, 0, 0), "the lease ends at 15");
    check(ends(commit(world, (UINT64_C(1) << 62) + 1, &txn), CAGZHOMUL_MOMENT_TOO_LARGE, 0, 0), "a moment above 2^62");
    check(txn.is_open && cagzhomul_close_txn(&txn) == CAGZHOMUL_OK, "it stays, and is closed");
}

static void write_rows(cagzhomul_world_handle *world, cagzhomul_lease_handle *lease) {
    code ops = ops_code(2);
    put_op(&ops, INSERT, PEOPLE, 1, TOWN, "Ulm");
    put_op(&ops, INSERT, PEOPLE, 2, TOWN, "Bonn");
    check(ends(run(world, lease, 5, &ops), CAGZHOMUL_OK, 2, 0), "two rows are entry 2");
    ops = one(INSERT, 3, "Ulm");
    check(ends(run(world, lease, 6, &ops), CAGZHOMUL_OK, 3, 0), "a row is entry 3");
    ops = one(DELETE, 2, NULL);
    check(ends(run(world, lease, 7, &ops), CAGZHOMUL_OK, 4, 0), "a row that goes is entry 4");
    look_at_conflicts(world, lease);
    ops = one(INSERT, 1, "Ulm");
    check(ends(run(world, lease, 8, &ops), CAGZHOMUL_DUPLICATE, 0, 0), "row 1 is there");
    ops = ops_code(2);
    put_op(&ops, UPDATE, PEOPLE, 3, TOWN, "Hof");
    put_op(&ops, DELETE, PEOPLE, 2, 0, NULL);
    check(ends(run(world, lease, 8, &ops), CAGZHOMUL_NO_ROW, 0, 1), "row 2 is not there");
    look_at_preparations(world, lease);
}

static int is_change(cagzhomul_changed it, int32_t status, uint64_t number) {
    return it.status == status && it.number == number;
}

static cagzhomul_changed publish(cagzhomul_world_handle *world, uint64_t moment, const code *step) {
    cagzhomul_changed it = cagzhomul_publish(world, moment, step->bytes, step->length);
    return is_short(it.status) ? cagzhomul_publish(world, moment, step->bytes, step->length) : it;
}

static cagzhomul_changed begin_reorg(cagzhomul_world_handle *world, uint64_t moment, uint32_t element, uint32_t pieces) {
    cagzhomul_changed it = cagzhomul_begin_reorg(world, moment, element, pieces);
    return is_short(it.status) ? cagzhomul_begin_reorg(world, moment, element, pieces) : it;
}

static int is_checked(cagzhomul_checked it, uint64_t rows, uint64_t missing, uint64_t extra) {
    return it.status == CAGZHOMUL_OK && it.rows == rows && it.missing == missing && it.extra == extra;
}

static int is_check(cagzhomul_world_handle *world, uint64_t rows, uint64_t missing, uint64_t extra) {
    cagzhomul_checked it = cagzhomul_check(world);
    if (is_short(it.status)) it = cagzhomul_check(world);
    return is_checked(it, rows, missing, extra);
}

static int is_snapshot_check(cagzhomul_snapshot_handle *snapshot, uint64_t rows, uint64_t missing, uint64_t extra) {
    cagzhomul_checked it = cagzhomul_snapshot_check(snapshot);
    if (is_short(it.status)) it = cagzhomul_snapshot_check(snapshot);
    return is_checked(it, rows, missing, extra);
}

static int is_log(cagzhomul_world_handle *world, size_t length) {
    cagzhomul_outcome it = cagzhomul_log_length(world);
    return it.status == CAGZHOMUL_OK && it.length == length;
}

/* The log is cut: its length stays, and of its entries only those are there that come after it. */
static void cut_log(cagzhomul_world_handle *world, size_t length, uint64_t moment) {
    cagzhomul_lease_handle lease = {0};
    uint8_t out[ROOM];
    cagzhomul_outcome it = cagzhomul_log_start(world);
    check(it.status == CAGZHOMUL_OK && it.length == 0, "all entries are in memory");
    check(cagzhomul_cut(world, length) == CAGZHOMUL_OK && cagzhomul_log_start(world).length == 0, "all are to stay");
    check(cagzhomul_cut(world, 1) == CAGZHOMUL_OK && cagzhomul_log_start(world).length == length - 1, "the last one is to stay");
    do it = cagzhomul_entry(world, length, out, ROOM);
    while (is_short(it.status));
    check(it.status == CAGZHOMUL_OK && cagzhomul_entry(world, length - 1, out, ROOM).status == CAGZHOMUL_NO_ENTRY, "it alone is there");
    check(cagzhomul_cut(world, 0) == CAGZHOMUL_OK, "the log is cut");
    it = cagzhomul_log_start(world);
    check(it.status == CAGZHOMUL_OK && it.length == length && is_log(world, length), "none is any more");
    check(cagzhomul_entry(world, length, out, ROOM).status == CAGZHOMUL_NO_ENTRY, "nor handed out");
    check(take_lease(world, moment, &lease).place == length + 1 && is_log(world, length + 1), "places go on");
    do it = cagzhomul_entry(world, length + 1, out, ROOM);
    while (is_short(it.status));
    check(it.status == CAGZHOMUL_OK && cagzhomul_close_lease(&lease) == CAGZHOMUL_OK, "the next entry is there");
}

/* A world that opens at the checkpoint goes on from its place, and has its rows; no part of the bytes is a checkpoint. */
static void go_on(cagzhomul_world_handle *world, size_t length, uint64_t moment) {
    static uint8_t bytes[8 * ROOM];
    cagzhomul_checkpoint_handle taken = {0};
    cagzhomul_bytes_handle written = {0};
    cagzhomul_world_handle later = {0}, apart = {0};
    cagzhomul_lease_handle lease = {0};
    int32_t status;
    do status = cagzhomul_checkpoint(world, &taken);
    while (is_short(status));
    check(status == CAGZHOMUL_OK && cagzhomul_checkpoint(world, &taken) == CAGZHOMUL_ALREADY_OPEN, "a checkpoint is taken");
    do status = cagzhomul_save(&taken, &written);
    while (is_short(status));
    check(status == CAGZHOMUL_OK && cagzhomul_save(&taken, &written) == CAGZHOMUL_ALREADY_OPEN, "it is written");
    cagzhomul_outcome it = cagzhomul_bytes_from(&written, 0, bytes, sizeof bytes);
    check(it.status == CAGZHOMUL_OK && it.length <= sizeof bytes, "its bytes are read");
    for (size_t part = 0; part < it.length; part += 1 + it.length / 20) {
        do status = cagzhomul_open_at(&later, bytes, part, CAGZHOMUL_ANY_JUMP);
        while (is_short(status));
        check(status == CAGZHOMUL_BAD_CODE && !later.is_open, "a part is none");
    }
    do status = cagzhomul_open_at(&later, bytes, it.length, CAGZHOMUL_ANY_JUMP);
    while (is_short(status));
    check(status == CAGZHOMUL_OK && cagzhomul_open_at(&later, bytes, it.length, CAGZHOMUL_ANY_JUMP) == CAGZHOMUL_ALREADY_OPEN, "a world opens there");
    check(is_log(&later, length) && is_check(&later, 2, 0, 0), "it has the rows");
    check(take_lease(&later, moment, &lease).place == length + 1 && is_log(world, length), "and goes on by itself");
    check(cagzhomul_close_lease(&lease) == CAGZHOMUL_OK, "with a lease of its own");
    check(cagzhomul_open_checkpoint(&taken, CAGZHOMUL_ANY_JUMP, &later) == CAGZHOMUL_ALREADY_OPEN && taken.is_open && later.is_open, "it is not overwritten");
    check(cagzhomul_close_world(&later) == CAGZHOMUL_OK, "it is closed");
    check(cagzhomul_open_checkpoint(&taken, CAGZHOMUL_ANY_JUMP, &apart) == CAGZHOMUL_OK && !taken.is_open && apart.is_open, "the checkpoint becomes a world");
    check(cagzhomul_open_checkpoint(&taken, CAGZHOMUL_ANY_JUMP, &apart) == CAGZHOMUL_ALREADY_OPEN, "which is there");
    check(is_log(&apart, length) && is_check(&apart, 2, 0, 0), "which has the rows, too");
    check(take_lease(&apart, moment, &lease).place == length + 1 && is_log(world, length), "and goes on apart");
    check(cagzhomul_close_lease(&lease) == CAGZHOMUL_OK, "with a lease of its own");
    check(cagzhomul_close_world(&apart) == CAGZHOMUL_OK && cagzhomul_close_bytes(&written) == CAGZHOMUL_OK, "both are closed");
    check(cagzhomul_open_checkpoint(&taken, CAGZHOMUL_ANY_JUMP, &apart) == CAGZHOMUL_CLOSED && cagzhomul_version() == CAGZHOMUL_VERSION, "a closed one is none");
    check(cagzhomul_save(&taken, &written) == CAGZHOMUL_CLOSED && cagzhomul_checkpoint(&later, &taken) == CAGZHOMUL_CLOSED, "and stay so");
    check(cagzhomul_close_checkpoint(&taken) == CAGZHOMUL_CLOSED && !apart.is_open && !written.is_open, "nothing is left to close");
}

/* Whether these are the bytes of the version with by_town in this state; the handle is then closed. */
static int is_schema(int32_t status, cagzhomul_bytes_handle *schema, uint8_t state) {
    uint8_t out[ROOM];
    code wanted = schema_code(state);
    if (status != CAGZHOMUL_OK) return 0;
    cagzhomul_outcome it = cagzhomul_bytes_from(schema, 0, out, ROOM);
    check(cagzhomul_close_bytes(schema) == CAGZHOMUL_OK, "it is closed");
    return it.status == CAGZHOMUL_OK && it.length == wanted.length && !memcmp(out, wanted.bytes, it.length);
}

/* Whether a world is at the version with by_town in this state; it stays. */
static int is_at(cagzhomul_world_handle *world, uint8_t state) {
    cagzhomul_bytes_handle schema = {0};
    int32_t status = cagzhomul_schema(world, &schema);
    if (is_short(status)) {
        check(!schema.is_open && world->is_open, "no schema was written");
        status = cagzhomul_schema(world, &schema);
    }
    check(cagzhomul_schema(world, &schema) == CAGZHOMUL_ALREADY_OPEN, "it is not overwritten");
    return is_schema(status, &schema, state);
}

/* The same of a lease. */
static int is_on(cagzhomul_lease_handle *lease, uint8_t state) {
    cagzhomul_bytes_handle schema = {0};
    int32_t status = cagzhomul_lease_schema(lease, &schema);
    if (is_short(status)) {
        check(!schema.is_open && lease->is_open, "no schema was written");
        status = cagzhomul_lease_schema(lease, &schema);
    }
    check(cagzhomul_lease_schema(lease, &schema) == CAGZHOMUL_ALREADY_OPEN, "it is not overwritten");
    return is_schema(status, &schema, state);
}

/* The index by_town, which is element 2, enters until its fill has begun; a snapshot from before it stays. */
static void add_index(cagzhomul_world_handle *world, cagzhomul_lease_handle *lease) {
    cagzhomul_snapshot_handle snapshot = {0};
    code enter = enter_code(), write_only = go_code(2, WRITE_ONLY), public = go_code(2, PUBLIC);
    int32_t status = cagzhomul_snapshot(world, 9, lease, &snapshot);
    if (is_short(status)) status = cagzhomul_snapshot(world, 9, lease, &snapshot);
    check(status == CAGZHOMUL_OK && is_snapshot_check(&snapshot, 2, 0, 0), "a snapshot of two rows");
    check(is_change(publish(world, 9, &enter), CAGZHOMUL_TOO_EARLY, 10), "version 1 is the newest until 10");
    check(is_change(publish(world, 10, &write_only), CAGZHOMUL_UNKNOWN, 0), "there is no element 2");
    check(is_at(world, ABSENT) && is_change(publish(world, 10, &enter), CAGZHOMUL_OK, 2), "version 2 has the index");
    check(is_at(world, DELETE_ONLY) && is_on(lease, ABSENT), "and the lease has none");
    check(is_change(publish(world, 20, &public), CAGZHOMUL_NOT_ADJACENT, 0), "it is delete-only");
    check(is_change(publish(world, 20, &write_only), CAGZHOMUL_OK, 3) && is_at(world, WRITE_ONLY), "version 3 writes it");
    check(is_change(begin_reorg(world, 29, 2, 1), CAGZHOMUL_STILL_USED, 30), "version 2 may be used until 30");
    check(is_change(publish(world, 30, &public), CAGZHOMUL_UNFINISHED, 2), "its fill is to be finished");
    check(is_change(begin_reorg(world, 30, 1, 1), CAGZHOMUL_NOT_WANTED, 0), "a public column wants nothing");
    check(is_change(begin_reorg(world, 30, 2, 65), CAGZHOMUL_BAD_COUNT, 0), "65 pieces");
    check(is_change(begin_reorg(world, 30, 2, 1), CAGZHOMUL_OK, 9), "the fill is entry 9");
    check(is_change(begin_reorg(world, 30, 2, 1), CAGZHOMUL_BEGUN, 0), "and begins once");
    check(is_log(world, 9) && is_snapshot_check(&snapshot, 2, 0, 0), "the snapshot stays");
    check(cagzhomul_snapshot(world, 9, lease, &snapshot) == CAGZHOMUL_ALREADY_OPEN, "and is not overwritten");
    check(cagzhomul_close_snapshot(&snapshot) == CAGZHOMUL_OK, "it is closed");
    check(cagzhomul_snapshot(world, 30, lease, &snapshot) == CAGZHOMUL_LEASE_ENDED && !snapshot.is_open, "the lease ended at 15");
}

/* Does what is due of the changes under way, to their end. */
static void carry_on(cagzhomul_world_handle *world, uint64_t moment) {
    cagzhomul_advanced it = {0};
    for (int acts = 0; acts < 9 && it.status == CAGZHOMUL_OK; acts++) {
        it = cagzhomul_advance(world, moment, 1, 1000);
        if (is_short(it.status)) it = cagzhomul_advance(world, moment, 1, 1000);
    }
    check(it.status == CAGZHOMUL_FINISHED, "the changes are finished");
}

static cagzhomul_queried query(cagzhomul_world_handle *world, uint64_t moment, cagzhomul_lease_handle *lease, const code *asked, cagzhomul_bytes_handle *rows) {
    cagzhomul_queried it = cagzhomul_query(world, moment, lease, asked->bytes, asked->length, rows);
    if (!is_short(it.status)) return it;
    check(it.column == 0 && !rows->is_open, "nothing was answered");
    return cagzhomul_query(world, moment, lease, asked->bytes, asked->length, rows);
}

static cagzhomul_queried query_snapshot(cagzhomul_snapshot_handle *snapshot, const code *asked, cagzhomul_bytes_handle *rows) {
    cagzhomul_queried it = cagzhomul_snapshot_query(snapshot, asked->bytes, asked->length, rows);
    if (!is_short(it.status)) return it;
    check(it.column == 0 && !rows->is_open, "nothing was answered");
    return cagzhomul_snapshot_query(snapshot, asked->bytes, asked->length, rows);
}

/* Whether the handle holds these rows, which are then closed. */
static int has_rows(cagzhomul_queried asked, cagzhomul_bytes_handle *rows, const code *wanted) {
    uint8_t out[ROOM] = {0}, part[4] = {9, 9, 9, 9};
    size_t last = wanted->length - 2;
    if (asked.status != CAGZHOMUL_OK || asked.column) return 0;
    cagzhomul_outcome whole = cagzhomul_bytes_from(rows, 0, out, ROOM), end = cagzhomul_bytes_from(rows, last, part, 4);
    cagzhomul_outcome none = cagzhomul_bytes_from(rows, wanted->length, part, 4);
    check(end.status == CAGZHOMUL_OK && end.length == whole.length && none.length == whole.length, "each part tells the length");
    check(part[0] == wanted->bytes[last] && part[1] == wanted->bytes[last + 1] && part[2] == 9 && part[3] == 9, "the last two bytes");
    check(cagzhomul_close_bytes(rows) == CAGZHOMUL_OK && !rows->is_open, "the rows are closed");
    return whole.status == CAGZHOMUL_OK && whole.length == wanted->length && !memcmp(out, wanted->bytes, whole.length);
}

static int answers(cagzhomul_world_handle *world, uint64_t moment, cagzhomul_lease_handle *lease, const code *asked, const code *wanted) {
    cagzhomul_bytes_handle rows = {0};
    return has_rows(query(world, moment, lease, asked, &rows), &rows, wanted);
}

static int snapshot_answers(cagzhomul_snapshot_handle *snapshot, const code *asked, const code *wanted) {
    cagzhomul_bytes_handle rows = {0};
    return has_rows(query_snapshot(snapshot, asked, &rows), &rows, wanted);
}

static void put_bound(code *to, int64_t key) {
    put_byte(to, key ? 1 : 0);
    if (key) put_number(to, 1, 8), put_int(to, key);
}

/* A page of at most so many rows after a key and before another, of which 0 is none; conditions may follow. */
static code page_code(int64_t after, int64_t before, uint32_t limit, uint32_t table, uint32_t column, uint64_t conditions) {
    code it = {0};
    put_byte(&it, 1), put_bound(&it, after), put_bound(&it, before), put_number(&it, limit, 4);
    put_number(&it, table, 4), put_number(&it, 1, 8), put_number(&it, column, 4), put_number(&it, conditions, 8);
    return it;
}

static cagzhomul_paged page(cagzhomul_world_handle *world, uint64_t moment, cagzhomul_lease_handle *lease, const code *asked, cagzhomul_bytes_handle *rows) {
    cagzhomul_paged it = cagzhomul_query_page(world, moment, lease, asked->bytes, asked->length, rows);
    if (!is_short(it.status)) return it;
    check(it.column == 0 && it.more == 0 && !rows->is_open, "nothing was answered");
    return cagzhomul_query_page(world, moment, lease, asked->bytes, asked->length, rows);
}

static cagzhomul_paged page_snapshot(cagzhomul_snapshot_handle *snapshot, const code *asked, cagzhomul_bytes_handle *rows) {
    cagzhomul_paged it = cagzhomul_snapshot_query_page(snapshot, asked->bytes, asked->length, rows);
    if (!is_short(it.status)) return it;
    check(it.column == 0 && it.more == 0 && !rows->is_open, "nothing was answered");
    return cagzhomul_snapshot_query_page(snapshot, asked->bytes, asked->length, rows);
}

/* Whether the handle holds the rows of this page, which says so of further ones. */
static int is_page(cagzhomul_paged it, cagzhomul_bytes_handle *rows, const code *wanted, uint32_t more) {
    cagzhomul_queried asked = {it.status, it.column};
    return it.more == more && has_rows(asked, rows, wanted);
}

/* Whether the world under a lease and a snapshot answer this page. */
static int pages(cagzhomul_world_handle *world, cagzhomul_lease_handle *lease, cagzhomul_snapshot_handle *snapshot, const code *asked, const code *wanted, uint32_t more) {
    cagzhomul_bytes_handle rows = {0};
    int is_it = is_page(page(world, 9, lease, asked, &rows), &rows, wanted, more);
    return is_it && is_page(page_snapshot(snapshot, asked, &rows), &rows, wanted, more);
}

/* Rows 1 and 3, page by page: in ranges, and with a condition. */
static void page_rows(cagzhomul_world_handle *world, cagzhomul_lease_handle *lease) {
    cagzhomul_snapshot_handle snapshot = {0};
    code all = rows_code(2), first = rows_code(1), last = rows_code(1), none = rows_code(0);
    put_row(&all, 1, "Bonn"), put_row(&all, 3, "Ulm"), put_row(&first, 1, "Bonn"), put_row(&last, 3, "Ulm");
    int32_t status = cagzhomul_snapshot(world, 9, lease, &snapshot);
    if (is_short(status)) status = cagzhomul_snapshot(world, 9, lease, &snapshot);
    check(status == CAGZHOMUL_OK, "a snapshot");
    code asked = page_code(0, 0, 1, PEOPLE, TOWN, 0);
    check(pages(world, lease, &snapshot, &asked, &first, 1), "the first page of one row");
    asked = page_code(1, 0, 1, PEOPLE, TOWN, 0);
    check(pages(world, lease, &snapshot, &asked, &last, 0), "the page after it is the last");
    asked = page_code(3, 0, 1, PEOPLE, TOWN, 0);
    check(pages(world, lease, &snapshot, &asked, &none, 0), "nothing comes after that");
    asked = page_code(-5, 4, 1000, PEOPLE, TOWN, 0);
    check(pages(world, lease, &snapshot, &asked, &all, 0), "keys that no row has are bounds");
    asked = page_code(1, 3, 9, PEOPLE, TOWN, 0);
    check(pages(world, lease, &snapshot, &asked, &none, 0), "there is no row between the two");
    asked = page_code(0, 3, 9, PEOPLE, TOWN, 0);
    check(pages(world, lease, &snapshot, &asked, &first, 0), "one is before the second");
    asked = page_code(0, 0, 1, PEOPLE, TOWN, 1), put_equal(&asked, TOWN, "Ulm");
    check(pages(world, lease, &snapshot, &asked, &last, 0), "a condition passes over the first");
    check(cagzhomul_close_snapshot(&snapshot) == CAGZHOMUL_OK, "it is closed");
}

/* Rows 1 and 3 are in Bonn and Ulm: by their keys and by a scan. */
static void query_rows(cagzhomul_world_handle *world, cagzhomul_lease_handle *lease) {
    code all = rows_code(2), first = rows_code(1), last = rows_code(1), none = rows_code(0);
    put_row(&all, 1, "Bonn"), put_row(&all, 3, "Ulm"), put_row(&first, 1, "Bonn"), put_row(&last, 3, "Ulm");
    code asked = query_code(PEOPLE, TOWN, 0);
    check(answers(world, 9, lease, &asked, &all), "all rows");
    asked = query_code(PEOPLE, TOWN, 1), put_key(&asked, 1);
    check(answers(world, 9, lease, &asked, &first), "the row with the key 1");
    asked = query_code(PEOPLE, TOWN, 2), put_key(&asked, 1), put_equal(&asked, TOWN, "Ulm");
    check(answers(world, 9, lease, &asked, &none), "which is not in Ulm");
    asked = query_code(PEOPLE, TOWN, 1), put_between(&asked, TOWN, "C", NULL);
    check(answers(world, 9, lease, &asked, &last), "the row from C on");
    asked = query_code(PEOPLE, TOWN, 1), put_between(&asked, TOWN, NULL, "Bonn");
    check(answers(world, 9, lease, &asked, &first), "the row up to Bonn");
}

/* The index is public, and answers; a snapshot from before a row moves answers as it was. */
static void query_by_index(cagzhomul_world_handle *world) {
    cagzhomul_lease_handle lease = {0};
    cagzhomul_snapshot_handle snapshot = {0};
    code before = rows_code(1), after = rows_code(2), asked = query_code(PEOPLE, TOWN, 1), ops = one(UPDATE, 1, "Ulm");
    put_row(&before, 3, "Ulm"), put_row(&after, 1, "Ulm"), put_row(&after, 3, "Ulm"), put_equal(&asked, TOWN, "Ulm");
    carry_on(world, 30);
    cagzhomul_granted it = take_lease(world, 31, &lease);
    check(it.status == CAGZHOMUL_OK && it.version == 4 && it.until == 41, "version 4 has the index");
    check(is_at(world, PUBLIC) && is_on(&lease, PUBLIC), "which is public");
    check(answers(world, 31, &lease, &asked, &before), "one row is in Ulm");
    int32_t status = cagzhomul_snapshot(world, 31, &lease, &snapshot);
    if (is_short(status)) status = cagzhomul_snapshot(world, 31, &lease, &snapshot);
    check(status == CAGZHOMUL_OK && run(world, &lease, 32, &ops).status == CAGZHOMUL_OK, "a row moves to Ulm");
    check(answers(world, 32, &lease, &asked, &after), "two rows are in Ulm");
    check(snapshot_answers(&snapshot, &asked, &before), "one of them was when the snapshot was taken");
    check(cagzhomul_close_lease(&lease) == CAGZHOMUL_OK && snapshot_answers(&snapshot, &asked, &before), "and without the lease");
    check(cagzhomul_close_snapshot(&snapshot) == CAGZHOMUL_OK, "it is closed");
}

static int32_t open_tables(cagzhomul_world_handle *world, const code *opening) {
    int32_t status = cagzhomul_open(world, opening->bytes, opening->length, CAGZHOMUL_ANY_JUMP);
    if (!is_short(status)) return status;
    check(!world->is_open, "nothing was opened");
    return cagzhomul_open(world, opening->bytes, opening->length, CAGZHOMUL_ANY_JUMP);
}

/* A session of lines over a world that typed calls opened. */
static void attach(cagzhomul_session_handle *session) {
    int32_t status = cagzhomul_session_attach(session);
    if (is_short(status)) {
        check(!session->is_open, "no session was opened");
        status = cagzhomul_session_attach(session);
    }
    check(status == CAGZHOMUL_OK, "lines are answered, too");
}

static void play(void) {
    talk with = {{0}, {0}};
    cagzhomul_world_handle *world = &with.world;
    cagzhomul_lease_handle lease = {0};
    code opening = opening_code(10, "town");
    check(open_tables(world, &opening) == CAGZHOMUL_OK, "tables are opened");
    attach(&with.session);
    check(is_lease(take_lease(world, 5, &lease), CAGZHOMUL_OK, 1, 5, 15, 1), "a lease is granted");
    write_rows(world, &lease);
    check(replies(&with, "log", "ok log 5\n"), "there are five entries");
    check(replies(&with, "lease a at 9", "ok lease 1 9 19\n"), "a line takes a lease");
    check(replies(&with, "query a at 9: select town from people", "row (1) town = 'Bonn'\nrow (3) town = 'Ulm'\nok rows 2\n"), "and sees the rows");
    check(replies(&with, "check", "ok rows 2 missing 0 extra 0\n"), "no pair is missing");
    check(is_log(world, 6) && is_check(world, 2, 0, 0), "so do the calls");
    query_rows(world, &lease);
    page_rows(world, &lease);
    add_index(world, &lease);
    query_by_index(world);
    cut_log(world, cagzhomul_log_length(world).length, 33);
    check(is_check(world, 2, 0, 0), "the rows stay");
    go_on(world, cagzhomul_log_length(world).length, 33);
    check(cagzhomul_close_lease(&lease) == CAGZHOMUL_OK && is_over(&with), "all are closed");
}

/* ---- transactions that read */

static int32_t give(cagzhomul_world_handle *world, cagzhomul_reads_handle *reads, const code *ops) {
    int32_t status = cagzhomul_read_again(world, reads, ops->bytes, ops->length);
    return is_short(status) ? cagzhomul_read_again(world, reads, ops->bytes, ops->length) : status;
}

static cagzhomul_queried query_read(cagzhomul_reads_handle *reads, const code *asked, cagzhomul_bytes_handle *rows) {
    cagzhomul_queried it = cagzhomul_query_read(reads, asked->bytes, asked->length, rows);
    if (!is_short(it.status)) return it;
    check(it.column == 0 && !rows->is_open, "nothing was answered");
    return cagzhomul_query_read(reads, asked->bytes, asked->length, rows);
}

/* Whether the transaction read the row of this key with this town; with a null one, that there is none. */
static int has_read(cagzhomul_reads_handle *reads, int64_t id, const char *town) {
    cagzhomul_bytes_handle rows = {0};
    code asked = query_code(PEOPLE, TOWN, 1), due = rows_code(town ? 1 : 0);
    put_key(&asked, id);
    if (town) put_row(&due, id, town);
    return has_rows(query_read(reads, &asked, &rows), &rows, &due);
}

/* Operations that name two rows, of which 0 is none, and change nothing in them. */
static code touch(int64_t first, int64_t second) {
    code ops = ops_code(second ? 2 : 1);
    put_op(&ops, UPDATE, PEOPLE, first, 0, NULL);
    if (second) put_op(&ops, UPDATE, PEOPLE, second, 0, NULL);
    return ops;
}

static code both(const char *first, const char *second) {
    code ops = ops_code(2);
    put_op(&ops, UPDATE, PEOPLE, 1, TOWN, first), put_op(&ops, UPDATE, PEOPLE, 2, TOWN, second);
    return ops;
}

static void begin_reading(cagzhomul_world_handle *world, cagzhomul_lease_handle *lease, code ops, cagzhomul_reads_handle *reads) {
    check(read_txn(world, lease, &ops, reads) == CAGZHOMUL_OK, "it is read");
}

/* Gives a transaction that was read other operations, and reads it again. */
static void read_again(cagzhomul_world_handle *world, cagzhomul_reads_handle *reads, code ops) {
    check(give(world, reads, &ops) == CAGZHOMUL_OK && reads->is_open, "it is read again");
}

/* Prepares and commits what was read, which stays. */
static cagzhomul_committed try_once(cagzhomul_world_handle *world, uint64_t moment, cagzhomul_reads_handle *reads) {
    cagzhomul_txn_handle txn = {0};
    check(prepare(reads, &txn).status == CAGZHOMUL_OK && txn.is_open && reads->is_open, "it is prepared");
    cagzhomul_committed it = commit(world, moment, &txn);
    check(txn.is_open == (it.status == CAGZHOMUL_CONFLICT), "it stays after a conflict alone");
    if (txn.is_open) cagzhomul_close_txn(&txn);
    return it;
}

static cagzhomul_committed end(cagzhomul_world_handle *world, uint64_t moment, cagzhomul_reads_handle *reads) {
    cagzhomul_committed it = try_once(world, moment, reads);
    check(cagzhomul_close_reads(reads) == CAGZHOMUL_OK, "what was read is closed");
    return it;
}

static int writes(cagzhomul_world_handle *world, cagzhomul_lease_handle *lease, code ops, uint64_t place) {
    return ends(run(world, lease, 9, &ops), CAGZHOMUL_OK, place, 0);
}

/* A row is changed by what it holds. */
static void change_by_reading(cagzhomul_world_handle *world, cagzhomul_lease_handle *lease) {
    cagzhomul_reads_handle reads = {0};
    code ops = ops_code(2);
    put_op(&ops, INSERT, PEOPLE, 1, TOWN, "Ulm"), put_op(&ops, INSERT, PEOPLE, 2, TOWN, "Bonn");
    check(writes(world, lease, ops, 2), "two rows are entry 2");
    begin_reading(world, lease, touch(1, 0), &reads);
    check(has_read(&reads, 1, "Ulm"), "row 1 is in Ulm");
    read_again(world, &reads, one(UPDATE, 1, "Hof"));
    check(ends(end(world, 9, &reads), CAGZHOMUL_OK, 3, 0), "and goes to Hof");
    begin_reading(world, lease, touch(1, 9), &reads);
    check(has_read(&reads, 1, "Hof") && has_read(&reads, 9, NULL), "where it is then; row 9 is not there");
    check(cagzhomul_close_reads(&reads) == CAGZHOMUL_OK, "it is closed");
}

/* A write to a row after it was read is a conflict, whether it comes before or after the second read. */
static void conflict_with_reads(cagzhomul_world_handle *world, cagzhomul_lease_handle *lease) {
    cagzhomul_reads_handle reads = {0};
    begin_reading(world, lease, touch(1, 0), &reads);
    check(writes(world, lease, one(UPDATE, 1, "Bonn"), 4), "another writer is entry 4");
    read_again(world, &reads, one(UPDATE, 1, "Ulm"));
    check(has_read(&reads, 1, "Hof"), "the row stays what it was when it was first read");
    check(ends(end(world, 9, &reads), CAGZHOMUL_CONFLICT, 0, 0), "and has changed since");
    begin_reading(world, lease, touch(1, 0), &reads);
    read_again(world, &reads, one(UPDATE, 1, "Ulm"));
    check(writes(world, lease, one(UPDATE, 1, "Hof"), 5), "another writer is entry 5");
    check(ends(end(world, 9, &reads), CAGZHOMUL_CONFLICT, 0, 0), "the row has changed");
    begin_reading(world, lease, touch(1, 2), &reads);
    check(writes(world, lease, one(UPDATE, 1, "Ulm"), 6), "another writer is entry 6");
    read_again(world, &reads, one(UPDATE, 2, "Hof"));
    check(ends(end(world, 9, &reads), CAGZHOMUL_OK, 7, 0), "row 1 is not named any more");
    begin_reading(world, lease, touch(1, 0), &reads);
    check(writes(world, lease, one(UPDATE, 2, "Ulm"), 8), "another writer is entry 8");
    read_again(world, &reads, both("Bonn", "Bonn"));
    check(has_read(&reads, 1, "Ulm") && has_read(&reads, 2, "Ulm"), "row 2 was read last");
    check(ends(end(world, 9, &reads), CAGZHOMUL_OK, 9, 0), "and neither has changed since");
}

/* As much of the pairs of the world as fits; memory is ample for it. */
static size_t pairs_of(talk *with, uint8_t *out) {
    int was_ample = is_ample;
    is_ample = 1;
    cagzhomul_outcome it = say(with, "pairs", out, ROOM);
    is_ample = was_ample;
    check(it.status == CAGZHOMUL_OK && it.length > 0 && it.length <= ROOM, "the pairs are told");
    return it.length;
}

/* A row that is only read is pinned by operations that change nothing in it. */
static void pin_rows(talk *with, cagzhomul_lease_handle *lease) {
    cagzhomul_world_handle *world = &with->world;
    cagzhomul_reads_handle reads = {0};
    uint8_t before[ROOM] = {0}, after[ROOM] = {0};
    code one_read = ops_code(2), none_read = ops_code(2);
    put_op(&one_read, UPDATE, PEOPLE, 1, 0, NULL), put_op(&one_read, UPDATE, PEOPLE, 2, TOWN, "Ulm");
    put_op(&none_read, INSERT, PEOPLE, 9, TOWN, "Ulm"), put_op(&none_read, DELETE, PEOPLE, 9, 0, NULL);
    begin_reading(world, lease, touch(1, 2), &reads);
    check(writes(world, lease, one(UPDATE, 1, "Hof"), 10), "another writer is entry 10");
    read_again(world, &reads, one_read);
    check(ends(end(world, 9, &reads), CAGZHOMUL_CONFLICT, 0, 0), "the row that is only read has changed");
    begin_reading(world, lease, touch(1, 2), &reads);
    read_again(world, &reads, one_read);
    check(ends(end(world, 9, &reads), CAGZHOMUL_OK, 11, 0), "it has not");
    size_t length = pairs_of(with, before);
    begin_reading(world, lease, none_read, &reads);
    check(has_read(&reads, 9, NULL), "row 9 is not there");
    read_again(world, &reads, none_read);
    check(ends(end(world, 9, &reads), CAGZHOMUL_OK, 12, 0), "nor then");
    begin_reading(world, lease, touch(1, 2), &reads);
    check(has_read(&reads, 1, "Hof") && has_read(&reads, 2, "Ulm"), "row 1 stayed in Hof");
    check(ends(end(world, 9, &reads), CAGZHOMUL_OK, 13, 0), "a transaction that only reads");
    check(pairs_of(with, after) == length && !memcmp(before, after, ROOM), "these two wrote nothing");
    begin_reading(world, lease, none_read, &reads);
    check(writes(world, lease, one(INSERT, 9, "Ulm"), 14), "another writer inserts row 9");
    read_again(world, &reads, none_read);
    check(ends(end(world, 9, &reads), CAGZHOMUL_CONFLICT, 0, 0), "it has come since it was read");
}

/* Carries the change under way to its end, and gives the moment of that. */
static uint64_t finish(cagzhomul_world_handle *world, uint64_t moment) {
    for (int acts = 0; acts < 30; acts++) {
        cagzhomul_advanced it = cagzhomul_advance(world, moment, 1, 1000);
        if (is_short(it.status)) continue;
        if (it.status == CAGZHOMUL_FINISHED) return moment;
        check(it.status == CAGZHOMUL_OK || it.status == CAGZHOMUL_WAITING, "an act, or a wait");
        if (it.status == CAGZHOMUL_WAITING) moment = it.until;
    }
    check(0, "the change ends");
    return moment;
}

/* With an index and a column with a default, which are elements 2 and 3, each row that was read has its default. */
static void read_defaults(talk *with) {
    cagzhomul_world_handle *world = &with->world;
    cagzhomul_lease_handle lease = {0};
    cagzhomul_reads_handle reads = {0};
    cagzhomul_bytes_handle rows = {0};
    uint8_t out[ROOM];
    const char *plan = "plan: add index by_town on people (town); add column mail text default 'none' on people";
    code asked = query_code(PEOPLE, 3, 1), due = rows_code(1);
    put_key(&asked, 1);
    put_number(&due, 1, 8), put_int(&due, 1), put_number(&due, 1, 8), put_number(&due, 3, 4), put_text(&due, "none");
    int was_ample = is_ample;
    is_ample = 1;
    check(say(with, plan, out, ROOM).status == CAGZHOMUL_OK, "a plan");
    is_ample = was_ample;
    check(replies(with, "next at 10", "ok version 2\n"), "both enter");
    uint64_t moment = finish(world, 10);
    check(take_lease(world, moment, &lease).status == CAGZHOMUL_OK, "a lease on the last version");
    begin_reading(world, &lease, touch(1, 0), &reads);
    check(has_rows(query_read(&reads, &asked, &rows), &rows, &due), "row 1 has the default");
    check(has_read(&reads, 1, "Hof"), "and is in Hof");
    read_again(world, &reads, one(UPDATE, 1, "Ulm"));
    check(end(world, moment, &reads).status == CAGZHOMUL_OK && is_check(world, 3, 0, 0), "it moves, and so does its pair in the index");
    check(cagzhomul_close_lease(&lease) == CAGZHOMUL_OK, "the lease is closed");
}

/* What was read is prepared as often as one likes: once it is committed, or its row has changed, each further try is a conflict. */
static void prepare_again(cagzhomul_world_handle *world) {
    cagzhomul_lease_handle lease = {0};
    cagzhomul_reads_handle reads = {0};
    cagzhomul_txn_handle first = {0}, second = {0};
    uint64_t moment = 100;
    cagzhomul_granted granted = take_lease(world, moment, &lease);
    check(granted.status == CAGZHOMUL_OK, "a lease");
    begin_reading(world, &lease, one(UPDATE, 2, "Kiel"), &reads);
    check(prepare(&reads, &first).status == CAGZHOMUL_OK && prepare(&reads, &second).status == CAGZHOMUL_OK, "it is prepared twice");
    check(cagzhomul_close_lease(&lease) == CAGZHOMUL_OK && ends(commit(world, moment, &second), CAGZHOMUL_OK, granted.place + 1, 0), "the second one is committed");
    check(ends(commit(world, moment, &first), CAGZHOMUL_CONFLICT, 0, 0) && cagzhomul_close_txn(&first) == CAGZHOMUL_OK, "and then the first one is a conflict");
    check(ends(try_once(world, moment, &reads), CAGZHOMUL_CONFLICT, 0, 0), "as is a third");
    read_again(world, &reads, touch(9, 0));
    check(ends(end(world, moment, &reads), CAGZHOMUL_OK, granted.place + 2, 0), "until it reads another row");
}

static void play_reads(void) {
    talk with = {{0}, {0}};
    cagzhomul_world_handle *world = &with.world;
    cagzhomul_lease_handle lease = {0};
    code opening = opening_code(10, "town");
    check(open_tables(world, &opening) == CAGZHOMUL_OK, "tables are opened");
    attach(&with.session);
    check(take_lease(world, 5, &lease).status == CAGZHOMUL_OK, "a lease is granted");
    change_by_reading(world, &lease);
    conflict_with_reads(world, &lease);
    pin_rows(&with, &lease);
    read_defaults(&with);
    prepare_again(world);
    check(cagzhomul_close_lease(&lease) == CAGZHOMUL_OK && is_over(&with), "all are closed");
}

static void look_at_codes(void) {
    cagzhomul_world_handle world = {0};
    code opening = opening_code(10, "town");
    for (size_t length = 0; length < opening.length; length++)
        check(cagzhomul_open(&world, opening.bytes, length, CAGZHOMUL_ANY_JUMP) == CAGZHOMUL_BAD_CODE, "a part is no opening");
    check(cagzhomul_open(&world, opening.bytes, opening.length + 1, CAGZHOMUL_ANY_JUMP) == CAGZHOMUL_BAD_CODE, "nor is more");
    opening = opening_code(0, "town");
    check(cagzhomul_open(&world, opening.bytes, opening.length, CAGZHOMUL_ANY_JUMP) == CAGZHOMUL_BAD_LENGTH, "no lease length");
    opening = opening_code(10, "id");
    check(cagzhomul_open(&world, opening.bytes, opening.length, CAGZHOMUL_ANY_JUMP) == CAGZHOMUL_BAD_TABLE, "a name twice");
    check(!world.is_open, "the handle stays closed");
}

/* The calls on a world that is closed. */
static void look_at_worlds(void) {
    cagzhomul_world_handle world = {0};
    cagzhomul_lease_handle lease = {0};
    cagzhomul_snapshot_handle snapshot = {0};
    cagzhomul_bytes_handle bytes = {0};
    uint8_t out[ROOM] = {0};
    code step = enter_code();
    check(cagzhomul_check(&world).status == CAGZHOMUL_CLOSED && cagzhomul_log_length(&world).status == CAGZHOMUL_CLOSED, "no audit, no log");
    check(cagzhomul_log_start(&world).status == CAGZHOMUL_CLOSED && cagzhomul_cut(&world, 0) == CAGZHOMUL_CLOSED, "no cut");
    check(cagzhomul_entry(&world, 1, out, ROOM).status == CAGZHOMUL_CLOSED && cagzhomul_repeat(&world, out, 0) == CAGZHOMUL_CLOSED, "no entry");
    check(cagzhomul_publish(&world, 5, step.bytes, step.length).status == CAGZHOMUL_CLOSED, "no step");
    check(cagzhomul_begin_reorg(&world, 5, 1, 1).status == CAGZHOMUL_CLOSED, "no reorganisation");
    check(cagzhomul_advance(&world, 5, 1, 1).status == CAGZHOMUL_CLOSED, "no advance");
    check(cagzhomul_due_entry(&world, 5, 1, 1, &bytes).status == CAGZHOMUL_CLOSED && !bytes.is_open, "nor what would be due");
    check(cagzhomul_snapshot(&world, 5, &lease, &snapshot) == CAGZHOMUL_CLOSED && !snapshot.is_open, "no snapshot");
    check(cagzhomul_lease(&world, 5, &lease).status == CAGZHOMUL_CLOSED && !lease.is_open, "no lease");
    check(cagzhomul_close_world(&world) == CAGZHOMUL_CLOSED, "nothing to close");
}

/* Calls on handles that are closed or open. */
static void look_at_handles(void) {
    cagzhomul_world_handle world = {0}, none = {0};
    cagzhomul_lease_handle lease = {0}, no_lease = {0};
    cagzhomul_reads_handle reads = {0}, nothing = {0};
    cagzhomul_txn_handle txn = {0}, other = {0};
    code opening = opening_code(10, "town"), ops = one(INSERT, 1, "Ulm");
    look_at_worlds();
    check(open_tables(&world, &opening) == CAGZHOMUL_OK && open_tables(&world, &opening) == CAGZHOMUL_ALREADY_OPEN, "not twice");
    check(cagzhomul_lease(&world, (UINT64_C(1) << 62) + 1, &lease).status == CAGZHOMUL_MOMENT_TOO_LARGE, "a moment above 2^62");
    check(cagzhomul_lease(&world, 5, &lease).status == CAGZHOMUL_OK, "a lease");
    check(cagzhomul_lease(&world, 5, &lease).status == CAGZHOMUL_ALREADY_OPEN && lease.is_open, "the lease is there");
    check(cagzhomul_lease(&none, 5, &lease).status == CAGZHOMUL_ALREADY_OPEN, "which is said first");
    check(cagzhomul_read(&none, &lease, ops.bytes, ops.length, &reads) == CAGZHOMUL_CLOSED, "no world to read");
    check(cagzhomul_read(&world, &no_lease, ops.bytes, ops.length, &reads) == CAGZHOMUL_CLOSED, "no lease");
    check(cagzhomul_read(&world, &lease, ops.bytes, ops.length - 1, &reads) == CAGZHOMUL_BAD_CODE && !reads.is_open, "no operations");
    check(cagzhomul_prepare(&reads, &txn).status == CAGZHOMUL_CLOSED && !txn.is_open, "it is to be read first");
    check(read_txn(&world, &lease, &ops, &reads) == CAGZHOMUL_OK, "a transaction");
    check(cagzhomul_read(&none, &no_lease, ops.bytes, 0, &reads) == CAGZHOMUL_ALREADY_OPEN && reads.is_open, "it is there");
    check(ends(commit(&world, 5, &txn), CAGZHOMUL_CLOSED, 0, 0), "it is to be prepared");
    check(cagzhomul_read_again(&none, &reads, ops.bytes, ops.length) == CAGZHOMUL_CLOSED, "no world to read again");
    check(cagzhomul_read_again(&world, &nothing, ops.bytes, ops.length) == CAGZHOMUL_CLOSED, "and nothing to read for");
    check(prepare(&reads, &txn).status == CAGZHOMUL_OK && cagzhomul_prepare(&reads, &txn).status == CAGZHOMUL_ALREADY_OPEN, "it is prepared, and not over that");
    check(cagzhomul_prepare(&nothing, &txn).status == CAGZHOMUL_ALREADY_OPEN && txn.is_open, "which is said first");
    check(ends(commit(&none, 5, &txn), CAGZHOMUL_CLOSED, 0, 0) && txn.is_open, "no world to commit to");
    check(ends(commit(&world, 5, &other), CAGZHOMUL_CLOSED, 0, 0) && ends(commit(&none, 5, &other), CAGZHOMUL_CLOSED, 0, 0), "nothing to commit");
    check(ends(commit(&world, 5, &txn), CAGZHOMUL_OK, 2, 0) && !txn.is_open, "it is committed");
    check(ends(commit(&world, 5, &txn), CAGZHOMUL_CLOSED, 0, 0) && cagzhomul_close_txn(&txn) == CAGZHOMUL_CLOSED, "and closed");
    check(cagzhomul_close_reads(&reads) == CAGZHOMUL_OK && cagzhomul_close_reads(&reads) == CAGZHOMUL_CLOSED, "what it read, too");
    check(cagzhomul_close_lease(&lease) == CAGZHOMUL_OK && cagzhomul_close_lease(&lease) == CAGZHOMUL_CLOSED, "and its lease");
    check(cagzhomul_close_world(&world) == CAGZHOMUL_OK && cagzhomul_close_world(&world) == CAGZHOMUL_CLOSED, "and the world");
}

/* A query that is refused, of the world under the lease and of a snapshot that was taken under it. */
static void is_unanswered(cagzhomul_world_handle *world, cagzhomul_lease_handle *lease, cagzhomul_snapshot_handle *snapshot, const code *asked, int32_t status, uint32_t column) {
    cagzhomul_bytes_handle rows = {0};
    cagzhomul_queried it = query(world, 5, lease, asked, &rows), taken = query_snapshot(snapshot, asked, &rows);
    check(it.status == status && it.column == column && taken.status == status && taken.column == column && !rows.is_open, "the query is refused");
}

static void look_at_faults(cagzhomul_world_handle *world, cagzhomul_lease_handle *lease, cagzhomul_snapshot_handle *snapshot) {
    code asked = query_code(PEOPLE, TOWN, 1);
    put_equal(&asked, TOWN, "Ulm");
    for (size_t length = 0; length < asked.length; length++) {
        code part = asked;
        part.length = length;
        is_unanswered(world, lease, snapshot, &part, CAGZHOMUL_BAD_CODE, 0);
    }
    put_byte(&asked, 0);
    is_unanswered(world, lease, snapshot, &asked, CAGZHOMUL_BAD_CODE, 0);
    asked = query_code(7, 9, 0);
    is_unanswered(world, lease, snapshot, &asked, CAGZHOMUL_NO_TABLE, 0);
    asked = query_code(PEOPLE, 9, 0);
    is_unanswered(world, lease, snapshot, &asked, CAGZHOMUL_NOT_PUBLIC, 9);
    asked = query_code(PEOPLE, TOWN, 1), put_equal(&asked, 8, "Ulm");
    is_unanswered(world, lease, snapshot, &asked, CAGZHOMUL_NOT_PUBLIC, 8);
    asked = query_code(PEOPLE, TOWN, 1), put_byte(&asked, 1), put_number(&asked, TOWN, 4), put_int(&asked, 1);
    is_unanswered(world, lease, snapshot, &asked, CAGZHOMUL_WRONG_TYPE, 0);
    asked = query_code(PEOPLE, TOWN, 1), put_byte(&asked, 0), put_number(&asked, 0, 8);
    is_unanswered(world, lease, snapshot, &asked, CAGZHOMUL_WRONG_TYPE, 0);
}

static int32_t asks(cagzhomul_world_handle *world, uint64_t moment, cagzhomul_lease_handle *lease, cagzhomul_bytes_handle *rows) {
    code asked = query_code(PEOPLE, TOWN, 0);
    return cagzhomul_query(world, moment, lease, asked.bytes, asked.length, rows).status;
}

static int32_t asks_snapshot(cagzhomul_snapshot_handle *snapshot, cagzhomul_bytes_handle *rows) {
    code asked = query_code(PEOPLE, TOWN, 0);
    return cagzhomul_snapshot_query(snapshot, asked.bytes, asked.length, rows).status;
}

/* Queries by leases and of moments that are none, of closed handles, and with faults. */
static void look_at_queries(void) {
    cagzhomul_world_handle world = {0}, other = {0}, none_open = {0};
    cagzhomul_lease_handle lease = {0}, strange = {0};
    cagzhomul_snapshot_handle snapshot = {0};
    cagzhomul_bytes_handle rows = {0};
    code opening = opening_code(10, "town"), longer = opening_code(20, "town"), none = rows_code(0), all = query_code(PEOPLE, TOWN, 0);
    uint8_t out[ROOM] = {0};
    check(open_tables(&world, &opening) == CAGZHOMUL_OK && open_tables(&other, &longer) == CAGZHOMUL_OK, "worlds");
    check(asks(&world, 5, &lease, &rows) == CAGZHOMUL_CLOSED && asks_snapshot(&snapshot, &rows) == CAGZHOMUL_CLOSED, "no lease, no snapshot");
    check(cagzhomul_snapshot_check(&snapshot).status == CAGZHOMUL_CLOSED && cagzhomul_close_snapshot(&snapshot) == CAGZHOMUL_CLOSED, "nor anything to audit or to close");
    check(cagzhomul_lease(&world, 5, &lease).status == CAGZHOMUL_OK && cagzhomul_lease(&other, 5, &strange).status == CAGZHOMUL_OK, "leases");
    check(asks(&none_open, 5, &lease, &rows) == CAGZHOMUL_CLOSED, "no world");
    check(cagzhomul_snapshot(&world, 5, &lease, &snapshot) == CAGZHOMUL_OK, "a snapshot");
    check(cagzhomul_snapshot(&none_open, 5, &lease, &snapshot) == CAGZHOMUL_ALREADY_OPEN && snapshot.is_open, "which is not overwritten");
    check(asks(&world, (UINT64_C(1) << 62) + 1, &lease, &rows) == CAGZHOMUL_MOMENT_TOO_LARGE, "a moment above 2^62");
    check(asks(&world, 5, &strange, &rows) == CAGZHOMUL_BAD_LEASE && asks(&world, 15, &lease, &rows) == CAGZHOMUL_LEASE_ENDED, "leases");
    look_at_faults(&world, &lease, &snapshot);
    check(!rows.is_open && cagzhomul_bytes_from(&rows, 0, out, ROOM).status == CAGZHOMUL_CLOSED && cagzhomul_close_bytes(&rows) == CAGZHOMUL_CLOSED, "nothing was answered");
    check(answers(&world, 14, &lease, &all, &none) && snapshot_answers(&snapshot, &all, &none), "there are no rows");
    check(asks(&world, 5, &lease, &rows) == CAGZHOMUL_OK && asks(&world, 5, &lease, &rows) == CAGZHOMUL_ALREADY_OPEN, "not twice");
    check(asks(&none_open, 5, &strange, &rows) == CAGZHOMUL_ALREADY_OPEN && asks_snapshot(&snapshot, &rows) == CAGZHOMUL_ALREADY_OPEN, "and not over the rows");
    cagzhomul_close_bytes(&rows), cagzhomul_close_lease(&strange), cagzhomul_close_world(&other);
    cagzhomul_close_snapshot(&snapshot), cagzhomul_close_lease(&lease), cagzhomul_close_world(&world);
}

/* A page that is refused, of the world under the lease and of a snapshot that was taken under it. */
static void is_no_page(cagzhomul_world_handle *world, cagzhomul_lease_handle *lease, cagzhomul_snapshot_handle *snapshot, const code *asked, int32_t status, uint32_t column) {
    cagzhomul_bytes_handle rows = {0};
    cagzhomul_paged it = page(world, 5, lease, asked, &rows), taken = page_snapshot(snapshot, asked, &rows);
    check(it.status == status && it.column == column && it.more == 0 && !rows.is_open, "the page is refused");
    check(taken.status == status && taken.column == column && taken.more == 0, "that of the snapshot, too");
}

static void look_at_page_faults(cagzhomul_world_handle *world, cagzhomul_lease_handle *lease, cagzhomul_snapshot_handle *snapshot) {
    code asked = page_code(1, 2, 3, PEOPLE, TOWN, 1);
    put_equal(&asked, TOWN, "Ulm");
    for (size_t length = 0; length < asked.length; length++) {
        code part = asked;
        part.length = length;
        is_no_page(world, lease, snapshot, &part, CAGZHOMUL_BAD_CODE, 0);
    }
    put_byte(&asked, 0);
    is_no_page(world, lease, snapshot, &asked, CAGZHOMUL_BAD_CODE, 0);
    asked = page_code(0, 0, 0, 7, 9, 0);
    is_no_page(world, lease, snapshot, &asked, CAGZHOMUL_BAD_COUNT, 0);
    asked = page_code(0, 0, 1001, PEOPLE, TOWN, 0);
    is_no_page(world, lease, snapshot, &asked, CAGZHOMUL_BAD_COUNT, 0);
    asked = page_code(0, 0, 1, 7, 9, 0);
    is_no_page(world, lease, snapshot, &asked, CAGZHOMUL_NO_TABLE, 0);
    asked = page_code(0, 0, 1, PEOPLE, 9, 0);
    is_no_page(world, lease, snapshot, &asked, CAGZHOMUL_NOT_PUBLIC, 9);
    asked = (code){0};
    put_byte(&asked, 1), put_byte(&asked, 1), put_number(&asked, 1, 8), put_text(&asked, "a"), put_byte(&asked, 0), put_number(&asked, 1, 4);
    put_number(&asked, PEOPLE, 4), put_number(&asked, 1, 8), put_number(&asked, TOWN, 4), put_number(&asked, 0, 8);
    is_no_page(world, lease, snapshot, &asked, CAGZHOMUL_WRONG_TYPE, 0);
    asked = (code){0};
    put_byte(&asked, 1), put_byte(&asked, 0), put_byte(&asked, 1), put_number(&asked, 0, 8), put_number(&asked, 1, 4);
    put_number(&asked, PEOPLE, 4), put_number(&asked, 1, 8), put_number(&asked, TOWN, 4), put_number(&asked, 0, 8);
    is_no_page(world, lease, snapshot, &asked, CAGZHOMUL_WRONG_TYPE, 0);
}

static int32_t asks_page(cagzhomul_world_handle *world, uint64_t moment, cagzhomul_lease_handle *lease, cagzhomul_bytes_handle *rows) {
    code asked = page_code(0, 0, 1, PEOPLE, TOWN, 0);
    return cagzhomul_query_page(world, moment, lease, asked.bytes, asked.length, rows).status;
}

static int32_t asks_page_of(cagzhomul_snapshot_handle *snapshot, cagzhomul_bytes_handle *rows) {
    code asked = page_code(0, 0, 1, PEOPLE, TOWN, 0);
    return cagzhomul_snapshot_query_page(snapshot, asked.bytes, asked.length, rows).status;
}

/* Pages by leases and of moments that are none, of closed handles, and with faults. */
static void look_at_pages(void) {
    cagzhomul_world_handle world = {0}, none = {0};
    cagzhomul_lease_handle lease = {0};
    cagzhomul_snapshot_handle snapshot = {0};
    cagzhomul_bytes_handle rows = {0};
    code opening = opening_code(10, "town");
    check(asks_page(&world, 5, &lease, &rows) == CAGZHOMUL_CLOSED && asks_page_of(&snapshot, &rows) == CAGZHOMUL_CLOSED, "no world, no snapshot");
    check(open_tables(&world, &opening) == CAGZHOMUL_OK && asks_page(&world, 5, &lease, &rows) == CAGZHOMUL_CLOSED, "no lease");
    check(cagzhomul_lease(&world, 5, &lease).status == CAGZHOMUL_OK && cagzhomul_snapshot(&world, 5, &lease, &snapshot) == CAGZHOMUL_OK, "a snapshot");
    check(asks_page(&none, 5, &lease, &rows) == CAGZHOMUL_CLOSED, "no world");
    check(asks_page(&world, (UINT64_C(1) << 62) + 1, &lease, &rows) == CAGZHOMUL_MOMENT_TOO_LARGE && asks_page(&world, 15, &lease, &rows) == CAGZHOMUL_LEASE_ENDED, "moments");
    look_at_page_faults(&world, &lease, &snapshot);
    check(!rows.is_open && asks_page_of(&snapshot, &rows) == CAGZHOMUL_OK && rows.is_open, "there are no rows");
    check(asks_page(&none, 5, &lease, &rows) == CAGZHOMUL_ALREADY_OPEN && asks_page_of(&snapshot, &rows) == CAGZHOMUL_ALREADY_OPEN, "not over them");
    cagzhomul_close_bytes(&rows), cagzhomul_close_snapshot(&snapshot), cagzhomul_close_lease(&lease), cagzhomul_close_world(&world);
}

/* A query of what the transaction read that is refused. */
static void is_unread(cagzhomul_reads_handle *reads, const code *asked, int32_t status, uint32_t column) {
    cagzhomul_bytes_handle rows = {0};
    cagzhomul_queried it = query_read(reads, asked, &rows);
    check(it.status == status && it.column == column && !rows.is_open, "the query of what was read is refused");
}

static void look_at_read_faults(cagzhomul_reads_handle *reads) {
    code asked = query_code(PEOPLE, TOWN, 1);
    put_key(&asked, 1);
    for (size_t length = 0; length < asked.length; length++) {
        code part = asked;
        part.length = length;
        is_unread(reads, &part, CAGZHOMUL_BAD_CODE, 0);
    }
    put_byte(&asked, 0);
    is_unread(reads, &asked, CAGZHOMUL_BAD_CODE, 0);
    asked = query_code(PEOPLE, TOWN, 0);
    is_unread(reads, &asked, CAGZHOMUL_BAD_CODE, 0);
    asked = query_code(PEOPLE, TOWN, 1), put_equal(&asked, TOWN, "Ulm");
    is_unread(reads, &asked, CAGZHOMUL_BAD_CODE, 0);
    asked = query_code(PEOPLE, TOWN, 2), put_key(&asked, 1), put_equal(&asked, TOWN, "Ulm");
    is_unread(reads, &asked, CAGZHOMUL_BAD_CODE, 0);
    asked = query_code(7, TOWN, 1), put_key(&asked, 2);
    is_unread(reads, &asked, CAGZHOMUL_NO_TABLE, 0);
    asked = query_code(PEOPLE, 9, 1), put_key(&asked, 2);
    is_unread(reads, &asked, CAGZHOMUL_NOT_PUBLIC, 9);
    asked = query_code(PEOPLE, TOWN, 1), put_byte(&asked, 0), put_number(&asked, 0, 8);
    is_unread(reads, &asked, CAGZHOMUL_WRONG_TYPE, 0);
    asked = query_code(PEOPLE, TOWN, 1), put_key(&asked, 2);
    is_unread(reads, &asked, CAGZHOMUL_VIEW_MISMATCH, 0);
}

/* Queries of what a transaction read, and other operations for it, of closed handles, and with faults. */
static void look_at_reads(void) {
    cagzhomul_world_handle world = {0};
    cagzhomul_lease_handle lease = {0};
    cagzhomul_reads_handle reads = {0};
    cagzhomul_txn_handle txn = {0};
    cagzhomul_bytes_handle rows = {0};
    code opening = opening_code(10, "town"), ops = one(INSERT, 1, "Ulm"), asked = query_code(PEOPLE, TOWN, 1);
    put_key(&asked, 1);
    is_unread(&reads, &asked, CAGZHOMUL_CLOSED, 0);
    check(give(&world, &reads, &ops) == CAGZHOMUL_CLOSED, "no transaction");
    check(open_tables(&world, &opening) == CAGZHOMUL_OK && cagzhomul_lease(&world, 5, &lease).status == CAGZHOMUL_OK, "a lease");
    check(give(&world, &reads, &ops) == CAGZHOMUL_CLOSED, "it is to be read first");
    is_unread(&reads, &asked, CAGZHOMUL_CLOSED, 0);
    check(read_txn(&world, &lease, &ops, &reads) == CAGZHOMUL_OK, "it is read");
    look_at_read_faults(&reads);
    for (size_t length = 0; length < ops.length; length++)
        check(cagzhomul_read_again(&world, &reads, ops.bytes, length) == CAGZHOMUL_BAD_CODE, "a part is no operations");
    check(has_read(&reads, 1, NULL), "it stays as it was");
    check(query_read(&reads, &asked, &rows).status == CAGZHOMUL_OK && query_read(&reads, &asked, &rows).status == CAGZHOMUL_ALREADY_OPEN, "not over an answer");
    check(cagzhomul_close_bytes(&rows) == CAGZHOMUL_OK && give(&world, &reads, &ops) == CAGZHOMUL_OK && give(&world, &reads, &ops) == CAGZHOMUL_OK, "it is read as often as one likes");
    check(prepare(&reads, &txn).status == CAGZHOMUL_OK && has_read(&reads, 1, NULL), "it is prepared, and what was read stays");
    code other = touch(2, 0);
    check(give(&world, &reads, &other) == CAGZHOMUL_OK && has_read(&reads, 2, NULL), "also while it is read again");
    is_unread(&reads, &asked, CAGZHOMUL_VIEW_MISMATCH, 0);
    check(cagzhomul_close_reads(&reads) == CAGZHOMUL_OK && ends(commit(&world, 5, &txn), CAGZHOMUL_OK, 2, 0), "and is committed as it was prepared");
    is_unread(&reads, &asked, CAGZHOMUL_CLOSED, 0);
    cagzhomul_close_lease(&lease), cagzhomul_close_world(&world);
}

/* Schemas of what is closed, and into a handle that is open. */
static void look_at_schemas(void) {
    cagzhomul_world_handle world = {0}, none = {0};
    cagzhomul_lease_handle lease = {0}, no_lease = {0};
    cagzhomul_bytes_handle schema = {0};
    code opening = opening_code(10, "town");
    check(cagzhomul_schema(&world, &schema) == CAGZHOMUL_CLOSED && cagzhomul_lease_schema(&lease, &schema) == CAGZHOMUL_CLOSED, "no world, no lease");
    check(open_tables(&world, &opening) == CAGZHOMUL_OK && cagzhomul_lease(&world, 5, &lease).status == CAGZHOMUL_OK, "a lease");
    check(!schema.is_open && is_at(&world, ABSENT) && is_on(&lease, ABSENT) && is_on(&lease, ABSENT), "as often as is asked");
    check(cagzhomul_lease_schema(&lease, &schema) == CAGZHOMUL_OK, "a schema");
    check(cagzhomul_schema(&none, &schema) == CAGZHOMUL_ALREADY_OPEN && cagzhomul_lease_schema(&no_lease, &schema) == CAGZHOMUL_ALREADY_OPEN, "which is said first");
    check(cagzhomul_close_world(&world) == CAGZHOMUL_OK && cagzhomul_close_bytes(&schema) == CAGZHOMUL_OK && is_on(&lease, ABSENT), "a lease has its schema without the world");
    cagzhomul_close_lease(&lease);
}

int main(void) {
    is_ample = 1;
    look_at_codes();
    look_at_handles();
    look_at_queries();
    look_at_pages();
    look_at_reads();
    look_at_schemas();
    return refuse_each(play) | refuse_each(play_reads);
}
