/* Moments that are further beyond that of the last entry than a world allows: each call with a moment, a line, and an entry that is repeated
   are refused, and nothing has changed after it; the furthest moment itself is not, nor is any before the first entry, or in a world that
   allows any jump. It prints how much was looked at, and ends with 0 if all was as include/cagzhomul.h says. */
#include "cagzhomul.h"
#include "codes.h"
#include "talk.h"
#include <stdio.h>

enum { ROOM = 4096, BY_TOWN = 2, LENGTH = 10, JUMP = 20, LAST = 1030, NEAR = LAST + JUMP, FAR = NEAR + 1 };

static const uint64_t MOST = UINT64_C(1) << 62;

static long looked, wrong_answers;

static void check(int holds, const char *what) {
    looked++;
    if (holds) return;
    fprintf(stderr, "not so: %s\n", what);
    wrong_answers++;
}

/* The bytes of a world's checkpoint: they say all that a world is, but for the entries that are in memory. */
typedef struct saved {
    uint8_t bytes[ROOM];
    size_t length, entries, start;
} saved;

static saved save(cagzhomul_world_handle *world) {
    saved it = {{0}, 0, cagzhomul_log_length(world).length, cagzhomul_log_start(world).length};
    cagzhomul_checkpoint_handle checkpoint = {0};
    cagzhomul_bytes_handle bytes = {0};
    check(cagzhomul_checkpoint(world, &checkpoint) == CAGZHOMUL_OK && cagzhomul_save(&checkpoint, &bytes) == CAGZHOMUL_OK, "a checkpoint is saved");
    it.length = cagzhomul_bytes_from(&bytes, 0, it.bytes, ROOM).length;
    check(it.length > 0 && it.length <= ROOM, "its bytes fit");
    cagzhomul_close_bytes(&bytes), cagzhomul_close_checkpoint(&checkpoint);
    return it;
}

static int is_same(const saved *one, const saved *other) {
    return one->length == other->length && one->entries == other->entries && one->start == other->start && !memcmp(one->bytes, other->bytes, ROOM);
}

static code one(uint8_t kind, int64_t id) {
    code ops = ops_code(1);
    put_op(&ops, kind, PEOPLE, id, TOWN, "Ulm");
    return ops;
}

static code page_code(void) {
    code it = {{1}, 1};
    put_byte(&it, 0), put_byte(&it, 0), put_number(&it, 9, 4);
    put_number(&it, PEOPLE, 4), put_number(&it, 1, 8), put_number(&it, TOWN, 4), put_number(&it, 0, 8);
    return it;
}

static int is_lease(cagzhomul_granted it, int32_t status) {
    return it.status == status && (status == CAGZHOMUL_OK || (!it.version && !it.granted && !it.until && !it.place));
}

/* A world, one of each thing that a call with a moment takes, and a session of lines; the log's last entry is of the moment LAST. */
static talk with;
static cagzhomul_lease_handle lease;
static cagzhomul_reads_handle reads;
static cagzhomul_txn_handle txn;
static cagzhomul_prepared_piece_handle prepared;

/* Before the first entry no moment is too far: each call is refused for another reason, or is accepted. */
static void look_before_entries(void) {
    cagzhomul_world_handle *world = &with.world;
    cagzhomul_bytes_handle bytes = {0};
    code opening = opening_code(LENGTH, "town"), step = go_code(BY_TOWN, PUBLIC);
    check(cagzhomul_open(world, opening.bytes, opening.length, JUMP) == CAGZHOMUL_OK, "a world with a furthest jump");
    check(cagzhomul_publish(world, MOST, step.bytes, step.length).status == CAGZHOMUL_UNKNOWN, "a step");
    check(cagzhomul_publish(world, MOST + 1, step.bytes, step.length).status == CAGZHOMUL_MOMENT_TOO_LARGE, "a moment that is too large");
    check(cagzhomul_begin_reorg(world, MOST, BY_TOWN, 1).status == CAGZHOMUL_NOT_WANTED, "a reorganisation");
    check(cagzhomul_advance(world, MOST, 1, 1).status == CAGZHOMUL_FINISHED, "an advance");
    check(cagzhomul_due_entry(world, MOST, 1, 1, &bytes).status == CAGZHOMUL_FINISHED && !bytes.is_open, "what is due");
    check(is_lease(cagzhomul_lease(world, MOST + 1, &lease), CAGZHOMUL_MOMENT_TOO_LARGE), "a lease at a moment that is too large");
    check(is_lease(cagzhomul_lease(world, 1000, &lease), CAGZHOMUL_OK), "the first lease may be at any moment");
    check(cagzhomul_log_length(world).length == 1, "it is the first entry");
}

static void make_things(void) {
    cagzhomul_world_handle *world = &with.world;
    cagzhomul_piece_handle work = {0};
    code ops = one(INSERT, 1), enter = enter_code(), write_only = go_code(BY_TOWN, WRITE_ONLY), more = one(INSERT, 2);
    check(cagzhomul_write(world, 1000, &lease, ops.bytes, ops.length).status == CAGZHOMUL_OK, "a row");
    check(cagzhomul_publish(world, 1010, enter.bytes, enter.length).status == CAGZHOMUL_OK, "an index enters");
    check(cagzhomul_publish(world, 1020, write_only.bytes, write_only.length).status == CAGZHOMUL_OK, "it is written");
    check(cagzhomul_begin_reorg(world, LAST, BY_TOWN, 1).status == CAGZHOMUL_OK, "its fill begins");
    check(cagzhomul_close_lease(&lease) == CAGZHOMUL_OK && is_lease(cagzhomul_lease(world, LAST, &lease), CAGZHOMUL_OK), "a lease on the newest version");
    check(cagzhomul_read(world, &lease, more.bytes, more.length, &reads) == CAGZHOMUL_OK && cagzhomul_prepare(&reads, &txn).status == CAGZHOMUL_OK, "a prepared transaction");
    check(cagzhomul_read_piece(world, BY_TOWN, 0, 1, &work) == CAGZHOMUL_OK && cagzhomul_prepare_piece(&work, &prepared) == CAGZHOMUL_OK, "a prepared piece");
    check(cagzhomul_session_attach(&with.session) == CAGZHOMUL_OK, "a session of lines");
}

static int is_refused(cagzhomul_committed it, int32_t status) {
    return it.status == status && !it.column && !it.place && !it.operation && !it.until && !it.now && !it.length;
}

/* Each call with a moment, at one that is too far. Bytes that are no code, and counts and moments that are none, are refused after it. */
static void are_too_far(uint64_t moment) {
    cagzhomul_world_handle *world = &with.world;
    cagzhomul_lease_handle other = {0};
    cagzhomul_bytes_handle bytes = {0};
    cagzhomul_snapshot_handle snapshot = {0};
    uint8_t out[1] = {9};
    code ops = one(INSERT, 3), asked = query_code(PEOPLE, TOWN, 0), page = page_code(), step = go_code(BY_TOWN, PUBLIC);
    const int32_t due = CAGZHOMUL_TOO_FAR;
    check(is_lease(cagzhomul_lease(world, moment, &other), due) && !other.is_open, "a lease");
    check(is_refused(cagzhomul_commit(world, moment, &txn, out, 1), due) && txn.is_open && out[0] == 9, "a commit");
    check(is_refused(cagzhomul_txn_entry(world, moment, &txn, out, 1, &bytes), due) && txn.is_open && out[0] == 9, "the entry of a commit");
    check(is_refused(cagzhomul_write(world, moment, &lease, ops.bytes, ops.length), due), "a write");
    check(is_refused(cagzhomul_write(world, moment, &lease, ops.bytes, 0), due), "a write of no operations");
    cagzhomul_queried query = cagzhomul_query(world, moment, &lease, asked.bytes, asked.length, &bytes), no_query = cagzhomul_query(world, moment, &lease, asked.bytes, 0, &bytes);
    check(query.status == due && query.column == 0 && no_query.status == due && no_query.column == 0, "a query");
    cagzhomul_paged paged = cagzhomul_query_page(world, moment, &lease, page.bytes, page.length, &bytes), no_page = cagzhomul_query_page(world, moment, &lease, page.bytes, 0, &bytes);
    check(paged.status == due && paged.column == 0 && paged.more == 0 && no_page.status == due && no_page.more == 0, "a page");
    check(cagzhomul_snapshot(world, moment, &lease, &snapshot) == due && !snapshot.is_open, "a snapshot");
    cagzhomul_changed published = cagzhomul_publish(world, moment, step.bytes, step.length), no_step = cagzhomul_publish(world, moment, step.bytes, 0);
    check(published.status == due && published.number == 0 && no_step.status == due && no_step.number == 0, "a step");
    cagzhomul_changed begun = cagzhomul_begin_reorg(world, moment, BY_TOWN, 1), no_pieces = cagzhomul_begin_reorg(world, moment, BY_TOWN, 0);
    check(begun.status == due && begun.number == 0 && no_pieces.status == due && no_pieces.number == 0, "a reorganisation");
    cagzhomul_advanced advanced = cagzhomul_advance(world, moment, 1, 1), no_limit = cagzhomul_advance(world, moment, 0, 0);
    check(advanced.status == due && advanced.until == 0 && no_limit.status == due && no_limit.until == 0, "an advance");
    cagzhomul_advanced entry = cagzhomul_due_entry(world, moment, 1, 1, &bytes), no_entry = cagzhomul_due_entry(world, moment, 0, 0, &bytes);
    check(entry.status == due && entry.until == 0 && no_entry.status == due && no_entry.until == 0, "what is due");
    cagzhomul_pieced pieced = cagzhomul_commit_piece(world, moment, &prepared);
    check(pieced.status == due && !pieced.ended && pieced.place == 0 && prepared.is_open, "a piece");
    check(!bytes.is_open, "no bytes were given");
}

/* Handles that are closed, or would be written over, are refused first. */
static void are_refused_before(void) {
    cagzhomul_world_handle *world = &with.world, none = {0};
    cagzhomul_lease_handle no_lease = {0};
    cagzhomul_txn_handle no_txn = {0};
    cagzhomul_prepared_piece_handle no_piece = {0};
    cagzhomul_snapshot_handle snapshot = {0};
    cagzhomul_bytes_handle bytes = {0}, full = {0};
    uint8_t out[1] = {9};
    code ops = one(INSERT, 3), asked = query_code(PEOPLE, TOWN, 0), page = page_code();
    check(is_lease(cagzhomul_lease(world, FAR, &lease), CAGZHOMUL_ALREADY_OPEN) && is_lease(cagzhomul_lease(&none, FAR, &no_lease), CAGZHOMUL_CLOSED), "a lease");
    check(is_refused(cagzhomul_commit(world, FAR, &no_txn, out, 1), CAGZHOMUL_CLOSED), "a commit");
    check(is_refused(cagzhomul_write(world, FAR, &no_lease, ops.bytes, ops.length), CAGZHOMUL_CLOSED), "a write");
    check(cagzhomul_query(world, FAR, &no_lease, asked.bytes, asked.length, &bytes).status == CAGZHOMUL_CLOSED, "a query");
    check(cagzhomul_query_page(world, FAR, &no_lease, page.bytes, page.length, &bytes).status == CAGZHOMUL_CLOSED, "a page");
    check(cagzhomul_snapshot(world, FAR, &no_lease, &snapshot) == CAGZHOMUL_CLOSED, "a snapshot");
    check(cagzhomul_commit_piece(world, FAR, &no_piece).status == CAGZHOMUL_CLOSED, "a piece");
    check(cagzhomul_schema(world, &full) == CAGZHOMUL_OK, "bytes");
    check(is_refused(cagzhomul_txn_entry(world, FAR, &txn, out, 1, &full), CAGZHOMUL_ALREADY_OPEN) && is_refused(cagzhomul_txn_entry(world, FAR, &no_txn, out, 1, &bytes), CAGZHOMUL_CLOSED), "the entry of a commit");
    check(cagzhomul_due_entry(world, FAR, 1, 1, &full).status == CAGZHOMUL_ALREADY_OPEN && cagzhomul_due_entry(&none, FAR, 1, 1, &bytes).status == CAGZHOMUL_CLOSED, "what is due");
    check(cagzhomul_query(world, FAR, &lease, asked.bytes, asked.length, &full).status == CAGZHOMUL_ALREADY_OPEN, "an answer");
    check(cagzhomul_close_bytes(&full) == CAGZHOMUL_OK && !bytes.is_open && out[0] == 9, "nothing was given");
}

/* Lines of each kind that name a moment; the last reply stays. */
static void are_lines_too_far(void) {
    static const char *const LINES[] = {
        "lease a at 1051", "txn a at 1051: insert people (3)", "commit w at 1051", "query a at 1051: select town from people", "publish at 1051: move people.by_town to public",
        "next at 1051", "reorganise people.by_town at 1051 pieces 1", "work people.by_town at 1051 limit 1", "lease a at 4611686018427387905",
    };
    uint8_t out[ROOM] = {0};
    cagzhomul_outcome last = say(&with, "log", out, ROOM);
    check(last.status == CAGZHOMUL_OK && last.length == 9 && !memcmp(out, "ok log 6\n", 9), "a line without a moment");
    for (size_t at = 0; at < sizeof LINES / sizeof *LINES; at++) {
        memset(out, 9, ROOM);
        cagzhomul_outcome it = say(&with, LINES[at], out, ROOM);
        check(it.status == CAGZHOMUL_TOO_FAR && it.length == 0 && out[0] == 9, LINES[at]);
        it = cagzhomul_reply_from(&with.session, 0, out, ROOM);
        check(it.status == CAGZHOMUL_OK && it.length == 9 && !memcmp(out, "ok log 6\n", 9) && out[9] == 9, "the last reply stays");
    }
    check(say(&with, "lease a at 1051\xff", out, ROOM).status == CAGZHOMUL_NOT_UTF8, "no UTF-8");
    check(with.session.is_open && with.world.is_open, "both stay");
}

/* The entry of a lease that another world grants, which repeats the whole log. */
static size_t lease_entry(uint64_t moment, uint64_t jump, uint8_t *entry) {
    cagzhomul_world_handle other = {0};
    cagzhomul_lease_handle granted = {0};
    code opening = opening_code(LENGTH, "town");
    check(cagzhomul_open(&other, opening.bytes, opening.length, jump) == CAGZHOMUL_OK, "another world");
    for (size_t place = 1; place <= 6; place++) {
        size_t length = cagzhomul_entry(&with.world, place, entry, ROOM).length;
        check(cagzhomul_repeat(&other, entry, length) == CAGZHOMUL_OK, "it repeats the log");
    }
    check(is_lease(cagzhomul_lease(&other, moment, &granted), CAGZHOMUL_OK), "and grants a lease");
    size_t length = cagzhomul_entry(&other, 7, entry, ROOM).length;
    cagzhomul_close_lease(&granted), cagzhomul_close_world(&other);
    return length;
}

/* A world that a checkpoint becomes, or its bytes, has the furthest jump that it is opened with. */
static void look_at_checkpoints(void) {
    cagzhomul_checkpoint_handle checkpoint = {0};
    cagzhomul_world_handle apart = {0}, later = {0};
    cagzhomul_lease_handle other = {0};
    saved here = save(&with.world);
    check(cagzhomul_checkpoint(&with.world, &checkpoint) == CAGZHOMUL_OK && cagzhomul_open_checkpoint(&checkpoint, 5, &apart) == CAGZHOMUL_OK, "a world with a nearer jump");
    check(is_lease(cagzhomul_lease(&apart, LAST + 6, &other), CAGZHOMUL_TOO_FAR) && is_lease(cagzhomul_lease(&apart, LAST + 5, &other), CAGZHOMUL_OK), "of five moments");
    check(cagzhomul_close_lease(&other) == CAGZHOMUL_OK && is_lease(cagzhomul_lease(&apart, LAST + 10, &other), CAGZHOMUL_OK), "and then five more");
    check(cagzhomul_close_lease(&other) == CAGZHOMUL_OK && cagzhomul_close_world(&apart) == CAGZHOMUL_OK, "it is closed");
    check(cagzhomul_open_at(&later, here.bytes, here.length, 5) == CAGZHOMUL_OK && is_lease(cagzhomul_lease(&later, LAST + 6, &other), CAGZHOMUL_TOO_FAR), "also of its bytes");
    check(cagzhomul_close_world(&later) == CAGZHOMUL_OK && cagzhomul_open_at(&later, here.bytes, here.length, CAGZHOMUL_ANY_JUMP) == CAGZHOMUL_OK, "or with any jump");
    check(is_lease(cagzhomul_lease(&later, MOST, &other), CAGZHOMUL_OK) && cagzhomul_close_lease(&other) == CAGZHOMUL_OK, "it grants any lease");
    check(cagzhomul_close_world(&later) == CAGZHOMUL_OK, "it is closed");
}

/* At the furthest moment itself each call goes on to what else there is to say. */
static void look_near(void) {
    cagzhomul_world_handle *world = &with.world;
    cagzhomul_lease_handle other = {0};
    cagzhomul_bytes_handle bytes = {0};
    cagzhomul_snapshot_handle snapshot = {0};
    uint8_t out[ROOM] = {9}, entry[ROOM];
    code ops = one(INSERT, 3), asked = query_code(PEOPLE, TOWN, 0), page = page_code(), step = go_code(BY_TOWN, PUBLIC);
    cagzhomul_committed it = cagzhomul_commit(world, NEAR, &txn, out, ROOM), same = cagzhomul_txn_entry(world, NEAR, &txn, out, ROOM, &bytes);
    check(it.status == CAGZHOMUL_LEASE_ENDED && it.until == LAST + LENGTH && it.now == NEAR, "a commit");
    check(same.status == CAGZHOMUL_LEASE_ENDED && same.until == LAST + LENGTH && same.now == NEAR && txn.is_open && !bytes.is_open, "the entry of one");
    check(cagzhomul_write(world, NEAR, &lease, ops.bytes, ops.length).status == CAGZHOMUL_LEASE_ENDED, "a write");
    check(cagzhomul_query(world, NEAR, &lease, asked.bytes, asked.length, &bytes).status == CAGZHOMUL_LEASE_ENDED, "a query");
    check(cagzhomul_query_page(world, NEAR, &lease, page.bytes, page.length, &bytes).status == CAGZHOMUL_LEASE_ENDED, "a page");
    check(cagzhomul_snapshot(world, NEAR, &lease, &snapshot) == CAGZHOMUL_LEASE_ENDED, "a snapshot");
    check(cagzhomul_publish(world, NEAR, step.bytes, step.length).status == CAGZHOMUL_UNFINISHED, "a step");
    check(cagzhomul_begin_reorg(world, NEAR, BY_TOWN, 1).status == CAGZHOMUL_BEGUN, "a reorganisation");
    check(cagzhomul_due_entry(world, NEAR, 1, 1, &bytes).status == CAGZHOMUL_OK && cagzhomul_close_bytes(&bytes) == CAGZHOMUL_OK, "what is due");
    check(cagzhomul_log_length(world).length == 6, "none of these is an entry");
    size_t length = lease_entry(FAR, CAGZHOMUL_ANY_JUMP, entry);
    check(cagzhomul_repeat(world, entry, length) == CAGZHOMUL_NOT_NEXT && cagzhomul_log_length(world).length == 6, "an entry that is too far");
    length = lease_entry(NEAR, JUMP, entry);
    check(cagzhomul_repeat(world, entry, length) == CAGZHOMUL_OK && cagzhomul_log_length(world).length == 7, "one that is not");
    check(is_lease(cagzhomul_lease(world, FAR + JUMP, &other), CAGZHOMUL_TOO_FAR) && is_lease(cagzhomul_lease(world, NEAR + JUMP, &other), CAGZHOMUL_OK), "the next jump begins there");
    cagzhomul_outcome line = say(&with, "lease a at 1090", out, ROOM);
    check(line.status == CAGZHOMUL_OK && line.length == 21 && !memcmp(out, "ok lease 3 1090 1100\n", 21), "a line, too");
    check(cagzhomul_cut(world, 0) == CAGZHOMUL_OK && say(&with, "lease a at 1111", out, ROOM).status == CAGZHOMUL_TOO_FAR, "a log that is cut has its last moment");
    cagzhomul_pieced pieced = cagzhomul_commit_piece(world, 1110, &prepared);
    check(pieced.status == CAGZHOMUL_OK && pieced.place == 10 && !prepared.is_open, "a piece");
    check(cagzhomul_advance(world, 1131, 1, 1).status == CAGZHOMUL_TOO_FAR && cagzhomul_advance(world, 1130, 1, 1).status == CAGZHOMUL_OK, "an advance");
    check(is_lease(cagzhomul_lease(world, 0, &lease), CAGZHOMUL_ALREADY_OPEN) && cagzhomul_close_lease(&other) == CAGZHOMUL_OK, "a lease");
    check(is_lease(cagzhomul_lease(world, 0, &other), CAGZHOMUL_OK) && cagzhomul_close_lease(&other) == CAGZHOMUL_OK, "a moment that is past is none that is too far");
}

/* Worlds that allow any jump, and none. */
static void look_at_bounds(void) {
    cagzhomul_world_handle any = {0}, still = {0};
    cagzhomul_lease_handle first = {0}, second = {0};
    talk lines = {{0}, {0}};
    uint8_t out[ROOM] = {0};
    code opening = opening_code(LENGTH, "town");
    check(CAGZHOMUL_ANY_JUMP == UINT64_MAX, "any jump");
    check(cagzhomul_open(&any, opening.bytes, opening.length, CAGZHOMUL_ANY_JUMP) == CAGZHOMUL_OK && is_lease(cagzhomul_lease(&any, 0, &first), CAGZHOMUL_OK), "a world that allows it");
    check(is_lease(cagzhomul_lease(&any, UINT64_MAX, &second), CAGZHOMUL_MOMENT_TOO_LARGE) && is_lease(cagzhomul_lease(&any, MOST, &second), CAGZHOMUL_OK), "as far as moments go");
    cagzhomul_close_lease(&first), cagzhomul_close_lease(&second), cagzhomul_close_world(&any);
    check(cagzhomul_open(&still, opening.bytes, opening.length, 0) == CAGZHOMUL_OK && is_lease(cagzhomul_lease(&still, 7, &first), CAGZHOMUL_OK), "a world that allows none");
    check(is_lease(cagzhomul_lease(&still, 8, &second), CAGZHOMUL_TOO_FAR) && is_lease(cagzhomul_lease(&still, 7, &second), CAGZHOMUL_OK), "stays at its moment");
    cagzhomul_close_lease(&first), cagzhomul_close_lease(&second), cagzhomul_close_world(&still);
    check(cagzhomul_session_open(&lines.session) == CAGZHOMUL_OK && say(&lines, "table people (id int key)", out, ROOM).status == CAGZHOMUL_OK, "a session of lines");
    check(say(&lines, "open", out, ROOM).status == CAGZHOMUL_OK && say(&lines, "lease a at 1", out, ROOM).status == CAGZHOMUL_OK, "opens its world");
    cagzhomul_outcome it = say(&lines, "lease a at 4611686018427387904", out, ROOM);
    check(it.status == CAGZHOMUL_OK && !memcmp(out, "ok lease 1 4611686018427387904 ", 31), "with any jump");
    check(is_over(&lines), "both are closed");
}

int main(void) {
    look_before_entries();
    make_things();
    saved before = save(&with.world);
    are_too_far(FAR), are_too_far(MOST), are_too_far(MOST + 1), are_too_far(UINT64_MAX);
    are_refused_before();
    are_lines_too_far();
    saved after = save(&with.world);
    check(is_same(&before, &after), "nothing has changed");
    look_at_checkpoints();
    look_near();
    look_at_bounds();
    check(cagzhomul_close_txn(&txn) == CAGZHOMUL_OK && cagzhomul_close_reads(&reads) == CAGZHOMUL_OK && cagzhomul_close_lease(&lease) == CAGZHOMUL_OK, "what was taken is closed");
    check(is_over(&with), "the world and its session, too");
    printf("%ld checks, %ld wrong\n", looked, wrong_answers);
    return wrong_answers != 0;
}
