/* Sessions of lines and the worlds in which their lines are answered: over a world that typed calls opened, over several worlds in turn, two
   sessions over one world, and over a world that is closed, or open too early.
   Each allocation is refused in turn, one in each run: a call that met it answers CAGZHOMUL_OUT_OF_MEMORY, and of a line both handles are then
   closed; or the line is answered `refused Memory`, and both go on. It prints how many allocations were refused, and ends with 0 if all was as
   include/cagzhomul.h says. */
#include "calls.h"
#include "codes.h"
#include "talk.h"

enum { ROOM = 2048 };

static uint8_t out[ROOM];

/* Whether the line is answered so in this world. */
static int answers_in(cagzhomul_session_handle *session, cagzhomul_world_handle *world, const char *line, const char *wanted) {
    memset(out, 9, ROOM);
    cagzhomul_outcome it = cagzhomul_reply_to(session, world, (const uint8_t *)line, strlen(line), out, ROOM);
    return it.status == (strcmp(wanted, "bad line\n") ? CAGZHOMUL_OK : CAGZHOMUL_BAD_LINE) && it.length == strlen(wanted) && !memcmp(out, wanted, it.length) && out[it.length] == 9;
}

static int answers(talk *with, const char *line, const char *wanted) { return answers_in(&with->session, &with->world, line, wanted); }

/* Whether the line is refused with this status; the last reply, which is given, stays, and nothing is written. */
static int refuses_in(cagzhomul_session_handle *session, cagzhomul_world_handle *world, const char *line, int32_t status, const char *last) {
    memset(out, 9, ROOM);
    cagzhomul_outcome it = cagzhomul_reply_to(session, world, (const uint8_t *)line, strlen(line), out, ROOM);
    int is_so = it.status == status && it.length == 0 && out[0] == 9;
    it = cagzhomul_reply_from(session, 0, out, ROOM);
    return is_so && it.status == CAGZHOMUL_OK && it.length == strlen(last) && !memcmp(out, last, it.length) && out[it.length] == 9;
}

static void open_people(cagzhomul_world_handle *world, uint64_t lease_length) {
    code opening = opening_code(lease_length, "town");
    int32_t status = cagzhomul_open(world, opening.bytes, opening.length, CAGZHOMUL_ANY_JUMP);
    if (is_short(status)) status = cagzhomul_open(world, opening.bytes, opening.length, CAGZHOMUL_ANY_JUMP);
    check(status == CAGZHOMUL_OK, "tables are opened");
}

static void attach(cagzhomul_session_handle *session) {
    int32_t status = cagzhomul_session_attach(session);
    if (is_short(status)) {
        check(!session->is_open, "no session was opened");
        status = cagzhomul_session_attach(session);
    }
    check(status == CAGZHOMUL_OK, "a session behind its line `open`");
}

/* ---- one world, by lines and by calls, with each allocation refused */

static long ended, refused_lines;

/* Whether the line was answered so; 0 if it met the refused allocation and both handles are closed. */
static int goes_on(talk *with, const char *line, const char *wanted) {
    if (answers(with, line, wanted)) return 1;
    check(is_reached, "a reply differs only after a refusal");
    if (!with->session.is_open) {
        ended++;
        check(!with->world.is_open && out[0] == 9 && cagzhomul_log_length(&with->world).status == CAGZHOMUL_CLOSED, "both handles are closed, and nothing is written");
        check(cagzhomul_reply_from(&with->session, 0, out, ROOM).status == CAGZHOMUL_CLOSED && !is_over(with), "nor is anything left");
        return 0;
    }
    refused_lines++;
    check(!memcmp(out, "refused Memory\n", 15), "the line is refused for memory");
    check(answers(with, line, wanted), "and is answered then");
    return !wrong;
}

static void play(void) {
    static const char *const LINES[][2] = {
        {"lease a at 6", "ok lease 1 6 16\n"}, {"txn a at 6: insert people (2) set town = 'Bonn'", "ok done 4\n"},
        {"query a at 6: select town from people", "row (1) town = 'Ulm'\nrow (2) town = 'Bonn'\nok rows 2\n"}, {"prepare w by a: delete people (1)", "ok prepared\n"},
        {"table towns (id int key)", "bad line\n"}, {"open", "bad line\n"}, {"commit w at 7", "ok done 5\n"}, {"check", "ok rows 1 missing 0 extra 0\n"},
    };
    talk with = {{0}, {0}};
    cagzhomul_lease_handle lease = {0};
    code ops = ops_code(1);
    put_op(&ops, INSERT, PEOPLE, 1, TOWN, "Ulm");
    open_people(&with.world, 10), attach(&with.session);
    cagzhomul_granted granted = cagzhomul_lease(&with.world, 5, &lease);
    if (is_short(granted.status)) granted = cagzhomul_lease(&with.world, 5, &lease);
    cagzhomul_committed it = cagzhomul_write(&with.world, 5, &lease, ops.bytes, ops.length);
    if (is_short(it.status)) it = cagzhomul_write(&with.world, 5, &lease, ops.bytes, ops.length);
    check(granted.status == CAGZHOMUL_OK && it.status == CAGZHOMUL_OK && it.place == 2, "calls write a row");
    check(cagzhomul_reply_from(&with.session, 0, out, ROOM).length == 0, "there is no reply yet");
    for (size_t at = 0; at < sizeof LINES / sizeof *LINES; at++)
        if (!goes_on(&with, LINES[at][0], LINES[at][1])) {
            check(cagzhomul_close_lease(&lease) == CAGZHOMUL_OK, "the lease stays");
            return;
        }
    check(cagzhomul_log_length(&with.world).length == 5, "both are in the one log");
    check(cagzhomul_close_lease(&lease) == CAGZHOMUL_OK && is_over(&with), "all are closed");
}

/* ---- worlds that come and go */

/* A session keeps its leases and prepared work by name, whatever world is given with a line. */
static void look_at_worlds(void) {
    cagzhomul_session_handle session = {0}, none = {0};
    cagzhomul_world_handle world = {0}, other = {0}, closed = {0};
    open_people(&world, 10), open_people(&other, 20), attach(&session);
    check(cagzhomul_session_attach(&session) == CAGZHOMUL_ALREADY_OPEN && cagzhomul_session_open(&session) == CAGZHOMUL_ALREADY_OPEN, "not twice");
    check(answers_in(&session, &world, "lease a at 5", "ok lease 1 5 15\n"), "a lease of one world");
    check(answers_in(&session, &world, "prepare w by a: insert people (1) set town = 'Ulm'", "ok prepared\n"), "and work");
    check(answers_in(&session, &other, "txn a at 5: insert people (1) set town = 'Ulm'", "refused BadLease\n"), "the other world refuses the lease");
    check(answers_in(&session, &other, "commit w at 5", "refused BadLease\n"), "and the work");
    check(answers_in(&session, &other, "log", "ok log 0\n") && answers_in(&session, &world, "log", "ok log 1\n"), "which has a log of its own");
    check(answers_in(&session, &world, "commit w at 5", "ok done 2\n"), "the work stayed");
    check(refuses_in(&session, &closed, "log", CAGZHOMUL_CLOSED, "ok done 2\n"), "no line is answered in a world that is closed");
    check(refuses_in(&session, &closed, "\xff", CAGZHOMUL_CLOSED, "ok done 2\n") && refuses_in(&session, &world, "\xff", CAGZHOMUL_NOT_UTF8, "ok done 2\n"), "which is said before no UTF-8");
    check(cagzhomul_close_world(&world) == CAGZHOMUL_OK && refuses_in(&session, &world, "log", CAGZHOMUL_CLOSED, "ok done 2\n"), "nor in one that was closed");
    check(answers_in(&session, &other, "check", "ok rows 0 missing 0 extra 0\n"), "it goes on in the other world");
    check(cagzhomul_reply_to(&none, &other, (const uint8_t *)"log", 3, out, ROOM).status == CAGZHOMUL_CLOSED, "a closed session answers nothing");
    check(cagzhomul_reply_from(&none, 0, out, ROOM).status == CAGZHOMUL_CLOSED && cagzhomul_close_session(&none) == CAGZHOMUL_CLOSED, "and has no reply");
    check(cagzhomul_close_session(&session) == CAGZHOMUL_OK && cagzhomul_log_length(&other).status == CAGZHOMUL_OK, "the world stays without its session");
    check(cagzhomul_close_world(&other) == CAGZHOMUL_OK, "it is closed");
}

/* A session before its line `open` takes a closed world alone. */
static void look_before_open(void) {
    talk with = {{0}, {0}};
    cagzhomul_world_handle world = {0};
    open_people(&world, 10);
    check(cagzhomul_session_open(&with.session) == CAGZHOMUL_OK && refuses_in(&with.session, &world, "table towns (id int key)", CAGZHOMUL_ALREADY_OPEN, ""), "no open world");
    check(answers(&with, "table towns (id int key)", "ok\n") && answers(&with, "log", "bad line\n"), "it is before its line `open`");
    check(refuses_in(&with.session, &world, "open", CAGZHOMUL_ALREADY_OPEN, "bad line\n") && refuses_in(&with.session, &world, "\xff", CAGZHOMUL_ALREADY_OPEN, "bad line\n"), "still none");
    check(refuses_in(&with.session, &with.world, "\xff", CAGZHOMUL_NOT_UTF8, "bad line\n"), "no UTF-8");
    check(!with.world.is_open && answers(&with, "open", "ok version 1\n") && with.world.is_open, "its line opens the world");
    check(cagzhomul_log_length(&with.world).status == CAGZHOMUL_OK && cagzhomul_log_length(&world).length == 0, "of its own");
    check(answers_in(&with.session, &world, "log", "ok log 0\n"), "and then it takes any");
    check(is_over(&with) && cagzhomul_close_world(&world) == CAGZHOMUL_OK, "all are closed");
    check(cagzhomul_session_open(&with.session) == CAGZHOMUL_OK && answers(&with, "open", "refused BadTable\n"), "no world without tables");
    check(!with.world.is_open && refuses_in(&with.session, &with.world, "\xff", CAGZHOMUL_NOT_UTF8, "refused BadTable\n"), "a refused `open` opens none");
    check(answers(&with, "table towns (id int key)", "ok\n") && answers(&with, "open", "ok version 1\n"), "and another may");
    check(is_over(&with), "both are closed");
}

/* Two sessions over one world, and calls; each has its own names, and its own last reply. */
static void look_at_two(void) {
    talk with = {{0}, {0}};
    cagzhomul_session_handle second = {0};
    cagzhomul_lease_handle lease = {0};
    code ops = ops_code(1);
    put_op(&ops, INSERT, PEOPLE, 3, TOWN, "Hof");
    check(cagzhomul_session_open(&with.session) == CAGZHOMUL_OK && answers(&with, "table people (id int key, town text)", "ok\n") && answers(&with, "open", "ok version 1\n"), "a world by lines");
    attach(&second);
    check(answers_in(&second, &with.world, "lease a at 5", "ok lease 1 5 15\n") && answers(&with, "txn a at 5: delete people (1)", "refused NoServer\n"), "names are of a session");
    check(answers(&with, "lease a at 6", "ok lease 1 6 16\n") && answers(&with, "txn a at 6: insert people (1) set town = 'Ulm'", "ok done 3\n"), "another server of that name");
    check(answers_in(&second, &with.world, "txn a at 6: insert people (2) set town = 'Bonn'", "ok done 4\n"), "both write to the one world");
    check(cagzhomul_lease(&with.world, 6, &lease).status == CAGZHOMUL_OK && cagzhomul_write(&with.world, 6, &lease, ops.bytes, ops.length).place == 6, "and so do calls");
    cagzhomul_outcome it = cagzhomul_reply_from(&with.session, 0, out, ROOM);
    check(it.length == 10 && !memcmp(out, "ok done 3\n", 10), "the last reply of the first session stays");
    check(answers(&with, "check", "ok rows 3 missing 0 extra 0\n") && answers_in(&second, &with.world, "log", "ok log 6\n"), "they see the same");
    check(is_over(&with) && cagzhomul_close_session(&second) == CAGZHOMUL_OK && cagzhomul_close_lease(&lease) == CAGZHOMUL_OK, "all are closed");
}

int main(void) {
    is_ample = 1;
    look_at_worlds();
    look_before_open();
    look_at_two();
    return refuse_each(play) || !ended || !refused_lines;
}
