/* Refuses each allocation of a short session, and of another one that repeats its log and carries the
   change under way to its end, one in each run, and looks at what the call that met the refusal
   left: a status, and handles that are closed, or usable with nothing changed. Also the calls' other
   refusals. It prints how many allocations were refused, and ends with 0 if all was as
   include/cagzhomul.h says. */
#include "refusing.h"
#include "talk.h"

enum { ROOM = 512, FILL = 0x5a };

static const char *const LINES[] = {
    "table people (id int key, town text, age int)",
    "index by_age on people (age)",
    "open",
    "lease a at 5",
    "txn a at 5: insert people (1) set town = 'Ulm'; insert people (2) set town = 'Bonn'",
    "plan: add index by_town on people (town)",
    "next at 10",
    "lease b at 10",
    "txn b at 12: insert people (3) set town = 'Ulm'",
    "txn a at 13: delete people (2)",
    "query b at 14: select town from people where town = 'Ulm'",
    "what",
    "log",
    "check",
};
enum { MANY = sizeof LINES / sizeof *LINES, OPEN = 2, ENTRIES = 6 };

static char replies[MANY][ROOM];
static long ended, refused_lines, refused_calls;

static cagzhomul_outcome ask(talk *with, const char *line, uint8_t *out) {
    memset(out, FILL, ROOM);
    return say(with, line, out, ROOM);
}

static int is_reply(cagzhomul_outcome outcome, const uint8_t *out, const char *wanted) {
    int status = strcmp(wanted, "bad line\n") ? CAGZHOMUL_OK : CAGZHOMUL_BAD_LINE;
    return outcome.status == status && outcome.length == strlen(wanted) &&
           memcmp(out, wanted, outcome.length) == 0 && out[outcome.length] == FILL;
}

static int is_closed(talk *with) {
    uint8_t out[ROOM];
    cagzhomul_outcome line = ask(with, "check", out);
    cagzhomul_outcome rest = cagzhomul_reply_from(&with->session, 0, out, ROOM);
    cagzhomul_outcome entry = cagzhomul_entry(&with->world, 1, out, ROOM);
    return line.status == CAGZHOMUL_CLOSED && line.length == 0 && rest.status == CAGZHOMUL_CLOSED &&
           rest.length == 0 && entry.status == CAGZHOMUL_CLOSED && entry.length == 0 &&
           out[0] == FILL && cagzhomul_repeat(&with->world, out, 1) == CAGZHOMUL_CLOSED &&
           cagzhomul_close_session(&with->session) == CAGZHOMUL_CLOSED &&
           cagzhomul_close_world(&with->world) == CAGZHOMUL_CLOSED;
}

/* One line, of which any allocation may be refused. Gives the line to go on with. */
static int step(talk *with, int at) {
    uint8_t out[ROOM];
    cagzhomul_outcome outcome = ask(with, LINES[at], out);
    if (is_reply(outcome, out, replies[at])) return at + 1;
    check(is_reached, "a reply differs only after a refusal");
    if (outcome.status == CAGZHOMUL_OUT_OF_MEMORY) {
        ended++;
        check(outcome.length == 0 && out[0] == FILL, "nothing is written without memory");
        check(is_closed(with), "both handles are closed after it");
        check(cagzhomul_session_open(&with->session) == CAGZHOMUL_OK, "and the session is opened again");
        return 0;
    }
    refused_lines++;
    check(is_reply(outcome, out, "refused Memory\n"), "the line is refused for memory");
    /* a refused `open` forgets what was declared */
    return wrong ? MANY : at == OPEN ? 0 : at;
}

/* A session that has had so many of the lines. */
static void begin(talk *with, int many) {
    int32_t opened = cagzhomul_session_open(&with->session);
    if (opened != CAGZHOMUL_OK) {
        check(is_reached && opened == CAGZHOMUL_OUT_OF_MEMORY, "open is refused for memory");
        check(is_closed(with), "the handle stays closed");
        check(cagzhomul_session_open(&with->session) == CAGZHOMUL_OK, "and is opened then");
    }
    for (int at = 0; at < many;) at = step(with, at);
}

/* The code of an entry, of which any allocation may be refused. */
static size_t code_of(cagzhomul_world_handle *world, size_t place, uint8_t *out) {
    memset(out, FILL, ROOM);
    cagzhomul_outcome outcome = cagzhomul_entry(world, place, out, ROOM);
    if (outcome.status == CAGZHOMUL_OUT_OF_MEMORY) {
        refused_calls++;
        check(is_reached && outcome.length == 0 && out[0] == FILL, "no code is written without memory");
        outcome = cagzhomul_entry(world, place, out, ROOM);
    }
    check(outcome.status == CAGZHOMUL_OK && outcome.length < ROOM && out[outcome.length] == FILL, "a code that fits");
    return outcome.length < ROOM ? outcome.length : 0;
}

/* An entry is repeated, of which any allocation may be refused. */
static void repeat(cagzhomul_world_handle *world, size_t place, const uint8_t *code, size_t length) {
    uint8_t out[ROOM];
    int32_t status = cagzhomul_repeat(world, code, length);
    if (status == CAGZHOMUL_OUT_OF_MEMORY) {
        refused_calls++;
        check(is_reached, "memory runs out only after a refusal");
        check(cagzhomul_entry(world, place, out, ROOM).status == CAGZHOMUL_NO_ENTRY, "the log is as it was");
        status = cagzhomul_repeat(world, code, length);
    }
    check(status == CAGZHOMUL_OK, "the entry is repeated");
    check(cagzhomul_entry(world, place + 1, out, ROOM).status == CAGZHOMUL_NO_ENTRY, "and is the last one");
}

/* Whether both sessions have this reply to the line. */
static int reply_alike(talk *one, talk *other, const char *line) {
    uint8_t first[ROOM], second[ROOM];
    cagzhomul_outcome it = ask(one, line, first), same = ask(other, line, second);
    return it.status == CAGZHOMUL_OK && same.status == CAGZHOMUL_OK && it.length == same.length &&
           memcmp(first, second, ROOM) == 0;
}

/* The change under way is carried to its end, of which any allocation may be refused. */
static void advance(cagzhomul_world_handle *world) {
    uint64_t moment = 14;
    for (int acts = 0; acts < MANY && !wrong; acts++) {
        cagzhomul_advanced done = cagzhomul_advance(world, moment, 2, 1);
        if (done.status == CAGZHOMUL_OUT_OF_MEMORY) {
            refused_calls++;
            check(is_reached && done.until == 0, "memory runs out only after a refusal");
            done = cagzhomul_advance(world, moment, 2, 1);
        }
        if (done.status == CAGZHOMUL_FINISHED) return;
        check(done.status == CAGZHOMUL_OK || (done.status == CAGZHOMUL_WAITING && done.until > moment), "an act, or a wait");
        if (done.status == CAGZHOMUL_WAITING) moment = done.until;
    }
    check(0, "the change ends");
}

static void run(void) {
    talk first = {{0}, {0}}, replica = {{0}, {0}};
    uint8_t code[ROOM];
    begin(&first, MANY);
    begin(&replica, OPEN + 1);
    for (size_t place = 1; place <= ENTRIES && !wrong; place++)
        repeat(&replica.world, place, code, code_of(&first.world, place, code));
    is_ample = 1;
    check(reply_alike(&first, &replica, "pairs") && reply_alike(&first, &replica, "status"), "the worlds are equal");
    is_ample = 0;
    advance(&replica.world);
    is_ample = 1;
    check(is_reply(ask(&replica, "check", code), code, "ok rows 2 missing 0 extra 0\n"), "and no pair is missing");
    is_ample = 0;
    check(is_over(&first), "it is closed");
    check(is_over(&replica), "and so is the other one");
}

static void note_replies(void) {
    talk with = {{0}, {0}};
    uint8_t out[ROOM];
    cagzhomul_session_open(&with.session);
    for (int at = 0; at < MANY; at++) {
        cagzhomul_outcome outcome = ask(&with, LINES[at], out);
        int status = strcmp(LINES[at], "what") ? CAGZHOMUL_OK : CAGZHOMUL_BAD_LINE;
        check(outcome.status == status && outcome.length < ROOM, "a reply that fits");
        memcpy(replies[at], out, outcome.length);
        check(strncmp(replies[at], "refused", 7), LINES[at]);
    }
    check(is_over(&with), "both are closed");
}

static void look_at_refusals(void) {
    talk with = {{0}, {0}};
    uint8_t out[ROOM], text[ROOM];
    check(is_closed(&with), "all zeros is closed");
    check(cagzhomul_session_open(&with.session) == CAGZHOMUL_OK, "it opens");
    check(cagzhomul_session_open(&with.session) == CAGZHOMUL_ALREADY_OPEN, "and not twice");
    check(cagzhomul_session_attach(&with.session) == CAGZHOMUL_ALREADY_OPEN, "in neither way");
    check(cagzhomul_reply_from(&with.session, 0, out, ROOM).length == 0, "there is no reply yet");
    check(is_reply(ask(&with, "length 7", out), out, "ok\n"), "a line is answered");
    cagzhomul_outcome outcome = ask(&with, "\xff", out);
    check(outcome.status == CAGZHOMUL_NOT_UTF8 && outcome.length == 0 && out[0] == FILL, "no UTF-8");
    outcome = cagzhomul_reply_from(&with.session, 1, out, 1);
    check(outcome.status == CAGZHOMUL_OK && outcome.length == 3 && out[0] == 'k' && out[1] == FILL, "a part");
    outcome = cagzhomul_reply_from(&with.session, SIZE_MAX, out, ROOM);
    check(outcome.status == CAGZHOMUL_OK && outcome.length == 3 && out[0] == 'k', "far behind the end");
    outcome = say(&with, "open", out, 0);
    check(outcome.status == CAGZHOMUL_OK && outcome.length == 17 && out[0] == 'k', "no room");
    check(is_reply(cagzhomul_reply_from(&with.session, 0, out, 17), out, "refused BadTable\n"), "and then room");
    check(!with.world.is_open && cagzhomul_close_session(&with.session) == CAGZHOMUL_OK && is_closed(&with), "it closes");
    check(cagzhomul_text_of(CAGZHOMUL_OUT_OF_MEMORY, text, ROOM) == 13 && !memcmp(text, "out of memory", 13), "a text");
    check(cagzhomul_text_of(INT32_MIN, text, 2) == 9 && !memcmp(text, "not", 3), "a text that does not fit");
}

static void look_at_entries(void) {
    talk with = {{0}, {0}};
    uint8_t out[ROOM], code[ROOM] = {0};
    cagzhomul_session_open(&with.session);
    check(cagzhomul_entry(&with.world, 0, out, ROOM).status == CAGZHOMUL_CLOSED, "no log before `open`");
    check(cagzhomul_repeat(&with.world, code, 0) == CAGZHOMUL_CLOSED, "and no world");
    ask(&with, "table people (id int key)", out);
    ask(&with, "open", out);
    ask(&with, "lease a at 5", out);
    memset(out, FILL, ROOM);
    const size_t none[] = {0, 2, SIZE_MAX};
    for (int at = 0; at < 3; at++) {
        cagzhomul_outcome outcome = cagzhomul_entry(&with.world, none[at], out, ROOM);
        check(outcome.status == CAGZHOMUL_NO_ENTRY && outcome.length == 0 && out[0] == FILL, "no such place");
    }
    cagzhomul_outcome outcome = cagzhomul_entry(&with.world, 1, out, 9);
    check(outcome.status == CAGZHOMUL_OK && outcome.length == 34 && out[8] == 5 && out[9] == FILL, "a part of a code");
    outcome = cagzhomul_entry(&with.world, 1, code, ROOM);
    check(outcome.status == CAGZHOMUL_OK && !memcmp(code, out, 9) && code[9] == 0 && code[33] == 15, "the whole of it");
    for (size_t length = 0; length < 34; length++)
        check(cagzhomul_repeat(&with.world, code, length) == CAGZHOMUL_BAD_ENTRY, "a part is no entry");
    check(cagzhomul_repeat(&with.world, code, 35) == CAGZHOMUL_BAD_ENTRY, "nor is more");
    code[8] = 4;
    check(cagzhomul_repeat(&with.world, code, 34) == CAGZHOMUL_NOT_NEXT, "a moment that is too low");
    code[8] = code[25] = 6, code[33] = 16;
    check(cagzhomul_repeat(&with.world, code, 34) == CAGZHOMUL_OK, "a later lease");
    memset(out, FILL, ROOM);
    check(is_reply(cagzhomul_reply_from(&with.session, 0, out, ROOM), out, "ok lease 1 5 15\n"), "the last reply stays");
    check(is_over(&with), "both are closed");
}

int main(void) {
    note_replies();
    look_at_refusals();
    look_at_entries();
    do {
        count = is_reached = 0;
        refused++;
        run();
    } while (is_reached && !wrong);
    printf("%ld allocations were refused: %ld ended the session, %ld a line, %ld an entry\n",
           refused - 1, ended, refused_lines, refused_calls);
    return wrong || !ended || !refused_lines || !refused_calls;
}
