/* The engine over a store of this program's own, which does nothing but compare and write: rows are inserted while an
   index enters, under two versions at once; a stale server, a draft that is handed in twice and a piece that was read too
   long ago are refused; queries find the rows by key, by index and by a walk; checks by pages find what was taken away or
   put in by hand. Then the index leaves, by whatever is due.
   Each allocation is refused in turn, one in each run: the call that met it answers CAGZHOMUL_OUT_OF_MEMORY, gave
   nothing, and is made again. It prints how many allocations were refused, and ends with 0 if all was as
   include/cagzhomul_layer.h says. */
#define CODE_ROOM 4096
#include "calls.h"
#include "codes.h"

#include "cagzhomul_layer.h"

enum { PAIRS = 64, SIZE = 400, BY_TOWN = 2 };

/* ---- a store that compares and writes */

typedef struct bytes {
    uint8_t at[SIZE];
    size_t length;
} bytes;

typedef struct pair {
    bytes key, value;
} pair;

typedef struct store {
    pair pairs[PAIRS]; /* by rising key */
    size_t count;
} store;

static int compare(const bytes *one, const bytes *other) {
    size_t least = one->length < other->length ? one->length : other->length;
    int order = memcmp(one->at, other->at, least);
    return order ? order : (one->length > other->length) - (one->length < other->length);
}

static size_t place_of(const store *of, const bytes *key) {
    size_t at = 0;
    while (at < of->count && compare(&of->pairs[at].key, key) < 0) at++;
    return at;
}

static const bytes *value_of(const store *of, const bytes *key) {
    size_t at = place_of(of, key);
    return at < of->count && !compare(&of->pairs[at].key, key) ? &of->pairs[at].value : NULL;
}

static void put(store *to, const bytes *key, const bytes *value) {
    size_t at = place_of(to, key);
    if (at == to->count || compare(&to->pairs[at].key, key)) {
        memmove(&to->pairs[at + 1], &to->pairs[at], (to->count++ - at) * sizeof(pair));
        to->pairs[at].key = *key;
    }
    to->pairs[at].value = *value;
}

static void take(store *from, const bytes *key) {
    size_t at = place_of(from, key);
    if (at == from->count || compare(&from->pairs[at].key, key)) return;
    memmove(&from->pairs[at], &from->pairs[at + 1], (--from->count - at) * sizeof(pair));
}

/* ---- drafts, as docs/FORMAT.md has them */

typedef struct reader {
    const uint8_t *at;
    size_t left;
} reader;

static uint64_t get_number(reader *from, int count) {
    uint64_t number = 0;
    while (count-- > 0 && from->left) number = number << 8 | *from->at++, from->left--;
    return number;
}

static bytes get_bytes(reader *from) {
    bytes it = {{0}, (size_t)get_number(from, 8)};
    check(it.length <= SIZE && it.length <= from->left, "the code is whole");
    if (it.length > SIZE || it.length > from->left) return (bytes){{0}, 0};
    memcpy(it.at, from->at, it.length);
    from->at += it.length, from->left -= it.length;
    return it;
}

static int get_value(reader *from, bytes *value) {
    int is_there = (int)get_number(from, 1);
    if (is_there) *value = get_bytes(from);
    return is_there;
}

/* Whether a range of the store has just the pairs that follow. */
static int holds_range(const store *of, reader *draft) {
    bytes low = get_bytes(draft), high = get_bytes(draft);
    size_t at = place_of(of, &low), end = place_of(of, &high), same = 1;
    for (uint64_t many = get_number(draft, 8); many--; at++) {
        bytes key = get_bytes(draft), value = get_bytes(draft);
        same = same && at < end && !compare(&of->pairs[at].key, &key) && !compare(&of->pairs[at].value, &value);
    }
    return same && at == end;
}

/* Applies a draft if all that it compares is so. */
static int applies(store *to, const code *draft) {
    reader from = {draft->bytes + 1, draft->length - 1};
    int same = 1;
    for (uint64_t many = get_number(&from, 8); many--;) {
        bytes key = get_bytes(&from), value;
        const bytes *there = value_of(to, &key);
        int wanted = get_value(&from, &value);
        same = same && (wanted ? there && !compare(there, &value) : !there);
    }
    for (uint64_t many = get_number(&from, 8); many--;) same = holds_range(to, &from) && same;
    if (!same) return 0;
    for (uint64_t many = get_number(&from, 8); many--;) {
        bytes key = get_bytes(&from), value;
        if (get_value(&from, &value)) put(to, &key, &value);
        else take(to, &key);
    }
    check(from.left == 0, "the draft ends");
    return 1;
}

/* ---- keys and what is read */

static bytes key_of(uint8_t kind, uint64_t number) {
    code it = {{kind}, 1};
    put_number(&it, number, 8);
    bytes key = {{0}, it.length};
    memcpy(key.at, it.bytes, it.length);
    return key;
}

static bytes cursor_of(uint64_t element, uint64_t piece) {
    bytes key = key_of(2, element);
    for (int at = 7; at >= 0; at--) key.at[key.length++] = (uint8_t)(piece >> (8 * at));
    return key;
}

static bytes record_of(const store *of, bytes key) {
    const bytes *there = value_of(of, &key);
    check(there != NULL, "the record is there");
    return there ? *there : (bytes){{0}, 0};
}

static void put_bytes(code *to, const bytes *from) {
    put_number(to, from->length, 8);
    for (size_t at = 0; at < from->length; at++) put_byte(to, from->at[at]);
}

/* The code of all pairs whose keys begin with a byte from `first` up to `last`. */
static code pairs_code(const store *of, uint8_t first, uint8_t last) {
    code it = {{1}, 1};
    uint64_t many = 0;
    for (size_t at = 0; at < of->count; at++) many += of->pairs[at].key.at[0] >= first && of->pairs[at].key.at[0] <= last;
    put_number(&it, many, 8);
    for (size_t at = 0; at < of->count; at++)
        if (of->pairs[at].key.at[0] >= first && of->pairs[at].key.at[0] <= last) put_bytes(&it, &of->pairs[at].key), put_bytes(&it, &of->pairs[at].value);
    return it;
}

/* What the store has at keys that are given by the code of points. */
static code view_code(const store *of, const code *keys) {
    reader from = {keys->bytes + 1, keys->length - 1};
    uint64_t many = get_number(&from, 8);
    code it = {{1}, 1};
    for (put_number(&it, many, 8); many--;) {
        bytes key = get_bytes(&from), none;
        const bytes *there = value_of(of, &key);
        check(!get_value(&from, &none), "a key that is to be read has no value");
        put_bytes(&it, &key), put_byte(&it, there ? 1 : 0);
        if (there) put_bytes(&it, there);
    }
    return it;
}

/* ---- calls, made again if memory runs out */

/* Whether these bytes were not written to: they are 9. */
static int is_clear(const uint8_t *bytes, size_t length) {
    for (size_t at = 0; at < length; at++)
        if (bytes[at] != 9) return 0;
    return 1;
}

static int is_alone(cagzhomul_layered it, int32_t status, uint64_t number) {
    return it.status == status && it.number == number && it.length == 0;
}

/* The bytes that a call gives, which is to come to this status and number. It writes to `out`, of so much `room`: first there is
   room for all, and, in the first run, then for half of them. */
#define GIVES(status_due, number_due, call)                                                                            \
    ({                                                                                                                 \
        code whole = {{0}, 0}, half = {{0}, 0};                                                                        \
        uint8_t *out = whole.bytes;                                                                                    \
        size_t room = CODE_ROOM;                                                                                       \
        memset(whole.bytes, 9, CODE_ROOM), memset(half.bytes, 9, CODE_ROOM);                                           \
        cagzhomul_layered it = call;                                                                                   \
        if (is_short(it.status)) {                                                                                     \
            check(is_alone(it, CAGZHOMUL_OUT_OF_MEMORY, 0) && it.column == 0, "nothing was given");                    \
            check(is_clear(out, room), "nor written");                                                                 \
            it = call;                                                                                                 \
        }                                                                                                              \
        check(it.status == (status_due) && it.number == (number_due), #call);                                          \
        check((it.length > 0) == (it.status == CAGZHOMUL_OK), "there are bytes if and only if it was not refused");    \
        whole.length = it.length < CODE_ROOM ? it.length : CODE_ROOM;                                                  \
        check(it.length <= CODE_ROOM && is_clear(whole.bytes + whole.length, CODE_ROOM - whole.length), "they fit");   \
        if (refused < 2) {                                                                                             \
            const int was_ample = is_ample;                                                                            \
            out = half.bytes, room = whole.length / 2, is_ample = 1;                                                   \
            cagzhomul_layered same = call;                                                                             \
            check(same.status == it.status && same.number == it.number && same.length == it.length, "it is called again"); \
            check(!memcmp(half.bytes, whole.bytes, room) && is_clear(half.bytes + room, CODE_ROOM - room), "a half of them"); \
            is_ample = was_ample;                                                                                      \
        }                                                                                                              \
        whole;                                                                                                         \
    })

static code transact(const store *of, uint64_t number, const bytes *version, code ops, const char *mark, int32_t status, uint64_t at) {
    code keys = GIVES(CAGZHOMUL_OK, 0, cagzhomul_layer_reads(version->at, version->length, ops.bytes, ops.length, out, room));
    code view = view_code(of, &keys);
    return GIVES(status, at, cagzhomul_layer_txn(number, version->at, version->length, ops.bytes, ops.length, view.bytes, view.length, (const uint8_t *)mark, strlen(mark), out, room));
}

static code insert_code(int64_t id, const char *town) {
    code ops = ops_code(1);
    put_op(&ops, INSERT, PEOPLE, id, TOWN, town);
    return ops;
}

static code publish(const store *of, uint32_t before, code step, int32_t status, uint64_t number) {
    bytes version = record_of(of, key_of(0, before + 1));
    code found = pairs_code(of, 1, 1);
    return GIVES(status, number, cagzhomul_layer_publish(before, version.at, version.length, step.bytes, step.length, found.bytes, found.length, out, room));
}

/* A query of the table with one condition, or none. */
static code ask_code(int condition, int64_t id, const char *town) {
    code it = {{1}, 1};
    put_number(&it, PEOPLE, 4), put_number(&it, 1, 8), put_number(&it, TOWN, 4), put_number(&it, condition ? 1 : 0, 8);
    if (condition == 1) put_byte(&it, 0), put_number(&it, 1, 8), put_int(&it, id);
    if (condition == 2) put_byte(&it, 1), put_number(&it, TOWN, 4), put_text(&it, town);
    return it;
}

/* How many rows a query finds by this path, of a store that is read whole. */
static uint64_t rows_found(const store *of, const bytes *version, code query, uint64_t path) {
    code all = pairs_code(of, 'R', 'X');
    GIVES(CAGZHOMUL_OK, path, cagzhomul_layer_ranges(version->at, version->length, query.bytes, query.length, out, room));
    GIVES(CAGZHOMUL_OK, path == 2 ? 2 : 0, cagzhomul_layer_row_ranges(version->at, version->length, query.bytes, query.length, all.bytes, all.length, out, room));
    code rows = GIVES(CAGZHOMUL_OK, 0, cagzhomul_layer_rows(version->at, version->length, query.bytes, query.length, all.bytes, all.length, out, room));
    reader from = {rows.bytes + 1, rows.length ? rows.length - 1 : 0};
    return get_number(&from, 8);
}

static int is_clean(const store *of, const bytes *version, uint64_t rows) {
    code all = pairs_code(of, 'R', 'X');
    cagzhomul_checked it = cagzhomul_layer_check(version->at, version->length, all.bytes, all.length);
    if (is_short(it.status)) it = cagzhomul_layer_check(version->at, version->length, all.bytes, all.length);
    return it.status == CAGZHOMUL_OK && it.rows == rows && it.missing == 0 && it.extra == 0;
}

/* ---- a check page by page */

/* Adds the store's pairs in the ranges of a code to what was read. */
static void add_ranges(store *to, const store *of, const code *ranges) {
    reader from = {ranges->bytes + 1, ranges->length ? ranges->length - 1 : 0};
    for (uint64_t many = get_number(&from, 8); many--;) {
        bytes low = get_bytes(&from), high = get_bytes(&from);
        for (size_t at = place_of(of, &low), end = place_of(of, &high); at < end; at++) put(to, &of->pairs[at].key, &of->pairs[at].value);
    }
}

/* What a page counts for, of which all pairs were read; what it needs besides is read, too. */
static cagzhomul_checked check_page(store *read, const store *of, const bytes *version, const bytes *low, const bytes *to) {
    code pairs = pairs_code(read, 'R', 'X');
    code rows = GIVES(CAGZHOMUL_OK, 0, cagzhomul_layer_check_rows(version->at, version->length, pairs.bytes, pairs.length, low->at, low->length, to->at, to->length, out, room));
    add_ranges(read, of, &rows), pairs = pairs_code(read, 'R', 'X');
    code given = GIVES(CAGZHOMUL_OK, 0, cagzhomul_layer_check_given(version->at, version->length, pairs.bytes, pairs.length, low->at, low->length, to->at, to->length, out, room));
    add_ranges(read, of, &given), pairs = pairs_code(read, 'R', 'X');
    cagzhomul_checked it = cagzhomul_layer_check_page(version->at, version->length, pairs.bytes, pairs.length, low->at, low->length, to->at, to->length);
    if (is_short(it.status)) it = cagzhomul_layer_check_page(version->at, version->length, pairs.bytes, pairs.length, low->at, low->length, to->at, to->length);
    return it;
}

/* Whether the pages of three pairs, of which there are so many, and the store as a whole count for these. */
static int counts(const store *of, const bytes *version, size_t pages, uint64_t rows, uint64_t missing, uint64_t extra) {
    static store read;
    cagzhomul_checked sums = {0};
    bytes low = {{0}, 0}, first = {{'R'}, 1}, last = {{'Y'}, 1};
    size_t at = place_of(of, &first), end = place_of(of, &last), found = 0;
    for (; at < end; found++) {
        bytes to = at + 3 < end ? of->pairs[at + 3].key : (bytes){{0}, 0};
        for (read.count = 0; at < end && read.count < 3; at++) put(&read, &of->pairs[at].key, &of->pairs[at].value);
        cagzhomul_checked it = check_page(&read, of, version, &low, &to);
        check(it.status == CAGZHOMUL_OK, "a page is checked");
        sums.rows += it.rows, sums.missing += it.missing, sums.extra += it.extra, low = to;
    }
    code all = pairs_code(of, 'R', 'X');
    cagzhomul_checked whole = cagzhomul_layer_check(version->at, version->length, all.bytes, all.length);
    if (is_short(whole.status)) whole = cagzhomul_layer_check(version->at, version->length, all.bytes, all.length);
    check(whole.status == CAGZHOMUL_OK && whole.rows == rows && whole.missing == missing && whole.extra == extra, "the store as a whole counts for these");
    return found == pages && sums.rows == rows && sums.missing == missing && sums.extra == extra;
}

/* Three rows with a town, of which the first two of the index's pairs are taken away or put under a row that is not there: the one
   and the other lack their pair, and one pair is of no row. */
static void check_by_pages(const store *kept, const bytes *version) {
    static store spoiled;
    bytes first = {{'X'}, 1}, none = {{0}, 0};
    check(counts(kept, version, 3, 3, 0, 0), "by pages nothing is missing, and nothing extra");
    spoiled = *kept;
    bytes gone = spoiled.pairs[place_of(&spoiled, &first)].key;
    take(&spoiled, &gone);
    check(counts(&spoiled, version, 3, 3, 1, 0), "by pages a pair is missing");
    bytes moved = spoiled.pairs[place_of(&spoiled, &first)].key;
    take(&spoiled, &moved), moved.at[moved.length - 1] = 9, put(&spoiled, &moved, &none);
    check(counts(&spoiled, version, 3, 3, 2, 1), "by pages a second one is, and another is extra");
    code bad = {{0}, 1};
    cagzhomul_checked it = cagzhomul_layer_check_page(version->at, version->length, bad.bytes, bad.length, none.at, 0, none.at, 0);
    check((it.status == CAGZHOMUL_BAD_CODE || is_short(it.status)) && it.rows == 0 && it.missing == 0 && it.extra == 0, "bytes that are no pairs are refused");
    GIVES(CAGZHOMUL_BAD_CODE, 0, cagzhomul_layer_check_rows(version->at, version->length, bad.bytes, bad.length, none.at, 0, none.at, 0, out, room));
    GIVES(CAGZHOMUL_BAD_CODE, 0, cagzhomul_layer_check_given(bad.bytes, bad.length, bad.bytes, bad.length, none.at, 0, none.at, 0, out, room));
}

/* What is due, by the control records whose keys begin with a byte from 0 up to `last`, of a plan of which so many steps have been published. */
static cagzhomul_due due(const store *of, uint32_t before, uint8_t last, const code *plan, uint64_t published) {
    bytes version = record_of(of, key_of(0, before + 1));
    code found = pairs_code(of, 0, last);
    cagzhomul_due it = cagzhomul_layer_due(before, version.at, version.length, found.bytes, found.length, plan->bytes, plan->length, published);
    if (is_short(it.status)) it = cagzhomul_layer_due(before, version.at, version.length, found.bytes, found.length, plan->bytes, plan->length, published);
    check(it.status == CAGZHOMUL_OK || (it.act == 0 && it.element == 0 && it.piece == 0), "a refusal says nothing else");
    return it;
}

static int is_due(const store *of, uint32_t before, const code *plan, uint64_t published, uint32_t act, uint32_t element) {
    cagzhomul_due it = due(of, before, 2, plan, published);
    return it.status == CAGZHOMUL_OK && it.act == act && it.element == element && it.piece == 0;
}

static code plan_of(const bytes *version, code changes) {
    return GIVES(CAGZHOMUL_OK, 0, cagzhomul_layer_plan(version->at, version->length, changes.bytes, changes.length, out, room));
}

/* ---- the story */

static void open_store(store *to) {
    code opening = opening_code(10, "town"), none = {{1}, 1};
    code draft = GIVES(CAGZHOMUL_OK, 0, cagzhomul_layer_open(opening.bytes, opening.length, out, room));
    check(applies(to, &draft), "the store is opened");
    check(!applies(to, &draft), "and not a second time");
    GIVES(CAGZHOMUL_BAD_CODE, 0, cagzhomul_layer_open(none.bytes, none.length, out, room));
}

static void write_rows(store *to) {
    bytes first = record_of(to, key_of(0, 1));
    code draft = transact(to, 1, &first, insert_code(1, "Ulm"), "a", CAGZHOMUL_OK, 0);
    check(applies(to, &draft), "a row is inserted");
    check(!applies(to, &draft), "a draft with a mark is applied once");
    transact(to, 1, &first, insert_code(1, "Bonn"), "", CAGZHOMUL_DUPLICATE, 0);
    check(rows_found(to, &first, ask_code(0, 0, ""), 2) == 1, "a walk finds it");
}

/* An index enters, while a server goes on under the version before. */
static code add_index(store *to) {
    bytes first = record_of(to, key_of(0, 1));
    code changes = changes_code(1), late = transact(to, 1, &first, insert_code(2, "Ulm"), "b", CAGZHOMUL_OK, 0);
    put_add_index(&changes, "by_town", "town");
    code plan = plan_of(&first, changes), none = {{1, 0}, 2};
    check(plan.length > 9 && plan.bytes[8] == 3, "the plan has three steps");
    check(is_due(to, 0, &plan, 0, CAGZHOMUL_DUE_PUBLISH, 0), "the first of them is due");
    check(due(to, 0, 2, &none, 0).status == CAGZHOMUL_BAD_CODE && due(to, 0, 'R', &plan, 0).status == CAGZHOMUL_BAD_CODE, "no plan, and a row among the records");
    code step = publish(to, 0, enter_code(), CAGZHOMUL_OK, 0), stale = transact(to, 1, &first, insert_code(3, "Rome"), "c", CAGZHOMUL_OK, 0);
    check(applies(to, &step) && applies(to, &late), "version 2 is open beside version 1");
    publish(to, 1, go_code(BY_TOWN, PUBLIC), CAGZHOMUL_NOT_ADJACENT, 0);
    check(is_due(to, 1, &plan, 1, CAGZHOMUL_DUE_PUBLISH, 0), "the second step is due");
    step = publish(to, 1, go_code(BY_TOWN, WRITE_ONLY), CAGZHOMUL_OK, 0);
    check(applies(to, &step), "version 3 is open");
    check(!applies(to, &stale), "version 1 is closed: a server that is too late is refused");
    publish(to, 2, go_code(BY_TOWN, PUBLIC), CAGZHOMUL_UNFINISHED, BY_TOWN);
    return plan;
}

static code close_before(const store *of, uint32_t before) {
    bytes version = record_of(of, key_of(0, before + 1));
    return GIVES(CAGZHOMUL_OK, 0, cagzhomul_layer_close(before, version.at, version.length, out, room));
}

static code begin(const store *of, uint32_t before, uint32_t element, int32_t status) {
    bytes version = record_of(of, key_of(0, before + 1));
    code keys = {{1}, 1};
    put_number(&keys, 0, 8);
    return GIVES(status, 0, cagzhomul_layer_begin(before, version.at, version.length, element, keys.bytes, keys.length, out, room));
}

/* A piece of the reorganisation of the index, whose range has keys of this kind, read to a key. */
static code piece(const store *of, uint8_t kind, const char *to, size_t length, int32_t status) {
    bytes reorg = record_of(of, key_of(1, BY_TOWN)), cursor = record_of(of, cursor_of(BY_TOWN, 0));
    code pairs = pairs_code(of, kind, kind);
    return GIVES(status, 0, cagzhomul_layer_piece(reorg.at, reorg.length, 0, cursor.at, cursor.length, (const uint8_t *)to, length, pairs.bytes, pairs.length, out, room));
}

/* The rest of a fill, from its cursor to the end. */
static code last_part(const store *of) {
    bytes cursor = record_of(of, cursor_of(BY_TOWN, 0)), reorg = record_of(of, key_of(1, BY_TOWN)), from = {{0}, cursor.length - 1};
    code rest = {{1}, 1};
    uint64_t many = 0;
    memcpy(from.at, cursor.at + 1, from.length);
    for (size_t at = place_of(of, &from); at < of->count && of->pairs[at].key.at[0] == 'R'; at++) many++;
    put_number(&rest, many, 8);
    for (size_t at = place_of(of, &from); at < of->count && of->pairs[at].key.at[0] == 'R'; at++) put_bytes(&rest, &of->pairs[at].key), put_bytes(&rest, &of->pairs[at].value);
    return GIVES(CAGZHOMUL_OK, 0, cagzhomul_layer_piece(reorg.at, reorg.length, 0, cursor.at, cursor.length, (const uint8_t *)"S", 1, rest.bytes, rest.length, out, room));
}

/* The index is filled in two parts, the first as far as the last row that was read. */
static void fill_index(store *to, const code *plan) {
    bytes third = record_of(to, key_of(0, 3));
    begin(to, 2, TOWN, CAGZHOMUL_NOT_WANTED);
    check(is_due(to, 2, plan, 2, CAGZHOMUL_DUE_CLOSE, 0), "a fill is wanted, for which version 2 is to be closed");
    code draft = begin(to, 2, BY_TOWN, CAGZHOMUL_OK);
    check(!applies(to, &draft), "no reorganisation begins while version 2 is open");
    code close = close_before(to, 2);
    check(applies(to, &close) && is_due(to, 2, plan, 2, CAGZHOMUL_DUE_BEGIN, BY_TOWN), "version 2 is closed, and the fill may begin");
    check(applies(to, &draft) && !applies(to, &draft), "it begins, once");
    check(is_due(to, 2, plan, 2, CAGZHOMUL_DUE_WORK, BY_TOWN), "its piece may be worked on");
    check(due(to, 2, 1, plan, 2).status == CAGZHOMUL_BAD_PIECE, "no piece is without a cursor");
    code part = piece(to, 'R', "R\0\0\0\1\3", 6, CAGZHOMUL_OK), row = transact(to, 3, &third, insert_code(0, "Rome"), "d", CAGZHOMUL_OK, 0);
    check(applies(to, &row) && !applies(to, &part), "a row came into the range: the piece is to be read again");
    part = piece(to, 'R', "R\0\0\0\1\3", 6, CAGZHOMUL_OK);
    check(applies(to, &part) && !applies(to, &part), "a part of the piece is done, once");
    check(is_due(to, 2, plan, 2, CAGZHOMUL_DUE_WORK, BY_TOWN), "and there is more");
    code step = publish(to, 2, go_code(BY_TOWN, PUBLIC), CAGZHOMUL_OK, 0);
    check(!applies(to, &step), "the index is not public before its fill has ended");
    part = last_part(to);
    check(applies(to, &part), "the rest is done");
    piece(to, 'R', "S", 1, CAGZHOMUL_SPENT);
    check(is_due(to, 2, plan, 2, CAGZHOMUL_DUE_PUBLISH, 0) && applies(to, &step), "the last step is due, and the index is public");
    check(is_due(to, 3, plan, 3, CAGZHOMUL_DUE_NOTHING, 0) && is_due(to, 3, plan, 9, CAGZHOMUL_DUE_NOTHING, 0), "nothing is due");
    check(due(to, 3, 2, plan, 2).status == CAGZHOMUL_NOT_WANTED, "nor is the step a second time");
}

/* The draft of what is due; `step` is the next one of the plan. */
static code draft_of(const store *of, uint32_t before, uint32_t act, code step) {
    if (act == CAGZHOMUL_DUE_BEGIN) return begin(of, before, BY_TOWN, CAGZHOMUL_OK);
    if (act == CAGZHOMUL_DUE_CLOSE) return close_before(of, before);
    if (act == CAGZHOMUL_DUE_WORK) return piece(of, 'X', "Y", 1, CAGZHOMUL_OK);
    return publish(of, before, step, CAGZHOMUL_OK, 0);
}

/* The index leaves: whatever is due is done, until nothing is. */
static void drop_index(store *to) {
    static const uint8_t states[] = {WRITE_ONLY, DELETE_ONLY, ABSENT, ABSENT};
    bytes fourth = record_of(to, key_of(0, 4));
    code changes = changes_code(1);
    put_named(&changes, DROP_INDEX, "by_town");
    code plan = plan_of(&fourth, changes);
    uint32_t before = 3, published = 0, acts = 0;
    for (cagzhomul_due it; acts < 9 && (it = due(to, before, 2, &plan, published)).act != CAGZHOMUL_DUE_NOTHING; acts++) {
        code draft = draft_of(to, before, it.act, go_code(BY_TOWN, states[published]));
        check(it.status == CAGZHOMUL_OK && applies(to, &draft), "what is due is applied");
        if (it.act == CAGZHOMUL_DUE_PUBLISH) before++, published++;
    }
    check(published == 3 && acts == 6, "three steps, and before the last one a close, a begin and a piece");
}

static void play(void) {
    static store kept;
    kept.count = 0;
    open_store(&kept);
    write_rows(&kept);
    code plan = add_index(&kept);
    fill_index(&kept, &plan);
    bytes fourth = record_of(&kept, key_of(0, 4));
    check(rows_found(&kept, &fourth, ask_code(2, 0, "Ulm"), 1) == 2, "the index finds two rows");
    check(rows_found(&kept, &fourth, ask_code(1, 0, ""), 0) == 1 && rows_found(&kept, &fourth, ask_code(1, 9, ""), 0) == 0, "a key finds one row, or none");
    check(is_clean(&kept, &fourth, 3), "nothing is missing, and nothing extra");
    check_by_pages(&kept, &fourth);
    drop_index(&kept);
    bytes seventh = record_of(&kept, key_of(0, 7));
    check(is_clean(&kept, &seventh, 3) && pairs_code(&kept, 'X', 'X').length == 9, "the index is gone, with all its pairs");
}

int main(void) { return refuse_each(play); }
