/* Which value and which declaration a refusal is for: a table of operations, queries and openings, each with what is wrong in it by hand, or
   nothing. What the calls say of one agrees with what cagzhomul_write, cagzhomul_query and cagzhomul_open answer for the same bytes, also of
   each code that is cut short, and of each with another byte: there is a cause exactly if that is WRONG_TYPE or BAD_TABLE.
   Each allocation of a search is refused in turn: it answers CAGZHOMUL_OUT_OF_MEMORY, and is made again.
   It prints how much was checked, and ends with 0 if all was as include/cagzhomul.h says. */
#include "cagzhomul.h"
#include "cagzhomul_codes.h"
#include "refusing.h"

enum { ROOM = 4096, LONGEST = 1024, PEOPLE = 1, SHOPS = 2, TOWN = 1, OLD = 2, OPEN = 3, INT = 0, TEXT = 1, BOOL = 2 };

/* The tables of the world: their keys, columns and indexes, as all openings are written here. */
static const char *const tables = "people(id:i|town:t,old:b|) shops(city:t,number:i|open:b|)";

typedef struct bytes {
    uint8_t at[ROOM];
    size_t length;
} bytes;

/* ---- codes, of what is written in words. What comes next in `from` is read, and left behind. */

static int takes(const char **from, char word) {
    while (**from == ' ') ++*from;
    if (**from != word) return 0;
    ++*from;
    return 1;
}

/* Bytes up to a delimiter, which may be none. */
static size_t name_length(const char *from) { return strcspn(from, ":,|()+;= "); }

static void put_name(cagzhomul_writer *to, const char **from) {
    size_t length = name_length(*from);
    cagzhomul_put_bytes(to, *from, length);
    *from += length;
}

static uint32_t take_number(const char **from) {
    char *end;
    uint32_t number = (uint32_t)strtoul(*from, &end, 10);
    *from = end;
    return number;
}

/* i7, tUlm, b1, n (null), a text of the greatest length (M), and one of a byte more (L). */
static void put_value(cagzhomul_writer *to, const char **from) {
    static char text[LONGEST + 1];
    memset(text, 'x', sizeof text);
    char kind = *(*from)++;
    size_t length = name_length(*from);
    if (kind == 'i') cagzhomul_put_int(to, strtol(*from, NULL, 10));
    if (kind == 't') cagzhomul_put_text(to, *from, length);
    if (kind == 'b') cagzhomul_put_bool(to, **from == '1');
    if (kind == 'n') cagzhomul_put_null(to);
    if (kind == 'M' || kind == 'L') cagzhomul_put_text(to, text, LONGEST + (kind == 'L'));
    *from += length;
}

/* Items up to a delimiter, after their count: each as `put` writes it. */
static void put_items(cagzhomul_writer *to, const char **from, void (*put)(cagzhomul_writer *, const char **)) {
    size_t count = 0, place = to->length;
    cagzhomul_put_count(to, 0);
    for (takes(from, ' '); **from && !strchr("|;)", **from); count++) put(to, from), takes(from, ','), takes(from, '+'), takes(from, ' ');
    to->bytes[place + 7] = (uint8_t)count;
}

/* 1=tUlm */
static void put_cell(cagzhomul_writer *to, const char **from) {
    cagzhomul_put_cell(to, take_number(from));
    takes(from, '='), put_value(to, from);
}

/* An operation: `insert 1 i7 | 1=tUlm 2=b1`, with the number of the table and those of columns; `delete 1 i7`. */
static void put_operation(cagzhomul_writer *to, const char **from) {
    uint8_t kind = **from == 'i' ? 0 : **from == 'u' ? 1 : 2;
    *from += 7;
    cagzhomul_put_byte(to, kind), cagzhomul_put_u32(to, take_number(from));
    put_items(to, from, put_value);
    if (kind != 2) takes(from, '|'), put_items(to, from, put_cell);
    takes(from, ';');
}

/* A bound: a value, or `-` for none. */
static void put_bound(cagzhomul_writer *to, const char **from) {
    int is_there = !takes(from, '-');
    cagzhomul_put_option(to, is_there);
    if (is_there) put_value(to, from);
}

/* A condition: `key i7`, `is 1 tUlm`, or `in 1 tA -` with two bounds. */
static void put_condition(cagzhomul_writer *to, const char **from) {
    if (!strncmp(*from, "key", 3)) {
        *from += 3;
        cagzhomul_put_byte(to, 0), put_items(to, from, put_value);
    } else if (!strncmp(*from, "is ", 3)) {
        *from += 3;
        cagzhomul_put_equal(to, take_number(from)), takes(from, ' '), put_value(to, from);
    } else {
        *from += 3;
        cagzhomul_put_between(to, take_number(from)), takes(from, ' ');
        put_bound(to, from), takes(from, ' '), put_bound(to, from);
    }
    takes(from, ';');
}

/* id:i */
static void put_column(cagzhomul_writer *to, const char **from) {
    put_name(to, from), takes(from, ':');
    cagzhomul_put_byte(to, **from == 'i' ? INT : **from == 't' ? TEXT : BOOL);
    ++*from;
}

static void put_listed(cagzhomul_writer *to, const char **from) { put_name(to, from); }

/* by_town:town+old */
static void put_index(cagzhomul_writer *to, const char **from) {
    size_t count = 0;
    put_name(to, from), takes(from, ':');
    size_t place = to->length;
    cagzhomul_put_count(to, 0);
    for (; **from && !strchr(",)", **from); count++) put_listed(to, from), takes(from, '+');
    to->bytes[place + 7] = (uint8_t)count;
}

/* people(id:i|town:t|by_town:town) */
static void put_table(cagzhomul_writer *to, const char **from) {
    put_name(to, from), takes(from, '(');
    put_items(to, from, put_column), takes(from, '|');
    put_items(to, from, put_column), takes(from, '|');
    put_items(to, from, put_index), takes(from, ')');
}

static bytes coded(cagzhomul_writer (*write)(cagzhomul_writer, const char *), const char *words) {
    bytes it = {{0}, 0};
    cagzhomul_writer to = write(cagzhomul_write_to(it.at, ROOM), words);
    check(cagzhomul_is_whole(&to), "there is room for a code");
    it.length = to.length;
    return it;
}

static cagzhomul_writer operations(cagzhomul_writer to, const char *words) {
    cagzhomul_put_version(&to);
    size_t count = 0, place = to.length;
    for (cagzhomul_put_count(&to, 0); *words; count++) put_operation(&to, &words), takes(&words, ' ');
    to.bytes[place + 7] = (uint8_t)count;
    return to;
}

/* `1 1 2: key i7; is 1 tUlm`: the number of the table, those of the columns, and conditions. */
static cagzhomul_writer query(cagzhomul_writer to, const char *words) {
    cagzhomul_put_version(&to), cagzhomul_put_u32(&to, take_number(&words));
    size_t columns = 0, conditions = 0, place = to.length;
    for (cagzhomul_put_count(&to, 0); !takes(&words, ':'); columns++) cagzhomul_put_u32(&to, take_number(&words));
    to.bytes[place + 7] = (uint8_t)columns;
    place = to.length;
    for (cagzhomul_put_count(&to, 0), takes(&words, ' '); *words; conditions++) put_condition(&to, &words), takes(&words, ' ');
    to.bytes[place + 7] = (uint8_t)conditions;
    return to;
}

static cagzhomul_writer opening(cagzhomul_writer to, const char *words) {
    cagzhomul_put_opening(&to, 10, 0);
    size_t count = 0, place = to.length - 8;
    for (; *words; count++) put_table(&to, &words), takes(&words, ' ');
    to.bytes[place + 7] = (uint8_t)count;
    return to;
}

/* ---- what is wrong, by hand */

typedef struct value_case {
    const char *words;
    int32_t status, call; /* of the search, and of the call itself */
    cagzhomul_value_fault due;
} value_case;

#define RIGHT(call) CAGZHOMUL_OK, call, {0, CAGZHOMUL_FAULT_NONE, 0, 0, 0, 0, 0}
#define LONG CAGZHOMUL_BAD_CODE, CAGZHOMUL_BAD_CODE, {CAGZHOMUL_BAD_CODE, CAGZHOMUL_FAULT_NONE, 0, 0, 0, 0, 0}
#define KEY_LENGTH(item, given) CAGZHOMUL_OK, CAGZHOMUL_WRONG_TYPE, {0, CAGZHOMUL_FAULT_KEY_LENGTH, item, given, 0, 0, 0}
#define KEY_VALUE(item, place, wanted, given) CAGZHOMUL_OK, CAGZHOMUL_WRONG_TYPE, {0, CAGZHOMUL_FAULT_KEY_VALUE, item, place, 0, wanted, given}
#define COLUMN_VALUE(item, column, wanted, given) CAGZHOMUL_OK, CAGZHOMUL_WRONG_TYPE, {0, CAGZHOMUL_FAULT_COLUMN_VALUE, item, 0, column, wanted, given}
#define NAMED_TWICE(item, column) CAGZHOMUL_OK, CAGZHOMUL_WRONG_TYPE, {0, CAGZHOMUL_FAULT_NAMED_TWICE, item, 0, column, 0, 0}

static const value_case of_operations[] = {
    {"", RIGHT(CAGZHOMUL_OK)},
    {"insert 1 i1 | 1=tUlm 2=n; update 1 i1 | 2=b1 1=M; delete 1 i1", RIGHT(CAGZHOMUL_OK)},
    {"insert 2 M i1 |; delete 2 M i1", RIGHT(CAGZHOMUL_OK)},
    {"delete 1 i9", RIGHT(CAGZHOMUL_NO_ROW)},
    {"delete 3 t", RIGHT(CAGZHOMUL_NO_TABLE)},
    {"insert 1 i1 | 9=i1; delete 1 t", RIGHT(CAGZHOMUL_NOT_PUBLIC)},
    {"insert 1 t | 3=b1", RIGHT(CAGZHOMUL_NOT_PUBLIC)}, /* a column of another table; it comes before the key */
    {"insert 1 |", KEY_LENGTH(0, 0)},
    {"insert 1 i1 i2 |", KEY_LENGTH(0, 2)},
    {"update 2 tUlm | 3=i1", KEY_LENGTH(0, 1)},
    {"delete 2 i1 i2 i3 i4 i5", KEY_LENGTH(0, 5)},
    {"delete 1 n", KEY_VALUE(0, 0, INT, CAGZHOMUL_NO_TYPE)},
    {"delete 1 b1", KEY_VALUE(0, 0, INT, BOOL)},
    {"insert 2 i1 tUlm |", KEY_VALUE(0, 0, TEXT, INT)},
    {"insert 2 tUlm tUlm | 3=i7", KEY_VALUE(0, 1, INT, TEXT)},
    {"update 2 tUlm n | 3=i7", KEY_VALUE(0, 1, INT, CAGZHOMUL_NO_TYPE)},
    {"insert 1 i1 | 1=i7", COLUMN_VALUE(0, TOWN, TEXT, INT)},
    {"insert 1 i1 | 2=n 2=i7 1=b0", COLUMN_VALUE(0, OLD, BOOL, INT)},
    {"update 1 i1 | 1=tUlm 2=M", COLUMN_VALUE(0, OLD, BOOL, TEXT)},
    {"update 1 i1 | 1=tUlm 1=tBonn 2=tUlm", COLUMN_VALUE(0, OLD, BOOL, TEXT)}, /* before one that is named twice */
    {"insert 1 i1 | 1=tUlm 2=b1 2=n 1=n", NAMED_TWICE(0, TOWN)},
    {"insert 1 i1 | 2=b1 1=tUlm 1=n 2=n", NAMED_TWICE(0, OLD)},
    {"insert 1 i1 |; insert 2 tUlm i1 | 3=b1; insert 2 tUlm i2 | 3=t; delete 1 t", COLUMN_VALUE(2, OPEN, BOOL, TEXT)},
    {"insert 1 i1 |; delete 1 t; delete 3 i1", KEY_VALUE(1, 0, INT, TEXT)},
    {"insert 1 i1 | 1=i7; update 1 i1 | 1=L", LONG},
    {"delete 3 L", LONG},
};

static const value_case of_queries[] = {
    {"1:", RIGHT(CAGZHOMUL_OK)},
    {"1 1 2 1: key i1; is 1 n; is 1 M; in 2 b0 b1; in 1 - -; in 1 tB tA", RIGHT(CAGZHOMUL_OK)},
    {"3: key t", RIGHT(CAGZHOMUL_NO_TABLE)},
    {"1 9: key t", RIGHT(CAGZHOMUL_NOT_PUBLIC)},
    {"1: key i1; is 3 b1; key t", RIGHT(CAGZHOMUL_NOT_PUBLIC)},
    {"1: key", KEY_LENGTH(0, 0)},
    {"2: is 3 b1; key tUlm", KEY_LENGTH(1, 1)},
    {"1: key i1 i2 i3", KEY_LENGTH(0, 3)},
    {"1: key n", KEY_VALUE(0, 0, INT, CAGZHOMUL_NO_TYPE)},
    {"2: key tUlm tUlm", KEY_VALUE(0, 1, INT, TEXT)},
    {"2: key b0 tUlm", KEY_VALUE(0, 0, TEXT, BOOL)},
    {"1: is 1 i7", COLUMN_VALUE(0, TOWN, TEXT, INT)},
    {"1 1: is 1 n; is 2 tUlm; is 1 i1", COLUMN_VALUE(1, OLD, BOOL, TEXT)},
    {"1: in 1 n tA", COLUMN_VALUE(0, TOWN, TEXT, CAGZHOMUL_NO_TYPE)},
    {"1: in 1 i1 b1", COLUMN_VALUE(0, TOWN, TEXT, INT)},
    {"1: in 1 tA b1", COLUMN_VALUE(0, TOWN, TEXT, BOOL)},
    {"1: in 1 - n", COLUMN_VALUE(0, TOWN, TEXT, CAGZHOMUL_NO_TYPE)},
    {"1: key i1; in 2 b0 -; in 2 - i1; is 9 i1", COLUMN_VALUE(2, OLD, BOOL, INT)},
    {"1: key t; is 1 L", LONG},
    {"3: in 1 - L", LONG},
};

typedef struct table_case {
    const char *words;
    uint32_t cause;
    size_t table, index, place;
} table_case;

#define A_TABLE "t(a:i|b:t,c:b|i:b,j:c+b) "
#define FOUR(it) it it it it
#define SIXTEEN(it) FOUR(FOUR(it))

/* Tables with more than one cause have the first. The names of 16 and more things are all the same, which is a later cause. */
static const table_case of_openings[] = {
    {A_TABLE "u(a:i,b:i,c:i,d:i||) v(a_1:i|b:i,c:i,d:i,e:i|B:b+c+d+e)", CAGZHOMUL_FAULT_NONE, 0, 0, 0},
    {"", CAGZHOMUL_FAULT_NO_TABLE, 0, 0, 0},
    {SIXTEEN("t(a:i||) ") "u(||)", CAGZHOMUL_FAULT_TOO_MANY_TABLES, 16, 0, 0},
    {SIXTEEN("t(a:i||) "), CAGZHOMUL_FAULT_TABLE_TWICE, 0, 0, 0},
    {A_TABLE "(a:i||)", CAGZHOMUL_FAULT_TABLE_NAME, 1, 0, 0},
    {"1(|||)", CAGZHOMUL_FAULT_TABLE_NAME, 0, 0, 0},
    {"_(a:i||)", CAGZHOMUL_FAULT_TABLE_NAME, 0, 0, 0},
    {A_TABLE "abcdefghijklmnopqrstuvwxyz0123456(a:i||)", CAGZHOMUL_FAULT_TABLE_NAME, 1, 0, 0},
    {A_TABLE "abcdefghijklmnopqrstuvwxyz_01234(a:i||)", CAGZHOMUL_FAULT_NONE, 0, 0, 0},
    {"s(a:i||) t(||) u(a:i||) t(a:i||)", CAGZHOMUL_FAULT_TABLE_TWICE, 1, 0, 0},
    {A_TABLE "u(|a:i|)", CAGZHOMUL_FAULT_TABLE_KEY, 1, 0, 0},
    {"u(a:i,b:i,c:i,d:i,e:i|" SIXTEEN("a:i,") SIXTEEN("a:i,") "a:i|)", CAGZHOMUL_FAULT_TABLE_KEY, 0, 0, 0},
    {A_TABLE "u(a:i|" SIXTEEN("a:i,") SIXTEEN("a:i,") "a:i|" SIXTEEN("a:a,") "a:a)", CAGZHOMUL_FAULT_TOO_MANY_COLUMNS, 1, 0, 0},
    {"u(a:i|" SIXTEEN("b:i,") SIXTEEN("b:i,") "|i:b)", CAGZHOMUL_FAULT_NAME_TWICE, 0, 0, 1},
    {"u(a:i|b:i|" SIXTEEN("i:b,") "i:)", CAGZHOMUL_FAULT_TOO_MANY_INDEXES, 0, 0, 0},
    {"u(a:i|b:i|" SIXTEEN("i:b,") ")", CAGZHOMUL_FAULT_NAME_TWICE, 0, 0, 2},
    {A_TABLE "u(1:i|a:i|i:a)", CAGZHOMUL_FAULT_NAME, 1, 0, 0},
    {"u(a:i|b:i,c-d:i|i:b)", CAGZHOMUL_FAULT_NAME, 0, 0, 2},
    {"u(a:i|b:i|i:b,:b)", CAGZHOMUL_FAULT_NAME, 0, 0, 3},
    {"u(a:i,b:i|a:i|!:a)", CAGZHOMUL_FAULT_NAME_TWICE, 0, 0, 0}, /* place by place */
    {A_TABLE "u(a:i|b:i,c:i|b:c)", CAGZHOMUL_FAULT_NAME_TWICE, 1, 0, 1},
    {"u(a:i|b:i|i:b,j:)", CAGZHOMUL_FAULT_LIST_LENGTH, 0, 1, 0},
    {A_TABLE "u(a:i|b:i|i:b+b+b+b+b)", CAGZHOMUL_FAULT_LIST_LENGTH, 1, 0, 0},
    {"u(a:i|b:i,c:i|i:b,j:c+b+b+x)", CAGZHOMUL_FAULT_LISTED_TWICE, 0, 1, 1},
    {"u(a:i|b:i|i:x+b+x)", CAGZHOMUL_FAULT_LISTED_TWICE, 0, 0, 0},
    {A_TABLE "u(a:i|b:i|i:b,j:b+a)", CAGZHOMUL_FAULT_NOT_A_COLUMN, 1, 1, 1},
    {"u(a:i|b:i|i:b,j:i)", CAGZHOMUL_FAULT_NOT_A_COLUMN, 0, 1, 0},
};

/* ---- the runs */

#define EACH(it, all) for (size_t it = 0; it < sizeof all / sizeof *all; it++)

static bytes schema;
static cagzhomul_world_handle world;
static cagzhomul_lease_handle lease;
static long tried, refusals, again;

/* Whether memory ran out, and the search is to be made again. */
static int is_short(int32_t status) {
    if (status != CAGZHOMUL_OUT_OF_MEMORY) return 0;
    check(is_reached, "memory runs out only after a refusal");
    again++;
    return !wrong;
}

static int is_value_fault(cagzhomul_value_fault it, cagzhomul_value_fault due) {
    return it.status == due.status && it.cause == due.cause && it.item == due.item && it.place == due.place && it.column == due.column && it.wanted == due.wanted && it.given == due.given;
}

typedef cagzhomul_value_fault (*value_search)(const uint8_t *, size_t, const uint8_t *, size_t);

static cagzhomul_value_fault search(value_search in, const bytes *code) {
    cagzhomul_value_fault it = in(schema.at, schema.length, code->at, code->length);
    return is_short(it.status) ? in(schema.at, schema.length, code->at, code->length) : it;
}

static cagzhomul_table_fault search_tables(const bytes *code) {
    cagzhomul_table_fault it = cagzhomul_opening_fault(code->at, code->length);
    return is_short(it.status) ? cagzhomul_opening_fault(code->at, code->length) : it;
}

/* What the call itself answers. */
static int32_t written(const bytes *code) { return cagzhomul_write(&world, 5, &lease, code->at, code->length).status; }

static int32_t asked(const bytes *code) {
    cagzhomul_bytes_handle rows = {0};
    int32_t status = cagzhomul_query(&world, 5, &lease, code->at, code->length, &rows).status;
    if (rows.is_open) cagzhomul_close_bytes(&rows);
    return status;
}

static int32_t opened(const bytes *code) {
    cagzhomul_world_handle other = {0};
    int32_t status = cagzhomul_open(&other, code->at, code->length, CAGZHOMUL_ANY_JUMP);
    if (other.is_open) cagzhomul_close_world(&other);
    return status;
}

/* A search and the call agree: whether the bytes are a code, and whether they are refused for this. */
static void agree(int32_t status, uint32_t cause, int32_t call, int32_t refusal) {
    tried++;
    check((status == CAGZHOMUL_BAD_CODE) == (call == CAGZHOMUL_BAD_CODE), "both take the bytes, or none");
    check(status == CAGZHOMUL_OK || status == CAGZHOMUL_BAD_CODE, "there is no other status");
    check((cause != CAGZHOMUL_FAULT_NONE) == (call == refusal), "there is a cause exactly if it is refused so");
}

static void agree_values(value_search in, int32_t (*call)(const bytes *), const bytes *code) {
    cagzhomul_value_fault it = search(in, code);
    agree(it.status, it.cause, call(code), CAGZHOMUL_WRONG_TYPE);
}

static void agree_tables(const bytes *code) {
    cagzhomul_table_fault it = search_tables(code);
    agree(it.status, it.cause, opened(code), CAGZHOMUL_BAD_TABLE);
}

/* Looks with ample memory, then with the first allocation refused, then with the second, and so on, until none is left. */
#define EACH_REFUSED(looked)                                                                           \
    {                                                                                                  \
        looked;                                                                                        \
        is_ample = 0;                                                                                  \
        refused = 0;                                                                                   \
        do {                                                                                           \
            count = is_reached = 0;                                                                    \
            refused++;                                                                                 \
            looked;                                                                                    \
        } while (is_reached && !wrong);                                                                \
        refusals += refused - 1;                                                                       \
        is_ample = 1;                                                                                  \
    }

/* Each code that comes of one that is cut short, goes on, or has another byte. */
#define EACH_DAMAGE(code, it, looked)                                                                  \
    for (bytes it = {{0}, 0}; it.length < (code).length; it.length++) {                                \
        memcpy(it.at, (code).at, (code).length);                                                       \
        looked;                                                                                        \
    }                                                                                                  \
    for (size_t at = 0; at <= (code).length; at++)                                                     \
        for (size_t byte = 0; byte < 4; byte++) {                                                      \
            bytes it = code;                                                                           \
            it.at[at] = (uint8_t)(it.at[at] ^ "\1\2\4\377"[byte]);                                     \
            it.length += at == (code).length;                                                          \
            looked;                                                                                    \
        }

static void look_at_values(const value_case *each, size_t many, cagzhomul_writer (*write)(cagzhomul_writer, const char *), value_search in, int32_t (*call)(const bytes *)) {
    for (size_t at = 0; at < many; at++) {
        bytes code = coded(write, each[at].words);
        EACH_REFUSED(check(is_value_fault(search(in, &code), each[at].due) && each[at].due.status == each[at].status, each[at].words))
        check(call(&code) == each[at].call, each[at].words);
        agree_values(in, call, &code);
        EACH_DAMAGE(code, it, agree_values(in, call, &it))
    }
}

static void look_at_all(void) {
    look_at_values(of_operations, sizeof of_operations / sizeof *of_operations, operations, cagzhomul_txn_fault, written);
    look_at_values(of_queries, sizeof of_queries / sizeof *of_queries, query, cagzhomul_query_fault, asked);
    EACH(at, of_openings) {
        table_case due = of_openings[at];
        bytes code = coded(opening, due.words);
        EACH_REFUSED(cagzhomul_table_fault it = search_tables(&code);
                     check(it.status == CAGZHOMUL_OK && it.cause == due.cause && it.table == due.table && it.index == due.index && it.place == due.place, due.words))
        agree_tables(&code);
        EACH_DAMAGE(code, damaged, agree_tables(&damaged))
    }
}

/* A schema that is none is no code, whatever else is given; and no bytes are no code. */
static void look_at_schemas(void) {
    bytes none = {{0}, 0}, ops = coded(operations, "insert 1 i1 | 1=i7"), asks = coded(query, "1: is 1 i7");
    cagzhomul_value_fault bad = {CAGZHOMUL_BAD_CODE, CAGZHOMUL_FAULT_NONE, 0, 0, 0, 0, 0};
    check(is_value_fault(search(cagzhomul_txn_fault, &none), bad) && is_value_fault(search(cagzhomul_query_fault, &none), bad), "no bytes");
    check(search_tables(&none).status == CAGZHOMUL_BAD_CODE, "no opening");
    bytes whole = schema;
    for (schema.length = 0; schema.length < whole.length; schema.length++)
        check(is_value_fault(search(cagzhomul_txn_fault, &ops), bad) && is_value_fault(search(cagzhomul_query_fault, &asks), bad), "a schema that is cut short");
    schema = whole;
    schema.at[schema.length++] = 0;
    check(is_value_fault(search(cagzhomul_txn_fault, &ops), bad), "one that goes on");
    EACH_DAMAGE(whole, it, schema = it; int32_t status = search(cagzhomul_txn_fault, &ops).status; check(status == CAGZHOMUL_OK || status == CAGZHOMUL_BAD_CODE, "a schema from anywhere"))
    schema = whole;
}

int main(void) {
    is_ample = 1;
    bytes code = coded(opening, tables);
    cagzhomul_bytes_handle held = {0};
    check(cagzhomul_open(&world, code.at, code.length, CAGZHOMUL_ANY_JUMP) == CAGZHOMUL_OK && cagzhomul_lease(&world, 5, &lease).status == CAGZHOMUL_OK, "a world and a lease");
    check(cagzhomul_lease_schema(&lease, &held) == CAGZHOMUL_OK, "the schema of the lease");
    schema.length = cagzhomul_bytes_from(&held, 0, schema.at, ROOM).length;
    check(schema.length <= ROOM && cagzhomul_close_bytes(&held) == CAGZHOMUL_OK, "its bytes");
    look_at_all();
    look_at_schemas();
    check(cagzhomul_close_lease(&lease) == CAGZHOMUL_OK && cagzhomul_close_world(&world) == CAGZHOMUL_OK, "both are closed");
    printf("%ld codes were searched, and the calls made; %ld allocations were refused, and %ld calls made again\n", tried, refusals, again);
    return wrong || !again;
}
