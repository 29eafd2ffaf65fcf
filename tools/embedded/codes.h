/* The codes of an opening, and of operations, queries and rows of its one table, as crates/entry_code describes them:
   table people (id int key, town text), whose number is 1, with the column town, whose number is 1. */
#include <stdint.h>
#include <stddef.h>
#include <string.h>

#ifndef CODE_ROOM
#define CODE_ROOM 512
#endif

enum { PEOPLE = 1, TOWN = 1 };

typedef struct code {
    uint8_t bytes[CODE_ROOM];
    size_t length;
} code;

static inline void put_byte(code *code, uint8_t byte) { code->bytes[code->length++] = byte; }

/* The number's lowest bytes, so many, the highest of them first. */
static inline void put_number(code *code, uint64_t number, int bytes) {
    while (bytes-- > 0) put_byte(code, (uint8_t)(number >> (8 * bytes)));
}

static inline void put_name(code *code, const char *name) {
    put_number(code, strlen(name), 8);
    while (*name) put_byte(code, (uint8_t)*name++);
}

/* A number as a value of a column. */
static inline void put_int(code *code, int64_t value) {
    put_byte(code, 2);
    put_number(code, (uint64_t)value ^ (UINT64_C(1) << 63), 8);
}

/* A text without the byte 0 as a value of a column. */
static inline void put_text(code *code, const char *text) {
    put_byte(code, 3);
    while (*text) put_byte(code, (uint8_t)*text++);
    put_byte(code, 0), put_byte(code, 1);
}

/* The table, with this name for its column, and a lease length. */
static inline code opening_code(uint64_t lease_length, const char *column) {
    code it = {{1}, 1};
    put_number(&it, lease_length, 8);
    put_number(&it, 1, 8); /* one table */
    put_name(&it, "people");
    put_number(&it, 1, 8); /* one key column */
    put_name(&it, "id"), put_byte(&it, 0);
    put_number(&it, 1, 8); /* one further column */
    put_name(&it, column), put_byte(&it, 1);
    put_number(&it, 0, 8); /* no index */
    return it;
}

/* So many operations, which follow. */
static inline code ops_code(uint64_t many) {
    code it = {{1}, 1};
    put_number(&it, many, 8);
    return it;
}

enum { INSERT = 0, UPDATE = 1, DELETE = 2 };

/* An operation on the row of this key; a null town sets no column. */
static inline void put_op(code *code, uint8_t kind, uint32_t table, int64_t id, uint32_t column, const char *town) {
    put_byte(code, kind);
    put_number(code, table, 4);
    put_number(code, 1, 8); /* one value in the key */
    put_int(code, id);
    if (kind == DELETE) return;
    put_number(code, town ? 1 : 0, 8);
    if (town) put_number(code, column, 4), put_text(code, town);
}

enum { ABSENT = 0, DELETE_ONLY = 1, WRITE_ONLY = 2, PUBLIC = 3 };

/* So many moves, which follow. */
static inline code step_code(uint64_t many) { return ops_code(many); }

/* The move by which the index by_town on people (town) enters, delete-only. */
static inline void put_enter(code *code) {
    put_byte(code, 0);
    put_number(code, PEOPLE, 4);
    put_name(code, "by_town");
    put_byte(code, 0);         /* an index */
    put_number(code, 1, 8);    /* over one column */
    put_number(code, TOWN, 4);
    put_byte(code, DELETE_ONLY);
}

/* The move by which an element goes to a state. */
static inline void put_go(code *code, uint32_t element, uint8_t state) {
    put_byte(code, 1);
    put_number(code, element, 4);
    put_byte(code, state);
}

static inline code enter_code(void) {
    code it = step_code(1);
    put_enter(&it);
    return it;
}

static inline code go_code(uint32_t element, uint8_t state) {
    code it = step_code(1);
    put_go(&it, element, state);
    return it;
}

/* The version with the table and its column and, unless it is absent, the index by_town in this state. */
static inline code schema_code(uint8_t state) {
    code it = step_code(1); /* one table */
    put_name(&it, "people");
    put_number(&it, 1, 8); /* one key column */
    put_name(&it, "id"), put_byte(&it, 0);
    put_number(&it, state ? 2 : 1, 8);
    put_number(&it, TOWN, 4), put_number(&it, PEOPLE, 4), put_name(&it, "town");
    put_byte(&it, 1), put_byte(&it, 1), put_byte(&it, PUBLIC), put_byte(&it, 0); /* an optional text */
    if (state) {
        put_number(&it, 2, 4), put_number(&it, PEOPLE, 4), put_name(&it, "by_town");
        put_byte(&it, 0), put_number(&it, 1, 8), put_number(&it, TOWN, 4);
        put_byte(&it, state), put_byte(&it, 0);
    }
    put_number(&it, state ? 3 : 2, 4);
    return it;
}

/* So many changes, which follow. */
static inline code changes_code(uint64_t many) { return ops_code(many); }

enum { DROP_INDEX = 1, DROP_COLUMN = 3, ABANDON = 4 };

/* The change that adds an index on the column town. */
static inline void put_add_index(code *code, const char *name, const char *column) {
    put_byte(code, 0);
    put_number(code, PEOPLE, 4);
    put_name(code, name);
    put_number(code, 1, 8);
    put_name(code, column);
}

/* A change of the element of this name. */
static inline void put_named(code *code, uint8_t kind, const char *name) {
    put_byte(code, kind);
    put_number(code, PEOPLE, 4);
    put_name(code, name);
}

/* A query of a table for one column of the rows that meet so many conditions, which follow. */
static inline code query_code(uint32_t table, uint32_t column, uint64_t conditions) {
    code it = {{1}, 1};
    put_number(&it, table, 4);
    put_number(&it, 1, 8); /* one column */
    put_number(&it, column, 4);
    put_number(&it, conditions, 8);
    return it;
}

/* The condition that the row has this key. */
static inline void put_key(code *code, int64_t id) {
    put_byte(code, 0);
    put_number(code, 1, 8);
    put_int(code, id);
}

/* The condition that it has this text in a column. */
static inline void put_equal(code *code, uint32_t column, const char *town) {
    put_byte(code, 1);
    put_number(code, column, 4), put_text(code, town);
}

/* The condition that the text in a column lies between two; a null one is no bound. */
static inline void put_between(code *code, uint32_t column, const char *low, const char *high) {
    put_byte(code, 2);
    put_number(code, column, 4);
    put_byte(code, low ? 1 : 0);
    if (low) put_text(code, low);
    put_byte(code, high ? 1 : 0);
    if (high) put_text(code, high);
}

/* So many rows, which follow. */
static inline code rows_code(uint64_t many) { return ops_code(many); }

/* A row of this key; a null town is no value. */
static inline void put_row(code *code, int64_t id, const char *town) {
    put_number(code, 1, 8);
    put_int(code, id);
    put_number(code, town ? 1 : 0, 8);
    if (town) put_number(code, TOWN, 4), put_text(code, town);
}
