/* The codes that cagzhomul.h takes and gives, written and read in plain C, also as C++: docs/FORMAT.md
 * has their form, and these functions its words. All are inline; nothing is allocated.
 *
 * A writer fills the caller's bytes from their begin. Once they are full it writes no more and goes on
 * counting, so `length` is what the code needs: it is whole if cagzhomul_is_whole says so, else it is
 * to be written again to as many bytes.
 *
 * A reader goes over the caller's bytes. What is not there, or is no code of what is asked for, is
 * read as 0 and sets `is_bad`, which stays: it is enough to look once, at the end. A count that is
 * read is at most the number of bytes that are left, so a loop up to it ends.
 */
#ifndef CAGZHOMUL_CODES_H
#define CAGZHOMUL_CODES_H

#include <stdbool.h>
#include <stddef.h>
#include <stdint.h>
#include <string.h>

#ifdef __cplusplus
extern "C" {
#endif

/* Bytes that are written. */
typedef struct cagzhomul_writer {
    uint8_t *bytes; /* the caller's, so many as `room` */
    size_t room;
    size_t length; /* how many bytes the code has so far, also those that found no room */
} cagzhomul_writer;

/* Bytes that are read. */
typedef struct cagzhomul_reader {
    const uint8_t *bytes; /* the caller's, so many as `length` */
    size_t length;
    size_t at;   /* how many are read */
    bool is_bad; /* whether they are no code of what was asked for */
} cagzhomul_reader;

/* The kinds of a value, by their first byte. */
enum { CAGZHOMUL_NULL = 1, CAGZHOMUL_INT = 2, CAGZHOMUL_TEXT = 3, CAGZHOMUL_BOOL = 4 };

/* The types of a column. */
enum { CAGZHOMUL_INT_COLUMN = 0, CAGZHOMUL_TEXT_COLUMN = 1, CAGZHOMUL_BOOL_COLUMN = 2 };

/* The states of an element. */
enum { CAGZHOMUL_ABSENT = 0, CAGZHOMUL_DELETE_ONLY = 1, CAGZHOMUL_WRITE_ONLY = 2, CAGZHOMUL_PUBLIC = 3 };

/* A value that was read. */
typedef struct cagzhomul_value {
    int kind;             /* one of the kinds */
    int64_t number;       /* of a CAGZHOMUL_INT; 0 or 1 of a CAGZHOMUL_BOOL; else 0 */
    const uint8_t *text;  /* of a CAGZHOMUL_TEXT its bytes as they stand in the code, each 0 as 0 255;
                             cagzhomul_copy_text has them plain */
    size_t text_length;   /* how many these are */
} cagzhomul_value;

/* ---- writing: numbers, bytes and lists */

/* A writer to these bytes, which has written none. */
static inline cagzhomul_writer cagzhomul_write_to(uint8_t *bytes, size_t room) {
    cagzhomul_writer it = {bytes, room, 0};
    return it;
}

/* Whether all that was written found room. */
static inline bool cagzhomul_is_whole(const cagzhomul_writer *to) { return to->length <= to->room; }

static inline void cagzhomul_put_byte(cagzhomul_writer *to, uint8_t byte) {
    if (to->length < to->room) to->bytes[to->length] = byte;
    to->length++;
}

static inline void cagzhomul_put_u32(cagzhomul_writer *to, uint32_t number) {
    for (int shift = 24; shift >= 0; shift -= 8) cagzhomul_put_byte(to, (uint8_t)(number >> shift));
}

static inline void cagzhomul_put_u64(cagzhomul_writer *to, uint64_t number) {
    for (int shift = 56; shift >= 0; shift -= 8) cagzhomul_put_byte(to, (uint8_t)(number >> shift));
}

/* How many items a list has; they follow. */
static inline void cagzhomul_put_count(cagzhomul_writer *to, size_t count) { cagzhomul_put_u64(to, count); }

/* So many bytes, after their number. */
static inline void cagzhomul_put_bytes(cagzhomul_writer *to, const void *bytes, size_t length) {
    const uint8_t *from = (const uint8_t *)bytes;
    cagzhomul_put_count(to, length);
    for (size_t at = 0; at < length; at++) cagzhomul_put_byte(to, from[at]);
}

/* A name. */
static inline void cagzhomul_put_name(cagzhomul_writer *to, const char *name) { cagzhomul_put_bytes(to, name, strlen(name)); }

/* The version of the form, with which each code begins. */
static inline void cagzhomul_put_version(cagzhomul_writer *to) { cagzhomul_put_byte(to, 1); }

/* Whether an optional item is there; it follows if so. */
static inline void cagzhomul_put_option(cagzhomul_writer *to, bool is_there) { cagzhomul_put_byte(to, is_there ? 1 : 0); }

/* ---- writing: values */

static inline void cagzhomul_put_null(cagzhomul_writer *to) { cagzhomul_put_byte(to, CAGZHOMUL_NULL); }

static inline void cagzhomul_put_int(cagzhomul_writer *to, int64_t number) {
    cagzhomul_put_byte(to, CAGZHOMUL_INT);
    cagzhomul_put_u64(to, (uint64_t)number ^ (UINT64_C(1) << 63));
}

static inline void cagzhomul_put_bool(cagzhomul_writer *to, bool is_true) {
    cagzhomul_put_byte(to, CAGZHOMUL_BOOL);
    cagzhomul_put_byte(to, is_true ? 1 : 0);
}

/* A text: so many bytes of UTF-8, among which may be the byte 0. */
static inline void cagzhomul_put_text(cagzhomul_writer *to, const void *text, size_t length) {
    const uint8_t *from = (const uint8_t *)text;
    cagzhomul_put_byte(to, CAGZHOMUL_TEXT);
    for (size_t at = 0; at < length; at++) {
        cagzhomul_put_byte(to, from[at]);
        if (from[at] == 0) cagzhomul_put_byte(to, 255);
    }
    cagzhomul_put_byte(to, 0);
    cagzhomul_put_byte(to, 1);
}

/* The column of a cell; its value follows. */
static inline void cagzhomul_put_cell(cagzhomul_writer *to, uint32_t column) { cagzhomul_put_u32(to, column); }

/* ---- writing: openings */

/* An opening: how many moments a lease lasts, and how many tables follow. */
static inline void cagzhomul_put_opening(cagzhomul_writer *to, uint64_t lease_length, size_t tables) {
    cagzhomul_put_version(to);
    cagzhomul_put_u64(to, lease_length);
    cagzhomul_put_count(to, tables);
}

/* A table: its name; then follow the count of its key columns and these, the count of its other
 * columns and these, and the count of its indexes and these. */
static inline void cagzhomul_put_table(cagzhomul_writer *to, const char *name) { cagzhomul_put_name(to, name); }

static inline void cagzhomul_put_column(cagzhomul_writer *to, const char *name, uint8_t type) {
    cagzhomul_put_name(to, name);
    cagzhomul_put_byte(to, type);
}

/* An index over so many columns, whose names follow. */
static inline void cagzhomul_put_index(cagzhomul_writer *to, const char *name, size_t columns) {
    cagzhomul_put_name(to, name);
    cagzhomul_put_count(to, columns);
}

/* ---- writing: operations */

/* So many operations, which follow. */
static inline void cagzhomul_put_operations(cagzhomul_writer *to, size_t count) {
    cagzhomul_put_version(to);
    cagzhomul_put_count(to, count);
}

/* An operation, 0 to insert, 1 to update or 2 to delete, on the row of a key of so many values, which
 * follow; after those of an insert or an update come the count of its cells, and these. */
static inline void cagzhomul_put_operation(cagzhomul_writer *to, uint8_t operation, uint32_t table, size_t values) {
    cagzhomul_put_byte(to, operation);
    cagzhomul_put_u32(to, table);
    cagzhomul_put_count(to, values);
}

static inline void cagzhomul_put_insert(cagzhomul_writer *to, uint32_t table, size_t values) { cagzhomul_put_operation(to, 0, table, values); }

static inline void cagzhomul_put_update(cagzhomul_writer *to, uint32_t table, size_t values) { cagzhomul_put_operation(to, 1, table, values); }

static inline void cagzhomul_put_delete(cagzhomul_writer *to, uint32_t table, size_t values) { cagzhomul_put_operation(to, 2, table, values); }

/* ---- writing: queries */

/* A query of a table for so many columns, whose numbers follow; after them the count of its
 * conditions, and these. */
static inline void cagzhomul_put_query(cagzhomul_writer *to, uint32_t table, size_t columns) {
    cagzhomul_put_version(to);
    cagzhomul_put_u32(to, table);
    cagzhomul_put_count(to, columns);
}

/* A request for a page, whose range follows: the key after which the rows come and then the key before
 * which they end, each optional, with the count of its values and these; after them
 * cagzhomul_put_paged. */
static inline void cagzhomul_put_page(cagzhomul_writer *to) { cagzhomul_put_version(to); }

/* After the range of a page: its limit, and a query as in cagzhomul_put_query. */
static inline void cagzhomul_put_paged(cagzhomul_writer *to, uint32_t limit, uint32_t table, size_t columns) {
    cagzhomul_put_u32(to, limit);
    cagzhomul_put_u32(to, table);
    cagzhomul_put_count(to, columns);
}

/* The condition that a row has the key of so many values, which follow. */
static inline void cagzhomul_put_key_is(cagzhomul_writer *to, size_t values) {
    cagzhomul_put_byte(to, 0);
    cagzhomul_put_count(to, values);
}

/* The condition that a column has the value that follows. */
static inline void cagzhomul_put_equal(cagzhomul_writer *to, uint32_t column) {
    cagzhomul_put_byte(to, 1);
    cagzhomul_put_u32(to, column);
}

/* The condition that a column is between two bounds, which follow, each optional. */
static inline void cagzhomul_put_between(cagzhomul_writer *to, uint32_t column) {
    cagzhomul_put_byte(to, 2);
    cagzhomul_put_u32(to, column);
}

/* ---- writing: changes and steps */

/* So many changes, which follow. */
static inline void cagzhomul_put_changes(cagzhomul_writer *to, size_t count) { cagzhomul_put_operations(to, count); }

/* An index that is added, over so many columns, whose names follow. */
static inline void cagzhomul_put_add_index(cagzhomul_writer *to, uint32_t table, const char *name, size_t columns) {
    cagzhomul_put_byte(to, 0);
    cagzhomul_put_u32(to, table);
    cagzhomul_put_index(to, name, columns);
}

/* A column that is added: required if it has a default, which then follows. */
static inline void cagzhomul_put_add_column(cagzhomul_writer *to, uint32_t table, const char *name, uint8_t type, bool has_default) {
    cagzhomul_put_byte(to, 2);
    cagzhomul_put_u32(to, table);
    cagzhomul_put_name(to, name);
    cagzhomul_put_byte(to, has_default ? 2 : 1);
    cagzhomul_put_byte(to, type);
}

/* A change of an element that has a name: 1 drops an index, 3 drops a column, and 4 abandons an
 * addition. */
static inline void cagzhomul_put_named(cagzhomul_writer *to, uint8_t change, uint32_t table, const char *name) {
    cagzhomul_put_byte(to, change);
    cagzhomul_put_u32(to, table);
    cagzhomul_put_name(to, name);
}

/* A step of so many moves, which follow. */
static inline void cagzhomul_put_step(cagzhomul_writer *to, size_t count) { cagzhomul_put_operations(to, count); }

/* The move by which an element enters a table; its kind follows, and then its state. */
static inline void cagzhomul_put_enter(cagzhomul_writer *to, uint32_t table, const char *name) { cagzhomul_put_named(to, 0, table, name); }

/* The move by which an element goes to a state. */
static inline void cagzhomul_put_go(cagzhomul_writer *to, uint32_t element, uint8_t state) {
    cagzhomul_put_byte(to, 1);
    cagzhomul_put_u32(to, element);
    cagzhomul_put_byte(to, state);
}

/* The move that abandons an addition. */
static inline void cagzhomul_put_turn(cagzhomul_writer *to, uint32_t element) {
    cagzhomul_put_byte(to, 2);
    cagzhomul_put_u32(to, element);
}

/* ---- reading: numbers, bytes and lists */

/* A reader of these bytes, which has read none. */
static inline cagzhomul_reader cagzhomul_read_from(const uint8_t *bytes, size_t length) {
    cagzhomul_reader it = {bytes, length, 0, false};
    return it;
}

/* Whether the bytes were a code, and all are read. */
static inline bool cagzhomul_is_over(const cagzhomul_reader *from) { return !from->is_bad && from->at == from->length; }

/* That the bytes are no code: what is read from now on is 0. */
static inline void cagzhomul_spoil(cagzhomul_reader *from) {
    from->is_bad = true;
    from->at = from->length;
}

static inline uint8_t cagzhomul_get_byte(cagzhomul_reader *from) {
    if (from->at < from->length) return from->bytes[from->at++];
    cagzhomul_spoil(from);
    return 0;
}

/* A byte that is below a bound. */
static inline uint8_t cagzhomul_get_below(cagzhomul_reader *from, uint8_t bound) {
    uint8_t byte = cagzhomul_get_byte(from);
    if (byte < bound) return byte;
    cagzhomul_spoil(from);
    return 0;
}

/* A number of so many bytes, at most 8. */
static inline uint64_t cagzhomul_get_number(cagzhomul_reader *from, int bytes) {
    uint64_t number = 0;
    while (bytes-- > 0) number = number << 8 | cagzhomul_get_byte(from);
    return from->is_bad ? 0 : number;
}

static inline uint32_t cagzhomul_get_u32(cagzhomul_reader *from) { return (uint32_t)cagzhomul_get_number(from, 4); }

static inline uint64_t cagzhomul_get_u64(cagzhomul_reader *from) { return cagzhomul_get_number(from, 8); }

/* How many items a list has: no more than there are bytes left, since each item has one at least. */
static inline size_t cagzhomul_get_count(cagzhomul_reader *from) {
    uint64_t count = cagzhomul_get_u64(from);
    if (count <= from->length - from->at) return (size_t)count;
    cagzhomul_spoil(from);
    return 0;
}

/* Bytes after their number: how many are there, and where, in the code. */
static inline size_t cagzhomul_get_bytes(cagzhomul_reader *from, const uint8_t **bytes) {
    size_t length = cagzhomul_get_count(from);
    *bytes = from->bytes + from->at;
    from->at += length;
    return length;
}

/* The version of the form. */
static inline void cagzhomul_get_version(cagzhomul_reader *from) {
    if (cagzhomul_get_byte(from) != 1) cagzhomul_spoil(from);
}

/* Whether an optional item is there. */
static inline bool cagzhomul_get_option(cagzhomul_reader *from) { return cagzhomul_get_below(from, 2) == 1; }

/* ---- reading: values */

/* Where the text ends that begins here, at its bytes 0 1; the code's end if it does not end. */
static inline size_t cagzhomul_text_end(const cagzhomul_reader *from) {
    size_t at = from->at;
    while (at + 1 < from->length && !(from->bytes[at] == 0 && from->bytes[at + 1] == 1)) {
        if (from->bytes[at] == 0 && from->bytes[at + 1] != 255) return from->length;
        at += from->bytes[at] == 0 ? 2 : 1;
    }
    return at + 1 < from->length ? at : from->length;
}

static inline void cagzhomul_get_text(cagzhomul_reader *from, cagzhomul_value *value) {
    size_t end = cagzhomul_text_end(from);
    if (end == from->length) {
        cagzhomul_spoil(from);
        return;
    }
    value->text = from->bytes + from->at;
    value->text_length = end - from->at;
    from->at = end + 2;
}

/* A value; null if the bytes are no code. */
static inline cagzhomul_value cagzhomul_get_value(cagzhomul_reader *from) {
    cagzhomul_value value = {CAGZHOMUL_NULL, 0, NULL, 0};
    int kind = cagzhomul_get_byte(from);
    if (kind < CAGZHOMUL_NULL || kind > CAGZHOMUL_BOOL) cagzhomul_spoil(from);
    if (kind == CAGZHOMUL_INT) value.number = (int64_t)(cagzhomul_get_u64(from) ^ (UINT64_C(1) << 63));
    if (kind == CAGZHOMUL_TEXT) cagzhomul_get_text(from, &value);
    if (kind == CAGZHOMUL_BOOL) value.number = cagzhomul_get_below(from, 2);
    if (from->is_bad) {
        cagzhomul_value none = {CAGZHOMUL_NULL, 0, NULL, 0};
        return none;
    }
    value.kind = kind;
    return value;
}

/* Copies the plain bytes of a text, as far as they fit, and says how many there are. */
static inline size_t cagzhomul_copy_text(const cagzhomul_value *value, uint8_t *out, size_t room) {
    size_t length = 0;
    for (size_t at = 0; at < value->text_length; at++, length++) {
        if (length < room) out[length] = value->text[at];
        if (value->text[at] == 0) at++;
    }
    return length;
}

/* ---- reading: what the library gives */

/* The rows that a query answered: how many follow. Each is the count of its key's values and these,
 * and the count of its cells and these: the column, as a u32, and the value. */
static inline size_t cagzhomul_get_rows(cagzhomul_reader *from) {
    cagzhomul_get_version(from);
    return cagzhomul_get_count(from);
}

/* A plan: how many steps follow. Each is the count of the reorganisations that must have ended before
 * it and these, and the count of its moves and these. */
static inline size_t cagzhomul_get_plan(cagzhomul_reader *from) { return cagzhomul_get_rows(from); }

/* A version of the schema: how many tables follow. Each is its name, and the count of its key columns
 * and these: the name and the type. After them come the count of the elements and these: the number
 * and the table, each a u32, the name, the kind, the state and whether it is being dropped; and at the
 * end the next number, a u32. */
static inline size_t cagzhomul_get_schema(cagzhomul_reader *from) { return cagzhomul_get_rows(from); }

/* A reorganisation that must have ended: whether it is a clear, and not a fill, and of which element. */
static inline bool cagzhomul_get_reorganisation(cagzhomul_reader *from, uint32_t *element) {
    bool is_clear = cagzhomul_get_below(from, 2) == 1;
    *element = cagzhomul_get_u32(from);
    return is_clear;
}

#ifdef __cplusplus
}
#endif

#endif
