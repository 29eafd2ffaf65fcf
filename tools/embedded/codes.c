/* The codes of docs/FORMAT.md, written and read by include/cagzhomul_codes.h.
   codes write: prints each example that a caller writes, its name and its bytes in hexadecimal.
   codes read NAME HEX: prints what the example of this name says.
   codes any COUNT: reads so many inputs of any bytes in each way; the sanitizers look that nothing else is touched. */
#include "cagzhomul_codes.h"
#include <stdio.h>
#include <stdlib.h>

enum { ROOM = 512, PEOPLE = 1, TOWN = 1 };

static uint8_t room[ROOM];

static void show(const char *name, cagzhomul_writer (*make)(uint8_t *, size_t)) {
    cagzhomul_writer whole = make(room, ROOM);
    if (!cagzhomul_is_whole(&whole)) exit(1);
    printf("%s ", name);
    for (size_t at = 0; at < whole.length; at++) printf("%02x", room[at]);
    printf("\n");
    /* to less room: no byte is written beside it, and the length is the same */
    for (size_t less = 0; less < whole.length; less++) {
        uint8_t *bytes = malloc(less ? less : 1);
        cagzhomul_writer cut = make(bytes, less);
        if (!bytes || cagzhomul_is_whole(&cut) || cut.length != whole.length || memcmp(bytes, room, less)) exit(1);
        free(bytes);
    }
}

static cagzhomul_writer opening(uint8_t *bytes, size_t size) {
    cagzhomul_writer it = cagzhomul_write_to(bytes, size);
    cagzhomul_put_opening(&it, 10, 1);
    cagzhomul_put_table(&it, "people");
    cagzhomul_put_count(&it, 1), cagzhomul_put_column(&it, "id", CAGZHOMUL_INT_COLUMN);
    cagzhomul_put_count(&it, 1), cagzhomul_put_column(&it, "town", CAGZHOMUL_TEXT_COLUMN);
    cagzhomul_put_count(&it, 0);
    return it;
}

static cagzhomul_writer operations(uint8_t *bytes, size_t size) {
    cagzhomul_writer it = cagzhomul_write_to(bytes, size);
    cagzhomul_put_operations(&it, 2);
    cagzhomul_put_insert(&it, PEOPLE, 1), cagzhomul_put_int(&it, 1);
    cagzhomul_put_count(&it, 1), cagzhomul_put_cell(&it, TOWN), cagzhomul_put_text(&it, "Ulm", 3);
    cagzhomul_put_insert(&it, PEOPLE, 1), cagzhomul_put_int(&it, -1);
    cagzhomul_put_count(&it, 0);
    return it;
}

static cagzhomul_writer query(uint8_t *bytes, size_t size) {
    cagzhomul_writer it = cagzhomul_write_to(bytes, size);
    cagzhomul_put_query(&it, PEOPLE, 1), cagzhomul_put_u32(&it, TOWN);
    cagzhomul_put_count(&it, 1);
    cagzhomul_put_between(&it, TOWN);
    cagzhomul_put_option(&it, true), cagzhomul_put_text(&it, "M", 1);
    cagzhomul_put_option(&it, false);
    return it;
}

static cagzhomul_writer changes(uint8_t *bytes, size_t size) {
    cagzhomul_writer it = cagzhomul_write_to(bytes, size);
    cagzhomul_put_changes(&it, 1);
    cagzhomul_put_add_index(&it, PEOPLE, "by_town", 1), cagzhomul_put_name(&it, "town");
    return it;
}

static cagzhomul_writer step(uint8_t *bytes, size_t size) {
    cagzhomul_writer it = cagzhomul_write_to(bytes, size);
    cagzhomul_put_step(&it, 1);
    cagzhomul_put_enter(&it, PEOPLE, "by_town");
    cagzhomul_put_byte(&it, 0), cagzhomul_put_count(&it, 1), cagzhomul_put_u32(&it, TOWN);
    cagzhomul_put_byte(&it, CAGZHOMUL_DELETE_ONLY);
    return it;
}

/* What no example of the page has: each value, with a text that has the byte 0, and the other words. */
static cagzhomul_writer others(uint8_t *bytes, size_t size) {
    cagzhomul_writer it = cagzhomul_write_to(bytes, size);
    cagzhomul_put_null(&it), cagzhomul_put_bool(&it, false), cagzhomul_put_bool(&it, true);
    cagzhomul_put_text(&it, "a\0b", 3), cagzhomul_put_int(&it, INT64_MIN), cagzhomul_put_int(&it, INT64_MAX);
    cagzhomul_put_update(&it, 2, 0), cagzhomul_put_delete(&it, 3, 0);
    cagzhomul_put_key_is(&it, 0), cagzhomul_put_equal(&it, 4);
    cagzhomul_put_add_column(&it, 5, "c", CAGZHOMUL_BOOL_COLUMN, false), cagzhomul_put_named(&it, 3, 6, "d");
    cagzhomul_put_go(&it, 7, CAGZHOMUL_PUBLIC), cagzhomul_put_turn(&it, 8);
    return it;
}

static void print_value(cagzhomul_reader *from) {
    cagzhomul_value value = cagzhomul_get_value(from);
    uint8_t text[ROOM];
    size_t length = cagzhomul_copy_text(&value, text, ROOM);
    if (value.kind == CAGZHOMUL_TEXT) printf(" text %.*s", (int)(length < ROOM ? length : ROOM), (char *)text);
    else printf(" %s %lld", value.kind == CAGZHOMUL_INT ? "int" : value.kind == CAGZHOMUL_BOOL ? "bool" : "null", (long long)value.number);
}

static void print_rows(cagzhomul_reader *from) {
    for (size_t rows = cagzhomul_get_rows(from); rows > 0; rows--) {
        printf(" key");
        for (size_t values = cagzhomul_get_count(from); values > 0; values--) print_value(from);
        for (size_t cells = cagzhomul_get_count(from); cells > 0; cells--) {
            printf(" cell %u", cagzhomul_get_u32(from));
            print_value(from);
        }
    }
}

static void print_name(cagzhomul_reader *from) {
    const uint8_t *name;
    size_t length = cagzhomul_get_bytes(from, &name);
    printf(" %.*s", (int)length, (const char *)name);
}

/* The kind of an element, and its state. */
static void print_kind(cagzhomul_reader *from) {
    uint8_t kind = cagzhomul_get_below(from, 3);
    if (kind == 0) {
        printf(" index");
        for (size_t columns = cagzhomul_get_count(from); columns > 0; columns--) printf(" %u", cagzhomul_get_u32(from));
    } else {
        printf(" column %u", cagzhomul_get_below(from, 3));
        if (kind == 2) print_value(from);
    }
    printf(" state %u", cagzhomul_get_below(from, 4));
}

static void print_schema(cagzhomul_reader *from) {
    for (size_t tables = cagzhomul_get_schema(from); tables > 0; tables--) {
        printf(" table"), print_name(from);
        for (size_t columns = cagzhomul_get_count(from); columns > 0; columns--) {
            printf(" key"), print_name(from);
            printf(" %u", cagzhomul_get_below(from, 3));
        }
    }
    for (size_t elements = cagzhomul_get_count(from); elements > 0; elements--) {
        uint32_t number = cagzhomul_get_u32(from), table = cagzhomul_get_u32(from);
        printf(" element %u of %u", number, table), print_name(from), print_kind(from);
        printf("%s", cagzhomul_get_option(from) ? " dropped" : "");
    }
    printf(" next %u", cagzhomul_get_u32(from));
}

static void print_move(cagzhomul_reader *from) {
    uint32_t number;
    uint8_t move = cagzhomul_get_below(from, 3);
    if (move) {
        number = cagzhomul_get_u32(from);
        if (move == 1) printf(" go %u %u", number, cagzhomul_get_below(from, 4));
        else printf(" turn %u", number);
        return;
    }
    printf(" enter %u", cagzhomul_get_u32(from)), print_name(from), print_kind(from);
}

static void print_plan(cagzhomul_reader *from) {
    for (size_t steps = cagzhomul_get_plan(from); steps > 0; steps--) {
        uint32_t element;
        printf(" step");
        for (size_t before = cagzhomul_get_count(from); before > 0; before--) {
            bool is_clear = cagzhomul_get_reorganisation(from, &element);
            printf(" %s %u", is_clear ? "clear" : "fill", element);
        }
        for (size_t moves = cagzhomul_get_count(from); moves > 0; moves--) print_move(from);
    }
}

static int read_example(const char *name, const char *hex) {
    size_t length = strlen(hex) / 2;
    uint8_t *bytes = malloc(length ? length : 1);
    for (size_t at = 0; at < length; at++) {
        unsigned byte;
        if (sscanf(hex + 2 * at, "%2x", &byte) != 1) return 1;
        bytes[at] = (uint8_t)byte;
    }
    cagzhomul_reader from = cagzhomul_read_from(bytes, length);
    printf("%s", name);
    if (!strcmp(name, "plan")) print_plan(&from);
    else if (!strcmp(name, "schema")) print_schema(&from);
    else print_rows(&from);
    printf(" %s\n", cagzhomul_is_over(&from) ? "over" : "bad");
    free(bytes);
    return 0;
}

/* The next number of a sequence that is the same in each run. */
static uint64_t next_number(uint64_t *state) {
    *state ^= *state << 13, *state ^= *state >> 7, *state ^= *state << 17;
    return *state;
}

static int read_any(long count) {
    uint64_t state = 88172645463325252u;
    long bad = 0;
    if (!freopen("/dev/null", "w", stdout)) return 1;
    for (long done = 0; done < count; done++) {
        size_t length = (size_t)(next_number(&state) % 64);
        uint8_t *bytes = malloc(length ? length : 1);
        /* small bytes are the likely ones, so that counts and tags come true */
        for (size_t at = 0; at < length; at++) bytes[at] = (uint8_t)(next_number(&state) % 4 ? next_number(&state) % 5 : next_number(&state));
        if (length > 9) bytes[0] = 1, memset(bytes + 1, 0, 7);
        for (int way = 0; way < 3; way++) {
            cagzhomul_reader from = cagzhomul_read_from(bytes, length);
            if (way == 0) print_rows(&from);
            else if (way == 1) print_plan(&from);
            else print_schema(&from);
            if (from.at > length) return 1;
            bad += from.is_bad;
        }
        free(bytes);
    }
    fprintf(stderr, "%ld of %ld are no code\n", bad, 3 * count);
    return bad == 0 || bad == 3 * count;
}

int main(int count, char **words) {
    if (count == 4 && !strcmp(words[1], "read")) return read_example(words[2], words[3]);
    if (count == 3 && !strcmp(words[1], "any")) return read_any(atol(words[2]));
    if (count != 2 || strcmp(words[1], "write")) return 2;
    show("opening", opening), show("operations", operations), show("query", query);
    show("changes", changes), show("step", step), show("others", others);
    return 0;
}
