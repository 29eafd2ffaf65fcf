/* What txns.py does in Python for each transaction, in C: the keys that its operations read, and its draft, with the library's call between
   the codes. It is built where there is a compiler (tools/build_accelerator, or pip), and nothing else depends on that: at anything unusual
   its functions give None, and Python does it, which raises what is to be raised. docs/FORMAT.md has the codes. */
#define PY_SSIZE_T_CLEAN
#include <Python.h>

#include <stdbool.h>
#include <stdint.h>
#include <string.h>

/* places in an operation, a table and a version of txns.py and calls.py */
enum { KIND, NAME, KEY, CELLS, OPERATION };
enum { BEGINS, ROW, PAIRS, COLUMNS, TABLE };
enum { NUMBER, VERSION_KEY, RECORD, VERSION_CODE, VERSION };

enum { DELETE = 2 };

/* what cagzhomul_layer_txn gives (include/cagzhomul_layer.h), and its type */
typedef struct layered {
    int32_t status;
    uint32_t column;
    uint64_t number;
    size_t length;
} layered;
typedef layered (*txn_call)(uint64_t, const uint8_t *, size_t, const uint8_t *, size_t, const uint8_t *, size_t, const uint8_t *, size_t, uint8_t *,
                            size_t);

/* ---- codes that are written */

/* bytes that grow, which most are near */
typedef struct code {
    uint8_t *at;
    size_t length, room;
    uint8_t near[4096];
} code;

static void begin(code *it) {
    it->at = it->near;
    it->length = 0;
    it->room = sizeof it->near;
}

static void end(code *it) {
    if (it->at != it->near) PyMem_Free(it->at);
}

/* Makes room for so many bytes more. */
static bool reserve(code *in, size_t length) {
    if (length <= in->room - in->length) return true;
    size_t room = 2 * in->length + length;
    uint8_t *at = in->at == in->near ? PyMem_Malloc(room) : PyMem_Realloc(in->at, room);
    if (!at) return false;
    if (in->at == in->near) memcpy(at, in->near, in->length);
    in->at = at;
    in->room = room;
    return true;
}

static bool put(code *to, const void *bytes, size_t length) {
    if (!reserve(to, length)) return false;
    memcpy(to->at + to->length, bytes, length);
    to->length += length;
    return true;
}

static bool put_number(code *to, uint64_t number) {
    uint8_t bytes[8];
    for (int i = 0; i < 8; i++) bytes[i] = (uint8_t)(number >> (56 - 8 * i));
    return put(to, bytes, sizeof bytes);
}

static bool put_bytes(code *to, PyObject *bytes) {
    return PyBytes_CheckExact(bytes) && put(to, PyBytes_AS_STRING(bytes), (size_t)PyBytes_GET_SIZE(bytes));
}

/* Puts a text, each 0 of which is followed by 255. */
static bool put_text(code *to, PyObject *text) {
    Py_ssize_t size;
    const char *from = PyUnicode_AsUTF8AndSize(text, &size);
    if (!from || !put(to, "\3", 1)) return false;
    size_t left = (size_t)size;
    for (const char *zero; (zero = memchr(from, 0, left)); from = zero + 1) {
        size_t length = (size_t)(zero - from) + 1;
        if (!put(to, from, length) || !put(to, "\xff", 1)) return false;
        left -= length;
    }
    return put(to, from, left) && put(to, "\0\1", 2);
}

static bool put_int(code *to, PyObject *number) {
    long long n = PyLong_AsLongLong(number);
    return !(n == -1 && PyErr_Occurred()) && put(to, "\2", 1) && put_number(to, (uint64_t)n ^ UINT64_C(1) << 63);
}

static bool put_value(code *to, PyObject *value) {
    if (PyUnicode_CheckExact(value)) return put_text(to, value);
    if (PyLong_CheckExact(value)) return put_int(to, value);
    if (PyBool_Check(value)) return put(to, value == Py_True ? "\4\1" : "\4\0", 2);
    return value == Py_None && put(to, "\1", 1);
}

/* ---- operations */

/* The items of a tuple of so many, or NULL. */
static PyObject *const *items_of(PyObject *tuple, Py_ssize_t count) {
    return PyTuple_Check(tuple) && PyTuple_GET_SIZE(tuple) == count ? ((PyTupleObject *)tuple)->ob_item : NULL;
}

/* An operation, and its table. */
typedef struct operation {
    PyObject *const *parts, *const *table;
} operation;

/* The operation of this number, if its table is known and its key is the code of one. */
static bool find_operation(PyObject *operations, Py_ssize_t i, PyObject *tables, operation *found) {
    found->parts = items_of(PyList_GET_ITEM(operations, i), OPERATION);
    if (!found->parts || !PyUnicode_CheckExact(found->parts[NAME])) return false;
    PyObject *table = PyDict_GetItemWithError(tables, found->parts[NAME]);
    found->table = table ? items_of(table, TABLE) : NULL;
    PyObject *key = found->parts[KEY];
    return found->table && PyBytes_CheckExact(key) && PyBytes_GET_SIZE(key) >= 8;
}

static bool put_cells(code *to, PyObject *columns, PyObject *cells) {
    if (!PyDict_CheckExact(columns) || !PyDict_CheckExact(cells) || !put_number(to, (uint64_t)PyDict_GET_SIZE(cells))) return false;
    PyObject *column, *value;
    for (Py_ssize_t at = 0; PyDict_Next(cells, &at, &column, &value);) {
        PyObject *number = PyDict_GetItemWithError(columns, column);
        if (!number || !put_bytes(to, number) || !put_value(to, value)) return false;
    }
    return true;
}

static bool put_operation(code *to, const operation *it) {
    long kind = PyLong_AsLong(it->parts[KIND]);
    PyObject *begins = it->table[BEGINS];
    if (kind < 0 || kind > DELETE || !PyList_CheckExact(begins) || PyList_GET_SIZE(begins) != DELETE + 1) return false;
    if (!put_bytes(to, PyList_GET_ITEM(begins, kind)) || !put_bytes(to, it->parts[KEY])) return false;
    return kind == DELETE || put_cells(to, it->table[COLUMNS], it->parts[CELLS]);
}

static bool put_operations(code *to, PyObject *operations, PyObject *tables) {
    if (!PyList_CheckExact(operations) || !PyDict_CheckExact(tables)) return false;
    if (!put(to, "\1", 1) || !put_number(to, (uint64_t)PyList_GET_SIZE(operations))) return false;
    for (Py_ssize_t i = 0; i < PyList_GET_SIZE(operations); i++) {
        operation found;
        if (!find_operation(operations, i, tables, &found) || !put_operation(to, &found)) return false;
    }
    return true;
}

/* ---- the keys that operations read */

/* Three byte strings as one. */
static PyObject *joined(PyObject *first, const char *middle, Py_ssize_t length, PyObject *last) {
    if (!PyBytes_CheckExact(first) || !PyBytes_CheckExact(last)) return NULL;
    PyObject *made = PyBytes_FromStringAndSize(NULL, PyBytes_GET_SIZE(first) + length + PyBytes_GET_SIZE(last));
    if (!made) return NULL;
    char *to = PyBytes_AS_STRING(made);
    memcpy(to, PyBytes_AS_STRING(first), (size_t)PyBytes_GET_SIZE(first));
    memcpy(to + PyBytes_GET_SIZE(first), middle, (size_t)length);
    memcpy(to + PyBytes_GET_SIZE(first) + length, PyBytes_AS_STRING(last), (size_t)PyBytes_GET_SIZE(last));
    return made;
}

static bool add_keys(PyObject *keys, const operation *it) {
    PyObject *pairs = it->table[PAIRS], *key = it->parts[KEY];
    if (!PyList_CheckExact(pairs)) return false;
    for (Py_ssize_t i = 0; i < PyList_GET_SIZE(pairs); i++) {
        /* without how many values the key has */
        PyObject *made = joined(it->table[ROW], PyBytes_AS_STRING(key) + 8, PyBytes_GET_SIZE(key) - 8, PyList_GET_ITEM(pairs, i));
        if (!made) return false;
        bool failed = PyList_Append(keys, made) < 0;
        Py_DECREF(made);
        if (failed) return false;
    }
    return true;
}

/* How a byte string stands to another. */
static int order_of(PyObject *one, PyObject *other) {
    Py_ssize_t x = PyBytes_GET_SIZE(one), y = PyBytes_GET_SIZE(other);
    int order = memcmp(PyBytes_AS_STRING(one), PyBytes_AS_STRING(other), (size_t)(x < y ? x : y));
    return order ? order : (x > y) - (x < y);
}

/* Sorts keys; false if one is there twice. */
static bool are_sorted(PyObject *keys) {
    if (PyList_Sort(keys) < 0) return false;
    for (Py_ssize_t i = 1; i < PyList_GET_SIZE(keys); i++)
        if (!order_of(PyList_GET_ITEM(keys, i - 1), PyList_GET_ITEM(keys, i))) return false;
    return true;
}

/* What a function gives, or None. */
static PyObject *or_none(PyObject *made) {
    if (made) return made;
    PyErr_Clear();
    Py_RETURN_NONE;
}

static PyObject *keys_of(PyObject *self, PyObject *const *given, Py_ssize_t count) {
    (void)self;
    if (count != 2 || !PyList_CheckExact(given[0]) || !PyDict_CheckExact(given[1])) Py_RETURN_NONE;
    PyObject *keys = PyList_New(0);
    bool is_made = keys;
    for (Py_ssize_t i = 0; is_made && i < PyList_GET_SIZE(given[0]); i++) {
        operation found;
        is_made = find_operation(given[0], i, given[1], &found) && add_keys(keys, &found);
    }
    if (!is_made || !are_sorted(keys)) Py_CLEAR(keys);
    return or_none(keys);
}

/* ---- the draft */

/* Puts a byte string, or that there is none. */
static bool put_option(code *to, PyObject *value) {
    if (value == Py_None) return put(to, "\0", 1);
    if (!PyBytes_CheckExact(value) || !put(to, "\1", 1)) return false;
    return put_number(to, (uint64_t)PyBytes_GET_SIZE(value)) && put_bytes(to, value);
}

/* Puts keys with their values or none, which have to be by rising key. */
static bool put_points(code *to, PyObject *points) {
    PyObject *before = NULL, *key, *value;
    for (Py_ssize_t at = 0; PyDict_Next(points, &at, &key, &value); before = key) {
        if (!PyBytes_CheckExact(key) || (before && order_of(before, key) >= 0)) return false;
        if (!put_number(to, (uint64_t)PyBytes_GET_SIZE(key)) || !put_bytes(to, key)) return false;
        if (!put_option(to, value)) return false;
    }
    return true;
}

/* what is left of bytes that are read */
typedef struct reader {
    const uint8_t *at;
    size_t left;
} reader;

/* The next bytes, so many, or NULL. */
static const uint8_t *next(reader *of, size_t length) {
    if (length > of->left) return NULL;
    const uint8_t *at = of->at;
    of->at += length;
    of->left -= length;
    return at;
}

static bool next_number(reader *of, uint64_t *number) {
    const uint8_t *at = next(of, 8);
    if (!at) return false;
    *number = 0;
    for (int i = 0; i < 8; i++) *number = *number << 8 | at[i];
    return true;
}

/* The next bytes, after how many they are. */
static PyObject *next_bytes(reader *of) {
    uint64_t length;
    const uint8_t *at = next_number(of, &length) && length <= of->left ? next(of, (size_t)length) : NULL;
    return at ? PyBytes_FromStringAndSize((const char *)at, (Py_ssize_t)length) : NULL;
}

static bool is_next(reader *of, const void *bytes, size_t length) {
    const uint8_t *at = next(of, length);
    return at && !memcmp(at, bytes, length);
}

/* Reads a key, with its value or none. */
static bool next_point(reader *of, PyObject *points) {
    PyObject *key = next_bytes(of), *value = NULL;
    const uint8_t *has = key ? next(of, 1) : NULL;
    if (has && *has) {
        value = next_bytes(of);
    } else if (has) {
        value = Py_None;
        Py_INCREF(value);
    }
    bool is_read = value && PyDict_SetItem(points, key, value) == 0;
    Py_XDECREF(key);
    Py_XDECREF(value);
    return is_read;
}

/* Reads what a draft writes, after what it compares: no range, and then points to the end. */
static PyObject *writes_of(reader *of) {
    uint64_t ranges, count;
    if (!next_number(of, &ranges) || ranges || !next_number(of, &count)) return NULL;
    PyObject *points = PyDict_New();
    bool is_read = points;
    for (uint64_t i = 0; is_read && i < count; i++) is_read = next_point(of, points);
    if (!is_read || of->left) Py_CLEAR(points);
    return points;
}

/* what a draft is asked with, and its codes */
typedef struct asked {
    PyObject *const *version, *mark, *mark_key, *view;
    code operations, points;
} asked;

/* a code's version, and how many points it has */
enum { HEAD = 9 };

/* Whether a draft compares the version's record, that the mark is missing, and what was read. */
static bool compares(reader *draft, const asked *of) {
    code first;
    begin(&first);
    bool is_right = put(&first, "\1", 1) && put_number(&first, (uint64_t)PyDict_GET_SIZE(of->view) + 2) && put_bytes(&first, of->version[VERSION_CODE]) &&
                    put_number(&first, (uint64_t)PyBytes_GET_SIZE(of->mark_key)) && put_bytes(&first, of->mark_key) && put(&first, "\0", 1) &&
                    is_next(draft, first.at, first.length) && is_next(draft, of->points.at + HEAD, of->points.length - HEAD);
    end(&first);
    return is_right;
}

/* What a draft compares, and what it writes. */
static PyObject *read_draft(reader *draft, const asked *of) {
    PyObject *write = compares(draft, of) ? writes_of(draft) : NULL, *compare = write ? PyDict_New() : NULL;
    if (compare && !PyDict_SetItem(compare, of->version[VERSION_KEY], of->version[RECORD]) && !PyDict_SetItem(compare, of->mark_key, Py_None) &&
        !PyDict_Update(compare, of->view))
        return Py_BuildValue("(NN)", compare, write);
    Py_XDECREF(compare);
    Py_XDECREF(write);
    return NULL;
}

/* Calls the library's function, and reads its draft; NULL if it refuses, or its answer does not fit. */
static PyObject *called(txn_call call, const asked *with) {
    uint64_t number = PyLong_AsUnsignedLongLong(with->version[NUMBER]);
    PyObject *record = with->version[RECORD], *draft = NULL;
    if (PyErr_Occurred() || !PyBytes_CheckExact(record)) return NULL;
    code out;
    begin(&out);
    /* what is given is about as long as what comes of it */
    if (reserve(&out, 2 * ((size_t)PyBytes_GET_SIZE(record) + with->operations.length + with->points.length))) {
        layered done;
        Py_BEGIN_ALLOW_THREADS
        done = call(number, (uint8_t *)PyBytes_AS_STRING(record), (size_t)PyBytes_GET_SIZE(record), with->operations.at, with->operations.length,
                    with->points.at, with->points.length, (uint8_t *)PyBytes_AS_STRING(with->mark), (size_t)PyBytes_GET_SIZE(with->mark), out.at, out.room);
        Py_END_ALLOW_THREADS
        reader answer = {out.at, done.length};
        if (!done.status && done.length <= out.room) draft = read_draft(&answer, with);
    }
    end(&out);
    return draft;
}

static PyObject *draft_of(PyObject *self, PyObject *const *given, Py_ssize_t count) {
    (void)self;
    enum { CALL, OF_VERSION, OPERATIONS, TABLES, VIEW, MARK, GIVEN };
    if (count != GIVEN || !PyDict_CheckExact(given[VIEW]) || !PyBytes_CheckExact(given[MARK])) Py_RETURN_NONE;
    asked with; /* not all of it is set, since that would take as long as much of the rest */
    with.version = items_of(given[OF_VERSION], VERSION);
    with.mark = given[MARK];
    with.view = given[VIEW];
    begin(&with.operations);
    begin(&with.points);
    txn_call call = (txn_call)PyLong_AsVoidPtr(given[CALL]);
    PyObject *draft = NULL;
    with.mark_key = PyBytes_FromString("\3");
    PyBytes_Concat(&with.mark_key, with.mark);
    if (call && with.mark_key && with.version && put_operations(&with.operations, given[OPERATIONS], given[TABLES]) && put(&with.points, "\1", 1) &&
        put_number(&with.points, (uint64_t)PyDict_GET_SIZE(with.view)) && put_points(&with.points, with.view))
        draft = called(call, &with);
    Py_XDECREF(with.mark_key);
    end(&with.operations);
    end(&with.points);
    return or_none(draft);
}

static PyMethodDef functions[] = {
    {"keys_of", (PyCFunction)(void (*)(void))keys_of, METH_FASTCALL,
     "keys_of(operations, tables): the keys that operations read, by rising key, or None if it is not as usual."},
    {"draft_of", (PyCFunction)(void (*)(void))draft_of, METH_FASTCALL,
     "draft_of(call, version, operations, tables, view, mark): what a transaction's draft compares and what it writes, or None if it is not as usual. "
     "`call` is the address of cagzhomul_layer_txn."},
    {NULL, NULL, 0, NULL},
};

static struct PyModuleDef module = {PyModuleDef_HEAD_INIT, .m_name = "_accelerator", .m_size = -1, .m_methods = functions};

PyMODINIT_FUNC PyInit__accelerator(void) { return PyModule_Create(&module); }
