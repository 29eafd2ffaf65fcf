/* The engine over a store of your own, for C and C++: etcd, PostgreSQL, an SQLite file, or whatever
 * compares and writes in one atomic transaction.
 *
 * Nothing is kept between calls. Each is a function from what was read of the store, at whatever
 * moments, to a refusal or a draft: what the store is to compare, and what it then writes, in one
 * transaction. The program hands the draft to the store; if a comparison fails, nothing has
 * changed, and the program reads again and makes the call again. docs/LAYER.md has the whole, and
 * docs/FORMAT.md the keys, the records and the codes.
 *
 * A call writes what it gives to `out`, as much of it as fits, and says how long all of it is; the
 * bytes of `out` after it stay. If it did not fit, the call is made again with more room. What a
 * caller owes is in cagzhomul.h. A refused call leaves `out` as it was. Of the refusals of a
 * function the first in its list that applies is given, but for CAGZHOMUL_OUT_OF_MEMORY, which may
 * come in place of any.
 */
#ifndef CAGZHOMUL_LAYER_H
#define CAGZHOMUL_LAYER_H

#include "cagzhomul.h"

#ifdef __cplusplus
extern "C" {
#endif

/* What a call of the layer came to. */
typedef struct cagzhomul_layered {
    int32_t status;
    uint32_t column; /* at CAGZHOMUL_NOT_PUBLIC the number that was named; else 0 */
    uint64_t number; /* at CAGZHOMUL_OK what the function says, or 0; at CAGZHOMUL_DUPLICATE and
                        CAGZHOMUL_NO_ROW the first operation that the rows refuse, counted from 0;
                        at CAGZHOMUL_DEPENDENT and CAGZHOMUL_UNFINISHED the element; at
                        CAGZHOMUL_BAD_PIECE of cagzhomul_layer_begin the place of the key; else 0 */
    size_t length;   /* at CAGZHOMUL_OK of what the call gives, however much of it fitted; else 0 */
} cagzhomul_layered;

/* What is due of a change: CAGZHOMUL_DUE_NOTHING, or the act that any server may do next. */
#define CAGZHOMUL_DUE_NOTHING 0 /* no step is left, and each fill and clear that is wanted has ended */
#define CAGZHOMUL_DUE_BEGIN 1   /* cagzhomul_layer_begin of the element */
#define CAGZHOMUL_DUE_CLOSE 2   /* cagzhomul_layer_close, for which a begin waits */
#define CAGZHOMUL_DUE_PUBLISH 3 /* cagzhomul_layer_publish of the next step of the plan */
#define CAGZHOMUL_DUE_WORK 4    /* cagzhomul_layer_piece of the piece of the element */

typedef struct cagzhomul_due {
    int32_t status;
    uint32_t act;     /* at CAGZHOMUL_OK one of the five above; else 0 */
    uint32_t element; /* that begins, or has the piece; else 0 */
    uint64_t piece;   /* from 0; 0 unless there is one */
} cagzhomul_due;

/* Drafts the opening of a store with the tables of an opening's code; its lease length is not used.
 * Version 1 is missing, and is then put. Whatever else is under the store's prefix is for the
 * program to compare.
 * CAGZHOMUL_OK. Refusals: CAGZHOMUL_BAD_CODE; CAGZHOMUL_BAD_TABLE. */
cagzhomul_layered cagzhomul_layer_open(const uint8_t *opening, size_t opening_length,
                                       uint8_t *out, size_t out_length);

/* Which keys a transaction reads: the code of points, each without a value, by rising key.
 * `version` is the record of the version under which it runs.
 * CAGZHOMUL_OK. Refusals: CAGZHOMUL_BAD_CODE. */
cagzhomul_layered cagzhomul_layer_reads(const uint8_t *version, size_t version_length,
                                        const uint8_t *operations, size_t operations_length,
                                        uint8_t *out, size_t out_length);

/* Drafts a transaction under the open version `number`. `view` is the code of the keys of
 * cagzhomul_layer_reads, each with its value or none. With a `mark`, a name that this transaction
 * alone has, it is applied at most once, however often its draft is handed in; an empty one is
 * none.
 * CAGZHOMUL_OK. Refusals: CAGZHOMUL_BAD_CODE; CAGZHOMUL_NO_TABLE, CAGZHOMUL_NOT_PUBLIC and
 * CAGZHOMUL_WRONG_TYPE, of the first operation that has one; CAGZHOMUL_TOO_MANY_OPS;
 * CAGZHOMUL_VIEW_MISMATCH if a key was not read; CAGZHOMUL_DUPLICATE and CAGZHOMUL_NO_ROW, if the
 * rows that were read refuse it. */
cagzhomul_layered cagzhomul_layer_txn(uint64_t number, const uint8_t *version,
                                      size_t version_length, const uint8_t *operations,
                                      size_t operations_length, const uint8_t *view,
                                      size_t view_length, const uint8_t *mark, size_t mark_length,
                                      uint8_t *out, size_t out_length);

/* Which ranges of the store a query reads first: the code of pairs of a first key and one after the
 * last. At CAGZHOMUL_OK the number is 0 if that is the row of a key, 1 if it is a part of an index,
 * after which those of cagzhomul_layer_row_ranges are read, and 2 if it is a table.
 * CAGZHOMUL_OK. Refusals: CAGZHOMUL_BAD_CODE; CAGZHOMUL_NO_TABLE; CAGZHOMUL_NOT_PUBLIC;
 * CAGZHOMUL_WRONG_TYPE. */
cagzhomul_layered cagzhomul_layer_ranges(const uint8_t *version, size_t version_length,
                                         const uint8_t *query, size_t query_length,
                                         uint8_t *out, size_t out_length);

/* Which ranges a query reads after the part of its index, whose pairs are given by rising key: the
 * rows that stand there. At CAGZHOMUL_OK the number is 0. A query by another path gets what
 * cagzhomul_layer_ranges gives.
 * CAGZHOMUL_OK. Refusals as of cagzhomul_layer_ranges. */
cagzhomul_layered cagzhomul_layer_row_ranges(const uint8_t *version, size_t version_length,
                                             const uint8_t *query, size_t query_length,
                                             const uint8_t *pairs, size_t pairs_length,
                                             uint8_t *out, size_t out_length);

/* The code of the rows that a query asks for. `pairs` has all pairs of its ranges, as they were
 * read at one moment, by rising key; what else it has does not matter.
 * CAGZHOMUL_OK. Refusals as of cagzhomul_layer_ranges. */
cagzhomul_layered cagzhomul_layer_rows(const uint8_t *version, size_t version_length,
                                       const uint8_t *query, size_t query_length,
                                       const uint8_t *pairs, size_t pairs_length,
                                       uint8_t *out, size_t out_length);

/* The code of the least plan of a batch of changes, from a version, as cagzhomul_plan gives it.
 * CAGZHOMUL_OK. Refusals: CAGZHOMUL_BAD_CODE; of the first change that cannot be planned the first
 * of CAGZHOMUL_UNKNOWN, CAGZHOMUL_NAME_TAKEN, CAGZHOMUL_DEPENDENT, CAGZHOMUL_IN_CHANGE and
 * CAGZHOMUL_OVER_LIMIT. */
cagzhomul_layered cagzhomul_layer_plan(const uint8_t *version, size_t version_length,
                                       const uint8_t *changes, size_t changes_length,
                                       uint8_t *out, size_t out_length);

/* Drafts a step of the schema. `before` is the number of the version before the newest, 0 if that
 * is the first, and `version` the record of the newest; `found` has the keys and records of all
 * begun reorganisations, by rising key (those of elements that the step does not move may be left
 * out).
 * CAGZHOMUL_OK. Refusals: CAGZHOMUL_BAD_CODE; CAGZHOMUL_VERSIONS_SPENT; CAGZHOMUL_UNKNOWN,
 * CAGZHOMUL_NOT_ADJACENT, CAGZHOMUL_WRONG_WAY, CAGZHOMUL_DEPENDENT, CAGZHOMUL_NAME_TAKEN and
 * CAGZHOMUL_OVER_LIMIT, of the step; CAGZHOMUL_UNFINISHED if a move needs a fill or a clear that
 * was not found. */
cagzhomul_layered cagzhomul_layer_publish(uint32_t before, const uint8_t *version,
                                          size_t version_length, const uint8_t *step,
                                          size_t step_length, const uint8_t *found,
                                          size_t found_length, uint8_t *out, size_t out_length);

/* Drafts the close of the version before the newest: from then on no transaction under it is
 * applied, and a reorganisation may begin.
 * CAGZHOMUL_OK. Refusals: CAGZHOMUL_BAD_CODE. */
cagzhomul_layered cagzhomul_layer_close(uint32_t before, const uint8_t *version,
                                        size_t version_length, uint8_t *out, size_t out_length);

/* Drafts the begin of the fill or the clear that an element wants. The first piece begins where the
 * range of the work does, and each other one at one of `keys`, the code of at most 63 points
 * without values, by rising key: of rows of its table, or of pairs of the index if one is cleared.
 * Whether they are there is not asked.
 * CAGZHOMUL_OK. Refusals: CAGZHOMUL_BAD_CODE; CAGZHOMUL_NOT_WANTED; CAGZHOMUL_BAD_COUNT;
 * CAGZHOMUL_BAD_PIECE for the first key at which no piece may begin. */
cagzhomul_layered cagzhomul_layer_begin(uint32_t before, const uint8_t *version,
                                        size_t version_length, uint32_t element,
                                        const uint8_t *keys, size_t keys_length,
                                        uint8_t *out, size_t out_length);

/* Drafts a piece, from 0, of the reorganisation with this record, from its cursor, whose record is
 * given, on: `pairs` has all pairs from the cursor to below the key `to`, by rising key. It goes on
 * to the piece's end if `to` is there, else to the last key that was read at which an item may
 * begin.
 * CAGZHOMUL_OK. Refusals: CAGZHOMUL_BAD_CODE; CAGZHOMUL_BAD_PIECE if there is no such piece;
 * CAGZHOMUL_SPENT if it has ended; CAGZHOMUL_BAD_COUNT if too little was read for it to go on. */
cagzhomul_layered cagzhomul_layer_piece(const uint8_t *reorg, size_t reorg_length, uint32_t piece,
                                        const uint8_t *cursor, size_t cursor_length,
                                        const uint8_t *to, size_t to_length, const uint8_t *pairs,
                                        size_t pairs_length, uint8_t *out, size_t out_length);

/* Says what is due of a change, by the control records alone: a begin first, and before it the
 * close that it waits for; then the next step, if all that it needs has ended; then a piece. Of
 * several begins it is that of the lowest element, and of several pieces the first that has not
 * ended of the first reorganisation that has one. No server keeps a plan's state: any may do the
 * next act, and one finishes what another began.
 * `before` is the number of the version before the newest, 0 if that is the first, and `version`
 * the record of the newest; `found` has the keys and records of all versions, begun reorganisations
 * and cursors, by rising key, as they were at one moment (of a version the key alone is read);
 * `plan` is the code of a plan, of which so many steps have been published. A plan without steps
 * leaves what has begun to be completed.
 * CAGZHOMUL_OK. Refusals: CAGZHOMUL_BAD_CODE; CAGZHOMUL_BAD_PIECE if the piece that would be given
 * has no cursor, since the records were not read at one moment; CAGZHOMUL_NOT_WANTED if the next
 * step needs what no element wants; CAGZHOMUL_OUT_OF_MEMORY, which may come in place of any. */
cagzhomul_due cagzhomul_layer_due(uint32_t before, const uint8_t *version, size_t version_length,
                                  const uint8_t *found, size_t found_length, const uint8_t *plan,
                                  size_t plan_length, uint64_t published);

/* Counts the rows of a store that was read whole, the pairs that it lacks and those that it has too
 * much, by a version: `pairs` has all pairs of rows and indexes, by rising key.
 * CAGZHOMUL_OK. Refusals: CAGZHOMUL_BAD_CODE; CAGZHOMUL_OUT_OF_MEMORY. */
cagzhomul_checked cagzhomul_layer_check(const uint8_t *version, size_t version_length,
                                        const uint8_t *pairs, size_t pairs_length);

/* A check page by page, for a store that is not read whole: a page is read, then what
 * cagzhomul_layer_check_rows and, after that, cagzhomul_layer_check_given name; the counts of
 * cagzhomul_layer_check_page, added up over pages that follow one another from the first key of
 * rows and indexes (no byte) to the end, are those of cagzhomul_layer_check, if all was read at one
 * moment.
 *
 * Which ranges a page needs besides its pairs: the rows that its keys name, unless they are all on
 * the page; a row may be given several times. The page has all pairs from `low` to below `to`, of
 * whatever length; an empty `to` says that it was read to the end. `pairs` has them by rising key,
 * and what else it has does not matter. The code is that of pairs of a first key and one after the
 * last.
 * CAGZHOMUL_OK. Refusals: CAGZHOMUL_BAD_CODE. */
cagzhomul_layered cagzhomul_layer_check_rows(const uint8_t *version, size_t version_length,
                                             const uint8_t *pairs, size_t pairs_length,
                                             const uint8_t *low, size_t low_length,
                                             const uint8_t *to, size_t to_length,
                                             uint8_t *out, size_t out_length);

/* Which ranges it needs after those, whose pairs are now in `pairs`, too: the pairs that its rows
 * give indexes and required columns, unless they are on the page. Each is the range of one key: the
 * key, and the same with a byte 0 after it.
 * CAGZHOMUL_OK. Refusals as of cagzhomul_layer_check_rows. */
cagzhomul_layered cagzhomul_layer_check_given(const uint8_t *version, size_t version_length,
                                              const uint8_t *pairs, size_t pairs_length,
                                              const uint8_t *low, size_t low_length,
                                              const uint8_t *to, size_t to_length,
                                              uint8_t *out, size_t out_length);

/* Counts the rows of the page, the pairs that the store lacks for them, and the pairs on the page
 * that it has too much: `pairs` has those of the page and of all ranges that it needs.
 * CAGZHOMUL_OK. Refusals: CAGZHOMUL_BAD_CODE; CAGZHOMUL_OUT_OF_MEMORY. */
cagzhomul_checked cagzhomul_layer_check_page(const uint8_t *version, size_t version_length,
                                             const uint8_t *pairs, size_t pairs_length,
                                             const uint8_t *low, size_t low_length,
                                             const uint8_t *to, size_t to_length);

#ifdef __cplusplus
}
#endif

#endif
