/*
 * plan.h: the plan library for C and C++.
 *
 * A plan is an ordered tree, kept as a table of three columns of 32-bit
 * numbers: dist, size and value. The row number is the position, from 0, in
 * the order of a walk that visits a node before its children (preorder).
 *
 *   dist   the row number less the parent's; row 0, the root, has 1
 *   size   the nodes of the subtree, the node itself included
 *   value  a code that the library copies and never reads
 *
 * A table is sound when it is the walk of one tree of 1 to 65,535 nodes.
 *
 * Columns. Every column is a pointer and then its length in elements. The
 * pointer is never null, also where the length is 0, and is aligned for its
 * type. Columns written `const` are only read. The others are lent: a call
 * writes them only where it is accepted, and then only the rows that it
 * counts; rows behind those keep what they held. A lent column shares no row
 * with another column of the same call. The three columns of a table have
 * lengths of their own, and a call refuses them (1) where they differ.
 *
 * Answers. Every call tests what it is handed, for every input, and nothing
 * has to be tested before. `number` is 0 when the call is accepted, or else
 * the number of the first test that failed. Fields that have nothing to say
 * are 0. A refused call has written nothing.
 *
 * Nothing here keeps memory, allocates or has a state of its own: calls from
 * several threads are fine as long as they lend different columns.
 */
#ifndef PLAN_H
#define PLAN_H

#include <stddef.h>
#include <stdint.h>

#ifdef __cplusplus
extern "C" {
#endif

/* Limits. */
#define PLAN_MOST_ROWS 65535u    /* rows of a table, of a run, of a result */
#define PLAN_MOST_RECORDS 1024u  /* records of a list */

/* Kinds of a record. */
#define PLAN_DELETE 1u   /* location: the row and its subtree go */
#define PLAN_INSERT 2u   /* location, parent, from: a run becomes a child of parent, at location */
#define PLAN_RENAME 3u   /* location, value: the row's value is replaced */
#define PLAN_REPLACE 4u  /* location, from: the subtree goes and a run takes its place */

/* What the whole-column mappings write where there is no row or no record. */
#define PLAN_GONE 4294967295u  /* plan_map_old: the old row is gone */
#define PLAN_OLD 4294967295u   /* plan_map_new: the new row was a row of the old table */

/*
 * The refusals, in the order of the tests.
 *
 *  no.                     when                                                 place   count
 *   1  PLAN_LENGTHS        columns that belong together differ in length        0       0
 *   2  PLAN_UNSOUND        the table is not sound                               0       0
 *   3  PLAN_LIST_TOO_LONG  the list has more than 1,024 records                 0       0
 *   4  PLAN_KIND           the kind is not 1 to 4                               record  0
 *   5  PLAN_LOCATION       delete, replace: the location is 0 or not a row;     record  0
 *                          rename: the location is not a row; insert: the
 *                          parent is not a row, or the location is not an
 *                          open place of it
 *   6  PLAN_RUN            insert, replace: the run does not lie within the     record  0
 *                          insertions, or by itself is not a sound table
 *   7  PLAN_ORDER          the location is below that of the record before;     record  0
 *                          or at the same location an insert follows another
 *                          kind, or an insert with a smaller parent
 *   8  PLAN_TWICE          the record before has the same location, and         record  0
 *                          neither of the two is an insert
 *   9  PLAN_TOO_MANY_ROWS  the result has more than 65,535 rows                 0       rows needed
 *  10  PLAN_NO_ROOM        the result has more rows than the lent columns       0       rows needed
 *  11  PLAN_NO_SUCH_ROW    the row number is not in the table                   row     0
 *  12  PLAN_BAD_ROW        axes: the numbers at the row do not fit the table;   row     0
 *                          in a step of a child walk: at the candidate
 *
 * Tests 4 to 8 go record by record; the first record that fails any of them
 * decides, with the lowest number. `record` is its position in the list, from
 * 0. A location p is an open place of q when p = q + 1, or p = c + size of c
 * for a child c of q: where a child of q can be put. Locations and parents are
 * row numbers of the old table, in every record.
 */
#define PLAN_LENGTHS 1u
#define PLAN_UNSOUND 2u
#define PLAN_LIST_TOO_LONG 3u
#define PLAN_KIND 4u
#define PLAN_LOCATION 5u
#define PLAN_RUN 6u
#define PLAN_ORDER 7u
#define PLAN_TWICE 8u
#define PLAN_TOO_MANY_ROWS 9u
#define PLAN_NO_ROOM 10u
#define PLAN_NO_SUCH_ROW 11u
#define PLAN_BAD_ROW 12u

/* One record of a list. Numbers that its kind does not use are not read. */
typedef struct plan_record {
    uint32_t kind;
    uint32_t location;
    uint32_t parent;
    uint32_t from; /* the first row of the run; its length is the size written there */
    uint32_t value;
} plan_record;

/* What a call hands back that writes or counts rows. */
typedef struct plan_answer {
    uint32_t number;
    uint32_t place;
    uint64_t count; /* accepted: rows written (or counted); refused with 9 or 10: rows needed */
} plan_answer;

/*
 * A row that is asked about has 32 bits. A row or a candidate that is handed back has 64: the axes
 * answer for columns of any length, and in one of more than 2^32 rows, row + 1 and row + size need
 * not fit 32 bits. In a sound table they are at most 65,535.
 */

/* A row, or none. */
typedef struct plan_row {
    uint32_t number;
    uint32_t place;
    uint32_t some; /* accepted: 1 and the row, or 0 where there is none */
    uint64_t row;
} plan_row;

/* The part of the columns that one subtree takes: rows start to start + length - 1. */
typedef struct plan_part {
    uint32_t number;
    uint32_t place;
    uint64_t start;
    uint64_t length; /* 0 where the call is refused */
} plan_part;

/* A child walk: the next candidate, and the end. Refused at its start it is at its end. */
typedef struct plan_walk {
    uint32_t number;
    uint32_t place;
    uint64_t next;
    uint64_t end;
} plan_walk;

/* A step of a child walk. */
typedef struct plan_step {
    uint32_t number;
    uint64_t place; /* refused: the candidate */
    uint32_t some;  /* accepted: 1 and a child, or 0 where there is none left */
    uint64_t row;
    uint64_t next; /* where the next step goes on; the same as before where no child was given */
} plan_step;

/* What became of an old row. */
typedef struct plan_became {
    uint32_t number;
    uint32_t place;
    uint64_t count; /* refused with 9: rows needed */
    uint32_t gone;  /* accepted: 1 where the row is gone, or 0 and its new number */
    uint32_t row;
} plan_became;

/* Which row a new row was. */
typedef struct plan_was {
    uint32_t number;
    uint32_t place;
    uint64_t count;    /* refused with 9: rows needed */
    uint32_t inserted; /* accepted: 0 and the old row, or 1, the record and the row within its run */
    uint32_t record;
    uint32_t row;
} plan_was;

/* ---- One table -------------------------------------------------------------------------- */

/* Is the table sound? Tests 1 and 2; accepted, the count is the number of rows. */
plan_answer plan_soundness(
    const uint32_t *dist, size_t dist_length,
    const uint32_t *size, size_t size_length,
    const uint32_t *value, size_t value_length);

/*
 * The axes read the columns as they are and answer for unsound tables too. All of them make
 * test 1, then 11, then 12: a number at the row contradicts the table. On a sound table they are
 * the tree's own relations and 12 does not occur.
 */

/* The parent of a row; none for row 0. Refused with 12 unless 1 <= dist <= row. */
plan_row plan_parent(
    const uint32_t *dist, size_t dist_length,
    const uint32_t *size, size_t size_length,
    const uint32_t *value, size_t value_length,
    uint32_t row);

/* The first child of a row, or none. Refused with 12 unless 1 <= size and row + size <= rows. */
plan_row plan_first_child(
    const uint32_t *dist, size_t dist_length,
    const uint32_t *size, size_t size_length,
    const uint32_t *value, size_t value_length,
    uint32_t row);

/*
 * The next sibling of a row, or none; none for row 0. Refused with 12 unless the parent is found
 * as by plan_parent, the row's size is at least 1, the parent ends within the table and the row
 * ends within the parent.
 */
plan_row plan_next_sibling(
    const uint32_t *dist, size_t dist_length,
    const uint32_t *size, size_t size_length,
    const uint32_t *value, size_t value_length,
    uint32_t row);

/*
 * The rows of one subtree: value[start] to value[start + length - 1] are its values. Refused
 * with 12 unless 1 <= size and row + size <= rows.
 */
plan_part plan_subtree(
    const uint32_t *dist, size_t dist_length,
    const uint32_t *size, size_t size_length,
    const uint32_t *value, size_t value_length,
    uint32_t row);

/*
 * Begins a walk over the children of a row. Refused with 12 unless 1 <= size and
 * row + size <= rows.
 *
 *     plan_walk walk = plan_children(dist, n, size, n, value, n, row);
 *     plan_step step = plan_child(size, n, walk.next, walk.end);
 *     while (step.some) {
 *         ... step.row is a child ...
 *         step = plan_child(size, n, step.next, walk.end);
 *     }
 */
plan_walk plan_children(
    const uint32_t *dist, size_t dist_length,
    const uint32_t *size, size_t size_length,
    const uint32_t *value, size_t value_length,
    uint32_t row);

/*
 * One step of a child walk over the size column, which has not changed since the walk began:
 * the next child, or none at the end. Refused with 12, the candidate as place, when the
 * candidate's size is 0 or passes the end; the walk then stays there.
 */
plan_step plan_child(
    const uint32_t *size, size_t size_length,
    uint64_t next, uint64_t end);

/* ---- A list ------------------------------------------------------------------------------ */

/*
 * A list changes a table. Its meaning: the records are applied singly, the last first, each to
 * the tree as it then is. Locations never fall along a list; at one location inserts come first,
 * those of the deeper parent before, then at most one delete, rename or replace.
 *
 * The insertions are three columns that hold runs. A run starts at `from`, is as long as the
 * size written there, and by itself is a sound table, so that its first row has dist 1. Runs
 * may overlap and may be used twice.
 */

/*
 * Applies a list in one pass: the first `count` rows of the lent new columns are the new table.
 * Tests 1 to 10.
 */
plan_answer plan_bulk(
    const plan_record *records, size_t records_length,
    const uint32_t *dist, size_t dist_length,
    const uint32_t *size, size_t size_length,
    const uint32_t *value, size_t value_length,
    const uint32_t *insert_dist, size_t insert_dist_length,
    const uint32_t *insert_size, size_t insert_size_length,
    const uint32_t *insert_value, size_t insert_value_length,
    uint32_t *new_dist, size_t new_dist_length,
    uint32_t *new_size, size_t new_size_length,
    uint32_t *new_value, size_t new_value_length);

/* Applies one record, judged as a list of one. Tests 1 to 10, the place of the record being 0. */
plan_answer plan_single(
    plan_record record,
    const uint32_t *dist, size_t dist_length,
    const uint32_t *size, size_t size_length,
    const uint32_t *value, size_t value_length,
    const uint32_t *insert_dist, size_t insert_dist_length,
    const uint32_t *insert_size, size_t insert_size_length,
    const uint32_t *insert_value, size_t insert_value_length,
    uint32_t *new_dist, size_t new_dist_length,
    uint32_t *new_size, size_t new_size_length,
    uint32_t *new_value, size_t new_value_length);

/* ---- Where each row went ------------------------------------------------------------------ */

/*
 * What a list makes of an old row: its new number, or it is gone. A renamed row survives, a
 * replaced one is gone. Tests 1 to 9, then 11: the row is not in the old table.
 */
plan_became plan_old_to_new(
    const plan_record *records, size_t records_length,
    const uint32_t *dist, size_t dist_length,
    const uint32_t *size, size_t size_length,
    const uint32_t *value, size_t value_length,
    const uint32_t *insert_dist, size_t insert_dist_length,
    const uint32_t *insert_size, size_t insert_size_length,
    const uint32_t *insert_value, size_t insert_value_length,
    uint32_t row);

/*
 * Which row a new row was: an old row, or a row of the run of a record. Tests 1 to 9, then 11:
 * the row is not in the new table.
 */
plan_was plan_new_to_old(
    const plan_record *records, size_t records_length,
    const uint32_t *dist, size_t dist_length,
    const uint32_t *size, size_t size_length,
    const uint32_t *value, size_t value_length,
    const uint32_t *insert_dist, size_t insert_dist_length,
    const uint32_t *insert_size, size_t insert_size_length,
    const uint32_t *insert_value, size_t insert_value_length,
    uint32_t row);

/*
 * Writes for every old row its new number, or PLAN_GONE; the count is the number of old rows.
 * Tests 1 to 9, then 10 (count: old rows) when the lent column is shorter than the table.
 */
plan_answer plan_map_old(
    const plan_record *records, size_t records_length,
    const uint32_t *dist, size_t dist_length,
    const uint32_t *size, size_t size_length,
    const uint32_t *value, size_t value_length,
    const uint32_t *insert_dist, size_t insert_dist_length,
    const uint32_t *insert_size, size_t insert_size_length,
    const uint32_t *insert_value, size_t insert_value_length,
    uint32_t *new_rows, size_t new_rows_length);

/*
 * Writes for every new row where it comes from: in from_records the record and in from_rows the
 * row within its run, or PLAN_OLD and the old row; the count is the number of new rows. Tests 1
 * (the two lent columns too) to 9, then 10 (count: new rows) when the lent columns are shorter
 * than the result.
 */
plan_answer plan_map_new(
    const plan_record *records, size_t records_length,
    const uint32_t *dist, size_t dist_length,
    const uint32_t *size, size_t size_length,
    const uint32_t *value, size_t value_length,
    const uint32_t *insert_dist, size_t insert_dist_length,
    const uint32_t *insert_size, size_t insert_size_length,
    const uint32_t *insert_value, size_t insert_value_length,
    uint32_t *from_records, size_t from_records_length,
    uint32_t *from_rows, size_t from_rows_length);

#ifdef __cplusplus
}
#endif

#endif
