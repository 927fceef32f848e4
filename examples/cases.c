/*
 * The worked plan's lists, lent as slices of records: prints just what the programs `cases_refresh` and `cases_mapping`
 * print of the same lists lent as columns, so that the two ways of lending a list can be compared line by line.
 *
 * From the top of the repository, once `./archive` has written the archive:
 *
 *   cc -std=c99 -O2 -Iinclude examples/cases.c target/staticlib/libplan_c.a -o target/cases
 *   cat crates/cases_refresh/stdout crates/cases_mapping/stdout > target/expected
 *   target/cases | cmp - target/expected
 */
#include <stdio.h>

#include "worked.h"

/* A list with its name. */
typedef struct {
    const char *name;
    const plan_record *records;
    size_t length;
} named_list;

#define LIST(name, records) {name, COLUMN(records)}

static const plan_record list_a[] = {{PLAN_INSERT, 2, 1, 2, 0}, {PLAN_DELETE, 4, 0, 0, 0}, {PLAN_INSERT, 6, 0, 0, 0}};
static const plan_record list_b[] = {{PLAN_DELETE, 4, 0, 0, 0}, {PLAN_INSERT, 6, 4, 2, 0}, {PLAN_INSERT, 6, 0, 0, 0}};
static const plan_record list_c[] = {{PLAN_INSERT, 6, 0, 0, 0}, {PLAN_INSERT, 6, 4, 2, 0}};
static const plan_record list_d[] = {{PLAN_INSERT, 4, 0, 2, 0}, {PLAN_DELETE, 4, 0, 0, 0}};
static const plan_record list_g[] = {{PLAN_RENAME, 0, 0, 0, 9}};
static const plan_record list_i[] = {{PLAN_INSERT, 3, 2, 2, 0}};
static const plan_record list_k[] = {{PLAN_REPLACE, 1, 0, 2, 0}};

static const named_list changed[] = {
    LIST("A", list_a), LIST("B", list_b), LIST("C", list_c), LIST("D", list_d), LIST("G, rename", list_g),
    LIST("I", list_i), {"J", list_a, 0},  LIST("K", list_k),
};

static const named_list followed[] = {
    LIST("A", list_a), LIST("B", list_b), LIST("C", list_c), LIST("D", list_d), LIST("I", list_i), LIST("K", list_k),
};

/* ---- What the lines look like ------------------------------------------------------------- */

static void print_column(const char *name, const uint32_t *column, size_t length) {
    printf("%s", name);
    for (size_t row = 0; row < length; row++) {
        printf(" %u", (unsigned)column[row]);
    }
    printf("\n");
}

static void fill(uint32_t *column, size_t length, uint32_t number) {
    for (size_t row = 0; row < length; row++) {
        column[row] = number;
    }
}

static void print_answer(plan_answer answer) {
    if (answer.number == 0) {
        printf("accepted, count %llu\n", (unsigned long long)answer.count);
    } else {
        printf("refused %u, place %u, count %llu\n", (unsigned)answer.number, (unsigned)answer.place,
               (unsigned long long)answer.count);
    }
}

static void print_refused(uint32_t number, uint32_t place, uint64_t count) {
    printf(" (refused %u, place %u, count %llu)", (unsigned)number, (unsigned)place, (unsigned long long)count);
}

static void print_mapped(plan_answer answer) {
    if (answer.number == 0) {
        printf(" accepted, count %llu", (unsigned long long)answer.count);
    } else {
        print_refused(answer.number, answer.place, answer.count);
    }
    printf("\n");
}

/* ---- The bulk call and the single call ---------------------------------------------------- */

static void bulk(named_list list) {
    uint32_t new_dist[9], new_size[9], new_value[9];

    fill(COLUMN(new_dist), 99);
    fill(COLUMN(new_size), 99);
    fill(COLUMN(new_value), 99);
    printf("%s: ", list.name);
    print_answer(plan_bulk(list.records, list.length, TABLE, INSERTIONS, COLUMN(new_dist), COLUMN(new_size),
                           COLUMN(new_value)));
    print_column("  dist:", COLUMN(new_dist));
    print_column("  size:", COLUMN(new_size));
    print_column("  value:", COLUMN(new_value));
}

/* Case L, and a single record. */
static void short_and_single(void) {
    static const plan_record delete_4 = {PLAN_DELETE, 4, 0, 0, 0};
    uint32_t new_dist[7], new_size[7], new_value[7];

    fill(COLUMN(new_dist), 99);
    fill(COLUMN(new_size), 99);
    fill(COLUMN(new_value), 99);
    printf("L: ");
    print_answer(plan_bulk(COLUMN(list_a), TABLE, INSERTIONS, COLUMN(new_dist), COLUMN(new_size), COLUMN(new_value)));
    print_column("  dist:", COLUMN(new_dist));
    printf("single, delete 4: ");
    print_answer(plan_single(delete_4, TABLE, INSERTIONS, COLUMN(new_dist), COLUMN(new_size), COLUMN(new_value)));
    print_column("  value:", COLUMN(new_value));
}

/* The flat table of 65,535 rows. */
static void flat(const char *name, const plan_record *records, size_t length) {
    static uint32_t flat_dist[PLAN_MOST_ROWS], flat_size[PLAN_MOST_ROWS], flat_value[PLAN_MOST_ROWS];
    static uint32_t new_dist[PLAN_MOST_ROWS], new_size[PLAN_MOST_ROWS], new_value[PLAN_MOST_ROWS];
    static const uint32_t one[] = {1};

    for (uint32_t row = 0; row < PLAN_MOST_ROWS; row++) {
        flat_dist[row] = row;
        flat_size[row] = 1;
        flat_value[row] = 7;
    }
    flat_dist[0] = 1;
    flat_size[0] = PLAN_MOST_ROWS;
    printf("%s: ", name);
    print_answer(plan_bulk(records, length, COLUMN(flat_dist), COLUMN(flat_size), COLUMN(flat_value), COLUMN(one),
                           COLUMN(one), COLUMN(one), COLUMN(new_dist), COLUMN(new_size), COLUMN(new_value)));
}

/* ---- The mappings -------------------------------------------------------------------------- */

static void rows_old(named_list list) {
    for (uint32_t row = 0; row < 8; row++) {
        plan_became became = plan_old_to_new(list.records, list.length, TABLE, INSERTIONS, row);
        if (became.number != 0) {
            print_refused(became.number, became.place, became.count);
        } else if (became.gone) {
            printf(" gone");
        } else {
            printf(" %u", (unsigned)became.row);
        }
    }
}

static void rows_new(named_list list) {
    for (uint32_t row = 0; row < 9; row++) {
        plan_was was = plan_new_to_old(list.records, list.length, TABLE, INSERTIONS, row);
        if (was.number != 0) {
            print_refused(was.number, was.place, was.count);
        } else if (was.inserted) {
            printf(" (record %u row %u)", (unsigned)was.record, (unsigned)was.row);
        } else {
            printf(" %u", (unsigned)was.row);
        }
    }
}

static void column_old(named_list list, uint32_t *number, size_t length) {
    print_mapped(plan_map_old(list.records, list.length, TABLE, INSERTIONS, number, length));
    print_column("    number:", number, length);
}

static void columns_new(named_list list, uint32_t *record, size_t record_length, uint32_t *row, size_t row_length) {
    print_mapped(plan_map_new(list.records, list.length, TABLE, INSERTIONS, record, record_length, row, row_length));
    print_column("    record:", record, record_length);
    print_column("    row:", row, row_length);
}

static void mappings(named_list list) {
    uint32_t number[9], record[9], row[9];

    fill(COLUMN(number), 99);
    fill(COLUMN(record), 99);
    fill(COLUMN(row), 99);
    printf("%s\n  old to new:", list.name);
    rows_old(list);
    printf("\n  new to old:");
    rows_new(list);
    printf("\n  every old row:");
    column_old(list, COLUMN(number));
    printf("  every new row:");
    columns_new(list, COLUMN(record), COLUMN(row));
}

static void lent_columns(void) {
    uint32_t six[6], seven[7], eight[8], other[8];

    fill(COLUMN(six), 99);
    fill(COLUMN(seven), 99);
    fill(COLUMN(eight), 99);
    fill(COLUMN(other), 99);
    printf("A, a column of 6 rows:");
    column_old(followed[0], COLUMN(six));
    printf("A, a column of 7 rows:");
    column_old(followed[0], COLUMN(seven));
    printf("A, columns of 6 and 7 rows:");
    columns_new(followed[0], COLUMN(six), COLUMN(seven));
    printf("A, columns of 8 rows:");
    columns_new(followed[0], COLUMN(eight), COLUMN(other));
}

int main(void) {
    static const plan_record rename_last[] = {{PLAN_RENAME, 65534, 0, 0, 0}};
    static const plan_record insert_one[] = {{PLAN_INSERT, 65535, 0, 0, 0}};
    static const plan_record swap[] = {{PLAN_DELETE, 1, 0, 0, 0}, {PLAN_INSERT, 65535, 0, 0, 0}};

    printf("-- lists on T; new columns of 9 rows that hold 99\n");
    for (size_t k = 0; k < LENGTH(changed); k++) {
        bulk(changed[k]);
    }
    short_and_single();
    printf("-- the flat table of 65,535 rows\n");
    flat("rename", COLUMN(rename_last));
    flat("insert of one row", COLUMN(insert_one));
    flat("delete and insert, 65,536 rows in between", COLUMN(swap));
    printf("-- both mappings of lists on T; the last rows asked about are not in the table\n");
    for (size_t k = 0; k < LENGTH(followed); k++) {
        mappings(followed[k]);
    }
    printf("-- lent columns\n");
    lent_columns();
    return 0;
}
