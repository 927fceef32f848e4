/*
 * Case A of the worked plan: three records change a plan of seven rows. Prints the new table as
 * CSV (row, dist, size, value) and ends with status 1 where an answer is not the expected one.
 *
 * From the top of the repository, once `./archive` has written the archive:
 *
 *   cc -std=c99 -O2 -Iinclude examples/case_a.c target/staticlib/libplan_c.a -o target/case_a
 *   target/case_a
 */
#include <stdio.h>

#include "worked.h"

static const plan_record records[] = {
    {PLAN_INSERT, 2, 1, 2, 0},
    {PLAN_DELETE, 4, 0, 0, 0},
    {PLAN_INSERT, 6, 0, 0, 0},
};

static int failed = 0;

static void expect(int holds, const char *what) {
    if (!holds) {
        fprintf(stderr, "case A: %s\n", what);
        failed = 1;
    }
}

/* The new table, in lent columns with a row to spare. */
static void refresh(void) {
    static const uint32_t right[][3] = {
        {1, 8, 10}, {1, 4, 20}, {1, 1, 60}, {2, 1, 30},
        {3, 1, 31}, {5, 2, 50}, {1, 1, 51}, {7, 1, 40},
    };
    uint32_t new_dist[9] = {0}, new_size[9] = {0}, new_value[9] = {0};
    plan_answer answer;
    size_t row;

    new_dist[8] = 91;
    new_size[8] = 92;
    new_value[8] = 93;
    answer = plan_bulk(COLUMN(records), TABLE, INSERTIONS, COLUMN(new_dist), COLUMN(new_size),
                       COLUMN(new_value));
    expect(answer.number == 0 && answer.place == 0 && answer.count == 8, "is not accepted with 8 rows");
    for (row = 0; row < LENGTH(right); row++) {
        printf("%u,%u,%u,%u\n", (unsigned)row, (unsigned)new_dist[row], (unsigned)new_size[row],
               (unsigned)new_value[row]);
        expect(new_dist[row] == right[row][0] && new_size[row] == right[row][1] && new_value[row] == right[row][2],
               "a row is wrong");
    }
    expect(new_dist[8] == 91 && new_size[8] == 92 && new_value[8] == 93, "the row behind is not kept");

    /* one row too few: refused, with the rows needed */
    answer = plan_bulk(COLUMN(records), TABLE, INSERTIONS, new_dist, 7, new_size, 7, new_value, 7);
    expect(answer.number == PLAN_NO_ROOM && answer.place == 0 && answer.count == 8, "7 rows are enough");
}

/* Old 6 becomes 7; old 4 and 5 are gone; new 6 is row 1 of the run of record 2. */
static void mappings(void) {
    static const uint32_t right[] = {0, 1, 3, 4, PLAN_GONE, PLAN_GONE, 7};
    uint32_t new_rows[LENGTH(right)] = {0};
    plan_answer answer = plan_map_old(COLUMN(records), TABLE, INSERTIONS, COLUMN(new_rows));
    plan_became became = plan_old_to_new(COLUMN(records), TABLE, INSERTIONS, 6);
    plan_was was = plan_new_to_old(COLUMN(records), TABLE, INSERTIONS, 6);
    size_t row;

    expect(answer.number == 0 && answer.count == LENGTH(right), "not every old row is mapped");
    for (row = 0; row < LENGTH(right); row++) {
        expect(new_rows[row] == right[row], "an old row is mapped wrongly");
    }
    expect(became.number == 0 && became.gone == 0 && became.row == 7, "old row 6 does not become 7");
    became = plan_old_to_new(COLUMN(records), TABLE, INSERTIONS, 4);
    expect(became.number == 0 && became.gone == 1, "old row 4 is not gone");
    expect(was.number == 0 && was.inserted == 1 && was.record == 2 && was.row == 1,
           "new row 6 is not row 1 of the run of record 2");
}

/* The old plan's tree: the children of the root are rows 1, 4 and 6. */
static void axes(void) {
    static const uint32_t right[] = {1, 4, 6};
    plan_answer sound = plan_soundness(TABLE);
    plan_row parent = plan_parent(TABLE, 3);
    plan_part subtree = plan_subtree(TABLE, 4);
    plan_walk walk = plan_children(TABLE, 0);
    plan_step step = plan_child(COLUMN(size), walk.next, walk.end);
    size_t given = 0;

    expect(sound.number == 0 && sound.count == 7, "the plan is not sound");
    expect(parent.number == 0 && parent.some == 1 && parent.row == 1, "the parent of row 3 is not row 1");
    expect(subtree.number == 0 && subtree.start == 4 && subtree.length == 2, "row 4 is not a subtree of 2 rows");
    while (step.some) {
        expect(given < LENGTH(right) && step.row == right[given], "a child of the root is wrong");
        given++;
        step = plan_child(COLUMN(size), step.next, walk.end);
    }
    expect(step.number == 0 && given == LENGTH(right), "the root has not three children");
}

int main(void) {
    refresh();
    mappings();
    axes();
    return failed;
}
