/*
 * The worked plan of the rules: a table of seven rows and three insertions, and how the examples hand columns over.
 */
#ifndef WORKED_H
#define WORKED_H

#include "plan.h"

#define LENGTH(column) (sizeof(column) / sizeof((column)[0]))

/* A column as the calls take it: the pointer, and the length in elements. */
#define COLUMN(column) (column), LENGTH(column)

/* The plan: row 0 is the root, rows 1, 4 and 6 are its children. */
static const uint32_t dist[] = {1, 1, 1, 2, 4, 1, 6};
static const uint32_t size[] = {7, 3, 1, 1, 2, 1, 1};
static const uint32_t value[] = {10, 20, 30, 31, 21, 32, 40};

/* The insertions: a run of two rows from row 0, and one of a single row from row 2. */
static const uint32_t insert_dist[] = {1, 1, 1};
static const uint32_t insert_size[] = {2, 1, 1};
static const uint32_t insert_value[] = {50, 51, 60};

#define TABLE COLUMN(dist), COLUMN(size), COLUMN(value)
#define INSERTIONS COLUMN(insert_dist), COLUMN(insert_size), COLUMN(insert_value)

#endif
