/* sizes.h: how many rows the benchmark's tables have. */
#ifndef SIZES_H
#define SIZES_H

#include "bargetulip.h"

#include <stdint.h>

/* The largest table that is timed, and the largest that results before W-211 have. */
enum { MAX_ROWS = BT_MAX_TABLE_ROWS, EARLIER_ROWS = 4096 };

/* The rows above which no table is timed: MAX_ROWS, or BT_ROWS of the environment if that is less. */
uint32_t most_rows(void);

/* Prints a number of rows, with a comma before its last three digits. */
void print_rows(uint32_t rows);

#endif
