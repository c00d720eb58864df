/* documents.c: five shapes of documents.
 *
 *   balanced    every element has four children, as far as rows reach
 *   deep        a comb: each level holds one leaf and the next level
 *   wide        one element that holds all the others
 *   parameters  a set of groups of limits; a limit holds a unit with text, a
 *               floor (two limits of three) and a ceiling
 *   attributes  the same, but floor and ceiling are attributes of the limit
 *
 * In the first three, names a, b, c, limit and floor are spread by a fixed
 * pseudo-random sequence.
 */
#include "documents.h"

#include "rows.h"

#include <stdbool.h>
#include <stdio.h>
#include <stdlib.h>
#include <string.h>

const char *const shape_names[SHAPES] = {"balanced", "deep", "wide", "parameters", "attributes"};

enum { A = 1, LIMIT = 4, FLOOR, SET, GROUP, CEILING, UNIT };

struct builder { uint32_t *table, rows, used, state; };

/* adds a row unless the table is full; gives back its number */
static uint32_t add(struct builder *b, uint32_t kind, uint32_t name, uint32_t parent)
{
    if (b->used == b->rows)
        return 0;
    uint32_t row[4] = {kind, name, parent, 0};
    memcpy(b->table + 4 * b->used, row, sizeof row);
    return b->used++;
}

static uint32_t some_name(struct builder *b)
{
    b->state = b->state * 1664525u + 1013904223u;
    return 1 + (b->state >> 16) % 5;
}

/* an element with four children each, so that the subtree has size rows */
static void balanced(struct builder *b, uint32_t parent, uint32_t size)
{
    uint32_t node = add(b, 1, some_name(b), parent);
    size--;
    for (uint32_t k = 4; k > 0 && size > 0; k--) {
        uint32_t share = (size + k - 1) / k;
        balanced(b, node, share);
        size -= share;
    }
}

static void deep(struct builder *b)
{
    uint32_t parent = 0;
    while (b->used < b->rows) {
        uint32_t level = add(b, 1, some_name(b), parent);
        add(b, 1, some_name(b), level);
        parent = level;
    }
}

static void wide(struct builder *b)
{
    uint32_t top = add(b, 1, A, 0);
    while (b->used < b->rows)
        add(b, 1, some_name(b), top);
}

/* floor and ceiling of a limit, as elements or as attributes */
static void bounds(struct builder *b, uint32_t kind, uint32_t node, uint32_t number)
{
    if (number % 3 != 0)
        add(b, kind, FLOOR, node);
    add(b, kind, CEILING, node);
}

static void limit(struct builder *b, uint32_t kind, uint32_t group, uint32_t number)
{
    uint32_t node = add(b, 1, LIMIT, group);
    if (kind == 5)
        bounds(b, kind, node, number);
    uint32_t unit = add(b, 1, UNIT, node);
    add(b, 2, 0, unit);
    if (kind == 1)
        bounds(b, kind, node, number);
}

/* parameters whose bounds are rows of that kind */
static void parameters(struct builder *b, uint32_t kind)
{
    uint32_t set = add(b, 1, SET, 0), number = 0;
    while (b->used < b->rows) {
        uint32_t group = add(b, 1, GROUP, set);
        for (int i = 0; i < 12 && b->used < b->rows; i++)
            limit(b, kind, group, number++);
    }
}

void build_table(enum shape shape, uint32_t rows, uint32_t *table)
{
    struct builder builder = {table, rows, 0, 12345};
    add(&builder, 0, 0, 0);
    switch (shape) {
    case BALANCED: balanced(&builder, 0, rows - 1); break;
    case DEEP: deep(&builder); break;
    case WIDE: wide(&builder); break;
    case PARAMETERS: parameters(&builder, 1); break;
    default: parameters(&builder, 5); break;
    }
    for (uint32_t i = rows - 1; i > 0; i--)
        table[4 * table[4 * i + 2] + 3] += 1 + table[4 * i + 3];
}

/* writes the start of row i and gives back the text behind it; the start of an element is open for attributes
 * until what comes behind them closes it */
static char *write_start(const uint32_t *row, char *to)
{
    if (row[0] == 2)
        return to + sprintf(to, "kg");
    return to + sprintf(to, row[0] == 5 ? " %s=\"1\"" : "<%s", node_names[row[1] - 1]);
}

/* whether row i is the last of an element's start: the next row is no attribute */
static bool ends_start(const uint32_t *table, uint32_t rows, uint32_t i)
{
    return table[4 * i] != 2 && (i + 1 == rows || table[4 * i + 4] != 5);
}

char *xml_of_table(const uint32_t *table, uint32_t rows)
{
    char *text = calloc(rows, 24), *to = text;
    for (uint32_t i = 1; i < rows; i++) {
        to = write_start(table + 4 * i, to);
        if (ends_start(table, rows, i))
            to += sprintf(to, ">");
        /* close every element whose subtree ends with row i */
        for (uint32_t j = i; j != 0 && j + table[4 * j + 3] == i; j = table[4 * j + 2])
            if (table[4 * j] == 1)
                to += sprintf(to, "</%s>", node_names[table[4 * j + 1] - 1]);
    }
    return text;
}
