/* files.c: the independent reader and writer of table files that files.h declares. */
#include "files.h"

#include "reference.h"

#include <stdbool.h>
#include <stdio.h>
#include <stdlib.h>
#include <string.h>

enum { MAX_NODES = 8192, HEAD = 2, BAD_LINE = 20, NO_ROOM = 21 };

/* ---- lines ---- */

/* the key of line n, counted from 1 */
static const char *key_of(uint64_t n)
{
    static const char *const head[HEAD] = {"edition", "nodes"}, *const row[4] = {"kind", "name", "parent", "size"};
    return n <= HEAD ? head[n - 1] : row[(n - HEAD - 1) % 4];
}

/* line n with that value and its line feed, as text; gives back its length */
static size_t spell(char text[LINE_ROOM + 1], uint64_t n, uint32_t value)
{
    return (size_t)snprintf(text, LINE_ROOM + 1, "%s=%u\n", key_of(n), value);
}

/* a line with its line feed; the last one may lack it */
struct line { const uint8_t *text; size_t len; };

struct lines { struct line *line; uint64_t count; };

/* the line that begins at text, with so many bytes left */
static struct line first_line(const uint8_t *text, size_t left)
{
    const uint8_t *feed = memchr(text, '\n', left);
    struct line line = {text, feed ? (size_t)(feed - text) + 1 : left};
    return line;
}

/* every line of the file, an unended last one too; the caller frees them */
static struct lines split(const uint8_t *file, size_t file_len)
{
    struct lines lines = {calloc(file_len + 1, sizeof *lines.line), 0};
    for (size_t at = 0; at < file_len; at += lines.line[lines.count++].len)
        lines.line[lines.count] = first_line(file + at, file_len - at);
    return lines;
}

/* whether the line is what line n with some value is spelt like; then *value is that value */
static bool line_holds(struct line line, uint64_t n, uint32_t *value)
{
    char held[LINE_ROOM + 1] = {0}, spelt[LINE_ROOM + 1];
    if (line.len > LINE_ROOM)
        return false;
    memcpy(held, line.text, line.len);
    unsigned long number = strtoul(held + strlen(key_of(n)) + 1, NULL, 10);
    *value = (uint32_t)number;
    return number <= UINT32_MAX && spell(spelt, n, *value) == line.len && memcmp(spelt, held, line.len) == 0;
}

/* ---- reading ---- */

/* whether line n may have that value, whatever rows need */
static bool value_holds(uint64_t n, uint32_t value)
{
    if (n > HEAD)
        return true;
    return n == 1 ? value == 1 : value >= 1 && value <= MAX_NODES;
}

/* the number of the first bad line, or 0; the good lines before it leave their values */
static uint64_t first_bad_line(const struct lines *lines, uint32_t *values)
{
    uint64_t wanted = HEAD;
    for (uint64_t n = 1; n <= wanted; n++) {
        uint32_t *value = &values[n - 1];
        if (n > lines->count || !line_holds(lines->line[n - 1], n, value) || !value_holds(n, *value))
            return n;
        if (n == HEAD)
            wanted += 4 * (uint64_t)*value;
    }
    return lines->count > wanted ? wanted + 1 : 0;
}

uint32_t ref_read_table(const uint8_t *file, size_t file_len, uint32_t *out, size_t out_len, uint64_t *place)
{
    static uint32_t values[HEAD + 4 * MAX_NODES];
    struct lines lines = split(file, file_len);
    *place = first_bad_line(&lines, values);
    free(lines.line);
    if (*place != 0)
        return BAD_LINE;
    size_t needed = *place = 4 * (size_t)values[HEAD - 1];
    if (needed > out_len)
        return NO_ROOM;
    uint32_t row, number = ref_check_table(values + HEAD, needed, &row);
    if (number != 0)
        *place = row;
    else
        memcpy(out, values + HEAD, needed * sizeof *out);
    return number;
}

/* ---- writing ---- */

size_t file_of_rows(const uint32_t *table, size_t rows, uint8_t *out)
{
    uint8_t *to = out;
    for (uint64_t n = 1; n <= HEAD + 4 * (uint64_t)rows; n++) {
        char text[LINE_ROOM + 1];
        uint32_t value = n == 1 ? 1 : n == HEAD ? (uint32_t)rows : table[n - HEAD - 1];
        size_t len = spell(text, n, value);
        memcpy(to, text, len);
        to += len;
    }
    return (size_t)(to - out);
}

uint32_t ref_write_table(const uint32_t *table, size_t table_len, uint8_t *out, size_t out_len, uint64_t *place)
{
    static uint8_t file[FILE_BYTES(MAX_NODES)];
    uint32_t row, number = ref_check_table(table, table_len, &row);
    *place = row;
    if (number != 0)
        return number;
    *place = file_of_rows(table, table_len / 4, file);
    if (*place > out_len)
        return NO_ROOM;
    memcpy(out, file, *place);
    return 0;
}
