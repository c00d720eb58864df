/* rows.h: an XPath text as the rows of document 01, for the benchmark. */
#ifndef ROWS_H
#define ROWS_H

#include <stdbool.h>
#include <stddef.h>
#include <stdint.h>

struct rows {
    uint32_t path[5 * 256];
    size_t path_len;
    double literals[64];
    size_t literals_len;
};

/* The names of elements and attributes; the number of a name is its index plus one. */
extern const char *const node_names[];

/* Fills rows from a location path of the fragment that documents 01 and 02
 * have, with the abbreviations // . .. @ and a bare name or *; false if it is
 * not one. A name that no node has gets a number that no node has. */
bool rows_from_text(const char *text, struct rows *rows);

#endif
