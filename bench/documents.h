/* documents.h: the benchmark's documents, as node tables and as XML text. */
#ifndef DOCUMENTS_H
#define DOCUMENTS_H

#include <stddef.h>
#include <stdint.h>

enum shape { BALANCED, DEEP, WIDE, PARAMETERS, ATTRIBUTES, SHAPES };

extern const char *const shape_names[SHAPES];

/* Fills a table of exactly that many rows. */
void build_table(enum shape shape, uint32_t rows, uint32_t *table);

/* The same document as XML text, ended by a zero; the caller frees it. */
char *xml_of_table(const uint32_t *table, uint32_t rows);

#endif
