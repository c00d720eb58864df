/* texts.h: an independent reader of path text in plain C, to compare with.
 *
 * Written from the XPath 1.0 Recommendation and documents 01 and 02 alone. It
 * cuts the text into tokens, makes a syntax tree by the productions of the
 * Recommendation, a function each, looks for faults in the whole tree, and
 * writes rows from it; speed and memory don't matter to it.
 */
#ifndef TEXTS_H
#define TEXTS_H

#include <stddef.h>
#include <stdint.h>

/* ref_read_path's number when the text is nested too deep for functions that call themselves: no answer was found */
#define REF_TOO_DEEP 0xFFFFFFFFu

/* Answers as bt_read_path of bargetulip.h does. */
uint32_t ref_read_path(const uint8_t *text, size_t text_len, const uint8_t *names, size_t names_len,
                       uint32_t *rows, size_t rows_len, double *literals, size_t literals_len,
                       uint64_t *place, uint32_t *literal_count);

#endif
