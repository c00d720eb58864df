/* reference.h: an independent checker and evaluator in plain C, to compare with.
 *
 * Written from the XPath 1.0 Recommendation and documents 01 and 02 alone. It
 * works on a linked tree of nodes and on a syntax tree of the path, as the
 * Recommendation speaks of them; speed and memory don't matter to it.
 * Each function answers as its namesake in bargetulip.h does.
 */
#ifndef REFERENCE_H
#define REFERENCE_H

#include <stddef.h>
#include <stdint.h>

/* ref_evaluate's number when the work was above the limit: no answer was found */
#define REF_TOO_LONG 0xFFFFFFFFu

uint32_t ref_check_table(const uint32_t *table, size_t table_len, uint32_t *place);

uint32_t ref_check_path(const uint32_t *path, size_t path_len,
                        const double *literals, size_t literals_len,
                        uint32_t *place);

uint32_t ref_axis_place(const uint32_t *table, size_t table_len, uint32_t axis, uint32_t x, uint32_t y);

/* work_limit bounds the work: the table's rows, for each path begun and each step
 * taken from one node. */
uint32_t ref_evaluate(uint32_t edition,
                      const uint32_t *table, size_t table_len,
                      const uint32_t *path, size_t path_len,
                      const double *literals, size_t literals_len,
                      uint32_t start, uint32_t *out, size_t out_len,
                      uint32_t *place, uint64_t work_limit);

uint32_t ref_turn(const uint32_t *path, size_t path_len,
                  const double *literals, size_t literals_len,
                  uint32_t *out, size_t out_len, uint32_t *place);

void ref_view(const uint32_t *table, size_t table_len,
              const uint32_t *list, size_t list_len,
              uint32_t node, size_t *begin, size_t *length);

#endif
