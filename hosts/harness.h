/* harness.h: what the comparisons of compare.c and compare_files.c share. */
#ifndef HARNESS_H
#define HARNESS_H

#include "inputs.h"

/* words with known content on each side of an output */
enum { MARGIN = 16 };

/* the end of an area of so many bytes or more, in front of a page that cannot be touched */
char *fenced_area(size_t bytes);

/* a copy of some bytes that ends where an area does */
void *put(char *end, const void *from, size_t bytes);

/* fills an array with random words */
void fill_words(struct random *random, uint32_t *words, size_t count);

/* a room for an output: exact, short by one, none, or more than enough up to most; if between, any up to
 * the exact one in the place of none */
size_t choose_room(struct random *random, size_t needed, size_t most, bool between);

void print_rows(const char *what, const uint32_t *numbers, size_t len, size_t width);

/* how often a function gave each of so many numbers */
void print_seen(const char *function, const uint64_t *seen, int numbers, const char *meaning);

#endif
