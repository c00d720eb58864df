/* compare_texts.h: holds the archive's reader of path text to the independent one. */
#ifndef COMPARE_TEXTS_H
#define COMPARE_TEXTS_H

#include "inputs.h"

/* Reads some random texts on both sides, into rooms around what they need; prints a difference and gives back
 * false. */
bool texts_agree(struct random *random);

/* Reads every text that comes from some by one byte replaced, dropped or added, on both sides; 0 if all agree. */
int edits(void);

/* Prints how often each number was given and each kind of text was met. */
void print_texts_seen(void);

#endif
