/* compare_files.h: holds the archive's reader and writer of table files to the independent ones. */
#ifndef COMPARE_FILES_H
#define COMPARE_FILES_H

#include "inputs.h"

/* Writes the input's table and reads a file of it, sound or damaged, on both sides; prints a difference and
 * gives back false. */
bool files_agree(struct random *random, const struct input *in);

/* Prints how often each number was given and each kind of damage was met. */
void print_files_seen(void);

#endif
