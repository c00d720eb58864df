/* random_files.h: random table files, sound and with every kind of damage. */
#ifndef RANDOM_FILES_H
#define RANDOM_FILES_H

#include "files.h"
#include "inputs.h"

/* room for the rows of any input, and for what damage adds */
enum { FILE_ROOM = FILE_BYTES(TABLE_ROOM / 4) + 256 };

struct table_file { uint8_t bytes[FILE_ROOM]; size_t len; };

/* the kinds of damage, by number */
enum { DAMAGES = 19 };
const char *damage_name(int kind);

/* The file of the input's rows, sound or with damage in one place or two; gives back the kinds of the damage,
 * a bit each. */
uint32_t make_file(struct random *random, const struct input *in, struct table_file *file);

#endif
