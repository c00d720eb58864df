/* inputs.h: random tables, paths, literals and lists, sound and damaged.
 *
 * Everything follows from the state of the generator, so a seed and a case
 * number give the same input on every machine.
 */
#ifndef INPUTS_H
#define INPUTS_H

#include "bargetulip.h"

#include <stdbool.h>
#include <stddef.h>
#include <stdint.h>

/* the most rows of a table before W-211: some tables, lengths and files are just around it */
enum { FORMER_ROWS = 4096 };

/* room for what is accepted and for what damage adds */
enum {
    TABLE_ROOM = 4 * (BT_MAX_TABLE_ROWS + 12),
    PATH_ROOM = 5 * 260,
    LITERAL_ROOM = 72,
    LIST_ROOM = BT_MAX_TABLE_ROWS + 8
};

struct random { uint64_t state; };

/* one input for all functions; files are made from its table */
struct input {
    uint32_t table[TABLE_ROOM], path[PATH_ROOM], list[LIST_ROOM];
    double literals[LITERAL_ROOM];
    size_t table_len, path_len, literals_len, list_len;
    uint32_t edition, start, node;
};

enum shape { MIXED, CHAIN, WIDE, BUSHY, SHAPES };

uint32_t any(struct random *random);                    /* any number */
uint32_t below(struct random *random, uint32_t limit);  /* 0 to limit - 1 */
bool chance(struct random *random, uint32_t percent);

/* an accepted table with that many rows, 2 to 8,192; so many of its elements in a hundred have attributes if
 * there is room */
void make_table(struct random *random, struct input *in, uint32_t rows, enum shape shape, uint32_t attributes);

/* a path of at most that many rows (of exactly so many if full), with paths
 * nested at most depth deep; uses in->literals_len */
void make_path(struct random *random, struct input *in, uint32_t rows, bool full, int depth);

/* a whole input: sound, or with damage in one place or more */
void make_input(struct random *random, struct input *in);

/* other literals, another path, start and edition for the same table, all sound but for few starts; most of the paths
 * have a step to many nodes and keep some that may be far */
void make_question(struct random *random, struct input *in);

#endif
