/* random_texts.h: random path texts with lists of names, sound and damaged. */
#ifndef RANDOM_TEXTS_H
#define RANDOM_TEXTS_H

#include "inputs.h"

/* room for the longest text, which is one of the limits, and for all names */
enum { TEXT_ROOM = 1 << 14, NAMES_ROOM = 1 << 10 };

struct text_input {
    uint8_t text[TEXT_ROOM], names[NAMES_ROOM];
    size_t text_len, names_len;
};

/* what texts are made of, by number: what rows hold, the whole grammar, sizes around the limits, tokens in a row,
 * any bytes, and the first three with changed bytes */
enum { HELD, GRAMMAR, LIMITS, TOKENS, BYTES, CHANGED, TEXT_KINDS };
const char *text_kind_name(int kind);

/* A text with a list of names, few of the lists bad; gives back the text's kind. */
int make_text(struct random *random, struct text_input *in);

/* A list of names, bad if damaged. */
void make_names(struct random *random, struct text_input *in, bool damaged);

#endif
