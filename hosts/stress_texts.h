/* stress_texts.h: the longest and deepest texts and lists of names, read on a stack of 1 MiB. */
#ifndef STRESS_TEXTS_H
#define STRESS_TEXTS_H

/* runs every case, prints it and notes it (small_stack.h) */
void stress_texts(void);

#endif
