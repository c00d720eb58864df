/* fixed_texts.h: path texts and lists of names with their answers by document 02. */
#ifndef FIXED_TEXTS_H
#define FIXED_TEXTS_H

/* asks the archive and the reference each case; 0 if all answers are right */
int fixed_texts(void);

#endif
