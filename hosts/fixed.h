/* fixed.h: cases of attributes, of editions and of the most rows, with their answers by documents 01 and 02. */
#ifndef FIXED_H
#define FIXED_H

/* asks the archive and the reference each case; 0 if all answers are right */
int fixed(void);

#endif
