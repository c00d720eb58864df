/* stress.h: the largest accepted inputs, run on a stack of 1 MiB. */
#ifndef STRESS_H
#define STRESS_H

/* runs every case and prints it; 0 if all agree with the reference */
int stress(void);

#endif
