/* small_stack.h: runs cases on a stack of 1 MiB and notes how much of it they used. */
#ifndef SMALL_STACK_H
#define SMALL_STACK_H

#include <stdbool.h>
#include <stddef.h>

/* runs the archive in a thread whose stack is exactly 1 MiB and gives back how much of it was used */
size_t on_small_stack(void *(*run)(void *), void *job);

/* notes the case by that name: whether its answers were right, and the stack that it used */
void note(const char *what, bool same, size_t used);

/* prints how many cases were different and the most stack; 0 if none was */
int print_noted(void);

#endif
