/* What hosts/ uses of <stdlib.h>. */
#ifndef HOST_STDLIB_H
#define HOST_STDLIB_H
#include <stddef.h>
void *malloc(size_t bytes);
void *calloc(size_t count, size_t size);
void free(void *memory);
void exit(int status) __attribute__((noreturn));
unsigned long strtoul(const char *text, char **end, int base);
#endif
