/* What hosts/ uses of <stdio.h>. */
#ifndef HOST_STDIO_H
#define HOST_STDIO_H
#include <stddef.h>
typedef struct _IO_FILE FILE;
extern FILE *stdin, *stderr;
size_t fread(void *to, size_t size, size_t count, FILE *from);
int fputs(const char *text, FILE *to);
int printf(const char *format, ...);
int snprintf(char *to, size_t room, const char *format, ...);
int puts(const char *text);
#endif
