/* What hosts/ uses of <stddef.h>, for x86-64 Linux. */
#ifndef HOST_STDDEF_H
#define HOST_STDDEF_H
typedef __SIZE_TYPE__ size_t;
#define NULL ((void *)0)
#endif
