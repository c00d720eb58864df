/* What hosts/ uses of <sys/mman.h>: the numbers of x86-64 Linux. */
#ifndef HOST_SYS_MMAN_H
#define HOST_SYS_MMAN_H
#include <stddef.h>
#define PROT_NONE 0
#define PROT_READ 1
#define PROT_WRITE 2
#define MAP_PRIVATE 2
#define MAP_ANONYMOUS 32
#define MAP_FAILED ((void *)-1)
void *mmap(void *address, size_t bytes, int protection, int flags, int file, long offset);
int mprotect(void *address, size_t bytes, int protection);
#endif
