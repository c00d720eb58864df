/* What hosts/ uses of <stdint.h>, for x86-64 Linux. */
#ifndef HOST_STDINT_H
#define HOST_STDINT_H
typedef __UINT8_TYPE__ uint8_t;
typedef __UINT32_TYPE__ uint32_t;
typedef __UINT64_TYPE__ uint64_t;
#define UINT32_MAX 0xFFFFFFFFu
#endif
