/* What hosts/ uses of <stdbool.h>. */
#ifndef HOST_STDBOOL_H
#define HOST_STDBOOL_H
#define bool _Bool
#define true 1
#define false 0
#endif
