/* sizes.c: the functions that sizes.h declares. */
#include "sizes.h"

#include <stdio.h>
#include <stdlib.h>

uint32_t most_rows(void)
{
    const char *asked = getenv("BT_ROWS");
    unsigned long rows = asked ? strtoul(asked, NULL, 10) : MAX_ROWS;
    return rows < MAX_ROWS ? (uint32_t)rows : MAX_ROWS;
}

void print_rows(uint32_t rows)
{
    if (rows < 1000)
        printf("%u", rows);
    else
        printf("%u,%03u", rows / 1000, rows % 1000);
}
