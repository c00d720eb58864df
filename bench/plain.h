/* plain.h: plain C loops that read and write table files, to time ours beside.
 *
 * One pass forward each. They check form, values and room as ours do, but no
 * row of the table, and write as they go, so that a refusal leaves what was
 * written until then.
 */
#ifndef PLAIN_H
#define PLAIN_H

#include <stddef.h>
#include <stdint.h>

/* How many numbers were read, or 0 if a line is bad or there is no room. */
size_t plain_read(const uint8_t *file, size_t file_len, uint32_t *out, size_t out_len);

/* How many bytes were written, or 0 if fewer than the longest line takes were left for a line. */
size_t plain_write(const uint32_t *table, size_t table_len, uint8_t *out, size_t out_len);

#endif
