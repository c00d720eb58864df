/* files.h: an independent reader and writer of table files in plain C, to compare with.
 *
 * Written from document 02 alone. A file is split into its lines first; then
 * each line is held to what printf writes for the number it holds. The rules of
 * rows are those of reference.h.
 */
#ifndef FILES_H
#define FILES_H

#include <stddef.h>
#include <stdint.h>

/* the longest line with its line feed, parent=4294967295, and the most bytes that so many rows take */
enum { LINE_ROOM = 18 };
#define FILE_BYTES(rows) (2 * LINE_ROOM + 4 * (size_t)LINE_ROOM * (rows))

/* Each answers as its namesake in bargetulip.h does. */
uint32_t ref_read_table(const uint8_t *file, size_t file_len, uint32_t *out, size_t out_len, uint64_t *place);
uint32_t ref_write_table(const uint32_t *table, size_t table_len, uint8_t *out, size_t out_len, uint64_t *place);

/* Writes any rows, sound or not, in the form of a file, and gives back its length; out has room for
 * FILE_BYTES(rows). */
size_t file_of_rows(const uint32_t *table, size_t rows, uint8_t *out);

#endif
