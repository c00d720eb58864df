/* bargetulip.h: the proved XPath 1.0 checker, called from C.
 *
 * Eight functions over plain numbers and bytes: two checkers, the place of a
 * node on an axis of another, an evaluator, a path turner, a view of an answer
 * inside one subtree, and a reader and a writer of table files. What a table, a
 * table file, a path and an answer are is said below as far as a caller needs
 * it; documents 01 and 02 of the project are the definition.
 * Link with libcapi.a (made by `rt lib` in crates/capi) on x86-64 Linux. It
 * calls memcpy and memset of the C library and nothing else.
 *
 * A node table is 4 numbers a row, 1 to 8,192 rows, in document order:
 *   kind    0 root (row 0 only), 1 element, 2 text, 3 comment,
 *           4 processing instruction, 5 attribute
 *   name    1 to 65,535 for kinds 1, 4 and 5, otherwise 0
 *   parent  row number of the parent, of an attribute its element; 0 in row 0
 *   size    number of rows below it, attributes included; 0 for kinds 2 to 5
 * The root has one element child and no text child, and no text directly
 * follows a text sibling: a second element and such texts are broken rows.
 * Row 0 is broken if there is no row of kind 1.
 * The attributes of an element stand straight behind its row, before all its
 * children, in any order of their names: an attribute that stands elsewhere is
 * a broken row, and so is one whose name an earlier attribute of its element
 * has.
 *
 * A table file is a node table as text, in memory that the caller lends: lines
 * key=value, each ended by one line feed, exactly these in this order:
 *   edition=1
 *   nodes=  the number of rows, 1 to 8,192
 *   kind=, name=, parent=, size=  a line each, for each row
 * A value is a decimal up to 4,294,967,295 without leading zeros, sign or space.
 * Reading what was written gives the same table, and writing what was read the
 * same file, byte for byte. Its edition is the file format's, not a rule
 * sheet's.
 *
 * A path is 5 numbers a row (op, a, b, c, d), 1 to 256 rows. A link is a row
 * number plus one and names a lower row; 0 is no link. Every row but the last
 * is linked exactly once; the last row is the whole path. Unused fields are 0.
 *   1          literal            a = index into the literals
 *   2, 3       position(), last()
 *   4 to 8     + - * div mod      a, b = numbers
 *   9          negation           a = number
 *   10 to 15   = != < <= > >=     a, b = numbers
 *   16, 17     and, or            a, b = truths
 *   18         not                a = truth
 *   19         truth of a number  a = number
 *   20, 21     path selects something, count of a path   a = path
 *   22         relative path      a = its last step
 *   23         absolute path      a = its last step, or 0 for "/"
 *   24         step               a = previous step or 0,
 *                                 b = last predicate or 0, c = axis, d = test
 *   25         predicate          a = previous predicate or 0,
 *                                 b = number or truth
 * Axes: 0 self, 1 child, 2 parent, 3 descendant, 4 ancestor,
 * 5 descendant-or-self, 6 ancestor-or-self, 7 following, 8 preceding,
 * 9 following-sibling, 10 preceding-sibling, 11 attribute.
 * Tests: 0 node(), 1 *, 2 text(), 3 comment(), 4 processing-instruction(),
 * 16 + k the name k. On axis 11 * and names match attributes, on every other
 * axis elements; in edition 1 of the rule sheets * matches any node.
 * An attribute lies on the attribute axis of its element and on its own self,
 * descendant-or-self and ancestor-or-self axes, and on no other axis of any
 * node. From an attribute, parent and ancestor lead to its element and up;
 * following and preceding hold the later and the earlier nodes that are neither
 * attributes nor its ancestors, the children of its element among the later;
 * child, descendant, both sibling axes and attribute are empty.
 *
 * Literals are finite doubles with a clear sign bit, at most 64 of them.
 *
 * Rules for every call
 *   - Lengths count numbers (uint32_t or double), not rows and not bytes; the
 *     length of a uint8_t slice counts bytes.
 *   - Every pointer must be non-null and aligned for its type, even where its
 *     length is 0 (nothing is then read or written through it).
 *   - What a function writes (out, place, begin, count) must overlap neither
 *     each other nor what it reads (table, path, literals, list, file).
 *     What it only reads may overlap freely and is never changed.
 *   - Nothing is kept after the call: the caller owns all memory.
 *   - No heap, no globals, no locks, and no file is opened: the functions are
 *     reentrant and may run in any number of threads.
 *   - They always return, but the time of an evaluation is not bounded yet:
 *     counts of paths and steps that count positions, nested in each other,
 *     take a power of the rows for each nesting.
 *   - A stack of 1 MiB is enough for every input.
 *   - Any content is allowed: damaged tables, paths, literals, lists and files
 *     are refused with a number and a place, never undefined behaviour.
 */
#ifndef BARGETULIP_H
#define BARGETULIP_H

#include <stddef.h>
#include <stdint.h>

#ifdef __cplusplus
extern "C" {
#endif

/* The numbers given back. Checks run in the order of this list (14 and 13 came
 * later: 14 stands before all others, 13 between 9 and 10, for all steps are
 * looked at for 9 before any is for 13), but for the reader and the writer of
 * table files, which say their own, and the first that applies is returned;
 * *place is always written and means what the comment says. */
enum {
    BT_DONE = 0,          /* done: nodes or rows written (checkers: row count;
                             files: numbers or bytes written) */
    BT_EDITION = 14,      /* the edition is neither 1 nor 2: the edition */
    BT_TABLE_LENGTH = 1,  /* table length not 4 to 32,768 or not a multiple of 4: 0 */
    BT_TABLE_ROW = 2,     /* broken table row: the lowest one */
    BT_PATH_LENGTH = 3,   /* path length not 5 to 1,280 or not a multiple of 5: 0 */
    BT_LITERAL = 4,       /* bad literal: the lowest bad index; 64 if the first 64
                             are good and there are more */
    BT_PATH_ROW = 5,      /* broken path row: the lowest one */
    BT_DEPTH = 6,         /* paths nested more than 8 deep: 0 */
    BT_START = 7,         /* start is not a row of the table: start */
    BT_ROOM = 8,          /* more nodes selected than out holds: how many */
    BT_COUNTS = 9,        /* turning: a step counts positions: its number from 1,
                             the first such */
    BT_ATTRIBUTE_STEP = 13, /* turning: a top-level step is on the attribute
                             axis: its number from 1, the first such */
    BT_ABSOLUTE = 10,     /* turning: the path is absolute: 0 */
    BT_TURN_ROOM = 11,    /* turning: rows + 1 above 256, or out shorter than
                             5 * (rows + 1): rows + 1 */
    BT_FILE_LINE = 20,    /* reading: a bad line: the first one's number from 1 */
    BT_FILE_ROOM = 21     /* files: out too short: the numbers (reading) or
                             bytes (writing) that are needed in all */
};

/* The editions of rule sheets. They differ in `*` (test 1) alone: in edition 2
 * it matches elements, and attributes on the attribute axis, as the
 * Recommendation has it; in edition 1 it matches any node, as node() does. */
enum {
    BT_EDITION_1 = 1,
    BT_EDITION_2 = 2
};

/* The largest table, path, literal list and nesting that are accepted. */
enum {
    BT_MAX_TABLE_ROWS = 8192,
    BT_MAX_PATH_ROWS = 256,
    BT_MAX_LITERALS = 64,
    BT_MAX_DEPTH = 8
};

/* Checks a node table.
 * Returns 0, 1 or 2. *place: the row count (0), 0 (1), the lowest broken row (2). */
uint32_t bt_check_table(const uint32_t *table, size_t table_len, uint32_t *place);

/* The place of node y on the axis of node x: counted from 1 in the order in
 * which positions count along that axis (axes 2, 4, 6, 8 and 10 run against
 * document order), before any test, so that all nodes on the axis count.
 * Returns the place, or 0 if y is not on the axis, the table is not accepted,
 * axis is above 11, or x or y is not a row. */
uint32_t bt_axis_place(const uint32_t *table, size_t table_len,
                       uint32_t axis, uint32_t x, uint32_t y);

/* Checks a path and its literals; literals that no row uses are checked too.
 * Returns 0 or 3 to 6. *place: the row count (0), otherwise as in the list above. */
uint32_t bt_check_path(const uint32_t *path, size_t path_len,
                       const double *literals, size_t literals_len,
                       uint32_t *place);

/* Selects the nodes of a path, in an edition, from the node start (which must be
 * a row even if the path is absolute).
 * Returns 14 or 0 to 8, 14 checked first. On 0 the selected row numbers stand in
 * ascending order in out[0 .. *place - 1] and the rest of out is unchanged. On
 * every other number out is unchanged; on 8, *place says how much room is
 * needed. A room of as many numbers as the table has rows is always enough;
 * selecting nothing into no room is 0. */
uint32_t bt_evaluate(uint32_t edition,
                     const uint32_t *table, size_t table_len,
                     const uint32_t *path, size_t path_len,
                     const double *literals, size_t literals_len,
                     uint32_t start,
                     uint32_t *out, size_t out_len, uint32_t *place);

/* Turns a relative path round: x is selected from y by the turned path exactly
 * if y is selected from x by the path, in each edition, on every accepted table,
 * for nodes x and y that are no attributes. Paths in predicates may have steps
 * on the attribute axis; a step of the path itself may not (13).
 * Returns 0, 3 to 6, 9, 13, 10 or 11, checked in this order. On 0 the *place
 * rows of the turned path stand in out[0 .. 5 * *place - 1], to be used with
 * the same literals, and the rest of out is unchanged. On every other number
 * out is unchanged. */
uint32_t bt_turn(const uint32_t *path, size_t path_len,
                 const double *literals, size_t literals_len,
                 uint32_t *out, size_t out_len, uint32_t *place);

/* The part of an answer that lies in the subtree of one node, without a copy:
 * list[*begin .. *begin + *count - 1] are the entries from node to the last
 * row of its subtree, both included, attributes too. Both are always written.
 * *count is 0 if there is no such entry, the table is not accepted, node is
 * not a row, or the list is not strictly ascending with every entry below the
 * row count; *begin then means nothing. */
void bt_view(const uint32_t *table, size_t table_len,
             const uint32_t *list, size_t list_len,
             uint32_t node, size_t *begin, size_t *count);

/* Reads a table file. Its *place and the writer's are a uint64_t.
 * Returns 0, 20, 21 or 2, checked in the order 20, 21, 2: the form of the whole
 * file, room for its numbers, then the rows by the rules of bt_check_table.
 * On 0 the table stands in out[0 .. *place - 1], 4 numbers a row, and the rest
 * of out is unchanged. On every other number out is unchanged. *place: 4 times
 * the file's nodes (0 and 21), the lowest broken row (2), the first bad line's
 * number from 1 (20). A line that is missing has the number that it would have,
 * and the first of those too many is bad; so are a nodes line outside 1 to
 * 8,192 and bytes behind the last line feed. */
uint32_t bt_read_table(const uint8_t *file, size_t file_len,
                       uint32_t *out, size_t out_len, uint64_t *place);

/* Writes an accepted table as a table file.
 * Returns 0, 1, 2 or 21, checked in the order 1, 2, 21. On 0 the file stands in
 * out[0 .. *place - 1] and the rest of out is unchanged. On every other number
 * out is unchanged. *place: the file's bytes (0 and 21), 0 (1), the lowest
 * broken row (2). Called with no room it says on 21 how many bytes to lend. */
uint32_t bt_write_table(const uint32_t *table, size_t table_len,
                        uint8_t *out, size_t out_len, uint64_t *place);

#ifdef __cplusplus
}
#endif

#endif
