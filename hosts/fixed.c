/* fixed.c: the cases of attributes, of editions and of the most rows that fixed.h speaks of.
 *
 * The answers were worked out by hand from documents 01 and 02. Each case is
 * asked of the archive and of the reference, so that the two cannot agree on
 * something else. An answer is compared as text: its number and place, or its
 * nodes.
 */
#include "fixed.h"

#include "bargetulip.h"
#include "files.h"
#include "reference.h"

#include <stdbool.h>
#include <stdio.h>
#include <string.h>

enum { MOST_ROWS = 11, AXES = 12, PATH_ROWS = 10, OUT_ROOM = 5 * PATH_ROWS, TEXT = 16 * OUT_ROOM };

static const uint64_t WORK_LIMIT = 1000000;

/* ---- the two sides ---- */

static uint32_t reference_evaluate(uint32_t edition, const uint32_t *table, size_t table_len,
                                   const uint32_t *path, size_t path_len,
                                   const double *literals, size_t literals_len, uint32_t start,
                                   uint32_t *out, size_t out_len, uint32_t *place)
{
    return ref_evaluate(edition, table, table_len, path, path_len, literals, literals_len, start, out, out_len,
                        place, WORK_LIMIT);
}

struct side {
    const char *name;
    uint32_t (*check_table)(const uint32_t *table, size_t table_len, uint32_t *place);
    uint32_t (*axis_place)(const uint32_t *table, size_t table_len, uint32_t axis, uint32_t x, uint32_t y);
    uint32_t (*evaluate)(uint32_t edition, const uint32_t *table, size_t table_len,
                         const uint32_t *path, size_t path_len,
                         const double *literals, size_t literals_len, uint32_t start,
                         uint32_t *out, size_t out_len, uint32_t *place);
    uint32_t (*turn)(const uint32_t *path, size_t path_len, const double *literals, size_t literals_len,
                     uint32_t *out, size_t out_len, uint32_t *place);
    void (*view)(const uint32_t *table, size_t table_len, const uint32_t *list, size_t list_len,
                 uint32_t node, size_t *begin, size_t *length);
    uint32_t (*read)(const uint8_t *file, size_t file_len, uint32_t *out, size_t out_len, uint64_t *place);
    uint32_t (*write)(const uint32_t *table, size_t table_len, uint8_t *out, size_t out_len, uint64_t *place);
};

static const struct side sides[] = {
    {"archive", bt_check_table, bt_axis_place, bt_evaluate, bt_turn, bt_view, bt_read_table, bt_write_table},
    {"reference", ref_check_table, ref_axis_place, reference_evaluate, ref_turn, ref_view, ref_read_table,
     ref_write_table},
};

/* literals 0 to 2 of every path are themselves, the last is how many children the flat table has; one more is bad */
static const double literals[] = {0, 1, 2, 8190, -1};

enum { CHILDREN = 3, LITERALS };

/* ---- answers as text ---- */

static int answers, differences;

static void spell_numbers(char *to, const uint32_t *numbers, size_t count)
{
    to[0] = 0;
    for (size_t i = 0; i < count; i++)
        to += snprintf(to, 16, i == 0 ? "%u" : " %u", numbers[i]);
}

/* the numbers written if it is done, otherwise the number and the place */
static void spell_answer(char *to, uint32_t number, uint32_t place, const uint32_t *out, size_t width)
{
    size_t count = width * place;
    if (number == 0)
        spell_numbers(to, out, count < OUT_ROOM ? count : OUT_ROOM);
    else
        snprintf(to, TEXT, "refused with %u, place %u", number, place);
}

static void hold(const struct side *side, const char *what, const char *expected, const char *found)
{
    answers++;
    if (strcmp(expected, found) == 0)
        return;
    differences++;
    printf("DIFFERENT  %s: %s\n  expected: %s\n  found:    %s\n", side->name, what, expected, found);
}

/* ---- tables ---- */

/* rows up to the first behind row 0 that is all 0 */
static size_t rows_of(const uint32_t *table, size_t most)
{
    static const uint32_t end[4];
    size_t rows = 1;
    while (rows < most && memcmp(table + 4 * rows, end, sizeof end) != 0)
        rows++;
    return rows;
}

static const struct table { const char *what, *answer; uint32_t table[4 * MOST_ROWS]; } tables[] = {
    {"one attribute", "0 3", {0,0,0,2, 1,1,0,1, 5,1,1,0}},
    {"the greatest name", "0 3", {0,0,0,2, 1,1,0,1, 5,65535,1,0}},
    {"names that don't ascend", "0 4", {0,0,0,3, 1,1,0,2, 5,2,1,0, 5,1,1,0}},
    {"a name again on another element", "0 5", {0,0,0,4, 1,1,0,3, 5,1,1,0, 1,2,1,1, 5,1,3,0}},
    {"a text behind an attribute", "0 4", {0,0,0,3, 1,1,0,2, 5,1,1,0, 2,0,1,0}},
    {"kind 6 with a name", "2 2", {0,0,0,2, 1,1,0,1, 6,1,1,0}},
    {"kind 6 without a name", "2 2", {0,0,0,2, 1,1,0,1, 6,0,1,0}},
    {"name 0", "2 2", {0,0,0,2, 1,1,0,1, 5,0,1,0}},
    {"name 65,536", "2 2", {0,0,0,2, 1,1,0,1, 5,65536,1,0}},
    {"size 1", "2 2", {0,0,0,3, 1,1,0,2, 5,1,1,1, 3,0,2,0}},
    {"no element", "2 0", {0,0,0,1, 5,1,0,0}},
    {"under the root, before its element", "2 1", {0,0,0,2, 5,1,0,0, 1,1,0,0}},
    {"under the root, behind its element", "2 2", {0,0,0,2, 1,1,0,0, 5,1,0,0}},
    {"under a text", "2 3", {0,0,0,3, 1,1,0,2, 2,0,1,0, 5,1,2,0}},
    {"under an attribute", "2 3", {0,0,0,3, 1,1,0,2, 5,1,1,0, 5,2,2,0}},
    {"behind a comment", "2 3", {0,0,0,3, 1,1,0,2, 3,0,1,0, 5,1,1,0}},
    {"behind the attribute of an inner element", "2 4", {0,0,0,4, 1,1,0,3, 1,2,1,1, 5,1,2,0, 5,2,1,0}},
    {"an element's size without it", "2 2", {0,0,0,2, 1,1,0,0, 5,1,1,0}},
    {"the root's size without it", "2 0", {0,0,0,1, 1,1,0,1, 5,1,1,0}},
    {"names 1, 2, 1", "2 4", {0,0,0,4, 1,1,0,3, 5,1,1,0, 5,2,1,0, 5,1,1,0}},
    {"names 1, 1, 1", "2 3", {0,0,0,4, 1,1,0,3, 5,1,1,0, 5,1,1,0, 5,1,1,0}},
};

static void ask_tables(const struct side *side)
{
    for (size_t i = 0; i < sizeof tables / sizeof *tables; i++) {
        const struct table *t = &tables[i];
        char found[TEXT];
        uint32_t answer[2];
        answer[0] = side->check_table(t->table, 4 * rows_of(t->table, MOST_ROWS), &answer[1]);
        spell_numbers(found, answer, 2);
        hold(side, t->what, t->answer, found);
    }
}

/* ---- evaluations ---- */

/* rows of paths: a step behind others or alone, a predicate that is literal n, and the whole path */
#define STEP(previous, predicate, axis, test) 24, previous, predicate, axis, test
#define LITERAL(n) 1, n, 0, 0, 0
#define POSITION 2, 0, 0, 0, 0
#define LAST 3, 0, 0, 0, 0
#define EQUAL(left, right) 10, left, right, 0, 0
#define PREDICATE(value) 25, 0, value, 0, 0
#define NOT(truth) 18, truth, 0, 0, 0
#define EXISTS(path) 20, path, 0, 0, 0
#define COUNT(path) 21, path, 0, 0, 0
#define RELATIVE(step) 22, step, 0, 0, 0
#define ABSOLUTE(step) 23, step, 0, 0, 0
#define ALONE(axis, test) {STEP(0, 0, axis, test), RELATIVE(1)}
#define NUMBERED(axis, test, n) {LITERAL(n), PREDICATE(1), STEP(0, 2, axis, test), RELATIVE(3)}

static size_t path_length(const uint32_t *path)
{
    size_t rows = 0;
    while (rows < PATH_ROWS && path[5 * rows] != 0)
        rows++;
    return 5 * rows;
}

/* all that an evaluation is given but for the literals themselves */
struct call {
    uint32_t edition;
    const uint32_t *table, *path;
    size_t table_len, path_len, literals_len, room;
    uint32_t start;
};

static struct call call_of(uint32_t edition, const uint32_t *table, const uint32_t *path, uint32_t start)
{
    struct call call = {edition, table, path, 4 * rows_of(table, MOST_ROWS), path_length(path), LITERALS, MOST_ROWS,
                        start};
    return call;
}

/* asks for an answer and holds it to the one expected; nothing may be written behind its nodes, or by a refusal */
static void hold_call(const struct side *side, const char *what, const struct call *c, const char *expected)
{
    char text[TEXT], found[TEXT];
    uint32_t out[OUT_ROOM], before[OUT_ROOM], place;
    memset(before, 0xA5, sizeof before);
    memcpy(out, before, sizeof out);
    uint32_t number = side->evaluate(c->edition, c->table, c->table_len, c->path, c->path_len,
                                     literals, c->literals_len, c->start, out, c->room, &place);
    size_t written = number == 0 && place < OUT_ROOM ? place : 0;
    spell_answer(found, number, place, out, 1);
    if (memcmp(out + written, before + written, sizeof out - written * sizeof *out) != 0)
        snprintf(found + strlen(found), 32, ", and more was written");
    snprintf(text, sizeof text, "edition %u, %s", c->edition, what);
    hold(side, text, expected, found);
}

/* ---- axes ---- */

/* a table and, for each of its nodes, what is on each axis, ascending */
struct tree { uint32_t table[4 * MOST_ROWS]; const char *axes[MOST_ROWS][AXES]; };

/* element 1 with attributes 2 and 3; in it element 4 with attribute 5 and text 6, comment 7, element 8 */
static const struct tree nine = {
    {0,0,0,8, 1,1,0,7, 5,1,1,0, 5,2,1,0, 1,2,1,2, 5,1,4,0, 2,0,4,0, 3,0,1,0, 1,1,1,0}, {
    {"0", "1", "", "1 4 6 7 8", "", "0 1 4 6 7 8", "0", "", "", "", "", ""},
    {"1", "4 7 8", "0", "4 6 7 8", "0", "1 4 6 7 8", "0 1", "", "", "", "", "2 3"},
    {"2", "", "1", "", "0 1", "2", "0 1 2", "4 6 7 8", "", "", "", ""},
    {"3", "", "1", "", "0 1", "3", "0 1 3", "4 6 7 8", "", "", "", ""},
    {"4", "6", "1", "6", "0 1", "4 6", "0 1 4", "7 8", "", "7 8", "", "5"},
    {"5", "", "4", "", "0 1 4", "5", "0 1 4 5", "6 7 8", "", "", "", ""},
    {"6", "", "4", "", "0 1 4", "6", "0 1 4 6", "7 8", "", "", "", ""},
    {"7", "", "1", "", "0 1", "7", "0 1 7", "8", "4 6", "8", "4", ""},
    {"8", "", "1", "", "0 1", "8", "0 1 8", "", "4 6 7", "", "4 7", ""},
}};

/* comment 1; element 2 with attributes 3 and 4, in it text 5, element 6 with attribute 7 and comment 8, text 9;
 * instruction 10 */
static const struct tree eleven = {
    {0,0,0,10, 3,0,0,0, 1,1,0,7, 5,1,2,0, 5,2,2,0, 2,0,2,0, 1,2,2,2, 5,1,6,0, 3,0,6,0, 2,0,2,0, 4,9,0,0}, {
    {"0", "1 2 10", "", "1 2 5 6 8 9 10", "", "0 1 2 5 6 8 9 10", "0", "", "", "", "", ""},
    {"1", "", "0", "", "0", "1", "0 1", "2 5 6 8 9 10", "", "2 10", "", ""},
    {"2", "5 6 9", "0", "5 6 8 9", "0", "2 5 6 8 9", "0 2", "10", "1", "10", "1", "3 4"},
    {"3", "", "2", "", "0 2", "3", "0 2 3", "5 6 8 9 10", "1", "", "", ""},
    {"4", "", "2", "", "0 2", "4", "0 2 4", "5 6 8 9 10", "1", "", "", ""},
    {"5", "", "2", "", "0 2", "5", "0 2 5", "6 8 9 10", "1", "6 9", "", ""},
    {"6", "8", "2", "8", "0 2", "6 8", "0 2 6", "9 10", "1 5", "9", "5", "7"},
    {"7", "", "6", "", "0 2 6", "7", "0 2 6 7", "8 9 10", "1 5", "", "", ""},
    {"8", "", "6", "", "0 2 6", "8", "0 2 6 8", "9 10", "1 5", "", "", ""},
    {"9", "", "2", "", "0 2", "9", "0 2 9", "10", "1 5 6 8", "", "5 6", ""},
    {"10", "", "0", "", "0", "10", "0 10", "", "1 2 5 6 8 9", "", "1 2", ""},
}};

/* whether positions run against document order: parent, ancestor, ancestor-or-self, preceding, preceding-sibling */
static bool runs_back(uint32_t axis)
{
    return axis == 2 || axis == 4 || axis == 6 || axis == 8 || axis == 10;
}

/* the nodes of an axis by their places, turned round if the axis runs back */
static void spell_places(char *to, const struct side *side, const uint32_t *table, uint32_t rows, uint32_t axis,
                         uint32_t x)
{
    uint32_t by_place[MOST_ROWS + 1], ascending[MOST_ROWS], count = 0;
    memset(by_place, 0xFF, sizeof by_place);
    for (uint32_t y = 0; y < rows; y++) {
        uint32_t place = side->axis_place(table, 4 * (size_t)rows, axis, x, y);
        by_place[place <= MOST_ROWS ? place : 0] = y;
        count += place != 0;
    }
    for (uint32_t i = 0; i < count; i++)
        ascending[i] = by_place[runs_back(axis) ? count - i : i + 1];
    spell_numbers(to, ascending, count);
}

/* editions and tests in which a step selects all nodes on its axis: node(), and in edition 1 * too */
static const uint32_t whole[][2] = {{BT_EDITION_2, 0}, {BT_EDITION_1, 0}, {BT_EDITION_1, 1}};

/* asks for all nodes on each axis of each node, by their places and by paths of one step */
static void ask_axes(const struct side *side, const struct tree *tree)
{
    uint32_t rows = (uint32_t)rows_of(tree->table, MOST_ROWS);
    for (uint32_t i = 0; i < rows * AXES; i++) {
        uint32_t x = i / AXES, axis = i % AXES;
        char what[TEXT], found[TEXT];
        snprintf(what, sizeof what, "%u rows, axis %u of %u", rows, axis, x);
        spell_places(found, side, tree->table, rows, axis, x);
        hold(side, what, tree->axes[x][axis], found);
        for (size_t j = 0; j < sizeof whole / sizeof *whole; j++) {
            uint32_t path[5 * PATH_ROWS] = ALONE(axis, whole[j][1]);
            struct call call = call_of(whole[j][0], tree->table, path, x);
            hold_call(side, what, &call, tree->axes[x][axis]);
        }
    }
}

/* ---- runs on the nine rows, in edition 2 ---- */

struct run { const char *what; uint32_t start; const char *answer; uint32_t path[5 * PATH_ROWS]; };

static const struct run runs[] = {
    {"attribute::node()", 1, "2 3", ALONE(11, 0)},
    {"attribute::*", 1, "2 3", ALONE(11, 1)},
    {"attribute::text()", 1, "", ALONE(11, 2)},
    {"attribute::comment()", 1, "", ALONE(11, 3)},
    {"attribute::processing-instruction()", 1, "", ALONE(11, 4)},
    {"attribute::1", 1, "2", ALONE(11, 17)},
    {"attribute::2", 1, "3", ALONE(11, 18)},
    {"attribute::3", 1, "", ALONE(11, 19)},
    {"attribute::*[2]", 1, "3", NUMBERED(11, 1, 2)},
    {"attribute::2[1]", 1, "3", NUMBERED(11, 18, 1)},
    {"child::node()[1]", 1, "4", NUMBERED(1, 0, 1)},
    {"self::node() of an attribute", 2, "2", ALONE(0, 0)},
    {"self::* of an attribute", 2, "", ALONE(0, 1)},
    {"self::1 of an attribute", 2, "", ALONE(0, 17)},
    {"ancestor-or-self::* of an attribute", 2, "1", ALONE(6, 1)},
    {"parent::* of an attribute", 2, "1", ALONE(2, 1)},
    {"attribute::* of an attribute", 2, "", ALONE(11, 1)},
    {"following::node()[1] of an attribute", 2, "4", NUMBERED(7, 0, 1)},
    {"descendant::1", 0, "1 8", ALONE(3, 17)},
    {"descendant::*/attribute::*", 0, "2 3 5", {STEP(0, 0, 3, 1), STEP(1, 0, 11, 1), RELATIVE(2)}},
    {"descendant::*[attribute::1]", 0, "1 4",
     {STEP(0, 0, 11, 17), RELATIVE(1), EXISTS(2), PREDICATE(3), STEP(0, 4, 3, 1), RELATIVE(5)}},
    {"parent::1 of an attribute", 2, "1", ALONE(2, 17)},
    {"self::1/child::node(), that path turned", 1, "4 7 8", {STEP(0, 0, 0, 17), STEP(1, 0, 1, 0), RELATIVE(2)}},
    {"an axis too many", 1, "refused with 5, place 0", ALONE(12, 0)},
};

static void ask_runs(const struct side *side)
{
    for (size_t i = 0; i < sizeof runs / sizeof *runs; i++) {
        struct call call = call_of(BT_EDITION_2, nine.table, runs[i].path, runs[i].start);
        hold_call(side, runs[i].what, &call, runs[i].answer);
    }
}

/* the part of a list below a node, attributes included */
static void ask_view(const struct side *side, uint32_t node, const char *answer)
{
    static const uint32_t list[] = {0, 2, 3, 5, 6, 8};
    size_t begin, count;
    char found[TEXT];
    side->view(nine.table, 4 * rows_of(nine.table, MOST_ROWS), list, 6, node, &begin, &count);
    spell_numbers(found, list + (count > 0 ? begin : 0), count);
    hold(side, "a view", answer, found);
}

/* ---- editions ---- */

/* document 01's reference tree: elements alone, 2 with 3, 4, 5 in it and 6 with 7, 8, 9 in it, both in 1 */
static const uint32_t ten[4 * MOST_ROWS] = {
    0,0,0,9, 1,1,0,8, 1,2,1,3, 1,3,2,0, 1,3,2,0, 1,4,2,0, 1,2,1,3, 1,3,6,0, 1,4,6,0, 1,4,6,0
};

/* in element 1 text 2, comment 3, instruction 4 and element 5, these two with the name of element 1 */
static const uint32_t six[4 * MOST_ROWS] = {0,0,0,5, 1,1,0,4, 2,0,1,0, 3,0,1,0, 4,1,1,0, 1,1,1,0};

/* a path with its answers in edition 1 and in edition 2 */
static const struct edition_run {
    const char *what;
    const uint32_t *table;
    uint32_t start;
    const char *first, *second;
    uint32_t path[5 * PATH_ROWS];
} edition_runs[] = {
    {"self::* of the root", ten, 0, "0", "", ALONE(0, 1)},
    {"child::* among elements", ten, 1, "2 6", "2 6", ALONE(1, 1)},
    {"parent::*", ten, 1, "0", "", ALONE(2, 1)},
    {"ancestor::*", ten, 9, "0 1 6", "1 6", ALONE(4, 1)},
    {"ancestor::*[2]", ten, 2, "0", "", NUMBERED(4, 1, 2)},
    {"descendant-or-self::*", ten, 0, "0 1 2 3 4 5 6 7 8 9", "1 2 3 4 5 6 7 8 9", ALONE(5, 1)},
    {"ancestor-or-self::*", ten, 1, "0 1", "1", ALONE(6, 1)},
    {"self::*", nine.table, 2, "2", "", ALONE(0, 1)},
    {"child::*", nine.table, 2, "", "", ALONE(1, 1)},
    {"parent::*", nine.table, 2, "1", "1", ALONE(2, 1)},
    {"ancestor::*", nine.table, 5, "0 1 4", "1 4", ALONE(4, 1)},
    {"descendant-or-self::*", nine.table, 2, "2", "", ALONE(5, 1)},
    {"ancestor-or-self::*", nine.table, 2, "0 1 2", "1", ALONE(6, 1)},
    {"ancestor-or-self::*[1]", nine.table, 2, "2", "1", NUMBERED(6, 1, 1)},
    {"following::*", nine.table, 2, "4 6 7 8", "4 8", ALONE(7, 1)},
    {"following::*[2]", nine.table, 2, "6", "8", NUMBERED(7, 1, 2)},
    {"preceding::*", nine.table, 8, "4 6 7", "4", ALONE(8, 1)},
    {"preceding::*[1]", nine.table, 8, "7", "4", NUMBERED(8, 1, 1)},
    {"following-sibling::*", nine.table, 4, "7 8", "8", ALONE(9, 1)},
    {"preceding-sibling::*", nine.table, 8, "4 7", "4", ALONE(10, 1)},
    {"attribute::*", nine.table, 1, "2 3", "2 3", ALONE(11, 1)},
    {"attribute::*[2]", nine.table, 1, "3", "3", NUMBERED(11, 1, 2)},
    {"attribute::*", nine.table, 2, "", "", ALONE(11, 1)},
    {"attribute::*", nine.table, 6, "", "", ALONE(11, 1)},
    {"attribute::*/self::*", nine.table, 1, "2 3", "", {STEP(0, 0, 11, 1), STEP(1, 0, 0, 1), RELATIVE(2)}},
    {"attribute::*/parent::*", nine.table, 4, "4", "4", {STEP(0, 0, 11, 1), STEP(1, 0, 2, 1), RELATIVE(2)}},
    {"descendant::*[attribute::*/self::*]", nine.table, 0, "1 4", "",
     {STEP(0, 0, 11, 1), STEP(1, 0, 0, 1), RELATIVE(2), EXISTS(3), PREDICATE(4), STEP(0, 5, 3, 1), RELATIVE(6)}},
    {"attribute::1", nine.table, 1, "2", "2", ALONE(11, 17)},
    {"self::1 of an attribute", nine.table, 2, "", "", ALONE(0, 17)},
    {"descendant-or-self::1 of an attribute", nine.table, 2, "", "", ALONE(5, 17)},
    {"descendant::1", nine.table, 0, "1 8", "1 8", ALONE(3, 17)},
    {"child::*", eleven.table, 2, "5 6 9", "6", ALONE(1, 1)},
    {"child::*[1]", eleven.table, 2, "5", "6", NUMBERED(1, 1, 1)},
    {"child::*[2]", eleven.table, 2, "6", "", NUMBERED(1, 1, 2)},
    {"child::*[last()]", eleven.table, 2, "9", "6", {LAST, PREDICATE(1), STEP(0, 2, 1, 1), RELATIVE(3)}},
    {"child::*[child::*]", eleven.table, 2, "6", "",
     {STEP(0, 0, 1, 1), RELATIVE(1), EXISTS(2), PREDICATE(3), STEP(0, 4, 1, 1), RELATIVE(5)}},
    {"/child::*", eleven.table, 8, "1 2 10", "2", {STEP(0, 0, 1, 1), ABSOLUTE(1)}},
    {"following::*", eleven.table, 4, "5 6 8 9 10", "6", ALONE(7, 1)},
    {"preceding::*", eleven.table, 10, "1 2 5 6 8 9", "2 6", ALONE(8, 1)},
    {"preceding::*[1]", eleven.table, 10, "9", "6", NUMBERED(8, 1, 1)},
    {"descendant::*", eleven.table, 0, "1 2 5 6 8 9 10", "2 6", ALONE(3, 1)},
    {"descendant::*/child::*", eleven.table, 0, "5 6 8 9", "6", {STEP(0, 0, 3, 1), STEP(1, 0, 1, 1), RELATIVE(2)}},
    {"child::9", eleven.table, 0, "", "", ALONE(1, 25)},
    {"child::1", eleven.table, 0, "2", "2", ALONE(1, 17)},
    {"child::text()", eleven.table, 2, "5 9", "5 9", ALONE(1, 2)},
    {"child::comment()", eleven.table, 0, "1", "1", ALONE(1, 3)},
    {"child::processing-instruction()", eleven.table, 0, "10", "10", ALONE(1, 4)},
    {"self::*/parent::node(), child::* turned", eleven.table, 5, "2", "",
     {STEP(0, 0, 0, 1), STEP(1, 0, 2, 0), RELATIVE(2)}},
    {"self::*/child::node(), parent::* turned", eleven.table, 0, "1 2 10", "",
     {STEP(0, 0, 0, 1), STEP(1, 0, 1, 0), RELATIVE(2)}},
    {"child::*", six, 1, "2 3 4 5", "5", ALONE(1, 1)},
    {"child::*[1]", six, 1, "2", "5", NUMBERED(1, 1, 1)},
    {"child::*[2]", six, 1, "3", "", NUMBERED(1, 1, 2)},
    {"preceding-sibling::*[1]", six, 5, "4", "", NUMBERED(10, 1, 1)},
    {"following-sibling::*[1]", six, 2, "3", "5", NUMBERED(9, 1, 1)},
    {"self::* of a text", six, 2, "2", "", ALONE(0, 1)},
    {"self::* of a comment", six, 3, "3", "", ALONE(0, 1)},
    {"self::* of an instruction", six, 4, "4", "", ALONE(0, 1)},
    {"self::* of an element", six, 5, "5", "5", ALONE(0, 1)},
    {"self::1 of an instruction", six, 4, "", "", ALONE(0, 17)},
    {"child::1", six, 1, "5", "5", ALONE(1, 17)},
    {"child::1[1]", six, 1, "5", "5", NUMBERED(1, 17, 1)},
    {"child::node()[not(self::*)]", six, 1, "", "2 3 4",
     {STEP(0, 0, 0, 1), RELATIVE(1), EXISTS(2), NOT(3), PREDICATE(4), STEP(0, 5, 1, 0), RELATIVE(6)}},
    {"self::node()[count(child::*)]", six, 1, "", "1",
     {STEP(0, 0, 1, 1), RELATIVE(1), COUNT(2), PREDICATE(3), STEP(0, 4, 0, 0), RELATIVE(5)}},
};

static void ask_edition_runs(const struct side *side)
{
    for (size_t i = 0; i < sizeof edition_runs / sizeof *edition_runs; i++) {
        const struct edition_run *r = &edition_runs[i];
        char what[TEXT];
        snprintf(what, sizeof what, "%lu rows, %s from %u", (unsigned long)rows_of(r->table, MOST_ROWS), r->what,
                 r->start);
        struct call call = call_of(BT_EDITION_1, r->table, r->path, r->start);
        hold_call(side, what, &call, r->first);
        call.edition = BT_EDITION_2;
        hold_call(side, what, &call, r->second);
    }
}

/* attribute::*[1] from 2 of the eleven rows, whole and with damage, and its answer in both editions */
static const struct damage {
    const char *what, *answer;
    size_t table_len, path_len, literals_len, room;
    uint32_t start;
} damages[] = {
    {"no damage", "3", 44, 20, LITERALS, 1, 2},
    {"no table", "refused with 1, place 0", 0, 20, LITERALS, 1, 2},
    {"a number of the table too few", "refused with 1, place 0", 43, 20, LITERALS, 1, 2},
    {"a row of the table too few", "refused with 2, place 0", 40, 20, LITERALS, 1, 2},
    {"no path", "refused with 3, place 0", 44, 0, LITERALS, 1, 2},
    {"a bad literal", "refused with 4, place 4", 44, 20, LITERALS + 1, 1, 2},
    {"a row of the path too few", "refused with 5, place 2", 44, 15, LITERALS, 1, 2},
    {"a literal too few", "refused with 5, place 0", 44, 20, 1, 1, 2},
    {"start outside", "refused with 7, place 11", 44, 20, LITERALS, 1, 11},
    {"no room", "refused with 8, place 1", 44, 20, LITERALS, 0, 2},
    {"all of it", "refused with 1, place 0", 0, 0, LITERALS + 1, 0, 4294967295u},
};

/* numbers that are no editions: those beside them, the greatest, and some that end in the bits of one */
static const struct other { uint32_t edition; const char *answer; } others[] = {
    {0, "refused with 14, place 0"},
    {3, "refused with 14, place 3"},
    {4294967295u, "refused with 14, place 4294967295"},
    {258, "refused with 14, place 258"},
    {65537, "refused with 14, place 65537"},
    {2147483650u, "refused with 14, place 2147483650"},
};

/* the check of the edition comes before all others */
static void ask_damages(const struct side *side)
{
    static const uint32_t path[5 * PATH_ROWS] = NUMBERED(11, 1, 1);
    for (size_t i = 0; i < sizeof damages / sizeof *damages; i++) {
        const struct damage *d = &damages[i];
        struct call call = {BT_EDITION_1, eleven.table, path, d->table_len, d->path_len, d->literals_len, d->room,
                            d->start};
        hold_call(side, d->what, &call, d->answer);
        call.edition = BT_EDITION_2;
        hold_call(side, d->what, &call, d->answer);
        for (size_t j = 0; j < sizeof others / sizeof *others; j++) {
            call.edition = others[j].edition;
            hold_call(side, d->what, &call, others[j].answer);
        }
    }
}

/* ---- turning ---- */

struct turning { const char *what; size_t room; const char *answer; uint32_t path[5 * PATH_ROWS]; };

static const struct turning turnings[] = {
    {"attribute::2", OUT_ROOM, "refused with 13, place 1", ALONE(11, 18)},
    {"attribute::2 without room", 0, "refused with 13, place 1", ALONE(11, 18)},
    {"attribute::2[1]", OUT_ROOM, "refused with 9, place 1", NUMBERED(11, 18, 1)},
    {"/attribute::2", OUT_ROOM, "refused with 13, place 1", {STEP(0, 0, 11, 18), ABSOLUTE(1)}},
    {"/child::2", OUT_ROOM, "refused with 10, place 0", {STEP(0, 0, 1, 18), ABSOLUTE(1)}},
    {"child::2 without room", 0, "refused with 11, place 3", ALONE(1, 18)},
    {"attribute::2/child::1[1]", OUT_ROOM, "refused with 9, place 2",
     {STEP(0, 0, 11, 18), LITERAL(1), PREDICATE(2), STEP(1, 3, 1, 17), RELATIVE(4)}},
    {"self::node()/attribute::*/parent::*/attribute::*", OUT_ROOM, "refused with 13, place 2",
     {STEP(0, 0, 0, 0), STEP(1, 0, 11, 1), STEP(2, 0, 2, 1), STEP(3, 0, 11, 1), RELATIVE(4)}},
    {"an axis too many", OUT_ROOM, "refused with 5, place 0", ALONE(12, 0)},
    {"parent::1", OUT_ROOM, "24 0 0 0 17 24 1 0 1 0 22 2 0 0 0", ALONE(2, 17)},
    {"child::*", OUT_ROOM, "24 0 0 0 1 24 1 0 2 0 22 2 0 0 0", ALONE(1, 1)},
    {"parent::*", OUT_ROOM, "24 0 0 0 1 24 1 0 1 0 22 2 0 0 0", ALONE(2, 1)},
    {"child::1[attribute::*[1]]", OUT_ROOM,
     "1 1 0 0 0 25 0 1 0 0 24 0 2 11 1 22 3 0 0 0 20 4 0 0 0 25 0 5 0 0 24 0 6 0 17 24 7 0 2 0 22 8 0 0 0",
     {LITERAL(1), PREDICATE(1), STEP(0, 2, 11, 1), RELATIVE(3), EXISTS(4), PREDICATE(5),
      STEP(0, 6, 1, 17), RELATIVE(7)}},
};

static void ask_turnings(const struct side *side)
{
    for (size_t i = 0; i < sizeof turnings / sizeof *turnings; i++) {
        const struct turning *t = &turnings[i];
        char found[TEXT];
        uint32_t out[OUT_ROOM], place;
        uint32_t number = side->turn(t->path, path_length(t->path), literals, LITERALS, out, t->room, &place);
        spell_answer(found, number, place, out, 5);
        hold(side, t->what, t->answer, found);
    }
}

/* ---- the most rows (W-211) ---- */

/* rows of the largest flat table, and of one that is too large */
enum { MOST = 8192, TOO_MANY = MOST + 1 };

/* the flat table of so many rows: element 1 and, in it, elements 2 to the last */
static const uint32_t *flat_table(uint32_t rows)
{
    static uint32_t table[4 * TOO_MANY];
    uint32_t head[] = {0, 0, 0, rows - 1, 1, 1, 0, rows - 2}, child[] = {1, 2, 1, 0};
    memcpy(table, head, sizeof head);
    for (uint32_t i = 2; i < rows; i++)
        memcpy(table + 4 * i, child, sizeof child);
    return table;
}

/* numbers of a flat table of so many rows, or some more or fewer of them */
static const struct length { uint32_t rows; int more; const char *answer; } lengths[] = {
    {4095, 0, "0 4095"}, {4096, 0, "0 4096"}, {4096, 1, "1 0"}, {4097, -1, "1 0"}, {4097, 0, "0 4097"},
    {MOST - 1, 0, "0 8191"}, {MOST, -1, "1 0"}, {MOST, 0, "0 8192"}, {MOST, 1, "1 0"}, {MOST, 2, "1 0"},
    {MOST, 3, "1 0"}, {TOO_MANY, 0, "1 0"}, {TOO_MANY, -4, "2 0"},
};

static void ask_lengths(const struct side *side)
{
    for (size_t i = 0; i < sizeof lengths / sizeof *lengths; i++) {
        const struct length *l = &lengths[i];
        size_t numbers = 4 * (size_t)l->rows + (size_t)l->more;
        char what[TEXT], found[TEXT];
        uint32_t answer[2];
        answer[0] = side->check_table(flat_table(l->rows), numbers, &answer[1]);
        spell_numbers(found, answer, 2);
        snprintf(what, sizeof what, "flat table of %u rows, %lu numbers", l->rows, (unsigned long)numbers);
        hold(side, what, l->answer, found);
    }
}

/* paths from nodes of the largest flat table; an answer to more nodes than there is room for is their count */
static const struct run flat_runs[] = {
    {"/child::*/child::*[last()]", 0, "8191", {STEP(0, 0, 1, 1), LAST, PREDICATE(2), STEP(1, 3, 1, 1), ABSOLUTE(4)}},
    {"/child::*/child::*[position() = 8190]", 5, "8191",
     {STEP(0, 0, 1, 1), POSITION, LITERAL(CHILDREN), EQUAL(2, 3), PREDICATE(4), STEP(1, 5, 1, 1), ABSOLUTE(6)}},
    {"/child::*[count(child::*) = 8190]", 8191, "1",
     {STEP(0, 0, 1, 1), RELATIVE(1), COUNT(2), LITERAL(CHILDREN), EQUAL(3, 4), PREDICATE(5), STEP(0, 6, 1, 1),
      ABSOLUTE(7)}},
    {"descendant::*[8190]", 0, "8190", NUMBERED(3, 1, CHILDREN)},
    {"descendant-or-self::node()[8190]", 0, "8189", NUMBERED(5, 0, CHILDREN)},
    {"preceding::*[last()]", 8191, "2", {LAST, PREDICATE(1), STEP(0, 2, 8, 1), RELATIVE(3)}},
    {"following-sibling::*[last()]", 2, "8191", {LAST, PREDICATE(1), STEP(0, 2, 9, 1), RELATIVE(3)}},
    {"preceding-sibling::*[1]", 8191, "8190", NUMBERED(10, 1, 1)},
    {"preceding-sibling::*[8190]", 8191, "", NUMBERED(10, 1, CHILDREN)},
    {"ancestor-or-self::node()", 8191, "0 1 8191", ALONE(6, 0)},
    {"child::*", 1, "refused with 8, place 8190", ALONE(1, 1)},
    {"descendant-or-self::node()", 0, "refused with 8, place 8192", ALONE(5, 0)},
    {"self::*", 8192, "refused with 7, place 8192", ALONE(0, 1)},
};

/* places in the largest flat table */
static const struct { uint32_t axis, x, y; const char *answer; } flat_places[] = {
    {1, 1, 8191, "8190"}, {3, 0, 8191, "8191"}, {5, 0, 8191, "8192"}, {8, 8191, 2, "8189"}, {9, 2, 8191, "8189"},
    {10, 8191, 4096, "4095"}, {7, 4095, 8191, "4096"}, {1, 1, 8192, "0"},
};

static void ask_flat_runs(const struct side *side)
{
    const uint32_t *flat = flat_table(MOST);
    for (size_t i = 0; i < sizeof flat_runs / sizeof *flat_runs; i++) {
        struct call call = {BT_EDITION_2, flat, flat_runs[i].path, 4 * MOST, path_length(flat_runs[i].path), LITERALS,
                            OUT_ROOM, flat_runs[i].start};
        hold_call(side, flat_runs[i].what, &call, flat_runs[i].answer);
    }
    for (size_t i = 0; i < sizeof flat_places / sizeof *flat_places; i++) {
        char found[TEXT];
        uint32_t place = side->axis_place(flat, 4 * MOST, flat_places[i].axis, flat_places[i].x, flat_places[i].y);
        spell_numbers(found, &place, 1);
        hold(side, "a place in the flat table", flat_places[i].answer, found);
    }
}

/* all nodes of the largest flat table, selected into just enough room, and their part below node 1 */
static void ask_flat_whole(const struct side *side)
{
    static const uint32_t path[5 * PATH_ROWS] = ALONE(5, 0);
    static uint32_t out[MOST];
    const uint32_t *flat = flat_table(MOST);
    char found[TEXT];
    uint32_t place, number, ascending = 0;
    size_t part[2];
    number = side->evaluate(BT_EDITION_2, flat, 4 * MOST, path, path_length(path), literals, 0, 0, out, MOST, &place);
    while (ascending < MOST && out[ascending] == ascending)
        ascending++;
    side->view(flat, 4 * MOST, out, MOST, 1, &part[0], &part[1]);
    uint32_t answer[] = {number, place, ascending, (uint32_t)part[0], (uint32_t)part[1]};
    spell_numbers(found, answer, 5);
    hold(side, "all nodes of the flat table, and a view", "0 8192 8192 1 8191", found);
}

/* ---- files of the most rows ---- */

/* a file of so many flat rows that says it has so many nodes; gives back its length */
static size_t spell_file(uint8_t *to, uint32_t rows, uint32_t nodes)
{
    static const char *const keys[4] = {"kind", "name", "parent", "size"};
    const uint32_t *flat = flat_table(rows);
    int len = snprintf((char *)to, 2 * LINE_ROOM, "edition=1\nnodes=%u\n", nodes);
    for (uint32_t i = 0; i < 4 * rows; i++)
        len += snprintf((char *)to + len, LINE_ROOM + 1, "%s=%u\n", keys[i % 4], flat[i]);
    return (size_t)len;
}

/* files of flat rows: how many rows, how many nodes they say, and the answer of reading them */
static const struct { uint32_t rows, nodes; const char *answer; } flat_files[] = {
    {4096, 4096, "0 16384"}, {4097, 4097, "0 16388"}, {MOST, MOST, "0 32768"}, {MOST, MOST - 1, "20 32767"},
    {MOST - 1, MOST, "20 32767"}, {TOO_MANY, MOST, "20 32771"}, {TOO_MANY, TOO_MANY, "20 2"}, {MOST, TOO_MANY, "20 2"},
};

/* reads each, and writes what was read, which must give the file again */
static void ask_flat_files(const struct side *side)
{
    static uint8_t file[FILE_BYTES(TOO_MANY)], back[FILE_BYTES(TOO_MANY)];
    static uint32_t table[4 * TOO_MANY];
    for (size_t i = 0; i < sizeof flat_files / sizeof *flat_files; i++) {
        char what[TEXT], found[TEXT];
        size_t len = spell_file(file, flat_files[i].rows, flat_files[i].nodes);
        uint64_t read, written;
        uint32_t number = side->read(file, len, table, 4 * TOO_MANY, &read);
        snprintf(what, sizeof what, "a file of %u rows, nodes=%u", flat_files[i].rows, flat_files[i].nodes);
        snprintf(found, sizeof found, "%u %lu", number, (unsigned long)read);
        hold(side, what, flat_files[i].answer, found);
        if (number != 0)
            continue;
        number = side->write(table, read, back, sizeof back, &written);
        bool same = number == 0 && written == len && memcmp(back, file, len) == 0;
        hold(side, what, "written back", same ? "written back" : "not written back");
    }
}

/* the largest flat table is written into no room, which says its bytes, and one that is too large not at all */
static void ask_flat_bytes(const struct side *side, uint32_t rows, const char *answer)
{
    uint8_t none[1];
    uint64_t place;
    char found[TEXT];
    uint32_t number = side->write(flat_table(rows), 4 * (size_t)rows, none, 0, &place);
    snprintf(found, sizeof found, "%u %lu", number, (unsigned long)place);
    hold(side, "a flat table written into no room", answer, found);
}

static void ask_most_rows(const struct side *side)
{
    ask_lengths(side);
    ask_flat_runs(side);
    ask_flat_whole(side);
    ask_flat_files(side);
    ask_flat_bytes(side, MOST, "21 245787");
    ask_flat_bytes(side, TOO_MANY, "1 0");
}

int fixed(void)
{
    for (size_t i = 0; i < sizeof sides / sizeof *sides; i++) {
        ask_tables(&sides[i]);
        ask_axes(&sides[i], &nine);
        ask_axes(&sides[i], &eleven);
        ask_runs(&sides[i]);
        ask_view(&sides[i], 1, "2 3 5 6 8");
        ask_view(&sides[i], 2, "2");
        ask_view(&sides[i], 4, "5 6");
        ask_edition_runs(&sides[i]);
        ask_damages(&sides[i]);
        ask_turnings(&sides[i]);
        ask_most_rows(&sides[i]);
    }
    printf("fixed: %d answers, %d different\n", answers, differences);
    return differences != 0;
}
