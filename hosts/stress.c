/* stress.c: long, chained, deep and nested paths over 8,192 rows, the most attributes, and the longest files.
 *
 * Each case runs the archive in a thread whose stack is exactly 1 MiB, above a
 * page that cannot be touched, and compares the answers with the reference,
 * which runs on the ordinary stack. The stack is filled with a pattern first,
 * so that the most that was used can be told. Paths run in edition 2, and again
 * in edition 1 with every node() written as *, which there selects the same.
 */
#include "stress.h"

#include "bargetulip.h"
#include "files.h"
#include "inputs.h"
#include "reference.h"

#include <pthread.h>
#include <stdio.h>
#include <stdlib.h>
#include <string.h>
#include <sys/mman.h>

enum { ROWS = BT_MAX_TABLE_ROWS, STACK = 1 << 20, PAGE = 4096, PATTERN = 0xA5, TURNED_ROOM = 5 * 256, DESCENDANT = 3 };

static const uint64_t WORK_LIMIT = 1200000000;

/* ---- paths, written bottom up ---- */

struct maker { struct input *in; uint32_t rows; };

static uint32_t row(struct maker *m, uint32_t op, uint32_t a, uint32_t b, uint32_t c, uint32_t d)
{
    uint32_t numbers[5] = {op, a, b, c, d};
    memcpy(m->in->path + 5 * m->rows, numbers, sizeof numbers);
    return ++m->rows;
}

static void finish(struct maker *m, uint32_t last_step)
{
    row(m, 22, last_step, 0, 0, 0);
    m->in->path_len = 5 * (size_t)m->rows;
}

/* a number of steps, two axes in turn */
static void many_steps(struct maker *m, int count, uint32_t odd, uint32_t even)
{
    uint32_t step = 0;
    for (int i = 0; i < count; i++)
        step = row(m, 24, step, 0, i % 2 == 0 ? odd : even, 0);
    finish(m, step);
}

/* as many predicates on one step as fit: [position()] or [true] */
static void many_predicates(struct maker *m, uint32_t axis, uint32_t op)
{
    uint32_t predicate = 0, each = op == 19 ? 3 : 2;
    while (m->rows + each + 2 <= 256) {
        uint32_t value = row(m, op == 19 ? 3 : op, 0, 0, 0, 0);
        if (op == 19)
            value = row(m, 19, value, 0, 0, 0);
        predicate = row(m, 25, predicate, value, 0, 0);
    }
    finish(m, row(m, 24, 0, predicate, axis, 0));
}

/* a predicate with operands of one op nested as deep as fits, on its left or right */
static void many_operands(struct maker *m, uint32_t op, bool right)
{
    bool truths = op == 16 || op == 17 || op == 18, single = op == 9 || op == 18;
    uint32_t value = row(m, 2, 0, 0, 0, 0);
    if (truths)
        value = row(m, 19, value, 0, 0, 0);
    while (m->rows + 6 <= 256) {
        uint32_t leaf = single ? 0 : row(m, truths ? 3 : 1, 0, 0, 0, 0);
        if (truths && !single)
            leaf = row(m, 19, leaf, 0, 0, 0);
        value = right && !single ? row(m, op, leaf, value, 0, 0) : row(m, op, value, leaf, 0, 0);
    }
    if (!truths)
        value = row(m, 19, value, 0, 0, 0);
    uint32_t predicate = row(m, 25, 0, value, 0, 0);
    finish(m, row(m, 24, 0, predicate, 1, 0));
}

/* a predicate with ands or ors nested as deep as fits, on their left or right; none asks for a
 * position, so that they are decided for a whole set at once */
static void many_truths(struct maker *m, uint32_t op, bool right)
{
    uint32_t value = row(m, 20, row(m, 23, 0, 0, 0, 0), 0, 0, 0);
    while (m->rows + 6 <= 256) {
        uint32_t leaf = row(m, 20, row(m, 23, 0, 0, 0, 0), 0, 0, 0);
        value = right ? row(m, op, leaf, value, 0, 0) : row(m, op, value, leaf, 0, 0);
    }
    uint32_t predicate = row(m, 25, 0, value, 0, 0);
    finish(m, row(m, 24, 0, predicate, 1, 0));
}

/* a number of rows of one op over each other */
static uint32_t wrap(struct maker *m, uint32_t op, uint32_t value, int count)
{
    for (int i = 0; i < count; i++)
        value = row(m, op, value, 0, 0, 0);
    return value;
}

/* paths nested 8 deep, each of some steps, held by existence or count under some nots in the
 * first of them; the outermost path begins with the axis top */
static void nested_paths(struct maker *m, uint32_t top, uint32_t axis, int steps, uint32_t op, int nots)
{
    uint32_t path = 0;
    for (int depth = 8; depth > 0; depth--) {
        uint32_t predicate = 0, step = 0;
        if (path != 0) {
            uint32_t value = row(m, op, path, 0, 0, 0);
            if (op == 21)
                value = row(m, 19, value, 0, 0, 0);
            predicate = row(m, 25, 0, wrap(m, 18, value, nots), 0, 0);
        }
        if (depth == 1)
            axis = top;
        for (int i = 0; i < steps; i++)
            step = row(m, 24, step, i == 0 ? predicate : 0, i % 2 == 0 ? axis : 5, 0);
        if (depth == 1)
            finish(m, step);
        else
            path = row(m, 22, step, 0, 0, 0);
    }
}

/* a step to the node itself, with one predicate */
static uint32_t self_step(struct maker *m, uint32_t value)
{
    return row(m, 24, 0, row(m, 25, 0, value, 0, 0), 0, 0);
}

/* steps that count nested so deep: each keeps the node whose position is the count of the path
 * inside it, under some negations */
static uint32_t counting_steps(struct maker *m, int depth, int negations)
{
    uint32_t step = self_step(m, row(m, 2, 0, 0, 0, 0));
    for (int i = 1; i < depth; i++) {
        uint32_t count = row(m, 21, row(m, 22, step, 0, 0, 0), 0, 0, 0);
        step = self_step(m, wrap(m, 9, count, negations));
    }
    return step;
}

/* the existence of a path of one step */
static uint32_t existence(struct maker *m, uint32_t step)
{
    return row(m, 20, row(m, 22, step, 0, 0, 0), 0, 0, 0);
}

/* steps that count nested 7 deep, below as many nots as fit, decided for a set */
static void deepest_counting(struct maker *m)
{
    uint32_t held = existence(m, counting_steps(m, 7, 0));
    finish(m, self_step(m, wrap(m, 18, held, 256 - 3 - (int)m->rows)));
}

/* the most stack: paths nested 8 deep, each decided for a set and with a predicate, the last of which is below as many
 * nots as fit */
static void deepest(struct maker *m)
{
    uint32_t step = self_step(m, wrap(m, 18, row(m, 19, row(m, 1, 0, 0, 0, 0), 0, 0, 0), 222));
    for (int depth = 1; depth < 8; depth++)
        step = self_step(m, existence(m, step));
    finish(m, step);
}

/* paths nested 8 deep: ancestors with an attribute whose element has an attribute, and so on */
static void nested_attributes(struct maker *m)
{
    uint32_t path = 0, step = 0;
    for (int depth = 8; depth > 0; depth--) {
        uint32_t predicate = path == 0 ? 0 : row(m, 25, 0, row(m, 20, path, 0, 0, 0), 0, 0);
        step = row(m, 24, 0, predicate, depth == 1 ? 6 : depth % 2 == 0 ? 11 : 2, 0);
        if (depth > 1)
            path = row(m, 22, step, 0, 0, 0);
    }
    finish(m, step);
}

/* ---- one case on a small stack ---- */

struct answers {
    uint32_t table, path, evaluate, turn, axis_place, place[4];
    size_t begin, length;
    uint32_t nodes[ROWS], turned[TURNED_ROOM];
};

struct job { const struct input *in; struct answers *answers; };

static void *run_archive(void *argument)
{
    struct job *job = argument;
    const struct input *in = job->in;
    struct answers *a = job->answers;
    a->table = bt_check_table(in->table, in->table_len, &a->place[0]);
    a->axis_place = bt_axis_place(in->table, in->table_len, DESCENDANT, 0, ROWS - 1);
    a->path = bt_check_path(in->path, in->path_len, in->literals, in->literals_len, &a->place[1]);
    a->evaluate = bt_evaluate(in->edition, in->table, in->table_len, in->path, in->path_len, in->literals,
                              in->literals_len, in->start, a->nodes, ROWS, &a->place[2]);
    a->turn = bt_turn(in->path, in->path_len, in->literals, in->literals_len,
                      a->turned, TURNED_ROOM, &a->place[3]);
    bt_view(in->table, in->table_len, in->list, in->list_len, in->node, &a->begin, &a->length);
    return NULL;
}

static void run_reference(const struct input *in, struct answers *a)
{
    a->table = ref_check_table(in->table, in->table_len, &a->place[0]);
    a->axis_place = ref_axis_place(in->table, in->table_len, DESCENDANT, 0, ROWS - 1);
    a->path = ref_check_path(in->path, in->path_len, in->literals, in->literals_len, &a->place[1]);
    a->evaluate = ref_evaluate(in->edition, in->table, in->table_len, in->path, in->path_len, in->literals,
                               in->literals_len, in->start, a->nodes, ROWS, &a->place[2], WORK_LIMIT);
    a->turn = ref_turn(in->path, in->path_len, in->literals, in->literals_len,
                       a->turned, TURNED_ROOM, &a->place[3]);
    ref_view(in->table, in->table_len, in->list, in->list_len, in->node, &a->begin, &a->length);
    if (a->evaluate == REF_TOO_LONG)
        puts("stress: a case is above the reference's limit");
}

static char *make_stack(void)
{
    char *area = mmap(NULL, STACK + PAGE, PROT_READ | PROT_WRITE, MAP_PRIVATE | MAP_ANONYMOUS, -1, 0);
    if (area == MAP_FAILED || mprotect(area, PAGE, PROT_NONE) != 0) {
        puts("stress: no memory for a stack");
        exit(2);
    }
    return area + PAGE;
}

/* runs the archive on the small stack and gives back how much of it was used */
static size_t on_small_stack(void *(*run)(void *), void *job)
{
    static char *stack;
    pthread_attr_t attributes;
    pthread_t thread;
    size_t unused = 0;
    if (!stack)
        stack = make_stack();
    memset(stack, PATTERN, STACK);
    if (pthread_attr_init(&attributes) != 0 || pthread_attr_setstack(&attributes, stack, STACK) != 0 ||
        pthread_create(&thread, &attributes, run, job) != 0 || pthread_join(thread, NULL) != 0) {
        puts("stress: no thread");
        exit(2);
    }
    while (unused < STACK && (unsigned char)stack[unused] == PATTERN)
        unused++;
    return STACK - unused;
}

/* ---- the cases ---- */

static struct input in;
static size_t most;
static char most_case[64];
static int differences;

static void note(const char *what, bool same, size_t used)
{
    if (used > most)
        snprintf(most_case, sizeof most_case, "%s", what);
    most = used > most ? used : most;
    differences += !same;
}

/* writes each node() of a path as *, which in edition 1 is the same */
static void write_stars(struct input *to)
{
    to->edition = BT_EDITION_1;
    for (size_t i = 0; i < to->path_len; i += 5)
        if (to->path[i] == 24 && to->path[i + 4] == 0)
            to->path[i + 4] = 1;
}

/* runs the archive in edition 1 with stars, which must give the number, place and nodes of edition 2 */
static void run_stars(const char *what, const struct answers *expected)
{
    static struct input starred;
    static struct answers found;
    struct job job = {&starred, &found};
    starred = in;
    write_stars(&starred);
    memset(&found, 0, sizeof found);
    size_t used = on_small_stack(run_archive, &job);
    bool same = found.evaluate == expected->evaluate && found.place[2] == expected->place[2] &&
                memcmp(found.nodes, expected->nodes, sizeof found.nodes) == 0;
    if (!same)
        printf("DIFFERENT  %s, with stars in edition 1: evaluate %u/%u\n", what, found.evaluate, found.place[2]);
    note(what, same, used);
}

static void run_case(const char *what)
{
    static struct answers expected, found;
    struct job job = {&in, &found};
    memset(&expected, 0, sizeof expected);
    memset(&found, 0, sizeof found);
    run_reference(&in, &expected);
    size_t used = on_small_stack(run_archive, &job);
    if (expected.length == 0)
        found.begin = expected.begin;
    bool same = memcmp(&expected, &found, sizeof found) == 0;
    printf("%s  %-48s %4lu rows, evaluate %u/%u, turn %u/%u, stack %lu KiB\n", same ? "same" : "DIFFERENT",
           what, (unsigned long)(in.path_len / 5), found.evaluate, found.place[2], found.turn,
           found.place[3], (unsigned long)(used / 1024));
    note(what, same, used);
    run_stars(what, &expected);
}

/* an empty path, and a list of all nodes to look at from node 1 */
static struct maker begin_path(uint32_t start)
{
    struct maker maker = {&in, 0};
    memset(in.path, 0, sizeof in.path);
    in.literals[0] = 1;
    in.literals_len = 1;
    for (in.list_len = 0; in.list_len < ROWS; in.list_len++)
        in.list[in.list_len] = (uint32_t)in.list_len;
    in.edition = BT_EDITION_2;
    in.start = start;
    in.node = 1;
    return maker;
}

/* a table whose row 1 holds all rows behind it; so many elements in a hundred have attributes */
static struct maker begin_with(enum shape shape, uint32_t start, uint32_t attributes)
{
    struct random random = {7};
    do
        make_table(&random, &in, ROWS, shape, attributes);
    while (in.table[4 + 3] != ROWS - 2);
    return begin_path(start);
}

static struct maker begin(enum shape shape, uint32_t start)
{
    return begin_with(shape, start, 0);
}

static void run_steps(void)
{
    struct maker m = begin(CHAIN, 0);
    many_steps(&m, 255, 1, 1);
    run_case("255 steps down a chain");
    m = begin(CHAIN, ROWS - 100);
    many_steps(&m, 255, 2, 0);
    run_case("255 steps up a chain");
    m = begin(BUSHY, 2);
    many_steps(&m, 255, 1, 2);
    run_case("255 steps child and parent");
    m = begin(WIDE, 2);
    many_steps(&m, 8, 9, 10);
    run_case("8 steps between siblings");
    m = begin(BUSHY, 0);
    many_steps(&m, 12, 5, 6);
    run_case("12 steps over all nodes, down and up");
    m = begin(MIXED, 0);
    many_steps(&m, 6, 5, 7);
    run_case("6 steps over all nodes, following");
    m = begin(CHAIN, 0);
    many_steps(&m, 6, 5, 8);
    run_case("6 steps over all nodes, preceding");
}

static void run_predicates(void)
{
    struct maker m = begin(WIDE, 1);
    many_predicates(&m, 1, 2);
    run_case("[position()] chained");
    m = begin(WIDE, ROWS - 1);
    many_predicates(&m, 8, 3);
    run_case("[last()] chained, preceding");
    m = begin(BUSHY, 0);
    many_predicates(&m, 3, 19);
    run_case("[true] chained, descendant");
}

static void run_operands(void)
{
    static const uint32_t ops[] = {4, 5, 6, 7, 8, 9, 16, 17, 18};
    static const char *const names[] = {"+", "-", "*", "div", "mod", "negation", "and", "or", "not"};
    char what[64] = "operands on one side: ";
    for (int i = 0; i < 9; i++)
        for (int right = 0; right < 2; right++) {
            struct maker m = begin(WIDE, 1);
            many_operands(&m, ops[i], right);
            memcpy(what + 22, names[i], strlen(names[i]) + 1);
            run_case(what);
        }
}

static void run_truths(void)
{
    for (int right = 0; right < 2; right++) {
        struct maker m = begin(BUSHY, 1);
        many_truths(&m, 16, right);
        run_case("operands on one side, of a set: and");
        m = begin(BUSHY, 1);
        many_truths(&m, 17, right);
        run_case("operands on one side, of a set: or");
    }
}

static void run_nested(void)
{
    struct maker m = begin(CHAIN, 0);
    nested_paths(&m, 3, 1, 1, 20, 0);
    run_case("existence nested 8 deep, child, from all nodes");
    m = begin(BUSHY, 0);
    nested_paths(&m, 3, 1, 1, 21, 0);
    run_case("count nested 8 deep, child, from all nodes");
    m = begin(CHAIN, ROWS - 1000); /* from all nodes of a chain it would take half as long as all other cases */
    nested_paths(&m, 3, 1, 1, 21, 0);
    run_case("count nested 8 deep, child, down a chain's end");
    m = begin(CHAIN, ROWS - 1);
    nested_paths(&m, 4, 2, 1, 20, 0);
    run_case("existence nested 8 deep, parent, from a chain");
    m = begin(WIDE, ROWS - 100);
    nested_paths(&m, 0, 0, 25, 20, 0);
    run_case("existence nested 8 deep, 25 steps each");
    m = begin(CHAIN, 0);
    nested_paths(&m, 3, 1, 1, 20, 32);
    run_case("existence nested 8 deep, under 32 nots each");
    m = begin(WIDE, ROWS - 100);
    finish(&m, counting_steps(&m, 8, 32));
    run_case("counting steps nested 8 deep, 32 negations each");
    m = begin(WIDE, ROWS - 100);
    deepest_counting(&m);
    run_case("counting steps nested 7 deep, below 224 nots");
    m = begin(WIDE, ROWS - 100);
    deepest(&m);
    run_case("existence nested 8 deep, 222 nots in the last");
}

/* ---- attributes ---- */

/* one element with as many attributes as fit, each of another name; the names go on from one in steps */
static void all_attributes(uint32_t first, uint32_t stride)
{
    memset(in.table, 0, sizeof in.table);
    in.table[3] = ROWS - 1;
    for (uint32_t i = 1; i < ROWS; i++) {
        uint32_t numbers[4] = {5, 1 + (first + i * stride) % 65535, 1, 0};
        memcpy(in.table + 4 * i, numbers, sizeof numbers);
    }
    uint32_t element[4] = {1, 1, 0, ROWS - 2};
    memcpy(in.table + 4, element, sizeof element);
    in.table_len = 4 * ROWS;
}

/* runs a case on a table whose answer is known */
static void run_known(const char *what, uint32_t number, uint32_t place)
{
    uint32_t found;
    run_case(what);
    if (bt_check_table(in.table, in.table_len, &found) == number && found == place)
        return;
    printf("DIFFERENT  the table's number is not %u or its place not %u\n", number, place);
    differences++;
}

/* gives a row the name of another one */
static void repeat_name(uint32_t row, uint32_t other)
{
    in.table[4 * row + 1] = in.table[4 * other + 1];
}

static void run_many_attributes(void)
{
    static const uint32_t strides[] = {1, 65534, 32767, 4096}; /* no factor in common with 65,535 */
    for (int i = 0; i < 4; i++) {
        all_attributes(65535 - 100, strides[i]);
        struct maker m = begin_path(1);
        many_steps(&m, 3, 11, 2);
        run_known("8,190 attributes, to them, back and to them", 0, ROWS);
        repeat_name(ROWS - 1, 2);
        run_known("8,190 attributes, last name as the first", 2, ROWS - 1);
        repeat_name(ROWS - 1, ROWS - 2);
        run_known("8,190 attributes, last name as the one before", 2, ROWS - 1);
        repeat_name(ROWS / 2, ROWS / 2 - 1);
        run_known("8,190 attributes, one name twice in the middle", 2, ROWS / 2);
    }
}

/* three steps from the root, each to all nodes of an axis */
static void run_axes(const char *what, enum shape shape, uint32_t first, uint32_t second, uint32_t third)
{
    char text[64];
    struct maker m = begin_with(shape, 0, 60);
    uint32_t step = row(&m, 24, row(&m, 24, 0, 0, first, 0), 0, second, 0);
    finish(&m, row(&m, 24, step, 0, third, 0));
    snprintf(text, sizeof text, "%s, axes %u, %u, %u", what, first, second, third);
    run_case(text);
}

static void run_attributes(void)
{
    run_many_attributes();
    all_attributes(0, 1);
    struct maker m = begin_path(ROWS - 1);
    many_predicates(&m, 6, 2);
    run_case("[position()] chained, from the last of them up");
    all_attributes(0, 1);
    m = begin_path(1);
    many_predicates(&m, 11, 3);
    run_case("[last()] chained, attribute");
    m = begin_with(BUSHY, ROWS - 100, 60);
    nested_attributes(&m);
    run_case("existence nested 8 deep, attribute and parent");
    for (uint32_t axis = 0; axis <= 11; axis++) {
        enum shape shape = (enum shape)(axis % SHAPES);
        run_axes("from all attributes", shape, 3, 11, axis);
        run_axes("from all children of all nodes", shape, 5, 1, axis);
        run_axes("attributes of what is there", shape, 3, axis, 11);
    }
}

/* ---- table files ---- */

enum { LONG = 1000000 };

static uint8_t file[FILE_BYTES(ROWS) + LONG];

struct file_answers {
    uint32_t read, write;
    uint64_t read_place, write_place;
    uint32_t numbers[4 * ROWS];
    uint8_t bytes[FILE_BYTES(ROWS)];
};

struct file_job { size_t file_len; struct file_answers *answers; };

static void *run_archive_on_file(void *argument)
{
    struct file_job *job = argument;
    struct file_answers *a = job->answers;
    a->read = bt_read_table(file, job->file_len, a->numbers, 4 * ROWS, &a->read_place);
    a->write = bt_write_table(in.table, in.table_len, a->bytes, sizeof a->bytes, &a->write_place);
    return NULL;
}

/* reads the file, which is the table's or is bad, and writes the table */
static void run_file_case(const char *what, size_t file_len)
{
    static struct file_answers expected, found;
    struct file_job job = {file_len, &found};
    memset(&expected, 0, sizeof expected);
    memset(&found, 0, sizeof found);
    expected.read = ref_read_table(file, file_len, expected.numbers, 4 * ROWS, &expected.read_place);
    expected.write = ref_write_table(in.table, in.table_len, expected.bytes, sizeof expected.bytes,
                                     &expected.write_place);
    size_t used = on_small_stack(run_archive_on_file, &job);
    bool same = memcmp(&expected, &found, sizeof found) == 0;
    if (found.read == 0 && memcmp(found.numbers, in.table, sizeof found.numbers) != 0)
        same = false;
    printf("%s  %-48s %7lu bytes, read %u/%lu, write %u/%lu, stack %lu KiB\n", same ? "same" : "DIFFERENT", what,
           (unsigned long)file_len, found.read, (unsigned long)found.read_place, found.write,
           (unsigned long)found.write_place, (unsigned long)(used / 1024));
    note(what, same, used);
}

/* a random table of that shape and its file; gives back the file's length */
static size_t random_file(enum shape shape)
{
    begin(shape, 0);
    return file_of_rows(in.table, ROWS, file);
}

/* a chain of elements with the longest names: no accepted table has a longer file */
static size_t longest_file(void)
{
    for (uint32_t i = 0; i < ROWS; i++) {
        uint32_t numbers[4] = {1, 65535, i - 1, ROWS - 1 - i};
        memcpy(in.table + 4 * i, numbers, sizeof numbers);
    }
    memset(in.table, 0, 3 * sizeof *in.table); /* the root's kind, name and parent */
    in.table_len = 4 * ROWS;
    return file_of_rows(in.table, ROWS, file);
}

/* attributes with names that need the room for all names of the checker, which the reader asks */
static size_t attributes_file(void)
{
    all_attributes(65535 - 100, 1);
    return file_of_rows(in.table, ROWS, file);
}

/* gives the rows from one on the largest numbers */
static void run_largest_numbers(const char *what, uint32_t first)
{
    begin(MIXED, 0);
    for (uint32_t i = 4 * first; i < 4 * ROWS; i++)
        in.table[i] = UINT32_MAX;
    run_file_case(what, file_of_rows(in.table, ROWS, file));
}

/* the first bytes of the file, then a million of one kind and a line feed */
static void run_long(const char *what, size_t kept, char byte)
{
    memset(file + kept, byte, LONG);
    file[kept + LONG] = '\n';
    run_file_case(what, kept + LONG + 1);
}

static void run_long_behind(const char *what, const char *text, char byte)
{
    memcpy(file, text, strlen(text));
    run_long(what, strlen(text), byte);
}

static void run_files(void)
{
    run_file_case("file of a wide table, written and read back", random_file(WIDE));
    run_file_case("file of a bushy table, written and read back", random_file(BUSHY));
    run_file_case("file of 8,190 attributes, written and read back", attributes_file());
    run_largest_numbers("file with the largest numbers in every row", 0);
    run_largest_numbers("file with the largest numbers in the last row", ROWS - 1);
    run_file_case("the longest file, written and read back", longest_file());
    run_long("a million line feeds behind the longest file", longest_file(), '\n');
    run_long("a million digits in the longest file's last line", longest_file() - 1, '0');
    run_long("a million letters", 0, 'e');
    run_long("a million line feeds", 0, '\n');
    run_long("a million digits", 0, '1');
    run_long_behind("a million digits of the edition", "edition=1", '0');
    run_long_behind("a million digits of nodes", "edition=1\nnodes=1", '0');
    run_long_behind("a million digits of a kind", "edition=1\nnodes=8192\nkind=1", '0');
    run_long_behind("a million zeros of a kind", "edition=1\nnodes=8192\nkind=", '0');
}

int stress(void)
{
    run_steps();
    run_predicates();
    run_operands();
    run_truths();
    run_nested();
    run_attributes();
    run_files();
    printf("stress: %d different; most stack used %lu KiB of 1,024, by: %s\n", differences,
           (unsigned long)(most / 1024), most_case);
    return differences != 0;
}
