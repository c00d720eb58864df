/* reference.c: the independent checker and evaluator that reference.h declares.
 *
 * Order of the file: tables, the linked tree, paths as rows, paths as syntax
 * trees, axes, expressions, steps, turning, the view. Section numbers are
 * those of the XPath 1.0 Recommendation.
 */
#include "reference.h"

#include <math.h>
#include <stdbool.h>
#include <stdlib.h>
#include <string.h>

enum { MAX_NODES = 8192, MAX_ROWS = 256, MAX_LITERALS = 64, MAX_DEPTH = 8 };

/* ---- tables ---- */

enum { ROOT, ELEMENT, TEXT, COMMENT, INSTRUCTION, ATTRIBUTE };

struct row { uint32_t kind, name, parent, size; };

static struct row row_at(const uint32_t *table, uint64_t i)
{
    struct row row = {table[4 * i], table[4 * i + 1], table[4 * i + 2], table[4 * i + 3]};
    return row;
}

/* the last row that belongs to row i's subtree, by its stored size */
static uint64_t reach_of(const uint32_t *table, uint64_t i)
{
    return i + (uint64_t)row_at(table, i).size;
}

static bool some_element(const uint32_t *table, uint64_t rows)
{
    for (uint64_t i = 0; i < rows; i++)
        if (row_at(table, i).kind == ELEMENT)
            return true;
    return false;
}

static bool root_row_holds(const uint32_t *table, uint64_t rows)
{
    struct row row = row_at(table, 0);
    if (!some_element(table, rows))
        return false;
    return row.kind == ROOT && row.name == 0 && row.parent == 0 && row.size == rows - 1;
}

static bool name_holds(struct row row)
{
    if (row.kind == ELEMENT || row.kind == INSTRUCTION || row.kind == ATTRIBUTE)
        return row.name >= 1 && row.name <= 65535;
    return row.name == 0;
}

/* the stored parent is the nearest earlier row that reaches i, and holds all of i */
static bool parent_holds(const uint32_t *table, uint64_t i)
{
    uint64_t j = i;
    while (j > 0) {
        j--;
        if (reach_of(table, j) >= i)
            return row_at(table, i).parent == j && reach_of(table, i) <= reach_of(table, j);
    }
    return false;
}

/* whether an earlier row than i is an element child of the root */
static bool earlier_root_element(const uint32_t *table, uint64_t i)
{
    for (uint64_t j = 1; j < i; j++)
        if (row_at(table, j).kind == ELEMENT && row_at(table, j).parent == 0)
            return true;
    return false;
}

/* the nearest lower row with the same parent, or 0: row 0 and attributes are nobody's siblings */
static uint64_t previous_sibling(const uint32_t *table, uint64_t i)
{
    uint64_t j = i - 1;
    while (j > 0 && (row_at(table, j).kind == ATTRIBUTE || row_at(table, j).parent != row_at(table, i).parent))
        j--;
    return j;
}

/* the root has one element child and no text child; no text stands next to a text sibling */
static bool siblings_hold(const uint32_t *table, uint64_t i)
{
    struct row row = row_at(table, i);
    if (row.kind == TEXT)
        return row.parent != 0 && row_at(table, previous_sibling(table, i)).kind != TEXT;
    return row.kind != ELEMENT || row.parent != 0 || !earlier_root_element(table, i);
}

/* whether attribute row i stands straight behind its element or behind another attribute of it */
static bool stands_with_attributes(const uint32_t *table, uint64_t i)
{
    struct row row = row_at(table, i), before = row_at(table, i - 1);
    if (before.kind == ATTRIBUTE)
        return before.parent == row.parent;
    return before.kind == ELEMENT && row.parent == i - 1;
}

/* whether an earlier attribute of the same element has the name of attribute row i */
static bool name_repeated(const uint32_t *table, uint64_t i)
{
    struct row row = row_at(table, i);
    for (uint64_t j = 1; j < i; j++) {
        struct row other = row_at(table, j);
        if (other.kind == ATTRIBUTE && other.parent == row.parent && other.name == row.name)
            return true;
    }
    return false;
}

static bool attributes_hold(const uint32_t *table, uint64_t i)
{
    return row_at(table, i).kind != ATTRIBUTE || (stands_with_attributes(table, i) && !name_repeated(table, i));
}

static bool other_row_holds(const uint32_t *table, uint64_t i)
{
    struct row row = row_at(table, i);
    if (row.kind < ELEMENT || row.kind > ATTRIBUTE)
        return false;
    if (row.kind != ELEMENT && row.size != 0)
        return false;
    return name_holds(row) && parent_holds(table, i) && siblings_hold(table, i) && attributes_hold(table, i);
}

/* number 2 with the lowest broken row, or 0 with the row count */
static uint32_t check_each_row(const uint32_t *table, uint64_t rows, uint32_t *place)
{
    for (uint64_t i = 0; i < rows; i++) {
        *place = (uint32_t)i;
        if (i == 0 ? !root_row_holds(table, rows) : !other_row_holds(table, i))
            return 2;
    }
    *place = (uint32_t)rows;
    return 0;
}

/* the last table and its answer are kept: one is asked for many times, and its check takes a square of the rows */
uint32_t ref_check_table(const uint32_t *table, size_t table_len, uint32_t *place)
{
    static uint32_t kept[4 * MAX_NODES], kept_number, kept_place;
    static size_t kept_len;
    uint64_t rows = table_len / 4;
    *place = 0;
    if (table_len % 4 != 0 || rows < 1 || rows > MAX_NODES)
        return 1;
    if (table_len != kept_len || memcmp(table, kept, table_len * sizeof *table) != 0) {
        memcpy(kept, table, table_len * sizeof *table);
        kept_len = table_len;
        kept_number = check_each_row(table, rows, &kept_place);
    }
    *place = kept_place;
    return kept_number;
}

/* ---- the linked tree (section 5, Data Model) ---- */

/* an attribute has a parent but is no child of it (5.3): it hangs in a list of its own */
struct node {
    uint32_t kind, name;
    uint32_t order, last_order; /* place in document order, its own and that of the last node below it */
    struct node *parent, *first, *last, *next, *previous;
    struct node *attribute; /* of an element its first attribute, of an attribute the next one */
};

static void append_child(struct node *parent, struct node *child)
{
    child->parent = parent;
    child->previous = parent->last;
    if (parent->last)
        parent->last->next = child;
    else
        parent->first = child;
    parent->last = child;
}

/* before is the element itself or its attribute so far last */
static void append_attribute(struct node *element, struct node *before, struct node *attribute)
{
    attribute->parent = element;
    before->attribute = attribute;
}

/* one node for each row of an accepted table, in document order */
static struct node *plant(const uint32_t *table, uint32_t rows)
{
    struct node *nodes = calloc(rows, sizeof *nodes);
    for (uint32_t i = 0; i < rows; i++) {
        struct row row = row_at(table, i);
        nodes[i].kind = row.kind;
        nodes[i].name = row.name;
        nodes[i].order = nodes[i].last_order = i;
        if (row.kind == ATTRIBUTE)
            append_attribute(&nodes[row.parent], &nodes[i - 1], &nodes[i]);
        else if (i > 0)
            append_child(&nodes[row.parent], &nodes[i]);
    }
    for (uint32_t i = rows - 1; i > 0; i--)
        if (nodes[i].parent->last_order < nodes[i].last_order)
            nodes[i].parent->last_order = nodes[i].last_order;
    return nodes;
}

/* the next node in document order that lies inside top, or none */
static struct node *next_inside(struct node *node, struct node *top)
{
    if (node->first)
        return node->first;
    while (node != top && !node->next)
        node = node->parent;
    return node == top ? NULL : node->next;
}

/* the first node that is no attribute behind the whole subtree of node in document order, or none: behind an
 * attribute come the children of its element */
static struct node *next_outside(struct node *node)
{
    if (node->kind == ATTRIBUTE && node->parent->first)
        return node->parent->first;
    while (node && !node->next)
        node = node->parent;
    return node ? node->next : NULL;
}

/* the nearest node that is no attribute in front of node in document order, or none */
static struct node *previous_in_document(struct node *node)
{
    if (!node->previous)
        return node->parent;
    node = node->previous;
    while (node->last)
        node = node->last;
    return node;
}

static bool is_ancestor(const struct node *above, const struct node *node)
{
    return above->order < node->order && node->order <= above->last_order;
}

/* ---- paths as rows ---- */

enum op {
    LITERAL = 1, POSITION, LAST, ADD, SUBTRACT, MULTIPLY, DIVIDE, MODULO, NEGATE,
    EQUAL, UNEQUAL, LESS, LESS_EQUAL, GREATER, GREATER_EQUAL, AND, OR, NOT, TRUTH,
    EXISTS, COUNT, RELATIVE, ABSOLUTE, STEP, PREDICATE
};

/* what a field of a row holds; the last four may be given with MAYBE */
enum field { NOTHING, INDEX, AXIS, TEST, A_NUMBER, A_TRUTH, A_PATH, A_STEP, A_PREDICATE, A_VALUE, MAYBE = 16 };

struct line { uint32_t op, field[4]; };

static struct line line_at(const uint32_t *path, uint32_t r)
{
    struct line line = {path[5 * r], {path[5 * r + 1], path[5 * r + 2], path[5 * r + 3], path[5 * r + 4]}};
    return line;
}

static bool known(uint32_t op)
{
    return op >= LITERAL && op <= PREDICATE;
}

static bool is_number_op(uint32_t op)
{
    return (op >= LITERAL && op <= NEGATE) || op == COUNT;
}

static bool is_truth_op(uint32_t op)
{
    return op >= EQUAL && op <= EXISTS;
}

/* what field f (0 to 3 for a to d) of a row with a known op holds */
static int holds(uint32_t op, int f)
{
    static const uint8_t forms[PREDICATE + 1][4] = {
        [LITERAL] = {INDEX},
        [ADD] = {A_NUMBER, A_NUMBER}, [SUBTRACT] = {A_NUMBER, A_NUMBER},
        [MULTIPLY] = {A_NUMBER, A_NUMBER}, [DIVIDE] = {A_NUMBER, A_NUMBER},
        [MODULO] = {A_NUMBER, A_NUMBER}, [NEGATE] = {A_NUMBER},
        [EQUAL] = {A_NUMBER, A_NUMBER}, [UNEQUAL] = {A_NUMBER, A_NUMBER},
        [LESS] = {A_NUMBER, A_NUMBER}, [LESS_EQUAL] = {A_NUMBER, A_NUMBER},
        [GREATER] = {A_NUMBER, A_NUMBER}, [GREATER_EQUAL] = {A_NUMBER, A_NUMBER},
        [AND] = {A_TRUTH, A_TRUTH}, [OR] = {A_TRUTH, A_TRUTH},
        [NOT] = {A_TRUTH}, [TRUTH] = {A_NUMBER},
        [EXISTS] = {A_PATH}, [COUNT] = {A_PATH},
        [RELATIVE] = {A_STEP}, [ABSOLUTE] = {A_STEP | MAYBE},
        [STEP] = {A_STEP | MAYBE, A_PREDICATE | MAYBE, AXIS, TEST},
        [PREDICATE] = {A_PREDICATE | MAYBE, A_VALUE},
    };
    return forms[op][f];
}

/* the row that field f of row r links, or -1: any value in 1..r links */
static int linked_row(const uint32_t *path, uint32_t r, int f)
{
    struct line line = line_at(path, r);
    if (!known(line.op) || (holds(line.op, f) & ~MAYBE) < A_NUMBER)
        return -1;
    if (line.field[f] < 1 || line.field[f] > r)
        return -1;
    return (int)line.field[f] - 1;
}

static bool sort_fits(int form, uint32_t op)
{
    switch (form & ~MAYBE) {
    case A_NUMBER: return is_number_op(op);
    case A_TRUTH: return is_truth_op(op);
    case A_VALUE: return is_number_op(op) || is_truth_op(op);
    case A_PATH: return op == RELATIVE || op == ABSOLUTE;
    case A_STEP: return op == STEP;
    default: return op == PREDICATE;
    }
}

static bool test_allowed(uint32_t test)
{
    return test <= 4 || (test >= 16 + 1 && test <= 16 + 65535);
}

/* whether field f of row r (of a known op) is as its form asks */
static bool field_fits(const uint32_t *path, uint32_t r, int f, size_t literals)
{
    struct line line = line_at(path, r);
    uint32_t value = line.field[f];
    int form = holds(line.op, f);
    switch (form) {
    case NOTHING: return value == 0;
    case INDEX: return value < literals;
    case AXIS: return value <= 11;
    case TEST: return test_allowed(value);
    }
    if (value == 0)
        return (form & MAYBE) != 0;
    int target = linked_row(path, r, f);
    return target >= 0 && sort_fits(form, line_at(path, (uint32_t)target).op);
}

/* the row that each field of each row links, or -1 */
struct links { int to[MAX_ROWS][4]; };

static void find_links(const uint32_t *path, uint32_t rows, struct links *links)
{
    for (uint32_t r = 0; r < rows; r++)
        for (int f = 0; f < 4; f++)
            links->to[r][f] = linked_row(path, r, f);
}

/* whether a lower row, or an earlier field of row r, links what field f of row r links */
static bool linked_before(const struct links *links, uint32_t r, int f)
{
    int target = links->to[r][f];
    if (target < 0)
        return false;
    for (uint32_t q = 0; q <= r; q++)
        for (int g = 0; g < (q == r ? f : 4); g++)
            if (links->to[q][g] == target)
                return true;
    return false;
}

static bool linked_somewhere(const struct links *links, uint32_t rows, uint32_t r)
{
    for (uint32_t q = 0; q < rows; q++)
        for (int f = 0; f < 4; f++)
            if (links->to[q][f] == (int)r)
                return true;
    return false;
}

static bool path_row_holds(const uint32_t *path, const struct links *links,
                           uint32_t rows, uint32_t r, size_t literals)
{
    uint32_t op = line_at(path, r).op;
    if (!known(op))
        return false;
    for (int f = 0; f < 4; f++)
        if (!field_fits(path, r, f, literals) || linked_before(links, r, f))
            return false;
    if (r == rows - 1)
        return op == RELATIVE || op == ABSOLUTE;
    return linked_somewhere(links, rows, r);
}

static bool literal_allowed(double literal)
{
    uint64_t bits;
    memcpy(&bits, &literal, sizeof bits);
    return bits < 0x7FF0000000000000u;
}

/* numbers 3 to 5; the rest needs the syntax tree */
static uint32_t check_rows(const uint32_t *path, size_t path_len,
                           const double *literals, size_t literals_len, uint32_t *place)
{
    struct links links;
    size_t rows = path_len / 5;
    *place = 0;
    if (path_len % 5 != 0 || rows < 1 || rows > MAX_ROWS)
        return 3;
    for (size_t i = 0; i < literals_len && i <= MAX_LITERALS; i++) {
        *place = (uint32_t)i;
        if (i == MAX_LITERALS || !literal_allowed(literals[i]))
            return 4;
    }
    find_links(path, (uint32_t)rows, &links);
    for (uint32_t r = 0; r < rows; r++) {
        *place = r;
        if (!path_row_holds(path, &links, (uint32_t)rows, r, literals_len))
            return 5;
    }
    *place = (uint32_t)rows;
    return 0;
}

/* ---- paths as syntax trees (sections 2 and 3) ---- */

struct path;

struct expression {
    uint32_t op, index;
    struct expression *left, *right;
    struct path *path;
};

struct predicate { struct expression *expression; struct predicate *next; };

struct step { uint32_t axis, test; struct predicate *predicates; struct step *next, *previous; };

struct path { bool absolute; struct step *first, *last; };

/* where the parts of one syntax tree live: each row makes at most one of each */
struct syntax {
    const uint32_t *rows;
    struct expression expressions[MAX_ROWS];
    struct predicate predicates[MAX_ROWS + 1];
    struct step steps[MAX_ROWS + 1];
    struct path paths[MAX_ROWS + 1];
};

static struct path *read_path(struct syntax *syntax, uint32_t link);

static struct expression *read_expression(struct syntax *syntax, uint32_t link)
{
    struct line line = line_at(syntax->rows, link - 1);
    struct expression *expression = &syntax->expressions[link - 1];
    expression->op = line.op;
    if (line.op == LITERAL)
        expression->index = line.field[0];
    else if (line.op == EXISTS || line.op == COUNT)
        expression->path = read_path(syntax, line.field[0]);
    else if (line.field[0] != 0)
        expression->left = read_expression(syntax, line.field[0]);
    if (line.field[1] != 0)
        expression->right = read_expression(syntax, line.field[1]);
    return expression;
}

/* the predicates of a step, first one first; rows link them last one first */
static struct predicate *read_predicates(struct syntax *syntax, uint32_t link)
{
    struct predicate *first = NULL;
    while (link != 0) {
        struct line line = line_at(syntax->rows, link - 1);
        struct predicate *predicate = &syntax->predicates[link - 1];
        predicate->expression = read_expression(syntax, line.field[1]);
        predicate->next = first;
        first = predicate;
        link = line.field[0];
    }
    return first;
}

static struct path *read_path(struct syntax *syntax, uint32_t link)
{
    struct line line = line_at(syntax->rows, link - 1);
    struct path *path = &syntax->paths[link - 1];
    struct step *later = NULL;
    path->absolute = line.op == ABSOLUTE;
    for (link = line.field[0]; link != 0; link = line.field[0]) {
        line = line_at(syntax->rows, link - 1);
        struct step *step = &syntax->steps[link - 1];
        step->axis = line.field[2];
        step->test = line.field[3];
        step->predicates = read_predicates(syntax, line.field[1]);
        step->next = later;
        if (later)
            later->previous = step;
        else
            path->last = step;
        later = step;
    }
    path->first = later;
    return path;
}

static struct syntax *parse(const uint32_t *rows, size_t count, struct path **top)
{
    struct syntax *syntax = calloc(1, sizeof *syntax);
    syntax->rows = rows;
    *top = read_path(syntax, (uint32_t)count);
    return syntax;
}

static int greater(int a, int b)
{
    return a > b ? a : b;
}

static int path_depth(const struct path *path);

/* how many paths stand inside each other in an expression */
static int expression_depth(const struct expression *expression)
{
    if (!expression)
        return 0;
    if (expression->path)
        return path_depth(expression->path);
    return greater(expression_depth(expression->left), expression_depth(expression->right));
}

static int path_depth(const struct path *path)
{
    int deepest = 0;
    for (const struct step *step = path->first; step; step = step->next)
        for (const struct predicate *p = step->predicates; p; p = p->next)
            deepest = greater(deepest, expression_depth(p->expression));
    return 1 + deepest;
}

/* numbers 3 to 6; on 0 the syntax tree is handed over */
static uint32_t accept(const uint32_t *rows, size_t len, const double *literals, size_t literals_len,
                       uint32_t *place, struct syntax **syntax, struct path **top)
{
    uint32_t number = check_rows(rows, len, literals, literals_len, place);
    if (number != 0)
        return number;
    *syntax = parse(rows, len / 5, top);
    if (path_depth(*top) <= MAX_DEPTH)
        return 0;
    free(*syntax);
    *place = 0;
    return 6;
}

uint32_t ref_check_path(const uint32_t *path, size_t path_len,
                        const double *literals, size_t literals_len, uint32_t *place)
{
    struct syntax *syntax;
    struct path *top;
    uint32_t number = accept(path, path_len, literals, literals_len, place, &syntax, &top);
    if (number == 0)
        free(syntax);
    return number;
}

/* ---- axes and node tests (sections 2.2 and 2.3) ---- */

enum {
    SELF, CHILD, PARENT, DESCENDANT, ANCESTOR, DESCENDANT_OR_SELF, ANCESTOR_OR_SELF,
    FOLLOWING, PRECEDING, FOLLOWING_SIBLING, PRECEDING_SIBLING, ATTRIBUTE_AXIS
};

static struct node *next_preceding(struct node *node, const struct node *context)
{
    do
        node = previous_in_document(node);
    while (node && is_ancestor(node, context));
    return node;
}

/* the first node of an axis, in the order that positions count */
static struct node *axis_first(uint32_t axis, struct node *context)
{
    switch (axis) {
    case CHILD: case DESCENDANT: return context->first;
    case PARENT: case ANCESTOR: return context->parent;
    case FOLLOWING: return next_outside(context);
    case PRECEDING: return next_preceding(context, context);
    case FOLLOWING_SIBLING: return context->next;
    case PRECEDING_SIBLING: return context->previous;
    case ATTRIBUTE_AXIS: return context->kind == ELEMENT ? context->attribute : NULL;
    default: return context;
    }
}

/* the node that follows another one on the axis of context */
static struct node *axis_next(uint32_t axis, struct node *node, struct node *context)
{
    switch (axis) {
    case CHILD: case FOLLOWING_SIBLING: return node->next;
    case DESCENDANT: case DESCENDANT_OR_SELF: return next_inside(node, context);
    case ANCESTOR: case ANCESTOR_OR_SELF: return node->parent;
    case FOLLOWING: return node->first ? node->first : next_outside(node);
    case PRECEDING: return next_preceding(node, context);
    case PRECEDING_SIBLING: return node->previous;
    case ATTRIBUTE_AXIS: return node->attribute;
    default: return NULL;
    }
}

/* section 2.3: the principal node type of an axis, which * of edition 2 and names ask for */
static uint32_t principal_kind(uint32_t axis)
{
    return axis == ATTRIBUTE_AXIS ? ATTRIBUTE : ELEMENT;
}

/* in edition 1 * matches any node, in edition 2 it is as the Recommendation has it */
static bool passes_star(uint32_t edition, uint32_t axis, const struct node *node)
{
    return edition == 1 || node->kind == principal_kind(axis);
}

static bool passes(uint32_t edition, uint32_t axis, uint32_t test, const struct node *node)
{
    switch (test) {
    case 0: return true;
    case 1: return passes_star(edition, axis, node);
    case 2: return node->kind == TEXT;
    case 3: return node->kind == COMMENT;
    case 4: return node->kind == INSTRUCTION;
    default: return node->kind == principal_kind(axis) && node->name == test - 16;
    }
}

uint32_t ref_axis_place(const uint32_t *table, size_t table_len, uint32_t axis, uint32_t x, uint32_t y)
{
    uint32_t rows, place = 1;
    if (ref_check_table(table, table_len, &rows) != 0 || axis > ATTRIBUTE_AXIS || x >= rows || y >= rows)
        return 0;
    struct node *nodes = plant(table, rows);
    struct node *node = axis_first(axis, &nodes[x]);
    for (; node && node != &nodes[y]; place++)
        node = axis_next(axis, node, &nodes[x]);
    if (!node)
        place = 0;
    free(nodes);
    return place;
}

/* ---- expressions (section 3) ---- */

struct run {
    uint32_t edition;
    struct node *nodes;
    uint32_t count;
    const double *literals;
    uint64_t work, work_limit;
};

struct context { struct node *node; double position, size; };

/* a node set: one flag a node, by document order */
typedef uint8_t *node_set;

static bool too_long(const struct run *run)
{
    return run->work > run->work_limit;
}

static node_set select_path(struct run *run, const struct path *path, struct node *from);
static bool truth(struct run *run, const struct expression *e, struct context context);

static uint32_t count_path(struct run *run, const struct path *path, struct node *from)
{
    uint32_t total = 0;
    node_set set = select_path(run, path, from);
    for (uint32_t i = 0; i < run->count; i++)
        total += set[i];
    free(set);
    return total;
}

static double number(struct run *run, const struct expression *e, struct context context)
{
    switch (e->op) {
    case LITERAL: return run->literals[e->index];
    case POSITION: return context.position;
    case LAST: return context.size;
    case NEGATE: return -number(run, e->left, context);
    case COUNT: return count_path(run, e->path, context.node);
    }
    double left = number(run, e->left, context);
    double right = number(run, e->right, context);
    switch (e->op) {
    case ADD: return left + right;
    case SUBTRACT: return left - right;
    case MULTIPLY: return left * right;
    case DIVIDE: return left / right;
    default: return fmod(left, right);
    }
}

static bool compared(struct run *run, const struct expression *e, struct context context)
{
    double left = number(run, e->left, context);
    double right = number(run, e->right, context);
    switch (e->op) {
    case EQUAL: return left == right;
    case UNEQUAL: return left != right;
    case LESS: return left < right;
    case LESS_EQUAL: return left <= right;
    case GREATER: return left > right;
    default: return left >= right;
    }
}

static bool truth_of_number(double value)
{
    return value == value && value != 0;
}

static bool truth(struct run *run, const struct expression *e, struct context context)
{
    switch (e->op) {
    case AND: return truth(run, e->left, context) && truth(run, e->right, context);
    case OR: return truth(run, e->left, context) || truth(run, e->right, context);
    case NOT: return !truth(run, e->left, context);
    case TRUTH: return truth_of_number(number(run, e->left, context));
    case EXISTS: return count_path(run, e->path, context.node) > 0;
    default: return compared(run, e, context);
    }
}

/* section 2.4: a number is compared with the position, anything else is a truth */
static bool predicate_keeps(struct run *run, const struct expression *e, struct context context)
{
    if (is_number_op(e->op))
        return number(run, e, context) == context.position;
    return truth(run, e, context);
}

/* ---- steps and paths (sections 2 and 2.1) ---- */

static uint32_t candidates(uint32_t edition, uint32_t axis, uint32_t test, struct node *context,
                           struct node **list)
{
    uint32_t count = 0;
    struct node *node = axis_first(axis, context);
    for (; node; node = axis_next(axis, node, context))
        if (passes(edition, axis, test, node))
            list[count++] = node;
    return count;
}

static uint32_t filter(struct run *run, const struct expression *e, struct node **list, uint32_t count)
{
    uint32_t kept = 0;
    for (uint32_t i = 0; i < count && !too_long(run); i++) {
        struct context context = {list[i], i + 1, count};
        if (predicate_keeps(run, e, context))
            list[kept++] = list[i];
    }
    return kept;
}

/* adds what one step selects from one node to a set */
static void take_step(struct run *run, const struct step *step, struct node *from,
                      struct node **list, node_set set)
{
    run->work += run->count;
    if (too_long(run))
        return;
    uint32_t count = candidates(run->edition, step->axis, step->test, from, list);
    for (const struct predicate *p = step->predicates; p; p = p->next)
        count = filter(run, p->expression, list, count);
    for (uint32_t i = 0; i < count; i++)
        set[list[i]->order] = 1;
}

static node_set select_path(struct run *run, const struct path *path, struct node *from)
{
    node_set set = calloc(run->count, 1);
    struct node **list = malloc(run->count * sizeof *list);
    set[path->absolute ? 0 : from->order] = 1;
    run->work += run->count;
    for (const struct step *step = path->first; step && !too_long(run); step = step->next) {
        node_set next = calloc(run->count, 1);
        for (uint32_t i = 0; i < run->count; i++)
            if (set[i])
                take_step(run, step, &run->nodes[i], list, next);
        free(set);
        set = next;
    }
    free(list);
    return set;
}

/* writes the set if there is room: numbers 0 and 8 */
static uint32_t give(node_set set, uint32_t nodes, uint32_t *out, size_t out_len, uint32_t *place)
{
    uint32_t count = 0;
    for (uint32_t i = 0; i < nodes; i++)
        count += set[i];
    *place = count;
    if (count > out_len)
        return 8;
    for (uint32_t i = 0; i < nodes; i++)
        if (set[i])
            *out++ = i;
    return 0;
}

/* evaluates an accepted path on an accepted table from a node of it */
static uint32_t run_path(struct run *run, const struct path *path, uint32_t start,
                         uint32_t *out, size_t out_len, uint32_t *place)
{
    node_set set = select_path(run, path, &run->nodes[start]);
    uint32_t number = REF_TOO_LONG;
    if (!too_long(run))
        number = give(set, run->count, out, out_len, place);
    free(set);
    return number;
}

uint32_t ref_evaluate(uint32_t edition,
                      const uint32_t *table, size_t table_len,
                      const uint32_t *path, size_t path_len,
                      const double *literals, size_t literals_len,
                      uint32_t start, uint32_t *out, size_t out_len,
                      uint32_t *place, uint64_t work_limit)
{
    struct syntax *syntax;
    struct path *top;
    struct run run = {edition, NULL, (uint32_t)(table_len / 4), literals, 0, work_limit};
    *place = edition;
    if (edition != 1 && edition != 2)
        return 14;
    uint32_t number = ref_check_table(table, table_len, place);
    if (number == 0)
        number = accept(path, path_len, literals, literals_len, place, &syntax, &top);
    if (number != 0)
        return number;
    if (start >= run.count) {
        *place = start;
        number = 7;
    } else {
        run.nodes = plant(table, run.count);
        number = run_path(&run, top, start, out, out_len, place);
        free(run.nodes);
    }
    free(syntax);
    return number;
}

/* ---- turning round ---- */

/* whether position() or last() stands in an expression outside of paths in it */
static bool asks_position(const struct expression *e)
{
    if (!e)
        return false;
    return e->op == POSITION || e->op == LAST || asks_position(e->left) || asks_position(e->right);
}

static bool step_counts(const struct step *step)
{
    for (const struct predicate *p = step->predicates; p; p = p->next)
        if (is_number_op(p->expression->op) || asks_position(p->expression))
            return true;
    return false;
}

/* the number from 1 of the first step that counts, or 0 */
static uint32_t first_counting(const struct path *path)
{
    uint32_t number = 1;
    for (const struct step *step = path->first; step; step = step->next, number++)
        if (step_counts(step))
            return number;
    return 0;
}

/* the number from 1 of the first step on the attribute axis, or 0 */
static uint32_t first_to_attributes(const struct path *path)
{
    uint32_t number = 1;
    for (const struct step *step = path->first; step; step = step->next, number++)
        if (step->axis == ATTRIBUTE_AXIS)
            return number;
    return 0;
}

/* of any axis but the attribute axis, which has none */
static uint32_t inverse(uint32_t axis)
{
    static const uint32_t other[ATTRIBUTE_AXIS] = {
        SELF, PARENT, CHILD, ANCESTOR, DESCENDANT, ANCESTOR_OR_SELF, DESCENDANT_OR_SELF,
        PRECEDING, FOLLOWING, PRECEDING_SIBLING, FOLLOWING_SIBLING
    };
    return other[axis];
}

/* rows written so far; each writer gives back the link to the row that it wrote */
struct writer { uint32_t *out; uint32_t rows; };

static uint32_t write_row(struct writer *w, uint32_t op, uint32_t a, uint32_t b, uint32_t c, uint32_t d)
{
    uint32_t row[5] = {op, a, b, c, d};
    memcpy(w->out + 5 * w->rows, row, sizeof row);
    return ++w->rows;
}

static uint32_t write_path(struct writer *w, const struct path *path);

static uint32_t write_expression(struct writer *w, const struct expression *e)
{
    uint32_t a = 0, b = 0;
    if (e->op == LITERAL)
        a = e->index;
    if (e->path)
        a = write_path(w, e->path);
    if (e->left)
        a = write_expression(w, e->left);
    if (e->right)
        b = write_expression(w, e->right);
    return write_row(w, e->op, a, b, 0, 0);
}

static uint32_t write_predicates(struct writer *w, const struct predicate *p)
{
    uint32_t previous = 0;
    for (; p; p = p->next) {
        uint32_t value = write_expression(w, p->expression);
        previous = write_row(w, PREDICATE, previous, value, 0, 0);
    }
    return previous;
}

static uint32_t write_path(struct writer *w, const struct path *path)
{
    uint32_t previous = 0;
    for (const struct step *step = path->first; step; step = step->next) {
        uint32_t predicates = write_predicates(w, step->predicates);
        previous = write_row(w, STEP, previous, predicates, step->axis, step->test);
    }
    return write_row(w, path->absolute ? ABSOLUTE : RELATIVE, previous, 0, 0, 0);
}

/* self::tk Pk, then the inverse of each axis with the test of the step before it */
static void write_turned(struct writer *w, const struct path *path)
{
    uint32_t axis = SELF, previous = 0;
    for (const struct step *step = path->last; step; step = step->previous) {
        uint32_t predicates = write_predicates(w, step->predicates);
        previous = write_row(w, STEP, previous, predicates, axis, step->test);
        axis = inverse(step->axis);
    }
    previous = write_row(w, STEP, previous, 0, axis, 0);
    write_row(w, RELATIVE, previous, 0, 0, 0);
}

/* numbers 9, 13, 10 and 11, in this order, and 0 with the rows written */
static uint32_t turn_accepted(const struct path *top, uint32_t rows,
                              uint32_t *out, size_t out_len, uint32_t *place)
{
    struct writer writer = {out, 0};
    *place = first_counting(top);
    if (*place != 0)
        return 9;
    *place = first_to_attributes(top);
    if (*place != 0)
        return 13;
    if (top->absolute)
        return 10;
    *place = rows + 1;
    if (rows + 1 > MAX_ROWS || out_len < 5 * ((size_t)rows + 1))
        return 11;
    write_turned(&writer, top);
    *place = writer.rows;
    return 0;
}

uint32_t ref_turn(const uint32_t *path, size_t path_len,
                  const double *literals, size_t literals_len,
                  uint32_t *out, size_t out_len, uint32_t *place)
{
    struct syntax *syntax;
    struct path *top;
    uint32_t number = accept(path, path_len, literals, literals_len, place, &syntax, &top);
    if (number != 0)
        return number;
    number = turn_accepted(top, (uint32_t)(path_len / 5), out, out_len, place);
    free(syntax);
    return number;
}

/* ---- the view ---- */

static bool list_holds(const uint32_t *list, size_t len, uint32_t rows)
{
    for (size_t i = 0; i < len; i++)
        if (list[i] >= rows || (i > 0 && list[i - 1] >= list[i]))
            return false;
    return true;
}

void ref_view(const uint32_t *table, size_t table_len,
              const uint32_t *list, size_t list_len,
              uint32_t node, size_t *begin, size_t *length)
{
    uint32_t rows;
    *begin = *length = 0;
    if (ref_check_table(table, table_len, &rows) != 0)
        return;
    if (node >= rows || !list_holds(list, list_len, rows))
        return;
    struct node *nodes = plant(table, rows);
    for (size_t i = 0; i < list_len; i++) {
        if (list[i] != node && !is_ancestor(&nodes[node], &nodes[list[i]]))
            continue;
        if (*length == 0)
            *begin = i;
        ++*length;
    }
    free(nodes);
}
