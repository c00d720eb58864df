/* rows.c: a recursive-descent reader of XPath text that writes rows.
 *
 * Each reader consumes its part of the text, writes the rows for it, operands
 * first, and gives back the link to its last row with the sort of its value.
 */
#include "rows.h"

#include <ctype.h>
#include <stdlib.h>
#include <string.h>

const char *const node_names[] = {"a", "b", "c", "limit", "floor", "set", "group", "ceiling", "unit", NULL};

enum sort { NUMBER, TRUTH, PATH };

struct value { uint32_t link; enum sort sort; };

struct reader { const char *at; struct rows *rows; bool failed; };

static uint32_t add(struct reader *r, uint32_t op, uint32_t a, uint32_t b, uint32_t c, uint32_t d)
{
    uint32_t row[5] = {op, a, b, c, d};
    if (r->rows->path_len + 5 > 5 * 256) {
        r->failed = true;
        return 1;
    }
    memcpy(r->rows->path + r->rows->path_len, row, sizeof row);
    r->rows->path_len += 5;
    return (uint32_t)(r->rows->path_len / 5);
}

/* takes a word or sign if it stands next; a word must end there */
static bool take(struct reader *r, const char *word)
{
    size_t len = strlen(word);
    while (*r->at == ' ')
        r->at++;
    if (strncmp(r->at, word, len) != 0)
        return false;
    if (isalpha((unsigned char)word[len - 1]) && (isalnum((unsigned char)r->at[len]) || r->at[len] == '-'))
        return false;
    r->at += len;
    return true;
}

static void need(struct reader *r, const char *word)
{
    if (!take(r, word))
        r->failed = true;
}

static struct value read_or(struct reader *r);
static struct value read_path(struct reader *r);

static uint32_t as_truth(struct reader *r, struct value v)
{
    if (v.sort == TRUTH)
        return v.link;
    return add(r, v.sort == NUMBER ? 19 : 20, v.link, 0, 0, 0);
}

static uint32_t as_number(struct reader *r, struct value v)
{
    if (v.sort != NUMBER)
        r->failed = true;
    return v.link;
}

/* ---- steps ---- */

static const char *const axis_names[] = {
    "self", "child", "parent", "descendant", "ancestor", "descendant-or-self", "ancestor-or-self",
    "following", "preceding", "following-sibling", "preceding-sibling", "attribute"
};

enum { AXES = sizeof axis_names / sizeof *axis_names, ATTRIBUTE_AXIS = AXES - 1 };

static uint32_t read_axis(struct reader *r)
{
    if (take(r, "@"))
        return ATTRIBUTE_AXIS;
    for (uint32_t axis = 0; axis < AXES; axis++) {
        const char *before = r->at;
        if (take(r, axis_names[axis]) && take(r, "::"))
            return axis;
        r->at = before;
    }
    return 1;
}

static uint32_t read_name(struct reader *r)
{
    for (uint32_t k = 0; node_names[k]; k++)
        if (take(r, node_names[k]))
            return 16 + k + 1;
    if (!isalpha((unsigned char)*r->at))
        r->failed = true;
    while (isalnum((unsigned char)*r->at))
        r->at++;
    return 16 + 65535;
}

static uint32_t read_test(struct reader *r)
{
    if (take(r, "node()"))
        return 0;
    if (take(r, "*"))
        return 1;
    if (take(r, "text()"))
        return 2;
    return take(r, "comment()") ? 3 : read_name(r);
}

/* one step after the link of the step before it */
static uint32_t read_step(struct reader *r, uint32_t previous)
{
    if (take(r, ".."))
        return add(r, 24, previous, 0, 2, 0);
    if (take(r, "."))
        return add(r, 24, previous, 0, 0, 0);
    uint32_t axis = read_axis(r), test = read_test(r), predicate = 0;
    while (!r->failed && take(r, "[")) {
        struct value value = read_or(r);
        uint32_t link = value.sort == PATH ? as_truth(r, value) : value.link;
        need(r, "]");
        predicate = add(r, 25, predicate, link, 0, 0);
    }
    return add(r, 24, previous, predicate, axis, test);
}

static struct value read_path(struct reader *r)
{
    uint32_t step = 0;
    bool absolute = false;
    struct value value = {0, PATH};
    if (take(r, "//")) {
        absolute = true;
        step = add(r, 24, 0, 0, 5, 0);
    } else {
        absolute = take(r, "/");
    }
    step = read_step(r, step);
    while (!r->failed) {
        if (take(r, "//"))
            step = add(r, 24, step, 0, 5, 0);
        else if (!take(r, "/"))
            break;
        step = read_step(r, step);
    }
    value.link = add(r, absolute ? 23 : 22, step, 0, 0, 0);
    return value;
}

/* ---- expressions ---- */

static struct value read_literal(struct reader *r)
{
    char *end;
    struct rows *rows = r->rows;
    rows->literals[rows->literals_len] = strtod(r->at, &end);
    r->at = end;
    struct value value = {add(r, 1, (uint32_t)rows->literals_len++, 0, 0, 0), NUMBER};
    return value;
}

static struct value read_call(struct reader *r, uint32_t op)
{
    struct value inner = op == 21 ? read_path(r) : read_or(r);
    need(r, ")");
    struct value value = {0, op == 21 ? NUMBER : TRUTH};
    if (op == 21)
        value.link = add(r, 21, inner.link, 0, 0, 0);
    else
        value.link = op == 18 ? add(r, 18, as_truth(r, inner), 0, 0, 0) : as_truth(r, inner);
    return value;
}

static struct value read_primary(struct reader *r)
{
    struct value value = {0, NUMBER};
    while (*r->at == ' ')
        r->at++;
    if (isdigit((unsigned char)*r->at))
        return read_literal(r);
    uint32_t op = take(r, "position()") ? 2 : take(r, "last()") ? 3 : 0;
    if (op != 0) {
        value.link = add(r, op, 0, 0, 0, 0);
        return value;
    }
    if (take(r, "count("))
        return read_call(r, 21);
    if (take(r, "not("))
        return read_call(r, 18);
    if (take(r, "boolean("))
        return read_call(r, 19);
    if (!take(r, "("))
        return read_path(r);
    value = read_or(r);
    need(r, ")");
    return value;
}

static struct value read_unary(struct reader *r)
{
    if (!take(r, "-"))
        return read_primary(r);
    struct value value = {add(r, 9, as_number(r, read_unary(r)), 0, 0, 0), NUMBER};
    return value;
}

/* the operators of each level, loosest first, with their ops */
static const struct operator { int level; const char *sign; uint32_t op; } operators[] = {
    {0, "or", 17}, {1, "and", 16}, {2, "=", 10}, {2, "!=", 11},
    {3, "<=", 13}, {3, ">=", 15}, {3, "<", 12}, {3, ">", 14},
    {4, "+", 4}, {4, "-", 5}, {5, "*", 6}, {5, "div", 7}, {5, "mod", 8},
};

static const struct operator *take_operator(struct reader *r, int level)
{
    for (size_t i = 0; i < sizeof operators / sizeof *operators; i++)
        if (operators[i].level == level && take(r, operators[i].sign))
            return &operators[i];
    return NULL;
}

/* operands of one level, joined from the left */
static struct value read_level(struct reader *r, int level)
{
    const struct operator *operator;
    if (level == 6)
        return read_unary(r);
    struct value left = read_level(r, level + 1);
    while (!r->failed && (operator = take_operator(r, level)) != NULL) {
        bool truths = level < 2;
        uint32_t a = truths ? as_truth(r, left) : as_number(r, left);
        struct value right = read_level(r, level + 1);
        uint32_t b = truths ? as_truth(r, right) : as_number(r, right);
        left.link = add(r, operator->op, a, b, 0, 0);
        left.sort = level < 4 ? TRUTH : NUMBER;
    }
    return left;
}

static struct value read_or(struct reader *r)
{
    return read_level(r, 0);
}

bool rows_from_text(const char *text, struct rows *rows)
{
    struct reader reader = {text, rows, false};
    memset(rows, 0, sizeof *rows);
    read_path(&reader);
    return !reader.failed && *reader.at == 0;
}
