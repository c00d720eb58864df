/* texts.c: the independent reader of path text that texts.h declares. */
#include "texts.h"

#include <stdbool.h>
#include <stdlib.h>
#include <string.h>

/* the limits of documents 01 and 02 */
enum { MOST_NAMES = 65535, MOST_ROWS = 256, MOST_LITERALS = 64, MOST_DEPTH = 8, MOST_DIGITS = 15 };

/* the numbers given back */
enum {
    LONG_PATH = 3, MANY_LITERALS = 4, DEEP_PATH = 6, NO_ROOM = 21, BAD_NAMES = 22, BAD_TEXT = 23, UNKNOWN_NAME = 24,
    MANY_DIGITS = 25, NOT_HELD = 26, NO_LITERAL_ROOM = 27
};

/* how far functions may call themselves */
enum { DEEPEST = 2000 };

/* ---- bytes ---- */

struct span { const uint8_t *at; size_t len; };

static bool is_digit(uint8_t byte)
{
    return byte >= '0' && byte <= '9';
}

static bool is_space(uint8_t byte)
{
    return byte == ' ' || byte == '\t' || byte == '\r' || byte == '\n';
}

static bool begins_name(uint8_t byte)
{
    return (byte >= 'A' && byte <= 'Z') || (byte >= 'a' && byte <= 'z') || byte == '_';
}

/* how many bytes at the front of the span are a name: 0 if it begins with none */
static size_t name_length(struct span span)
{
    size_t len = 0;
    if (span.len == 0 || !begins_name(span.at[0]))
        return 0;
    while (len < span.len && (begins_name(span.at[len]) || is_digit(span.at[len]) || span.at[len] == '-' ||
                              span.at[len] == '.'))
        len++;
    return len;
}

static bool is_text(struct span span, const char *text)
{
    return span.len == strlen(text) && memcmp(span.at, text, span.len) == 0;
}

/* ---- the list of names ---- */

enum { BUCKETS = 4096 };

/* each name by its number, which is above 0; those with one remainder of a sum are chained */
static struct span listed[MOST_NAMES + 1];
static uint32_t heads[BUCKETS], chained[MOST_NAMES + 1], listed_count;

static uint32_t bucket_of(struct span name)
{
    uint32_t sum = 0;
    for (size_t i = 0; i < name.len; i++)
        sum = 31 * sum + name.at[i];
    return sum % BUCKETS;
}

/* the number of a name, or 0 */
static uint32_t number_of(struct span name)
{
    uint32_t number = heads[bucket_of(name)];
    while (number != 0 && !(listed[number].len == name.len && memcmp(listed[number].at, name.at, name.len) == 0))
        number = chained[number];
    return number;
}

static void list_name(struct span name)
{
    uint32_t *head = &heads[bucket_of(name)];
    listed[++listed_count] = name;
    chained[listed_count] = *head;
    *head = listed_count;
}

/* lists the names up to the first bad line, whose number from 1 is given back; 0 if all are good */
static uint64_t list_names(const uint8_t *names, size_t len)
{
    uint64_t line = 0;
    memset(heads, 0, sizeof heads);
    listed_count = 0;
    for (size_t at = 0; at < len;) {
        const uint8_t *feed = memchr(names + at, '\n', len - at);
        struct span name = {names + at, feed ? (size_t)(feed - names) - at : 0};
        line++;
        if (line > MOST_NAMES || !feed || name.len == 0 || name_length(name) != name.len || number_of(name) != 0)
            return line;
        list_name(name);
        at += name.len + 1;
    }
    return 0;
}

/* ---- tokens ---- */

enum kind {
    END, BAD, NAME_TEST, NODE_TYPE, FUNCTION, AXIS, STRING, NUMBER, VARIABLE, CLOSE, CLOSE_SQUARE, DOT, DOTS,
    OPEN, OPEN_SQUARE, AT, COMMA, COLONS,
    SLASH, SLASHES, BAR, PLUS, MINUS, EQUAL, NOT_EQUAL, LESS, LESS_EQUAL, GREATER, GREATER_EQUAL,
    MULTIPLY, AND, OR, DIV, MOD
};

struct token { enum kind kind; size_t at; struct span text; };

/* signs, those that begin with a shorter one before it */
static const struct { const char *text; enum kind kind; } signs[] = {
    {"::", COLONS}, {"..", DOTS}, {"//", SLASHES}, {"!=", NOT_EQUAL}, {"<=", LESS_EQUAL}, {">=", GREATER_EQUAL},
    {"(", OPEN}, {")", CLOSE}, {"[", OPEN_SQUARE}, {"]", CLOSE_SQUARE}, {".", DOT}, {"@", AT}, {",", COMMA},
    {"/", SLASH}, {"|", BAR}, {"+", PLUS}, {"-", MINUS}, {"=", EQUAL}, {"<", LESS}, {">", GREATER},
};

static const struct { const char *text; enum kind kind; } operator_names[] = {
    {"and", AND}, {"or", OR}, {"div", DIV}, {"mod", MOD}
};

static const char *const node_types[] = {"node", "text", "comment", "processing-instruction"};

/* [6], those of document 01 by their numbers, and one that it doesn't have */
enum { CHILD = 1, ATTRIBUTE = 11, NAMESPACE = 12, AXES };

static const char *const axes[AXES] = {
    "self", "child", "parent", "descendant", "ancestor", "descendant-or-self", "ancestor-or-self", "following",
    "preceding", "following-sibling", "preceding-sibling", "attribute", "namespace"
};

/* where a text stands in an array, or its length */
static uint32_t index_of(struct span text, const char *const *array, uint32_t len)
{
    uint32_t i = 0;
    while (i < len && !is_text(text, array[i]))
        i++;
    return i;
}

static bool begins_with(struct span span, const char *text)
{
    return span.len >= strlen(text) && memcmp(span.at, text, strlen(text)) == 0;
}

/* what is left of the span behind so many bytes */
static struct span rest(struct span span, size_t passed)
{
    struct span left = {span.at + passed, span.len - passed};
    return left;
}

static struct span behind_spaces(struct span span)
{
    while (span.len > 0 && is_space(span.at[0]))
        span = rest(span, 1);
    return span;
}

/* 3.7, first rule: whether `*` and names are operators behind a token of that kind (END: there is none) */
static bool ends_operand(enum kind before)
{
    return before != END && before < OPEN;
}

static enum kind operator_kind(struct span name)
{
    for (size_t i = 0; i < sizeof operator_names / sizeof *operator_names; i++)
        if (is_text(name, operator_names[i].text))
            return operator_names[i].kind;
    return BAD;
}

/* 3.7 for a name without a colon, with what stands behind it */
static enum kind name_kind(struct span name, struct span left, enum kind before)
{
    left = behind_spaces(left);
    if (ends_operand(before))
        return operator_kind(name);
    if (begins_with(left, "("))
        return index_of(name, node_types, 4) < 4 ? NODE_TYPE : FUNCTION;
    if (begins_with(left, "::"))
        return index_of(name, axes, AXES) < AXES ? AXIS : BAD;
    return NAME_TEST;
}

/* a name, a name and a colon and a name, or a name and `:*` */
static enum kind cut_name(struct span left, enum kind before, size_t *len)
{
    *len = name_length(left);
    struct span name = {left.at, *len}, behind = rest(left, *len);
    if (begins_with(behind, ":*")) {
        *len += 2;
        return NAME_TEST;
    }
    size_t local = begins_with(behind, ":") ? name_length(rest(behind, 1)) : 0;
    if (local == 0)
        return name_kind(name, behind, before);
    *len += 1 + local;
    return begins_with(behind_spaces(rest(left, *len)), "(") ? FUNCTION : NAME_TEST;
}

static size_t digits_length(struct span left)
{
    size_t len = 0;
    while (len < left.len && is_digit(left.at[len]))
        len++;
    return len;
}

/* the length of [30], or 0 */
static size_t number_length(struct span left)
{
    size_t whole = digits_length(left);
    if (!begins_with(rest(left, whole), "."))
        return whole;
    size_t part = digits_length(rest(left, whole + 1));
    return whole + part > 0 ? whole + 1 + part : 0;
}

/* the length of [29], or 0 */
static size_t string_length(struct span left)
{
    if (left.at[0] != '"' && left.at[0] != '\'')
        return 0;
    const uint8_t *quote = memchr(left.at + 1, left.at[0], left.len - 1);
    return quote ? (size_t)(quote - left.at) + 1 : 0;
}

/* the length of [36], or 0 */
static size_t variable_length(struct span left)
{
    size_t first = left.at[0] == '$' ? name_length(rest(left, 1)) : 0;
    if (first == 0)
        return 0;
    struct span behind = rest(left, 1 + first);
    size_t local = begins_with(behind, ":") ? name_length(rest(behind, 1)) : 0;
    return 1 + first + (local > 0 ? 1 + local : 0);
}

static enum kind cut_sign(struct span left, size_t *len)
{
    for (size_t i = 0; i < sizeof signs / sizeof *signs; i++)
        if (begins_with(left, signs[i].text)) {
            *len = strlen(signs[i].text);
            return signs[i].kind;
        }
    return BAD;
}

/* the kind and the length of the token at the front, which is no space */
static enum kind cut(struct span left, enum kind before, size_t *len)
{
    if (begins_name(left.at[0]))
        return cut_name(left, before, len);
    if ((*len = number_length(left)) > 0)
        return NUMBER;
    if ((*len = string_length(left)) > 0)
        return STRING;
    if ((*len = variable_length(left)) > 0)
        return VARIABLE;
    if (left.at[0] != '*')
        return cut_sign(left, len);
    *len = 1;
    return ends_operand(before) ? MULTIPLY : NAME_TEST;
}

/* the tokens of a text, up to the first that is bad, and the end; the caller frees them */
static struct token *cut_tokens(const uint8_t *text, size_t text_len)
{
    struct token *tokens = calloc(text_len + 1, sizeof *tokens);
    struct span all = {text, text_len}, left = behind_spaces(all);
    enum kind before = END;
    size_t count = 0;
    for (; left.len > 0 && before != BAD; left = behind_spaces(left)) {
        size_t len = 0;
        before = cut(left, before, &len);
        struct token token = {before, (size_t)(left.at - text), {left.at, len}};
        tokens[count++] = token;
        left = rest(left, len);
    }
    if (before != BAD)
        tokens[count].at = text_len; /* of kind END, as it was made */
    return tokens;
}

/* ---- the syntax tree ---- */

enum form { LITERAL, NO_VALUE, BRACKETS, CALL, NEGATION, BINARY, UNION, FILTER, FROM_FILTER, PATH, STEP };

enum sort { NO_SORT, A_NUMBER, A_TRUTH, A_PATH };

/* strings and variables have form NO_VALUE. A step's parts are its predicates, a filter's are what it filters and
 * its predicates, a path's are its steps, and a path from a filter has that and a path. */
struct node {
    enum form form;
    enum sort sort;
    size_t at, test_at;        /* its first byte; of a step also its test's */
    struct span text;          /* the token of a literal, a call and a name test */
    uint32_t op, axis, test;   /* of a binary operation, of a step */
    bool absolute, held;       /* of a path; whether a step's test is a node type that rows have, `*` or a name */
    int height;
    struct node *first, *last, *next, *older;
};

/* what is known of a text so far: the next token, the nodes, and the fault at the lowest byte */
struct reader {
    const struct token *token;
    struct node *newest;
    bool failed, too_deep;
    int open;
    size_t fault_at;
    uint32_t fault;
};

static struct node *make(struct reader *r, enum form form, size_t at)
{
    struct node *node = calloc(1, sizeof *node);
    node->form = form;
    node->at = at;
    node->older = r->newest;
    return r->newest = node;
}

/* notes a fault unless there is one at a lower byte, or of a lower number at the same */
static void blame(struct reader *r, uint32_t number, size_t at)
{
    if (r->fault == 0 || at < r->fault_at || (at == r->fault_at && number < r->fault)) {
        r->fault = number;
        r->fault_at = at;
    }
}

/* ---- the productions: after the first token that doesn't fit none is taken any more ---- */

static enum kind peek(const struct reader *r)
{
    return r->failed ? BAD : r->token->kind;
}

static void fail(struct reader *r)
{
    if (!r->failed)
        blame(r, BAD_TEXT, r->token->at);
    r->failed = true;
}

static void give_up(struct reader *r)
{
    r->failed = r->too_deep = true;
}

/* takes the next token, which has to be of that kind */
static struct span take(struct reader *r, enum kind kind)
{
    struct span text = r->token->text;
    if (peek(r) != kind)
        fail(r);
    else
        r->token++;
    return text;
}

/* takes the next token if it is of that kind */
static bool may_take(struct reader *r, enum kind kind)
{
    if (peek(r) != kind)
        return false;
    r->token++;
    return true;
}

static void add(struct reader *r, struct node *node, struct node *part)
{
    if (node->last)
        node->last->next = part;
    else
        node->first = part;
    node->last = part;
    if (part->height >= node->height)
        node->height = part->height + 1;
    if (node->height > DEEPEST)
        give_up(r);
}

static struct node *expression(struct reader *r);

/* [8], [9], as many as there are */
static void predicates(struct reader *r, struct node *node)
{
    while (may_take(r, OPEN_SQUARE)) {
        add(r, node, expression(r));
        take(r, CLOSE_SQUARE);
    }
}

/* [7], [37], [38] */
static void node_test(struct reader *r, struct node *step)
{
    step->test_at = r->token->at;
    step->held = true;
    if (peek(r) == NODE_TYPE) {
        static const uint32_t tests[] = {0, 2, 3, 4};
        struct span type = take(r, NODE_TYPE);
        step->test = tests[index_of(type, node_types, 4)];
        take(r, OPEN);
        if (step->test == 4 && may_take(r, STRING))
            step->held = false;
        take(r, CLOSE);
        return;
    }
    step->text = take(r, NAME_TEST);
    step->test = 1;
    if (is_text(step->text, "*"))
        step->text.len = 0;
}

static struct node *make_step(struct reader *r, uint32_t axis)
{
    struct node *step = make(r, STEP, r->token->at);
    step->axis = axis;
    step->held = true;
    return step;
}

/* [4], [5], [12], [13] */
static struct node *one_step(struct reader *r)
{
    struct node *step = make_step(r, CHILD);
    if (peek(r) == DOT || peek(r) == DOTS) {
        step->axis = may_take(r, DOT) ? 0 : 2;
        may_take(r, DOTS);
        return step;
    }
    if (peek(r) == AXIS) {
        step->axis = index_of(take(r, AXIS), axes, AXES);
        take(r, COLONS);
    } else if (may_take(r, AT)) {
        step->axis = ATTRIBUTE;
    }
    node_test(r, step);
    predicates(r, step);
    return step;
}

/* the step that `//` stands for, if that is next */
static bool may_take_slashes(struct reader *r, struct node *path)
{
    if (peek(r) != SLASHES)
        return false;
    add(r, path, make_step(r, 5));
    return may_take(r, SLASHES);
}

/* [3], [11] */
static void relative_path(struct reader *r, struct node *path)
{
    do
        add(r, path, one_step(r));
    while (may_take_slashes(r, path) || may_take(r, SLASH));
}

static bool begins_step(enum kind kind)
{
    return kind == DOT || kind == DOTS || kind == AT || kind == AXIS || kind == NAME_TEST || kind == NODE_TYPE;
}

/* [1], [2], [10] */
static struct node *location_path(struct reader *r)
{
    struct node *path = make(r, PATH, r->token->at);
    path->absolute = peek(r) == SLASH || peek(r) == SLASHES;
    if (may_take(r, SLASH) && !begins_step(peek(r)))
        return path;
    may_take_slashes(r, path);
    relative_path(r, path);
    return path;
}

/* [16], [17] */
static struct node *call(struct reader *r)
{
    struct node *node = make(r, CALL, r->token->at);
    node->text = take(r, FUNCTION);
    take(r, OPEN);
    if (may_take(r, CLOSE))
        return node;
    do
        add(r, node, expression(r));
    while (may_take(r, COMMA));
    take(r, CLOSE);
    return node;
}

/* [15] */
static struct node *primary(struct reader *r)
{
    size_t at = r->token->at;
    if (peek(r) == FUNCTION)
        return call(r);
    if (may_take(r, OPEN)) {
        struct node *brackets = make(r, BRACKETS, at);
        add(r, brackets, expression(r));
        take(r, CLOSE);
        return brackets;
    }
    struct node *leaf = make(r, peek(r) == NUMBER ? LITERAL : NO_VALUE, at);
    leaf->text = take(r, peek(r));
    return leaf;
}

/* [20] */
static struct node *filter(struct reader *r)
{
    struct node *inner = primary(r);
    if (peek(r) != OPEN_SQUARE)
        return inner;
    struct node *node = make(r, FILTER, inner->at);
    add(r, node, inner);
    predicates(r, node);
    return node;
}

/* [19] */
static struct node *path_or_filter(struct reader *r)
{
    enum kind kind = peek(r);
    if (kind != FUNCTION && kind != OPEN && kind != NUMBER && kind != STRING && kind != VARIABLE)
        return location_path(r);
    struct node *inner = filter(r);
    if (peek(r) != SLASH && peek(r) != SLASHES)
        return inner;
    struct node *node = make(r, FROM_FILTER, inner->at), *path = make(r, PATH, r->token->at);
    if (!may_take_slashes(r, path))
        take(r, SLASH);
    relative_path(r, path);
    add(r, node, inner);
    add(r, node, path);
    return node;
}

/* [18] */
static struct node *union_of_paths(struct reader *r)
{
    struct node *left = path_or_filter(r);
    while (may_take(r, BAR)) {
        struct node *node = make(r, UNION, left->at);
        add(r, node, left);
        add(r, node, path_or_filter(r));
        left = node;
    }
    return left;
}

/* [27] */
static struct node *unary(struct reader *r)
{
    size_t at = r->token->at;
    if (!may_take(r, MINUS))
        return union_of_paths(r);
    struct node *node = make(r, NEGATION, at);
    if (++r->open > DEEPEST)
        give_up(r);
    add(r, node, unary(r));
    r->open--;
    return node;
}

/* the binary operators, by their strength and with their ops */
enum { WEAKEST = 0, STRONGEST = 5 };

static const struct operator { enum kind kind; int strength; uint32_t op; } operators[] = {
    {OR, 0, 17}, {AND, 1, 16}, {EQUAL, 2, 10}, {NOT_EQUAL, 2, 11}, {LESS, 3, 12}, {LESS_EQUAL, 3, 13},
    {GREATER, 3, 14}, {GREATER_EQUAL, 3, 15}, {PLUS, 4, 4}, {MINUS, 4, 5}, {MULTIPLY, 5, 6}, {DIV, 5, 7}, {MOD, 5, 8},
};

/* the operator that is next, if it has that strength */
static const struct operator *next_operator(const struct reader *r, int strength)
{
    for (size_t i = 0; i < sizeof operators / sizeof *operators; i++)
        if (operators[i].kind == peek(r) && operators[i].strength == strength)
            return &operators[i];
    return NULL;
}

/* [21] to [26], by the strength */
static struct node *binary(struct reader *r, int strength)
{
    if (strength > STRONGEST)
        return unary(r);
    struct node *left = binary(r, strength + 1);
    for (const struct operator *o; (o = next_operator(r, strength)) != NULL;) {
        struct node *node = make(r, BINARY, left->at);
        node->op = o->op;
        take(r, o->kind);
        add(r, node, left);
        add(r, node, binary(r, strength + 1));
        left = node;
    }
    return left;
}

/* [14] */
static struct node *expression(struct reader *r)
{
    if (++r->open > DEEPEST)
        give_up(r);
    struct node *node = binary(r, WEAKEST);
    r->open--;
    return node;
}

/* ---- faults: all of a tree, each at its first byte ---- */

enum { NUMBERS = 1 << A_NUMBER, PATHS = 1 << A_PATH, ANY_SORT = NUMBERS | PATHS | 1 << A_TRUTH };

static enum sort find_sort(struct reader *r, struct node *node);

/* a part that has to be of one of some sorts; what has no sort has a fault of its own */
static void hold_to(struct reader *r, struct node *part, int sorts)
{
    enum sort sort = find_sort(r, part);
    if (sort != NO_SORT && !(sorts >> sort & 1))
        blame(r, NOT_HELD, part->at);
}

static void hold_all_to(struct reader *r, struct node *node, int sorts)
{
    for (struct node *part = node->first; part; part = part->next)
        hold_to(r, part, sorts);
}

/* a literal's digits, all of them */
static size_t digits_of(struct span literal)
{
    size_t digits = 0;
    for (size_t i = 0; i < literal.len; i++)
        digits += is_digit(literal.at[i]);
    return digits;
}

static const struct function { const char *name; uint32_t arguments, op; int takes; enum sort gives; } functions[] = {
    {"position", 0, 2, 0, A_NUMBER}, {"last", 0, 3, 0, A_NUMBER}, {"count", 1, 21, PATHS, A_NUMBER},
    {"not", 1, 18, ANY_SORT, A_TRUTH}, {"boolean", 1, 0, ANY_SORT, A_TRUTH},
};

/* the function of a call with the right number of arguments, or nothing */
static const struct function *function_of(const struct node *node)
{
    uint32_t arguments = 0;
    for (const struct node *part = node->first; part; part = part->next)
        arguments++;
    for (size_t i = 0; i < sizeof functions / sizeof *functions; i++)
        if (is_text(node->text, functions[i].name) && functions[i].arguments == arguments)
            return &functions[i];
    return NULL;
}

static enum sort sort_of_call(struct reader *r, struct node *node)
{
    const struct function *function = function_of(node);
    if (!function)
        blame(r, NOT_HELD, node->at);
    hold_all_to(r, node, function ? function->takes : ANY_SORT);
    return function ? function->gives : NO_SORT;
}

static enum sort sort_of_brackets(struct reader *r, struct node *node)
{
    enum sort sort = find_sort(r, node->first);
    if (sort == A_PATH)
        blame(r, NOT_HELD, node->at);
    return sort;
}

/* arithmetic gives numbers, the others truths; and, or take all */
static enum sort sort_of_binary(struct reader *r, struct node *node)
{
    hold_all_to(r, node, node->op < 16 ? NUMBERS : ANY_SORT);
    return node->op < 10 ? A_NUMBER : A_TRUTH;
}

/* a name gets its number in the list */
static void find_test(struct reader *r, struct node *step)
{
    if (step->text.len == 0) {
        if (!step->held)
            blame(r, NOT_HELD, step->test_at);
        return;
    }
    uint32_t number = number_of(step->text);
    bool prefixed = memchr(step->text.at, ':', step->text.len) != NULL;
    if (number == 0)
        blame(r, prefixed ? NOT_HELD : UNKNOWN_NAME, step->test_at);
    step->test = 16 + number;
}

static enum sort sort_of_step(struct reader *r, struct node *step)
{
    if (step->axis == NAMESPACE)
        blame(r, NOT_HELD, step->at);
    find_test(r, step);
    hold_all_to(r, step, ANY_SORT);
    return NO_SORT;
}

/* what rows cannot hold at all, whatever its parts are */
static enum sort sort_of_unheld(struct reader *r, struct node *node)
{
    blame(r, NOT_HELD, node->at);
    hold_all_to(r, node, ANY_SORT);
    return NO_SORT;
}

static enum sort find_sort(struct reader *r, struct node *node)
{
    switch (node->form) {
    case LITERAL:
        if (digits_of(node->text) > MOST_DIGITS)
            blame(r, MANY_DIGITS, node->at);
        return node->sort = A_NUMBER;
    case BRACKETS: return node->sort = sort_of_brackets(r, node);
    case CALL: return node->sort = sort_of_call(r, node);
    case NEGATION:
        hold_all_to(r, node, NUMBERS);
        return node->sort = A_NUMBER;
    case BINARY: return node->sort = sort_of_binary(r, node);
    case PATH:
        hold_all_to(r, node, ANY_SORT);
        return node->sort = A_PATH;
    case STEP: return node->sort = sort_of_step(r, node);
    default: return node->sort = sort_of_unheld(r, node);
    }
}

/* ---- rows: of a tree without faults, in postorder ---- */

/* rows and literals, kept as far as a path may have rows, and the deepest nesting */
struct rows {
    uint32_t row[MOST_ROWS][5];
    double literal[MOST_ROWS];
    uint64_t count;
    uint32_t literals, depth;
};

/* gives back the link to the new row */
static uint32_t add_row(struct rows *rows, uint32_t op, uint32_t a, uint32_t b, uint32_t c, uint32_t d)
{
    uint32_t numbers[5] = {op, a, b, c, d};
    if (rows->count < MOST_ROWS)
        memcpy(rows->row[rows->count], numbers, sizeof numbers);
    return (uint32_t)++rows->count;
}

/* its digits as a whole number, divided once */
static double value_of(struct span literal)
{
    uint64_t whole = 0, divisor = 1;
    bool behind_point = false;
    for (size_t i = 0; i < literal.len; i++) {
        if (literal.at[i] == '.') {
            behind_point = true;
            continue;
        }
        whole = 10 * whole + (uint64_t)(literal.at[i] - '0');
        divisor *= behind_point ? 10 : 1;
    }
    return (double)whole / (double)divisor;
}

static uint32_t write_literal(struct rows *rows, struct span literal)
{
    double value = value_of(literal);
    uint32_t i = 0;
    while (i < rows->literals && rows->literal[i] != value)
        i++;
    if (i == rows->literals && i < MOST_ROWS)
        rows->literal[rows->literals++] = value;
    return add_row(rows, 1, i, 0, 0, 0);
}

static uint32_t write_node(struct rows *rows, const struct node *node, uint32_t depth);

/* a part where a truth is wanted */
static uint32_t write_truth(struct rows *rows, const struct node *part, uint32_t depth)
{
    uint32_t link = write_node(rows, part, depth);
    if (part->sort == A_TRUTH)
        return link;
    return add_row(rows, part->sort == A_NUMBER ? 19 : 20, link, 0, 0, 0);
}

static uint32_t write_call(struct rows *rows, const struct node *node, uint32_t depth)
{
    const struct function *function = function_of(node);
    uint32_t link = 0;
    if (function->takes == ANY_SORT)
        link = write_truth(rows, node->first, depth);
    else if (function->arguments == 1)
        link = write_node(rows, node->first, depth);
    return function->op == 0 ? link : add_row(rows, function->op, link, 0, 0, 0);
}

static uint32_t write_binary(struct rows *rows, const struct node *node, uint32_t depth)
{
    bool truths = node->op >= 16;
    uint32_t left = truths ? write_truth(rows, node->first, depth) : write_node(rows, node->first, depth);
    uint32_t right = truths ? write_truth(rows, node->last, depth) : write_node(rows, node->last, depth);
    return add_row(rows, node->op, left, right, 0, 0);
}

/* a step with its predicates; a whole predicate that is a number stays one */
static uint32_t write_step(struct rows *rows, const struct node *step, uint32_t previous, uint32_t depth)
{
    uint32_t predicate = 0;
    for (const struct node *part = step->first; part; part = part->next) {
        uint32_t value = part->sort == A_NUMBER ? write_node(rows, part, depth) : write_truth(rows, part, depth);
        predicate = add_row(rows, 25, predicate, value, 0, 0);
    }
    return add_row(rows, 24, previous, predicate, step->axis, step->test);
}

static uint32_t write_path(struct rows *rows, const struct node *path, uint32_t depth)
{
    uint32_t step = 0;
    if (depth > rows->depth)
        rows->depth = depth;
    for (const struct node *part = path->first; part; part = part->next)
        step = write_step(rows, part, step, depth);
    return add_row(rows, path->absolute ? 23 : 22, step, 0, 0, 0);
}

/* a path that stands in another has one more depth than that; gives back the link to the last row */
static uint32_t write_node(struct rows *rows, const struct node *node, uint32_t depth)
{
    switch (node->form) {
    case LITERAL: return write_literal(rows, node->text);
    case BRACKETS: return write_node(rows, node->first, depth);
    case CALL: return write_call(rows, node, depth);
    case NEGATION: return add_row(rows, 9, write_node(rows, node->first, depth), 0, 0, 0);
    case BINARY: return write_binary(rows, node, depth);
    default: return write_path(rows, node, depth + 1);
    }
}

/* ---- reading ---- */

static void free_nodes(struct node *newest)
{
    while (newest) {
        struct node *older = newest->older;
        free(newest);
        newest = older;
    }
}

/* the first fault of the text, or 0 and its rows */
static uint32_t read_text(const uint8_t *text, size_t text_len, struct rows *rows, uint64_t *place)
{
    struct token *tokens = cut_tokens(text, text_len);
    struct reader r = {.token = tokens};
    struct node *tree = expression(&r);
    take(&r, END);
    if (!r.failed)
        hold_to(&r, tree, PATHS);
    if (r.fault == 0 && !r.too_deep)
        write_node(rows, tree, 0);
    free_nodes(r.newest);
    free(tokens);
    *place = r.fault_at;
    return r.too_deep ? REF_TOO_DEEP : r.fault;
}

/* the number for rows that don't fit the limits or the rooms, and its place; or 0 */
static uint32_t misfit(const struct rows *rows, size_t rows_len, size_t literals_len, uint64_t *place)
{
    *place = 0;
    if (rows->count > MOST_ROWS)
        return LONG_PATH;
    *place = MOST_LITERALS;
    if (rows->literals > MOST_LITERALS)
        return MANY_LITERALS;
    *place = 0;
    if (rows->depth > MOST_DEPTH)
        return DEEP_PATH;
    *place = 5 * rows->count;
    if (*place > rows_len)
        return NO_ROOM;
    *place = rows->literals;
    return *place > literals_len ? NO_LITERAL_ROOM : 0;
}

uint32_t ref_read_path(const uint8_t *text, size_t text_len, const uint8_t *names, size_t names_len,
                       uint32_t *rows, size_t rows_len, double *literals, size_t literals_len,
                       uint64_t *place, uint32_t *literal_count)
{
    static struct rows made;
    *literal_count = 0;
    *place = list_names(names, names_len);
    if (*place != 0)
        return BAD_NAMES;
    made.count = made.literals = made.depth = 0;
    uint32_t number = read_text(text, text_len, &made, place);
    if (number == 0)
        number = misfit(&made, rows_len, literals_len, place);
    if (number != 0)
        return number;
    memcpy(rows, made.row, 5 * made.count * sizeof *rows);
    memcpy(literals, made.literal, made.literals * sizeof *literals);
    *place = made.count;
    *literal_count = made.literals;
    return 0;
}
