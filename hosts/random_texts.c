/* random_texts.c: the random path texts and lists of names that random_texts.h declares. */
#include "random_texts.h"

#include <stdio.h>
#include <string.h>

/* an entry of an array */
#define ONE_OF(random, array) ((array)[below(random, sizeof(array) / sizeof *(array))])

/* ---- lists of names ---- */

/* names that lists may have, keywords of the grammar among them */
static const char *const pool[] = {
    "a", "b", "c", "d", "A", "ab", "a-b", "a.b", "a-", "a.", "_", "_1", "x1", "floor", "and", "or", "div", "mod",
    "text", "node", "comment", "processing-instruction", "position", "last", "count", "not", "boolean", "child",
    "self", "attribute", "namespace", "descendant-or-self"
};

enum { POOL = sizeof pool / sizeof *pool };

/* what makes a list bad where a line may begin */
static const char *const bad_lines[] = {
    "\n", "1a\n", "-\n", ".a\n", "a b\n", " a\n", "a \n", "a\r\n", "a:b\n", "*\n", "\303\251\n", "a\303\n",
    "zz\nzz\n",
    "A\nA\n", "a/\n", "a@\n", "a[\n", "`\n", "{\n", "a,\n", "\t\n", "zz\ny\nzz\n"
};

/* puts bytes in the place of so many, if there is room */
static void splice(uint8_t *bytes, size_t *len, size_t room, size_t at, size_t old, const void *by, size_t count)
{
    if (*len - old + count > room)
        return;
    memmove(bytes + at + count, bytes + at + old, *len - at - old);
    memcpy(bytes + at, by, count);
    *len = *len - old + count;
}

static void splice_names(struct text_input *in, size_t at, const char *by, size_t count)
{
    splice(in->names, &in->names_len, NAMES_ROOM, at, 0, by, count);
}

/* a byte somewhere, a bad line before another, a line again, or an end without a line feed */
static void damage_names(struct random *random, struct text_input *in)
{
    static const char telling[] = "\n\r \t-.:19_*\200\377"; /* and the zero behind it */
    static const char *const again[] = {"a\n", "b\n", "count\n"};
    size_t at = below(random, (uint32_t)in->names_len + 1);
    uint8_t byte = (uint8_t)(chance(random, 70) ? ONE_OF(random, telling) : below(random, 256));
    uint32_t kind = below(random, 4);
    const char *line = kind == 1 ? ONE_OF(random, bad_lines) : ONE_OF(random, again);
    switch (kind) {
    case 0: splice(in->names, &in->names_len, NAMES_ROOM, at, 0, &byte, 1); break;
    case 1:
        while (at > 0 && in->names[at - 1] != '\n')
            at--;
        splice_names(in, at, line, strlen(line));
        break;
    case 2: splice_names(in, in->names_len, line, strlen(line)); break;
    default: in->names_len -= in->names_len > 0;
    }
}

/* some of the pool, from a random one on */
void make_names(struct random *random, struct text_input *in, bool damaged)
{
    uint32_t first = chance(random, 60) ? 0 : below(random, POOL);
    uint32_t share = chance(random, 50) ? 100 : below(random, 100);
    in->names_len = 0;
    for (uint32_t i = 0; i < POOL; i++)
        if (chance(random, i < 4 ? share + 40 : share)) {
            char line[40];
            int len = snprintf(line, sizeof line, "%s\n", pool[(first + i) % POOL]);
            splice_names(in, in->names_len, line, (size_t)len);
        }
    if (damaged)
        damage_names(random, in);
}

/* ---- tokens with spaces between them ---- */

/* a text that grows: how many more parts it may get, how many spaces it has in a hundred tokens, and how many
 * constructs in a hundred are some that rows don't hold */
struct writer { struct random *random; struct text_input *in; int left; uint32_t spaces, wild; };

static void put_bytes(struct writer *w, const void *bytes, size_t count)
{
    splice(w->in->text, &w->in->text_len, TEXT_ROOM, w->in->text_len, 0, bytes, count);
}

static bool goes_on(uint8_t byte)
{
    return (byte >= 'a' && byte <= 'z') || (byte >= 'A' && byte <= 'Z') || (byte >= '0' && byte <= '9') ||
           byte == '_' || byte == '-' || byte == '.';
}

static void put_spaces(struct writer *w)
{
    static const char spaces[] = {' ', ' ', ' ', '\t', '\r', '\n'};
    do
        put_bytes(w, &ONE_OF(w->random, spaces), 1);
    while (chance(w->random, 30));
}

/* a token, with a space before it where it would go on with the last one */
static void put(struct writer *w, const char *token)
{
    const struct text_input *in = w->in;
    bool sticks = in->text_len > 0 && goes_on(in->text[in->text_len - 1]) && goes_on((uint8_t)token[0]);
    if (chance(w->random, sticks ? 98 : w->spaces))
        put_spaces(w);
    put_bytes(w, token, strlen(token));
}

#define PUT_ONE_OF(w, array) put(w, ONE_OF((w)->random, array))

/* ---- the grammar ---- */

static bool wildly(struct writer *w)
{
    return chance(w->random, w->wild);
}

static void put_expression(struct writer *w);
static void put_number(struct writer *w);
static void put_truth(struct writer *w);
static void put_path(struct writer *w);

/* a name of the list, or any of the pool */
static void put_name(struct writer *w)
{
    const struct text_input *in = w->in;
    char name[40] = {0};
    size_t at = below(w->random, (uint32_t)in->names_len + 1), len = 0;
    while (at > 0 && in->names[at - 1] != '\n')
        at--;
    while (at + len < in->names_len && in->names[at + len] != '\n' && len + 1 < sizeof name)
        len++;
    memcpy(name, in->names + at, len);
    put(w, len == 0 || chance(w->random, 2) ? ONE_OF(w->random, pool) : name);
}

static void put_wild_test(struct writer *w)
{
    static const char *const tests[] = {"p:a", "p:*", "a:and", "processing-instruction", "zz", "text:text", "A.-"};
    const char *test = ONE_OF(w->random, tests);
    put(w, test);
    if (strlen(test) > 9) {
        put(w, "(");
        put(w, chance(w->random, 50) ? "'x'" : "\"']\"");
        put(w, ")");
    }
}

static void put_test(struct writer *w)
{
    static const char *const types[] = {"node", "text", "comment", "processing-instruction"};
    if (wildly(w)) {
        put_wild_test(w);
    } else if (chance(w->random, 15)) {
        PUT_ONE_OF(w, types);
        put(w, "(");
        put(w, ")");
    } else if (chance(w->random, 15)) {
        put(w, "*");
    } else {
        put_name(w);
    }
}

static void put_axis(struct writer *w)
{
    static const char *const axes[] = {
        "self", "child", "parent", "descendant", "ancestor", "descendant-or-self", "ancestor-or-self", "following",
        "preceding", "following-sibling", "preceding-sibling", "attribute"
    };
    put(w, wildly(w) ? "namespace" : ONE_OF(w->random, axes));
    put(w, "::");
}

static void put_predicate(struct writer *w)
{
    put(w, "[");
    put_expression(w);
    put(w, "]");
}

static void put_step(struct writer *w)
{
    if (chance(w->random, 15)) {
        put(w, chance(w->random, 50) ? "." : "..");
        return;
    }
    if (chance(w->random, 25))
        put_axis(w);
    else if (chance(w->random, 10))
        put(w, "@");
    put_test(w);
    while (w->left > 0 && chance(w->random, 30))
        put_predicate(w);
}

static void put_steps(struct writer *w)
{
    put_step(w);
    while (w->left-- > 0 && chance(w->random, 40)) {
        put(w, chance(w->random, 75) ? "/" : "//");
        put_step(w);
    }
}

static void put_path(struct writer *w)
{
    uint32_t first = below(w->random, 20);
    if (first < 4)
        put(w, first < 2 ? "/" : "//");
    if (first != 0)
        put_steps(w);
}

/* digits, with a point or not; of more than 15 if wild */
static void put_literal(struct writer *w)
{
    static const char *const literals[] = {
        "0", "1", "1.0", "01", "2", "3.", ".5", "0.5", "0.50", "10", "1.5", ".1", "0.1", "100", "9007199254740993",
        "123456789012345", "12345678.9012345", ".000000000000001", "999999999999999", "0.00000000000001", "3.14159"
    };
    static const char *const longer[] = {
        "1234567890123456", "0000000000000001", "0.000000000000001", ".0000000000000001", "9999999999999999999999."
    };
    char literal[40];
    if (wildly(w)) {
        PUT_ONE_OF(w, longer);
    } else if (chance(w->random, 50)) {
        PUT_ONE_OF(w, literals);
    } else {
        snprintf(literal, sizeof literal, "%u.%0*u", below(w->random, 1000), 1 + (int)below(w->random, 8),
                 below(w->random, 10));
        put(w, literal);
    }
}

static void put_call(struct writer *w, const char *name, void (*argument)(struct writer *w))
{
    put(w, name);
    put(w, "(");
    if (argument)
        argument(w);
    put(w, ")");
}

/* two operands and what stands between them */
static void put_operation(struct writer *w, const char *operation, void (*operand)(struct writer *w))
{
    operand(w);
    put(w, operation);
    operand(w);
}

static void put_brackets(struct writer *w, void (*inner)(struct writer *w))
{
    put_call(w, "", inner);
}

static void put_number(struct writer *w)
{
    static const char *const arithmetic[] = {"+", "-", "*", "div", "mod"};
    if (wildly(w)) {
        put_expression(w);
        return;
    }
    switch (w->left-- > 0 ? below(w->random, 9) : below(w->random, 4)) {
    case 0: put_call(w, "position", NULL); break;
    case 1: put_call(w, "last", NULL); break;
    case 2: case 3: put_literal(w); break;
    case 4: put_call(w, "count", put_path); break;
    case 5: put(w, "-"); put_number(w); break;
    case 6: put_brackets(w, put_number); break;
    default: put_operation(w, ONE_OF(w->random, arithmetic), put_number); break;
    }
}

static void put_truth(struct writer *w)
{
    static const char *const comparisons[] = {"=", "!=", "<", "<=", ">", ">="};
    switch (w->left-- > 0 ? below(w->random, 6) : 0) {
    case 0:
        put_operation(w, ONE_OF(w->random, comparisons), put_number);
        for (; wildly(w) || wildly(w); put_number(w))
            PUT_ONE_OF(w, comparisons);
        break;
    case 1: put_call(w, "not", put_expression); break;
    case 2: put_call(w, "boolean", put_expression); break;
    case 3: put_brackets(w, put_truth); break;
    default: put_operation(w, chance(w->random, 50) ? "and" : "or", put_expression); break;
    }
}

static void put_arguments(struct writer *w)
{
    for (uint32_t more = below(w->random, 3); more > 0; more--) {
        put_expression(w);
        if (more > 1)
            put(w, ",");
    }
}

/* what rows don't hold */
static void put_wild(struct writer *w)
{
    static const char *const strings[] = {"''", "'x'", "\"y\"", "'\"'", "\"'] \303\251#\"", "'a\nb'"};
    static const char *const variables[] = {"$x", "$p:x", "$and", "$a-b"};
    static const char *const names[] = {
        "id", "count", "last", "not", "boolean", "p:f", "sum", "a", "and", "true", "p:count"
    };
    switch (w->left-- > 0 ? below(w->random, 8) : below(w->random, 2)) {
    case 0: PUT_ONE_OF(w, strings); break;
    case 1: PUT_ONE_OF(w, variables); break;
    case 2: put_call(w, ONE_OF(w->random, names), put_arguments); break;
    case 3: put_operation(w, "|", put_path); break;
    case 4: put_brackets(w, put_expression); put_predicate(w); break;
    case 5: put_brackets(w, put_expression); put(w, chance(w->random, 50) ? "/" : "//"); put_steps(w); break;
    case 6: put_brackets(w, put_path); break;
    default: put_literal(w); put_predicate(w); break;
    }
}

/* a number, a truth or a path */
static void put_expression(struct writer *w)
{
    if (wildly(w)) {
        put_wild(w);
        return;
    }
    switch (below(w->random, 3)) {
    case 0: put_number(w); break;
    case 1: put_truth(w); break;
    default: put_path(w); break;
    }
}

/* ---- sizes around the limits ---- */

static void put_times(struct writer *w, const char *text, uint32_t times)
{
    for (; times > 0; times--)
        put_bytes(w, text, strlen(text));
}

/* a sum of so many values, some of them twice and spelt otherwise */
static void put_sum(struct writer *w, uint32_t values)
{
    static const char *const spellings[] = {"%u", "%u.0", "0%u", "%u."};
    char literal[40];
    for (uint32_t i = 0; i < values; i++) {
        put_bytes(w, "+", i > 0);
        snprintf(literal, sizeof literal, ONE_OF(w->random, spellings), i > 0 && chance(w->random, 5) ? i - 1 : i);
        put_bytes(w, literal, strlen(literal));
    }
}

/* paths in each other, existence or counts, with brackets about some that hold no path */
static void put_nested(struct writer *w, uint32_t depth)
{
    static const char *const opening[] = {"a[", "a[(count(", "//a[not(", "a[boolean((1 = 1) and ", "a[1 + 0*count("};
    static const char *const closing[] = {"]", "))]", ")]", ")]", ")]"};
    uint32_t forms[16];
    for (uint32_t i = 0; i + 1 < depth; i++)
        put(w, opening[forms[i] = below(w->random, 5)]);
    put(w, "a");
    for (uint32_t i = depth - 1; i > 0; i--)
        put(w, closing[forms[i - 1]]);
}

static void put_limits(struct writer *w)
{
    static const char *const steps[] = {"/a", "/.", "/@a", "/..", "/*"};
    uint32_t off = below(w->random, 8);
    put_bytes(w, "a", 1);
    switch (below(w->random, 6)) {
    case 0: put_times(w, ONE_OF(w->random, steps), 250 + off); break;
    case 1: put_times(w, "//a", 124 + off % 5); break;
    case 2: put_times(w, chance(w->random, 50) ? "[1]" : "[last()]", 123 + off % 6); break;
    case 3: put_bytes(w, "[", 1); put_sum(w, 61 + off); put_bytes(w, "]", 1); break;
    case 4: w->in->text_len = 0; put_nested(w, 6 + off % 5); break;
    default:
        put_bytes(w, "[", 1);
        put_times(w, "(", off * 9);
        put_times(w, "-", 247 + below(w->random, 8));
        put_bytes(w, "1", 1);
        put_times(w, ")", off * 9 - (off > 0 && chance(w->random, 5)));
        put_bytes(w, "]", 1);
    }
}

/* ---- no texts of the grammar ---- */

static const char *const operand_tokens[] = {
    "a", "b", "zz", "*", ".", "..", "/", "1", ".5", "'x'", "$v", "last()", "text()", "comment('x')", "p:a", "p:*", "@",
    "child::", "(", "-", "and", "or", "div", "count(", "not(", "processing-instruction(", "foo(", "//", "foo::",
    "namespace::", "self", "processing-instruction('x')", "node", "child"
};

static const char *const operator_tokens[] = {
    "+", "-", "*", "div", "mod", "=", "!=", "<", "<=", ">", ">=", "and", "or", "|", "/", "//", "[", "]", ")", ")",
    "]", ",", "::", "(", "and:b", ":", "!", "a", "@", "[1]", "[a]"
};

/* operands and operators, in turn or not */
static void put_tokens(struct writer *w)
{
    uint32_t turn = 0;
    if (chance(w->random, 50))
        put(w, "a[");
    for (uint32_t count = below(w->random, 14); count > 0; count--) {
        if (chance(w->random, 80) ? turn++ % 2 == 0 : chance(w->random, 50))
            PUT_ONE_OF(w, operand_tokens);
        else
            PUT_ONE_OF(w, operator_tokens);
    }
    if (chance(w->random, 50))
        put(w, "]");
}

/* and the zero behind them */
static const char telling_bytes[] = "a1. \n\t\r/*@[](),:$'\"|+-=!<>_#\\;&%{}~^?\200\303\377";

static uint8_t some_byte(struct random *random)
{
    return (uint8_t)(chance(random, 80) ? ONE_OF(random, telling_bytes) : below(random, 256));
}

static void put_any_bytes(struct writer *w)
{
    for (uint32_t count = below(w->random, 20); count > 0; count--) {
        uint8_t byte = some_byte(w->random);
        put_bytes(w, &byte, 1);
    }
}

/* a byte replaced, dropped or added, a part dropped or doubled, or the end cut */
static void change_text(struct random *random, struct text_input *in)
{
    size_t at = below(random, (uint32_t)in->text_len + 1), part = below(random, 8);
    uint8_t byte = some_byte(random), copy[8];
    if (at + part > in->text_len)
        part = in->text_len - at;
    memcpy(copy, in->text + at, part);
    switch (below(random, 6)) {
    case 0: splice(in->text, &in->text_len, TEXT_ROOM, at, part > 0, &byte, 1); break;
    case 1: splice(in->text, &in->text_len, TEXT_ROOM, at, part > 0, "", 0); break;
    case 2: splice(in->text, &in->text_len, TEXT_ROOM, at, 0, &byte, 1); break;
    case 3: splice(in->text, &in->text_len, TEXT_ROOM, at, part, "", 0); break;
    case 4: splice(in->text, &in->text_len, TEXT_ROOM, at, 0, copy, part); break;
    default: in->text_len = at;
    }
}

/* ---- whole inputs ---- */

static const char *const kind_names[TEXT_KINDS] = {"held", "grammar", "limits", "tokens", "bytes", "changed"};

const char *text_kind_name(int kind)
{
    return kind_names[kind];
}

/* a text of the grammar: a path, or with what rows don't hold any expression */
static void put_text(struct writer *w)
{
    if (w->wild > 0 && chance(w->random, 20))
        put_expression(w);
    else
        put_path(w);
    if (chance(w->random, w->spaces))
        put_spaces(w);
}

static void put_kind(struct writer *w, int kind)
{
    switch (kind) {
    case HELD: put_text(w); break;
    case LIMITS: put_limits(w); break;
    case TOKENS: put_tokens(w); break;
    case BYTES: put_any_bytes(w); break;
    default:
        w->wild = chance(w->random, 70) ? 4 : 20;
        put_text(w);
    }
}

int make_text(struct random *random, struct text_input *in)
{
    static const uint32_t sizes[] = {2, 6, 12, 30}, shares[TEXT_KINDS] = {30, 20, 8, 12, 5, 25};
    uint32_t drawn = below(random, 100);
    int kind = HELD;
    while (drawn >= shares[kind])
        drawn -= shares[kind++];
    struct writer w = {random, in, (int)ONE_OF(random, sizes), chance(random, 60) ? 0 : below(random, 60), 0};
    make_names(random, in, chance(random, 4));
    in->text_len = 0;
    put_kind(&w, kind == CHANGED ? (int)below(random, 3) : kind);
    for (uint32_t n = kind != CHANGED ? 0 : chance(random, 80) ? 1 : 3; n > 0; n--)
        change_text(random, in);
    return kind;
}
