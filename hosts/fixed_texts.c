/* fixed_texts.c: the cases of path texts that fixed_texts.h speaks of.
 *
 * The answers were worked out by hand from document 02 and its readings. Each
 * case is asked of the archive and of the reference, so that the two cannot
 * agree on something else. Where nothing else is said the names are a, b, c, d.
 * An answer is compared as text, its number and place; what a refusal leaves of
 * the outputs is held to what they were.
 */
#include "fixed_texts.h"

#include "bargetulip.h"
#include "texts.h"

#include <stdbool.h>
#include <stdio.h>
#include <string.h>

enum { ROWS_ROOM = 5 * BT_MAX_PATH_ROWS, LITERALS_ROOM = BT_MAX_LITERALS };

/* bytes of a text that is made, and the most rows and literals of a case */
enum { TEXT = 2000, MOST_ROWS = 11, MOST_VALUES = 3 };

struct side {
    const char *name;
    uint32_t (*read)(const uint8_t *text, size_t text_len, const uint8_t *names, size_t names_len, uint32_t *rows,
                     size_t rows_len, double *literals, size_t literals_len, uint64_t *place, uint32_t *literal_count);
};

static const struct side sides[] = {{"archive", bt_read_path}, {"reference", ref_read_path}};

static int answers, differences;

/* ---- asking ---- */

/* what outputs hold before a call */
static const uint32_t UNTOUCHED = UINT32_MAX;

static uint32_t rows[ROWS_ROOM], count;
static double literals[LITERALS_ROOM];

static void hold(const struct side *side, const char *what, const char *expected, const char *found)
{
    answers++;
    if (strcmp(expected, found) == 0)
        return;
    differences++;
    printf("DIFFERENT  %s: %s\n  expected: %s\n  found:    %s\n", side->name, what, expected, found);
}

/* whether rows and literals are untouched from so many numbers and values on */
static bool is_untouched(size_t numbers, size_t values)
{
    while (numbers < ROWS_ROOM && rows[numbers] == UNTOUCHED)
        numbers++;
    while (values < LITERALS_ROOM && literals[values] == -1)
        values++;
    return numbers == ROWS_ROOM && values == LITERALS_ROOM;
}

struct bytes { const char *at; size_t len; };

#define BYTES(text) {text, sizeof(text) - 1}

/* reads a text with these names into these rooms and holds the number and the place to the answer */
static void ask(const struct side *side, struct bytes text, struct bytes names, size_t rows_room, size_t literals_room,
                const char *answer)
{
    char found[80];
    uint64_t place;
    count = UNTOUCHED;
    for (size_t i = 0; i < ROWS_ROOM; i++)
        rows[i] = UNTOUCHED;
    for (size_t i = 0; i < LITERALS_ROOM; i++)
        literals[i] = -1;
    uint32_t number = side->read((const uint8_t *)text.at, text.len, (const uint8_t *)names.at, names.len,
                                 rows, rows_room, literals, literals_room, &place, &count);
    bool done = number == 0, clean = is_untouched(done ? 5 * place : 0, done ? count : 0) && (done || count == 0);
    snprintf(found, sizeof found, "%u %lu%s", number, (unsigned long)place, clean ? "" : ", and more was written");
    hold(side, text.at, answer, found);
}

static const struct bytes four_names = BYTES("a\nb\nc\nd\n");

static void ask_text(const struct side *side, const char *text, const char *answer)
{
    struct bytes bytes = {text, strlen(text)};
    ask(side, bytes, four_names, ROWS_ROOM, LITERALS_ROOM, answer);
}

/* ---- lists of names ---- */

static const struct { struct bytes names; const char *text, *answer; } lists[] = {
    {BYTES("a\nb"), "/", "22 2"}, {BYTES("a"), "a", "22 1"}, {BYTES(""), "/", "0 1"}, {BYTES(""), "a", "24 0"},
    {BYTES("\n"), "/", "22 1"}, {BYTES("a\n\n"), "/", "22 2"}, {BYTES("a\nb\na\n"), "/", "22 3"},
    {BYTES("a\nb\na"), "/", "22 3"}, {BYTES("a\na\n1\n"), "/", "22 2"}, {BYTES("a\nA\n"), "A", "0 2"},
    {BYTES("a\r\n"), "/", "22 1"}, {BYTES("a\nb c\n"), "/", "22 2"}, {BYTES("a\nb\0\n"), "/", "22 2"},
    {BYTES("a\np:a\n"), "/", "22 2"}, {BYTES("a\n\303\251\n"), "/", "22 2"}, {BYTES("a\nb\303\251\n"), "/", "22 2"},
    {BYTES("1\n"), "/", "22 1"}, {BYTES("-a\n"), "/", "22 1"}, {BYTES(".\n"), "/", "22 1"},
    {BYTES("*\n"), "/", "22 1"}, {BYTES("_\n"), "_", "0 2"}, {BYTES("a-.1_\n"), "a-.1_", "0 2"},
    {BYTES("a\nab\n"), "ab", "0 2"}, {BYTES("ab\n"), "a", "24 0"}, {BYTES("a\n"), "ab", "24 0"},
    {BYTES("\n"), "[", "22 1"}, {BYTES(" \n"), "zz", "22 1"},
    {BYTES("and\ndiv\ntext\nchild\nposition\nprocessing-instruction\n"), "and/div/text/child", "0 5"},
    {BYTES("and\ndiv\ntext\nchild\nposition\nprocessing-instruction\n"), "position//processing-instruction", "0 4"},
    {BYTES("and\n"), "and[and and and]", "0 10"}, {BYTES("f\nv\np\n"), "f(1)", "26 0"},
    {BYTES("f\nv\np\n"), "$v", "26 0"}, {BYTES("f\nv\np\n"), "p:f", "26 0"},
};

static void ask_lists(const struct side *side)
{
    for (size_t i = 0; i < sizeof lists / sizeof *lists; i++) {
        struct bytes text = {lists[i].text, strlen(lists[i].text)};
        ask(side, text, lists[i].names, ROWS_ROOM, LITERALS_ROOM, lists[i].answer);
    }
    struct bytes bad = {"[", 1}, unended = {"a", 1};
    ask(side, bad, unended, 0, 0, "22 1");
}

/* ---- texts ---- */

struct text { const char *text, *answer; };

static const struct text tokens[] = {
    {"a: b", "23 1"}, {"a[$ v]", "23 2"}, {"/ /", "23 2"}, {"child :: a", "0 2"}, {"text ( )", "0 2"},
    {" \t\r\na\n\r\t ", "0 2"}, {"\fa", "23 0"}, {"a\v", "23 1"}, {"\302\240a", "23 0"}, {"child: :a", "23 5"},
    {"a..", "24 0"}, {"a -b", "26 0"}, {"a- b", "23 3"}, {"a[1..2]", "23 4"}, {"a[1.2.3]", "23 5"}, {"..5", "23 2"},
    {". .", "23 2"}, {"a[1.div 2]", "0 6"}, {"a[1e5]", "23 3"}, {"///", "23 2"}, {"a[1 < = 2]", "23 6"},
    {"a-", "24 0"}, {"a-b", "24 0"}, {"a b", "23 2"}, {"a or or or", "23 10"}, {"/ and b", "23 6"}, {"/ * 2", "23 4"},
    {"***", "26 0"}, {"a[b and(1)]", "0 9"}, {"and (a)", "26 0"}, {"foo::a", "23 0"}, {"a/foo::b", "23 2"},
    {"a/count(b)", "23 2"}, {"a/coment()", "23 2"}, {"child::a()", "23 7"}, {"@child::a", "23 1"}, {"p:f(1)", "26 0"},
    {"p:a::b", "23 3"}, {"a and:b", "23 2"}, {"a and::b", "23 5"}, {"a:b:c", "23 3"}, {"p:text()", "26 0"},
    {"p:*(1)", "23 3"}, {"a#", "23 1"}, {"a[1 !", "23 4"}, {"*:a", "23 1"}, {"a['bc", "23 2"}, {"a['bc]", "23 2"},
    {"a[!]", "23 2"}, {"a[$]", "23 2"}, {":", "23 0"}, {"a[$p:*]", "23 4"}, {"\303\251", "23 0"},
    {"a[\"'\303\251#\"]", "26 2"}, {"a['\n\"']", "26 2"}, {"a[* * *]", "26 2"}, {"a[2*-1]", "0 7"}, {"a[1*2]", "0 6"},
    {"a[(*)]", "26 2"}, {"a[f(1,*)]", "26 2"}, {"@*", "0 2"}, {"child::*", "0 2"}, {"a/*", "0 3"}, {"*/*", "0 3"},
    {"**", "23 2"},
};

static const struct text grammar[] = {
    {"1 + 1", "26 0"}, {"count(a)", "26 0"}, {"a | b", "26 0"}, {"a[1/b]", "26 2"}, {"a['x'[1]]", "26 2"},
    {"a[f(1, b)]", "26 2"}, {"a[1 ", "23 4"}, {"//", "23 2"}, {"a/", "23 2"}, {"a[]", "23 2"}, {".[1]", "23 1"},
    {"..[1]", "23 2"}, {"/[1]", "23 1"}, {"a,b", "23 1"}, {"a[f(1,)]", "23 6"}, {"a[f(,1)]", "23 4"},
    {"a | -b", "23 4"}, {"a[1)]", "23 3"}, {"text(1)", "23 5"}, {"processing-instruction(a)", "23 23"},
    {"a/(b)", "23 2"}, {"", "23 0"}, {"  ", "23 2"}, {"zz[", "23 3"}, {"(", "23 1"}, {"()", "23 1"}, {"a]", "23 1"},
    {"a)", "23 1"}, {"@", "23 1"}, {"child::", "23 7"}, {"child", "24 0"}, {"text(", "23 5"},
    {"processing-instruction('x'", "23 26"}, {"processing-instruction('x',", "23 26"}, {"text('x')", "23 5"},
    {"f(", "23 2"}, {"f(1", "23 3"}, {"f(1]", "23 3"}, {"a[f(1]", "23 5"}, {"a[(1]", "23 4"}, {"-", "23 1"},
    {"a[1][", "23 5"}, {"a//", "23 3"}, {"a//-b", "23 3"}, {"a[1 = ]", "23 6"}, {"a |", "23 3"}, {"$v/", "23 3"},
    {"$v/$v", "23 3"}, {"(a)(b)", "23 3"}, {"1 1", "23 2"}, {"a::b", "23 0"}, {"child::child::a", "23 7"},
    {"@@a", "23 1"}, {"@@", "23 1"}, {"@..", "23 1"}, {"::", "23 0"}, {"child::.", "23 7"}, {"(a)/b", "26 0"},
    {"a[(b)/c]", "26 2"}, {"a[(1)[2]]", "26 2"},
};

static const struct text faults[] = {
    {"zz = 1", "24 0"}, {"a[b = zz]", "26 2"}, {"a[zz | b]", "24 2"}, {"a[$v][zz]", "26 2"}, {"zz(1)", "26 0"},
    {"$zz", "26 0"}, {"zz:a", "26 0"}, {"text", "24 0"}, {"a/zz", "24 2"}, {"zz/zzz", "24 0"}, {"self::zz", "24 6"},
    {"a[0.000000000000001]", "25 2"}, {"a[0000000000000001]", "25 2"}, {"a[.000000000000001]", "0 4"},
    {"a[.0000000000000001]", "25 2"}, {"a[123456789012345.]", "0 4"}, {"1234567890123456", "25 0"},
    {"a[b = 1234567890123456]", "26 2"}, {"a[1234567890123456 = zz]", "25 2"}, {"a[ b/c | d]", "26 3"},
    {"a[f()/b]", "26 2"}, {"a/namespace::b", "26 2"}, {"a/namespace::zz", "26 2"}, {"child::p:a", "26 7"},
    {"a/p:b", "26 2"}, {"p:*", "26 0"}, {"child::processing-instruction('x')", "26 7"},
    {"a/processing-instruction('x')", "26 2"}, {"a[1 + id('x')]", "26 6"}, {"a[position(1)]", "26 2"},
    {"a[last(1)]", "26 2"}, {"a[count()]", "26 2"}, {"a[count(b, c)]", "26 2"}, {"a[boolean()]", "26 2"},
    {"a[not(b, c)]", "26 2"}, {"a[1 = 'x']", "26 6"}, {"a[true()]", "26 2"}, {"a[1 + sum(b)]", "26 6"},
    {"a[1 + b]", "26 6"}, {"a[b = 1]", "26 2"}, {"a[-b]", "26 3"}, {"a[1 = 1 = 1]", "26 2"}, {"a[1 = 2 < 3]", "26 6"},
    {"a[1 + (1 = 1)]", "26 6"}, {"a[not(b) = 1]", "26 2"}, {"a[count(1)]", "26 8"}, {"-a", "26 0"}, {"  1", "26 2"},
    {"a[(b)]", "26 2"}, {"a[((b))]", "26 2"}, {"a[count((b))]", "26 8"}, {"a[c and (b)]", "26 8"}, {"(a)", "26 0"},
    {"a[('x')]", "26 3"}, {"a[(b | c)]", "26 3"}, {"( $v )", "26 2"}, {"a[(position(1))]", "26 3"},
    {"a[1 + b | c]", "26 6"}, {"a[1[2]]", "26 2"}, {"a[count(b | c)]", "26 8"}, {"a[(zz)]", "26 2"},
    {"a[1 - -b]", "26 7"}, {"a[1 = 1]/zz", "24 9"}, {"a[p:count(b)]", "26 2"}, {"a[count(count(b))]", "26 8"},
    {"a[1 + 'x' = zz]", "26 6"}, {"a[count(1 + 'x')]", "26 8"},
};

static const struct text held[] = {
    {"a[1]", "0 4"}, {"a[boolean(1)]", "0 5"}, {"a[1 and b]", "0 9"}, {"a[not(1)]", "0 6"}, {"a[b]", "0 6"},
    {"a[boolean(boolean(1))]", "0 5"}, {"a[boolean(b)]", "0 6"}, {"a[not(b)]", "0 7"}, {"a[((1))]", "0 4"},
    {"a[((1 = 1))]", "0 6"}, {"a[not((1 = 1))]", "0 7"}, {"a[boolean(1 = 1)]", "0 6"}, {"a[count(b)]", "0 6"},
    {"//b", "0 3"}, {".", "0 2"}, {"..", "0 2"}, {"/", "0 1"}, {"/.", "0 2"}, {"a[/]", "0 5"}, {"a[//b]", "0 7"},
    {"//.//.", "0 5"}, {"@a", "0 2"}, {"attribute::*", "0 2"}, {"@text()", "0 2"}, {"//@b", "0 3"}, {"@zz", "24 1"},
    {"a[@b = 1]", "26 2"}, {"@p:a", "26 1"}, {"@.", "23 1"}, {"a/attribute::b", "0 3"}, {"a[@b]", "0 6"},
    {"@a/..", "0 3"}, {"@a[1]/@b", "0 5"},
};

static void ask_all(const struct side *side, const struct text *texts, size_t len)
{
    for (size_t i = 0; i < len; i++)
        ask_text(side, texts[i].text, texts[i].answer);
}

#define ASK_ALL(side, texts) ask_all(side, texts, sizeof(texts) / sizeof *(texts))

/* a zero byte is a byte: bad as a token, good in a string */
static void ask_zero_bytes(const struct side *side)
{
    static const struct bytes zero = BYTES("a\0"), string = BYTES("a['\0']");
    ask(side, zero, four_names, ROWS_ROOM, LITERALS_ROOM, "23 1");
    ask(side, string, four_names, ROWS_ROOM, LITERALS_ROOM, "26 2");
}

/* ---- rows and literals ---- */

static const struct rows_case {
    const char *text;
    uint32_t rows[5 * MOST_ROWS];
    double literals[MOST_VALUES];
} rows_cases[] = {
    {"a[1 and b]", {1,0,0,0,0, 19,1,0,0,0, 24,0,0,1,18, 22,3,0,0,0, 20,4,0,0,0, 16,2,5,0,0, 25,0,6,0,0, 24,0,7,1,17,
                    22,8,0,0,0}, {1}},
    {"//b", {24,0,0,5,0, 24,1,0,1,18, 23,2,0,0,0}, {0}},
    {"/", {23,0,0,0,0}, {0}},
    {"../.", {24,0,0,2,0, 24,1,0,0,0, 22,2,0,0,0}, {0}},
    {"a[1 - 2 - 3]", {1,0,0,0,0, 1,1,0,0,0, 5,1,2,0,0, 1,2,0,0,0, 5,3,4,0,0, 25,0,5,0,0, 24,0,6,1,17, 22,7,0,0,0},
     {1, 2, 3}},
    {"a[1 - (2 - 3)]", {1,0,0,0,0, 1,1,0,0,0, 1,2,0,0,0, 5,2,3,0,0, 5,1,4,0,0, 25,0,5,0,0, 24,0,6,1,17, 22,7,0,0,0},
     {1, 2, 3}},
    {"a[-1 * 2]", {1,0,0,0,0, 9,1,0,0,0, 1,1,0,0,0, 6,2,3,0,0, 25,0,4,0,0, 24,0,5,1,17, 22,6,0,0,0}, {1, 2}},
    {"a[1 + 2 * 3]", {1,0,0,0,0, 1,1,0,0,0, 1,2,0,0,0, 6,2,3,0,0, 4,1,4,0,0, 25,0,5,0,0, 24,0,6,1,17, 22,7,0,0,0},
     {1, 2, 3}},
    {"a[1 or 2 and 3]", {1,0,0,0,0, 19,1,0,0,0, 1,1,0,0,0, 19,3,0,0,0, 1,2,0,0,0, 19,5,0,0,0, 16,4,6,0,0, 17,2,7,0,0,
                         25,0,8,0,0, 24,0,9,1,17, 22,10,0,0,0}, {1, 2, 3}},
    {"a[5 = 5.0][05]", {1,0,0,0,0, 1,0,0,0,0, 10,1,2,0,0, 25,0,3,0,0, 1,0,0,0,0, 25,4,5,0,0, 24,0,6,1,17, 22,7,0,0,0},
     {5}},
    {"a[2 < 1][2]", {1,0,0,0,0, 1,1,0,0,0, 12,1,2,0,0, 25,0,3,0,0, 1,0,0,0,0, 25,4,5,0,0, 24,0,6,1,17, 22,7,0,0,0},
     {2, 1}},
    {"@a[boolean(b)]/attribute::*", {24,0,0,1,18, 22,1,0,0,0, 20,2,0,0,0, 25,0,3,0,0, 24,0,4,11,17, 24,5,0,11,1,
                                     22,6,0,0,0}, {0}},
    {"a[count(/) > .5]", {23,0,0,0,0, 21,1,0,0,0, 1,0,0,0,0, 14,2,3,0,0, 25,0,4,0,0, 24,0,5,1,17, 22,6,0,0,0}, {0.5}},
    {"a[not(not(1))]", {1,0,0,0,0, 19,1,0,0,0, 18,2,0,0,0, 18,3,0,0,0, 25,0,4,0,0, 24,0,5,1,17, 22,6,0,0,0}, {1}},
    {"a[position() div last()]", {2,0,0,0,0, 3,0,0,0,0, 7,1,2,0,0, 25,0,3,0,0, 24,0,4,1,17, 22,5,0,0,0}, {0}},
    {"a[0.1 = 12345678.9012345]", {1,0,0,0,0, 1,1,0,0,0, 10,1,2,0,0, 25,0,3,0,0, 24,0,4,1,17, 22,5,0,0,0},
     {0.1, 12345678.9012345}},
    {"a[999999999999999 > .000000000000001]", {1,0,0,0,0, 1,1,0,0,0, 14,1,2,0,0, 25,0,3,0,0, 24,0,4,1,17, 22,5,0,0,0},
     {999999999999999, 1e-15}},
    {"a[3. mod 0.3]", {1,0,0,0,0, 1,1,0,0,0, 8,1,2,0,0, 25,0,3,0,0, 24,0,4,1,17, 22,5,0,0,0}, {3, 0.3}},
};

/* how many literals rows of so many numbers use: they are numbered by first use */
static uint32_t literals_used(const uint32_t *numbers, size_t len)
{
    uint32_t used = 0;
    for (size_t i = 0; i < len; i += 5)
        if (numbers[i] == 1 && numbers[i + 1] >= used)
            used = numbers[i + 1] + 1;
    return used;
}

static void ask_rows(const struct side *side)
{
    for (size_t i = 0; i < sizeof rows_cases / sizeof *rows_cases; i++) {
        const struct rows_case *c = &rows_cases[i];
        char answer[40];
        size_t len = 0;
        while (len < 5 * MOST_ROWS && c->rows[len] != 0)
            len += 5;
        uint32_t used = literals_used(c->rows, len);
        snprintf(answer, sizeof answer, "0 %lu", (unsigned long)(len / 5));
        ask_text(side, c->text, answer);
        bool same = memcmp(rows, c->rows, 4 * len) == 0 && count == used &&
                    memcmp(literals, c->literals, 8 * used) == 0;
        hold(side, c->text, "these rows and literals", same ? "these rows and literals" : "others");
    }
}

/* ---- every axis, node type and operator ---- */

/* the row of the text's own last step, which must have this axis and test */
static void ask_step(const struct side *side, const char *text, uint32_t axis, uint32_t test)
{
    const uint32_t expected[10] = {24, 0, 0, axis, test, 22, 1};
    ask_text(side, text, "0 2");
    hold(side, text, "this step", memcmp(rows, expected, sizeof expected) == 0 ? "this step" : "another");
}

static void ask_steps(const struct side *side)
{
    static const char *const axes[] = {
        "self", "child", "parent", "descendant", "ancestor", "descendant-or-self", "ancestor-or-self", "following",
        "preceding", "following-sibling", "preceding-sibling", "attribute"
    };
    static const struct { const char *text; uint32_t test; } tests[] = {
        {"node()", 0}, {"*", 1}, {"text()", 2}, {"comment()", 3}, {"processing-instruction()", 4}, {"a", 17},
        {"d", 20}
    };
    for (uint32_t axis = 0; axis < 12; axis++)
        for (size_t i = 0; i < sizeof tests / sizeof *tests; i++) {
            char text[80];
            snprintf(text, sizeof text, "%s::%s", axes[axis], tests[i].text);
            ask_step(side, text, axis, tests[i].test);
            if (axis == 1)
                ask_step(side, tests[i].text, axis, tests[i].test);
            snprintf(text, sizeof text, "@%s", tests[i].text);
            if (axis == 11)
                ask_step(side, text, axis, tests[i].test);
        }
}

static void ask_operators(const struct side *side)
{
    static const struct { const char *text; uint32_t op; } operators[] = {
        {"+", 4}, {"-", 5}, {"*", 6}, {" div ", 7}, {" mod ", 8}, {"=", 10}, {"!=", 11}, {"<", 12}, {"<=", 13},
        {">", 14}, {">=", 15}
    };
    for (size_t i = 0; i < sizeof operators / sizeof *operators; i++) {
        char text[80];
        uint32_t expected[5] = {operators[i].op, 1, 2};
        snprintf(text, sizeof text, "a[1%s2]", operators[i].text);
        ask_text(side, text, "0 6");
        hold(side, text, "this op", memcmp(rows + 10, expected, sizeof expected) == 0 ? "this op" : "another");
    }
}

/* ---- limits and rooms ---- */

/* a sum of so many different values in as many paths as are wanted, and steps behind it */
static void ask_sum(const struct side *side, int depth, int values, int steps, const char *answer)
{
    static char text[TEXT];
    int len = 0;
    for (int i = 0; i < depth; i++)
        len += snprintf(text + len, sizeof text - (size_t)len, "a[");
    for (int i = 0; i < values; i++)
        len += snprintf(text + len, sizeof text - (size_t)len, i == 0 ? "%d" : "+%d", i);
    for (int i = 0; i < depth; i++)
        len += snprintf(text + len, sizeof text - (size_t)len, "]");
    for (int i = 0; i < steps; i++)
        len += snprintf(text + len, sizeof text - (size_t)len, "/a");
    ask_text(side, text, answer);
}

/* 3 before 4 before 6: a sum of v values has 2v - 1 rows, and each path about it 3, or 4 if it stands in another */
static void ask_limits(const struct side *side)
{
    ask_sum(side, 1, 64, 0, "0 130");
    ask_sum(side, 1, 65, 0, "4 64");
    ask_sum(side, 1, 64, 126, "0 256");
    ask_sum(side, 1, 64, 127, "3 0");
    ask_sum(side, 1, 65, 124, "4 64");
    ask_sum(side, 1, 65, 125, "3 0");
    ask_sum(side, 8, 64, 0, "0 158");
    ask_sum(side, 9, 64, 0, "6 0");
    ask_sum(side, 9, 65, 0, "4 64");
    ask_sum(side, 9, 65, 100, "3 0");
    ask_sum(side, 9, 1, 0, "6 0");
}

/* a[1 = 2] has 6 rows and 2 literals */
static void ask_rooms(const struct side *side)
{
    static const struct { size_t rows, literals; const char *answer; } rooms[] = {
        {30, 2, "0 6"}, {29, 2, "21 30"}, {30, 1, "27 2"}, {0, 0, "21 30"}, {29, 1, "21 30"}, {31, 0, "27 2"},
        {31, 3, "0 6"}, {1280, 1, "27 2"}, {25, 64, "21 30"},
    };
    static const struct bytes text = BYTES("a[1 = 2]"), plain = BYTES("a"), bad = BYTES("a[zz");
    static const struct bytes unheld = BYTES("a['x']");
    for (size_t i = 0; i < sizeof rooms / sizeof *rooms; i++)
        ask(side, text, four_names, rooms[i].rows, rooms[i].literals, rooms[i].answer);
    ask(side, plain, four_names, 10, 0, "0 2");
    ask(side, plain, four_names, 9, 0, "21 10");
    ask(side, bad, four_names, 0, 0, "23 4");
    ask(side, unheld, four_names, 0, 0, "26 2");
}

int fixed_texts(void)
{
    for (size_t i = 0; i < sizeof sides / sizeof *sides; i++) {
        ask_lists(&sides[i]);
        ASK_ALL(&sides[i], tokens);
        ASK_ALL(&sides[i], grammar);
        ASK_ALL(&sides[i], faults);
        ASK_ALL(&sides[i], held);
        ask_zero_bytes(&sides[i]);
        ask_rows(&sides[i]);
        ask_steps(&sides[i]);
        ask_operators(&sides[i]);
        ask_limits(&sides[i]);
        ask_rooms(&sides[i]);
    }
    printf("fixed texts: %d answers, %d different\n", answers, differences);
    return differences != 0;
}
