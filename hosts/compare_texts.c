/* compare_texts.c: the comparison of path texts that compare_texts.h declares. */
#include "compare_texts.h"

#include "bargetulip.h"
#include "harness.h"
#include "random_texts.h"
#include "texts.h"

#include <stdio.h>
#include <string.h>

/* numbers given back, texts to an input, and the room of an output at most */
enum { NUMBERS = 28, TEXTS = 8, ROWS_ROOM = 5 * BT_MAX_PATH_ROWS + 60, LITERALS_ROOM = BT_MAX_LITERALS + 20 };

static uint64_t seen[NUMBERS], kinds_seen[TEXT_KINDS], left_out;

/* ---- one question ---- */

/* a text and names, with copies in front of fences, and the rooms for rows and literals */
struct question {
    const struct text_input *in;
    const uint8_t *text, *names;
    size_t rows_room, literals_room;
};

typedef uint32_t read_function(const uint8_t *text, size_t text_len, const uint8_t *names, size_t names_len,
                               uint32_t *rows, size_t rows_len, double *literals, size_t literals_len,
                               uint64_t *place, uint32_t *literal_count);

/* the place and the count stand between sentinels, rows and literals between margins; a literal has two words */
struct answer {
    uint32_t number;
    uint64_t place[3];
    uint32_t count[3], rows[MARGIN + ROWS_ROOM + MARGIN];
    double literals[MARGIN + LITERALS_ROOM + MARGIN];
};

static void fill(struct answer *answer, uint64_t seed)
{
    struct random random = {seed};
    memset(answer, 0, sizeof *answer);
    for (int i = 0; i < 3; i++)
        answer->place[i] = (uint64_t)any(&random) * 0x9E3779B97F4A7C15u;
    fill_words(&random, answer->count, 3);
    fill_words(&random, answer->rows, MARGIN + ROWS_ROOM + MARGIN);
    for (int i = 0; i < MARGIN + LITERALS_ROOM + MARGIN; i++) {
        uint32_t words[2] = {any(&random), any(&random)};
        memcpy(&answer->literals[i], words, sizeof words);
    }
}

/* asks one side, into an answer that begins as the untouched one */
static void ask(read_function *read, const struct question *q, const struct answer *untouched, struct answer *answer)
{
    memcpy(answer, untouched, sizeof *answer);
    answer->number = read(q->text, q->in->text_len, q->names, q->in->names_len, answer->rows + MARGIN, q->rows_room,
                          answer->literals + MARGIN, q->literals_room, &answer->place[1], &answer->count[1]);
}

/* ---- a difference ---- */

/* whether a byte is printed as it stands */
static bool is_plain(uint8_t byte)
{
    return byte >= ' ' && byte <= '~' && byte != '\\';
}

static void print_bytes(const char *what, const uint8_t *bytes, size_t len)
{
    printf("%s, %lu bytes: ", what, (unsigned long)len);
    for (size_t i = 0; i < len; i++)
        printf(is_plain(bytes[i]) ? "%c" : "\\x%02X", bytes[i]);
    puts("(end)");
}

static void print_answer(const char *side, const struct question *q, const struct answer *answer)
{
    bool done = answer->number == 0;
    uint64_t numbers = done ? 5 * answer->place[1] : 0, literals = done ? answer->count[1] : 0;
    printf("%s: number %u, place %lu, literals %u\n", side, answer->number, (unsigned long)answer->place[1],
           answer->count[1]);
    print_rows("rows", answer->rows + MARGIN, numbers < q->rows_room ? numbers : q->rows_room, 5);
    for (size_t i = 0; i < literals && i < q->literals_room; i++)
        printf("%.17g ", answer->literals[MARGIN + i]);
    puts("");
}

static void report(const char *why, const struct question *q, const struct answer *expected, const struct answer *found)
{
    printf("DIFFERENCE in bt_read_path: %s\n", why);
    print_bytes("text", q->in->text, q->in->text_len);
    print_bytes("names", q->in->names, q->in->names_len);
    printf("room for %lu numbers and %lu literals\n", (unsigned long)q->rows_room, (unsigned long)q->literals_room);
    print_answer("reference", q, expected);
    print_answer("archive", q, found);
}

/* ---- comparing ---- */

/* whether a word beside the place or the count was written */
static bool strayed(const struct answer *found, const struct answer *untouched)
{
    return found->place[0] != untouched->place[0] || found->place[2] != untouched->place[2] ||
           found->count[0] != untouched->count[0] || found->count[2] != untouched->count[2];
}

static bool same_output(const struct answer *found, const struct answer *other)
{
    return memcmp(found->rows, other->rows, sizeof found->rows) == 0 &&
           memcmp(found->literals, other->literals, sizeof found->literals) == 0;
}

/* whether what was written is an accepted path of so many rows */
static bool is_accepted(const struct answer *found)
{
    uint32_t rows;
    uint32_t number = bt_check_path(found->rows + MARGIN, 5 * found->place[1], found->literals + MARGIN,
                                    found->count[1], &rows);
    return number == 0 && rows == found->place[1];
}

/* what is wrong with the archive's answer, or nothing */
static const char *fault(const struct answer *expected, const struct answer *found, const struct answer *untouched)
{
    if (found->number != expected->number)
        return "the number";
    if (found->place[1] != expected->place[1])
        return "the place";
    if (found->count[1] != expected->count[1])
        return "the number of literals";
    if (strayed(found, untouched))
        return "a word beside the place or the number of literals was written";
    if (found->number != 0 && !same_output(found, untouched))
        return "a refusal wrote to an output";
    if (!same_output(found, expected))
        return "an output or what stands around it";
    if (found->number == 0 && !is_accepted(found))
        return "the checker does not accept the rows";
    return NULL;
}

static const uint8_t *fence_text(const struct text_input *in)
{
    static char *end;
    if (!end)
        end = fenced_area(TEXT_ROOM);
    return put(end, in->text, in->text_len);
}

static const uint8_t *fence_names(const struct text_input *in)
{
    static char *end;
    if (!end)
        end = fenced_area(NAMES_ROOM);
    return put(end, in->names, in->names_len);
}

static bool is_changed(const struct question *q)
{
    return memcmp(q->text, q->in->text, q->in->text_len) != 0 || memcmp(q->names, q->in->names, q->in->names_len) != 0;
}

static bool agree(const struct question *q, const struct answer *untouched)
{
    static struct answer expected, found;
    ask(ref_read_path, q, untouched, &expected);
    if (expected.number == REF_TOO_DEEP) {
        left_out++;
        return true;
    }
    ask(bt_read_path, q, untouched, &found);
    const char *why = is_changed(q) ? "the input was changed" : fault(&expected, &found, untouched);
    if (why)
        report(why, q, &expected, &found);
    seen[expected.number]++;
    return !why;
}

/* ---- random texts ---- */

/* how much the reference says that the text needs of both rooms: what its rows take, or little */
static void find_needed(const struct text_input *in, size_t *numbers, size_t *literals)
{
    static uint32_t rows[5 * BT_MAX_PATH_ROWS];
    static double values[BT_MAX_LITERALS];
    uint64_t place;
    uint32_t count;
    uint32_t number = ref_read_path(in->text, in->text_len, in->names, in->names_len, rows, 5 * BT_MAX_PATH_ROWS,
                                    values, BT_MAX_LITERALS, &place, &count);
    *numbers = number == 0 ? 5 * place : 5;
    *literals = count;
}

/* mostly enough for one of the two, so that each is short often enough */
static void choose_rooms(struct random *random, struct question *q)
{
    size_t numbers, literals;
    find_needed(q->in, &numbers, &literals);
    q->rows_room = chance(random, 50) ? numbers : choose_room(random, numbers, ROWS_ROOM, true);
    q->literals_room = chance(random, 50) ? literals : choose_room(random, literals, LITERALS_ROOM, true);
    if (q->rows_room > ROWS_ROOM)
        q->rows_room = ROWS_ROOM;
    if (q->literals_room > LITERALS_ROOM)
        q->literals_room = LITERALS_ROOM;
}

bool texts_agree(struct random *random)
{
    static struct text_input in;
    static struct answer untouched;
    fill(&untouched, any(random));
    for (int n = 0; n < TEXTS; n++) {
        kinds_seen[make_text(random, &in)]++;
        struct question q = {&in, fence_text(&in), fence_names(&in), 0, 0};
        choose_rooms(random, &q);
        if (!agree(&q, &untouched))
            return false;
    }
    return true;
}

void print_texts_seen(void)
{
    print_seen("bt_read_path", seen, NUMBERS, "number:times");
    printf("texts          ");
    for (int kind = 0; kind < TEXT_KINDS; kind++)
        printf("  %s:%lu", text_kind_name(kind), (unsigned long)kinds_seen[kind]);
    printf("  (kind:times; %lu left out as too deep)\n", (unsigned long)left_out);
}

/* ---- every change of one byte ---- */

/* texts that have every token and construct, and some outside the grammar */
static const char *const edited[] = {
    "", "/", "//a", "a//b/..", ".", "../.", "/ *", "* * *", "a[1]", "a[1.50 = .5]", "@a/..", "a/@*", "attribute::b",
    "child :: a", "/descendant-or-self::node()/c", "text ( )", "processing-instruction()", "comment()",
    "processing-instruction('x')", "a[b][c]", "a[position() > last()*0.5]", "a[count(b) = 2]", "a[not(b or c)]",
    "a[boolean(-1)]", "a[((1))]", "a[(b)]", "a[1 and 2 or 3]", "a[1 div 2 mod 3]", "a[1 != 2]", "a[1 <= 2]",
    "a[1<2>=3]", "a[- -1 - 1]", "a | b", "(a)/b", "a[$p:v]", "a[\"'\"]", "a[f(1,'x')]", "p:a[p:*]", "a[id(1)[2]//b]",
    "and/or/div", "a[and and and]", "a-b[a.b]", "namespace::a", "a[123456789012345]", "a[0.12345678901234]",
    "a[b[c[d[a[b[c[d]]]]]]]", "last()", "a[.]", "a[..]", "a[//b]", "a[/]", "  a  ", "a[1 = 'x']", "zz", "a[zz = 1]",
    "a[$v][zz]",
};

/* bytes that are put in: one of each kind that tokens know, and some that they don't */
static const char edit_bytes[] = "ab1. /*@[](),:$'\"|+-=!<>_#\n\200"; /* and the zero behind it */

static struct text_input edit_input;
static uint64_t edits_made;

/* the text with so many bytes from at on replaced by one, or dropped */
static bool edit_agrees(const char *text, size_t at, size_t old, const char *by, size_t count)
{
    static struct answer untouched;
    struct text_input *in = &edit_input;
    size_t len = strlen(text);
    if (edits_made++ == 0)
        fill(&untouched, 1);
    memcpy(in->text, text, at);
    memcpy(in->text + at, by, count);
    memcpy(in->text + at + count, text + at + old, len - at - old);
    in->text_len = len - old + count;
    struct question q = {in, fence_text(in), fence_names(in), ROWS_ROOM, LITERALS_ROOM};
    return agree(&q, &untouched);
}

/* all edits at one byte, or behind the last */
static bool edits_agree_at(const char *text, size_t at)
{
    bool inside = at < strlen(text);
    if (inside && !edit_agrees(text, at, 1, "", 0))
        return false;
    for (size_t i = 0; i < sizeof edit_bytes; i++)
        if (!edit_agrees(text, at, 0, &edit_bytes[i], 1) || (inside && !edit_agrees(text, at, 1, &edit_bytes[i], 1)))
            return false;
    return true;
}

int edits(void)
{
    static const char names[] = "a\nb\nc\nd\nand\nor\ndiv\na-b\na.b\n";
    edit_input.names_len = sizeof names - 1;
    memcpy(edit_input.names, names, sizeof names - 1);
    for (size_t i = 0; i < sizeof edited / sizeof *edited; i++)
        for (size_t at = 0; at <= strlen(edited[i]); at++)
            if (!edits_agree_at(edited[i], at))
                return 1;
    printf("edits: %lu texts by one byte from %lu\n", (unsigned long)edits_made,
           (unsigned long)(sizeof edited / sizeof *edited));
    print_seen("bt_read_path", seen, NUMBERS, "number:times");
    return 0;
}
