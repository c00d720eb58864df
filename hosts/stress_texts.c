/* stress_texts.c: texts and lists of names as long and as deep as they may be, and just around the limits.
 *
 * Each case has its answer, worked out by hand from document 02, and runs the
 * archive on a stack of 1 MiB (small_stack.h). The reference is asked too, on
 * the ordinary stack; of texts that are nested too deep for it, it says so, and
 * where such a text is accepted its rows are held to those that the reference
 * finds for a short text.
 */
#include "stress_texts.h"

#include "bargetulip.h"
#include "small_stack.h"
#include "texts.h"

#include <stdio.h>
#include <string.h>

enum { MILLION = 1000000, TEXT_ROOM = 10 * MILLION, NAMES_ROOM = 2 * MILLION, ROWS_ROOM = 5 * 256, LITERALS_ROOM = 64 };

static uint8_t text[TEXT_ROOM], names[NAMES_ROOM];
static size_t text_len, names_len;

struct answer {
    uint32_t number, count;
    uint64_t place;
    uint32_t rows[ROWS_ROOM];
    double literals[LITERALS_ROOM];
};

/* ---- asking ---- */

static void *run_archive(void *argument)
{
    struct answer *a = argument;
    a->number = bt_read_path(text, text_len, names, names_len, a->rows, ROWS_ROOM, a->literals, LITERALS_ROOM,
                             &a->place, &a->count);
    return NULL;
}

static void run_reference(const uint8_t *bytes, size_t len, struct answer *a)
{
    memset(a, 0, sizeof *a);
    a->number = ref_read_path(bytes, len, names, names_len, a->rows, ROWS_ROOM, a->literals, LITERALS_ROOM, &a->place,
                              &a->count);
}

/* what must come out beside the number and the place: what the reference finds for the text, or for one that has the
 * same rows if it is given, or nothing if the text is refused */
static void expect(const char *like, uint32_t number, uint64_t place, struct answer *expected)
{
    if (like)
        run_reference((const uint8_t *)like, strlen(like), expected);
    else
        run_reference(text, text_len, expected);
    if (expected->number == REF_TOO_DEEP) {
        expected->number = number;
        expected->place = place;
    }
}

/* reads the text on both sides; both answers must be this number and place */
static void run_case(const char *what, uint32_t number, uint64_t place, const char *like)
{
    static struct answer expected, found;
    expect(like, number, place, &expected);
    memset(&found, 0, sizeof found);
    size_t used = on_small_stack(run_archive, &found);
    bool same = expected.number == number && expected.place == place && memcmp(&expected, &found, sizeof found) == 0;
    printf("%s  %-48s %7lu bytes, text %u/%lu, stack %lu KiB\n", same ? "same" : "DIFFERENT", what,
           (unsigned long)text_len, found.number, (unsigned long)found.place, (unsigned long)(used / 1024));
    if (!same)
        printf("  expected %u/%lu, reference %u/%lu\n", number, (unsigned long)place, expected.number,
               (unsigned long)expected.place);
    note(what, same, used);
}

/* ---- making texts ---- */

static void put(const char *bytes, size_t times)
{
    for (size_t len = strlen(bytes); times > 0; times--) {
        memcpy(text + text_len, bytes, len);
        text_len += len;
    }
}

static void put_name(const char *bytes, size_t len)
{
    memcpy(names + names_len, bytes, len);
    names_len += len;
}

static void use_four_names(void)
{
    names_len = 0;
    put_name("a\nb\nc\nd\n", 8);
}

/* ---- texts that repeat something ---- */

/* a beginning, something so many times, a middle, something as often, and an end; the number and the place of the
 * answer, and a short text with the same rows if it is accepted and too deep for the reference */
static const struct repeated {
    const char *begin, *opening, *middle, *closing, *end;
    size_t times;
    uint32_t number;
    uint64_t place;
    const char *like;
} repeats[] = {
    {"", "(", "", "", "", MILLION, 23, 1000000, NULL},
    {"a[", "(", "1", ")", "]", 1000, 0, 4, NULL},
    {"a[", "(", "1", ")", "]", MILLION, 0, 4, "a[1]"},
    {"a[", "(", "1 = 2", ")", "]", MILLION, 0, 6, "a[1 = 2]"},
    {"a[", "(", "1", ")", "", MILLION, 23, 2000003, NULL},
    {"(", "(", "1", ")", "]", MILLION, 23, 2000002, NULL},
    {"", "(", "1", ")", ")", MILLION, 23, 2000001, NULL},
    {"a[", "(", "1", "", "]", MILLION, 23, 1000003, NULL},
    {"a[", "(", "zz", ")", "]", MILLION, 26, 2, NULL},
    {"a[", "(", "1 + zz", ")", "]", MILLION, 24, 1000006, NULL},
    {"a[", "(", "'x'", ")", "]", MILLION, 26, 1000002, NULL},
    {"a[", "(", "1 = 1 = 1", ")", "]", MILLION, 26, 1000002, NULL},
    {"a[", "(", "1234567890123456", ")", "]", MILLION, 25, 1000002, NULL},
    {"a[", "(", "1", ")", "[1]]", MILLION, 26, 2, NULL},
    {"a[", "(", "b", ")", "/c]", MILLION, 26, 2, NULL},
    {"", "(", "a", ")", "", MILLION, 26, 0, NULL},
    {"", "(", "1", ")", "", MILLION, 26, 0, NULL},
    {"", "not(", "", "", "", MILLION, 23, 4000000, NULL},
    {"a[", "not(", "1", ")", "]", MILLION, 3, 0, NULL},
    {"a[", "not(", "zz", ")", "]", MILLION, 24, 4000002, NULL},
    {"a[", "not(", "1", ")", "]", 251, 0, 256, NULL},
    {"a[", "not(", "1", ")", "]", 252, 3, 0, NULL},
    {"a[", "not((", "1 = 1", "))", "]", MILLION, 3, 0, NULL},
    {"a[", "boolean(", "1", ")", "]", MILLION, 0, 5, "a[boolean(1)]"},
    {"a[", "boolean(", "b", ")", "]", MILLION, 0, 6, "a[b]"},
    {"a[", "boolean(", "zz", ")", "]", MILLION, 24, 8000002, NULL},
    {"a[", "count(", "b", ")", "]", MILLION, 26, 8, NULL},
    {"a[", "f(", "", ")", "]", MILLION, 26, 2, NULL},
    {"", "f(", "", "", "", MILLION, 23, 2000000, NULL},
    {"a[1+", "f(", "", ")", "]", MILLION, 26, 4, NULL},
    {"a[f(1", ",1", "", "", ")]", MILLION, 26, 2, NULL},
    {"a[f(1", ",1", "", "", "", MILLION, 23, 2000005, NULL},
    {"a[", "-", "1", "", "]", MILLION, 3, 0, NULL},
    {"a[", "-", "1", "", "]", 252, 0, 256, NULL},
    {"a[", "-", "1", "", "]", 253, 3, 0, NULL},
    {"", "-", "1", "", "", MILLION, 26, 0, NULL},
    {"", "-", "", "", "", MILLION, 23, 1000000, NULL},
    {"a[", "-", "zz", "", "]", MILLION, 24, 1000002, NULL},
    {"a[", "-", "b", "", "]", MILLION, 26, 1000002, NULL},
    {"a[", "-(", "1", ")", "]", MILLION, 3, 0, NULL},
    {"a", "/a", "", "", "", MILLION, 3, 0, NULL},
    {"a", "/a", "", "", "", 254, 0, 256, NULL},
    {"a", "/a", "", "", "", 255, 3, 0, NULL},
    {"a", "/a", "/zz", "", "", MILLION, 24, 2000002, NULL},
    {"", "a/", "", "", "", MILLION, 23, 2000000, NULL},
    {"", "//a", "", "", "", MILLION, 3, 0, NULL},
    {"", "//a", "", "", "", 127, 0, 255, NULL},
    {"", "//a", "", "", "", 128, 3, 0, NULL},
    {"a", "[1]", "", "", "", MILLION, 3, 0, NULL},
    {"a", "[1]", "", "", "", 127, 0, 256, NULL},
    {"a", "[1]", "", "", "", 128, 3, 0, NULL},
    {"a", "[1]", "[zz]", "", "", MILLION, 24, 3000002, NULL},
    {"", "a[", "a", "]", "", 7, 0, 30, NULL},
    {"", "a[", "a", "]", "", 8, 6, 0, NULL},
    {"", "a[", "a", "]", "", 63, 6, 0, NULL},
    {"", "a[", "a", "]", "", 64, 3, 0, NULL},
    {"", "a[", "a", "]", "", MILLION, 3, 0, NULL},
    {"", "a[", "zz", "]", "", MILLION, 24, 2000000, NULL},
    {"", "a[", "'x'", "]", "", MILLION, 26, 2000000, NULL},
    {"", "a[", "", "", "", MILLION, 23, 2000000, NULL},
    {"", "a[", "a", "]", "]", MILLION, 23, 3000001, NULL},
    {"", "a[", "a", "", ")", MILLION, 23, 2000001, NULL},
    {"", "(a[", "1", "", ")", MILLION, 23, 3000001, NULL},
    {"", "(a[", "1", "])", "", MILLION, 26, 0, NULL},
    {"", "a[(", "1", ")]", "", MILLION, 26, 2, NULL},
    {"", "a[not(", "1", ")]", "", 8, 0, 41, NULL},
    {"", "a[not(", "1", ")]", "", 9, 6, 0, NULL},
    {"", "a[not(", "1", ")]", "", MILLION, 3, 0, NULL},
    {"", "a[count(", "a", ")]", "", 7, 0, 30, NULL},
    {"", "a[count(", "a", ")]", "", 8, 6, 0, NULL},
    {"a[", "1+", "1", "", "]", 126, 0, 256, NULL},
    {"a[", "1+", "1", "", "]", 127, 3, 0, NULL},
    {"a[", "1+", "1", "", "]", MILLION, 3, 0, NULL},
    {"a[", "1+", "zz", "", "]", MILLION, 24, 2000002, NULL},
    {"a[", "1=", "1", "", "]", MILLION, 26, 2, NULL},
    {"a[", "1+(", "1", ")", "]", MILLION, 3, 0, NULL},
    {"a[", "b or ", "c", "", "]", MILLION, 3, 0, NULL},
    {"a", "|a", "", "", "", MILLION, 26, 0, NULL},
    {"a", "|a", "", "", "|", MILLION, 23, 2000002, NULL},
    {"a[(1)", "[1]", "", "", "]", MILLION, 26, 2, NULL},
    {"a[1", "[1", "", "]", "]", MILLION, 26, 2, NULL},
    {"", " ", "", "", "", MILLION, 23, 1000000, NULL},
    {"", " ", "a", "\n", "", MILLION, 0, 2, NULL},
    {"a[text", " ", "(", " ", ")]", MILLION, 0, 6, NULL},
    {"a[self", " ", "::", " ", "b]", MILLION, 0, 6, NULL},
    {"", "a", "", "", "", MILLION, 24, 0, NULL},
    {"p:", "a", "", "", "", MILLION, 26, 0, NULL},
    {"a[", "1", "", "", "]", MILLION, 25, 2, NULL},
    {"a[.", "0", "", "", "]", MILLION, 25, 2, NULL},
    {"a['", "x", "", "", "]", MILLION, 23, 2, NULL},
    {"a['", "x", "']", "", "", MILLION, 26, 2, NULL},
    {"", "//", "", "", "", MILLION, 23, 2, NULL},
    {"", ".", "", "", "", MILLION, 23, 2, NULL},
    {"", "*", "", "", "", MILLION, 23, 1000000, NULL},
    {"*", "*", "", "", "", MILLION, 26, 0, NULL},
    {"", "a[b]/", "", "", "#", MILLION, 23, 5000000, NULL},
};

static void run_repeats(void)
{
    use_four_names();
    for (size_t i = 0; i < sizeof repeats / sizeof *repeats; i++) {
        const struct repeated *r = &repeats[i];
        char what[64];
        text_len = 0;
        put(r->begin, 1);
        put(r->opening, r->times);
        put(r->middle, 1);
        put(r->closing, r->times);
        put(r->end, 1);
        snprintf(what, sizeof what, "%s %lu times %s .. %s %s%s", r->begin, (unsigned long)r->times, r->opening,
                 r->middle, r->closing, r->end);
        run_case(what, r->number, r->place, r->like);
    }
}

/* ---- lists of names ---- */

enum { MOST_NAMES = BT_MAX_NAMES, USED = 250 };

/* so many names, n and their numbers */
static void use_names(uint32_t count)
{
    names_len = 0;
    for (uint32_t i = 1; i <= count; i++)
        names_len += (size_t)snprintf((char *)names + names_len, 16, "n%u\n", i);
}

/* a step to each of 250 names all over the list, the last one of the list among them */
static void run_many_names(void)
{
    use_names(MOST_NAMES);
    text_len = 0;
    for (uint32_t i = 1; i <= USED; i++)
        text_len += (size_t)snprintf((char *)text + text_len, 16, i == 1 ? "n%u" : "/n%u",
                                     MOST_NAMES - 262 * (USED - i));
    run_case("65,535 names, 250 of them used", 0, USED + 1, NULL);
    put("/n65536", 1);
    run_case("and one that is none of them", 24, text_len - 6, NULL);
}

/* the text a with a list of names that is bad at that line */
static void run_bad_list(const char *what, uint64_t line)
{
    text_len = 0;
    put("a", 1);
    run_case(what, 22, line, NULL);
}

static void run_bad_lists(void)
{
    use_names(MOST_NAMES + 1);
    run_bad_list("65,536 names", MOST_NAMES + 1);
    use_names(MOST_NAMES);
    put_name("a", 1);
    run_bad_list("65,535 names and a byte", MOST_NAMES + 1);
    use_names(MOST_NAMES);
    put_name("n1\n", 3);
    run_bad_list("65,535 names and the first again", MOST_NAMES + 1);
    use_names(MOST_NAMES - 1);
    put_name("n1\n", 3);
    run_bad_list("65,534 names and the first again", MOST_NAMES);
    use_names(MOST_NAMES - 1);
    put_name("n65534\n", 7);
    run_bad_list("65,534 names and the last again", MOST_NAMES);
    memset(names, '\n', names_len = NAMES_ROOM);
    run_bad_list("two million line feeds", 1);
    memset(names, 'n', NAMES_ROOM);
    run_bad_list("two million letters", 1);
}

/* one name of a million bytes, and a text that is as much of it as is left, a step or a name behind another */
static void run_long_name(void)
{
    memset(names, 'n', names_len = MILLION);
    put_name("\n", 1);
    text_len = 0;
    put("n", MILLION);
    run_case("a name of a million bytes", 0, 2, NULL);
    put("n", 1);
    run_case("and a byte more", 24, 0, NULL);
    text_len -= 2;
    run_case("and a byte less", 24, 0, NULL);
    text[text_len - 1] = 'm';
    put("n", 1);
    run_case("and another byte before the last", 24, 0, NULL);
}

/* two names of nearly a million bytes that differ in the last */
static void run_long_names(void)
{
    memset(names, 'n', names_len = MILLION - 2);
    put_name("1\n", 2);
    memset(names + names_len, 'n', MILLION - 2);
    names_len += MILLION - 2;
    put_name("2\n", 2);
    text_len = 0;
    put("n", MILLION - 2);
    put("2/", 1);
    put("n", MILLION - 2);
    put("1", 1);
    run_case("two names that differ in their last byte", 0, 3, NULL);
    names[names_len - 2] = '1';
    run_case("the same name twice", 22, 2, NULL);
}

void stress_texts(void)
{
    run_repeats();
    run_many_names();
    run_bad_lists();
    run_long_name();
    run_long_names();
}
