/* compare_files.c: the comparison of table files that compare_files.h declares. */
#include "compare_files.h"

#include "bargetulip.h"
#include "files.h"
#include "harness.h"
#include "random_files.h"

#include <stdio.h>
#include <string.h>

enum { NUMBERS = 22, MORE_ROOM = 400, OUT_WORDS = FILE_ROOM / 4 + MORE_ROOM, SHOWN = 40 };

enum function { READ, WRITE };

static const char *const names[] = {"bt_read_table", "bt_write_table"};

static uint64_t seen[2][NUMBERS], undamaged, damaged[DAMAGES];

/* how many tables with more than FORMER_ROWS rows were read and written */
static uint64_t large[2];

/* ---- one question ---- */

/* a file to read or a table to write, with a copy in front of a fence, and the room for the answer: numbers,
 * or bytes from the shift on */
struct question {
    enum function f;
    const void *given, *fenced;
    size_t len, room, shift;
};

static size_t given_bytes(const struct question *q)
{
    return q->f == READ ? q->len : 4 * q->len;
}

/* the two sides that are asked */
struct side {
    const char *name;
    uint32_t (*read)(const uint8_t *file, size_t file_len, uint32_t *out, size_t out_len, uint64_t *place);
    uint32_t (*write)(const uint32_t *table, size_t table_len, uint8_t *out, size_t out_len, uint64_t *place);
};

static const struct side archive = {"archive", bt_read_table, bt_write_table};
static const struct side reference = {"reference", ref_read_table, ref_write_table};

struct answer {
    uint32_t number;
    uint64_t place[3]; /* the place with a sentinel on both sides */
    uint32_t out[MARGIN + OUT_WORDS + MARGIN];
};

/* the bytes of an answer's output that are compared: the room with a margin on both sides */
static size_t compared(const struct question *q)
{
    size_t words = q->f == READ ? q->room : (q->shift + q->room + 3) / 4;
    return 4 * (MARGIN + words + MARGIN);
}

static void fill(struct answer *answer, const struct question *q, uint64_t seed)
{
    struct random random = {seed};
    for (int i = 0; i < 3; i++)
        answer->place[i] = (uint64_t)any(&random) * 0x9E3779B97F4A7C15u;
    fill_words(&random, answer->out, compared(q) / 4);
}

static uint8_t *bytes_out(const struct question *q, struct answer *answer)
{
    return (uint8_t *)(answer->out + MARGIN) + q->shift;
}

/* asks one side, into an answer that begins as the untouched one */
static void ask(const struct side *side, const struct question *q, const struct answer *untouched,
                struct answer *answer)
{
    memcpy(answer->place, untouched->place, sizeof answer->place);
    memcpy(answer->out, untouched->out, compared(q));
    if (q->f == READ)
        answer->number = side->read(q->fenced, q->len, answer->out + MARGIN, q->room, &answer->place[1]);
    else
        answer->number = side->write(q->fenced, q->len, bytes_out(q, answer), q->room, &answer->place[1]);
}

/* ---- a difference ---- */

/* whether a byte is printed as it stands */
static bool is_plain(uint8_t byte)
{
    return byte == '\n' || (byte >= ' ' && byte <= '~' && byte != '\\');
}

static void print_file(const char *what, const uint8_t *bytes, size_t len)
{
    printf("%s, %lu bytes:\n", what, (unsigned long)len);
    for (size_t i = 0; i < len; i++)
        printf(is_plain(bytes[i]) ? "%c" : "\\x%02X", bytes[i]);
    puts("(end)");
}

/* an answer and the first of its output */
static void print_answer(const struct side *side, const struct question *q, struct answer *answer)
{
    size_t shown = q->room < SHOWN ? q->room : SHOWN;
    printf("%s: number %u, place %lu\n", side->name, answer->number, (unsigned long)answer->place[1]);
    if (q->f == READ)
        print_rows("out", answer->out + MARGIN, shown, 4);
    else
        print_file("out", bytes_out(q, answer), shown);
}

static void report(const char *why, const struct question *q, struct answer *expected, struct answer *found)
{
    printf("DIFFERENCE in %s: %s\n", names[q->f], why);
    if (q->f == READ)
        print_file("file", q->given, q->len);
    else
        print_rows("table", q->given, q->len, 4);
    printf("room %lu\n", (unsigned long)q->room);
    print_answer(&reference, q, expected);
    print_answer(&archive, q, found);
}

/* ---- comparing ---- */

/* whether the archive's other function gives back what the archive was asked with */
static bool turns_back(const struct question *q, struct answer *found)
{
    static uint32_t back[OUT_WORDS];
    uint64_t place, len = found->place[1];
    uint32_t number = q->f == READ ? bt_write_table(found->out + MARGIN, len, (uint8_t *)back, sizeof back, &place)
                                   : bt_read_table(bytes_out(q, found), len, back, OUT_WORDS, &place);
    return number == 0 && place == q->len && memcmp(back, q->given, given_bytes(q)) == 0;
}

/* what is wrong with the archive's answer, or nothing */
static const char *fault(const struct question *q, const struct answer *expected, struct answer *found,
                         const struct answer *untouched)
{
    if (found->number != expected->number)
        return "the number";
    if (found->place[1] != expected->place[1])
        return "the place";
    if (found->place[0] != untouched->place[0] || found->place[2] != untouched->place[2])
        return "a word beside the place was written";
    if (found->number != 0 && memcmp(found->out, untouched->out, compared(q)) != 0)
        return "a refusal wrote to the output";
    if (memcmp(found->out, expected->out, compared(q)) != 0)
        return "the output slice or what stands around it";
    if (found->number == 0 && !turns_back(q, found))
        return "the other function doesn't give the input back";
    return NULL;
}

static bool agree(const struct question *q, uint64_t seed)
{
    static struct answer untouched, expected, found;
    fill(&untouched, q, seed);
    ask(&reference, q, &untouched, &expected);
    ask(&archive, q, &untouched, &found);
    const char *why = fault(q, &expected, &found, &untouched);
    if (!why && memcmp(q->fenced, q->given, given_bytes(q)) != 0)
        why = "the input was changed";
    if (why)
        report(why, q, &expected, &found);
    seen[q->f][expected.number]++;
    large[q->f] += expected.number == 0 && (q->f == READ ? expected.place[1] : q->len) > 4 * FORMER_ROWS;
    return !why;
}

static const void *fence(const void *from, size_t bytes)
{
    static char *end;
    if (!end)
        end = fenced_area(FILE_ROOM);
    return put(end, from, bytes);
}

/* a room of that size, or less or more */
static size_t some_room(struct random *random, size_t needed)
{
    return choose_room(random, needed, needed + MORE_ROOM, chance(random, 50));
}

/* a file of the input's rows; counts the kinds of its damage */
static void make_counted(struct random *random, const struct input *in, struct table_file *file)
{
    uint32_t kinds = make_file(random, in, file);
    undamaged += kinds == 0;
    for (int kind = 0; kind < DAMAGES; kind++)
        damaged[kind] += kinds >> kind & 1;
}

bool files_agree(struct random *random, const struct input *in)
{
    static struct table_file file;
    size_t rows = in->table_len / 4, bytes = file_of_rows(in->table, rows, file.bytes);
    struct question write = {WRITE, in->table, fence(in->table, 4 * in->table_len), in->table_len, 0, 0};
    write.room = some_room(random, bytes);
    write.shift = below(random, 4);
    if (!agree(&write, random->state))
        return false;
    make_counted(random, in, &file);
    struct question read = {READ, file.bytes, fence(file.bytes, file.len), file.len, 0, 0};
    read.room = some_room(random, 4 * rows);
    return agree(&read, random->state);
}

void print_files_seen(void)
{
    for (int f = READ; f <= WRITE; f++)
        print_seen(names[f], seen[f], NUMBERS, "number:times");
    printf("files            undamaged:%lu", (unsigned long)undamaged);
    for (int kind = 0; kind < DAMAGES; kind++)
        printf("%s%s:%lu", kind == DAMAGES / 2 ? "\n                 " : "  ", damage_name(kind),
               (unsigned long)damaged[kind]);
    puts("  (damage:times)");
    printf("over %d rows   %lu files read, %lu written\n", FORMER_ROWS, (unsigned long)large[READ],
           (unsigned long)large[WRITE]);
}
