/* compare.c: holds the archive to the independent reference on random inputs.
 *
 *   compare SEED COUNT [FIRST]   COUNT random inputs, all eight functions each
 *   compare fixed                the cases whose answers are known
 *   compare stress               the largest inputs, on a stack of 1 MiB
 *
 * Both sides get the same output slice, filled with the same random words and
 * with more such words around it; afterwards the whole must be equal, and on a
 * refusal untouched. Inputs end at a page that cannot be read. A path that the
 * archive turns is run from both ends of a pair of nodes, in the edition of the
 * input. The first difference is printed with its input and ends the program
 * with status 1.
 */
#include "bargetulip.h"
#include "compare_files.h"
#include "fixed.h"
#include "harness.h"
#include "reference.h"
#include "stress.h"

#include <stdio.h>
#include <stdlib.h>
#include <string.h>

enum { AXES = 12, FEW_ROWS = 24, NUMBERS = 15, ATTRIBUTE = 5, EDITIONS = 3, QUESTIONS = 8 };

/* numbers of an output at most, and bytes of an input: no list or path is as long as a table */
enum { OUT_ROOM = BT_MAX_TABLE_ROWS + 100, FENCED = 4 * TABLE_ROOM };

/* more work than this is left out: a few tens of milliseconds */
static const uint64_t WORK_LIMIT = 6000000;

enum function { CHECK_TABLE, PLACE, CHECK_PATH, EVALUATE, TURN, VIEW, FUNCTIONS };

static const char *const names[FUNCTIONS] = {
    "bt_check_table", "bt_axis_place", "bt_check_path", "bt_evaluate", "bt_turn", "bt_view"
};

/* how often each function gave each number; for the view: 0 empty, 1 a part; for the places: on how many
 * axes there was one */
static uint64_t seen[FUNCTIONS][NUMBERS];
static uint64_t left_out;

/* by the edition: how many evaluations were done, for how many pairs of nodes a path and its turned path were run,
 * and how many of the pairs they select */
static uint64_t done[EDITIONS], pairs[EDITIONS], pairs_selected[EDITIONS];

/* of tables with more than FORMER_ROWS rows: by the function how often it found something, how many evaluations
 * selected a row that smaller tables don't have, and how many were left out */
static uint64_t large_found[FUNCTIONS], large_reached, large_left_out;

/* ---- inputs with a fence behind them ---- */

struct fenced { const uint32_t *table, *path, *list; const double *literals; };

static struct fenced fence(const struct input *in)
{
    static char *ends[4];
    for (int i = 0; i < 4; i++)
        if (!ends[i])
            ends[i] = fenced_area(FENCED);
    struct fenced f = {
        put(ends[0], in->table, 4 * in->table_len), put(ends[1], in->path, 4 * in->path_len),
        put(ends[2], in->list, 4 * in->list_len), put(ends[3], in->literals, 8 * in->literals_len)
    };
    return f;
}

/* ---- one side's answer ---- */

struct result {
    uint32_t number, place[3]; /* the place with a sentinel on both sides */
    size_t begin, length;
    uint32_t out[MARGIN + OUT_ROOM + MARGIN];
};

static void fill(struct result *result, uint64_t seed)
{
    struct random random = {seed};
    memset(result, 0, sizeof *result);
    fill_words(&random, result->place, 3);
    fill_words(&random, result->out, MARGIN + OUT_ROOM + MARGIN);
}

typedef uint32_t place_function(const uint32_t *table, size_t table_len, uint32_t axis, uint32_t x, uint32_t y);

/* beside the node, the numbers whose places are asked: in a small table each row and the number behind the last */
static uint32_t rows_asked(const struct input *in)
{
    uint32_t rows = (uint32_t)(in->table_len / 4);
    return rows <= FEW_ROWS ? rows + 1 : 0;
}

/* the places on every axis of the start node, and on one axis too many; gives back on how many axes some place was found */
static uint32_t ask_places(place_function *ask, const struct input *in, const uint32_t *table, uint32_t *out)
{
    uint32_t asked = rows_asked(in), axes = 0;
    for (uint32_t axis = 0; axis <= AXES; axis++) {
        uint32_t found = *out++ = ask(table, in->table_len, axis, in->start, in->node);
        for (uint32_t y = 0; y < asked; y++)
            found |= *out++ = ask(table, in->table_len, axis, in->start, y);
        axes += found != 0;
    }
    return axes;
}

static void ask_reference(enum function f, const struct input *in, size_t room, struct result *r)
{
    uint32_t *out = r->out + MARGIN, *place = &r->place[1];
    switch (f) {
    case CHECK_TABLE: r->number = ref_check_table(in->table, in->table_len, place); break;
    case PLACE: r->number = ask_places(ref_axis_place, in, in->table, out); break;
    case CHECK_PATH:
        r->number = ref_check_path(in->path, in->path_len, in->literals, in->literals_len, place);
        break;
    case EVALUATE:
        r->number = ref_evaluate(in->edition, in->table, in->table_len, in->path, in->path_len, in->literals,
                                 in->literals_len, in->start, out, room, place, WORK_LIMIT);
        break;
    case TURN:
        r->number = ref_turn(in->path, in->path_len, in->literals, in->literals_len, out, room, place);
        break;
    default:
        ref_view(in->table, in->table_len, in->list, in->list_len, in->node, &r->begin, &r->length);
        r->number = r->length > 0;
    }
}

static void ask_archive(enum function f, const struct input *in, struct fenced p, size_t room, struct result *r)
{
    uint32_t *out = r->out + MARGIN, *place = &r->place[1];
    switch (f) {
    case CHECK_TABLE: r->number = bt_check_table(p.table, in->table_len, place); break;
    case PLACE: r->number = ask_places(bt_axis_place, in, p.table, out); break;
    case CHECK_PATH:
        r->number = bt_check_path(p.path, in->path_len, p.literals, in->literals_len, place);
        break;
    case EVALUATE:
        r->number = bt_evaluate(in->edition, p.table, in->table_len, p.path, in->path_len, p.literals,
                                in->literals_len, in->start, out, room, place);
        break;
    case TURN:
        r->number = bt_turn(p.path, in->path_len, p.literals, in->literals_len, out, room, place);
        break;
    default:
        r->begin = r->length = ~(size_t)0;
        bt_view(p.table, in->table_len, p.list, in->list_len, in->node, &r->begin, &r->length);
        r->number = r->length > 0;
    }
}

/* ---- a difference ---- */

static void print_literals(const struct input *in)
{
    printf("literals, %lu:\n", (unsigned long)in->literals_len);
    for (size_t i = 0; i < in->literals_len; i++)
        printf("%.17g ", in->literals[i]);
    puts("");
}

static void print_result(const char *who, const struct result *r, size_t room)
{
    printf("%s: number %u, place %u, begin %lu, length %lu, out:", who, r->number, r->place[1],
           (unsigned long)r->begin, (unsigned long)r->length);
    for (size_t i = 0; i < room && i < 40; i++)
        printf(" %u", r->out[MARGIN + i]);
    puts(room > 40 ? " ..." : "");
}

static void report(enum function f, const char *why, const struct input *in, size_t room,
                   const struct result *expected, const struct result *found)
{
    printf("DIFFERENCE in %s: %s\n", names[f], why);
    print_rows("table", in->table, in->table_len, 4);
    print_rows("path", in->path, in->path_len, 5);
    print_literals(in);
    if (f == VIEW)
        print_rows("list", in->list, in->list_len, 1);
    printf("edition %u, start %u, node %u, room %lu\n", in->edition, in->start, in->node, (unsigned long)room);
    print_result("reference", expected, room);
    print_result("archive", found, room);
}

/* ---- comparing ---- */

/* what is wrong with the archive's answer, or nothing */
static const char *fault(enum function f, const struct result *expected, const struct result *found,
                         const struct result *untouched)
{
    if (f == VIEW) {
        if (found->length != expected->length)
            return "the part's length";
        return found->length > 0 && found->begin != expected->begin ? "the part's begin" : NULL;
    }
    if (f == PLACE)
        return memcmp(found->out, expected->out, sizeof found->out) != 0 ? "a place on an axis" : NULL;
    if (found->number != expected->number)
        return "the number";
    if (found->place[1] != expected->place[1])
        return "the place";
    if (found->place[0] != untouched->place[0] || found->place[2] != untouched->place[2])
        return "a word beside the place was written";
    if (found->number != 0 && memcmp(found->out, untouched->out, sizeof found->out) != 0)
        return "a refusal wrote to the output";
    if (memcmp(found->out, expected->out, sizeof found->out) != 0)
        return "the output slice or the words around it";
    return NULL;
}

static bool inputs_kept(const struct input *in, struct fenced p)
{
    return memcmp(in->table, p.table, 4 * in->table_len) == 0 &&
           memcmp(in->path, p.path, 4 * in->path_len) == 0 &&
           memcmp(in->list, p.list, 4 * in->list_len) == 0 &&
           memcmp(in->literals, p.literals, 8 * in->literals_len) == 0;
}

/* how many words the answer takes, or -1 if the work is too long */
static long words_needed(enum function f, const struct input *in)
{
    static struct result probe;
    if (f == TURN)
        return 5 * ((long)(in->path_len / 5) + 1);
    if (f == PLACE)
        return (AXES + 1) * (1 + (long)rows_asked(in));
    if (f != EVALUATE)
        return 0;
    ask_reference(f, in, OUT_ROOM, &probe);
    if (probe.number == REF_TOO_LONG)
        return -1;
    return probe.number == 0 ? (long)probe.place[1] : 3;
}

static bool is_large(const struct input *in)
{
    return in->table_len > 4 * FORMER_ROWS;
}

/* whether an answer is one that an accepted table has: a part, a place on some axis, or the number 0 */
static bool finds(enum function f, uint32_t number)
{
    return f == VIEW || f == PLACE ? number != 0 : number == 0;
}

/* whether an evaluation selected a row that only large tables have */
static bool reaches_far(const struct result *r)
{
    return r->place[1] > 0 && r->out[MARGIN + r->place[1] - 1] >= FORMER_ROWS;
}

/* counts an answer on which both sides agree */
static void count_answer(enum function f, const struct input *in, const struct result *r)
{
    seen[f][r->number]++;
    large_found[f] += is_large(in) && finds(f, r->number);
    if (f == EVALUATE && r->number == 0) {
        done[in->edition]++;
        large_reached += reaches_far(r);
    }
}

static bool agree(enum function f, struct random *random, const struct input *in)
{
    static struct result untouched, expected, found;
    long needed = words_needed(f, in);
    if (needed < 0) {
        left_out++;
        large_left_out += is_large(in);
        return true;
    }
    size_t room = choose_room(random, (size_t)needed, OUT_ROOM, f == TURN);
    struct fenced pointers = fence(in);
    fill(&untouched, random->state);
    expected = found = untouched;
    ask_reference(f, in, room, &expected);
    ask_archive(f, in, pointers, room, &found);
    const char *why = fault(f, &expected, &found, &untouched);
    if (!why && !inputs_kept(in, pointers))
        why = "an input was changed";
    if (why)
        report(f, why, in, room, &expected, &found);
    else
        count_answer(f, in, &expected);
    return !why;
}

/* ---- turned paths ---- */

/* what the archive selects, or nothing if it refuses or the work is too long */
static const struct result *selection(const struct input *in)
{
    static struct result r;
    ask_reference(EVALUATE, in, OUT_ROOM, &r);
    if (r.number != 0)
        return NULL;
    ask_archive(EVALUATE, in, fence(in), OUT_ROOM, &r);
    return r.number == 0 ? &r : NULL;
}

static bool is_selected(const struct result *r, uint32_t node)
{
    for (uint32_t i = 0; i < r->place[1]; i++)
        if (r->out[MARGIN + i] == node)
            return true;
    return false;
}

/* some node: one that is selected, or that of the input */
static uint32_t other_end(struct random *random, const struct input *in, const struct result *r)
{
    if (r->place[1] == 0 || chance(random, 40))
        return in->node;
    return r->out[MARGIN + below(random, r->place[1])];
}

/* whether a node is a row of the table and no attribute */
static bool is_end(const struct input *in, uint32_t node)
{
    return node < in->table_len / 4 && in->table[4 * (size_t)node] != ATTRIBUTE;
}

/* demand 3, of nodes that are no attributes, in the edition of the input: the turned path selects the start from
 * another node exactly if the path selects that node from the start */
static bool turns_round(struct random *random, const struct input *in)
{
    static struct input turned;
    uint32_t rows;
    turned = *in;
    if (bt_turn(in->path, in->path_len, in->literals, in->literals_len, turned.path, PATH_ROOM, &rows) != 0)
        return true;
    const struct result *r = is_end(in, in->start) ? selection(in) : NULL;
    if (!r)
        return true;
    turned.path_len = 5 * (size_t)rows;
    turned.start = other_end(random, in, r);
    bool selected = is_selected(r, turned.start);
    r = is_end(in, turned.start) ? selection(&turned) : NULL;
    if (!r)
        return true;
    pairs[in->edition]++;
    pairs_selected[in->edition] += selected;
    if (is_selected(r, in->start) == selected)
        return true;
    printf("DIFFERENCE between a path and its turned path in edition %u, from %u and from %u\n", in->edition,
           in->start, turned.start);
    print_rows("table", in->table, in->table_len, 4);
    print_rows("path", in->path, in->path_len, 5);
    print_literals(in);
    return false;
}

/* ---- whole runs ---- */

static void print_large(void)
{
    printf("over %d rows   %lu tables accepted; places found on %lu, parts viewed of %lu; %lu evaluations done, %lu of "
           "them to rows from %d on, %lu left out\n", FORMER_ROWS, (unsigned long)large_found[CHECK_TABLE],
           (unsigned long)large_found[PLACE], (unsigned long)large_found[VIEW], (unsigned long)large_found[EVALUATE],
           (unsigned long)large_reached, FORMER_ROWS, (unsigned long)large_left_out);
}

static void print_summary(uint64_t cases)
{
    for (int f = 0; f < FUNCTIONS; f++)
        print_seen(names[f], seen[f], NUMBERS,
                   f == VIEW ? "0 empty, 1 a part" : f == PLACE ? "axes:times" : "number:times");
    print_files_seen();
    for (int e = 1; e < EDITIONS; e++)
        printf("edition %d        %lu evaluations done; turned paths run from both ends of %lu pairs, %lu selected\n",
               e, (unsigned long)done[e], (unsigned long)pairs[e], (unsigned long)pairs_selected[e]);
    print_large();
    printf("agreed: %lu inputs, %lu evaluations left out as too long\n",
           (unsigned long)cases, (unsigned long)left_out);
}

/* asks for the six functions over numbers, for the two over files, and for a turned path's pairs */
static bool all_agree(struct random *random, const struct input *in)
{
    for (int f = 0; f < FUNCTIONS; f++)
        if (!agree((enum function)f, random, in))
            return false;
    return files_agree(random, in) && turns_round(random, in);
}

/* asks for more paths on an accepted large table, since there are few of them */
static bool more_agree(struct random *random, struct input *in)
{
    uint32_t place;
    if (!is_large(in) || ref_check_table(in->table, in->table_len, &place) != 0)
        return true;
    for (int n = 0; n < QUESTIONS; n++) {
        make_question(random, in);
        if (!agree(EVALUATE, random, in) || !turns_round(random, in))
            return false;
    }
    return true;
}

static int compare(unsigned long seed, unsigned long count, unsigned long first)
{
    static struct input in;
    for (unsigned long n = first; n < first + count; n++) {
        struct random random = {(uint64_t)seed << 32 ^ n * 0x2545F4914F6CDD1Du};
        make_input(&random, &in);
        if (!all_agree(&random, &in) || !more_agree(&random, &in)) {
            printf("seed %lu, case %lu\n", seed, n);
            return 1;
        }
    }
    print_summary(count);
    return 0;
}

int main(int argc, char **argv)
{
    if (argc == 2 && strcmp(argv[1], "fixed") == 0)
        return fixed();
    if (argc == 2 && strcmp(argv[1], "stress") == 0)
        return stress();
    if (argc != 3 && argc != 4) {
        puts("usage: compare SEED COUNT [FIRST] | compare fixed | compare stress");
        return 2;
    }
    return compare(strtoul(argv[1], NULL, 10), strtoul(argv[2], NULL, 10),
                   argc == 4 ? strtoul(argv[3], NULL, 10) : 0);
}
