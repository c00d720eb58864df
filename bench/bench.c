/* bench.c: times three engines on the same documents and queries.
 *
 *   bench [CAP [SHAPE]]   CAP: seconds that one run may take (default 10);
 *                         SHAPE: that shape of document alone
 *
 * Writes Markdown: for each shape of document a row for each query. First, as
 * in earlier results, our times at four sizes, the two others' at the fourth,
 * how each grows from the first size to the fourth, and ours over the faster of
 * the two; then all three at the largest size, and ours over the faster there.
 * A size above BT_ROWS is not run and shown as a dash. Each cell runs in a
 * process of its own, which the cap can end. Quick cells are run in several
 * rounds through all queries, sizes and engines, and the least time counts: a
 * machine that is slow for a while slows no single cell.
 */
#include "documents.h"
#include "engines.h"
#include "sizes.h"
#include "timing.h"

#include <stdbool.h>
#include <stdio.h>
#include <stdlib.h>
#include <string.h>
#include <sys/resource.h>
#include <sys/wait.h>
#include <unistd.h>

enum { SIZES = 5, EARLIER = 3, LARGEST = 4, ENGINES = 3 };

/* a cell that takes longer is run in one round alone */
static const double QUICK = 0.005;

static const uint32_t sizes[SIZES] = {512, 1024, 2048, EARLIER_ROWS, MAX_ROWS};
static const struct engine *const engines[ENGINES] = {&ours, &pugixml, &libxml2};

/* A and B stand for two names of elements that the document has, F for a floor and C for what stands beside one,
 * elements or attributes; long ones have a label */
static const struct query { const char *text, *label; } queries[] = {
    {"//A//B", NULL},
    {"//limit[not(F)]", NULL},
    {"//*[F]/C", NULL},
    {"//*/following::*/preceding::*", NULL},
    {"//*[count(child::*) > 2]", NULL},
    {"//*[position() mod 2 = 0]", NULL},
    {"//A/ancestor::*[3]", NULL},
    {"//A/descendant::*[2]", NULL},
    {"//*[*[*[*]]]", NULL},
    {"//*[*[*[*[*]]]]", NULL},
    {"//*[*[*[*[*[*]]]]]", NULL},
    {"//*[*[*[*[*[*[*]]]]]]", NULL},
    {"//*[descendant::*[descendant::*[descendant::*]]]", "some descendant, nested 3 deep"},
    {"//*[descendant::*[descendant::*[descendant::*[descendant::*]]]]", "some descendant, nested 4 deep"},
    {"//*[descendant::*[descendant::*[descendant::*[descendant::*[descendant::*]]]]]",
     "some descendant, nested 5 deep"},
    {"//*[descendant::*[descendant::*[descendant::*[descendant::*[descendant::*[descendant::*]]]]]]",
     "some descendant, nested 6 deep"},
    {"//*[descendant::*[descendant::*[none]]]", NULL},
    {"//*[count(*[count(*) > 1]) > 1]", NULL},
    {"//*/child::*/parent::*", NULL},
    {"//*/child::*/parent::*/child::*/parent::*/child::*/parent::*/child::*/parent::*",
     "`//*`, then `child::*/parent::*`, 8 steps"},
    {"//*/child::*/parent::*/child::*/parent::*/child::*/parent::*/child::*/parent::*/child::*/parent::*"
     "/child::*/parent::*/child::*/parent::*/child::*/parent::*/child::*/parent::*/child::*/parent::*",
     "`//*`, then `child::*/parent::*`, 20 steps"},
    {"/descendant::*/ancestor::*/descendant::*/ancestor::*/descendant::*/ancestor::*/descendant::*/ancestor::*",
     "`/descendant::*/ancestor::*`, 8 steps"},
};

enum { QUERIES = sizeof queries / sizeof *queries };

/* what a cell's process hands back; done is false if a run was above the cap */
struct cell { bool done; double seconds; size_t selected; uint64_t mark; };

static double cap = 10;

/* how many of the sizes are run */
static int sizes_run = SIZES;

/* ---- one cell ---- */

/* one number for a list of nodes, to compare the engines' answers by */
static uint64_t mark_of(const uint32_t *nodes, size_t count)
{
    uint64_t mark = 14695981039346656037u;
    for (size_t i = 0; i < count; i++)
        mark = (mark ^ nodes[i]) * 1099511628211u;
    return mark;
}

/* ends this process when it has used so many seconds of CPU time */
static void limit_time(double seconds)
{
    struct rlimit limit = {(rlim_t)seconds, RLIM_INFINITY};
    setrlimit(RLIMIT_CPU, &limit);
}

/* times an engine, then lists the nodes; the cap stands for the first part alone */
static struct cell measure(const struct engine *engine, const struct question *question)
{
    static uint32_t nodes[MAX_ROWS];
    struct cell cell = {true, 0, 0, 0};
    void *state = engine->open(question);
    limit_time(cap + 5);
    cell.seconds = median_time(engine->run, state);
    limit_time(3 * cap + 10);
    cell.done = cell.seconds <= cap;
    cell.selected = engine->nodes(state, nodes);
    cell.mark = mark_of(nodes, cell.selected);
    return cell;
}

/* the process of a cell ends here */
static void run_child(int to, const struct engine *engine, const struct question *question)
{
    struct rlimit no_core = {0, 0};
    setrlimit(RLIMIT_CORE, &no_core);
    struct cell cell = measure(engine, question);
    _exit(write(to, &cell, sizeof cell) == (ssize_t)sizeof cell ? 0 : 3);
}

static struct cell run_cell(const struct engine *engine, const struct question *question)
{
    struct cell cell = {false, 0, 0, 0};
    int ends[2], status;
    if (pipe(ends) != 0)
        exit(2);
    fflush(stdout);
    pid_t child = fork();
    if (child < 0)
        exit(2);
    if (child == 0)
        run_child(ends[1], engine, question);
    close(ends[1]);
    if (read(ends[0], &cell, sizeof cell) != (ssize_t)sizeof cell)
        cell.done = false;
    close(ends[0]);
    waitpid(child, &status, 0);
    if (WIFEXITED(status) && WEXITSTATUS(status) != 0)
        exit(WEXITSTATUS(status));
    return cell;
}

/* runs a cell once more and keeps the less of its two times */
static void run_again(struct cell *cell, const struct engine *engine, const struct question *question)
{
    struct cell again = run_cell(engine, question);
    if (again.done && again.seconds < cell->seconds)
        cell->seconds = again.seconds;
}

/* ---- the tables ---- */

static void print_time(const struct cell *cells, int s)
{
    const struct cell *cell = &cells[s];
    if (s >= sizes_run)
        printf(" - |");
    else if (!cell->done)
        printf(" > %.0f s |", cap);
    else if (cell->seconds >= 1)
        printf(" %.2f s |", cell->seconds);
    else if (cell->seconds >= 0.01)
        printf(" %.1f ms |", cell->seconds * 1e3);
    else
        printf(" %.3f ms |", cell->seconds * 1e3);
}

static void print_growth(const struct cell *cells)
{
    if (cells[0].done && cells[EARLIER].done)
        printf(" %.1f |", cells[EARLIER].seconds / cells[0].seconds);
    else
        printf(" |");
}

/* ours over the faster of the two others, at one size */
static void print_ratio(struct cell cells[ENGINES][SIZES], int s)
{
    double best = 0;
    for (int e = 1; e < ENGINES; e++) {
        const struct cell *cell = &cells[e][s];
        if (cell->done && (best == 0 || cell->seconds < best))
            best = cell->seconds;
    }
    const struct cell *mine = &cells[0][s];
    if (s >= sizes_run)
        printf(" - |");
    else if (mine->done && best > 0)
        printf(" %.2f |", mine->seconds / best);
    else if (mine->done)
        printf(" < %.4f |", mine->seconds / cap);
    else
        printf(best > 0 ? " > %.0f |" : " |", best > 0 ? cap / best : 0);
}

/* the head of a column: whose times, and on how many rows */
static void print_column(const char *whose, int s)
{
    printf(" %s ", whose);
    print_rows(sizes[s]);
    printf(" |");
}

static void print_head(void)
{
    printf("| path | selected |");
    for (int s = 0; s <= EARLIER; s++)
        print_column(engines[0]->name, s);
    printf(" growth |");
    for (int e = 1; e < ENGINES; e++) {
        print_column(engines[e]->name, EARLIER);
        printf(" growth |");
    }
    printf(" ours / faster |");
    for (int e = 0; e < ENGINES; e++)
        print_column(engines[e]->name, LARGEST);
    print_column("ours / faster", LARGEST);
    printf("\n|---|--:|--:|--:|--:|--:|--:|--:|--:|--:|--:|--:|--:|--:|--:|--:|\n");
}

/* how many nodes are selected, as an engine that ended says */
static void print_selected(struct cell cells[ENGINES][SIZES], int s)
{
    size_t selected = 0;
    for (int e = 0; e < ENGINES; e++)
        if (cells[e][s].done)
            selected = cells[e][s].selected;
    if (s < sizes_run)
        printf(" %lu |", (unsigned long)selected);
    else
        printf(" - |");
}

static void print_row(const char *title, bool quoted, struct cell cells[ENGINES][SIZES])
{
    printf(quoted ? "| `%s` |" : "| %s |", title);
    print_selected(cells, EARLIER);
    for (int s = 0; s <= EARLIER; s++)
        print_time(cells[0], s);
    print_growth(cells[0]);
    for (int e = 1; e < ENGINES; e++) {
        print_time(cells[e], EARLIER);
        print_growth(cells[e]);
    }
    print_ratio(cells, EARLIER);
    for (int e = 0; e < ENGINES; e++)
        print_time(cells[e], LARGEST);
    print_ratio(cells, LARGEST);
    printf("\n");
}

/* whether all engines that ended selected the same nodes */
static bool same_answers(const char *query, struct cell cells[ENGINES][SIZES])
{
    for (int s = 0; s < SIZES; s++) {
        const struct cell *known = NULL;
        for (int e = 0; e < ENGINES; e++) {
            const struct cell *cell = &cells[e][s];
            if (!cell->done)
                continue;
            if (known && (known->selected != cell->selected || known->mark != cell->mark)) {
                printf("\nANSWERS DIFFER: %s on %u rows, %s\n", query, sizes[s], engines[e]->name);
                return false;
            }
            known = cell;
        }
    }
    return true;
}

/* ---- shapes and queries ---- */

/* what A, B, F or C stands for in a shape; nothing for any other letter */
static const char *word_for(char letter, enum shape shape)
{
    static const char *const words[SHAPES][4] = {
        [BALANCED] = {"a", "b", "floor", "limit"}, [DEEP] = {"a", "b", "floor", "limit"},
        [WIDE] = {"a", "b", "floor", "limit"}, [PARAMETERS] = {"group", "floor", "floor", "ceiling"},
        [ATTRIBUTES] = {"group", "unit", "@floor", "@ceiling"},
    };
    static const char letters[] = "ABFC";
    const char *found = strchr(letters, letter);
    return found ? words[shape][found - letters] : NULL;
}

/* the query with A, B, F and C replaced by names that stand in the shape */
static void spell(const char *query, enum shape shape, char *to)
{
    for (; *query; query++) {
        const char *word = word_for(*query, shape);
        if (word)
            to = stpcpy(to, word);
        else
            *to++ = *query;
    }
    *to = 0;
}

/* one round of a query: all its cells at first, the quick ones again later */
static void run_round(enum shape shape, const char *query, int round, struct cell cells[ENGINES][SIZES])
{
    static uint32_t table[4 * MAX_ROWS];
    for (int s = 0; s < sizes_run; s++) {
        build_table(shape, sizes[s], table);
        char *xml = xml_of_table(table, sizes[s]);
        struct question question = {table, sizes[s], xml, query};
        for (int e = 0; e < ENGINES; e++)
            if (round == 0 && (s == 0 || cells[e][s - 1].done))
                cells[e][s] = run_cell(engines[e], &question);
            else if (cells[e][s].done && cells[e][s].seconds < QUICK)
                run_again(&cells[e][s], engines[e], &question);
        free(xml);
    }
}

static bool run_shape(enum shape shape)
{
    static struct cell cells[QUERIES][ENGINES][SIZES];
    char spelt[QUERIES][512];
    bool same = true;
    memset(cells, 0, sizeof cells);
    for (int round = 0; round < ROUNDS; round++)
        for (int q = 0; q < QUERIES; q++) {
            spell(queries[q].text, shape, spelt[q]);
            run_round(shape, spelt[q], round, cells[q]);
        }
    printf("\n### %s\n\n", shape_names[shape]);
    print_head();
    for (int q = 0; q < QUERIES; q++) {
        const char *label = queries[q].label;
        print_row(label ? label : spelt[q], label == NULL, cells[q]);
        same = same_answers(spelt[q], cells[q]) && same;
    }
    return same;
}

static void print_opening(void)
{
    printf("Thread CPU time, medians, below 5 ms the least of nine; pugixml %s, libxml2 %s; cap %.0f s a\n"
           "run. Growth is the time on ",
           pugixml_version(), libxml2_version(), cap);
    print_rows(sizes[EARLIER]);
    printf(" rows over the time on %u. Ours: one bt_evaluate, all checks\n"
           "included. The others: one evaluation of a query that was compiled before, on a document that was\n"
           "parsed before.\n",
           sizes[0]);
}

int main(int argc, char **argv)
{
    bool same = true;
    if (argc > 1)
        cap = strtod(argv[1], NULL);
    while (sizes_run > 1 && sizes[sizes_run - 1] > most_rows())
        sizes_run--;
    print_opening();
    for (int shape = 0; shape < SHAPES; shape++)
        if (argc < 3 || strcmp(argv[2], shape_names[shape]) == 0)
            same = run_shape((enum shape)shape) && same;
    puts(same ? "\nWhere more than one engine ended, all selected the same nodes." : "\nSome answers differ.");
    return !same;
}
