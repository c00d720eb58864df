/* files.c: times our reader and writer of table files beside plain C.
 *
 *   files [SHAPE]   SHAPE: the files of that shape of document alone
 *
 * Writes Markdown: for each shape the speed on the files of both sizes that
 * sizes.h names, none above BT_ROWS, in millions of the file's bytes a second,
 * of reading and of writing. Ours checks the table each time. The plain loops
 * (plain.c) don't; they are timed alone and with a call of bt_check_table. The
 * independent reader and writer (hosts/files.c), which check the table by the
 * independent checker, come last. Each time is the least of nine medians, taken
 * in rounds through all eight.
 */
#include "bargetulip.h"
#include "documents.h"
#include "files.h"
#include "plain.h"
#include "sizes.h"
#include "timing.h"

#include <stdbool.h>
#include <stdio.h>
#include <stdlib.h>
#include <string.h>

enum { NUMBERS = 4 * MAX_ROWS, FILE_ROOM = 18 * (2 + NUMBERS), OURS = 0, PLAIN_AND_CHECK = 2, WAYS = 4 };

/* a table and its file, and what the last run wrote */
struct state {
    uint32_t table[NUMBERS], numbers[NUMBERS];
    uint8_t file[FILE_ROOM], bytes[FILE_ROOM];
    size_t table_len, file_len;
};

/* ---- what is timed ---- */

static size_t read_ours(void *state)
{
    struct state *s = state;
    uint64_t place;
    return bt_read_table(s->file, s->file_len, s->numbers, s->table_len, &place) == BT_DONE ? place : 0;
}

static size_t read_plain(void *state)
{
    struct state *s = state;
    return plain_read(s->file, s->file_len, s->numbers, s->table_len);
}

static size_t read_plain_and_check(void *state)
{
    struct state *s = state;
    uint32_t place;
    size_t read = read_plain(s);
    return bt_check_table(s->numbers, read, &place) == BT_DONE ? read : 0;
}

static size_t read_independent(void *state)
{
    struct state *s = state;
    uint64_t place;
    return ref_read_table(s->file, s->file_len, s->numbers, s->table_len, &place) == BT_DONE ? place : 0;
}

static size_t write_ours(void *state)
{
    struct state *s = state;
    uint64_t place;
    return bt_write_table(s->table, s->table_len, s->bytes, FILE_ROOM, &place) == BT_DONE ? place : 0;
}

static size_t write_plain(void *state)
{
    struct state *s = state;
    return plain_write(s->table, s->table_len, s->bytes, FILE_ROOM);
}

static size_t check_and_write_plain(void *state)
{
    struct state *s = state;
    uint32_t place;
    return bt_check_table(s->table, s->table_len, &place) == BT_DONE ? write_plain(s) : 0;
}

static size_t write_independent(void *state)
{
    struct state *s = state;
    uint64_t place;
    return ref_write_table(s->table, s->table_len, s->bytes, FILE_ROOM, &place) == BT_DONE ? place : 0;
}

/* reading and writing, each in four ways: ours, a plain loop, a plain loop and a check, the independent one */
static const struct task { const char *name; size_t (*run[WAYS])(void *state); } tasks[] = {
    {"read", {read_ours, read_plain, read_plain_and_check, read_independent}},
    {"write", {write_ours, write_plain, check_and_write_plain, write_independent}},
};

enum { TASKS = sizeof tasks / sizeof *tasks };

/* ---- one shape ---- */

/* whether a run gives the table of the file, or the file of the table */
static bool is_right(const struct task *task, int way, struct state *s)
{
    memset(s->numbers, 0, sizeof s->numbers);
    memset(s->bytes, 0, sizeof s->bytes);
    size_t done = task->run[way](s);
    if (task == &tasks[0])
        return done == s->table_len && memcmp(s->numbers, s->table, sizeof s->table) == 0;
    return done == s->file_len && memcmp(s->bytes, s->file, s->file_len) == 0;
}

/* runs a way of a task once more and keeps the less of its times */
static void run_again(const struct task *task, int way, struct state *s, double *seconds)
{
    double again = median_time(task->run[way], s);
    if (*seconds == 0 || again < *seconds)
        *seconds = again;
}

static void print_row(enum shape shape, const struct task *task, const struct state *s, const double *seconds)
{
    printf("| %s | ", shape_names[shape]);
    print_rows((uint32_t)s->table_len / 4);
    printf(" | %s | %lu |", task->name, (unsigned long)s->file_len);
    for (int way = 0; way < WAYS; way++) {
        double speed = (double)s->file_len / seconds[way] / 1e6;
        printf(speed < 10 ? " %.2f MB/s |" : " %.0f MB/s |", speed);
    }
    printf(" %.2f |\n", seconds[OURS] / seconds[PLAIN_AND_CHECK]);
}

/* times all ways of both tasks on the file of so many rows of a shape; false if one of them is wrong */
static bool run_file(enum shape shape, uint32_t rows)
{
    static struct state s;
    double seconds[TASKS][WAYS] = {{0}};
    bool right = true;
    memset(&s, 0, sizeof s);
    build_table(shape, rows, s.table);
    s.table_len = 4 * (size_t)rows;
    s.file_len = plain_write(s.table, s.table_len, s.file, FILE_ROOM);
    for (int i = 0; i < ROUNDS * TASKS * WAYS; i++) {
        int task = i / WAYS % TASKS, way = i % WAYS;
        right = is_right(&tasks[task], way, &s) && right;
        run_again(&tasks[task], way, &s, &seconds[task][way]);
    }
    for (int task = 0; task < TASKS; task++)
        print_row(shape, &tasks[task], &s, seconds[task]);
    return right;
}

/* the files of both sizes, as far as they are timed */
static bool run_shape(enum shape shape)
{
    static const uint32_t sizes[] = {EARLIER_ROWS, MAX_ROWS};
    bool right = true;
    for (size_t i = 0; i < sizeof sizes / sizeof *sizes; i++)
        if (sizes[i] <= most_rows())
            right = run_file(shape, sizes[i]) && right;
    return right;
}

int main(int argc, char **argv)
{
    bool right = true;
    printf("\n### table files\n\n"
           "| shape | rows | | bytes | ours | plain C | plain C and bt_check_table | the independent one "
           "| time: ours / plain C and check |\n"
           "|---|--:|---|--:|--:|--:|--:|--:|--:|\n");
    for (int shape = 0; shape < SHAPES; shape++)
        if (argc < 2 || strcmp(argv[1], shape_names[shape]) == 0)
            right = run_shape((enum shape)shape) && right;
    puts(right ? "\nAll read the same numbers and wrote the same bytes." : "\nSome results differ.");
    return !right;
}
