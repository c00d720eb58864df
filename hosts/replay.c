/* replay.c: answers commands, a line each, by the library's C interface.
 *
 *   replay < COMMANDS > ANSWERS
 *
 * tools/vectors/README.md has the format of both, as the program `vectors` of
 * this repository reads and writes it, but for names and titles. A table may
 * have more rows here than the library accepts, and rooms and lists are as much
 * longer, so that what is too long is refused by the library. What is longer
 * still ends the program with status 2.
 */
#include "bargetulip.h"

#include <stdbool.h>
#include <stdio.h>
#include <stdlib.h>
#include <string.h>

enum { TABLE_ROOM = 4 * (BT_MAX_TABLE_ROWS + 8), PATH_ROOM = 1300, LITERAL_ROOM = 66, LIST_ROOM = 8400 };

/* bytes of all commands, of a file, and entries of an output: a file's bytes are entries too */
enum { TEXT_ROOM = 64 << 20, FILE_ROOM = 1 << 20, OUT_ROOM = FILE_ROOM };

/* what an entry of an output is before a call, and what a byte is */
static const uint32_t UNTOUCHED = UINT32_MAX;

enum { UNTOUCHED_BYTE = 255 };

/* what the lines have set */
static uint32_t table[TABLE_ROOM], path[PATH_ROOM];
static double literals[LITERAL_ROOM];
static uint8_t file[FILE_ROOM];
static size_t table_len, path_len, literals_len, file_len;

/* ---- lines ---- */

/* what is left of a line */
struct line { const char *at, *end; };

static bool is_word(struct line line, const char *word)
{
    size_t len = strlen(word), left = (size_t)(line.end - line.at);
    return left >= len && memcmp(line.at, word, len) == 0 && (left == len || line.at[len] == ' ');
}

/* the next number, or 0 where there is none; one byte behind it is passed */
static uint64_t next_number(struct line *line)
{
    uint64_t value = 0;
    while (line->at < line->end) {
        char byte = *line->at++;
        if (byte < '0' || byte > '9')
            break;
        value = 10 * value + (uint64_t)(byte - '0');
    }
    return value;
}

/* the same of a number that has 32 bits; a greater one is the greatest */
static uint32_t next_small(struct line *line)
{
    uint64_t value = next_number(line);
    return value < UINT32_MAX ? (uint32_t)value : UINT32_MAX;
}

/* ends the program if something that long is more than there is room for */
static void hold_to(uint64_t len, size_t most)
{
    if (len <= most)
        return;
    fputs("replay: more is given or asked for than there is room for\n", stderr);
    exit(2);
}

/* the next number, which counts something there is so much room for */
static size_t next_count(struct line *line, size_t most)
{
    uint64_t count = next_number(line);
    hold_to(count, most);
    return count;
}

/* a count and that many numbers; gives back the count */
static size_t next_numbers(struct line *line, uint32_t *into, size_t most)
{
    size_t count = next_count(line, most);
    for (size_t i = 0; i < count; i++)
        into[i] = next_small(line);
    return count;
}

/* ---- lines that set something ---- */

static void set_table(struct line *line)
{
    table_len = next_numbers(line, table, TABLE_ROOM);
}

static void set_path(struct line *line)
{
    path_len = next_numbers(line, path, PATH_ROOM);
}

static void set_literals(struct line *line)
{
    literals_len = next_count(line, LITERAL_ROOM);
    for (size_t i = 0; i < literals_len; i++) {
        uint64_t bits = next_number(line);
        memcpy(&literals[i], &bits, sizeof bits);
    }
}

/* the rest of the line, with a slash for each line feed */
static void set_file(struct line *line)
{
    file_len = (size_t)(line->end - line->at);
    hold_to(file_len, FILE_ROOM);
    for (size_t i = 0; i < file_len; i++)
        file[i] = (uint8_t)(line->at[i] == '/' ? '\n' : line->at[i]);
}

static void take_turned(struct line *line)
{
    static uint32_t turned[PATH_ROOM];
    uint32_t rows;
    (void)line;
    bool done = bt_turn(path, path_len, literals, literals_len, turned, PATH_ROOM, &rows) == 0;
    path_len = done ? 5 * (size_t)rows : 0;
    memcpy(path, turned, path_len * sizeof *path);
}

static void take_filed(struct line *line)
{
    uint64_t numbers;
    (void)line;
    table_len = bt_read_table(file, file_len, table, TABLE_ROOM, &numbers) == 0 ? numbers : 0;
}

/* ---- answers ---- */

static uint32_t out[OUT_ROOM];

/* the next number is the room of an output, which is made */
static size_t next_room(struct line *line)
{
    size_t room = next_count(line, OUT_ROOM);
    for (size_t i = 0; i < room; i++)
        out[i] = UNTOUCHED;
    return room;
}

static void print_numbers(const uint32_t *numbers, size_t count)
{
    for (size_t i = 0; i < count; i++)
        printf(" %u", numbers[i]);
}

/* the number and the place, and on 0 so many entries; nothing behind them may have changed, or at all if refused */
static void print_answer(uint32_t number, uint64_t place, uint64_t entries, size_t room)
{
    size_t i = number != 0 ? 0 : entries < room ? entries : room;
    printf("%u %lu", number, (unsigned long)place);
    print_numbers(out, i);
    while (i < room && out[i] == UNTOUCHED)
        i++;
    puts(i < room ? " changed" : "");
}

static void answer_check_table(struct line *line)
{
    uint32_t place;
    (void)line;
    uint32_t number = bt_check_table(table, table_len, &place);
    print_answer(number, place, 0, 0);
}

static void answer_check_path(struct line *line)
{
    uint32_t place;
    (void)line;
    uint32_t number = bt_check_path(path, path_len, literals, literals_len, &place);
    print_answer(number, place, 0, 0);
}

static void answer_place(struct line *line)
{
    uint32_t axis = next_small(line), x = next_small(line), y = next_small(line);
    printf("%u\n", bt_axis_place(table, table_len, axis, x, y));
}

static void answer_evaluate(struct line *line)
{
    uint32_t edition = next_small(line), start = next_small(line), place;
    size_t room = next_room(line);
    uint32_t number = bt_evaluate(edition, table, table_len, path, path_len, literals, literals_len, start,
                                  out, room, &place);
    print_answer(number, place, place, room);
}

static void answer_turn(struct line *line)
{
    uint32_t place;
    size_t room = next_room(line);
    uint32_t number = bt_turn(path, path_len, literals, literals_len, out, room, &place);
    print_answer(number, place, 5 * (uint64_t)place, room);
}

static void answer_view(struct line *line)
{
    static uint32_t list[LIST_ROOM];
    uint32_t node = next_small(line);
    size_t begin, count, len = next_numbers(line, list, LIST_ROOM);
    bt_view(table, table_len, list, len, node, &begin, &count);
    if (count == 0) {
        puts("empty");
        return;
    }
    printf("%lu %lu", (unsigned long)begin, (unsigned long)count);
    print_numbers(list + begin, count);
    puts("");
}

static void answer_read_table(struct line *line)
{
    uint64_t place;
    size_t room = next_room(line);
    uint32_t number = bt_read_table(file, file_len, out, room, &place);
    print_answer(number, place, place, room);
}

/* the bytes as entries, an untouched one as an untouched one */
static void answer_write_table(struct line *line)
{
    static uint8_t bytes[OUT_ROOM];
    uint64_t place;
    size_t room = next_room(line);
    memset(bytes, UNTOUCHED_BYTE, room);
    uint32_t number = bt_write_table(table, table_len, bytes, room, &place);
    for (size_t i = 0; i < room; i++)
        out[i] = bytes[i] == UNTOUCHED_BYTE ? UNTOUCHED : bytes[i];
    print_answer(number, place, place, room);
}

/* ---- the program ---- */

static const struct { const char *word; void (*run)(struct line *line); } commands[] = {
    {"table", set_table}, {"literals", set_literals}, {"path", set_path}, {"turned", take_turned},
    {"file", set_file}, {"filed", take_filed}, {"check_table", answer_check_table},
    {"check_path", answer_check_path}, {"place", answer_place}, {"evaluate", answer_evaluate},
    {"turn", answer_turn}, {"view", answer_view}, {"read_table", answer_read_table},
    {"write_table", answer_write_table},
};

/* runs the command of a line; one with any other first word is a remark */
static void run(struct line line)
{
    for (size_t i = 0; i < sizeof commands / sizeof *commands; i++)
        if (is_word(line, commands[i].word)) {
            line.at += strlen(commands[i].word);
            line.at += line.at < line.end;
            commands[i].run(&line);
            return;
        }
}

int main(void)
{
    static char text[TEXT_ROOM + 1];
    size_t len = fread(text, 1, TEXT_ROOM + 1, stdin);
    const char *end = text + len;
    hold_to(len, TEXT_ROOM);
    for (const char *at = text; at < end;) {
        const char *feed = memchr(at, '\n', (size_t)(end - at));
        struct line line = {at, feed ? feed : end};
        run(line);
        at = line.end + 1;
    }
    return 0;
}
