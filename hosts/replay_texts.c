/* replay_texts.c: asks the library's C interface to read the texts of a file of vectors.
 *
 *   replay_texts < vectors/text-read.txt
 *
 * A line is a case: `read TEXT NAMES ROWS_ROOM LITERALS_ROOM NUMBER PLACE ROWS
 * LITERALS`, parted by one space, `-` for an empty field, bytes in hex, numbers
 * in decimal and the bits of literals in hex, parted by commas. Of each line the
 * first five fields are written again and the library's own answer behind them,
 * so that what is written must be the file. Where the library wrote anything
 * besides, or counted literals on a refusal, the line ends in ` changed`.
 */
#include "bargetulip.h"

#include <stdbool.h>
#include <stdio.h>
#include <stdlib.h>
#include <string.h>

/* bytes of all lines and of a text or a list of names, and numbers of a room */
enum { FILE_ROOM = 16 << 20, BYTES = 1 << 20, ROOM = 2000 };

/* what a number of the rows and the bits of a literal are before a call */
static const uint32_t UNTOUCHED = UINT32_MAX;
static const uint64_t UNTOUCHED_BITS = 0xFFF8A5A5A5A5A5A5u;

static uint8_t text[BYTES], names[BYTES];
static uint32_t rows[ROOM];
static double literals[ROOM];

/* ---- fields ---- */

/* the field from at on ends at the next space or line feed, or where the lines end */
static const char *field_end(const char *at, const char *end)
{
    while (at < end && *at != ' ' && *at != '\n')
        at++;
    return at;
}

static void hold_to(size_t len, size_t most)
{
    if (len <= most)
        return;
    fputs("replay_texts: more is given or asked for than there is room for\n", stderr);
    exit(2);
}

static uint8_t hex_digit(char digit)
{
    return (uint8_t)(digit <= '9' ? digit - '0' : digit - 'a' + 10);
}

/* the bytes of a field; gives back how many they are */
static size_t read_bytes(const char *at, const char *end, uint8_t *into)
{
    size_t len = *at == '-' ? 0 : (size_t)(end - at) / 2;
    hold_to(len, BYTES);
    for (size_t i = 0; i < len; i++)
        into[i] = (uint8_t)(hex_digit(at[2 * i]) << 4 | hex_digit(at[2 * i + 1]));
    return len;
}

static uint64_t bits_of(double literal)
{
    uint64_t bits;
    memcpy(&bits, &literal, sizeof bits);
    return bits;
}

/* ---- the answer ---- */

static void make_rooms(size_t rows_room, size_t literals_room)
{
    hold_to(rows_room, ROOM);
    hold_to(literals_room, ROOM);
    for (size_t i = 0; i < ROOM; i++) {
        rows[i] = UNTOUCHED;
        memcpy(&literals[i], &UNTOUCHED_BITS, sizeof UNTOUCHED_BITS);
    }
}

/* whether anything is changed behind so many numbers and literals, also behind their rooms */
static bool changed_behind(size_t numbers, size_t values)
{
    while (numbers < ROOM && rows[numbers] == UNTOUCHED)
        numbers++;
    while (values < ROOM && bits_of(literals[values]) == UNTOUCHED_BITS)
        values++;
    return numbers < ROOM || values < ROOM;
}

static void print_answer(uint32_t number, uint64_t place, uint32_t count)
{
    size_t numbers = number == 0 ? 5 * place : 0, values = number == 0 ? count : 0;
    hold_to(numbers, ROOM);
    hold_to(values, ROOM);
    printf(" %u %lu ", number, (unsigned long)place);
    for (size_t i = 0; i < numbers; i++)
        printf(i == 0 ? "%u" : ",%u", rows[i]);
    printf(numbers == 0 ? "- " : " ");
    for (size_t i = 0; i < values; i++)
        printf(i == 0 ? "%016lx" : ",%016lx", (unsigned long)bits_of(literals[i]));
    printf(values == 0 ? "-" : "");
    puts(changed_behind(numbers, values) || (number != 0 && count != 0) ? " changed" : "");
}

/* answers the line from at on; gives back where the answer stands in it */
static const char *answer(const char *at, const char *end)
{
    const char *field[6] = {at}, *behind[5];
    for (int i = 0; i < 5; i++) {
        behind[i] = field_end(field[i], end);
        field[i + 1] = behind[i] < end ? behind[i] + 1 : end;
    }
    size_t text_len = read_bytes(field[1], behind[1], text), names_len = read_bytes(field[2], behind[2], names);
    size_t rows_room = strtoul(field[3], NULL, 10), literals_room = strtoul(field[4], NULL, 10);
    uint64_t place = UNTOUCHED_BITS;
    uint32_t count = UNTOUCHED;
    make_rooms(rows_room, literals_room);
    uint32_t number = bt_read_path(text, text_len, names, names_len, rows, rows_room, literals, literals_room,
                                   &place, &count);
    printf("%.*s", (int)(behind[4] - at), at);
    print_answer(number, place, count);
    return behind[4];
}

int main(void)
{
    static char lines[FILE_ROOM + 1];
    size_t len = fread(lines, 1, FILE_ROOM, stdin);
    const char *end = lines + len;
    hold_to(len, FILE_ROOM - 1);
    for (const char *at = lines; at < end;) {
        at = answer(at, end);
        while (at < end && *at++ != '\n')
            continue;
    }
    return 0;
}
