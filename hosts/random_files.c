/* random_files.c: the random table files that random_files.h declares. */
#include "random_files.h"

#include <stdio.h>
#include <string.h>

/* an entry of an array */
#define ONE_OF(random, array) ((array)[below(random, sizeof(array) / sizeof *(array))])

/* ---- lines and changes of a file ---- */

/* the first place from at on that stands behind that byte, or the file's end */
static size_t behind(const struct table_file *file, size_t at, uint8_t byte)
{
    while (at < file->len && file->bytes[at++] != byte)
        continue;
    return at;
}

/* a line: where it begins, where its value does, and where it ends, behind its line feed */
struct span { size_t begin, value, end; };

static struct span line_at(const struct table_file *file, size_t at)
{
    while (at > 0 && file->bytes[at - 1] != '\n')
        at--;
    struct span line = {at, behind(file, at, '='), behind(file, at, '\n')};
    if (line.value > line.end)
        line.value = line.end;
    return line;
}

static struct span nodes_line(const struct table_file *file)
{
    size_t at = behind(file, 0, '\n');
    return line_at(file, at < file->len ? at : 0);
}

/* some line of a file that is not empty, often the first, the second or the last */
static struct span some_line(struct random *random, const struct table_file *file)
{
    switch (below(random, 8)) {
    case 0: return line_at(file, 0);
    case 1: return nodes_line(file);
    case 2: return line_at(file, file->len - 1);
    default: return line_at(file, below(random, (uint32_t)file->len));
    }
}

/* puts a text in the place of so many bytes */
static void splice(struct table_file *file, size_t at, size_t old, const void *text, size_t len)
{
    memmove(file->bytes + at + len, file->bytes + at + old, file->len - at - old);
    memcpy(file->bytes + at, text, len);
    file->len = file->len - old + len;
}

static void insert(struct table_file *file, size_t at, const char *text)
{
    splice(file, at, 0, text, strlen(text));
}

/* gives a line another value */
static void set_value(struct table_file *file, struct span line, const char *value)
{
    splice(file, line.value, line.end - line.value, "\n", 1);
    insert(file, line.value, value);
}

/* ---- damage: each changes a file that is not empty ---- */

static void change_byte(struct random *random, struct table_file *file)
{
    static const char telling[] = "\n\r =0123456789+-/:.xn"; /* and the zero behind it */
    uint8_t *byte = file->bytes + below(random, (uint32_t)file->len);
    switch (below(random, 3)) {
    case 0: *byte ^= (uint8_t)(1u << below(random, 8)); break;
    case 1: *byte = (uint8_t)below(random, 256); break;
    default: *byte = (uint8_t)ONE_OF(random, telling); break;
    }
}

static void double_line(struct random *random, struct table_file *file)
{
    struct span line = some_line(random, file);
    splice(file, line.end, 0, file->bytes + line.begin, line.end - line.begin);
}

static void drop_line(struct random *random, struct table_file *file)
{
    struct span line = some_line(random, file);
    splice(file, line.begin, line.end - line.begin, "", 0);
}

/* puts a line behind the next one, or behind any later one */
static void move_line(struct random *random, struct table_file *file)
{
    struct span line = some_line(random, file);
    size_t later = line.end + (chance(random, 50) ? 0 : below(random, (uint32_t)(file->len - line.end) + 1));
    splice(file, behind(file, later, '\n'), 0, file->bytes + line.begin, line.end - line.begin);
    splice(file, line.begin, line.end - line.begin, "", 0);
}

static void add_zero(struct random *random, struct table_file *file)
{
    insert(file, some_line(random, file).value, chance(random, 80) ? "0" : "0000000000000");
}

static void add_sign(struct random *random, struct table_file *file)
{
    insert(file, some_line(random, file).value, chance(random, 50) ? "+" : "-");
}

/* a carriage return before a line feed, or in its place */
static void add_return(struct random *random, struct table_file *file)
{
    splice(file, some_line(random, file).end - 1, below(random, 2), "\r", 1);
}

static void drop_last_byte(struct random *random, struct table_file *file)
{
    (void)random;
    file->len--;
}

/* a number that 32 bits, 64 bits or 128 bits don't hold, or many digits */
static void enlarge_value(struct random *random, struct table_file *file)
{
    static const char *const values[] = {
        "4294967296", "4294967297", "4294967300", "5000000000", "9999999999", "42949672950",
        "18446744073709551615", "18446744073709551616", "18446744073709551617", "18446744078004518912",
        "340282366920938463463374607431768211456", "100000000000000000000000000000000000000000000000000"
    };
    set_value(file, some_line(random, file), ONE_OF(random, values));
}

/* how many rows the lines from at on are */
static unsigned long rows_from(const struct table_file *file, size_t at)
{
    unsigned long lines = 0;
    for (; at < file->len; at = behind(file, at, '\n'))
        lines++;
    return lines / 4;
}

/* a number of nodes that the rows don't bear out, or that 32 or 64 bits wrap to one that they do */
static void miscount(struct random *random, struct table_file *file)
{
    struct span line = nodes_line(file);
    unsigned long rows = rows_from(file, line.end);
    unsigned long counts[] = {rows - 1, rows + 1, 0, 1, FORMER_ROWS, FORMER_ROWS + 1, BT_MAX_TABLE_ROWS,
                              BT_MAX_TABLE_ROWS + 1, 4294967298, 4294967296 + rows};
    char value[40];
    if (chance(random, 15))
        snprintf(value, sizeof value, "1844674407370955%lu", 1616 + rows);
    else
        snprintf(value, sizeof value, "%lu", ONE_OF(random, counts));
    set_value(file, line, value);
}

static void add_behind(struct random *random, struct table_file *file)
{
    static const char *const texts[] = {"\n", "\r", " ", "0", "=", "kind=0\n", "kind=1\n", "size=0", "\n\n"};
    uint8_t byte = (uint8_t)below(random, 256);
    if (chance(random, 30))
        splice(file, file->len, 0, &byte, 1);
    else
        insert(file, file->len, ONE_OF(random, texts));
}

static void cut(struct random *random, struct table_file *file)
{
    file->len = below(random, (uint32_t)file->len);
}

static void cut_all(struct random *random, struct table_file *file)
{
    (void)random;
    file->len = 0;
}

static void add_space(struct random *random, struct table_file *file)
{
    struct span line = some_line(random, file);
    size_t places[] = {line.begin, line.value, line.value, line.end - 1, line.end};
    insert(file, ONE_OF(random, places), chance(random, 80) ? " " : "\t");
}

/* changes a letter of a key, or its equals sign, by the bit that capitals lack */
static void capitalize(struct random *random, struct table_file *file)
{
    struct span line = some_line(random, file);
    file->bytes[line.begin + below(random, (uint32_t)(line.end - line.begin + 1) / 2)] ^= 0x20;
}

static void change_edition(struct random *random, struct table_file *file)
{
    static const char *const lines[] = {
        "edition=2\n", "edition=01\n", "edition=0\n", "edition=\n", "edition=10\n", "edition=11\n", "edition=1.0\n",
        "edition=4294967297\n", "edition=18446744073709551617\n", "edition=4294967295\n", "Edition=1\n", "edition1\n",
        "edition==1\n", "version=1\n", "\357\273\277edition=1\n"
    };
    splice(file, 0, behind(file, 0, '\n'), "", 0);
    insert(file, 0, ONE_OF(random, lines));
}

static void change_key(struct random *random, struct table_file *file)
{
    static const char *const keys[] = {
        "kind=", "name=", "parent=", "size=", "nodes=", "edition=", "sizes=", "nam=", "=", ""
    };
    struct span line = some_line(random, file);
    splice(file, line.begin, line.value - line.begin, "", 0);
    insert(file, line.begin, ONE_OF(random, keys));
}

/* a line without its value, or an empty line before one */
static void blank(struct random *random, struct table_file *file)
{
    struct span line = some_line(random, file);
    if (chance(random, 50))
        set_value(file, line, "");
    else
        insert(file, line.begin, "\n");
}

/* a good value that a row may not have there */
static void change_value(struct random *random, struct table_file *file)
{
    static const char *const values[] = {
        "0", "1", "2", "5", "6", "9", "65535", "65536", "70000", "4294967294", "4294967295"
    };
    set_value(file, some_line(random, file), ONE_OF(random, values));
}

typedef void damage_function(struct random *random, struct table_file *file);

static const struct { const char *name; damage_function *damage; } kinds[DAMAGES] = {
    {"byte", change_byte}, {"doubled", double_line}, {"dropped", drop_line}, {"moved", move_line},
    {"zero", add_zero}, {"sign", add_sign}, {"return", add_return}, {"unended", drop_last_byte},
    {"large", enlarge_value}, {"count", miscount}, {"behind", add_behind}, {"cut", cut}, {"empty", cut_all},
    {"space", add_space}, {"capital", capitalize}, {"edition", change_edition}, {"key", change_key},
    {"blank", blank}, {"value", change_value},
};

const char *damage_name(int kind)
{
    return kinds[kind].name;
}

uint32_t make_file(struct random *random, const struct input *in, struct table_file *file)
{
    uint32_t met = 0;
    file->len = file_of_rows(in->table, in->table_len / 4, file->bytes);
    for (uint32_t n = chance(random, 35) ? 0 : chance(random, 85) ? 1 : 2; n > 0 && file->len > 0; n--) {
        uint32_t kind = below(random, DAMAGES);
        kinds[kind].damage(random, file);
        met |= 1u << kind;
    }
    return met;
}
