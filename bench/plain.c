/* plain.c: the plain loops over table files that plain.h declares. */
#include "plain.h"

#include "sizes.h"

#include <stdbool.h>
#include <string.h>

enum { LONGEST_LINE = 18 };

/* ---- reading ---- */

struct reader { const uint8_t *at, *end; };

static inline bool take(struct reader *r, const char *text)
{
    size_t len = strlen(text);
    if ((size_t)(r->end - r->at) < len || memcmp(r->at, text, len) != 0)
        return false;
    r->at += len;
    return true;
}

static inline bool take_decimal(struct reader *r, uint32_t *value)
{
    const uint8_t *begin = r->at;
    uint64_t number = 0;
    while (r->at < r->end && *r->at >= '0' && *r->at <= '9' && number <= UINT32_MAX)
        number = 10 * number + (uint64_t)(*r->at++ - '0');
    *value = (uint32_t)number;
    return r->at > begin && number <= UINT32_MAX && (*begin != '0' || r->at == begin + 1);
}

static inline bool take_line(struct reader *r, const char *key, uint32_t *value)
{
    return take(r, key) && take_decimal(r, value) && take(r, "\n");
}

size_t plain_read(const uint8_t *file, size_t file_len, uint32_t *out, size_t out_len)
{
    struct reader r = {file, file + file_len};
    uint32_t edition, nodes;
    if (!take_line(&r, "edition=", &edition) || edition != 1 || !take_line(&r, "nodes=", &nodes))
        return 0;
    if (nodes < 1 || nodes > MAX_ROWS || out_len < 4 * (size_t)nodes)
        return 0;
    for (uint32_t *row = out; row < out + 4 * (size_t)nodes; row += 4)
        if (!take_line(&r, "kind=", &row[0]) || !take_line(&r, "name=", &row[1]) ||
            !take_line(&r, "parent=", &row[2]) || !take_line(&r, "size=", &row[3]))
            return 0;
    return r.at == r.end ? 4 * (size_t)nodes : 0;
}

/* ---- writing ---- */

struct writer { uint8_t *at, *end; };

static inline uint8_t *put_decimal(uint8_t *to, uint32_t value)
{
    uint8_t digits[10], *first = digits + sizeof digits;
    do
        *--first = (uint8_t)('0' + value % 10);
    while ((value /= 10) != 0);
    size_t len = (size_t)(digits + sizeof digits - first);
    memcpy(to, first, len);
    return to + len;
}

static inline bool put_line(struct writer *w, const char *key, uint32_t value)
{
    if (w->end - w->at < LONGEST_LINE)
        return false;
    memcpy(w->at, key, strlen(key));
    w->at = put_decimal(w->at + strlen(key), value);
    *w->at++ = '\n';
    return true;
}

size_t plain_write(const uint32_t *table, size_t table_len, uint8_t *out, size_t out_len)
{
    struct writer w = {out, out + out_len};
    if (!put_line(&w, "edition=", 1) || !put_line(&w, "nodes=", (uint32_t)(table_len / 4)))
        return 0;
    for (const uint32_t *row = table; row < table + table_len; row += 4)
        if (!put_line(&w, "kind=", row[0]) || !put_line(&w, "name=", row[1]) ||
            !put_line(&w, "parent=", row[2]) || !put_line(&w, "size=", row[3]))
            return 0;
    return (size_t)(w.at - out);
}
