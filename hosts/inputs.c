/* inputs.c: the random inputs that inputs.h declares. */
#include "inputs.h"

#include <string.h>

/* ---- random numbers (splitmix64) ---- */

uint32_t any(struct random *random)
{
    uint64_t z = random->state += 0x9E3779B97F4A7C15u;
    z = (z ^ (z >> 30)) * 0xBF58476D1CE4E5B9u;
    z = (z ^ (z >> 27)) * 0x94D049BB133111EBu;
    return (uint32_t)((z ^ (z >> 31)) >> 32);
}

uint32_t below(struct random *random, uint32_t limit)
{
    return (uint32_t)(((uint64_t)any(random) * limit) >> 32);
}

bool chance(struct random *random, uint32_t percent)
{
    return below(random, 100) < percent;
}

/* ---- tables ---- */

static uint32_t random_name(struct random *random)
{
    if (chance(random, 2))
        return 65535;
    return 1 + (chance(random, 4) ? below(random, 65535) : below(random, 4));
}

/* a name for a row of that kind, or 0 */
static uint32_t name_for(struct random *random, uint32_t kind)
{
    return kind == 1 || kind == 4 || kind == 5 ? random_name(random) : 0;
}

/* how many of the open nodes to close before the next row */
static uint32_t closing(struct random *random, enum shape shape, uint32_t open)
{
    switch (shape) {
    case CHAIN: return chance(random, 3) ? below(random, 4) : 0;
    case WIDE: return open - (chance(random, 5) ? 3 : 2);
    case BUSHY: return open > 8 ? 3 + below(random, 5) : below(random, 2);
    default: return chance(random, 50) ? 0 : below(random, open - 1);
    }
}

/* a table under construction: the open nodes, the root first, and the kind of the last child of each */
struct grower {
    struct random *random;
    uint32_t *table, rows, open, path[BT_MAX_TABLE_ROWS], last[BT_MAX_TABLE_ROWS];
};

/* adds a row under the innermost open node */
static void grow_named(struct grower *g, uint32_t kind, uint32_t name)
{
    uint32_t *row = g->table + 4 * g->rows;
    row[0] = kind;
    row[1] = name;
    row[2] = g->path[g->open - 1];
    g->last[g->open - 1] = kind;
    if (kind == 1) {
        g->last[g->open] = 0;
        g->path[g->open++] = g->rows;
    }
    g->rows++;
}

static void grow(struct grower *g, uint32_t kind)
{
    grow_named(g, kind, name_for(g->random, kind));
}

/* how many attributes an element gets: few, or as many as there is room for */
static uint32_t some_attributes(struct random *random, uint32_t room, bool many)
{
    uint32_t count = 1 + below(random, chance(random, 95) ? 3 : 30);
    return many || count > room ? room : count;
}

/* gives the innermost open element attributes, each of another name, the names in any order */
static void grow_attributes(struct grower *g, uint32_t count)
{
    static const uint32_t strides[] = {1, 7, 32767, 65533}; /* no factor in common with 4 or 65,535 */
    uint32_t names = count <= 4 && chance(g->random, 90) ? 4 : 65535;
    uint32_t name = below(g->random, names), stride = strides[below(g->random, 4)];
    for (; count > 0; count--, name += stride)
        grow_named(g, 5, 1 + name % names);
}

/* how many comments and instructions stand before or behind the root's element */
static uint32_t around(struct random *random, uint32_t room)
{
    uint32_t count = chance(random, 20) ? 1 + below(random, 3) : 0;
    return count < room ? count : room;
}

static void grow_around(struct grower *g, uint32_t count)
{
    for (; count > 0; count--)
        grow(g, 3 + below(g->random, 2));
}

/* the kind of the next row, with so many elements in a hundred: never a text next to a text,
 * often a text behind an element that ends in one */
static uint32_t next_kind(struct grower *g, uint32_t elements)
{
    uint32_t last = g->last[g->open - 1], before = g->table[4 * g->rows - 4];
    if (last == 1 && before == 2 && chance(g->random, 50))
        return 2;
    if (chance(g->random, elements))
        return 1;
    return last != 2 && chance(g->random, 50) ? 2 : 3 + below(g->random, 2);
}

/* the root's element and what is below it, up to row end; some small tables have many leaves; so many
 * elements in a hundred have attributes, in few tables one of them all the rest of the rows */
static void grow_element(struct grower *g, uint32_t end, enum shape shape, uint32_t attributes)
{
    uint32_t elements = end < 100 && chance(g->random, 40) ? 45 : shape == CHAIN ? 97 : 75, kind = 1;
    uint32_t many = chance(g->random, 5) ? below(g->random, end) : end;
    for (;;) {
        grow(g, kind);
        if (kind == 1 && chance(g->random, attributes))
            grow_attributes(g, some_attributes(g->random, end - g->rows, g->rows > many));
        if (g->rows == end)
            break;
        uint32_t closed = g->open > 2 ? closing(g->random, shape, g->open) : 0;
        g->open = g->open > 2 + closed ? g->open - closed : 2;
        kind = next_kind(g, elements);
    }
    g->open = 1;
}

/* size of each row, from the parents */
static void fill_sizes(uint32_t *table, uint32_t rows)
{
    for (uint32_t i = 0; i < rows; i++)
        table[4 * i + 3] = 0;
    for (uint32_t i = rows - 1; i > 0; i--)
        table[4 * table[4 * i + 2] + 3] += 1 + table[4 * i + 3];
}

void make_table(struct random *random, struct input *in, uint32_t rows, enum shape shape, uint32_t attributes)
{
    struct grower g = {random, in->table, 1, 1, {0}, {0}};
    uint32_t before = around(random, rows - 2), behind = around(random, rows - 2 - before);
    memset(in->table, 0, sizeof in->table);
    grow_around(&g, before);
    grow_element(&g, rows - behind, shape, attributes);
    grow_around(&g, behind);
    fill_sizes(in->table, rows);
    in->table_len = 4 * (size_t)rows;
}

/* rows of any kinds, with names, parents and sizes that are sound */
static void make_small_table(struct random *random, struct input *in, uint32_t rows)
{
    struct grower g = {random, in->table, 1, 1, {0}, {0}};
    memset(in->table, 0, sizeof in->table);
    while (g.rows < rows) {
        g.open = chance(random, 60) ? g.open : 1 + below(random, g.open);
        grow(&g, chance(random, 30) ? 1 : chance(random, 95) ? 1 + below(random, 5) : below(random, 7));
    }
    fill_sizes(in->table, rows);
    in->table_len = 4 * (size_t)rows;
}

/* ---- paths ---- */

/* a path under construction: rows in postorder, links as the form has them; so many steps in a hundred are
 * on the attribute axis */
struct builder { struct random *random; struct input *in; uint32_t rows, attributes; };

static struct builder begin_path(struct random *random, struct input *in)
{
    static const uint32_t attributes[] = {0, 0, 10, 30};
    struct builder builder = {random, in, 0, attributes[below(random, 4)]};
    memset(in->path, 0, sizeof in->path);
    return builder;
}

static uint32_t add_row(struct builder *b, uint32_t op, uint32_t a, uint32_t c, uint32_t d, uint32_t e)
{
    uint32_t row[5] = {op, a, c, d, e};
    memcpy(b->in->path + 5 * b->rows, row, sizeof row);
    return ++b->rows;
}

static uint32_t some_axis(struct builder *b)
{
    return chance(b->random, b->attributes) ? 11 : below(b->random, 11);
}

static uint32_t random_test(struct random *random)
{
    if (chance(random, 45))
        return 0;
    if (chance(random, 45))
        return 1;
    return chance(random, 50) ? 2 + below(random, 3) : 16 + random_name(random);
}

static uint32_t build_path(struct builder *b, uint32_t budget, int depth, bool top, bool full);

/* 0 div 0, 1 div -0 and their like: not a number, infinite or zero; in 3 rows, or 4 with a minus */
static uint32_t build_odd_number(struct builder *b, bool minus)
{
    uint32_t literals = (uint32_t)b->in->literals_len;
    uint32_t a = add_row(b, 1, chance(b->random, 40) ? 0 : below(b->random, literals), 0, 0, 0);
    uint32_t c = add_row(b, 1, 0, 0, 0, 0);
    if (minus)
        c = add_row(b, 9, c, 0, 0, 0);
    return add_row(b, chance(b->random, 70) ? 7 : 4 + below(b->random, 5), a, c, 0, 0);
}

/* a number in at least one row and at most budget rows */
static uint32_t build_number(struct builder *b, uint32_t budget, int depth)
{
    struct random *random = b->random;
    bool literals = b->in->literals_len > 0 && b->in->literals_len <= 64;
    if (budget >= 3 && literals && chance(random, 12))
        return build_odd_number(b, budget >= 4 && chance(random, 40));
    if (budget >= 3 && depth > 0 && chance(random, 35))
        return add_row(b, 21, build_path(b, budget - 1, depth - 1, false, false), 0, 0, 0);
    if (budget >= 3 && chance(random, 60)) {
        uint32_t left = 1 + below(random, budget - 2);
        uint32_t a = build_number(b, left, depth);
        uint32_t c = build_number(b, budget - 1 - left, depth);
        return add_row(b, 4 + below(random, 5), a, c, 0, 0);
    }
    if (budget >= 2 && chance(random, 15))
        return add_row(b, 9, build_number(b, budget - 1, depth), 0, 0, 0);
    if (literals && chance(random, 60))
        return add_row(b, 1, below(random, (uint32_t)b->in->literals_len), 0, 0, 0);
    return add_row(b, 2 + below(random, 2), 0, 0, 0, 0);
}

/* a truth in at least two rows and at most budget rows */
static uint32_t build_truth(struct builder *b, uint32_t budget, int depth)
{
    struct random *random = b->random;
    if (budget >= 3 && depth > 0 && chance(random, 40))
        return add_row(b, 20, build_path(b, budget - 1, depth - 1, false, false), 0, 0, 0);
    if (budget >= 5 && chance(random, 35)) {
        uint32_t left = 2 + below(random, budget - 4);
        uint32_t a = build_truth(b, left, depth);
        uint32_t c = build_truth(b, budget - 1 - left, depth);
        return add_row(b, 16 + below(random, 2), a, c, 0, 0);
    }
    if (budget >= 3 && chance(random, 20))
        return add_row(b, 18, build_truth(b, budget - 1, depth), 0, 0, 0);
    if (budget >= 3 && chance(random, 85)) {
        uint32_t left = 1 + below(random, budget - 2);
        uint32_t a = build_number(b, left, depth);
        uint32_t c = build_number(b, budget - 1 - left, depth);
        return add_row(b, 10 + below(random, 6), a, c, 0, 0);
    }
    return add_row(b, 19, build_number(b, budget - 1, depth), 0, 0, 0);
}

/* predicates in at most budget rows; 0 for none */
static uint32_t build_predicates(struct builder *b, uint32_t budget, int depth)
{
    uint32_t previous = 0, end = b->rows + budget;
    while (end - b->rows >= 3 && chance(b->random, previous ? 35 : 60)) {
        uint32_t share = 2 + below(b->random, end - b->rows - 2);
        bool number = chance(b->random, 30);
        uint32_t value = number ? build_number(b, share, depth) : build_truth(b, share, depth);
        previous = add_row(b, 25, previous, value, 0, 0);
    }
    return previous;
}

/* a path in at most budget rows (exactly so many if full); budget is 2 or more */
static uint32_t build_path(struct builder *b, uint32_t budget, int depth, bool top, bool full)
{
    uint32_t previous = 0, end = b->rows + budget - 1; /* one row is the path's own */
    bool absolute = chance(b->random, top ? 25 : 12);
    if (absolute && !full && chance(b->random, 5))
        return add_row(b, 23, 0, 0, 0, 0);
    do {
        uint32_t room = end - b->rows - 1;
        uint32_t predicates = build_predicates(b, room > 1 ? below(b->random, room + 1) : 0, depth);
        previous = add_row(b, 24, previous, predicates, some_axis(b), random_test(b->random));
    } while (b->rows < end && (full || chance(b->random, 60)));
    return add_row(b, absolute ? 23 : 22, previous, 0, 0, 0);
}

/* the number of link fields of an op */
static int link_fields(uint32_t op)
{
    if (op == 1 || op == 2 || op == 3)
        return 0;
    return (op >= 4 && op <= 8) || (op >= 10 && op <= 17) || op >= 24 ? 2 : 1;
}

/* whether every row that row r links stands already */
static bool ready(const uint32_t *row, const uint32_t *moved)
{
    for (int f = 1; f <= link_fields(row[0]); f++)
        if (row[f] != 0 && moved[row[f] - 1] == 0)
            return false;
    return true;
}

/* puts the rows into another order in which links still name lower rows */
static void shuffle_rows(struct random *random, uint32_t *path, uint32_t rows)
{
    uint32_t old[PATH_ROOM], moved[260] = {0}; /* moved: the new link of each old row */
    memcpy(old, path, 5 * sizeof *path * rows);
    for (uint32_t to = 0; to < rows; to++) {
        uint32_t r = below(random, rows);
        while (moved[r] != 0 || !ready(old + 5 * r, moved))
            r = (r + 1) % rows;
        memcpy(path + 5 * to, old + 5 * r, 5 * sizeof *path);
        for (int f = 1; f <= link_fields(old[5 * r]); f++)
            if (old[5 * r + f] != 0)
                path[5 * to + f] = moved[old[5 * r + f] - 1];
        moved[r] = to + 1;
    }
}

void make_path(struct random *random, struct input *in, uint32_t rows, bool full, int depth)
{
    struct builder b = begin_path(random, in);
    if (rows == 1)
        add_row(&b, 23, 0, 0, 0, 0);
    else
        build_path(&b, rows, depth - 1, true, full);
    if (chance(random, 50))
        shuffle_rows(random, in->path, b.rows);
    in->path_len = 5 * (size_t)b.rows;
}

/* a path nested exactly depth deep, by existence and by count in turn */
static void make_nested(struct random *random, struct input *in, int depth)
{
    struct builder b = begin_path(random, in);
    uint32_t inner = 0;
    for (int level = 0; level < depth; level++) {
        uint32_t predicate = 0;
        if (inner != 0) {
            bool count = chance(random, 30);
            uint32_t value = add_row(&b, count ? 21 : 20, inner, 0, 0, 0);
            predicate = add_row(&b, 25, 0, value, 0, 0);
        }
        uint32_t step = add_row(&b, 24, 0, predicate, some_axis(&b), random_test(random));
        inner = add_row(&b, 22, step, 0, 0, 0);
    }
    in->path_len = 5 * (size_t)b.rows;
}

/* one step that selects much, with a predicate of a few small numbers */
static void make_probe(struct random *random, struct input *in)
{
    struct builder b = begin_path(random, in);
    uint32_t predicate = 0, count = 1 + below(random, 2);
    for (uint32_t n = 0; n < count; n++) {
        bool odd = in->literals_len > 0 && chance(random, 50);
        uint32_t left = odd ? build_odd_number(&b, chance(random, 40)) : build_number(&b, 1 + below(random, 4), 0);
        uint32_t right = build_number(&b, 1 + below(random, 3), 0);
        uint32_t value = add_row(&b, 10 + below(random, 6), left, right, 0, 0);
        predicate = add_row(&b, 25, predicate, value, 0, 0);
    }
    uint32_t step = add_row(&b, 24, 0, predicate, some_axis(&b), below(random, 2));
    add_row(&b, chance(random, 50) ? 22 : 23, step, 0, 0, 0);
    in->path_len = 5 * (size_t)b.rows;
}

/* a predicate that is a small number, or none */
static uint32_t maybe_number(struct builder *b, uint32_t percent)
{
    return chance(b->random, percent) ? add_row(b, 25, 0, build_number(b, 1 + below(b->random, 3), 0), 0, 0) : 0;
}

/* a predicate that asks whether there are such attributes, whether there are none, or how many */
static uint32_t attribute_predicate(struct builder *b)
{
    struct random *random = b->random;
    uint32_t step = add_row(b, 24, 0, maybe_number(b, 25), 11, random_test(random));
    uint32_t path = add_row(b, 22, step, 0, 0, 0), value;
    if (chance(random, 40)) {
        value = add_row(b, 21, path, 0, 0, 0);
        value = add_row(b, 10 + below(random, 6), value, build_number(b, 1 + below(random, 3), 0), 0, 0);
    } else {
        value = add_row(b, 20, path, 0, 0, 0);
        value = chance(random, 40) ? add_row(b, 18, value, 0, 0, 0) : value;
    }
    return add_row(b, 25, 0, value, 0, 0);
}

/* over many nodes, often those with some attributes, most often to their attributes, and often on from there */
static void make_attribute_path(struct random *random, struct input *in)
{
    struct builder b = begin_path(random, in);
    uint32_t step = add_row(&b, 24, 0, 0, chance(random, 90) ? 5 : below(random, 11), 0);
    if (chance(random, 50)) {
        uint32_t predicate = chance(random, 70) ? attribute_predicate(&b) : 0;
        step = add_row(&b, 24, step, predicate, chance(random, 70) ? 1 : below(random, 11), below(random, 2));
    }
    if (chance(random, 80)) {
        uint32_t predicate = maybe_number(&b, 30);
        step = add_row(&b, 24, step, predicate, 11, chance(random, 60) ? 0 : random_test(random));
    }
    if (chance(random, 40)) {
        uint32_t predicate = chance(random, 30) ? attribute_predicate(&b) : maybe_number(&b, 20);
        step = add_row(&b, 24, step, predicate, below(random, 12), random_test(random));
    }
    add_row(&b, chance(random, 30) ? 22 : 23, step, 0, 0, 0);
    in->path_len = 5 * (size_t)b.rows;
}

/* a predicate about the literal 0: the node at that position, those before it, from it on and so on, or the last but so
 * many */
static uint32_t far_predicate(struct builder *b)
{
    uint32_t literal = add_row(b, 1, 0, 0, 0, 0), position;
    switch (below(b->random, 4)) {
    case 0: return add_row(b, 25, 0, literal, 0, 0);
    case 1: return add_row(b, 25, 0, add_row(b, 5, add_row(b, 3, 0, 0, 0, 0), literal, 0, 0), 0, 0);
    default:
        position = add_row(b, 2, 0, 0, 0, 0);
        return add_row(b, 25, 0, add_row(b, 10 + below(b->random, 6), position, literal, 0, 0), 0, 0);
    }
}

/* a step to many nodes, down from the first rows or along from any, with a far predicate, and at times a step from
 * there; needs a literal */
static void make_far(struct random *random, struct input *in, uint32_t rows)
{
    static const uint32_t down[] = {1, 3, 3, 5}, along[] = {7, 7, 8, 8, 9, 10, 11};
    struct builder b = begin_path(random, in);
    bool first = chance(random, 50);
    in->literals[0] = chance(random, 50) ? below(random, 4) : below(random, rows);
    in->start = below(random, first ? 2 : rows);
    uint32_t axis = first ? down[below(random, 4)] : along[below(random, 7)];
    uint32_t predicate = chance(random, 80) ? far_predicate(&b) : 0;
    uint32_t step = add_row(&b, 24, 0, predicate, axis, chance(random, 80) ? below(random, 2) : random_test(random));
    if (chance(random, 20))
        step = add_row(&b, 24, step, 0, some_axis(&b), random_test(random));
    add_row(&b, 22, step, 0, 0, 0);
    in->path_len = 5 * (size_t)b.rows;
}

/* a path of bare steps, with exactly so many rows: the longest that can be turned, and longer */
static void make_bare(struct random *random, struct input *in, uint32_t rows)
{
    struct builder b = begin_path(random, in);
    for (uint32_t step = 0; step + 1 < rows; step++)
        add_row(&b, 24, step, 0, some_axis(&b), random_test(random));
    add_row(&b, chance(random, 80) ? 22 : 23, rows - 1, 0, 0, 0);
    in->path_len = 5 * (size_t)rows;
}

/* ---- literals and lists ---- */

static double from_bits(uint64_t bits)
{
    double value;
    memcpy(&value, &bits, sizeof value);
    return value;
}

static double random_literal(struct random *random)
{
    static const double usual[] = {0, 0.5, 1, 1, 2, 2, 3, 4, 1.5, 0.1, 10, 4095, 4096, 8190, 8191,
                                   1e300, 1.7976931348623157e308, 5e-324};
    if (chance(random, 10))
        return from_bits(((uint64_t)any(random) << 32 | any(random)) % 0x7FF0000000000000u);
    return usual[below(random, sizeof usual / sizeof *usual)];
}

/* infinities, NaNs, negative numbers, negative zero */
static double bad_literal(struct random *random)
{
    static const uint64_t usual[] = {0x7FF0000000000000u, 0xFFF0000000000000u, 0x7FF8000000000000u, 0x7FF0000000000001u,
                                     0xFFFFFFFFFFFFFFFFu, 0x8000000000000000u, 0xBFF0000000000000u, 0x8000000000000001u};
    return from_bits(usual[below(random, sizeof usual / sizeof *usual)]);
}

static void make_literals(struct random *random, struct input *in)
{
    in->literals_len = chance(random, 10) ? below(random, 65) : below(random, 6);
    if (chance(random, 3))
        in->literals_len = 63 + below(random, 2);
    for (size_t i = 0; i < LITERAL_ROOM; i++)
        in->literals[i] = random_literal(random);
    if (chance(random, 60))
        in->literals[0] = 0;
}

static void make_list(struct random *random, struct input *in)
{
    uint32_t rows = (uint32_t)(in->table_len / 4), percent = below(random, 101);
    in->list_len = 0;
    for (uint32_t i = 0; i < rows; i++)
        if (chance(random, percent))
            in->list[in->list_len++] = i;
}

/* ---- damage ---- */

/* a number that stands near a border, or near what was there */
static uint32_t odd_number(struct random *random, uint32_t old, uint32_t rows)
{
    switch (below(random, 8)) {
    case 0: return old + 1;
    case 1: return old - 1;
    case 2: return below(random, 28);
    case 3: return 65535 + 16 + below(random, 3) - 1;
    case 4: return 65535 + below(random, 2);
    case 5: return 0xFFFFFFFFu - below(random, rows + 1);
    case 6: return below(random, rows + 2);
    default: return any(random);
    }
}

/* gives a row without children another kind, most often text */
static void retype_leaf(struct random *random, uint32_t *table, uint32_t rows)
{
    uint32_t i = below(random, rows), kind = chance(random, 50) ? 2 : 1 + below(random, 5);
    while (i + 1 < rows && table[4 * i + 3] != 0)
        i++;
    table[4 * i] = kind;
    table[4 * i + 1] = name_for(random, kind);
}

/* puts a row without children under a parent and in front of row at */
static void insert_row(struct input *in, uint32_t at, uint32_t kind, uint32_t name, uint32_t parent)
{
    uint32_t *table = in->table, leaf[4] = {kind, name, parent, 0};
    for (uint32_t i = (uint32_t)(in->table_len / 4); i > at; i--) {
        memcpy(table + 4 * i, table + 4 * i - 4, sizeof leaf);
        table[4 * i + 2] += table[4 * i + 2] >= at;
    }
    for (uint32_t i = 0; i < at && i <= parent; i++)
        table[4 * i + 3] += (uint64_t)i + table[4 * i + 3] >= parent;
    memcpy(table + 4 * at, leaf, sizeof leaf);
    in->table_len += 4;
}

/* puts a row without children beside row at and in front of it, or under the root behind the last row */
static void insert_leaf(struct random *random, struct input *in, uint32_t at, uint32_t kind)
{
    uint32_t parent = at < in->table_len / 4 ? in->table[4 * at + 2] : 0;
    insert_row(in, at, kind, name_for(random, kind), parent);
}

/* puts a row without children under the root or anywhere, or a text in front of the next text */
static void add_leaf(struct random *random, struct input *in, uint32_t rows)
{
    uint32_t at = 1 + below(random, rows), kind = 1 + below(random, 5);
    switch (below(random, 6)) {
    case 0: at = 1; break;
    case 1: at = rows; break;
    case 2: break;
    default:
        kind = 2;
        while (at < rows && in->table[4 * at] != 2)
            at++;
    }
    insert_leaf(random, in, at, kind);
}

/* the first attribute from some row on, or 0 */
static uint32_t some_attribute(struct random *random, const uint32_t *table, uint32_t rows)
{
    uint32_t i = below(random, rows);
    while (i < rows && table[4 * i] != 5)
        i++;
    return i < rows ? i : 0;
}

/* the row behind attribute i and behind some of those of its element that follow it */
static uint32_t behind_attribute(struct random *random, const uint32_t *table, uint32_t rows, uint32_t i)
{
    uint32_t j = i + 1;
    while (j < rows && table[4 * j] == 5 && table[4 * j + 2] == table[4 * i + 2] && chance(random, 80))
        j++;
    return j;
}

/* the row behind all that is below row i, as far as there are rows */
static uint32_t behind_subtree(const uint32_t *table, uint32_t rows, uint32_t i)
{
    uint64_t last = i + (uint64_t)table[4 * i + 3];
    return last < rows ? (uint32_t)last + 1 : rows;
}

/* puts an attribute where none may stand: of the name of attribute i, behind the children of its element, or
 * behind that element and with the same parent */
static void add_attribute(struct random *random, struct input *in, uint32_t rows, uint32_t i)
{
    uint32_t *table = in->table, name = random_name(random);
    uint32_t element = table[4 * i + 2] < rows ? table[4 * i + 2] : 0;
    switch (below(random, 4)) {
    case 0: insert_row(in, behind_subtree(table, rows, element), 5, name, element); break;
    case 1: insert_row(in, behind_subtree(table, rows, element), 5, name, table[4 * element + 2]); break;
    default: insert_row(in, behind_attribute(random, table, rows, i), 5, table[4 * i + 1], element); break;
    }
}

/* hurts a rule that attributes have, or adds an attribute that hurts one; without attributes adds one anywhere */
static void damage_attribute(struct random *random, struct input *in, uint32_t rows)
{
    uint32_t i = some_attribute(random, in->table, rows), *row = in->table + 4 * i;
    uint32_t *element = in->table + 4 * (row[2] < rows ? row[2] : 0);
    if (i == 0) {
        insert_leaf(random, in, 1 + below(random, rows), 5);
        return;
    }
    switch (below(random, 10)) {
    case 0: row[0] = 6; break;
    case 1: row[1] = chance(random, 50) ? 0 : 65536; break;
    case 2: row[2] = chance(random, 50) ? i - 1 : 0; break;
    case 3: row[3] = 1; break;
    case 4: element[3] = chance(random, 50) ? 0 : element[3] - 1; break;
    default: add_attribute(random, in, rows, i); break;
    }
}

/* gives every element another kind, or every one but the last */
static void drop_elements(struct random *random, uint32_t *table, uint32_t rows)
{
    uint32_t kind = 2 + below(random, 5);
    bool spared = chance(random, 30);
    for (uint32_t i = rows; i > 0; i--) {
        uint32_t *row = table + 4 * (i - 1);
        if (row[0] != 1)
            continue;
        row[0] = spared ? 1 : kind;
        row[1] = name_for(random, row[0]);
        spared = false;
    }
}

static void damage_table(struct random *random, struct input *in)
{
    uint32_t rows = (uint32_t)(in->table_len / 4), class = below(random, 100);
    static const size_t lengths[] = {
        0, 1, 3, 5, 7, 4 * FORMER_ROWS, 4 * FORMER_ROWS + 1, 4 * FORMER_ROWS + 4, 4 * BT_MAX_TABLE_ROWS - 4,
        4 * BT_MAX_TABLE_ROWS, 4 * BT_MAX_TABLE_ROWS + 1, 4 * BT_MAX_TABLE_ROWS + 4, 4 * BT_MAX_TABLE_ROWS + 12
    };
    if (class < 14) {
        in->table_len = lengths[below(random, sizeof lengths / sizeof *lengths)];
    } else if (class < 22) {
        in->table_len += below(random, 9);
    } else if (class < 46) {
        uint32_t *row = in->table + 4 * below(random, rows);
        uint32_t *field = row + below(random, 4);
        *field = odd_number(random, *field, rows);
    } else if (class < 60) {
        retype_leaf(random, in->table, rows);
    } else if (class < 78) {
        add_leaf(random, in, rows);
    } else if (class < 96) {
        damage_attribute(random, in, rows);
    } else {
        drop_elements(random, in->table, rows);
    }
}

/* changes a field of a row just beyond what its op allows, or its op */
static void damage_row(struct random *random, const struct input *in, uint32_t *row, uint32_t link)
{
    static const uint32_t tests[] = {4, 5, 15, 16, 17, 65550, 65551, 65552};
    if (chance(random, 15))
        row[0] = below(random, 27);
    else if (row[0] == 1)
        row[1] = (uint32_t)in->literals_len + below(random, 2) - 1;
    else if (row[0] == 24 && chance(random, 40))
        row[3] = 10 + below(random, 3);
    else if (row[0] == 24 && chance(random, 60))
        row[4] = tests[below(random, 8)];
    else
        row[1 + below(random, 2)] = below(random, link + 1);
}

static void damage_path(struct random *random, struct input *in)
{
    uint32_t rows = (uint32_t)(in->path_len / 5);
    static const size_t lengths[] = {0, 1, 4, 6, 9, 5 * 257, 5 * 256 + 1, 5 * 259};
    if (chance(random, 8)) {
        in->path_len = lengths[below(random, 8)];
    } else if (chance(random, 10)) {
        in->path_len -= 5 * (size_t)below(random, rows);
    } else if (chance(random, 5)) {
        in->path_len += in->path_len < 5 * 257 ? 1 + below(random, 10) : 0;
    } else if (chance(random, 50)) {
        uint32_t r = below(random, rows);
        damage_row(random, in, in->path + 5 * r, r + 1);
    } else {
        uint32_t *row = in->path + 5 * below(random, rows);
        uint32_t *field = row + below(random, 5);
        *field = odd_number(random, *field, rows);
    }
}

static void damage_literals(struct random *random, struct input *in)
{
    if (chance(random, 40)) {
        in->literals_len = 64 + below(random, 8);
        if (chance(random, 60))
            return;
    }
    if (in->literals_len > 0)
        in->literals[below(random, (uint32_t)in->literals_len)] = bad_literal(random);
}

static void damage_list(struct random *random, struct input *in)
{
    uint32_t rows = (uint32_t)(in->table_len / 4);
    if (in->list_len == 0)
        in->list[in->list_len++] = any(random);
    uint32_t *entry = in->list + below(random, (uint32_t)in->list_len);
    switch (below(random, 4)) {
    case 0: in->list[in->list_len - 1] = rows + below(random, 3); break;
    case 1: *entry = in->list[below(random, (uint32_t)in->list_len)]; break;
    default: *entry = odd_number(random, *entry, rows); break;
    }
}

/* ---- whole inputs ---- */

static uint32_t table_rows(struct random *random)
{
    static const uint32_t limits[] = {BT_MAX_TABLE_ROWS, BT_MAX_TABLE_ROWS - 1, FORMER_ROWS + 1, FORMER_ROWS};
    uint32_t class = below(random, 100);
    if (class < 50)
        return 2 + below(random, 11);
    if (class < 82)
        return 2 + below(random, 59);
    if (class < 94)
        return 2 + below(random, 599);
    if (class < 96)
        return 2 + below(random, FORMER_ROWS - 1);
    if (class < 99)
        return FORMER_ROWS + 1 + below(random, BT_MAX_TABLE_ROWS - FORMER_ROWS);
    return limits[below(random, 4)];
}

static void any_path(struct random *random, struct input *in)
{
    uint32_t class = below(random, 100);
    int depth = chance(random, 5) ? 10 : 1 + (int)below(random, 8);
    if (class < 5)
        make_nested(random, in, 6 + (int)below(random, 5));
    else if (class < 17)
        make_probe(random, in);
    else if (class < 21)
        make_bare(random, in, chance(random, 50) ? 2 + below(random, 255) : 254 + below(random, 3));
    else if (class < 41)
        make_attribute_path(random, in);
    else if (class < 68)
        make_path(random, in, 1 + below(random, 14), false, depth);
    else if (class < 87)
        make_path(random, in, 2 + below(random, 60), false, depth);
    else
        make_path(random, in, class < 95 ? 2 + below(random, 255) : 254 + below(random, 3), true, depth);
}

static uint32_t any_node(struct random *random, uint32_t rows)
{
    if (chance(random, 96))
        return below(random, rows);
    return chance(random, 50) ? rows + below(random, 2) : odd_number(random, 0, rows);
}

/* the one or the other edition, few times a number that is none */
static uint32_t any_edition(struct random *random)
{
    static const uint32_t others[] = {0, 3, 0xFFFFFFFFu};
    if (chance(random, 92))
        return 1 + below(random, 2);
    return chance(random, 75) ? others[below(random, 3)] : any(random);
}

void make_question(struct random *random, struct input *in)
{
    uint32_t rows = (uint32_t)(in->table_len / 4);
    make_literals(random, in);
    in->start = any_node(random, rows);
    in->edition = 1 + below(random, 2);
    if (in->literals_len > 0 && chance(random, 80))
        make_far(random, in, rows);
    else
        any_path(random, in);
}

void make_input(struct random *random, struct input *in)
{
    static const uint32_t attributes[] = {0, 40, 80, 100};
    bool small = chance(random, 8);
    uint32_t rows = small ? 1 + below(random, 12) : table_rows(random);
    if (small)
        make_small_table(random, in, rows);
    else
        make_table(random, in, rows, (enum shape)below(random, SHAPES), attributes[below(random, 4)]);
    make_literals(random, in);
    any_path(random, in);
    make_list(random, in);
    in->start = any_node(random, rows);
    in->node = any_node(random, rows);
    if (chance(random, 20))
        damage_list(random, in);
    if (chance(random, 8))
        damage_literals(random, in);
    for (uint32_t n = chance(random, 25) ? 1 + below(random, 3) : 0; n > 0 && in->path_len >= 5; n--)
        damage_path(random, in);
    for (uint32_t n = chance(random, 22) ? 1 + below(random, 2) : 0; n > 0 && in->table_len >= 4; n--)
        damage_table(random, in);
    in->edition = any_edition(random);
}
