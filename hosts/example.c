/* example.c: every limit that has no floor, on a small table, from C.
 *
 * The document: <set><limit><floor/></limit><limit/><group><limit/></group></set>
 * The path: //limit[not(floor)]
 * Names: 1 set, 2 limit, 3 floor, 4 group. It prints:
 * > 2 limits have no floor: nodes 4 6
 */
#include "bargetulip.h"

#include <stdio.h>

static const uint32_t table[] = { /* kind, name, parent, size */
    0, 0, 0, 6,  /* 0 the root */
    1, 1, 0, 5,  /* 1 set */
    1, 2, 1, 1,  /* 2   limit */
    1, 3, 2, 0,  /* 3     floor */
    1, 2, 1, 0,  /* 4   limit */
    1, 4, 1, 1,  /* 5   group */
    1, 2, 5, 0,  /* 6     limit */
};

static const uint32_t path[] = { /* op, a, b, c, d; a link is a row number plus one */
    24, 0, 0, 1, 16 + 3, /* 0 step child::floor */
    22, 1, 0, 0, 0,      /* 1 the relative path of row 0 */
    20, 2, 0, 0, 0,      /* 2 row 1 selects something */
    18, 3, 0, 0, 0,      /* 3 not row 2 */
    25, 0, 4, 0, 0,      /* 4 predicate [row 3] */
    24, 0, 0, 5, 0,      /* 5 step descendant-or-self::node() */
    24, 6, 5, 1, 16 + 2, /* 6 step child::limit with the predicate, after row 5 */
    23, 7, 0, 0, 0,      /* 7 the absolute path of row 6 */
};

int main(void)
{
    static const double literals[1]; /* none are used: length 0, but not a null pointer */
    uint32_t nodes[7], place;
    uint32_t number = bt_evaluate(BT_EDITION_2, table, sizeof table / sizeof *table,
                                  path, sizeof path / sizeof *path, literals, 0, 0, nodes, 7, &place);
    if (number != BT_DONE) {
        printf("refused: number %u, place %u\n", number, place);
        return 1;
    }
    printf("%u limits have no floor: nodes", place);
    for (uint32_t i = 0; i < place; i++)
        printf(" %u", nodes[i]);
    printf("\n");
    return 0;
}
