/* ours.c: the proved evaluator as an engine of the benchmark.
 *
 * A run is one call of bt_evaluate from the root, in edition 2: it checks the
 * table, the literals and the path each time. Only the change of the text into
 * rows is done before.
 */
#include "bargetulip.h"
#include "engines.h"
#include "rows.h"
#include "sizes.h"

#include <stdio.h>
#include <stdlib.h>

struct state { const uint32_t *table; uint32_t rows; struct rows path; uint32_t out[MAX_ROWS]; };

static void *open_ours(const struct question *question)
{
    struct state *state = calloc(1, sizeof *state);
    state->table = question->table;
    state->rows = question->rows;
    if (!rows_from_text(question->query, &state->path)) {
        fprintf(stderr, "bench: not read: %s\n", question->query);
        exit(2);
    }
    return state;
}

static size_t run_ours(void *opened)
{
    struct state *s = opened;
    uint32_t place;
    uint32_t number = bt_evaluate(BT_EDITION_2, s->table, 4 * (size_t)s->rows,
                                  s->path.path, s->path.path_len,
                                  s->path.literals, s->path.literals_len, 0, s->out, MAX_ROWS, &place);
    if (number != BT_DONE) {
        fprintf(stderr, "bench: refused with %u at %u\n", number, place);
        exit(2);
    }
    return place;
}

static size_t nodes_of_ours(void *opened, uint32_t *out)
{
    size_t count = run_ours(opened);
    for (size_t i = 0; i < count; i++)
        out[i] = ((struct state *)opened)->out[i];
    return count;
}

const struct engine ours = {"ours", open_ours, run_ours, nodes_of_ours};
