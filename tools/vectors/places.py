# Places on axes. Of a sound table: both engines select with [k] the node whose
# place is k, and a node without a place is in neither's answer for the axis.
# Of anything else the place is 0.
import checker
import damage
import examples
import meaning
import paths
import selection
import tables
import wellformed

LAST_AXIS = checker.LAST_AXIS
TABLES = 40

# Document 02's readings: table, axis, x, y and the place.
EXAMPLES = [(selection.ELEVEN, 7, 4, y, k) for y, k in [(5, 1), (6, 2), (7, 0), (8, 3), (9, 4), (10, 5), (3, 0)]]
EXAMPLES += [(selection.ELEVEN, 8, 4, y, k) for y, k in [(1, 1), (2, 0), (3, 0), (0, 0)]]
EXAMPLES += [(selection.WITH_ATTRIBUTES, 7, 2, y, k) for y, k in [(3, 0), (4, 1), (5, 0), (6, 2), (7, 3), (8, 4)]]
EXAMPLES += [(selection.WITH_ATTRIBUTES, 11, 1, y, k) for y, k in [(2, 1), (3, 2), (4, 0), (5, 0)]]


def place(check, table, axis, x, y, make_tree=meaning.Tree):
    number, rows = check(table)
    if number != 0 or axis > LAST_AXIS or x >= rows or y >= rows:
        return 0
    nodes = list(make_tree(table).axis(x, axis))
    return nodes.index(y) + 1 if y in nodes else 0


def choose(rng, table):
    """For each axis a node on it, where there is one, and any node: the pairs (x, axis, y)."""
    tree = meaning.Tree(table)
    for axis in range(LAST_AXIS + 1):
        x = rng.below(tree.count)
        nodes = list(tree.axis(x, axis))
        if nodes:
            yield x, axis, rng.pick(nodes)
        yield x, axis, rng.below(tree.count)


def question(rng, table, x, axis, y, check=checker.check_table):
    """The engines' case that bears out y's place, and the place."""
    k = place(check, table, axis, x, y)
    step = (axis, 0, examples.number(float(k))) if k else (axis, 0)
    path, literals = paths.write_path(rng, examples.relative(step), False)
    nodes, _ = selection.guess(2, table, path, literals, x, 100000)
    assert (nodes == [y]) if k else (y not in nodes)
    return dict(name="place", edition=2, table=table, path=path, literals=literals,
                start=x, guess=nodes, axis=axis, node=y, place=k)


def sound_cases(rng):
    made = [selection.REFERENCE, selection.WITH_ATTRIBUTES, selection.ELEVEN]
    while len(made) < TABLES:
        share = tables.some_share(rng)
        made.append(tables.make_table(rng, rng.pick(selection.SHAPES), rng.between(2, 40), [1, 2, 3], 25, share))
    return [question(rng, table, *pair) for table in made for pair in choose(rng, table)]


def add_misfits(rng, sheet):
    """Trees that are no document: a node has no place on an axis it lies on."""
    for table in [[0, 0, 0, 0]] + [wellformed.refused_table(rng) for _ in range(20)]:
        tree = meaning.Tree(table)
        there = [(axis, x, y) for x, axis, y in choose(rng, table) if y in tree.axis(x, axis)]
        for asked in there[::4]:
            sheet.place("place", table, *asked, place(checker.check_table, table, *asked))


def add_refused(rng, sheet):
    """No sound table, no axis, no row."""
    for _ in range(60):
        table = damage.damaged_table(rng) if rng.chance(50) else damage.small_table(rng)
        rows = len(table) // 4
        for _ in range(4):
            numbers = [rng.pick([0, 1, rows - 1 if rows else 0, rows, rows + 1, damage.TOP]) for _ in range(2)]
            axis = rng.pick([rng.below(LAST_AXIS + 1), rng.below(LAST_AXIS + 1), LAST_AXIS + 1, damage.TOP])
            sheet.place("place", table, axis, *numbers, place(checker.check_table, table, axis, *numbers))
