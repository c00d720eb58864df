# The evaluation cases: which paths are asked of which tables from which nodes.
# A case is a dictionary with name, edition, table, path, literals, start, and
# guess (the third opinion), which is only used to choose and to compare. These
# are of edition 2; editions.py asks some of them in edition 1 too.
import checker
import meaning
import paths
import tables
from paths import Row

SHAPES = ["chain", "wide", "balanced", "random", "parameter"]

REFERENCE = [0, 0, 0, 9, 1, 1, 0, 8, 1, 2, 1, 3, 1, 3, 2, 0, 1, 3, 2, 0, 1, 4, 2, 0,
             1, 2, 1, 3, 1, 3, 6, 0, 1, 4, 6, 0, 1, 4, 6, 0]
SMALLEST = [0, 0, 0, 1, 1, 1, 0, 0]
# Two tables with attributes, of document 02's readings.
WITH_ATTRIBUTES = [0, 0, 0, 8, 1, 1, 0, 7, 5, 1, 1, 0, 5, 2, 1, 0, 1, 2, 1, 2, 5, 1, 4, 0,
                   2, 0, 4, 0, 3, 0, 1, 0, 1, 1, 1, 0]
ELEVEN = [0, 0, 0, 10, 3, 0, 0, 0, 1, 1, 0, 7, 5, 1, 2, 0, 5, 2, 2, 0, 2, 0, 2, 0,
          1, 2, 2, 2, 5, 1, 6, 0, 3, 0, 6, 0, 2, 0, 2, 0, 4, 9, 0, 0]


def guess(edition, table, path, literals, start, limit):
    """The selected nodes and the scans of a whole-table evaluator, or None."""
    evaluator = meaning.Evaluator(edition, table, path, literals, limit)
    try:
        nodes = evaluator.select(start)
    except meaning.TooLong:
        return None, 0
    return nodes, evaluator.contexts * (len(table) // 4)


class Chooser:
    def __init__(self, rng):
        self.rng = rng
        self.cases = []
        self.scans = 0

    def add(self, name, table, path, literals, start, nodes):
        self.cases.append(dict(name=name, edition=2, table=table, path=path, literals=literals,
                               start=start, guess=nodes))

    def add_top(self, name, table, top, start, limit=200000):
        """One given path from one given node."""
        path, literals = paths.write_path(self.rng, top, self.rng.chance(50))
        nodes, scans = guess(2, table, path, literals, start, limit)
        if nodes is not None:
            self.scans += scans
            self.add(name, table, path, literals, start, nodes)
        return nodes

    def random_top(self, names, axes):
        rng = self.rng
        if rng.chance(14):
            return paths.nested_path(rng, names, rng.between(3, 8))
        budget = rng.pick([4, 8, 14, 22, 40])
        depth = rng.weighted([(10, 1), (45, 2), (35, 3), (10, 5)])
        return paths.Maker(rng, names, budget, depth, axes).path(1)

    def starts_for(self, rows, path):
        if path[-5] == 23:
            return [self.rng.below(rows)]
        return [self.rng.below(rows) for _ in range(6)]

    def random_path(self, name, table, names, limit, wanted):
        """Tries one random path; gives back how many cases it made."""
        axes = paths.ATTRIBUTE_AXES if tables.has_attributes(table) else paths.AXES
        top = self.random_top(names, axes)
        path, literals = paths.write_path(self.rng, top, self.rng.chance(55))
        if checker.check_path(path, literals)[0] != 0:
            return 0
        made = 0
        for start in self.starts_for(len(table) // 4, path):
            nodes, scans = guess(2, table, path, literals, start, limit)
            if nodes is None or made == wanted:
                break
            if nodes or self.rng.chance(3):
                self.scans += scans
                self.add(name, table, path, literals, start, nodes)
                made += 1
        return made

    def random_cases(self, name, table, names, count, limit=40000, big=None):
        """big: how many cases may select more than 300 nodes."""
        made = 0
        while made < count:
            before = len(self.cases)
            made += self.random_path(name, table, names, limit, self.rng.pick([1, 1, 2, 3]))
            if big is not None and len(self.cases) > before:
                if any(len(c["guess"]) > 300 for c in self.cases[before:]):
                    if big == 0:
                        made -= len(self.cases) - before
                        del self.cases[before:]
                    else:
                        big -= 1


# ---- tables ----

def name_pool(rng):
    return rng.pick([[1, 2, 3], [1, 2, 3, 4, 5], [7, 65535], [1, 2], [12, 300, 65535, 1]])


def tiny_tables(rng):
    out = []
    for i in range(12):
        names = name_pool(rng)
        share = rng.pick([35, 50]) if i % 2 else 0
        table = tables.make_table(rng, rng.pick(SHAPES), rng.between(2, 9), names, 35, share)
        out.append(("tiny", table, names))
    return out


def shaped_tables(rng, label, each, low, high):
    """Every other one has attributes."""
    out = []
    for k in range(len(SHAPES) * each):
        shape = SHAPES[k // each]
        names = [1, 2, 3, 4, 5, 6, 7] if shape == "parameter" else name_pool(rng)
        leaves = rng.pick([10, 30, 45])
        share = rng.pick([15, 30, 45]) if k % 2 == 0 else 0
        table = tables.make_table(rng, shape, rng.between(low, high), names, leaves, share)
        out.append((label + " " + shape, table, names))
    return out


# ---- systematic cases ----

def step_path(axis, test, predicates, op=22):
    last = None
    for p in predicates:
        last = Row(25, last, p)
    return Row(op, Row(24, None, last, axis, test))


def position_predicates():
    """Lists of predicates about positions, each made anew."""
    number = lambda v: Row(1, v)
    position, last = (lambda: Row(2)), (lambda: Row(3))
    return [
        [number(1.0)], [number(2.0)], [number(1.5)], [last()], [Row(5, last(), number(1.0))],
        [Row(10, position(), last())], [Row(14, position(), number(1.0)), number(1.0)],
        [Row(14, position(), number(1.0)), last()],
        [Row(11, position(), number(2.0)), number(2.0)],
        [Row(10, Row(8, position(), number(2.0)), number(0.0)), last()],
        [Row(14, position(), Row(6, last(), number(0.5)))],
        [Row(12, position(), last()), Row(12, position(), last()), last()],
        [position()], [Row(7, last(), number(2.0))], [Row(9, Row(9, number(2.0)))],
    ]


def systematic_steps(chooser, table, names):
    rows = len(table) // 4
    for axis in range(12):
        for test in [0, 1, 2, 3, 4, 16 + names[0]]:
            for _ in range(2):
                start = chooser.rng.below(rows)
                chooser.add_top("one step", table, step_path(axis, test, []), start)


def best_start(chooser, table, axis, test):
    """A node with many candidates, out of a few random ones."""
    tree = meaning.Tree(table)
    nodes = [chooser.rng.below(tree.count) for _ in range(5)]
    count = lambda i: sum(tree.passes(j, test, axis) for j in tree.axis(i, axis))
    return max(nodes, key=count)


def systematic_positions(chooser, table, names):
    for axis in range(1, 12 if tables.has_attributes(table) else 11):
        for i in range(len(position_predicates())):
            test = chooser.rng.pick([0, 0, 1, 16 + chooser.rng.pick(names)])
            start = best_start(chooser, table, axis, test)
            top = step_path(axis, test, position_predicates()[i])
            chooser.add_top("positions", table, top, start)


def from_the_root(chooser, table):
    """Two steps from node 0 over every pair of axes, and one from a document
    child: the root has no parent and no siblings."""
    for first in range(11):
        chooser.add_top("root", table, step_path(first, 0, []), 0)
        for second in range(11):
            top = Row(22, Row(24, Row(24, None, None, first, 0), None, second, 0))
            chooser.add_top("root", table, top, chooser.rng.pick([0, 0, 1]))
    for axis in (2, 4, 8, 9, 10):
        inner = Row(22, Row(24, None, None, axis, 0))
        for value in (Row(20, inner), Row(10, Row(21, inner), Row(1, 0.0))):
            chooser.add_top("root", table, step_path(6, 0, [value]), 3)


def near_attributes(table):
    """The attributes and their elements."""
    tree = meaning.Tree(table)
    return [i for i in range(tree.count) if tree.attributes[i] or tree.kind[i] == meaning.ATTRIBUTE]


def around_attributes(chooser, table):
    """Each axis from attributes and their elements, each test where some pass
    and where it tells attributes from elements."""
    for start in near_attributes(table):
        for axis in range(12):
            chooser.add_top("attributes", table, step_path(axis, 0, []), start)
        for axis, test in [(0, 1), (0, 17), (0, 18), (5, 1), (6, 1), (6, 17), (2, 1), (4, 17), (7, 1), (8, 1)]:
            chooser.add_top("attributes", table, step_path(axis, test, []), start)
        for test in [1, 2, 3, 4, 17, 18, 25] if table[4 * start] == tables.ELEMENT else [1]:
            chooser.add_top("attributes", table, step_path(paths.ATTRIBUTE, test, []), start)


def attribute_pairs(chooser, table):
    """Every axis behind the attribute axis and before it."""
    rng = chooser.rng
    every = lambda: Row(24, None, None, paths.DESCENDANT_SELF, 0)
    for axis in range(12):
        for test in (0, 1):
            held = Row(24, every(), None, paths.ATTRIBUTE, rng.pick([0, 1, 17]))
            chooser.add_top("attributes", table, Row(23, Row(24, held, None, axis, test)), 0)
            there = Row(24, None, None, axis, 0)
            start = rng.pick(near_attributes(table))
            chooser.add_top("attributes", table, Row(22, Row(24, there, None, paths.ATTRIBUTE, test)), start)


def existence(rng, *parts):
    """That a relative path of these steps selects something, or that it doesn't."""
    last = None
    for axis, test in parts:
        last = Row(24, last, None, axis, test)
    there = Row(20, Row(22, last))
    return Row(18, there) if rng.chance(30) else there


def attribute_truths(chooser, table, pairs):
    """Existence from attributes, by way of them and up to them, over all axes;
    with pairs, over all pairs of axes from attributes."""
    rng = chooser.rng
    test = lambda: rng.pick([0, 0, 1, 17, 18])
    every = lambda inner=None: Row(24, None, inner and Row(25, None, inner), paths.DESCENDANT_SELF, 0)
    held = lambda inner: Row(24, every(), Row(25, None, inner), paths.ATTRIBUTE, 0)
    for axis in range(12):
        tops = [held(existence(rng, (axis, test()))),
                every(existence(rng, (paths.ATTRIBUTE, 0), (axis, test()))),
                every(existence(rng, (axis, 0), (paths.ATTRIBUTE, test())))]
        for second in range(12) if pairs else []:
            tops.append(held(existence(rng, (axis, 0), (second, test()))))
        for top in tops:
            chooser.add_top("attributes", table, Row(23, top), 0)


# ---- arithmetic ----

SPECIALS = [0.0, 1.0, 2.0, 3.0, 0.1, 0.2, 0.5, 7.0, 1.0 / 3.0, 5e-324, 2.5e-310,
            2.2250738585072014e-308, 1.7976931348623157e308, 1e16, 9007199254740993.0,
            4096.0, 1e-300, 1e300]


def special_number(rng):
    """A row and its value: literals, their negations, infinities and NaN."""
    choice = rng.below(10)
    if choice == 0:
        return Row(7, Row(1, 1.0), Row(1, 0.0)), float("inf")
    if choice == 1:
        return Row(9, Row(7, Row(1, 1.0), Row(1, 0.0))), float("-inf")
    if choice == 2:
        return Row(7, Row(1, 0.0), Row(1, 0.0)), float("nan")
    value = rng.pick(SPECIALS)
    if choice <= 5:
        return Row(9, Row(1, value)), -value
    return Row(1, value), value


def number_row(rng, value):
    """A row for about this value, sometimes its neighbour."""
    import math
    if value != value or value in (float("inf"), float("-inf")):
        return special_number(rng)[0]
    if rng.chance(50):
        value = math.nextafter(value, rng.pick([float("inf"), float("-inf")]))
        if abs(value) == float("inf"):
            return special_number(rng)[0]
    return Row(1, value) if value > 0 or str(value) == "0.0" else Row(9, Row(1, -value))


def arithmetic_test(rng):
    """A truth about the result of one operation."""
    left, x = special_number(rng)
    right, y = special_number(rng)
    op = rng.between(4, 8)
    result = meaning.ARITHMETIC[op](x, y)
    row = Row(op, left, right)
    choice = rng.below(8)
    if choice == 0:
        return Row(19, row)
    if choice == 1:
        return Row(rng.pick([12, 14]), Row(7, Row(1, 1.0), row), Row(1, 0.0))
    return Row(rng.between(10, 15), row, number_row(rng, result))


def small_test(rng):
    """A comparison with the result of - * div mod on small signed numbers."""
    values = [rng.pick([1.0, 2.0, 3.0, 5.0, 7.0, 8.0, 0.5, 1.5, 2.5]) for _ in range(2)]
    values = [-v if rng.chance(50) else v for v in values]
    op = rng.pick([5, 6, 7, 8, 8, 8])
    result = meaning.ARITHMETIC[op](*values)
    row = Row(op, *[Row(1, v) if v > 0 else Row(9, Row(1, -v)) for v in values])
    if rng.chance(60):
        return Row(rng.pick([10, 13, 15]), row, signed_row(result))
    return Row(rng.pick([12, 14, 11]), row, signed_row(rng.pick([result, -result, 0.0])))


def signed_row(value):
    return Row(9, Row(1, -value)) if str(value)[0] == "-" else Row(1, value)


def comparison_test(rng):
    return Row(rng.between(10, 15), special_number(rng)[0], special_number(rng)[0])


def arithmetic_cases(chooser, table, count):
    for i in range(count):
        rng = chooser.rng
        make = [comparison_test, small_test, arithmetic_test, arithmetic_test][i % 4]
        predicates = [make(rng)]
        if rng.chance(20):
            predicates = [Row(rng.pick([16, 17]), predicates[0], make(rng))]
        chooser.add_top("arithmetic", table, step_path(0, 0, predicates), rng.below(len(table) // 4))


def fine_values():
    """Zeros of both signs, and results below the normal numbers."""
    number = lambda v: Row(1, v)
    minus = lambda row: Row(9, row)
    return [
        number(0.0), minus(number(0.0)), minus(minus(number(0.0))), minus(Row(5, number(2.0), number(2.0))),
        Row(6, minus(number(1.0)), number(0.0)), Row(8, minus(number(2.0)), number(2.0)),
        Row(7, number(2.2250738585072014e-308), number(2.0)), Row(7, number(5e-324), number(2.0)),
        Row(5, number(2.5e-310), number(5e-324)), minus(Row(6, number(1e-300), number(1e-10))),
    ]


def fine_cases(chooser, table):
    """The sign of 1 div a fine value, and the value's truth."""
    for i in range(len(fine_values())):
        inverse = Row(7, Row(1, 1.0), fine_values()[i])
        for value in (Row(14, inverse, Row(1, 0.0)), Row(12, inverse, Row(1, 0.0)), Row(19, fine_values()[i])):
            chooser.add_top("arithmetic", table, step_path(0, 0, [value]), i)


# ---- all of it ----

def fixed_big_paths():
    """Whole-document paths for the largest tables."""
    any_step = lambda: Row(24, None, None, paths.DESCENDANT_SELF, 0)
    two = Row(1, 2.0)
    return [
        Row(23, Row(24, Row(24, any_step(), None, 1, 17), None, 3, 18)),
        Row(23, Row(24, any_step(), Row(25, None, Row(14, Row(21, Row(22, Row(24, None, None, 1, 1))), two)), 1, 1)),
        Row(23, Row(24, any_step(), Row(25, None, Row(10, Row(8, Row(2), Row(1, 2.0)), Row(1, 0.0))), 1, 1)),
        Row(23, Row(24, any_step(), Row(25, None, Row(18, Row(20, Row(22, Row(24, None, None, 1, 21))))), 1, 20)),
        Row(23, Row(24, Row(24, None, None, 3, 17), Row(25, None, Row(1, 3.0)), 4, 1)),
        Row(23, Row(24, None, Row(25, Row(25, None, Row(14, Row(2), Row(1, 1000.0))), Row(3)), 3, 0)),
        Row(23, Row(24, Row(24, None, None, 3, 3), None, 10, 0)),
        Row(22, Row(24, None, Row(25, None, Row(12, Row(2), Row(1, 6.0))), 8, 0)),
        Row(22, Row(24, None, Row(25, None, Row(12, Row(5, Row(3), Row(2)), Row(1, 6.0))), 8, 1)),
        Row(22, Row(24, None, Row(25, None, Row(12, Row(2), Row(1, 6.0))), 7, 0)),
        Row(22, Row(24, None, Row(25, None, Row(13, Row(2), Row(1, 4.0))), 6, 0)),
    ]


def attribute_big_paths():
    """Attributes of all elements, elements by their attributes, and back."""
    any_step = lambda: Row(24, None, None, paths.DESCENDANT_SELF, 0)
    held = lambda test, *inner: Row(22, Row(24, None, Row(25, None, *inner) if inner else None, 11, test))
    only = Row(16, Row(20, held(17)), Row(18, Row(20, held(18))))
    return [
        Row(23, Row(24, any_step(), None, 11, 17)),
        Row(23, Row(24, any_step(), Row(25, None, only), 1, 1)),
        Row(23, Row(24, any_step(), Row(25, None, Row(14, Row(21, held(1)), Row(1, 2.0))), 1, 1)),
        Row(23, Row(24, any_step(), Row(25, None, Row(20, held(0, Row(1, 4.0)))), 1, 0)),
        Row(23, Row(24, Row(24, Row(24, any_step(), None, 11, 18), None, 2, 1), Row(25, None, Row(3)), 11, 1)),
    ]


def step_chain(axes, predicate=None):
    """A relative path of these steps with node(); the last has a predicate."""
    last = None
    for i, axis in enumerate(axes):
        inner = predicate if i + 1 == len(axes) else None
        last = Row(24, last, Row(25, None, inner) if inner else None, axis, 0)
    return Row(22, last)


def tall_truth(rng, rows):
    """A truth of this many rows, each and, or, not inside the one before."""
    if rows < 4:
        return Row(19, Row(1, float(rng.below(2))))
    if rows % 2 == 1 or rng.chance(30):
        return Row(18, tall_truth(rng, rows - 1))
    small = Row(19, Row(rng.pick([2, 3])))
    rest = tall_truth(rng, rows - 3)
    pair = (small, rest) if rng.chance(50) else (rest, small)
    return Row(rng.pick([16, 17]), *pair)


def tall_number(rng, rows):
    if rows < 2:
        return Row(1, float(rng.between(1, 5)))
    left = tall_number(rng, rows - 2)
    return Row(rng.pick([4, 5, 6]), left, Row(rng.pick([2, 3])))


def long_paths(chooser, table):
    """Paths near and at 256 rows."""
    rng = chooser.rng
    for length in (254, 255):
        axes = [rng.pick([1, 2, 5, 6, 0]) for _ in range(length)]
        chooser.add_top("long", table, step_chain([5] + [0] * (length - 1)), 2)
        chooser.add_top("long", table, step_chain([5] + axes[1:]), 2)
    for _ in range(6):
        chooser.add_top("long", table, step_chain([5], tall_truth(rng, 240)), 1)
        number = Row(13, tall_number(rng, 249), Row(1, 4.0))
        chooser.add_top("long", table, step_chain([3], number), 1)


def full_cases(chooser, name, table, names, count=22):
    rows = len(table) // 4
    fixed = fixed_big_paths()
    heavy, held = fixed[:4], attribute_big_paths()
    chooser.rng.shuffle(heavy)
    chooser.rng.shuffle(held)
    chosen = heavy[:1] + held[:2] if tables.has_attributes(table) else heavy[:2]
    for top in chosen + fixed[4:]:
        start = chooser.rng.pick([0, 1, 2000, rows - 1, chooser.rng.below(rows)])
        nodes = chooser.add_top(name, table, top, start, limit=2500000)
        if nodes is not None and len(nodes) > 900:
            chooser.cases.pop()
    chooser.random_cases(name, table, names, count, limit=400000, big=2)


def choose_cases(rng):
    chooser = Chooser(rng)
    chooser.random_cases("reference", REFERENCE, [1, 2, 3, 4], 120)
    from_the_root(chooser, REFERENCE)
    for name, table, names in tiny_tables(rng):
        chooser.random_cases(name, table, names, 24)
    chooser.random_cases("smallest", SMALLEST, [1], 20)
    for table in (WITH_ATTRIBUTES, ELEVEN):
        chooser.random_cases("attributes", table, [1, 2], 50)
        around_attributes(chooser, table)
        attribute_pairs(chooser, table)
        attribute_truths(chooser, table, table is ELEVEN)
    for k, (name, table, names) in enumerate(shaped_tables(rng, "small", 4, 12, 60)):
        chooser.random_cases(name, table, names, 42)
        if name in ("small random", "small balanced") and k % 4 < 2:
            systematic_positions(chooser, table, names)
            systematic_steps(chooser, table, names)
    for name, table, names in shaped_tables(rng, "medium", 2, 90, 400):
        chooser.random_cases(name, table, names, 40, limit=80000, big=4)
    arithmetic_cases(chooser, REFERENCE, 480)
    long_paths(chooser, REFERENCE)
    for i in range(8):
        names = name_pool(rng)
        table = tables.leafy_table(rng, rng.between(4, 45), names, i % 2 * rng.between(2, 20))
        chooser.random_cases("leafy", table, names, 30)
    for name, table, names in shaped_tables(rng, "full", 1, 4096, 4096):
        full_cases(chooser, name, table, names)
    fine_cases(chooser, REFERENCE)
    return chooser
