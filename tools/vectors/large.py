# W-211: makes hosts/vectors/stdin and hosts/vectors/stdout, of tables with 4,097 to
# 8,192 rows. There are two sets because the program in Rattle that answers
# crates/vectors holds 4,096 rows, and the one in C all that the library accepts.
# usage: large.py <folder with the engine programs> <output folder>
import sys

import attributes
import checker
import damage
import editions
import generate
import meaning
import paths
import places
import selection
import tables
from examples import absolute, exists, number, relative
from generate import CHECK
from paths import Row
from rng import Rng
from sheet import C_ROWS, Sheet

SEED = generate.SEED + 211
# The rows that tables had at most before.
OLD = 4096
# The first rows, of which some hold nearly all others and some stand before them.
FIRST = 5
# Nodes on axes and contexts that meaning.py may take for one question.
LIMIT = 200000
# Answers with more nodes are mostly asked with too little room.
LONG = 120
# The longest output that the program in C lends.
MOST_ROOM = 8400

# shape, rows, names, leaves and attributes of a hundred
SHAPES = [
    ("wide", 4097, [1, 2], 30, 0),
    ("balanced", 5003, [1, 2, 3], 20, 25),
    ("parameter", 6007, [1, 2, 3, 4, 5, 6, 7], 0, 0),
    ("random", 8191, [1, 2, 3], 30, 30),
    ("chain", 8192, [1, 2], 0, 0),
    ("wide", 8192, [1, 2, 3], 20, 5),
]


def only_attributes():
    """One element with 8,190 attributes, all of other names."""
    return attributes.one_element(range(checker.MAX_ROWS - 2, 0, -1))


def made_tables(rng):
    """name, table, names"""
    for shape, rows, names, leaves, share in SHAPES:
        yield "%s %d" % (shape, rows), tables.make_table(rng, shape, rows, names, leaves, share), names
    yield "attributes 8192", only_attributes(), [1, 2, OLD, OLD + 1, 8190]


def choose_room(rng, count):
    """Room for short answers; long ones mostly are one node too many."""
    if count <= LONG:
        return generate.choose_room(rng, count)
    return rng.pick([0, min(OLD, count - 1), count - 1, count - 1])


# ---- paths whose answers lie far ----

def landmarks(rng, rows):
    """The first rows, those about 4,096, the middle, the last ones and some others."""
    some = [*range(FIRST), OLD - 1, OLD, OLD + 1, rows // 2, rows - 3, rows - 2, rows - 1]
    return [i for i in some if i < rows] + [rng.below(rows) for _ in range(2)]


def long_start(rng, tree, axis):
    """The node with most on its axis out of some."""
    return max(landmarks(rng, tree.count), key=lambda i: len(tree.axis(i, axis)))


def far_predicates(length):
    """Lists of predicates about positions on an axis of so many nodes, each made anew."""
    position, last = (lambda: Row(2)), (lambda: Row(3))
    old = lambda: number(float(OLD))
    return [
        [last()], [old()], [number(float(OLD + 1))], [number(float(length))], [number(float(length + 1))],
        [Row(5, last(), number(1.0))], [Row(5, last(), old())], [Row(7, last(), number(2.0))],
        [Row(14, position(), old()), number(1.0)], [Row(14, position(), old()), last()],
        [Row(10, Row(8, position(), old()), number(1.0))], [Row(10, Row(5, last(), position()), old())],
        [Row(15, position(), Row(5, last(), number(2.0)))], [Row(10, last(), number(float(length))), number(2.0)],
        [Row(11, position(), number(1.0)), Row(11, position(), last()), last()],
    ]


def passing(tree, x, axis, test):
    return sum(tree.passes(i, test, axis) for i in tree.axis(x, axis))


def long_axes(rng, tree, names):
    """axis, node, test and how many pass, where these are many."""
    for axis in range(1, 12):
        x = long_start(rng, tree, axis)
        for test in (0, 1, 16 + rng.pick(names)):
            length = passing(tree, x, axis, test)
            if length > LONG:
                yield axis, x, test, length


def some_of(rng, items, count):
    rng.shuffle(items)
    return items[:count]


def position_cases(chooser, tree, table, names):
    """Positions and last() on long axes."""
    for axis, x, test, length in long_axes(chooser.rng, tree, names):
        for predicates in some_of(chooser.rng, far_predicates(length), {0: 3, 1: 2}.get(test, 1)):
            chooser.add_top("positions", table, relative((axis, test, *predicates)), x)


def other_values(length):
    """What a count is held against beside its value; the second is what 12 bits leave of it."""
    return [(14, OLD), (10, length % OLD), (15, length), (12, length), (11, length)]


def count_cases(chooser, tree, table, names):
    """Counts on long axes, held against what they are and are not."""
    for axis, x, test, length in long_axes(chooser.rng, tree, names):
        others = some_of(chooser.rng, other_values(length), 1)
        for op, value in others if test else [(10, length), *others]:
            held = Row(op, Row(21, relative((axis, test))), number(float(value)))
            chooser.add_top("counts", table, relative((0, 0, held)), x)


def middle_tops(rows):
    """Relative paths for nodes about the middle, and absolute ones that lead there."""
    few = lambda: Row(12, Row(2), number(4.0))
    middle = lambda: number(float(rows // 2))
    return [
        relative((7, 0, few())), relative((8, 0, few())), relative((7, 1, number(2.0))), relative((8, 1, number(2.0))),
        relative((7, 0, Row(3))), relative((8, 0, Row(3))), relative((4, 0, Row(3))), relative((6, 1, few())),
        relative((9, 0, number(1.0))), relative((10, 0, number(1.0))), relative((10, 0, Row(3))), relative((9, 1, Row(3))),
        relative((5, 0, Row(3))), relative((2, 0), (11, 1, number(1.0))), relative((2, 0), (1, 0, Row(3))),
        relative((8, 0, number(1.0)), (7, 0, Row(3))), relative((7, 0, few()), (11, 0)), relative((0, 0, exists((8, 1)))),
        absolute((3, 0, middle()), (7, 0, few())), absolute((3, 0, middle()), (8, 0, few())),
        absolute((3, 0, number(float(OLD))), (6, 0, few())), absolute((3, 1, Row(3)), (8, 0, few())),
        absolute((3, 0, Row(14, Row(2), number(float(OLD))), few()), (10, 0, few())),
    ]


def middle_cases(chooser, table):
    rows = len(table) // 4
    for start in landmarks(chooser.rng, rows)[FIRST:]:
        for top in some_of(chooser.rng, middle_tops(rows), 2):
            chooser.add_top("middle", table, top, start)


def late_cases(chooser, tree, table):
    """The last nodes, told apart by how many stand before them."""
    count = len(tree.others(range(tree.count)))
    late = lambda: Row(14, Row(2), number(float(max(count - 20, 0))))
    for axis in (4, 8, 10):
        for test in (0, 1):
            counted = Row(21, relative((axis, test)))
            many, odd = Row(14, counted, number(float(OLD))), Row(10, Row(8, counted, number(2.0)), number(1.0))
            chooser.add_top("late", table, absolute((3, 0, late(), chooser.rng.pick([many, odd]))), 0)


def choose_cases(rng, name, table, names):
    chooser, tree = selection.Chooser(rng), meaning.Tree(table)
    position_cases(chooser, tree, table, names)
    count_cases(chooser, tree, table, names)
    middle_cases(chooser, table)
    late_cases(chooser, tree, table)
    selection.full_cases(chooser, name, table, names, 9)
    return chooser


# ---- all nodes ----

def whole_tops():
    """All nodes but attributes, and all attributes."""
    return [absolute((5, 0)), absolute((3, 1), (11, 0))]


def whole_rooms(name, count):
    """One node short, and for the longest answer as much room as is needed, for another all that there is."""
    enough = {"chain 8192": [count], "wide 4097": [MOST_ROOM]}
    return [count - 1] + enough.get(name, [])


# ---- turning ----

def both_ends(rng, edition, table, path, turned, literals, x):
    """A path from a node x, and its turned path from a node y that it selects,
    one of them far; or None, also where both answers are long."""
    there = generate.from_starts(edition, "turning", table, path, literals, [x], LIMIT)
    far = [y for y in there[0]["guess"] if max(x, y) >= OLD] if there else []
    if not far:
        return None
    back = generate.from_starts(edition, "turned", table, turned, literals, [rng.pick(far)], LIMIT)
    if back is None or min(len(case["guess"]) for case in there + back) > LONG:
        return None
    assert x in back[0]["guess"]
    return there + back


def turned_path(rng, table, names):
    """A random path, its answer when turned, and cases of both from both ends; or None."""
    path, literals = paths.write_path(rng, damage.quiet_top(rng, names), rng.chance(60))
    x = rng.pick(landmarks(rng, len(table) // 4))
    if checker.check_path(path, literals)[0] != 0 or table[4 * x] == tables.ATTRIBUTE:
        return None
    room = 5 * (len(path) // 5 + 1) + rng.pick([0, 0, 1, 7])
    result = checker.turn(path, literals, room)
    ends = [both_ends(rng, edition, table, path, result[2], literals, x)
            for edition in ((2, 1) if editions.has_star(path) else (2,))]
    if ends[0] is None:
        return None
    return dict(path=path, literals=literals, room=room, result=result, cases=sum((e for e in ends if e), []))


def turning_cases(rng, table, names, count):
    made = []
    while len(made) < count:
        turned = turned_path(rng, table, names)
        if turned is not None:
            made.append(turned)
    return made


# ---- places ----

def far_pairs(rng, tree):
    """On each axis of a node with much on it the first, the last, those about
    the 4,096th and another, and any node: the pairs (x, axis, y)."""
    for axis in range(checker.LAST_AXIS + 1):
        x = long_start(rng, tree, axis)
        nodes = list(tree.axis(x, axis))
        spots = {0, OLD - 1, OLD, len(nodes) - 1, rng.below(len(nodes) + 1)}
        yield from ((x, axis, nodes[i]) for i in sorted(spots) if 0 <= i < len(nodes))
        yield x, axis, rng.below(tree.count)


def refused_places(sheet, table):
    rows = len(table) // 4
    for axis, x, y in [(7, rows, 1), (3, 0, rows), (12, 0, rows - 1)]:
        sheet.place("place", table, axis, x, y, places.place(CHECK.check_table, table, axis, x, y))


# ---- views ----

def holders_of(table, row):
    """The row itself and all that hold it."""
    return [i for i in range(row + 1) if i + table[4 * i + 3] >= row]


def views(rng, table):
    """Nodes and lists: rows about 4,096, far apart, the last, about a far one; a row too many, a row twice."""
    rows = len(table) // 4
    middle = list(range(rng.between(OLD - 20, OLD - 3), min(OLD + 6, rows)))
    apart = list(range(rng.below(40), rows, rng.between(50, 70)))
    late = list(range(rows - rng.between(3, 12), rows))
    for row, entries in ((OLD, middle), (OLD, apart), (rows - 1, late), (rng.below(rows), apart), (rows - 1, apart)):
        yield rng.pick(holders_of(table, row)), entries
    far = rng.between(OLD, rows - 1)
    yield far, list(range(far - 5, min(far + 40, rows)))
    yield 0, late + [rows]
    yield 1, apart[:-1] + apart[-2:]
    yield rows, late


def ask_view(sheet, table, node, entries):
    sheet.view("view", table, node, entries, CHECK.view(table, entries, node))


def view_cases(rng, sheet, table):
    for node, entries in views(rng, table):
        ask_view(sheet, table, node, entries)


def long_views(sheet, table):
    """Lists of all rows, and of rows that stop ascending behind 4,096."""
    every = list(range(len(table) // 4))
    ask_view(sheet, table, holders_of(table, OLD)[1], every)
    ask_view(sheet, table, OLD + 1, every)
    ask_view(sheet, table, 0, every[:OLD + 3] + [OLD + 1])


# ---- refusals ----

def refusals(rng, sheet, table):
    """Starts that are no row, and bad paths and literals with good starts and bad ones."""
    rows = len(table) // 4
    ask = lambda *inputs: damage.ask_evaluate(rng, sheet, table, *inputs, CHECK.refuse_evaluate)
    for start in sorted({rows, checker.MAX_ROWS, damage.TOP}):
        ask(rng.pick([damage.GOOD_PATH, [23, 0, 0, 0, 0]]), [], start)
    ask(damage.BAD_PATH, [], rng.pick([0, OLD, rows]))
    ask(damage.GOOD_PATH[:9], [], rows - 1)
    ask(damage.GOOD_PATH, [rng.pick(damage.BAD_LITERALS)], rows)
    ask(damage.straight_nest(9), [], rows - 1)


def ask_refused(rng, sheet, table, answer):
    """A table that is refused, with all that asks of it."""
    assert CHECK.check_table(table) == answer
    sheet.check_table("damage", table, answer)
    for path, start in ((damage.GOOD_PATH, 1), (damage.BAD_PATH, damage.TOP)):
        damage.ask_evaluate(rng, sheet, table, path, [], start, CHECK.refuse_evaluate)
    sheet.place("damage", table, 3, 0, 1, places.place(CHECK.check_table, table, 3, 0, 1))
    ask_view(sheet, table, 0, [0, 1])


def changed(table, *changes):
    """A copy with fields (row, field, value) changed."""
    table = list(table)
    for row, field, value in changes:
        table[4 * row + field] = value
    return table


def broken_tables(rng):
    """Tables with a broken row at 4,096 or behind it, and the lowest one."""
    wide = lambda rows: tables.make_table(rng, "wide", rows, [1], 0)
    full, last = wide(checker.MAX_ROWS), checker.MAX_ROWS - 1
    yield changed(wide(OLD + 1), (OLD, 0, 6)), OLD
    yield changed(wide(OLD + 4), (OLD + 1, 1, 65536), (OLD + 3, 1, 0)), OLD + 1
    yield changed(full, (last, 3, damage.TOP - last + 1)), last
    yield changed(only_attributes(), (last, 1, OLD + 1)), last


def short_tables(rng):
    """Tables of which the numbers behind a few are 0: how many are given, and the answer."""
    few = lambda rows: [0, 0, 0, rows - 1, 1, 1, 0, rows - 2]
    padded = lambda numbers, length: numbers + [0] * (length - len(numbers))
    for rows in (OLD + 1, checker.MAX_ROWS - 1, checker.MAX_ROWS):
        yield padded(few(rows), 4 * rows), 8, (2, 2)
        yield padded(few(rows), 4 * rows - rng.between(1, 3)), 8, (1, 0)
    yield padded(few(checker.MAX_ROWS - 1), 4 * checker.MAX_ROWS), 8, (2, 0)
    yield [0] * (4 * checker.MAX_ROWS), 0, (2, 0)
    for length in (32769, 32770, 32771, 32772, 4 * C_ROWS):
        yield padded(few(checker.MAX_ROWS + 1), length), 8, (1, 0)


def add_refused(rng, sheet):
    for table, place in broken_tables(rng):
        ask_refused(rng, sheet, table, (2, place))
    for table, given, answer in short_tables(rng):
        sheet.set("table", table, given)
        ask_refused(rng, sheet, table, answer)


# ---- all of a table ----

class Asker:
    """Asks the engines and keeps what they were asked."""

    def __init__(self, build, sheet):
        self.build = build
        self.sheet = sheet
        self.log = []
        self.asked = {}
        self.scans = 0

    def ask(self, sort, cases):
        """The cases on which the engines agree."""
        generate.ask_cases(self.build, cases)
        self.asked.setdefault(sort, []).extend(map(generate.agreed, cases))
        return generate.sort_out(cases, self.log)

    def selections(self, rng, name, table, names):
        chooser = choose_cases(rng, name, table, names)
        self.scans += chooser.scans
        kept = self.ask("edition 2", chooser.cases)
        firsts = generate.ask_first(rng, self.build, kept, self.log)
        self.asked.setdefault("edition 1", []).extend(map(generate.agreed, firsts))
        for case in kept:
            generate.write_case(rng, self.sheet, case, "engines", choose_room)
            generate.write_first(rng, self.sheet, case, "engines", choose_room)
            if rng.chance(3):
                generate.write_no_edition(rng, self.sheet, case)

    def wholes(self, rng, name, table):
        chooser = selection.Chooser(rng)
        for top in whole_tops():
            chooser.add_top("whole", table, top, rng.below(len(table) // 4))
        for case in self.ask("edition 2", [case for case in chooser.cases if case["guess"]]):
            for room in whole_rooms(name, len(case["guess"])):
                generate.write_case(rng, self.sheet, case, "engines", lambda rng, count: room)

    def turnings(self, rng, table, names):
        made = turning_cases(rng, table, names, 6)
        self.ask("turning", [case for turned in made for case in turned["cases"]])
        for turned in made:
            self.sheet.turn("turning", turned["path"], turned["literals"], turned["room"], *turned["result"])
            for case in filter(generate.agreed, turned["cases"]):
                generate.write_case(rng, self.sheet, case, "turning", choose_room)

    def places(self, rng, table):
        cases = [places.question(rng, table, *pair, CHECK.check_table) for pair in far_pairs(rng, meaning.Tree(table))]
        for case in self.ask("places", cases):
            self.sheet.place("engines", table, case["axis"], case["start"], case["node"], case["place"])

    def table(self, rng, name, table, names):
        assert CHECK.check_table(table) == (0, len(table) // 4)
        self.sheet.check_table("large", table, (0, len(table) // 4))
        self.selections(rng, name, table, names)
        self.wholes(rng, name, table)
        if any(kind != tables.ATTRIBUTE for kind in table[4 * OLD::4]):
            self.turnings(rng, table, names)
        self.places(rng, table)
        refused_places(self.sheet, table)
        refusals(rng, self.sheet, table)
        view_cases(rng, self.sheet, table)
        if name == "wide 8192":
            long_views(self.sheet, table)


def report(asker):
    for sort, alike in asker.asked.items():
        print("%-10s asked %5d, answered alike %5d" % (sort, len(alike), sum(alike)))
    print("whole-table row scans of edition 2: %d million" % (asker.scans // 1000000))
    generate.print_counts(asker.sheet)


def main(build, folder):
    sys.setrecursionlimit(10000)
    asker = Asker(build, Sheet(C_ROWS))
    for k, (name, table, names) in enumerate(made_tables(Rng(SEED))):
        asker.table(Rng(SEED + 1 + k), name, table, names)
    add_refused(Rng(SEED + 20), asker.sheet)
    generate.write_lines(folder + "/stdin", asker.sheet.commands)
    generate.write_lines(folder + "/stdout", asker.sheet.answers)
    generate.write_lines(build + "/large_disagreements.txt", asker.log)
    report(asker)
    print("disagreements %d, listed in %s/large_disagreements.txt" % (len(asker.log), build))


if __name__ == "__main__":
    main(sys.argv[1], sys.argv[2])
