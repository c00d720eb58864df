# Damaged inputs and their refusals, turning cases and view cases. All numbers
# and places here come from checker.py.
import checker
import paths
import selection
import tables
from paths import Row
from rng import Rng

TOP = 4294967295
NAN_BITS = [0x7FF8000000000000, 0xFFF8000000000000, 0x7FF0000000000001,
            0x7FFFFFFFFFFFFFFF, 0xFFFFFFFFFFFFFFFF]
BAD_LITERALS = NAN_BITS + [0x8000000000000000, 0x7FF0000000000000, 0xFFF0000000000000,
                           0xBFF0000000000000, 0x8000000000000001]
GOOD_LITERALS = [0, 1, 0x000FFFFFFFFFFFFF, 0x0010000000000000, 0x7FEFFFFFFFFFFFFF,
                 0x3FF0000000000000, 0x3FB999999999999A, 0x4000000000000000]
GOOD_PATH = [24, 0, 0, 1, 0, 22, 1, 0, 0, 0]
BAD_PATH = [24, 0, 0, 12, 0, 22, 1, 0, 0, 0]


# ---- damaged tables ----

def small_table(rng):
    shape = rng.pick(selection.SHAPES)
    return tables.make_table(rng, shape, rng.between(2, 18), [1, 2, 3], 35, tables.some_share(rng))


def odd_value(rng, rows):
    return rng.pick([0, 1, 2, 3, 4, 5, 6, rows - 1, rows, rows + 1, rng.below(rows + 1),
                     65535, 65536, 2147483648, TOP, TOP - 1])


def change_field(rng, table):
    i = rng.below(len(table))
    table[i] = odd_value(rng, len(table) // 4)


def nudge_field(rng, table):
    i = rng.below(len(table))
    table[i] = (table[i] + rng.pick([1, TOP])) % (TOP + 1)


def wrap_size(rng, table):
    """i + size(i) passes if it is worked out in 32 bits."""
    rows = len(table) // 4
    i = rng.below(rows)
    end = i + table[4 * i + 3]
    table[4 * i + 3] = (TOP + 1 - i + rng.below(end + 1)) % (TOP + 1)


def swap_rows(rng, table):
    rows = len(table) // 4
    i, j = rng.below(rows), rng.below(rows)
    table[4 * i:4 * i + 4], table[4 * j:4 * j + 4] = table[4 * j:4 * j + 4], table[4 * i:4 * i + 4]


def drop_row(rng, table):
    i = rng.below(len(table) // 4)
    del table[4 * i:4 * i + 4]


def repeat_row(rng, table):
    i = rng.below(len(table) // 4)
    table[4 * i:4 * i] = table[4 * i:4 * i + 4]


def move_parent(rng, table):
    i = rng.below(len(table) // 4)
    table[4 * i + 2] = table[4 * table[4 * i + 2] + 2] if rng.chance(50) else rng.below(i + 2)


def change_kind(rng, table):
    i = rng.below(len(table) // 4)
    kind = rng.pick([0, 1, 2, 3, 4, 5, 6, TOP])
    table[4 * i] = kind
    if rng.chance(60):
        table[4 * i + 1] = rng.pick([0, 1])


def cut_length(rng, table):
    if rng.chance(50):
        del table[len(table) - rng.between(1, min(7, len(table))):]
    else:
        table += [rng.below(3) for _ in range(rng.between(1, 3))]


TABLE_DAMAGE = [change_field, change_field, nudge_field, nudge_field, wrap_size, wrap_size,
                swap_rows, drop_row, repeat_row, move_parent, change_kind, cut_length]


def damaged_table(rng):
    table = small_table(rng)
    for _ in range(rng.pick([1, 1, 1, 2])):
        if table:
            rng.pick(TABLE_DAMAGE)(rng, table)
    return table


def fixed_tables(rng):
    """Lengths and rows at the limits; those above the program's limit are counts in the files."""
    yield from ([0] * n for n in (0, 1, 2, 3, 5, 7))
    yield [0, 0, 0, 0]
    yield [0, 0, 0, 1]
    yield [0, 0, 0, 3, 1, 1, 0, 2, 1, 1, 1, 0, 2, 0, 1, 0, 9]
    full = tables.make_table(rng, "balanced", 4096, [1, 2], 20, 25)
    yield full
    yield full + [0]
    yield full[:-1]
    longer = list(full) + [1, 1, 0, 0]
    longer[3] = 4096
    yield longer
    for i, value in [(4095, TOP - 4094), (4095, TOP), (4095, 1), (2000, TOP), (0, TOP), (0, 4096)]:
        broken = list(full)
        broken[4 * i + 3] = value
        yield broken


def ask_table(rng, sheet, table):
    sheet.check_table("damage", table, checker.check_table(table))
    if rng.chance(30):
        path = rng.pick([GOOD_PATH, BAD_PATH])
        ask_evaluate(rng, sheet, table, path, [], rng.pick([0, 1, TOP]))
    if rng.chance(10):
        entries = list(range(rng.below(3)))
        sheet.view("damage", table, 0, entries, checker.view(table, entries, 0))


def ask_evaluate(rng, sheet, table, path, literals, start, refuse=checker.refuse_evaluate):
    """Only if refused with 1 to 7."""
    refused = refuse(2, table, path, literals, start)
    if refused is not None:
        room = rng.pick([0, 1, 5, 40])
        sheet.evaluate("damage", 2, table, path, literals, start, room, *refused, [])
        ask_editions(sheet, refuse, room, table, path, literals, start)


def ask_editions(sheet, refuse, room, *inputs):
    """Some in edition 1 and in no edition; a stream of its own leaves the others' choices alone."""
    rng = Rng(len(sheet.answers))
    editions = [1] if rng.chance(30) else []
    editions += [no_edition(rng)] if rng.chance(50) else []
    for edition in editions:
        sheet.evaluate("damage", edition, *inputs, room, *refuse(edition, *inputs), [])


def no_edition(rng):
    """Any number but 1 and 2, some of which are these in their lowest bits."""
    low = rng.pick([8, 16, 31])
    near = rng.pick([4, TOP - 1, (1 << low) + 1, (1 << low) + 2])
    return rng.weighted([(25, 0), (25, 3), (20, TOP), (15, near), (15, rng.between(3, TOP))])


def table_cases(rng, sheet, count):
    for table in fixed_tables(rng):
        ask_table(rng, sheet, table)
    made = 0
    while made < count:
        table = damaged_table(rng)
        if checker.check_table(table)[0] == 0 and not rng.chance(15):
            continue
        ask_table(rng, sheet, table)
        made += 1


# ---- damaged paths ----

def small_path(rng):
    while True:
        maker = paths.Maker(rng, [1, 2, 3], rng.pick([4, 10, 20]), 3)
        path, literals = paths.write_path(rng, maker.path(1), rng.chance(50))
        if len(path) >= 10:
            return path, literals


def odd_field(rng, rows):
    return rng.pick([0, 1, 2, 3, 4, 5, 10, 11, 15, 16, 17, 26, rows, rows + 1, 65551, 65552,
                     rng.below(rows + 1), rng.below(rows + 1), rng.below(rows + 1), TOP])


def path_field(rng, path):
    i = rng.below(len(path))
    path[i] = odd_field(rng, len(path) // 5)


def path_op(rng, path):
    r = rng.below(len(path) // 5)
    path[5 * r] = rng.pick(list(range(27)) + [TOP])


def path_link(rng, path):
    """Another lower row in a field that is in use."""
    r = rng.below(len(path) // 5)
    fields = [i for i in (1, 2) if path[5 * r + i] != 0]
    if fields:
        path[5 * r + rng.pick(fields)] = rng.below(r + 2)


def path_same_link(rng, path):
    r = rng.below(len(path) // 5)
    i = rng.pick([1, 2])
    path[5 * r + 3 - i] = path[5 * r + i]


def path_swap(rng, path):
    rows = len(path) // 5
    i, j = rng.below(rows), rng.below(rows)
    path[5 * i:5 * i + 5], path[5 * j:5 * j + 5] = path[5 * j:5 * j + 5], path[5 * i:5 * i + 5]


def path_drop(rng, path):
    r = rng.below(len(path) // 5)
    del path[5 * r:5 * r + 5]


def path_append(rng, path):
    rows = len(path) // 5
    path += rng.pick([[24, 0, 0, 0, 0], [2, 0, 0, 0, 0], [22, rows, 0, 0, 0], [20, rows, 0, 0, 0],
                      [22, rows - 1, 0, 0, 0], [23, 0, 0, 0, 0]])


def path_unused(rng, path):
    unused = [i for i, v in enumerate(path) if i % 5 >= 2 and v == 0]
    path[rng.pick(unused)] = rng.pick([1, 2, TOP])


def path_step(rng, path):
    steps = [r for r in range(len(path) // 5) if path[5 * r] == 24]
    if steps:
        r = rng.pick(steps)
        if rng.chance(50):
            path[5 * r + 3] = rng.pick([12, 13, TOP])
        else:
            path[5 * r + 4] = rng.pick([5, 6, 15, 16, 65552, TOP])


def path_literal(rng, path):
    lits = [r for r in range(len(path) // 5) if path[5 * r] == 1]
    if lits:
        path[5 * rng.pick(lits) + 1] += rng.pick([1, 2, 64, TOP - 9])


def path_cut(rng, path):
    if rng.chance(50):
        del path[len(path) - rng.between(1, min(9, len(path))):]
    else:
        path += [0] * rng.between(1, 4)


PATH_DAMAGE = [path_field, path_field, path_op, path_op, path_link, path_link, path_same_link,
               path_swap, path_drop, path_append, path_unused, path_step, path_literal, path_cut]


def damaged_path(rng):
    path, literals = small_path(rng)
    for _ in range(rng.pick([1, 1, 1, 2, 3])):
        if len(path) >= 10:
            rng.pick(PATH_DAMAGE)(rng, path)
    return path, literals


def ask_path(rng, sheet, table, path, literals):
    sheet.check_path("damage", path, literals, checker.check_path(path, literals))
    if rng.chance(25):
        ask_evaluate(rng, sheet, table, path, literals, rng.pick([0, TOP]))
    if rng.chance(25):
        room = rng.pick([0, 10, 300])
        sheet.turn("damage", path, literals, room, *checker.turn(path, literals, room))


def path_cases(rng, sheet, table, count):
    for path, literals in fixed_paths(rng):
        ask_path(rng, sheet, table, path, literals)
    made = 0
    while made < count:
        path, literals = damaged_path(rng)
        if checker.check_path(path, literals)[0] == 0 and not rng.chance(10):
            continue
        ask_path(rng, sheet, table, path, literals)
        made += 1


def fixed_paths(rng):
    """Lengths at the limits, and rows that are easily judged wrongly."""
    step, relative = [24, 0, 0, 1, 0], [22, 1, 0, 0, 0]
    for n in (0, 1, 4, 5, 6, 9, 11):
        yield (step + relative + [0])[:n], []
    for rows in (255, 256, 257, 260):
        chain = [v for i in range(rows - 1) for v in (24, i, 0, 0, 0)]
        yield chain + [22, rows - 1, 0, 0, 0], []
    yield [24, 0, 0, 0, 0] * 260, []
    yield [23, 0, 0, 0, 0], []
    yield [22, 0, 0, 0, 0], []
    yield step + [22, 5, 0, 0, 0], []
    yield step + [22, 2, 0, 0, 0], []
    yield step + step + [22, 2, 0, 0, 0], []
    yield [2, 0, 0, 0, 0, 2, 0, 0, 0, 0, 4, 1, 1, 0, 0, 19, 3, 0, 0, 0], []
    yield [2, 0, 0, 0, 0, 4, 1, 1, 0, 0, 25, 0, 2, 0, 0, 24, 0, 3, 0, 0, 22, 4, 0, 0, 0], []
    yield [2, 0, 0, 0, 0, 25, 0, 1, 0, 0, 25, 2, 1, 0, 0, 24, 0, 3, 0, 0, 22, 4, 0, 0, 0], []
    yield [0, 0, 0, 0, 0] + step + relative, []
    yield [26, 0, 0, 0, 0, 24, 0, 0, 0, 0, 22, 2, 0, 0, 0], []
    yield step + [23, 1, 0, 0, 0, 20, 2, 0, 0, 0, 25, 0, 3, 0, 0, 24, 0, 4, 0, 0, 22, 5, 0, 0, 0], []
    yield step + [23, 1, 0, 0, 0, 25, 0, 2, 0, 0, 24, 0, 3, 0, 0, 22, 4, 0, 0, 0], []
    for axis, test in [(10, 0), (11, 0), (12, 0), (0, 4), (0, 5), (0, 16), (0, 17), (0, 65551), (0, 65552),
                       (11, 4), (11, 5), (11, 16), (11, 65551), (11, 65552), (12, 17), (TOP, 0)]:
        yield [24, 0, 0, axis, test] + relative, []


# ---- literals ----

def literal_path(index):
    return [1, index, 0, 0, 0, 25, 0, 1, 0, 0, 24, 0, 2, 1, 0, 22, 3, 0, 0, 0]


def literal_lists(rng):
    for bits in BAD_LITERALS + GOOD_LITERALS:
        yield [bits]
        count = rng.between(2, 20)
        some = [rng.pick(GOOD_LITERALS) for _ in range(count)]
        some[rng.below(count)] = bits
        yield some
    good = [rng.pick(GOOD_LITERALS) for _ in range(66)]
    for count in (0, 63, 64, 65, 66):
        yield good[:count]
    for place in (0, 17, 63, 64, 65):
        yield good[:place] + [rng.pick(BAD_LITERALS)] + good[place + 1:]


def literal_cases(rng, sheet, table):
    for literals in literal_lists(rng):
        for path in rng.pick([[literal_path(0)], [literal_path(63)], [literal_path(1), [7]],
                              [[23, 0, 0, 0, 0]], [literal_path(len(literals))]]):
            ask_path(rng, sheet, table, path, literals)
            if checker.check_path(path, literals)[0] == 4:
                sheet.turn("damage", path, literals, 30, *checker.turn(path, literals, 30))
                ask_evaluate(rng, sheet, table, path, literals, 0)


# ---- depth, start ----

def depth_cases(rng, sheet, table):
    made = 0
    while made < 40:
        depth = rng.pick([8, 9, 9, 9, 10, 12])
        top = paths.nested_path(rng, [1, 2, 3], depth)
        path, literals = paths.write_path(rng, top, rng.chance(50))
        if checker.check_path(path, literals)[0] in (0, 6):
            ask_path(rng, sheet, table, path, literals)
            made += 1
    for depth in (8, 9, 40):
        path = straight_nest(depth)
        ask_path(rng, sheet, table, path, [])
        ask_evaluate(rng, sheet, table, path, [], TOP)
        sheet.turn("damage", path, [], 300, *checker.turn(path, [], 300))


def straight_nest(depth):
    path = []
    for level in range(depth):
        r = len(path) // 5
        inner = 0
        if level > 0:
            path += [20, r, 0, 0, 0, 25, 0, r + 1, 0, 0]
            inner = r + 2
        path += [24, 0, inner, 1, 0]
        path += [22, len(path) // 5, 0, 0, 0]
    return path


def start_cases(rng, sheet, table):
    rows = len(table) // 4
    for start in (rows, rows + 1, 4096, 65536, TOP):
        for _ in range(5):
            path, literals = small_path(rng)
            ask_evaluate(rng, sheet, table, path, literals, start)
        ask_evaluate(rng, sheet, table, [23, 0, 0, 0, 0], [], start)


# ---- turning ----

def quiet_top(rng, names, op=22, axes=range(11)):
    """No step counts; the attribute axis only inside predicates, unless asked for."""
    maker = paths.Maker(rng, names, rng.pick([6, 14, 24]), 3, paths.ATTRIBUTE_AXES)
    top = maker.quiet_path(1, rng.weighted([(40, 1), (35, 2), (20, 3), (5, 5)]), axes)
    top.op = op
    return top


def quiet_chain(rows):
    """A relative path of this many rows in which no step counts."""
    return [v for i in range(rows - 1) for v in (24, i, 0, i % 11, 0)] + [22, rows - 1, 0, 0, 0]


def turn_rooms(rng, needed):
    enough = rng.pick([5 * needed, 5 * needed + 1, 5 * needed + 9])
    short = rng.pick([5 * needed - 1, 5 * needed - 5, 0, rng.below(5 * needed)])
    return enough, short


def turn_refusals(rng, sheet, count):
    for i in range(count):
        if i % 2 == 0:
            top = paths.Maker(rng, [1, 2, 3], rng.pick([10, 20, 30]), 3).path(1, 20)
        else:
            top = quiet_top(rng, [1, 2, 3], rng.pick([22, 23]))
        path, literals = paths.write_path(rng, top, rng.chance(50))
        if checker.check_path(path, literals)[0] != 0:
            continue
        enough, short = turn_rooms(rng, len(path) // 5 + 1)
        for room in (enough, short):
            result = checker.turn(path, literals, room)
            if result[0] != 0:
                sheet.turn("damage", path, literals, room, *result)
                if result[0] != 11:
                    break


def attribute_turnings(rng, sheet, count):
    """A top-level step on the attribute axis, with and without what is refused
    before it and after it."""
    for i in range(count):
        top = quiet_top(rng, [1, 2, 3], rng.pick([22, 22, 23]), [1, 2, 3, 11])
        if i % 3 == 0:
            top.a = Row(24, top.a, Row(25, None, rng.pick(counting_predicates())), rng.pick([1, 11]), 0)
        path, literals = paths.write_path(rng, top, rng.chance(50))
        if checker.check_path(path, literals)[0] == 0:
            room = rng.pick([0, 5, 1300])
            sheet.turn("attributes", path, literals, room, *checker.turn(path, literals, room))


def attribute_limits(sheet):
    """13 goes before 11, also where the path is too long to be turned."""
    for rows in (255, 256):
        for place in (1, rows // 2, rows - 1):
            path = quiet_chain(rows)
            path[5 * place - 2] = paths.ATTRIBUTE
            for room in (0, 1300):
                sheet.turn("attributes", path, [], room, *checker.turn(path, [], room))


def turn_limits(sheet):
    for rows in (254, 255, 256):
        path = quiet_chain(rows)
        for room in (5 * rows, 5 * rows + 4, 5 * rows + 5, 1280, 1300):
            sheet.turn("turning", path, [], room, *checker.turn(path, [], room))
    for room in (0, 5, 100):
        sheet.turn("damage", [23, 0, 0, 0, 0], [], room, *checker.turn([23, 0, 0, 0, 0], [], room))


def counting_predicates():
    """One predicate's value each, with whether it makes its step count."""
    inner = lambda p: Row(22, Row(24, None, Row(25, None, p) if p else None, 1, 0))
    one = lambda: Row(1, 1.0)
    return [
        Row(21, inner(None)), Row(20, inner(one())), Row(20, inner(Row(2))), Row(2), Row(3), one(),
        Row(10, Row(21, inner(Row(10, Row(2), one()))), one()), Row(19, Row(2)), Row(19, one()),
        Row(18, Row(10, Row(3), one())), Row(9, one()), Row(4, one(), one()), Row(20, inner(Row(3))),
        Row(16, Row(20, inner(None)), Row(19, Row(9, Row(3)))), Row(12, one(), one()),
        Row(17, Row(20, inner(Row(2))), Row(20, inner(Row(3)))), Row(19, Row(21, inner(Row(3)))),
        Row(10, Row(4, Row(21, inner(Row(3))), Row(2)), one()),
    ]


def counting_cases(rng, sheet):
    for i in range(len(counting_predicates())):
        for place in (1, 3):
            predicate = counting_predicates()[i]
            before = Row(25, None, Row(19, Row(1, 1.0))) if rng.chance(50) else None
            after = Row(25, None, predicate)
            after.a = before
            steps = None
            for n in range(1, 4):
                steps = Row(24, steps, after if n == place else None, rng.below(11), 0)
            path, literals = paths.write_path(rng, Row(rng.pick([22, 22, 23]), steps), rng.chance(50))
            room = 5 * (len(path) // 5 + 1)
            sheet.turn("turning", path, literals, room, *checker.turn(path, literals, room))


# ---- the view ----

def view_list(rng, rows):
    entries = [v for v in range(rows) if rng.chance(rng.pick([20, 50, 90]))]
    damage = rng.below(6)
    if damage == 0 and entries:
        entries.insert(rng.below(len(entries)), rng.pick(entries))
    if damage == 1 and len(entries) > 1:
        i = rng.below(len(entries) - 1)
        entries[i], entries[i + 1] = entries[i + 1], entries[i]
    if damage == 2:
        entries.append(rng.pick([rows, rows + 5, TOP]))
    return entries


def view_cases(rng, sheet, tables_used, each):
    for table in tables_used:
        rows = len(table) // 4
        for _ in range(each):
            node = rng.pick([rng.below(rows), rng.below(rows), 0, rows - 1, rows, TOP])
            if rng.chance(80):
                node = rng.below(rows)
            entries = view_list(rng, rows)
            sheet.view("view", table, node, entries, checker.view(table, entries, node))


def add_damage(rng, sheet):
    table = small_table(rng)
    table_cases(rng, sheet, 420)
    path_cases(rng, sheet, table, 460)
    literal_cases(rng, sheet, table)
    depth_cases(rng, sheet, table)
    start_cases(rng, sheet, table)
    turn_refusals(rng, sheet, 160)
    turn_limits(sheet)
    counting_cases(rng, sheet)
    attribute_turnings(rng, sheet, 90)
    attribute_limits(sheet)
    fixed = [selection.SMALLEST, selection.REFERENCE, selection.WITH_ATTRIBUTES, selection.ELEVEN]
    view_cases(rng, sheet, fixed + [small_table(rng) for _ in range(8)], 16)
    view_cases(rng, sheet, [tables.make_table(rng, "random", 300, [1, 2], 30, 30)], 6)
    long_views(sheet, tables.make_table(rng, "balanced", 4096, [1], 20, 20))


def long_views(sheet, table):
    for node, step in ((0, 1), (1, 3), (2, 4), (700, 5)):
        entries = list(range(0, 4096, step))
        sheet.view("view", table, node, entries, checker.view(table, entries, node))
