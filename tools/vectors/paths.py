# Random paths: made as trees of rows, then written as document 01's rows in
# postorder or in another allowed order.
import meaning

SELF, CHILD, PARENT, DESCENDANT, ANCESTOR, DESCENDANT_SELF, ANCESTOR_SELF = range(7)
FOLLOWING, PRECEDING, FOLLOWING_SIBLING, PRECEDING_SIBLING, ATTRIBUTE = range(7, 12)
AXES = range(12)
# For tables with attributes.
ATTRIBUTE_AXES = list(AXES) + [ATTRIBUTE] * 2

COMMON_VALUES = [0.0, 1.0, 1.0, 2.0, 2.0, 3.0, 4.0, 5.0, 7.0, 0.5, 1.5, 2.5, 0.25]
RARE_VALUES = [
    0.1, 0.3, 1.1, 10.0, 100.0, 4096.0, 65535.0, 1e9, 9007199254740993.0,
    9007199254740992.0, 9007199254740991.0, 1e22, 1e300, 5e-324, 2.5e-310,
    2.2250738585072014e-308, 1.7976931348623157e308, 1e-7, 0.9999999999999999,
    1.0000000000000002, 2.9999999999999996, 1.0 / 3.0,
]


class Row:
    """A row whose links are rows (or None); a of op 1 is the value itself."""

    def __init__(self, op, a=None, b=None, c=0, d=0):
        self.op, self.a, self.b, self.c, self.d = op, a, b, c, d

    def links(self):
        if self.op == 1:
            return []
        return [x for x in (self.a, self.b) if x is not None]


class Maker:
    """Makes random parts of a path; budget bounds the number of rows."""

    def __init__(self, rng, names, budget, depth, axes=AXES):
        self.rng = rng
        self.names = names
        self.budget = budget
        self.depth = depth
        self.axes = list(axes)

    def row(self, *fields):
        self.budget -= 1
        return Row(*fields)

    def literal(self):
        values = RARE_VALUES if self.rng.chance(12) else COMMON_VALUES
        return self.row(1, self.rng.pick(values))

    def test(self):
        return self.rng.weighted(
            [(34, 0), (28, 1), (7, 2), (6, 3), (6, 4),
             (40, 16 + self.rng.pick(self.names))])

    def path(self, level, absolute_chance=12):
        absolute = self.rng.chance(absolute_chance)
        if absolute and self.rng.chance(6):
            return self.row(23, None)
        steps = self.rng.weighted([(45, 1), (32, 2), (15, 3), (5, 4), (3, 6)])
        last = None
        for _ in range(steps):
            if last is None or self.budget > 0:
                last = self.step(level, last)
        return self.row(23 if absolute else 22, last)

    def step(self, level, previous):
        axis = self.rng.pick(self.axes)
        test = self.test()
        last = None
        for _ in range(self.rng.weighted([(40, 0), (38, 1), (16, 2), (6, 3)])):
            if self.budget > 3:
                last = self.row(25, last, self.predicate(level))
        return self.row(24, previous, last, axis, test)

    def predicate(self, level):
        if self.rng.chance(36):
            return self.number(level, 2)
        return self.truth(level, 3)

    def number(self, level, height):
        choices = [(30, "literal"), (22, "position"), (18, "last")]
        if height > 0 and self.budget > 4:
            choices += [(50, "binary"), (8, "negation")]
        if level < self.depth and self.budget > 6:
            choices += [(22, "count")]
        choice = self.rng.weighted(choices)
        if choice == "literal":
            return self.literal()
        if choice == "position":
            return self.row(2)
        if choice == "last":
            return self.row(3)
        if choice == "count":
            return self.row(21, self.path(level + 1))
        if choice == "negation":
            return self.row(9, self.number(level, height - 1))
        left = self.number(level, height - 1)
        return self.row(self.rng.between(4, 8), left, self.number(level, height - 1))

    def truth(self, level, height):
        choices = [(60, "compare"), (12, "number")]
        if height > 0 and self.budget > 6:
            choices += [(14, "and"), (14, "or"), (14, "not")]
        if level < self.depth and self.budget > 4:
            choices += [(42, "path")]
        choice = self.rng.weighted(choices)
        if choice == "number":
            return self.row(19, self.number(level, 2))
        if choice == "not":
            return self.row(18, self.truth(level, height - 1))
        if choice == "path":
            return self.row(20, self.path(level + 1))
        if choice == "compare":
            return self.comparison(level)
        op = 16 if choice == "and" else 17
        left = self.truth(level, height - 1)
        return self.row(op, left, self.truth(level, height - 1))

    def comparison(self, level):
        left = self.number(level, 2)
        if self.rng.chance(40):
            left = self.row(self.rng.pick([2, 3]))
        return self.row(self.rng.between(10, 15), left, self.number(level, 2))

    def quiet_path(self, level, steps, axes):
        """A relative path on these axes in which no top-level step counts."""
        last = None
        for _ in range(steps):
            axis, test, predicate = self.rng.pick(axes), self.test(), None
            for _ in range(self.rng.weighted([(45, 0), (40, 1), (15, 2)])):
                if self.budget > 3:
                    predicate = self.row(25, predicate, self.quiet_truth(level))
            last = self.row(24, last, predicate, axis, test)
        return self.row(22, last)

    def quiet_truth(self, level):
        choice = self.rng.below(6)
        if choice == 0:
            return self.row(18, self.quiet_truth(level))
        if choice == 1 and self.budget > 8:
            left = self.quiet_truth(level)
            return self.row(self.rng.pick([16, 17]), left, self.quiet_truth(level))
        if choice == 2 and self.budget > 6:
            count = self.row(21, self.path(level + 1))
            return self.row(self.rng.between(10, 15), count, self.literal())
        if choice == 3:
            return self.row(19, self.literal())
        if choice == 4 and self.budget > 6:
            return self.row(19, self.row(9, self.row(21, self.path(level + 1))))
        return self.row(20, self.path(level + 1))


CHEAP_AXES = [SELF, CHILD, PARENT, CHILD, FOLLOWING_SIBLING, PRECEDING_SIBLING, ANCESTOR, ATTRIBUTE]


def nested_path(rng, names, depth, level=1):
    """Exactly depth paths inside one another, with axes that select little."""
    maker = Maker(rng, names, 1000, level, CHEAP_AXES)
    inner = None
    if level < depth:
        path = nested_path(rng, names, depth, level + 1)
        inner = nest_value(rng, maker, path)
    steps = rng.between(1, 2)
    holder = rng.below(steps)
    last = None
    for i in range(steps):
        predicate = None
        if rng.chance(20):
            predicate = Row(25, None, maker.comparison(level))
        if i == holder and inner is not None:
            predicate = Row(25, predicate, inner)
        last = Row(24, last, predicate, rng.pick(CHEAP_AXES), rng.pick([0, 0, 1, maker.test()]))
    return Row(22, last)


def nest_value(rng, maker, path):
    """A predicate's expression around an inner path."""
    choice = rng.below(6)
    if choice == 0:
        return Row(18, Row(20, path))
    if choice == 1:
        return Row(rng.between(10, 15), Row(21, path), maker.literal())
    if choice == 2:
        return Row(17, Row(20, path), maker.comparison(1))
    if choice == 3:
        return Row(19, Row(21, path))
    return Row(20, path)


# ---- writing rows ----

def postorder(top):
    out = []
    stack = [(top, False)]
    while stack:
        row, done = stack.pop()
        if done:
            out.append(row)
            continue
        stack.append((row, True))
        for child in reversed(row.links()):
            stack.append((child, False))
    return out


def other_order(rng, top):
    """Any order in which a row comes after the rows it links."""
    rows = postorder(top)
    waiting = {id(row): len(row.links()) for row in rows}
    holder = {id(child): row for row in rows for child in row.links()}
    ready = [row for row in rows if waiting[id(row)] == 0]
    out = []
    while ready:
        row = ready.pop(rng.below(len(ready)))
        out.append(row)
        above = holder.get(id(row))
        if above is not None:
            waiting[id(above)] -= 1
            if waiting[id(above)] == 0:
                ready.append(above)
    return out


def literal_list(rng, rows):
    """The literals of some rows in any order, sometimes one that is unused."""
    used = sorted({meaning.literal_bits(row.a) for row in rows if row.op == 1})
    if rng.chance(15):
        used.append(meaning.literal_bits(rng.pick(RARE_VALUES)))
    rng.shuffle(used)
    return used


def write_path(rng, top, mixed):
    """The path as flat numbers, and its literals."""
    rows = other_order(rng, top) if mixed else postorder(top)
    literals = literal_list(rng, rows)
    place = {id(row): i + 1 for i, row in enumerate(rows)}
    path = []
    for row in rows:
        if row.op == 1:
            a = literals.index(meaning.literal_bits(row.a))
        else:
            a = place[id(row.a)] if row.a is not None else 0
        b = place[id(row.b)] if row.b is not None else 0
        path += [row.op, a, b, row.c, row.d]
    return path, literals
