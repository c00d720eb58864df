# W-209: where attributes may stand. Tables that break one of its rules or
# several, and sound ones that nearly do. The answers of the fixed ones are
# known beforehand; those of the random ones come from checker.py.
import damage
import selection
import tables
from tables import ATTRIBUTE, ELEMENT
from wellformed import KIND, NAME, PARENT, SIZE, TOP, ask_known, changed, drawn

EXAMPLES = [
    (selection.WITH_ATTRIBUTES, (0, 9)),
    (selection.ELEVEN, (0, 11)),
    ([0, 0, 0, 2, 1, 1, 0, 0, 5, 1, 1, 0], (2, 2)),
    ([0, 0, 0, 4, 1, 1, 0, 3, 5, 1, 1, 0, 5, 2, 1, 0, 5, 1, 1, 0], (2, 4)),
    ([0, 0, 0, 3, 1, 1, 0, 2, 3, 0, 1, 0, 5, 1, 1, 0], (2, 3)),
    ([0, 0, 0, 1, 5, 1, 0, 0], (2, 0)),
    ([0, 0, 0, 2, 1, 1, 0, 1, 6, 1, 1, 0], (2, 2)),
]

# Trees by their letters as in wellformed.py; a digit is an attribute of that name.
SOUND = ["e(1)", "e(12)", "e(21)", "e(312)", "ce(1)p", "e(e(1))", "e(1t)", "e(1c)", "e(1p)", "e(1e)",
         "e(1e(1))", "e(1e(1)e(1))", "e(e(12)e(21)t)", "e(1e(2)e(3)t)", "e(1tct)", "e(1te(2t)t)",
         "e(1e(12e(123)))", "e(e(1)te(1))", "pe(12e(3t)c)c"]

# Trees with their lowest broken row, the root's being 0.
BROKEN = [
    # no element
    ("1", 0), ("c1", 0), ("12", 0), ("p(1)", 0),
    # under the root
    ("1e", 1), ("12e", 1), ("c1e", 2), ("1e(1)", 1), ("e1", 2), ("e2", 2), ("ce1", 3), ("ec1", 3), ("e(1)1", 3),
    ("e(1)2", 3), ("e(t)1", 3), ("e(1e(2))3", 5),
    # behind a child
    ("e(t1)", 3), ("e(c1)", 3), ("e(p1)", 3), ("e(e1)", 3), ("e(c12)", 3), ("e(1c2)", 4), ("e(1c1)", 4), ("e(1e2)", 4),
    ("e(1t23)", 4), ("e(12p3)", 5), ("e(c1t2)", 3), ("e(e(t)1)", 4), ("e(e(1t)2)", 5), ("e(1e(t1))", 5),
    # behind the last attribute of an inner element
    ("e(e(1)1)", 4), ("e(e(1)2)", 4), ("e(e(12)3)", 5), ("e(1e(2)3)", 5), ("e(1e(2)1)", 5), ("e(e(e(1))2)", 5),
    ("e(e(e(1)2))", 5), ("e(e(1)e(1)2)", 6),
    # two of one name
    ("e(11)", 3), ("e(121)", 4), ("e(122)", 4), ("e(1231)", 5), ("e(111)", 3), ("e(1221)", 4), ("e(1211)", 4),
    ("e(1212)", 4), ("e(1e(11))", 5), ("e(1e(121))", 6), ("e(12e(2)e(3233))", 9), ("ce(2e(1e(1e(212))))", 11),
    # inside a leaf
    ("e(t(1))", 2), ("e(c(1))", 2), ("e(p(1))", 2), ("e(1(2))", 2), ("e(1(t))", 2), ("c(1)e", 1), ("e(12(1))", 3),
    # two rules, the lower row wins
    ("e(11)e", 3), ("ee(11)", 2), ("te(11)", 1), ("e(11tt)", 3), ("e(tt1)", 3), ("e(c1tt)", 3), ("e(1tt2)", 4),
    ("e(1tt)", 4), ("e(c111)", 3), ("e(11c1)", 3), ("e(1)e(11)", 3), ("e(1)t", 3),
]

# Trees with one field of one row changed, and the lowest broken row, or None.
CHANGED = [
    # name
    ("e(1)", 2, NAME, 0, 2), ("e(1)", 2, NAME, 65535, None), ("e(1)", 2, NAME, 65536, 2), ("e(1)", 2, NAME, 65537, 2),
    ("e(1)", 2, NAME, TOP, 2), ("e(12)", 3, NAME, 0, 3), ("e(12)", 3, NAME, 65537, 3), ("e(12)", 3, NAME, 257, None),
    ("e(12)", 2, NAME, 2, 3), ("e(12)", 2, NAME, 0, 2), ("e(12)", 1, NAME, 2, None), ("e(12)", 1, NAME, 0, 1),
    # size
    ("e(1)", 2, SIZE, 1, 2), ("e(1)", 2, SIZE, TOP, 2), ("e(1)", 2, SIZE, TOP - 1, 2), ("e(1t)", 2, SIZE, 1, 2),
    ("e(12)", 2, SIZE, 1, 2), ("e(12)", 3, SIZE, TOP - 2, 3),
    # what an element's size leaves out
    ("e(1)", 1, SIZE, 0, 2), ("e(12)", 1, SIZE, 1, 3), ("e(12)", 1, SIZE, 0, 2), ("e(1t)", 1, SIZE, 1, 3),
    ("e(1t)", 1, SIZE, 0, 2), ("e(e(1))", 2, SIZE, 0, 3), ("e(e(12))", 2, SIZE, 1, 4), ("e(e(1t)c)", 2, SIZE, 1, 4),
    ("e(e(1)c)", 2, SIZE, 2, 4), ("e(e(1))", 1, SIZE, 1, 2), ("e(1)", 0, SIZE, 1, 0), ("e(1)c", 1, SIZE, 0, 2),
    # parent
    ("e(1)", 2, PARENT, 0, 2), ("e(1)", 2, PARENT, 2, 2), ("e(1)", 2, PARENT, TOP, 2), ("e(12)", 3, PARENT, 0, 3),
    ("e(12)", 3, PARENT, 2, 3), ("e(e(1))", 3, PARENT, 1, 3), ("e(1e(1))", 4, PARENT, 1, 4), ("e(t1)", 3, PARENT, 2, 3),
    ("e(c1)", 3, PARENT, 2, 3), ("e(e1)", 3, PARENT, 2, 3), ("e(e(1)2)", 4, PARENT, 2, 4), ("e1", 2, PARENT, 1, 2),
    ("e(1e)", 3, PARENT, 2, 3), ("e(1t)", 3, PARENT, 2, 3),
    # kind
    ("e(1)", 2, KIND, 6, 2), ("e(1)", 2, KIND, 7, 2), ("e(1)", 2, KIND, TOP, 2), ("e(1)", 2, KIND, 0, 2),
    ("e(1)", 2, KIND, 2, 2), ("e(1)", 2, KIND, 3, 2), ("e(1)", 2, KIND, 4, None), ("e(1)", 2, KIND, 1, None),
    ("e(c)", 2, KIND, 5, 2), ("e(t)", 2, KIND, 5, 2), ("e(p)", 2, KIND, 5, None), ("e(e)", 2, KIND, 5, None),
    ("e(e(t))", 2, KIND, 5, 2), ("e(e(1))", 2, KIND, 5, 2), ("e(e(1))", 2, KIND, 4, 2), ("e(pp)", 2, KIND, 5, None),
    ("e(pp)", 3, KIND, 5, 3), ("e(1p)", 3, KIND, 5, 3), ("e(2p)", 3, KIND, 5, None), ("e(2p)", 3, KIND, 6, 3),
    ("e(12)", 2, KIND, 4, 3), ("e(12)", 2, KIND, 1, 3), ("e(12)", 3, KIND, 4, None), ("e(1)", 1, KIND, 5, 0),
    ("e(1)", 1, KIND, 4, 0), ("pe", 1, KIND, 5, 1), ("ep", 2, KIND, 5, 2), ("ep", 2, KIND, 6, 2),
]


# ---- many attributes on one element ----

def one_element(names):
    """A document element with attributes of these names and nothing else."""
    held = [[ATTRIBUTE, name, []] for name in names]
    return tables.flatten([tables.ROOT, 0, [[ELEMENT, 1, held]]])


def many_names():
    """Lists of names, each with the lowest broken row, or None."""
    apart = [1, 257, 513, 4097, 8193, 32769, 65535, 65279, 61439, 256, 512, 4096, 32768]
    full = list(range(4094, 0, -1))
    yield apart, None
    yield apart + [4097], 15
    yield list(range(1, 301)) + [1], 302
    yield list(range(300, 0, -1)) + [150, 1], 302
    yield full, None
    yield full[:-1] + [4094], 4095


def far_trees():
    """Deep and late ones."""
    yield "e(1" * 60 + ")" * 60, None
    yield "e(1" * 60 + "1" + ")" * 60, 121
    yield "e(1" * 60 + ")" * 59 + "2)", 121
    yield "e(" + "e(12t)" * 40 + ")", None
    yield "e(" + "e(12t)" * 40 + "1)", 162
    yield "e(" + "e(12)" * 40 + "e(121))", 125


def fixed_tables():
    """Tables, each with its answer."""
    yield from EXAMPLES
    known = [(drawn(letters), None) for letters in SOUND]
    known += [(drawn(letters), place) for letters, place in BROKEN + list(far_trees())]
    known += [(changed(*change), place) for *change, place in CHANGED]
    known += [(one_element(names), place) for names, place in many_names()]
    for table, place in known:
        yield table, (0, len(table) // 4) if place is None else (2, place)


# ---- random ones ----

def attribute(rng):
    return [ATTRIBUTE, rng.pick([1, 2, 3]), []]


def attributes_of(node):
    return [child for child in node[2] if child[0] == ATTRIBUTE]


def repeat_name(rng, tree):
    node = rng.pick([n for n in tables.nodes_of(tree) if attributes_of(n)])
    held = attributes_of(node)
    node[2].insert(rng.below(len(held) + 1), list(rng.pick(held)))


def behind_child(rng, tree):
    held = [n for n in tables.nodes_of(tree) if n[0] == ELEMENT and len(n[2]) > len(attributes_of(n))]
    if held:
        node = rng.pick(held)
        first = len(attributes_of(node)) + 1
        node[2].insert(rng.between(first, len(node[2])), attribute(rng))


def under_root(rng, tree):
    tree[2].insert(rng.below(len(tree[2]) + 1), attribute(rng))


def under_leaf(rng, tree):
    leaves = [n for n in tables.nodes_of(tree) if n[0] > ELEMENT]
    rng.pick(leaves)[2].append(attribute(rng))


def swap_children(rng, tree):
    node = rng.pick([n for n in tables.nodes_of(tree) if attributes_of(n)])
    i, j = rng.below(len(node[2])), rng.below(len(node[2]))
    node[2][i], node[2][j] = node[2][j], node[2][i]


def bad_name(rng, tree):
    rng.pick([n for n in tables.nodes_of(tree) if n[0] == ATTRIBUTE])[1] = rng.pick([0, 65536, TOP])


def bad_kind(rng, tree):
    rng.pick([n for n in tables.nodes_of(tree) if n[0] == ATTRIBUTE])[0] = rng.pick([0, 6, 7, TOP])


CHANGES = [repeat_name, repeat_name, behind_child, behind_child, under_root, under_leaf, swap_children,
           bad_name, bad_kind]


def leave_out(rng, table):
    """The sizes above an attribute don't count it, up to some ancestor."""
    rows = [i for i in range(len(table) // 4) if table[4 * i] == ATTRIBUTE]
    above = table[4 * rng.pick(rows) + 2]
    while above != 0:
        table[4 * above + 3] -= 1
        above = table[4 * above + 2] if rng.chance(50) else 0


def random_table(rng):
    tree = tables.make_tree(rng, rng.pick(selection.SHAPES), rng.between(8, 24), [1, 2, 3], 35, 30)
    choice = rng.below(10)
    if choice > 1:
        rng.pick(CHANGES)(rng, tree)
    table = tables.flatten(tree)
    if choice == 1:
        leave_out(rng, table)
    return table


def add_cases(rng, sheet):
    ask_known(rng, sheet, fixed_tables(), EXAMPLES, 1, [1, 2])
    for _ in range(80):
        damage.ask_table(rng, sheet, random_table(rng))
