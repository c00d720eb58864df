# W-206: which tables are documents. Tables that break one of its rules or
# several, and sound ones that nearly do. The answers of the fixed ones are
# known beforehand; those of the random ones come from checker.py.
import checker
import damage
import selection
import tables
from tables import ATTRIBUTE, COMMENT, ELEMENT, INSTRUCTION, TEXT

KIND, NAME, PARENT, SIZE = range(4)
LETTERS = {"e": [ELEMENT, 1], "t": [TEXT, 0], "c": [COMMENT, 0], "p": [INSTRUCTION, 1],
           "1": [ATTRIBUTE, 1], "2": [ATTRIBUTE, 2], "3": [ATTRIBUTE, 3]}
TOP = damage.TOP

EXAMPLES = [
    ([0, 0, 0, 0], (2, 0)),
    ([0, 0, 0, 1, 1, 1, 0, 0], (0, 2)),
    ([0, 0, 0, 1, 2, 9, 0, 0], (2, 0)),
    ([0, 0, 0, 1, 7, 1, 0, 0], (2, 0)),
    ([0, 0, 0, 1, 1, 0, 0, 0], (2, 1)),
    ([0, 0, 0, 2, 9, 0, 0, 0, 1, 1, 0, 0], (2, 1)),
    ([0, 0, 0, 2, 3, 0, 0, 0, 1, 1, 1, 0], (2, 2)),
    ([0, 0, 0, 2, 1, 1, 0, 0, 1, 1, 0, 0], (2, 2)),
    ([0, 0, 0, 5, 1, 1, 0, 4, 2, 0, 1, 0, 1, 2, 1, 1, 2, 0, 3, 0, 2, 0, 1, 0], (0, 6)),
]

# Trees by their letters, an element's children in brackets behind it.
SOUND = ["cpe", "epc", "ce(t)p", "e(tct)", "e(tpt)", "e(tet)", "e(te(t)t)", "e(te(ce(t))t)",
         "e(e(t)t)", "e(e(t)e(t))", "e(te(t)ctpt)"]

# Trees with their lowest broken row, the root's being 0.
BROKEN = [
    # no element
    ("c", 0), ("t", 0), ("cp", 0), ("tt", 0), ("cptc", 0),
    # a text child of the root
    ("te", 1), ("et", 2), ("cte", 2), ("ect", 3), ("e(t)t", 3), ("tte", 1), ("ett", 2), ("ce(te)pt", 6),
    # a second element child of the root
    ("ece", 3), ("eee", 2), ("cpee(t)", 4), ("e(e)e", 3), ("e(te)pe(t)", 5),
    # a text behind a text
    ("e(tt)", 3), ("e(ttt)", 3), ("e(tctt)", 5), ("e(te(tt)t)", 5), ("e(te(t)tt)", 6), ("e(e(t)tt)", 5),
    ("ce(e(e(tpt))e(tt))", 10),
    # two rules, the lower row wins
    ("e(tt)e", 3), ("ee(tt)", 2), ("te(tt)", 1), ("e(tt)t", 3), ("ete", 2), ("eet", 2),
]

# Trees with one field of one row changed, and the lowest broken row.
CHANGED = [
    # an older and a newer rule at one row
    ("ee", 2, NAME, 0, 2), ("ee", 2, NAME, 65536, 2), ("ee", 2, SIZE, 1, 2), ("ee", 2, SIZE, TOP, 2),
    ("ee", 1, SIZE, 1, 2), ("et", 2, NAME, 5, 2), ("et", 2, SIZE, 1, 2), ("et", 1, SIZE, 1, 2),
    ("e(tt)", 3, NAME, 1, 3), ("e(tt)", 3, SIZE, TOP, 3), ("e(tt)", 3, PARENT, 0, 3), ("e(tt)", 1, SIZE, 1, 3),
    # an older rule at a lower row
    ("ee", 0, NAME, 1, 0), ("et", 0, SIZE, 3, 0), ("ee", 1, NAME, 0, 1), ("ee", 1, SIZE, 2, 1),
    ("ee", 1, PARENT, 1, 1), ("cet", 1, NAME, 1, 1), ("e(tt)", 1, NAME, 0, 1), ("e(tt)", 2, NAME, 3, 2),
    # a newer rule at a lower row
    ("tec", 3, NAME, 7, 1), ("eec", 3, KIND, 9, 2), ("etc", 3, PARENT, 2, 2), ("e(tt)c", 4, NAME, 7, 3),
    ("e(ttc)", 4, SIZE, TOP, 3),
    # no element beside another broken row
    ("c", 1, NAME, 1, 0), ("cp", 1, SIZE, 1, 0), ("cp", 2, NAME, 0, 0), ("ct", 2, PARENT, 1, 0), ("cc", 2, KIND, 7, 0),
    ("e", 1, KIND, 0, 0), ("e", 1, KIND, 5, 0), ("ce", 2, KIND, 2, 0), ("e(tt)", 1, KIND, 4, 0),
    # no sound element, or none that is a child of the root
    ("e", 1, NAME, 65536, 1), ("e", 1, SIZE, TOP, 1), ("e", 1, PARENT, 1, 1), ("ce(t)", 2, PARENT, 3, 2),
    ("tc", 2, KIND, 1, 1), ("cc", 2, KIND, 1, 2),
]


def drawn(letters):
    """The table of a tree given by its letters."""
    open_lists = [[]]
    for letter in letters:
        if letter == "(":
            open_lists.append(open_lists[-1][-1][2])
        elif letter == ")":
            open_lists.pop()
        else:
            open_lists[-1].append(LETTERS[letter] + [[]])
    return tables.flatten([tables.ROOT, 0, open_lists[0]])


def changed(letters, row, field, value):
    table = drawn(letters)
    table[4 * row + field] = value
    return table


def far_trees():
    """Deep, late, and at the last row of 4,096; the lowest broken row, or None."""
    yield "e(" * 60 + "t" + ")" * 59 + "ct)", None
    yield "e(" * 60 + "tt" + ")" * 60, 62
    yield "e(" + "te(t)" * 60 + "ct)", None
    yield "e(" + "te(t)" * 60 + "tt)", 183
    yield "cp" * 100 + "e", None
    yield "cp" * 100, 0
    yield "cp" * 100 + "te", 201
    yield "e" + "pc" * 100 + "e", 202
    yield "e(" + "tc" * 2046 + "tt)", 4095


def fixed_tables():
    """Tables, each with its answer."""
    yield from EXAMPLES
    trees = [(letters, None) for letters in SOUND] + BROKEN + list(far_trees())
    for letters, place in trees:
        table = drawn(letters)
        yield table, (0, len(table) // 4) if place is None else (2, place)
    for *change, place in CHANGED:
        yield changed(*change), (2, place)


# ---- random ones ----

def elements(rng):
    return tables.chain_tree(rng, rng.between(1, 3), [1, 2], 0)


def become(rng, nodes, new):
    """One of the comments and instructions becomes something else."""
    remarks = [node for node in nodes if node[0] in (COMMENT, INSTRUCTION)]
    if remarks:
        rng.pick(remarks)[:] = new


def text_anywhere(rng, tree):
    become(rng, tables.nodes_of(tree), [TEXT, 0, []])


def text_under_root(rng, tree):
    become(rng, tree[2], [TEXT, 0, []])


def element_under_root(rng, tree):
    become(rng, tree[2], elements(rng))


def insert_under_root(rng, tree):
    tree[2].insert(rng.below(len(tree[2]) + 1), elements(rng))


def text_beside_text(rng, tree):
    places = [(node[2], i) for node in tables.nodes_of(tree) for i, child in enumerate(node[2]) if child[0] == TEXT]
    if places:
        children, i = rng.pick(places)
        children.insert(i + rng.below(2), [TEXT, 0, []])


def no_element(rng, tree):
    for node in tables.nodes_of(tree):
        if node[0] == ELEMENT:
            node[0] = rng.pick([COMMENT, INSTRUCTION, ATTRIBUTE, TOP])


CHANGES = [text_anywhere, text_anywhere, text_under_root, element_under_root, insert_under_root,
           text_beside_text, text_beside_text, no_element]


def random_table(rng):
    shape, share = rng.pick(selection.SHAPES), tables.some_share(rng)
    tree = tables.make_tree(rng, shape, rng.between(4, 24), [1, 2, 3], 45, share)
    rng.pick(CHANGES)(rng, tree)
    return tables.flatten(tree)


def refused_table(rng):
    while True:
        table = random_table(rng)
        if checker.check_table(table)[0] == 2:
            return table


def ask_known(rng, sheet, fixed, examples, node, listed):
    """Tables whose answers are known beforehand, and some of them with a path and with the view of a list in a node."""
    for table, answer in fixed:
        assert checker.check_table(table) == answer
        damage.ask_table(rng, sheet, table)
    for table, _ in examples:
        damage.ask_evaluate(rng, sheet, table, damage.GOOD_PATH, [], 0)
        sheet.view("damage", table, node, listed, checker.view(table, listed, node))


def add_cases(rng, sheet):
    ask_known(rng, sheet, fixed_tables(), EXAMPLES, 0, [0])
    for _ in range(24):
        damage.ask_table(rng, sheet, refused_table(rng))
