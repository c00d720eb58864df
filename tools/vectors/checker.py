# An independent checker, written from document 01 and document 02's W-206, W-209,
# W-210 and W-211 alone: the number and the place of check_table, check_path, turn and
# the refusals of evaluate, the turned rows, and the part the view hands back.
#
# Tables and paths are flat lists of whole numbers, literals are lists of
# 64-bit patterns.

MAX_ROWS = 8192
MAX_PATH_ROWS = 256
MAX_LITERALS = 64
MAX_DEPTH = 8
INFINITY_BITS = 0x7FF0000000000000
MAX_NAME = 65535
LAST_AXIS = 11
EDITIONS = (1, 2)

ELEMENT, TEXT, COMMENT, INSTRUCTION, ATTRIBUTE = range(1, 6)
ATTRIBUTE_AXIS = 11

NUMBERS = set(range(1, 10)) | {21}
TRUTHS = set(range(10, 21))
PATHS = {22, 23}
STEP = {24}
PREDICATE = {25}

# op -> what each of the fields a, b, c, d is: None (unused), "literal",
# "axis", "test", or (sorts, whether the link may be missing).
UNUSED = (None, None, None, None)
N = (NUMBERS, False)
T = (TRUTHS, False)
P = (PATHS, False)
FIELDS = {1: ("literal", None, None, None), 2: UNUSED, 3: UNUSED}
for _op in [4, 5, 6, 7, 8, 10, 11, 12, 13, 14, 15]:
    FIELDS[_op] = (N, N, None, None)
FIELDS[9] = (N, None, None, None)
FIELDS[16] = (T, T, None, None)
FIELDS[17] = (T, T, None, None)
FIELDS[18] = (T, None, None, None)
FIELDS[19] = (N, None, None, None)
FIELDS[20] = (P, None, None, None)
FIELDS[21] = (P, None, None, None)
FIELDS[22] = ((STEP, False), None, None, None)
FIELDS[23] = ((STEP, True), None, None, None)
FIELDS[24] = ((STEP, True), (PREDICATE, True), "axis", "test")
FIELDS[25] = ((PREDICATE, True), (NUMBERS | TRUTHS, False), None, None)

INVERSE = {0: 0, 1: 2, 2: 1, 3: 4, 4: 3, 5: 6, 6: 5, 7: 8, 8: 7, 9: 10, 10: 9}


# ---- tables ----

def table_row(table, i):
    return table[4 * i:4 * i + 4]


def has_element(table):
    """Whether some row is of kind 1, whatever else is wrong with it."""
    return ELEMENT in table[0::4]


def root_sound(table, rows):
    return table_row(table, 0) == [0, 0, 0, rows - 1] and has_element(table)


def kind_sound(kind, name, size):
    if kind in (ELEMENT, INSTRUCTION, ATTRIBUTE):
        named = 1 <= name <= MAX_NAME
    elif kind in (TEXT, COMMENT):
        named = name == 0
    else:
        return False
    return named and (kind == ELEMENT or size == 0)


def parent_sound(table, i, parent, size):
    for j in range(i - 1, -1, -1):
        end = j + table[4 * j + 3]
        if end >= i:
            return parent == j and i + size <= end
    return False


def previous_sibling(table, i):
    """The nearest lower row with the same parent, or None; never row 0 or an
    attribute."""
    for j in range(i - 1, 0, -1):
        if table[4 * j + 2] == table[4 * i + 2] and table[4 * j] != ATTRIBUTE:
            return j
    return None


def text_sound(table, i, parent):
    """No child of the root, and not behind a text."""
    before = previous_sibling(table, i)
    return parent != 0 and (before is None or table[4 * before] != TEXT)


def element_sound(table, i, parent):
    """No child of the root behind another element child of it."""
    if parent != 0:
        return True
    return not any(table[4 * j] == ELEMENT and table[4 * j + 2] == 0 for j in range(1, i))


def document_sound(table, i, kind, parent):
    if kind == ELEMENT:
        return element_sound(table, i, parent)
    return kind != TEXT or text_sound(table, i, parent)


def attribute_stands(table, i, parent):
    """Straight behind its element or behind another attribute of it."""
    kind, _, above, _ = table_row(table, i - 1)
    return (kind == ELEMENT and parent == i - 1) or (kind == ATTRIBUTE and parent == above)


def attribute_repeated(table, i, parent):
    """A lower attribute of the same parent, whose rows stand behind it, has its name."""
    name = table[4 * i + 1]
    if name not in table[4 * parent + 5:4 * i:4]:
        return False
    same = [ATTRIBUTE, name, parent]
    return any(table[4 * j:4 * j + 3] == same for j in range(parent + 1, i))


def attribute_sound(table, i, kind, parent):
    if kind != ATTRIBUTE:
        return True
    return attribute_stands(table, i, parent) and not attribute_repeated(table, i, parent)


def row_sound(table, i, rows):
    if i == 0:
        return root_sound(table, rows)
    kind, name, parent, size = table_row(table, i)
    if not kind_sound(kind, name, size) or not parent_sound(table, i, parent, size):
        return False
    return document_sound(table, i, kind, parent) and attribute_sound(table, i, kind, parent)


def check_table(table):
    if len(table) % 4 != 0 or not 4 <= len(table) <= 4 * MAX_ROWS:
        return 1, 0
    rows = len(table) // 4
    for i in range(rows):
        if not row_sound(table, i, rows):
            return 2, i
    return 0, rows


# ---- paths ----

def path_rows(path):
    return [path[i:i + 5] for i in range(0, len(path), 5)]


def bad_literal(literals):
    """The place of number 4, or None."""
    for i, bits in enumerate(literals[:MAX_LITERALS]):
        if bits >= INFINITY_BITS:
            return i
    return MAX_LITERALS if len(literals) > MAX_LITERALS else None


def links_of(rows, r):
    """The rows that row r links, in the order of its fields."""
    op = rows[r][0]
    out = []
    for what, value in zip(FIELDS.get(op, UNUSED), rows[r][1:]):
        if isinstance(what, tuple) and 1 <= value <= r:
            out.append(value - 1)
    return out


def test_allowed(test):
    return test <= 4 or 17 <= test <= 16 + MAX_NAME


def field_sound(rows, r, what, value, literal_count):
    if what is None:
        return value == 0
    if what == "literal":
        return value < literal_count
    if what == "axis":
        return value <= LAST_AXIS
    if what == "test":
        return test_allowed(value)
    sorts, may_miss = what
    if value == 0:
        return may_miss
    return value <= r and rows[value - 1][0] in sorts


def path_row_sound(rows, r, literal_count, first_linker, links):
    op = rows[r][0]
    if op not in FIELDS:
        return False
    for what, value in zip(FIELDS[op], rows[r][1:]):
        if not field_sound(rows, r, what, value, literal_count):
            return False
    if len(set(links[r])) != len(links[r]):
        return False
    if any(first_linker[t] < r for t in links[r]):
        return False
    if r + 1 < len(rows):
        return r in first_linker
    return op in PATHS


def broken_path_row(rows, literal_count):
    """The lowest broken row, or None."""
    links = [links_of(rows, r) for r in range(len(rows))]
    first_linker = {}
    for r, targets in enumerate(links):
        for t in targets:
            first_linker.setdefault(t, r)
    for r in range(len(rows)):
        if not path_row_sound(rows, r, literal_count, first_linker, links):
            return r
    return None


def path_depth(rows):
    """The largest depth of a path; the rows are sound."""
    depth = [0] * len(rows)
    depth[-1] = 1
    for r in range(len(rows) - 1, -1, -1):
        inner = depth[r] + (1 if rows[r][0] in (20, 21) else 0)
        for t in links_of(rows, r):
            depth[t] = inner
    return max(depth[r] for r in range(len(rows)) if rows[r][0] in PATHS)


def check_path(path, literals):
    if len(path) % 5 != 0 or not 1 <= len(path) // 5 <= MAX_PATH_ROWS:
        return 3, 0
    place = bad_literal(literals)
    if place is not None:
        return 4, place
    rows = path_rows(path)
    place = broken_path_row(rows, len(literals))
    if place is not None:
        return 5, place
    if path_depth(rows) > MAX_DEPTH:
        return 6, 0
    return 0, len(rows)


# ---- evaluation: the refusals 14 and 1 to 7; None means that it runs ----

def refuse_evaluate(edition, table, path, literals, start):
    if edition not in EDITIONS:
        return 14, edition
    number, place = check_table(table)
    if number != 0:
        return number, place
    rows = place
    number, place = check_path(path, literals)
    if number != 0:
        return number, place
    if start >= rows:
        return 7, start
    return None


# ---- turning ----

def chain(rows, last):
    """The rows of a chain linked by a, first one first; last is a link."""
    out = []
    while last:
        out.insert(0, last - 1)
        last = rows[last - 1][1]
    return out


def holds_position(rows, r):
    op = rows[r][0]
    if op in (2, 3):
        return True
    if op in (20, 21):
        return False
    return any(holds_position(rows, t) for t in links_of(rows, r))


def step_counts(rows, step):
    for p in chain(rows, rows[step][2]):
        value = rows[p][2] - 1
        if rows[value][0] in NUMBERS or holds_position(rows, value):
            return True
    return False


def copy_tree(rows, link, out):
    """Writes the tree of a link in postorder; gives back its new link."""
    if link == 0:
        return 0
    op, a, b, c, d = rows[link - 1]
    fields = FIELDS[op]
    if isinstance(fields[0], tuple):
        a = copy_tree(rows, a, out)
    if isinstance(fields[1], tuple):
        b = copy_tree(rows, b, out)
    out.append([op, a, b, c, d])
    return len(out)


def turned_rows(rows):
    steps = chain(rows, rows[-1][1])
    tests = [rows[s][4] for s in steps]
    predicates = [rows[s][2] for s in steps]
    axes = [0] + [INVERSE[rows[s][3]] for s in reversed(steps)]
    tests = list(reversed(tests)) + [0]
    predicates = list(reversed(predicates)) + [0]
    out = []
    previous = 0
    for axis, test, last in zip(axes, tests, predicates):
        b = copy_tree(rows, last, out)
        out.append([24, previous, b, axis, test])
        previous = len(out)
    out.append([22, previous, 0, 0, 0])
    return out


def turn(path, literals, room):
    """number, place, the entries written."""
    number, place = check_path(path, literals)
    if number != 0:
        return number, place, []
    rows = path_rows(path)
    steps = chain(rows, rows[-1][1])
    for i, s in enumerate(steps):
        if step_counts(rows, s):
            return 9, i + 1, []
    for i, s in enumerate(steps):
        if rows[s][3] == ATTRIBUTE_AXIS:
            return 13, i + 1, []
    if rows[-1][0] == 23:
        return 10, 0, []
    needed = len(rows) + 1
    if needed > MAX_PATH_ROWS or room < 5 * needed:
        return 11, needed, []
    turned = turned_rows(rows)
    assert len(turned) == needed
    return 0, needed, [v for row in turned for v in row]


# ---- the view ----

def view(table, entries, node):
    """begin, length, the entries of the part; or None for an empty part."""
    number, rows = check_table(table)
    if number != 0 or node >= rows:
        return None
    if any(v >= rows for v in entries):
        return None
    if any(x >= y for x, y in zip(entries, entries[1:])):
        return None
    last = node + table[4 * node + 3]
    inside = [i for i, v in enumerate(entries) if node <= v <= last]
    return (inside[0], len(inside), [entries[i] for i in inside]) if inside else None
