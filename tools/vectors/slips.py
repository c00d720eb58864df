# Wrong evaluators and wrong checkers, each with one slip that is easily made.
# replay.py counts how many vectors notice each.
import bisect
import math
import types

import checker
import meaning


class Slip(meaning.Evaluator):
    """With an upper limit, since some slips run long."""

    def __init__(self, edition, table, path, literals):
        super().__init__(edition, table, path, literals, 400000)


def tree_slip(change):
    """change(tree, i, axis, nodes) gives the wrong nodes of an axis."""
    class Tree(meaning.Tree):
        def axis(self, i, axis):
            return change(self, i, axis, super().axis(i, axis))

    class Wrong(Slip):
        def __init__(self, edition, table, *others):
            super().__init__(edition, table, *others)
            self.tree = Tree(table, edition)
    return Wrong


def test_slip(change):
    """change(tree, i, test, axis, right) says wrongly whether node i passes."""
    class Tree(meaning.Tree):
        def passes(self, i, test, axis):
            return change(self, i, test, axis, super().passes(i, test, axis))

    class Wrong(Slip):
        def __init__(self, edition, table, *others):
            super().__init__(edition, table, *others)
            self.tree = Tree(table, edition)
    return Wrong


def value_slip(change):
    """change(op, x, y, right) gives the wrong value of an operation; y is
    None if there is one operand."""
    class Wrong(Slip):
        def value(self, link, *context):
            op, a, b = self.rows[link - 1][:3]
            if op in meaning.ARITHMETIC:
                x, y = self.value(a, *context), self.value(b, *context)
                return change(op, x, y, meaning.ARITHMETIC[op](x, y))
            if op in (9, 19):
                x = self.value(a, *context)
                return change(op, x, None, -x if op == 9 else x == x and x != 0)
            return super().value(link, *context)
    return Wrong


def ascending(tree, i, axis, nodes):
    return sorted(nodes)


def root_parent(tree, i, axis, nodes):
    return [0] if i == 0 and axis == 2 else nodes


def root_sibling(tree, i, axis, nodes):
    if axis == 9 and i == 0:
        return tree.children[0]
    return nodes


def following_inside(tree, i, axis, nodes):
    return range(i + 1, tree.count) if axis == 7 else nodes


def preceding_ancestors(tree, i, axis, nodes):
    return range(i - 1, -1, -1) if axis == 8 else nodes


def without_self(tree, i, axis, nodes):
    return [n for n in nodes if n != i] if axis in (5, 6) else nodes


def without_root(tree, i, axis, nodes):
    return [n for n in nodes if n != 0] if axis in (4, 6) else nodes


def star_any(tree, i, test, axis, right):
    return True if test == 1 else right


def name_instruction(tree, i, test, axis, right):
    return right or (test > 4 and tree.kind[i] == 4 and tree.name[i] == test - 16)


def floored_mod(op, x, y, right):
    if op != 8 or not (y and math.isfinite(x) and math.isfinite(y)):
        return right
    return right + y if right != 0 and (right < 0) != (y < 0) else right


def swapped(ops):
    return lambda op, x, y, right: meaning.ARITHMETIC[op](y, x) if op in ops else right


def unequal_nan(op, x, y, right):
    return x < y or x > y if op == 11 else right


def truth_nan(op, x, y, right):
    return x != 0 if op == 19 else right


def zero_minus(op, x, y, right):
    return 0.0 - x if op == 9 else right


def division_zero(op, x, y, right):
    return 0.0 if op == 7 and y == 0 else right


def single_rounding(op, x, y, right):
    """Arithmetic in single precision."""
    import struct
    if 4 <= op <= 8 and math.isfinite(right) and abs(right) < 3e38:
        return struct.unpack("f", struct.pack("f", right))[0]
    return right


def flush_small(op, x, y, right):
    """Subnormal results become zero."""
    if 4 <= op <= 8 and abs(right) < 2.2250738585072014e-308:
        return math.copysign(0.0, right)
    return right


class UnionPredicates(Slip):
    """Predicates count over the union, not for each context node."""

    def path(self, link, node):
        op, a = self.rows[link - 1][:2]
        current = {node if op == 22 else 0}
        for step in self.chain(a):
            current = set(self.whole_step(step, current))
        return current

    def whole_step(self, link, current):
        _, _, last, axis, test = self.rows[link - 1]
        nodes = {m for n in current for m in self.tree.axis(n, axis)}
        self.charge(len(nodes))
        kept = [n for n in nodes if self.tree.passes(n, test, axis)]
        kept.sort(reverse=axis in meaning.REVERSE)
        for p in self.chain(last):
            kept = self.keep(self.rows[p - 1][2], kept)
        return kept


class OldLast(Slip):
    """last() stays that of before the first predicate."""

    def step(self, link, node):
        _, _, last, axis, test = self.rows[link - 1]
        nodes = [n for n in self.tree.axis(node, axis) if self.tree.passes(n, test, axis)]
        self.charge(len(nodes))
        size = float(len(nodes))
        for p in self.chain(last):
            nodes = self.keep_of(self.rows[p - 1][2], nodes, size)
        return nodes

    def keep_of(self, link, nodes, size):
        values = [(self.value(link, n, float(i + 1), size), i, n) for i, n in enumerate(nodes)]
        return [n for v, i, n in values if v is True or (type(v) is float and v == i + 1)]


class OldPositions(Slip):
    """Positions go on from the list before the first predicate."""

    def step(self, link, node):
        _, _, last, axis, test = self.rows[link - 1]
        nodes = [n for n in self.tree.axis(node, axis) if self.tree.passes(n, test, axis)]
        self.charge(len(nodes))
        kept = list(enumerate(nodes))
        for p in self.chain(last):
            size = float(len(kept))
            inner = self.rows[p - 1][2]
            pairs = [(self.value(inner, n, float(i + 1), size), i, n) for i, n in kept]
            kept = [(i, n) for v, i, n in pairs if v is True or (type(v) is float and v == i + 1)]
        return [n for _, n in kept]


class BackwardPredicates(Slip):
    """The last predicate works first."""

    def step(self, link, node):
        _, _, last, axis, test = self.rows[link - 1]
        nodes = [n for n in self.tree.axis(node, axis) if self.tree.passes(n, test, axis)]
        self.charge(len(nodes))
        for p in reversed(self.chain(last)):
            nodes = self.keep(self.rows[p - 1][2], nodes)
        return nodes


class TestAfter(Slip):
    """The node test is applied after the predicates."""

    def step(self, link, node):
        _, _, last, axis, test = self.rows[link - 1]
        nodes = self.tree.axis(node, axis)
        self.charge(len(nodes))
        for p in self.chain(last):
            nodes = self.keep(self.rows[p - 1][2], nodes)
        return [n for n in nodes if self.tree.passes(n, test, axis)]


# ---- W-209 ----

ATTRIBUTE, ATTRIBUTE_AXIS = meaning.ATTRIBUTE, meaning.ATTRIBUTE_AXIS


def is_attribute(tree, i):
    return tree.kind[i] == ATTRIBUTE


def held_between(tree, low, high):
    """The attributes from row low to before row high."""
    if not hasattr(tree, "held"):
        tree.held = [j for j in range(tree.count) if is_attribute(tree, j)]
    return tree.held[bisect.bisect_left(tree.held, low):bisect.bisect_left(tree.held, high)]


def lying(tree, i, axis):
    """The attributes that would lie on an axis if they were children."""
    end = i + tree.size[i] + 1
    if axis == 1:
        return tree.attributes[i]
    if axis in (3, 5):
        return held_between(tree, i + 1, end)
    if axis == 7:
        return held_between(tree, end, tree.count)
    if axis == 8:
        return held_between(tree, 0, i)
    beside = tree.attributes[tree.parent[i]] if axis in (9, 10) and i > 0 else []
    return [j for j in beside if j != i and (j > i) == (axis == 9)]


def with_attributes(tree, i, axis, nodes):
    return sorted([*nodes, *lying(tree, i, axis)], reverse=axis in meaning.REVERSE)


def attributes_on(*axes):
    return lambda tree, i, axis, nodes: with_attributes(tree, i, axis, nodes) if axis in axes else nodes


def from_attribute(wrong):
    """wrong(tree, i, axis, nodes) gives the axes of attributes alone."""
    return lambda tree, i, axis, nodes: wrong(tree, i, axis, nodes) if is_attribute(tree, i) else nodes


def elements_following(tree, i, axis, nodes):
    return tree.axis(tree.parent[i], 7) if axis == 7 else nodes


def element_preceding(tree, i, axis, nodes):
    return [tree.parent[i], *nodes] if axis == 8 else nodes


def nothing_on(*axes):
    return lambda tree, i, axis, nodes: [] if axis in axes else nodes


def not_itself(tree, i, axis, nodes):
    return [n for n in nodes if n != i] if axis in (5, 6) else nodes


def row_above(tree, i, axis, nodes):
    """The parent is the row before."""
    return [i - 1] if axis == 2 else nodes


def child_siblings(tree, i, axis, nodes):
    """The element's children follow an attribute as siblings."""
    return tree.children[tree.parent[i]] if axis == 9 else nodes


def elements_attributes(tree, i, axis, nodes):
    return tree.attributes[tree.parent[i]] if axis == ATTRIBUTE_AXIS else nodes


def downwards(tree, i, axis, nodes):
    return list(reversed(nodes)) if axis == ATTRIBUTE_AXIS else nodes


def first_attribute(tree, i, axis, nodes):
    return nodes[:1] if axis == ATTRIBUTE_AXIS else nodes


def inner_attributes(tree, i, axis, nodes):
    """Those of the elements inside too."""
    inside = range(i + 1, i + tree.size[i] + 1)
    return [j for j in inside if is_attribute(tree, j)] if axis == ATTRIBUTE_AXIS else nodes


def elements_only(tests):
    """These tests match elements only, on the attribute axis too."""
    return lambda tree, i, test, axis, right: right and not (is_attribute(tree, i) and tests(test))


def attributes_too(tests):
    """These tests match attributes on every axis."""
    def change(tree, i, test, axis, right):
        return right or (is_attribute(tree, i) and tests(test) and test in (1, 16 + tree.name[i]))
    return change


def is_star(test):
    return test == 1


def is_name(test):
    return test > 4


def text_of_attribute(tree, i, test, axis, right):
    return right or (test == 2 and is_attribute(tree, i))


def name_as_star(tree, i, test, axis, right):
    return right or (is_name(test) and axis == ATTRIBUTE_AXIS)


class NodeLeavesOut(Slip):
    """node() matches no attribute."""

    def step(self, link, node):
        _, _, last, axis, test = self.rows[link - 1]
        nodes = self.tree.axis(node, axis)
        self.charge(len(nodes))
        kept = self.tree.others(nodes) if test == 0 else [n for n in nodes if self.tree.passes(n, test, axis)]
        for p in self.chain(last):
            kept = self.keep(self.rows[p - 1][2], kept)
        return kept


class AttributePositions(Slip):
    """Positions count attributes on axes where none lies."""

    def step(self, link, node):
        _, _, last, axis, test = self.rows[link - 1]
        right = list(self.tree.axis(node, axis))
        nodes = with_attributes(self.tree, node, axis, right)
        self.charge(len(nodes))
        kept = [n for n in nodes if self.tree.passes(n, test, axis)]
        for p in self.chain(last):
            kept = self.keep(self.rows[p - 1][2], kept)
        return [n for n in kept if n in right]


# ---- W-210 ----

class FirstAsSecond(Slip):
    """Edition 1 is read as edition 2."""
    def __init__(self, edition, *inputs):
        super().__init__(2, *inputs)


def second_in(where):
    """where(rows, r): whether step r is read in edition 2 whatever the edition."""
    class Wrong(Slip):
        def __init__(self, edition, *inputs):
            super().__init__(edition, *inputs)
            found = {r for r, row in enumerate(self.rows) if edition == 1 and row[0] == 24 and where(self.rows, r)}
            self.editions = [2 if r in found else edition for r in range(len(self.rows))]

        def step(self, link, node):
            outer = self.tree.edition
            self.tree.edition = self.editions[link - 1]
            out = super().step(link, node)
            self.tree.edition = outer
            return out
    return Wrong


def in_top_path(rows, r):
    return r in checker.chain(rows, rows[-1][1])


def in_predicates(rows, r):
    return not in_top_path(rows, r)


def held_by(op):
    """Steps of the paths that rows with this op hold."""
    def where(rows, r):
        return any(row[0] == op and r in checker.chain(rows, rows[row[1] - 1][1]) for row in rows)
    return where


def without_counting(rows, r):
    return not checker.step_counts(rows, r)


def on_reverse(rows, r):
    return rows[r][3] in meaning.REVERSE


def first_step(rows, r):
    return rows[r][1] == 0


def later_step(rows, r):
    return rows[r][1] != 0


def first_star(wrong):
    """wrong(tree, i, axis): where the `*` of edition 1 does not match."""
    def change(tree, i, test, axis, right):
        return right and not (tree.edition == 1 and test == 1 and wrong(tree, i, axis))
    return test_slip(change)


def star_but(kind):
    return first_star(lambda tree, i, axis: tree.kind[i] == kind)


def lying_itself(tree, i, axis):
    """An attribute on its own self and -or-self axes."""
    return is_attribute(tree, i) and axis != ATTRIBUTE_AXIS


def first_names(kind):
    """In edition 1 names match this kind too, on every axis."""
    def change(tree, i, test, axis, right):
        return right or (tree.edition == 1 and tree.kind[i] == kind and test == 16 + tree.name[i])
    return test_slip(change)


# ---- W-211 ----

# The limit before. These slips don't run long, and have no upper limit.
OLD_ROWS = 4096


def low(value):
    """What is left of a number in 12 bits."""
    return value % OLD_ROWS


class LowPositions(meaning.Evaluator):
    """Positions are counted in 12 bits."""

    def keep(self, link, nodes):
        size = float(len(nodes))
        places = [(n, float(low(i + 1))) for i, n in enumerate(nodes)]
        values = [(self.value(link, n, position, size), position, n) for n, position in places]
        return [n for v, position, n in values if v is True or (type(v) is float and v == position)]


class LowLast(meaning.Evaluator):
    """last() is counted in 12 bits."""

    def value(self, link, node, position, size):
        return super().value(link, node, position, float(low(size)))


class LowCounts(meaning.Evaluator):
    """count() is counted in 12 bits."""

    def value(self, link, *context):
        right = super().value(link, *context)
        return float(low(right)) if self.rows[link - 1][0] == 21 else right


class ShortLists(meaning.Evaluator):
    """What a path selects is a list of 4,096 nodes at most, the lowest ones."""

    def path(self, link, node):
        return set(sorted(super().path(link, node))[:OLD_ROWS])


def with_tree(make):
    """make(table, edition): the wrong tree."""
    class Wrong(meaning.Evaluator):
        def __init__(self, edition, table, *others):
            super().__init__(edition, table, *others)
            self.tree = make(table, edition)
    return Wrong


class ShortAxes(meaning.Tree):
    """An axis ends after 4,096 nodes."""

    def axis(self, i, axis):
        return super().axis(i, axis)[:OLD_ROWS]


class FrontNodes(meaning.Tree):
    """Nodes from 4,096 on lie on no axis."""

    def axis(self, i, axis):
        return [n for n in super().axis(i, axis) if n < OLD_ROWS]


class LowNodes(meaning.Tree):
    """Nodes are kept in 12 bits."""

    def axis(self, i, axis):
        return [low(n) for n in super().axis(i, axis)]


class LowSizes(meaning.Tree):
    """Sizes are kept in 12 bits."""

    def __init__(self, *inputs):
        super().__init__(*inputs)
        self.size = [low(size) for size in self.size]


# ---- numbers and paths ----

class RoundedPosition(Slip):
    def keep(self, link, nodes):
        out = []
        for i, n in enumerate(nodes):
            value = self.value(link, n, float(i + 1), float(len(nodes)))
            same = type(value) is float and math.isfinite(value) and int(value) == i + 1
            if value is True or same:
                out.append(n)
        return out


class NumberTruth(Slip):
    """A number as predicate is taken for its truth."""

    def keep(self, link, nodes):
        size = float(len(nodes))
        values = [(self.value(link, n, float(i + 1), size), n) for i, n in enumerate(nodes)]
        return [n for v, n in values if v == v and v]


class InnerAbsolute(Slip):
    """Absolute paths inside predicates start from the node under test."""

    def path(self, link, node):
        if link == len(self.rows):
            return super().path(link, node)
        op, row = self.rows[link - 1][0], self.rows[link - 1]
        self.rows[link - 1] = [22] + row[1:]
        out = super().path(link, node)
        self.rows[link - 1] = [op] + row[1:]
        return out


class FirstStep(Slip):
    """Only the first step is done."""

    def chain(self, link):
        whole = super().chain(link)
        return whole[:1] if whole and self.rows[whole[0] - 1][0] == 24 else whole


class InnerPosition(Slip):
    """position() inside an inner path is that of the outer predicate."""

    def __init__(self, *inputs):
        super().__init__(*inputs)
        self.outer = []

    def value(self, link, node, position, size):
        op, a = self.rows[link - 1][:2]
        if op == 2 and self.outer:
            return self.outer[0]
        if op not in (20, 21):
            return super().value(link, node, position, size)
        self.outer.append(position)
        out = super().value(link, node, position, size)
        self.outer.pop()
        return out


def remembered(check):
    """The last table's result is kept: vectors share tables."""
    kept = []

    def answer(table):
        if not kept or kept[0] != table:
            kept[:] = [list(table), check(table)]
        return kept[1]
    return answer


def checker_copy(**changes):
    """A copy of the checker with some of its functions changed."""
    copy = {}
    for name, item in vars(checker).items():
        if isinstance(item, types.FunctionType):
            item = types.FunctionType(item.__code__, copy, name, item.__defaults__)
        copy[name] = item
    copy.update(changes)
    copy["check_table"] = remembered(copy["check_table"])
    return types.SimpleNamespace(**{k: copy[k] for k in ("check_table", "check_path", "refuse_evaluate", "turn", "view")})


def wrapped_parent(table, i, parent, size):
    for j in range(i - 1, -1, -1):
        end = (j + table[4 * j + 3]) % (1 << 32)
        if end >= i:
            return parent == j and (i + size) % (1 << 32) <= end
    return False


# ---- W-206 ----

def always(*inputs):
    return True


def is_root_element(table, i):
    return table[4 * i] == 1 and table[4 * i + 2] == 0


def behind_text(table, i):
    before = checker.previous_sibling(table, i)
    return before is not None and table[4 * before] == 2


def root_text(behind):
    """A text child of the root is allowed behind the element, or before it."""
    def sound(table, i, parent):
        found = any(is_root_element(table, j) for j in range(1, i))
        if parent == 0 and found == behind:
            return not behind_text(table, i)
        return checker.text_sound(table, i, parent)
    return sound


def text_before_text(table, i, parent):
    """The earlier of two neighbouring texts is the broken one."""
    behind = [j for j in range(i + 1, len(table) // 4) if table[4 * j + 2] == parent]
    return parent != 0 and (not behind or table[4 * behind[0]] != 2)


def element_before_element(table, i, parent):
    """Each element child of the root but the last is broken."""
    later = range(i + 1, len(table) // 4)
    return parent != 0 or not any(is_root_element(table, j) for j in later)


def element_beside_element(table, i, parent):
    """Only an element child straight behind another is broken."""
    before = checker.previous_sibling(table, i)
    return parent != 0 or before is None or table[4 * before] != 1


def row_before(table, i):
    return i - 1 if i > 1 else None


def sibling_over(kinds):
    """The previous sibling that is none of these kinds."""
    def sibling(table, i):
        before = checker.previous_sibling(table, i)
        while before is not None and table[4 * before] in kinds:
            before = checker.previous_sibling(table, before)
        return before
    return sibling


def has_sound_element(table):
    rows = len(table) // 4
    return any(table[4 * i] == 1 and checker.row_sound(table, i, rows) for i in range(1, rows))


def has_root_element(table):
    return any(is_root_element(table, i) for i in range(1, len(table) // 4))


def no_element_at_one():
    """A table without an element is broken at row 1."""
    others = checker_copy(has_element=always)

    def check(table):
        number, place = others.check_table(table)
        missing = number in (0, 2) and place > 0 and not checker.has_element(table)
        return (2, 1) if missing else (number, place)
    return check


def checked_first(**left_out):
    """Some rules are looked at only where no row breaks another."""
    others = checker_copy(**left_out)

    def check(table):
        number, place = others.check_table(table)
        return (number, place) if number != 0 else checker.check_table(table)
    return check


# ---- W-209 ----

def has_kind(table, i, kind):
    return i > 0 and table[4 * i] == kind


def behind_inner(table, i, parent):
    """Behind any attribute, whosever it is."""
    return checker.attribute_stands(table, i, parent) or has_kind(table, i - 1, ATTRIBUTE)


def behind_element(table, i, parent):
    """Behind any element, whether that is its parent or not."""
    return checker.attribute_stands(table, i, parent) or has_kind(table, i - 1, meaning.ELEMENT)


def behind_remark(table, i, parent):
    """Comments and instructions may stand before attributes."""
    before = table[4 * i - 4]
    return checker.attribute_stands(table, i, parent) or (before in (3, 4) and table[4 * i - 2] == parent)


def of_root(table, i, parent):
    return checker.attribute_stands(table, i, parent) or parent == 0


def only_first(table, i, parent):
    """An element has one attribute at most."""
    return parent == i - 1 and table[4 * i - 4] == meaning.ELEMENT


def child_before_attribute(table, i, kind, parent):
    """A child with an attribute behind it is broken, not the attribute."""
    rows = range(i + 1, len(table) // 4)
    if kind != ATTRIBUTE:
        return not any(table[4 * j] == ATTRIBUTE and table[4 * j + 2] == parent for j in rows)
    return not checker.attribute_repeated(table, i, parent)


def same_name_before(table, i, parent):
    """Only neighbours are compared."""
    return table[4 * i - 4:4 * i - 1] == table[4 * i:4 * i + 3]


def same_name_first(table, i, parent):
    """Only the element's first attribute is compared."""
    return i > parent + 1 and table[4 * parent + 5] == table[4 * i + 1]


def same_name_later(table, i, parent):
    """Each but the last is broken."""
    same = table[4 * i:4 * i + 3]
    return any(table[4 * j:4 * j + 3] == same for j in range(i + 1, len(table) // 4))


def same_name_anywhere(table, i, parent):
    return any(table[4 * j:4 * j + 2] == table[4 * i:4 * i + 2] for j in range(1, i))


def same_name_low(bits):
    """Names are compared in their lowest bits."""
    def repeated(table, i, parent):
        names = [table[4 * j + 1] for j in range(parent + 1, i) if table[4 * j:4 * j + 3:2] == [ATTRIBUTE, parent]]
        return any(name % (1 << bits) == table[4 * i + 1] % (1 << bits) for name in names)
    return repeated


def named_like_element(table, i, parent):
    return checker.attribute_repeated(table, i, parent) or table[4 * parent + 1] == table[4 * i + 1]


def names_ascend(table, i, parent):
    return table[4 * i - 4] == ATTRIBUTE and table[4 * i - 3] >= table[4 * i + 1]


def kind_slip(allowed):
    """allowed(kind, name, size): rows that are taken for sound beside the others."""
    return lambda kind, name, size: checker.kind_sound(kind, name, size) or allowed(kind, name, size)


def no_attributes(kind, name, size):
    return kind != ATTRIBUTE and checker.kind_sound(kind, name, size)


def uncounted_parent(table, i, parent, size):
    """An attribute may stand behind its element's size."""
    return table[4 * i] == ATTRIBUTE or checker.parent_sound(table, i, parent, size)


def turn_slip(judge):
    """judge(rows, steps, others, answer): 13 told in another way; others is the
    answer where the attribute axis is no cause."""
    def turn(path, literals, room):
        number, place = checker.check_path(path, literals)
        if number != 0:
            return number, place, []
        rows = checker.path_rows(path)
        steps = checker.chain(rows, rows[-1][1])
        return judge(rows, steps, unrefused(path, literals, room), checker.turn(path, literals, room))
    return turn


def unrefused(path, literals, room):
    """Turning if axis 11 were its own inverse: no 13."""
    axes = dict(checker.INVERSE)
    axes[ATTRIBUTE_AXIS] = ATTRIBUTE_AXIS
    return checker_copy(ATTRIBUTE_AXIS=-1, INVERSE=axes).turn(path, literals, room)


def held_steps(rows, steps):
    return [i + 1 for i, s in enumerate(steps) if rows[s][3] == ATTRIBUTE_AXIS]


def after(*numbers):
    """These are looked at before 13."""
    return lambda rows, steps, others, answer: others if others[0] in numbers else answer


def before_counting(rows, steps, others, answer):
    held = held_steps(rows, steps)
    return (13, held[0], []) if held else answer


def lower_step(rows, steps, others, answer):
    """9 and 13 together: the lower step is given."""
    held = held_steps(rows, steps)
    return (13, held[0], []) if answer[0] == 9 and held and held[0] < answer[1] else answer


def placed_13(place):
    """place(rows, steps) instead of the first step's number."""
    return lambda rows, steps, others, answer: (13, place(rows, steps), []) if answer[0] == 13 else answer


def inner_13(rows, steps, others, answer):
    """Axis 11 inside predicates is refused too."""
    inside = any(row[0] == 24 and row[3] == ATTRIBUTE_AXIS for row in rows)
    return (13, 1, []) if answer[0] in (0, 10, 11) and inside else answer


def view_without_attributes(table, entries, node):
    right = checker.view(table, entries, node)
    if right is None:
        return None
    begin, _, inside = right
    kept = [v for v in inside if table[4 * v] != ATTRIBUTE]
    return (begin, len(kept), kept) if kept else None


def view_of_attribute(table, entries, node):
    """The view of an attribute is empty."""
    right = checker.view(table, entries, node)
    return None if right is not None and table[4 * node] == ATTRIBUTE else right


# ---- W-210 ----

def refusal_slip(judge):
    """judge(edition, others): the refusal of what is no edition; others is what
    edition 2 is refused with, or None."""
    right = checker_copy().refuse_evaluate

    def refuse(edition, *inputs):
        if edition in checker.EDITIONS:
            return right(edition, *inputs)
        return judge(edition, right(2, *inputs))
    return refuse


def edition_after(*numbers):
    """These are looked at before 14."""
    return refusal_slip(lambda edition, others: others if others and others[0] in numbers else (14, edition))


def low_edition(bits):
    """Editions are told by their lowest bits."""
    return refusal_slip(lambda edition, others: others if edition % (1 << bits) in checker.EDITIONS else (14, edition))


# ---- W-211 ----

def front_checked(table):
    """Only the first 4,096 rows are looked at."""
    number, place = checker.check_table(table)
    return (0, len(table) // 4) if number == 2 and place >= OLD_ROWS else (number, place)


def whole_rows(table):
    """Numbers behind the last whole row are not looked at."""
    return checker.check_table(table[:len(table) // 4 * 4])


def front_starts():
    """A start of 4,096 or more is no row."""
    right = checker_copy().refuse_evaluate

    def refuse(edition, table, path, literals, start):
        refused = right(edition, table, path, literals, start)
        return (7, start) if refused is None and start >= OLD_ROWS else refused
    return refuse


def short_view():
    """Only the first 4,096 entries are looked at."""
    right = checker_copy().view
    return lambda table, entries, node: right(table, entries[:OLD_ROWS], node)


def front_view():
    """The view of a node from 4,096 on is empty."""
    right = checker_copy().view
    return lambda table, entries, node: None if node >= OLD_ROWS else right(table, entries, node)


def untested_turned(rows):
    """The leading self step tests nothing."""
    right = checker.turned_rows(rows)
    steps = checker.chain(right, right[-1][1])
    right[steps[0]] = right[steps[0]][:4] + [0]
    return right


def links_of_sound(rows, r):
    """Only links of the right sort count."""
    return [t for t, what in zip(checker.links_of(rows, r), sorts_of(rows, r)) if rows[t][0] in what]


def sorts_of(rows, r):
    fields = zip(checker.FIELDS.get(rows[r][0], checker.UNUSED), rows[r][1:])
    return [what[0] for what, v in fields if isinstance(what, tuple) and 1 <= v <= r]


def all_literals(literals):
    """More than 64 is looked at before the literals themselves."""
    return 64 if len(literals) > 64 else checker.bad_literal(literals)


def used_literals(literals):
    return None if len(literals) == 1 else checker.bad_literal(literals)


def holds_any_position(rows, r):
    return rows[r][0] in (2, 3) or any(holds_any_position(rows, t) for t in checker.links_of(rows, r))


def open_view(table, entries, node):
    """The last node of the subtree is left out."""
    right = checker.view(table, entries, node)
    if right is None or node + table[4 * node + 3] not in entries:
        return right
    begin, length, inside = right
    return begin, length - 1, inside[:-1]


def moved_view(table, entries, node):
    """The part begins an entry further on than it says."""
    right = checker.view(table, entries, node)
    if right is None:
        return None
    begin, length, _ = right
    return begin, length, entries[begin + 1:begin + 1 + length]


EVALUATORS = {
    "positions upwards on all axes": tree_slip(ascending),
    "root has itself as parent": tree_slip(root_parent),
    "root has siblings": tree_slip(root_sibling),
    "following with descendants": tree_slip(following_inside),
    "preceding with ancestors": tree_slip(preceding_ancestors),
    "or-self axes without self": tree_slip(without_self),
    "ancestors without the root": tree_slip(without_root),
    "* matches any node": test_slip(star_any),
    "name matches instructions": test_slip(name_instruction),
    "mod rounds down": value_slip(floored_mod),
    "minus with operands swapped": value_slip(swapped({5})),
    "div, mod with operands swapped": value_slip(swapped({7, 8})),
    "< and > with operands swapped": value_slip(swapped({12, 13, 14, 15})),
    "!= false for NaN": value_slip(unequal_nan),
    "truth of NaN": value_slip(truth_nan),
    "negation of zero gives +0": value_slip(zero_minus),
    "division by zero gives 0": value_slip(division_zero),
    "single precision": value_slip(single_rounding),
    "subnormals flushed": value_slip(flush_small),
    "predicates over the union": UnionPredicates,
    "last() from before": OldLast,
    "positions from before": OldPositions,
    "predicates backwards": BackwardPredicates,
    "test after predicates": TestAfter,
    "number predicate truncated": RoundedPosition,
    "number predicate as truth": NumberTruth,
    "inner absolute path relative": InnerAbsolute,
    "only the first step": FirstStep,
    "inner position() from outside": InnerPosition,
    "attributes on child": tree_slip(attributes_on(1)),
    "attributes on descendant": tree_slip(attributes_on(3)),
    "attributes on descendant-or-self": tree_slip(attributes_on(5)),
    "attributes on following": tree_slip(attributes_on(7)),
    "attributes on preceding": tree_slip(attributes_on(8)),
    "attributes on following-sibling": tree_slip(attributes_on(9)),
    "attributes on preceding-sibling": tree_slip(attributes_on(10)),
    "children follow as siblings": tree_slip(from_attribute(child_siblings)),
    "following of the element": tree_slip(from_attribute(elements_following)),
    "preceding with the element": tree_slip(from_attribute(element_preceding)),
    "nothing follows an attribute": tree_slip(from_attribute(nothing_on(7))),
    "nothing precedes an attribute": tree_slip(from_attribute(nothing_on(8))),
    "attribute without parent": tree_slip(from_attribute(nothing_on(2))),
    "attribute without ancestors": tree_slip(from_attribute(nothing_on(4))),
    "attribute not on its self": tree_slip(from_attribute(nothing_on(0))),
    "attribute not on its or-self axes": tree_slip(from_attribute(not_itself)),
    "parent is the row before": tree_slip(from_attribute(row_above)),
    "attribute has its element's": tree_slip(from_attribute(elements_attributes)),
    "attribute axis empty": tree_slip(nothing_on(ATTRIBUTE_AXIS)),
    "attribute axis downwards": tree_slip(downwards),
    "attribute axis has the first only": tree_slip(first_attribute),
    "attribute axis goes deeper": tree_slip(inner_attributes),
    "* matches no attribute": test_slip(elements_only(is_star)),
    "names match no attribute": test_slip(elements_only(is_name)),
    "node() matches no attribute": NodeLeavesOut,
    "* matches attributes everywhere": test_slip(attributes_too(is_star)),
    "names match attributes everywhere": test_slip(attributes_too(is_name)),
    "text() matches attributes": test_slip(text_of_attribute),
    "any name matches on axis 11": test_slip(name_as_star),
    "positions count attributes": AttributePositions,
    "edition 1 read as edition 2": FirstAsSecond,
    "edition 1 not in predicates": second_in(in_predicates),
    "edition 1 not in the top path": second_in(in_top_path),
    "edition 1 not in truths of paths": second_in(held_by(20)),
    "edition 1 not in counts": second_in(held_by(21)),
    "edition 1 not where steps count": second_in(checker.step_counts),
    "edition 1 only where steps count": second_in(without_counting),
    "edition 1 not on reverse axes": second_in(on_reverse),
    "edition 1 not in first steps": second_in(first_step),
    "edition 1 only in first steps": second_in(later_step),
    "edition 1: * without the root": star_but(0),
    "edition 1: * without elements": star_but(1),
    "edition 1: * without text": star_but(2),
    "edition 1: * without comments": star_but(3),
    "edition 1: * without instructions": star_but(4),
    "edition 1: * without attributes": star_but(ATTRIBUTE),
    "edition 1: * empty on axis 11": first_star(lambda tree, i, axis: axis == ATTRIBUTE_AXIS),
    "edition 1: attributes on 11 only": first_star(lying_itself),
    "edition 1: names of instructions": first_names(4),
    "edition 1: names of attributes": first_names(ATTRIBUTE),
}

# W-211: noticed by hosts/vectors; for all but one the tables of crates/vectors are too short.
LIMIT_EVALUATORS = {
    "positions in 12 bits": LowPositions,
    "last() in 12 bits": LowLast,
    "counts in 12 bits": LowCounts,
    "lists of 4,096 nodes at most": ShortLists,
    "axes of 4,096 nodes at most": with_tree(ShortAxes),
    "nodes from 4,096 on left out": with_tree(FrontNodes),
    "nodes in 12 bits": with_tree(LowNodes),
    "subtree sizes in 12 bits": with_tree(LowSizes),
}

CHECKERS = {
    "sizes in 32 bits": dict(parent_sound=wrapped_parent),
    "second element child allowed": dict(element_sound=always),
    "only neighbouring elements refused": dict(element_sound=element_beside_element),
    "earlier element child broken": dict(element_sound=element_before_element),
    "text child of the root allowed": dict(text_sound=lambda table, i, parent: not behind_text(table, i)),
    "text behind the element allowed": dict(text_sound=root_text(behind=True)),
    "text before the element allowed": dict(text_sound=root_text(behind=False)),
    "neighbouring texts allowed": dict(text_sound=lambda table, i, parent: parent != 0),
    "earlier of two texts broken": dict(text_sound=text_before_text),
    "row before taken for the sibling": dict(previous_sibling=row_before),
    "comment between texts refused": dict(previous_sibling=sibling_over({3})),
    "instruction between texts refused": dict(previous_sibling=sibling_over({4})),
    "element between texts refused": dict(previous_sibling=sibling_over({1})),
    "table without element allowed": dict(has_element=always),
    "no element given at row 1": dict(check_table=no_element_at_one()),
    "only sound elements looked for": dict(has_element=has_sound_element),
    "only root's elements looked for": dict(has_element=has_root_element),
    "no element looked at last": dict(check_table=checked_first(has_element=always)),
    "W-206 after the older rules": dict(check_table=checked_first(has_element=always, document_sound=always)),
    "second attribute of a name allowed": dict(attribute_repeated=lambda table, i, parent: False),
    "only neighbouring names compared": dict(attribute_repeated=same_name_before),
    "only the first name compared": dict(attribute_repeated=same_name_first),
    "earlier of two names broken": dict(attribute_repeated=same_name_later),
    "a name once in the table": dict(attribute_repeated=same_name_anywhere),
    "names compared in 8 bits": dict(attribute_repeated=same_name_low(8)),
    "names compared in 12 bits": dict(attribute_repeated=same_name_low(12)),
    "attribute not named as its element": dict(attribute_repeated=named_like_element),
    "names of attributes ascend": dict(attribute_repeated=names_ascend),
    "attribute behind a child allowed": dict(attribute_stands=always),
    "attribute behind an inner allowed": dict(attribute_stands=behind_inner),
    "attribute behind element allowed": dict(attribute_stands=behind_element),
    "attribute behind comment allowed": dict(attribute_stands=behind_remark),
    "attribute of the root allowed": dict(attribute_stands=of_root),
    "one attribute at most": dict(attribute_stands=only_first),
    "child before attribute broken": dict(attribute_sound=child_before_attribute),
    "attribute outside its element": dict(parent_sound=uncounted_parent),
    "attribute of any size": dict(kind_sound=kind_slip(lambda k, name, size: k == 5 and 1 <= name <= 65535)),
    "attribute without name": dict(kind_sound=kind_slip(lambda k, name, size: [k, name, size] == [5, 0, 0])),
    "attribute's name above 65,535": dict(kind_sound=kind_slip(lambda k, name, size: [k, size] == [5, 0] and name > 0)),
    "kind 5 refused": dict(kind_sound=no_attributes),
    "kind 6 allowed": dict(kind_sound=kind_slip(lambda k, name, size: [k, size] == [6, 0])),
    "W-209 after the other rules": dict(check_table=checked_first(attribute_sound=always)),
    "axis 11 refused": dict(LAST_AXIS=10),
    "axis 12 allowed": dict(LAST_AXIS=12),
    "no 13": dict(turn=turn_slip(lambda rows, steps, others, answer: others)),
    "13 before 9": dict(turn=turn_slip(before_counting)),
    "13 after 10": dict(turn=turn_slip(after(10))),
    "13 after 11": dict(turn=turn_slip(after(11))),
    "9 and 13 by the lower step": dict(turn=turn_slip(lower_step)),
    "13 at the last such step": dict(turn=turn_slip(placed_13(lambda rows, steps: held_steps(rows, steps)[-1]))),
    "13 counts steps from 0": dict(turn=turn_slip(placed_13(lambda rows, steps: held_steps(rows, steps)[0] - 1))),
    "13 from the end": dict(turn=turn_slip(placed_13(lambda rows, steps: len(steps) + 1 - held_steps(rows, steps)[-1]))),
    "13 gives the row": dict(turn=turn_slip(placed_13(lambda rows, steps: steps[held_steps(rows, steps)[0] - 1]))),
    "13 has no place": dict(turn=turn_slip(placed_13(lambda rows, steps: 0))),
    "13 of inner steps": dict(turn=turn_slip(inner_13)),
    "view without attributes": dict(view=view_without_attributes),
    "view of an attribute empty": dict(view=view_of_attribute),
    "turned without testing tk": dict(turned_rows=untested_turned),
    "links of a wrong sort ignored": dict(links_of=links_of_sound),
    "65 literals looked at first": dict(bad_literal=all_literals),
    "single literal not checked": dict(bad_literal=used_literals),
    "inner position() counts": dict(holds_position=holds_any_position),
    "view without its last node": dict(view=open_view),
    "view an entry further on": dict(view=moved_view),
    "depth 7 at most": dict(MAX_DEPTH=7),
    "depth 9 allowed": dict(MAX_DEPTH=9),
    "edition 3 accepted": dict(EDITIONS=(1, 2, 3)),
    "edition 0 accepted": dict(EDITIONS=(0, 1, 2)),
    "edition 1 refused": dict(EDITIONS=(2,)),
    "every edition accepted": dict(refuse_evaluate=refusal_slip(lambda edition, others: others)),
    "editions told in 8 bits": dict(refuse_evaluate=low_edition(8)),
    "editions told in 16 bits": dict(refuse_evaluate=low_edition(16)),
    "editions told in 31 bits": dict(refuse_evaluate=low_edition(31)),
    "14 after number 1": dict(refuse_evaluate=edition_after(1)),
    "14 after the table's numbers": dict(refuse_evaluate=edition_after(1, 2)),
    "14 after the path's numbers": dict(refuse_evaluate=edition_after(3, 4, 5, 6)),
    "14 after number 7": dict(refuse_evaluate=edition_after(7)),
    "14 after all other checks": dict(refuse_evaluate=edition_after(*range(1, 8))),
    "14 has no place": dict(refuse_evaluate=refusal_slip(lambda edition, others: (14, 0))),
    "tests up to 65,552": dict(test_allowed=lambda t: t <= 4 or 17 <= t <= 65552),
    "test 16 allowed": dict(test_allowed=lambda t: t <= 4 or 16 <= t <= 65551),
}

LIMIT_CHECKERS = {
    "4,097 rows refused": dict(MAX_ROWS=OLD_ROWS),
    "8,192 rows refused": dict(MAX_ROWS=8191),
    "8,193 rows accepted": dict(MAX_ROWS=8193),
    "lengths in whole rows": dict(check_table=whole_rows),
    "rows from 4,096 on unchecked": dict(check_table=front_checked),
    "starts from 4,096 on refused": dict(refuse_evaluate=front_starts()),
    "view of 4,096 entries at most": dict(view=short_view()),
    "view of nodes from 4,096 on empty": dict(view=front_view()),
}

LIMITS = {**LIMIT_EVALUATORS, **LIMIT_CHECKERS}
ALL = {**EVALUATORS, **CHECKERS, **LIMITS}


def names(word):
    """The slips that a word stands for: all, limits or a slip's name."""
    return list({"all": ALL, "limits": LIMITS}.get(word, [word]))


def make(name):
    """The checker and the evaluator with a slip; a wrong checker is tried without evaluating."""
    slip = ALL[name]
    return (checker_copy(**slip), None) if isinstance(slip, dict) else (checker_copy(), slip)
