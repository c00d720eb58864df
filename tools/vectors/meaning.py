# A third opinion on what a path selects, written from the Recommendation and
# documents 01 and 02 on plain lists. The expected answers of the vectors come from the
# engines; this is used to see which cases are worth asking, to bound their
# cost, and to settle where two engines differ.
import math
import struct

REVERSE = {2, 4, 6, 8, 10}
ELEMENT, ATTRIBUTE = 1, 5
ATTRIBUTE_AXIS = 11


class TooLong(Exception):
    pass


def literal_value(bits):
    return struct.unpack("<d", struct.pack("<Q", bits))[0]


def literal_bits(value):
    return struct.unpack("<Q", struct.pack("<d", value))[0]


def divide(x, y):
    if y != 0:
        return x / y
    if x == 0 or x != x or y != y:
        return math.nan
    return math.copysign(math.inf, x) * math.copysign(1.0, y)


def remainder(x, y):
    try:
        return math.fmod(x, y)
    except ValueError:
        return math.nan


ARITHMETIC = {
    4: lambda x, y: x + y,
    5: lambda x, y: x - y,
    6: lambda x, y: x * y,
    7: divide,
    8: remainder,
    10: lambda x, y: x == y,
    11: lambda x, y: x != y,
    12: lambda x, y: x < y,
    13: lambda x, y: x <= y,
    14: lambda x, y: x > y,
    15: lambda x, y: x >= y,
}


class Tree:
    """The axes of a table's nodes, and their tests, in which alone editions differ."""

    def __init__(self, table, edition=2):
        n = len(table) // 4
        self.edition = edition
        self.count = n
        self.kind = table[0::4]
        self.name = table[1::4]
        self.parent = [None] + table[2::4][1:]
        self.size = table[3::4]
        self.children = [[] for _ in range(n)]
        self.attributes = [[] for _ in range(n)]
        for i in range(1, n):
            held = self.attributes if self.kind[i] == ATTRIBUTE else self.children
            held[self.parent[i]].append(i)
        self.has_attributes = ATTRIBUTE in self.kind

    def passes(self, i, test, axis):
        if test == 0 or (test == 1 and self.edition == 1):
            return True
        if 2 <= test <= 4:
            return self.kind[i] == test
        principal = ATTRIBUTE if axis == ATTRIBUTE_AXIS else ELEMENT
        return self.kind[i] == principal and test in (1, 16 + self.name[i])

    def ancestors(self, i):
        out = []
        while self.parent[i] is not None:
            i = self.parent[i]
            out.append(i)
        return out

    def siblings(self, i):
        if self.parent[i] is None or self.kind[i] == ATTRIBUTE:
            return []
        return self.children[self.parent[i]]

    def others(self, nodes):
        """Those that are no attributes."""
        if not self.has_attributes:
            return nodes
        return [i for i in nodes if self.kind[i] != ATTRIBUTE]

    def axis(self, i, axis):
        """The nodes of an axis in the order of the axis."""
        end = i + self.size[i] + 1
        if axis == 0:
            return [i]
        if axis == 1:
            return self.children[i]
        if axis == 2:
            return [] if self.parent[i] is None else [self.parent[i]]
        if axis == 3:
            return self.others(range(i + 1, end))
        if axis == 4:
            return self.ancestors(i)
        if axis == 5:
            return [i, *self.others(range(i + 1, end))]
        if axis == 6:
            return [i] + self.ancestors(i)
        if axis == 7:
            return self.others(range(end, self.count))
        if axis == 8:
            above = set(self.ancestors(i))
            return self.others([j for j in range(i - 1, -1, -1) if j not in above])
        if axis == 9:
            return [j for j in self.siblings(i) if j > i]
        if axis == 10:
            return [j for j in reversed(self.siblings(i)) if j < i]
        return self.attributes[i]


class Evaluator:
    """pairs counts context and axis pairs, contexts the contexts of steps."""

    def __init__(self, edition, table, path, literals, limit=None):
        self.tree = Tree(table, edition)
        self.rows = [path[i:i + 5] for i in range(0, len(path), 5)]
        self.values = [literal_value(b) for b in literals]
        self.limit = limit
        self.pairs = 0
        self.contexts = 0

    def select(self, start):
        return sorted(self.path(len(self.rows), start))

    def path(self, link, node):
        op, a = self.rows[link - 1][:2]
        current = {node if op == 22 else 0}
        for step in self.chain(a):
            selected = set()
            for n in current:
                selected.update(self.step(step, n))
            current = selected
        return current

    def chain(self, link):
        out = []
        while link:
            out.append(link)
            link = self.rows[link - 1][1]
        out.reverse()
        return out

    def step(self, link, node):
        _, _, last, axis, test = self.rows[link - 1]
        nodes = self.tree.axis(node, axis)
        self.charge(len(nodes))
        kept = nodes if test == 0 else [n for n in nodes if self.tree.passes(n, test, axis)]
        for p in self.chain(last):
            kept = self.keep(self.rows[p - 1][2], kept)
        return kept

    def keep(self, link, nodes):
        size = float(len(nodes))
        out = []
        for i, n in enumerate(nodes):
            position = float(i + 1)
            value = self.value(link, n, position, size)
            if value is True or (type(value) is float and value == position):
                out.append(n)
        return out

    def charge(self, pairs):
        self.pairs += pairs
        self.contexts += 1
        if self.limit is not None and self.pairs + self.contexts > self.limit:
            raise TooLong()

    def value(self, link, node, position, size):
        op, a, b = self.rows[link - 1][:3]
        if op == 1:
            return self.values[a]
        if op == 2:
            return position
        if op == 3:
            return size
        if op == 20:
            return len(self.path(a, node)) > 0
        if op == 21:
            return float(len(self.path(a, node)))
        x = self.value(a, node, position, size)
        if op == 9:
            return -x
        if op == 18:
            return not x
        if op == 19:
            return x == x and x != 0
        if op == 16:
            return x and self.value(b, node, position, size)
        if op == 17:
            return x or self.value(b, node, position, size)
        return ARITHMETIC[op](x, self.value(b, node, position, size))
