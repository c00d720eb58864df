# The XPath text of a path given as rows. Literals are written so that every
# engine reads exactly the double that is meant: short ones in decimal, others
# as an exact product or quotient of whole numbers. A name k is ek on every axis,
# as elements and attributes are named in the documents. The `*` of edition 1 is
# node(), but on the attribute axis, where `*` is any attribute in both editions.
from fractions import Fraction

import meaning

AXES = ["self", "child", "parent", "descendant", "ancestor", "descendant-or-self",
        "ancestor-or-self", "following", "preceding", "following-sibling",
        "preceding-sibling", "attribute"]
TESTS = ["node()", "*", "text()", "comment()", "processing-instruction()"]
SIGNS = {4: "+", 5: "-", 6: "*", 7: "div", 8: "mod", 10: "=", 11: "!=", 12: "<",
         13: "<=", 14: ">", 15: ">=", 16: "and", 17: "or"}


def power_factors(exponent):
    """2 to the exponent as factors of at most 2 to the 30."""
    out = []
    while exponent > 0:
        part = min(exponent, 30)
        out.append(str(1 << part))
        exponent -= part
    return out


def literal_text(value):
    exact = Fraction(value)
    if exact.denominator == 1 and exact < 1 << 53:
        return str(int(value))
    if exact.denominator <= 1024 and exact < 1000:
        return repr(value)
    if exact.denominator > 1:
        factors = [str(exact.numerator)] + power_factors(exact.denominator.bit_length() - 1)
        return "(" + " div ".join(factors) + ")"
    shift = exact.numerator.bit_length() - 53
    factors = [str(exact.numerator >> shift)] + power_factors(shift)
    return "(" + " * ".join(factors) + ")"


class Writer:
    def __init__(self, edition, path, literals):
        self.edition = edition
        self.rows = [path[i:i + 5] for i in range(0, len(path), 5)]
        self.values = [meaning.literal_value(b) for b in literals]

    def whole(self):
        return self.path(len(self.rows))

    def chain(self, link):
        out = []
        while link:
            out.append(link)
            link = self.rows[link - 1][1]
        return reversed(out)

    def path(self, link):
        op, a = self.rows[link - 1][:2]
        steps = "/".join(self.step(s) for s in self.chain(a))
        return ("/" if op == 23 else "") + steps

    def step(self, link):
        _, _, last, axis, test = self.rows[link - 1]
        predicates = "".join(self.predicate(p) for p in self.chain(last))
        return AXES[axis] + "::" + self.test(test, axis) + predicates

    def test(self, test, axis):
        if test == 1 and self.edition == 1 and axis != meaning.ATTRIBUTE_AXIS:
            return "node()"
        return TESTS[test] if test <= 4 else "e%d" % (test - 16)

    def predicate(self, link):
        inner = self.rows[link - 1][2]
        op, a = self.rows[inner - 1][:2]
        if op == 20 and link % 2 == 0:
            return "[" + self.path(a) + "]"
        return "[" + self.value(inner) + "]"

    def value(self, link):
        op, a, b = self.rows[link - 1][:3]
        if op == 1:
            return literal_text(self.values[a])
        if op == 2:
            return "position()"
        if op == 3:
            return "last()"
        if op == 9:
            return "(-" + self.value(a) + ")"
        if op == 18:
            return "not(" + self.value(a) + ")"
        if op == 19:
            return "boolean(" + self.value(a) + ")"
        if op == 20:
            return "boolean(" + self.path(a) + ")"
        if op == 21:
            return "count(" + self.path(a) + ")"
        return "(" + self.value(a) + " " + SIGNS[op] + " " + self.value(b) + ")"


def path_text(edition, path, literals):
    return Writer(edition, path, literals).whole()
