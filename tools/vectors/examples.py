# Cases with answers known beforehand: R1 to R13 of document 01, whose answers
# that document gives, those of document 02's readings, and the minimal examples
# of docs/ENGINES.md, which the Recommendation decides.
import meaning
import paths
import selection
from paths import Row
from rng import Rng


def steps(*parts):
    """Each part is (axis, test, predicates...)."""
    last = None
    for axis, test, *predicates in parts:
        inner = None
        for p in predicates:
            inner = Row(25, inner, p)
        last = Row(24, last, inner, axis, test)
    return last


def relative(*parts):
    return Row(22, steps(*parts))


def absolute(*parts):
    return Row(23, steps(*parts) if parts else None)


def number(value):
    return Row(1, value)


def exists(*parts):
    return Row(20, relative(*parts))


def later():
    return Row(14, Row(2), number(1.0))


def undefined():
    return Row(7, number(0.0), number(0.0))


def reference_list():
    half = Row(14, Row(2), Row(6, Row(3), number(0.5)))
    two = Row(10, Row(21, relative((1, 20))), number(2.0))
    return [
        ("R1", 5, absolute(), [0]),
        ("R2", 8, relative((8, 0)), [2, 3, 4, 5, 7]),
        ("R3", 4, relative((7, 0)), [5, 6, 7, 8, 9]),
        ("R4", 9, relative((4, 0, number(3.0))), [0]),
        ("R5", 9, relative((8, 0, number(1.0))), [8]),
        ("R6", 0, absolute((3, 1), (3, 1, half)), [4, 5, 6, 7, 8, 9]),
        ("R7", 0, absolute((3, 20, number(1.0))), [5]),
        ("R8", 0, absolute((5, 0), (1, 20, number(1.0))), [5, 8]),
        ("R9", 6, relative((1, 1, number(1.0), number(2.0))), []),
        ("R9", 6, relative((1, 1, later(), number(1.0))), [8]),
        ("R9", 6, relative((1, 1, later(), Row(3))), [9]),
        ("R10", 1, relative((1, 1, two)), [6]),
        ("R11", 1, relative((1, 1, Row(11, undefined(), undefined()))), [2, 6]),
        ("R12", 1, relative((2, 1)), []),
        ("R12", 1, relative((2, 0)), [0]),
        ("R13", 1, relative((1, 18), (1, 20)), [5, 8, 9]),
        ("R13", 8, relative((0, 20), (2, 18), (2, 0)), [1]),
        ("[1.5]", 1, relative((1, 1, number(1.5))), []),
    ]


def attribute_list():
    """Runs on the first table with attributes, of document 02's readings."""
    empty = [("W-209", 2, relative((axis, 0)), []) for axis in (1, 3, 9, 10, 11)]
    return empty + [
        ("W-209", 2, relative((0, 0)), [2]),
        ("W-209", 2, relative((0, 1)), []),
        ("W-209", 2, relative((0, 17)), []),
        ("W-209", 2, relative((6, 1)), [1]),
        ("W-209", 2, relative((6, 0)), [0, 1, 2]),
        ("W-209", 2, relative((5, 0)), [2]),
        ("W-209", 2, relative((2, 1)), [1]),
        ("W-209", 5, relative((8, 0)), []),
        ("W-209", 1, relative((11, 1, number(2.0))), [3]),
        ("W-209", 1, relative((11, 18, number(1.0))), [3]),
        ("W-209", 1, relative((11, 2)), []),
        ("W-209", 1, relative((1, 0)), [4, 7, 8]),
        ("W-209", 1, relative((1, 0, number(1.0))), [4]),
        ("W-209", 2, relative((2, 17)), [1]),
        ("W-209", 1, relative((0, 17), (1, 0)), [4, 7, 8]),
    ]


# <e1><e2/></e1><!--c-->
BEHIND = [0, 0, 0, 3, 1, 1, 0, 1, 1, 2, 1, 0, 3, 0, 0, 0]
# <e1><e2/></e1><?p1?><!--c-->
TWO_BEHIND = [0, 0, 0, 4, 1, 1, 0, 1, 1, 2, 1, 0, 4, 1, 0, 0, 3, 0, 0, 0]
# <e1 e1="v"><e2/></e1>
BEFORE = [0, 0, 0, 3, 1, 1, 0, 2, 5, 1, 1, 0, 1, 2, 1, 0]
# <e1 e1="v" e2="v"><e2 e1="v"/><!--c--></e1><?p1?>
MORE_BEFORE = [0, 0, 0, 7, 1, 1, 0, 5, 5, 1, 1, 0, 5, 2, 1, 0, 1, 2, 1, 1, 5, 1, 4, 0, 3, 0, 1, 0, 4, 1, 0, 0]


# <?p1?><e1 e1="v">t<!--c--><?p2?><e2 e2="v">t</e2></e1><!--c-->
MIXED = [0, 0, 0, 10, 4, 1, 0, 0, 1, 1, 0, 7, 5, 1, 2, 0, 2, 0, 2, 0, 3, 0, 2, 0, 4, 2, 2, 0,
         1, 2, 2, 2, 5, 2, 7, 0, 2, 0, 7, 0, 3, 0, 0, 0]


def edition_list():
    """W-210: the nodes in edition 1 and those in edition 2."""
    one = Row(10, Row(21, relative((1, 1))), number(1.0))
    inner = exists((1, 0, exists((1, 1), (0, 1))))
    return [
        (selection.REFERENCE, 1, relative((2, 1)), [0], []),
        (selection.REFERENCE, 1, relative((1, 1)), [2, 6], [2, 6]),
        (selection.WITH_ATTRIBUTES, 2, relative((0, 1)), [2], []),
        (selection.WITH_ATTRIBUTES, 2, relative((6, 1)), [0, 1, 2], [1]),
        (selection.WITH_ATTRIBUTES, 2, relative((5, 1)), [2], []),
        (selection.WITH_ATTRIBUTES, 1, relative((11, 1)), [2, 3], [2, 3]),
        (selection.WITH_ATTRIBUTES, 2, relative((0, 17)), [], []),
        (MIXED, 2, relative((1, 1, number(1.0))), [4], [7]),
        (MIXED, 2, relative((1, 1)), [4, 5, 6, 7], [7]),
        (MIXED, 2, relative((1, 1, Row(3))), [7], [7]),
        (MIXED, 2, relative((11, 1)), [3], [3]),
        (MIXED, 2, relative((11, 17)), [3], [3]),
        (MIXED, 2, relative((1, 18)), [7], [7]),
        (MIXED, 0, relative((1, 17)), [2], [2]),
        (MIXED, 6, relative((0, 18)), [], []),
        (MIXED, 6, relative((0, 1)), [6], []),
        (MIXED, 0, relative((3, 1)), [1, 2, 4, 5, 6, 7, 9, 10], [2, 7]),
        (MIXED, 9, absolute((0, 1)), [0], []),
        (MIXED, 9, relative((4, 1, number(3.0))), [0], []),
        (MIXED, 7, relative((8, 1, number(1.0))), [6], []),
        (MIXED, 3, relative((0, 1), (2, 1)), [2], []),
        (MIXED, 2, relative((1, 0, exists((0, 1)))), [4, 5, 6, 7], [7]),
        (MIXED, 2, relative((1, 18, exists((1, 1)))), [7], []),
        (MIXED, 0, absolute((5, 0, one)), [7], [0, 2]),
        (MIXED, 0, absolute((5, 0, inner)), [0, 2], [0]),
    ]


def settled_list():
    three = Row(10, Row(21, relative((7, 0))), number(3.0))
    return [
        (BEHIND, 3, relative((8, 0)), [1, 2]),
        (BEHIND, 3, relative((8, 1, Row(3))), [1]),
        (BEHIND, 0, absolute((1, 3), (8, 17)), [1]),
        (TWO_BEHIND, 4, relative((8, 0, number(3.0))), [1]),
        (BEFORE, 2, relative((7, 0)), [3]),
        (BEFORE, 2, relative((7, 18, number(1.0))), [3]),
        (BEFORE, 1, relative((0, 0, exists((11, 0), (7, 0)))), [1]),
        (MORE_BEFORE, 2, relative((7, 0)), [4, 6, 7]),
        (MORE_BEFORE, 3, relative((7, 0, Row(5, Row(3), number(1.0)))), [6]),
        (MORE_BEFORE, 3, relative((7, 0, number(2.0))), [6]),
        (MORE_BEFORE, 0, absolute((3, 1), (11, 1), (7, 1)), [4]),
        (MORE_BEFORE, 0, absolute((3, 1), (11, 0, exists((7, 18)))), [2, 3]),
        (MORE_BEFORE, 0, absolute((3, 1), (11, 0, exists((7, 3)))), [2, 3, 5]),
        (MORE_BEFORE, 0, absolute((3, 1), (11, 0, Row(18, exists((7, 1))))), [5]),
        (MORE_BEFORE, 0, absolute((3, 1), (11, 0, three)), [2, 3]),
        (MORE_BEFORE, 0, absolute((3, 1, exists((11, 18), (7, 18)))), [1]),
        (selection.WITH_ATTRIBUTES, 2, relative((7, 0)), [4, 6, 7, 8]),
        (selection.ELEVEN, 4, relative((7, 0)), [5, 6, 8, 9, 10]),
    ]


def turning_list():
    """Paths of document 02's readings, each with the room, and its number and place."""
    return [
        (relative((11, 18), (1, 17, number(1.0))), 1300, 9, 2),
        (relative((11, 18, number(1.0))), 1300, 9, 1),
        (absolute((11, 18)), 1300, 13, 1),
        (relative((11, 18)), 0, 13, 1),
        (relative((0, 0), (11, 1), (2, 1), (11, 1)), 1300, 13, 2),
        (absolute((11, 18, number(1.0))), 0, 9, 1),
        (absolute((1, 18), (11, 0)), 0, 13, 2),
    ]


# child::1[attribute::*[1]] up to its first predicate; turned it has the same.
HELD = [1, 0, 0, 0, 0, 25, 0, 1, 0, 0, 24, 0, 2, 11, 1, 22, 3, 0, 0, 0, 20, 4, 0, 0, 0, 25, 0, 5, 0, 0]
HOLDER = HELD + [24, 0, 6, 1, 17, 22, 7, 0, 0, 0]
HOLDER_TURNED = HELD + [24, 0, 6, 0, 17, 24, 7, 0, 2, 0, 22, 8, 0, 0, 0]


def turning_cases():
    """path, literals, room, the answer."""
    rng = Rng(3)
    for top, room, number_given, place in turning_list():
        path, literals = paths.write_path(rng, top, False)
        yield path, literals, room, (number_given, place, [])
    yield HOLDER, [meaning.literal_bits(1.0)], 45, (0, 9, HOLDER_TURNED)


def make_case(name, table, start, top, expected, rng):
    path, literals = paths.write_path(rng, top, False)
    case = dict(name=name, table=table, path=path, literals=literals, start=start)
    return in_edition(2, case, expected)


def in_edition(edition, case, expected):
    inputs = case["table"], case["path"], case["literals"]
    nodes = meaning.Evaluator(edition, *inputs).select(case["start"])
    return dict(case, edition=edition, guess=nodes, expected=expected)


def reference_cases():
    rng = Rng(1)
    lists = [(selection.REFERENCE, reference_list()), (selection.WITH_ATTRIBUTES, attribute_list())]
    return [make_case(name, table, start, top, expected, rng)
            for table, cases in lists for name, start, top, expected in cases]


def edition_cases():
    """Each in edition 2 and in edition 1."""
    rng = Rng(4)
    out = []
    for table, start, top, first, second in edition_list():
        case = make_case("W-210", table, start, top, second, rng)
        out += [case, in_edition(1, case, first)]
    return out


def settled_cases():
    rng = Rng(2)
    return [make_case("settled", table, start, top, expected, rng)
            for table, start, top, expected in settled_list()]
