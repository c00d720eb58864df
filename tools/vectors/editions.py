# W-210: edition 1, in which `*` matches any node. Which paths are asked in
# edition 1 behind their cases of edition 2, a `*` on every axis and names in
# both, and refusals of what is no edition.
import checker
import damage
import paths
import selection
from examples import MIXED, absolute, exists, number, relative
from paths import Row

# Scans of a whole-table evaluator that a case of edition 1 may take.
MOST_SCANS = 5000000


def tests_of(path):
    return [path[i + 4] for i in range(0, len(path), 5) if path[i] == 24]


def has_star(path):
    return 1 in tests_of(path)


def has_name(path):
    return any(test > 16 for test in tests_of(path))


def case_of(edition, case, start):
    """A case's path in an edition from a node, or None where it runs long."""
    inputs = case["table"], case["path"], case["literals"]
    nodes, scans = selection.guess(edition, *inputs, start, 200000)
    if nodes is None or scans > MOST_SCANS:
        return None
    return dict(case, edition=edition, start=start, guess=nodes, scans=scans)


def differing(case, start):
    """The case of edition 1 from a node, or None where edition 2 selects the same."""
    first, second = case_of(1, case, start), case_of(2, case, start)
    return first if first and second and first["guess"] != second["guess"] else None


def elsewhere(rng, case):
    """The case of edition 1 from another node where the editions differ, out of a few random ones."""
    rows = len(case["table"]) // 4
    if case["path"][-5] == 23 or rows > 500:
        return None
    starts = [rng.below(rows) for _ in range(6)]
    found = (differing(case, start) for start in starts if start != case["start"])
    return next((first for first in found if first), None)


def in_first(rng, case):
    """The cases of edition 1 with a case's path: from its node if the editions
    differ there, or now and then, and from another one where they do."""
    start = case["start"]
    if has_star(case["path"]):
        here = differing(case, start) or (case_of(1, case, start) if rng.chance(20) else None)
        found = [here, elsewhere(rng, case)]
    else:
        found = [case_of(1, case, start)] if rng.chance(6 if has_name(case["path"]) else 1) else []
    return [first for first in found if first]


# ---- a `*` on every axis, and names, in both editions ----

def in_both(rng, top, starts):
    path, literals = paths.write_path(rng, top, rng.chance(50))
    case = dict(name="editions", table=MIXED, path=path, literals=literals)
    return [case_of(edition, case, start) for start in starts for edition in (2, 1)]


def inner_tops(rng, axis):
    """Positions on an axis, and truths and counts of paths on it, also from attributes."""
    count = Row(21, relative((axis, 1)))
    other = rng.below(12)
    return [
        absolute((5, 0), (axis, 1, number(2.0))),
        absolute((5, 0), (axis, 1, Row(3))),
        absolute((5, 0, exists((axis, 1)))),
        absolute((5, 0), (11, 1, exists((axis, 1)))),
        absolute((5, 0, Row(10, count, number(2.0)))),
        absolute((5, 0, exists((axis, 0), (other, 1)))),
        absolute((5, 1, Row(18, exists((axis, 1), (other, 1))))),
        absolute((5, 1), (axis, 1, exists((other, 1, number(1.0))))),
    ]


def name_tops():
    """Names on the axes on which instructions and attributes lie themselves."""
    for axis in (0, 5, 6):
        for test in (17, 18):
            yield absolute((5, 0), (axis, test))
            yield absolute((5, 0), (11, 0), (axis, test))


def systematic_cases(rng):
    """From every node, and in paths from the root."""
    out = []
    for axis in range(12):
        out += in_both(rng, relative((axis, 1)), range(len(MIXED) // 4))
        for top in inner_tops(rng, axis):
            out += in_both(rng, top, [0])
    for top in name_tops():
        out += in_both(rng, top, [0])
    return out


# ---- no edition ----

def refused_inputs():
    """table, path, literals, start, room: good ones, each number's, and all at once."""
    table, path = selection.REFERENCE, damage.GOOD_PATH
    yield table, path, [], 1, 2
    yield table, path, [], 1, 1
    yield table, path, [], 1, 0
    yield table, path, [], 10, 2
    yield table, damage.straight_nest(9), [], 1, 2
    yield table, damage.BAD_PATH, [], 1, 2
    yield table, path, [damage.NAN_BITS[0]], 1, 2
    yield table, path[:9], [], 1, 2
    yield table[:4] + [9] + table[5:], path, [], 1, 2
    yield table[:39], path, [], 1, 2
    yield [], [], [damage.NAN_BITS[0]], damage.TOP, 0


def add_refusals(sheet):
    for *inputs, room in refused_inputs():
        for edition in (0, 3, damage.TOP, 1):
            refused = checker.refuse_evaluate(edition, *inputs)
            if refused is not None:
                sheet.evaluate("editions", edition, *inputs, room, *refused, [])
