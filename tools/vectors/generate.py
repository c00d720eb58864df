# Makes crates/vectors/stdin and crates/vectors/stdout from a fixed seed.
# usage: generate.py <folder with the engine programs> <output folder>
import sys

import attributes
import checker
import damage
import editions
import engines
import examples
import known
import limits
import paths
import places
import selection
import slips
import tables
import text
import wellformed
from rng import Rng
from sheet import Sheet

SEED = 20250101
# Remembers the last table's result.
CHECK = slips.checker_copy()


def ask_cases(build, cases):
    """Both engines' answers for each case."""
    questions = []
    table = None
    for case in cases:
        if case["table"] != table:
            table = case["table"]
            assert CHECK.check_table(table)[0] == 0
            questions.append(engines.document_question(table))
        assert checker.check_path(case["path"], case["literals"])[0] == 0
        case["text"] = text.path_text(case["edition"], case["path"], case["literals"])
        questions.append(engines.eval_question(case["start"], case["text"]))
    first, second = engines.ask_both(build, questions)
    assert len(first) == len(second) == len(cases)
    for case, p, l in zip(cases, first, second):
        case["pugixml"] = engines.read_answer(p)
        case["libxml2"] = engines.read_answer(l)


def sort_out(cases, log):
    """The cases on which the engines agree; the others go to the log."""
    kept = []
    for case in cases:
        if agreed(case):
            kept.append(case)
            continue
        case["cause"] = known.cause(case)
        log.append("%(cause)s: %(name)s in edition %(edition)d from %(start)d: %(text)s\n  pugixml %(pugixml)s\n"
                   "  libxml2 %(libxml2)s\n  third   %(guess)s\n" % case)
        if case["cause"] is None:
            sys.exit("a disagreement that docs/ENGINES.md does not explain:\n" + log[-1])
    return kept


def choose_room(rng, count):
    choice = rng.below(20)
    if choice < 3 and count > 0:
        return count - 1
    if choice == 3:
        return rng.below(count + 1)
    if choice < 8:
        return min(4096, count + rng.between(1, 30))
    return count


def inputs_of(case):
    return [case[k] for k in ("edition", "table", "path", "literals", "start")]


def write_case(rng, sheet, case, sort, choose=choose_room):
    nodes = case["pugixml"]
    room = len(nodes) + 2 if "expected" in case else choose(rng, len(nodes))
    where = (*inputs_of(case), room)
    if len(nodes) > room:
        sheet.evaluate(sort, *where, 8, len(nodes), [])
    else:
        sheet.evaluate(sort, *where, 0, len(nodes), nodes)


# ---- edition 1 ----

def ask_first(rng, build, cases, log):
    """What is asked in edition 1 behind each case of edition 2; gives it all back."""
    for case in cases:
        case["first"] = editions.in_first(rng, case)
    asked = [first for case in cases for first in case["first"]]
    ask_cases(build, asked)
    sort_out(asked, log)
    return asked


def write_first(rng, sheet, case, sort, choose=choose_room):
    for first in case["first"]:
        if agreed(first):
            write_case(rng, sheet, first, sort, choose)


def write_no_edition(rng, sheet, case):
    """A good case in no edition, with room and without."""
    edition, inputs = damage.no_edition(rng), inputs_of(case)[1:]
    room = rng.pick([0, 1, len(case["guess"])])
    sheet.evaluate("editions", edition, *inputs, room, *checker.refuse_evaluate(edition, *inputs), [])


def edition_cases(rng, build, sheet, log):
    cases = examples.edition_cases()
    ask_cases(build, cases)
    for case in cases:
        assert case["pugixml"] == case["libxml2"] == case["guess"] == case["expected"], case["text"]
        write_case(rng, sheet, case, "document")
    cases = editions.systematic_cases(rng)
    ask_cases(build, cases)
    for case in sort_out(cases, log):
        write_case(rng, sheet, case, "editions")
    editions.add_refusals(sheet)


# ---- turned paths, held against the engines ----

def all_starts(edition, name, table, path, literals):
    """Every node but attributes: turning speaks of pairs of other nodes."""
    starts = [i for i in range(len(table) // 4) if table[4 * i] != tables.ATTRIBUTE]
    return from_starts(edition, name, table, path, literals, starts, 30000)


def from_starts(edition, name, table, path, literals, starts, limit):
    """A path's case from each of these nodes, or None where one runs long."""
    cases = []
    for start in starts:
        nodes, _ = selection.guess(edition, table, path, literals, start, limit)
        if nodes is None:
            return None
        cases.append(dict(name=name, edition=edition, table=table, path=path, literals=literals,
                          start=start, guess=nodes))
    return cases


def turning_pair(rng, table, names):
    """The cases of a path and of its turned path, or None."""
    top = damage.quiet_top(rng, names)
    path, literals = paths.write_path(rng, top, rng.chance(60))
    room = 5 * (len(path) // 5 + 1) + rng.pick([0, 0, 1, 7])
    if checker.check_path(path, literals)[0] != 0:
        return None
    number, place, turned = checker.turn(path, literals, room)
    assert number == 0 and checker.check_path(turned, literals) == (0, place)
    there, back = both_ways(2, table, path, turned, literals)
    if there is None or back is None or not any(c["guess"] for c in there):
        return None
    pair = dict(path=path, literals=literals, room=room, there=there, back=back, first=None)
    if editions.has_star(path):
        there, back = both_ways(1, table, path, turned, literals)
        pair["first"] = dict(there=there, back=back) if there and back else None
    return pair


def both_ways(edition, table, path, turned, literals):
    return all_starts(edition, "turning", table, path, literals), all_starts(edition, "turned", table, turned, literals)


def engine_relation(cases, engine):
    return {(case["start"], n) for case in cases for n in case[engine]}


def turns_round(pair):
    """Whether each engine selects x from y exactly when y from x."""
    for engine in ("pugixml", "libxml2"):
        there = engine_relation(pair["there"], engine)
        back = engine_relation(pair["back"], engine)
        if not relation_turns(there, back):
            return False
    return True


def agreed(case):
    return case["pugixml"] == case["libxml2"] == case["guess"]


def relation_turns(there, back):
    return there == {(y, x) for x, y in back}


def explained_pair(pair):
    """pugixml bears the turning out; libxml2 does, but for its known errors."""
    there, back = (engine_relation(pair[k], "pugixml") for k in ("there", "back"))
    cases = pair["there"] + pair["back"]
    return relation_turns(there, back) and all(agreed(c) or known.cause(c) for c in cases)


def pair_sound(pair, log):
    """Whether both engines bear the turning out; what known errors don't explain ends it."""
    if not explained_pair(pair):
        sys.exit("a disagreement on turning: " + pair["there"][0]["text"])
    if turns_round(pair):
        return True
    causes = {known.cause(c) for c in pair["there"] + pair["back"] if not agreed(c)}
    log.append("%s: turning in edition %d: %s\n"
               % (" ".join(sorted(causes)), pair["there"][0]["edition"], pair["there"][0]["text"]))
    return False


def ask_pairs(build, pairs, edition):
    asked = [c for pair in pairs for c in pair["there"] + pair["back"]]
    ask_cases(build, asked)
    print("turning pairs in edition %d %d, asked with %d questions" % (edition, len(pairs), len(asked)))


def most_selected(cases):
    return max(cases, key=lambda c: len(c["guess"]))


def write_turned_first(rng, sheet, cases, others):
    """The case of edition 1 that selects most, if edition 2 selects something else there, or now and then."""
    best = most_selected(cases)
    same = any(c["start"] == best["start"] and c["guess"] == best["guess"] for c in others)
    if agreed(best) and (not same or rng.chance(30)):
        write_case(rng, sheet, best, "turning")


def turning_cases(rng, first_rng, build, sheet, log, count):
    pairs = []
    while len(pairs) < count:
        share = tables.some_share(rng)
        table = tables.make_table(rng, rng.pick(selection.SHAPES), rng.between(4, 22), [1, 2, 3], 25, share)
        for _ in range(4):
            pair = turning_pair(rng, table, [1, 2, 3])
            if pair is not None:
                pairs.append(pair)
    ask_pairs(build, pairs, 2)
    ask_pairs(build, [pair["first"] for pair in pairs if pair["first"]], 1)
    for pair in pairs:
        sound, first = pair_sound(pair, log), pair["first"]
        if first and not pair_sound(first, log):
            first = None
        if not sound:
            continue
        result = checker.turn(pair["path"], pair["literals"], pair["room"])
        sheet.turn("turning", pair["path"], pair["literals"], pair["room"], *result)
        for way in ("there", "back"):
            best = most_selected(pair[way])
            if agreed(best):
                write_case(rng, sheet, best, "turning")
            if first:
                write_turned_first(first_rng, sheet, first[way], pair[way])


# ---- places, held against the engines ----

def place_cases(rng, build, sheet, log):
    cases = places.sound_cases(rng)
    ask_cases(build, cases)
    for case in sort_out(cases, log):
        sheet.place("engines", case["table"], case["axis"], case["start"], case["node"], case["place"])
    for table, axis, x, y, place in places.EXAMPLES:
        assert places.place(checker.check_table, table, axis, x, y) == place
        sheet.place("document", table, axis, x, y, place)
    places.add_refused(rng, sheet)
    places.add_misfits(rng, sheet)


# ---- the document's own examples ----

def example_cases(rng, build, sheet):
    cases = examples.reference_cases()
    ask_cases(build, cases)
    for case in cases:
        assert case["pugixml"] == case["libxml2"] == case["guess"] == case["expected"], case["name"]
        write_case(rng, sheet, case, "document")
    settled = examples.settled_cases()
    ask_cases(build, settled)
    for case in settled:
        assert case["pugixml"] == case["guess"] == case["expected"], case["text"]
        write_case(rng, sheet, case, "settled")
        if case["libxml2"] == case["expected"]:
            print("this libxml2 is right on:", case["text"])
    for path, literals, room, expected in examples.turning_cases():
        assert checker.turn(path, literals, room) == expected
        sheet.turn("document", path, literals, room, *expected)


def write_lines(name, lines):
    with open(name, "w", newline="\n") as out:
        out.write("\n".join(lines) + "\n")


def report(sheet, chosen, kept, scans):
    print("evaluation cases asked %d, kept %d" % (len(chosen), len(kept)))
    print("whole-table row scans of the random cases: %d million" % (scans // 1000000))
    print_counts(sheet)


def print_counts(sheet):
    for key in sorted(sheet.counts):
        print("%-10s %-12s %-6s %6d" % (key + (sheet.counts[key],)))
    print("commands %d" % len(sheet.answers))


def main(build, folder):
    sys.setrecursionlimit(10000)
    sheet, log = Sheet(), []
    example_cases(Rng(SEED), build, sheet)
    chooser = selection.choose_cases(Rng(SEED + 12))
    ask_cases(build, chooser.cases)
    kept = sort_out(chooser.cases, log)
    rng, first_rng = Rng(SEED + 2), Rng(SEED + 14)
    asked = ask_first(first_rng, build, kept, log)
    print("asked in edition 1 too %d, row scans %d million" % (len(asked), sum(c["scans"] for c in asked) // 1000000))
    for case in kept:
        write_case(rng, sheet, case, "engines")
        write_first(first_rng, sheet, case, "engines")
        if first_rng.chance(3):
            write_no_edition(first_rng, sheet, case)
    turning_cases(Rng(SEED + 3), Rng(SEED + 15), build, sheet, log, 160)
    damage.add_damage(Rng(SEED + 4), sheet)
    place_cases(Rng(SEED + 5), build, sheet, log)
    wellformed.add_cases(Rng(SEED + 6), sheet)
    attributes.add_cases(Rng(SEED + 8), sheet)
    edition_cases(Rng(SEED + 16), build, sheet, log)
    limits.add_cases(sheet)
    write_lines(folder + "/stdin", sheet.commands)
    write_lines(folder + "/stdout", sheet.answers)
    write_lines(build + "/disagreements.txt", log)
    report(sheet, chooser.cases, kept, chooser.scans)
    print("disagreements %d, listed in %s/disagreements.txt" % (len(log), build))


if __name__ == "__main__":
    main(sys.argv[1], sys.argv[2])
