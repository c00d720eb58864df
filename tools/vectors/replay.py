# Reads the vector commands and answers them with checker.py and meaning.py:
# the same reading as the program's, as a check of the files. With a slip it
# answers as a wrong program would.
# usage: replay.py <stdin file> <stdout file> [rows that the program holds] [all | limits | name of a slip]
# Prints how many answers differ from the stored ones; without a slip the exit
# code is 1 if any does.
import sys

import meaning
import places
import sheet
import slips


# What asks of the table.
OF_TABLE = ("check_table", "place", "evaluate", "view")


class Player:
    def __init__(self, check, evaluator, rows):
        self.check = check
        self.evaluator = evaluator
        self.rows = rows
        self.state = {"table": [], "path": [], "literals": []}
        self.met = None

    def line(self, words):
        """The answer to one command, or None."""
        numbers = [int(w) for w in words[1:]]
        if words[0] == "table":
            return self.hold(*numbers)
        if words[0] in self.state:
            assert numbers[0] == len(numbers) - 1
            self.state[words[0]] = numbers[1:]
            return None
        if self.met and words[0] in OF_TABLE:
            return self.met
        return getattr(self, words[0])(*numbers)

    def hold(self, count, *numbers):
        """The table, unless a limit is met; numbers that are not given are 0."""
        assert len(numbers) <= count
        self.met = sheet.limit_met(self.rows, count)
        self.state["table"] = [] if self.met else [*numbers] + [0] * (count - len(numbers))

    def check_table(self):
        return "%d %d" % self.check.check_table(self.state["table"])

    def check_path(self):
        return "%d %d" % self.check.check_path(self.state["path"], self.state["literals"])

    def evaluate(self, edition, start, room):
        inputs = [edition] + [self.state[k] for k in ("table", "path", "literals")]
        refused = self.check.refuse_evaluate(*inputs, start)
        if refused is not None:
            return "%d %d" % refused
        if self.evaluator is None:
            return "runs"
        nodes = self.evaluator(*inputs).select(start)
        if len(nodes) > room:
            return "8 %d" % len(nodes)
        return sheet.answer(0, len(nodes), nodes)

    def turn(self, room):
        return sheet.answer(*self.check.turn(self.state["path"], self.state["literals"], room))

    def place(self, axis, x, y):
        tree = meaning.Tree if self.evaluator is None else lambda table: self.evaluator(2, table, [], []).tree
        return "%d" % places.place(self.check.check_table, self.state["table"], axis, x, y, tree)

    def view(self, node, count, *entries):
        assert count == len(entries)
        part = self.check.view(self.state["table"], list(entries), node)
        return "empty" if part is None else sheet.answer(*part)


def answers(commands, rows, check, evaluator):
    player = Player(check, evaluator, rows)
    out = []
    for line in commands:
        try:
            answer = player.line(line.split())
        except (RecursionError, IndexError, TypeError, meaning.TooLong):
            answer = "fails"
        if answer is not None:
            out.append(answer)
    return out


def differing(commands, expected, rows, check, evaluator):
    got = answers(commands, rows, check, evaluator)
    assert len(got) == len(expected)
    return sum(not same(x, y) for x, y in zip(got, expected))


def same(got, expected):
    """A wrong checker is tried without evaluating: it only says what runs."""
    return got == expected or (got == "runs" and expected.split()[0] in ("0", "8"))


def read(name):
    with open(name) as source:
        return source.read().splitlines()


def main(commands, expected, rows=sheet.RATTLE_ROWS, slip=None):
    sys.setrecursionlimit(10000)
    if slip is None:
        wrong = differing(commands, expected, rows, slips.checker_copy(), meaning.Evaluator)
        print("%d answers, %d differ" % (len(expected), wrong))
        return 1 if wrong else 0
    for name in slips.names(slip):
        wrong = differing(commands, expected, rows, *slips.make(name))
        print("%-34s %6d" % (name, wrong), flush=True)
    return 0


def options(words):
    """The rows held, if they are given, and the slip."""
    given = dict(rows=int(words.pop(0))) if words and words[0].isdigit() else {}
    return dict(given, slip=words[0]) if words else given


if __name__ == "__main__":
    sys.exit(main(read(sys.argv[1]), read(sys.argv[2]), **options(sys.argv[3:])))
