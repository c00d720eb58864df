# The two vector files: a command goes to stdin, its expected answer to stdout.
# A table, literals or path line is written only when it changes.
import checker

# The rows of a table that the program holds: the one in Rattle, and the one in C.
RATTLE_ROWS = 4096
C_ROWS = 8200


def limit_met(rows, count):
    """The answer where a program that holds so many rows is given a table of so
    many numbers, or None where it holds that."""
    if count <= 4 * rows:
        return None
    if count <= 4 * checker.MAX_ROWS:
        return "the program's limit: %d rows" % rows
    return "1 0, the library's limit: %d rows" % checker.MAX_ROWS


class Sheet:
    def __init__(self, rows=RATTLE_ROWS):
        self.rows = rows
        self.commands = []
        self.answers = []
        self.current = {}
        self.counts = {}

    def set(self, word, numbers, given=None):
        """given: how many of the numbers are written, if not all."""
        if self.current.get(word) != numbers:
            self.current[word] = numbers[:]
            self.commands.append(listing(word, numbers, given))

    def hold(self, table):
        """The limit that a table meets, or None; of such a table its count alone is written."""
        met = limit_met(self.rows, len(table))
        self.set("table", table, 0 if met else None)
        return met

    def add(self, sort, command, answer):
        self.commands.append(command)
        self.answers.append(answer)
        key = (sort, command.split()[0], answer.split()[0])
        if "limit" in answer:
            key = key[:2] + ("limit",)
        elif key[1] == "view" and key[2] != "empty":
            key = (sort, "view", "part")
        elif key[1] == "place" and key[2] != "0":
            key = (sort, "place", "there")
        elif key[1] == "evaluate" and key[2] != "14":
            key = (sort, "evaluate " + command.split()[1], key[2])
        self.counts[key] = self.counts.get(key, 0) + 1

    def check_table(self, sort, table, result):
        met = self.hold(table)
        self.add(sort, "check_table", met or "%d %d" % result)

    def check_path(self, sort, path, literals, result):
        self.set("literals", literals)
        self.set("path", path)
        self.add(sort, "check_path", "%d %d" % result)

    def evaluate(self, sort, edition, table, path, literals, start, room, number, place, written):
        met = self.hold(table)
        self.set("literals", literals)
        self.set("path", path)
        self.add(sort, "evaluate %d %d %d" % (edition, start, room), met or answer(number, place, written))

    def turn(self, sort, path, literals, room, number, place, written):
        self.set("literals", literals)
        self.set("path", path)
        self.add(sort, "turn %d" % room, answer(number, place, written))

    def place(self, sort, table, axis, x, y, place):
        met = self.hold(table)
        self.add(sort, "place %d %d %d" % (axis, x, y), met or "%d" % place)

    def view(self, sort, table, node, entries, part):
        met = self.hold(table)
        command = listing("view %d" % node, entries)
        self.add(sort, command, met or ("empty" if part is None else answer(*part)))


def listing(word, numbers, given=None):
    return " ".join([word, str(len(numbers))] + [str(v) for v in numbers[:given]])


def answer(first, second, entries):
    """The two numbers of an answer, then the entries written or handed back."""
    return " ".join(str(v) for v in [first, second] + list(entries))
