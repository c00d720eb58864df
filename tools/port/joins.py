#!/usr/bin/env python3
"""Turns `⊎_elim` of two arms at a branch, as a walk had it, to `elim` with the arms' names of today.

usage: python3 tools/port/joins.py FILE STEP VARIABLES     as crates/marks/proofs/list_marks/Answers.antt if-marks-y list,m

STEP is the step where the branches join; VARIABLES are those that a branch may change, in the order of the walk.
"""
import re
import sys


def closing(text, at):
    """The index of the bracket that closes the one at an index."""
    depth = 0
    for k in range(at, len(text)):
        if text[k] in "([{":
            depth += 1
        elif text[k] in ")]}":
            depth -= 1
            if depth == 0:
                return k
    raise SystemExit("a bracket that nothing closes")


def arm(text, at, step, variables):
    """The next arm `(λ w. ..)`, with the names of today, and the index of its end."""
    begin = text.index("(λ w.", at)
    end = closing(text, begin)
    inner = text[begin + len("(λ w."):end].strip()
    inner = inner.replace("w.0.taken", f"w.{step}.true").replace("w.0.left", f"w.{step}.false")
    for n, v in enumerate(variables):
        inner = re.sub(rf"\bw\.{n + 1}\b", f"w.{v}-is", inner)
    return inner, end


def main(path, step, variables):
    with open(path, encoding="utf-8") as it:
        text = it.read()
    name = step[len("if-"):]
    while (begin := text.find("⊎_elim", text.index("Goals as goal"))) >= 0:
        first, end = arm(text, begin, step, variables)
        second, end = arm(text, end, step, variables)
        branch = re.match(rf"\s*c\.{re.escape(step)}\.branch", text[end + 1:])
        text = text[:begin] + f"elim c.{step}.branch [ then-{name} w ↦ {first} | else-{name} w ↦ {second} ]" + text[end + 1 + branch.end():]
    goals = re.search(r"use (\S+)\.Goals as goal", text).group(1)
    if f"then-{name}" not in text.split("as goal")[0]:
        text = text.replace(f"use {goals}.Goals as goal", f"use {goals}.Goals as goal\nuse {goals}.Goals.{{then-{name}, else-{name}}}")
    with open(path, "w", encoding="utf-8") as it:
        it.write(text)


if __name__ == "__main__":
    if len(sys.argv) != 4:
        raise SystemExit(__doc__)
    main(sys.argv[1], sys.argv[2], sys.argv[3].split(","))
