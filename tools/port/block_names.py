#!/usr/bin/env python3
"""Turns the names that snake_names.py does not see: those inside `mutual` blocks, and of parameters of a `module _` block.

usage: python3 tools/port/block_names.py     at the top of the repository, once, after snake_names.py

A name stays in a file that has its new spelling already.
"""
import os
import re

NAMES = """advanced-ends advanced-refused behind-left by-arity by-test cut-behind from-plain is-around joinedTree kind-at kind-opened mode-opened
not-pair not-unknown of-operand operand-depth operandSort operandTree operator-deep operator-fills operator-loose operator-paths operator-read
operator-row outer-inside outer-small pairs-same ready-holds run-next same-level same-paths-in same-values second-filtered second-select
second-value standing-closes standing-leaves standing-parts stepping-on surveyed-around trail-next unknown-code untrue-is wanted-after""".split()
WORD = re.compile(r"[^\s(){}.,;«»⌜⌝`\"|\[\]]+")


def snake(name):
    return re.sub(r"(?<=[a-z0-9])([A-Z])", lambda m: "_" + m.group(1).lower(), name).replace("-", "_")


def main():
    new = {n: snake(n) for n in NAMES}
    for folder, dirs, files in os.walk("crates"):
        dirs[:] = [d for d in dirs if d != "out"]
        for f in files:
            if not f.endswith(".antt"):
                continue
            path = os.path.join(folder, f)
            with open(path, encoding="utf-8") as it:
                text = it.read()
            there = set(WORD.findall(re.sub(r"--.*", "", text)))
            turned = WORD.sub(lambda m: m.group(0) if new.get(m.group(0)) in there else new.get(m.group(0), m.group(0)), text)
            if turned != text:
                with open(path, "w", encoding="utf-8") as it:
                    it.write(turned)


if __name__ == "__main__":
    main()
