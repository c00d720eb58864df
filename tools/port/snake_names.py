#!/usr/bin/env python3
"""Brings the repository's own definitions, constructors, fields and lemmas to snake case, after the kit's port.py ran.

usage: python3 tools/port/snake_names.py            at the top of the repository, once; prints each name that was turned
       python3 tools/port/snake_names.py --list     prints the names alone and writes nothing

A name is one that a file of specs/ or a lemma file of proofs/ declares, with its capitals and dashes turned to `_`: `mostRows` is `most_rows`,
`some-from` is `some_from`. Types, modules and facts keep their capital, and names that Rattle makes of the code keep their dashes. Names are
turned in antt files, in the clauses and `ghost use` lines of .rt files, in comments there, in must-fail edits and, between back quotes, in pages.
"""
import os
import re
import sys

PLAIN = r"[^\s(){}.,;«»⌜⌝`\"|\[\]]"
WORD = re.compile(PLAIN + "+")
DECLARED = re.compile(r"^(?:(?:abbrev|unfoldable|pub|private|opaque) )*(" + PLAIN + r"+)(?: \{ℓ\})?\s*:(?![:=])")


def files(*ends):
    for top in ("crates",):
        for folder, dirs, names in os.walk(top):
            dirs[:] = sorted(d for d in dirs if d != "out")
            for n in sorted(names):
                if n.endswith(ends):
                    yield os.path.join(folder, n)


def is_walk(path):
    """A proof that walks the code: its names are of the code's parts."""
    return os.path.basename(path) == "Proof.antt" or "/Proof/" in path


def snake(name):
    name = re.sub(r"(?<=[a-z0-9])([A-Z])", lambda m: "_" + m.group(1).lower(), name)
    name = re.sub(r"(?<=[^\W_])-(?=[^\W_])", "_", name)
    return name


def is_turned(name):
    return not name[0].isupper() and name[0] not in "+-" and snake(name) != name and "◌" not in name


def lines(text):
    """Each line, without the indent of the `module _` block that it stands in."""
    block, head, indent = False, False, None
    for line in text.split("\n"):
        if line and not line[0].isspace() and not line.startswith("--"):
            block = False
        if re.match(r"\s*(pub )?module _ ", line):
            block, head, indent = True, True, None
        if block and head:
            head = not line.endswith(" where")
            continue
        if block and line.strip():
            if indent is None:
                indent = len(line) - len(line.lstrip())
            line = line[min(indent, len(line) - len(line.lstrip())):]
        yield line


def declared(text):
    """The names that an antt file declares: definitions and lemmas, constructors, fields of records."""
    inside = False
    for line in lines(text):
        if re.match(r"(pub )?(data|record) ", line):
            inside = True
            continue
        if line and not line[0].isspace():
            inside = False
        if inside and " : " in line and not line.strip().startswith("--"):
            for w in line.split(" : ")[0].split():
                if w != "pub" and WORD.fullmatch(w):
                    yield w
        elif not inside and not line.startswith("--") and DECLARED.match(line):
            yield DECLARED.match(line).group(1)


def members(text):
    """The fields of the records that an antt file declares."""
    inside = False
    for line in lines(text):
        if re.match(r"(pub )?record ", line):
            inside = True
        elif line and not line[0].isspace():
            inside = False
        if inside and " : " in line and line[0].isspace() and not line.strip().startswith("--"):
            for w in line.split(" : ")[0].split():
                if w != "pub" and WORD.fullmatch(w):
                    yield w


def module_of(path):
    crate, kind, rest = re.match(r"crates/([^/]+)/(specs|proofs)/(.*)\.antt$", path).groups()
    return f"Rattle.{crate}.{kind}." + rest.replace("/", ".")


def main(argv):
    texts = {p: open(p, encoding="utf-8").read() for p in files(".antt", ".rt", ".edit")}
    by_module, every = {}, {}
    for p, t in texts.items():
        if p.endswith(".antt") and not is_walk(p):
            own = {n: snake(n) for n in declared(t) if is_turned(n)}
            by_module[module_of(p)] = own
            every.update(own)
    both = {}
    for a in every:
        both.setdefault(snake(a), set()).add(a)
    for b, them in both.items():
        if len(them) > 1:
            for a in them:
                if "-" in a:
                    # a lemma that would have its function's name
                    every[a] = b + "_lem"

    for own in by_module.values():
        for a in own:
            own[a] = every[a]
    for p, t in texts.items():
        if p.endswith(".antt") and not is_walk(p):
            set_apart(p, t, by_module)
    for p, t in texts.items():
        if p.endswith(".antt") and not is_walk(p):
            for line in members(t):
                if line in every:
                    FIELDS[line] = every[line]
    if "--list" in argv:
        print("\n".join(f"{a} {b}" for a, b in sorted(every.items())))
        return 0
    for p, t in texts.items():
        new = turned(p, t, by_module, every)
        if not p.endswith(".edit"):
            told(p, t, new, every)
        if new != t:
            with open(p, "w", encoding="utf-8") as f:
                f.write(new)
    for folder, dirs, names in os.walk("."):
        dirs[:] = [d for d in dirs if d not in (".git", "out", "vectors", "target")]
        for n in names:
            if n.endswith(".md"):
                p = os.path.join(folder, n)
                with open(p, encoding="utf-8") as f:
                    t = f.read()
                new = re.sub(r"`([^`\n]+)`", lambda m: "`" + WORD.sub(lambda w: every.get(w.group(0), w.group(0)), m.group(1)) + "`", t)
                if new != t:
                    with open(p, "w", encoding="utf-8") as f:
                        f.write(new)
    print("\n".join(f"{a} {b}" for a, b in sorted(every.items())))
    return 0


def code(text):
    return "\n".join(re.sub(r"(^|\s)(--|//).*", "", line) for line in text.split("\n"))


def told(path, old, new, every):
    """Names that fall together in a file, by the count of their places."""
    before, after = WORD.findall(code(old)), WORD.findall(code(new))
    for a, b in sorted(every.items()):
        if a in before and b in before and a not in after:
            print(f"look: {path}: {a} is now {b}, which the file had already", file=sys.stderr)
        if a in after:
            print(f"kept: {path}: {a} stands {after.count(a)} times", file=sys.stderr)


def set_apart(path, text, by_module):
    """A lemma that would have the name of a definition which its file names gets `_lem`."""
    own = by_module[module_of(path)]
    mine = set(declared(text))
    seen = set()
    for module, listed, alias in uses(text):
        if listed and module.startswith("Rattle."):
            turned_there = by_module.get(module, {})
            for w in listed.split(","):
                w = w.strip().split(" as ")[0]
                seen.add(turned_there.get(w, w))
    defined = {own[a] for a in own if "-" not in a}
    for d in mine:
        if d not in own and is_plain(d) and (d in seen or d in defined):
            own[d] = d + "_lem"
        elif d in own and "-" in d and (own[d] in seen or own[d] in mine or own[d] in defined):
            own[d] += "_lem"


def is_plain(name):
    return re.fullmatch(r"[a-z][a-z0-9_]*", name) is not None


def uses(text):
    """Each `use`: its module, its names in braces or None, its alias or None."""
    for m in re.finditer(r"(?:^|\s)use ([\w.+'-]+?)(?:\.\{([^}]*)\})?(?: as ([\w'-]+))?(?=[;\s]|$)", text):
        yield m.group(1), m.group(2), m.group(3)


def turned(path, text, by_module, every):
    names, aliases, foreign = {}, {}, set()
    if path.endswith(".edit"):
        return WORD.sub(lambda m: every.get(m.group(0), m.group(0)), text)
    if path.endswith(".antt") and not is_walk(path):
        names.update(by_module[module_of(path)])
    for module, listed, alias in uses(text):
        own = by_module.get(module)
        if own is None and re.match(r"Rattle\.\w+\.(specs|proofs)\.", module):
            # a module's own item, as a constructor's module: `use M.Type.{..}`
            own = by_module.get(module.rsplit(".", 1)[0])
        if own is None:
            if listed:
                foreign |= {w.split(" as ")[0].strip() for w in listed.split(",")}
            continue
        if alias and listed is None:
            aliases[alias] = own
        elif listed is None:
            aliases[module.rsplit(".", 1)[-1]] = own
        else:
            for w in listed.split(","):
                w = w.strip().split(" as ")[0]
                if w in own:
                    names[w] = own[w]
                elif w == "*" or w == "..":
                    names.update(own)
    # fields of records: any field of that name
    def one(m):
        w = m.group(0)
        before = text[max(0, m.start() - 80):m.start()]
        if before.endswith("."):
            head = re.search(r"([\w'-]+)\.$", before)
            if head and head.group(1) in aliases:
                return aliases[head.group(1)].get(w, w)
            full = re.search(r"((?:[\w'-]+\.)+)$", before)
            if full and full.group(1)[:-1] in by_module:
                return by_module[full.group(1)[:-1]].get(w, w)
            if w in FIELDS:
                return FIELDS[w]
            return names.get(w, w) if not is_walk(path) else w
        if w in FIELDS and re.match(r"\s+[=:]\s", text[m.end():m.end() + 3]) and not path.endswith(".rt"):
            return FIELDS[w]
        if w in names:
            return names[w]
        if w in every and w not in foreign and text[text.rfind("\n", 0, m.start()) + 1:m.start()].lstrip().startswith(("--", "//")):
            return every[w]
        return w

    return WORD.sub(one, text)


FIELDS = {}

if __name__ == "__main__":
    raise SystemExit(main(sys.argv[1:]))
