#!/usr/bin/env python3
"""Turns proofs that walk the code (proofs/F/Proof.antt) into Invariants.antt and Answers.antt.

usage: python3 tools/port/answers.py CRATE [F..]     at the top of the repository; the crates below CRATE have to prove

It asks `rt check --generated .. --old-names` for the old and the new name of each goal and step, leaves out what was `search rules`, and
takes the walks away. What it can't turn it prints; `rt check` says what is left to answer.
"""
import json
import os
import re
import subprocess
import sys
import tempfile

WORD = re.compile(r"[^\s(){}.,;«»⌜⌝`\"|\[\]]+")


def norm(name):
    return name.replace("-", "_").replace("overflow_", "").replace("'", "")


def names_of(crate):
    with tempfile.TemporaryDirectory() as d:
        r = subprocess.run(["rt", "check", "--generated", d, "--old-names"], cwd=f"crates/{crate}", capture_output=True, text=True)
        p = os.path.join(d, "names.json")
        if not os.path.exists(p):
            print(r.stdout[-3000:], r.stderr[-1000:])
            raise SystemExit(f"no names of {crate}")
        return json.load(open(p))


def blocks(text):
    """Declarations: comment lines, a signature, `unfolding` and clauses. A line that begins a signature begins one."""
    out, now, kind = [], [], None
    for line in text.split("\n"):
        if line.startswith("use ") or line.startswith("--"):
            if line.startswith("--") and kind == "decl":
                out.append(now)
                now, kind = [line], "comment"
                continue
            if kind == "decl" or (kind == "comment" and line.startswith("use ")):
                out.append(now)
                now = []
            now.append(line)
            kind = "comment" if line.startswith("--") else "use"
            if kind == "use":
                out.append(now)
                now, kind = [], None
            continue
        if not line.strip():
            if kind == "decl" or kind == "comment":
                out.append(now)
                now, kind = [], None
            continue
        now.append(line)
        kind = "decl"
    if now:
        out.append(now)
    return out


def head_of(block):
    for line in block:
        if not line.startswith("--"):
            m = re.match(r"(?:abbrev )?(?:pub )?(?:unfoldable )?([^\s:]+)\s*:(.*)", line)
            return (m.group(1), m.group(2), line) if m else (None, None, line)
    return None, None, None


class Function:
    def __init__(self, crate, folder, names):
        self.crate, self.folder, self.names = crate, folder, names
        self.needs = {norm(a): b for a, b in names["needs"]}
        self.steps = {}
        for place in names["places"]:
            a, b = place[2]
            if a:
                self.steps[norm(a)] = b
        self.arms = {}
        for arm in names["arms"]:
            if arm:
                for field, step, path in arm[2]:
                    if path or arm[0] == "in_default":
                        self.arms[(norm(step), tuple(path))] = f"{arm[0]}.{field}"
        self.places = {}
        for place, new in zip(names["places"], names["places_by_name"]):
            self.places[norm(place[0])] = new
        self.said = []
        self.starts = set()

    def need(self, old):
        for k in (old, re.sub(r"^array_read", "element_copy_out", norm(old)), re.sub(r"^slice.bounds.", "part_", norm(old)), re.sub(r"^nonzero_", "", norm(old)), re.sub(r"^shape_of_", "same_length_", norm(old))):
            if norm(k) in self.needs:
                return self.needs[norm(k)]
        for b in self.needs.values():
            if norm(b) == norm(old):
                return b
        return None

    def path(self, tokens):
        """A path from `c`: steps behind `.before` by today's names."""
        parts = [p for p in tokens if p != "before"]
        if parts:
            key = norm(parts[0])
            for n in range(len(parts), 0, -1):
                if n == 1 and (len(parts) < 2 or parts[1] != "rest"):
                    break
                if (key, tuple(parts[1:n])) in self.arms:
                    return [self.arms[(key, tuple(parts[1:n]))]] + parts[n:]
            if key in self.steps:
                parts[0] = self.steps[key]
            elif parts[0] == "pre":
                parts[0] = "requires"
            elif parts[0] not in ("args", "requires", "ranges", "type_inv", "auto", "lifetimes", "well_formed"):
                self.said.append("step? " + parts[0])
        today = {"inv": "invariant", "taken": "true", "left": "false"}
        return [today.get(p, p) if k == 1 and re.match(r"if|loop", parts[0]) else p for k, p in enumerate(parts)]

    def body(self, text, variable="c"):
        aliases = {variable}
        W = r"[\w₀-₉'-]+"
        starts = "|".join(sorted(map(re.escape, self.starts), key=len, reverse=True)) or "§"
        edge = r"(?![\w.'₀-₉-])"
        before = None
        while before != text:
            before = text
            alts = "|".join(sorted(map(re.escape, aliases | {"c"}), key=len, reverse=True))
            text = re.sub(r"\((?:" + starts + r") (" + alts + r")(?:\.before)*\)", r"\1", text)
            text = re.sub(r"(?<![\w.'-])(?:" + starts + r") (" + alts + r")(?:\.before)*" + edge, r"\1", text)
            text = re.sub(r"\((" + alts + r")(?:\.before)*\)", r"\1", text)
            m = re.search(r"let (" + W + r") = (?:" + alts + r")(?:\.before)* in\s*", text)
            if m:
                aliases.add(m.group(1))
                text = text[:m.start()] + text[m.end():]
        alts = "|".join(sorted(map(re.escape, aliases), key=len, reverse=True))
        aliases.add("c")

        def one(m):
            head = m.group(1)
            if head not in aliases:
                return m.group(0)
            parts = m.group(2)[1:].split(".")
            return ".".join(["c"] + self.path(parts))

        text = re.sub(r"(?<![\w.'-])([\w₀-₉'-]+)((?:\.[^\s(){}.,;\[\]]+)+)", one, text)
        text = re.sub(r"(?<![\w.'λ-])(?:" + alts + r")(?![\w.'₀-₉-])", "c", text) if alts != "c" else text
        # a test of `!x` says today that x is true or false
        text = re.sub(r"\(not-(?:true|false) _ (c\.(?:if|loop)-not-[\w-]+\.(?:true|false))\)", r"\1", text)
        text = re.sub(r"not-(?:true|false) _ (c\.(?:if|loop)-not-[\w-]+\.(?:true|false))", r"\1", text)
        return text

    def goal_types(self, text):
        def one(m):
            w = m.group(1)
            if w.startswith("Need-"):
                return "goal." + (self.need(w[5:]) or w[5:])
            if norm(w) in self.places:
                return "goal." + self.places[norm(w)]
            if w[:4] in ("Then", "Else"):
                return "goal." + self.places.get(norm(w), w)
            return "goal." + w
        return re.sub(r"\btie\.([^\s(){},;]+)((?: (?:invariant|decreases)-[\w-]+)*)", lambda m: one(m), text)


def loop_names(names):
    out = {}
    for (pair, variables), changed in zip(names["loops"], names["changed"]):
        out[norm(pair[0])] = (pair[1], variables, changed)
    return out


def put_variables(text, table):
    """The text with each variable's path for its name, but where a λ binds the name."""
    out, depth, shadows, at = [], 0, [], 0
    while at < len(text):
        ch = text[at]
        if ch in "([{":
            depth += 1
        elif ch in ")]}":
            depth -= 1
            shadows = [s for s in shadows if s[0] <= depth]
        elif ch == "λ":
            end = text.index(". ", at) if ". " in text[at:] else len(text)
            binders = text[at + 1:end]
            shadows.append((depth, {w.strip("(") for w in binders.replace("(", " ").split() if w != ":"}))
            out.append(text[at:end])
            at = end
            continue
        m = WORD.match(text, at)
        if m and (at == 0 or not WORD.match(text[at - 1]) and text[at - 1] != "."):
            w = m.group(0)
            hidden = any(w in names for _, names in shadows)
            out.append(table[w] if w in table and not hidden else w)
            at = m.end()
            continue
        out.append(ch)
        at += 1
    return "".join(out)


def cites(text, name):
    return re.search(r"(?<![\w.'-])" + re.escape(name) + r"(?![\w'-])", text)


def with_lets(clause, lets):
    """The clause with the lemmas that it cites before it, and what these unfold."""
    lhs, rhs = clause.split("=", 1)
    needed, unfolds, text = [], [], rhs
    for name, typ, body, us in reversed(lets):
        if cites(text, name):
            needed.insert(0, (name, typ, body))
            unfolds += us
            text += " " + typ + " " + body
    if not needed:
        return clause, []

    def plain(t):
        for name, _, _ in needed:
            t = re.sub(r"\(" + re.escape(name) + r" c\)", name, t)
            t = re.sub(r"(?<![\w.'-])" + re.escape(name) + r" c(?![\w.'-])", name, t)
        return t

    head = "".join(f"    let {n} : {plain(t)} = {plain(b)} in\n" for n, t, b in needed)
    return lhs + "=\n" + head + "    " + plain(rhs).strip(), unfolds


def one_line(unfolding):
    """The lines as one, each name once."""
    names = []
    for line in unfolding:
        names += [n for n in line.split()[1:] if n not in names]
    return ["unfolding " + " ".join(names)] if names else []


def turn(crate, folder, names, dotted):
    path = f"crates/{crate}/proofs/{folder}/Proof.antt"
    text = open(path, encoding="utf-8").read()
    f = Function(crate, folder, names)
    loops = loop_names(names)
    uses, invariants, answers, helpers, comments, lets = [], [], [], [], [], []
    order = []
    for b in blocks(text):
        name, sig, line = head_of(b)
        if name and re.match(r"\s*tie\.\S+.*→\s*tie\.\S+\s*[^→]*$", sig) and any(re.match(re.escape(name) + r" \w+ = \w+(\.before)*\s*$", l) for l in b):
            f.starts.add(name)
    for b in blocks(text):
        if head_of(b)[0] in f.starts:
            continue
        if b[0].startswith("use "):
            if ".Tie" in b[0] or "Statement" in b[0] or "{statement}" in b[0] or re.search(r"\.(Reads|Kinds|Lts-\w+) as |borrow\.Fn\.(Kinds|PlainCycle)", b[0]):
                continue
            uses.append(b[0])
            continue
        name, sig, line = head_of(b)
        if line is None:
            comments += b
            continue
        lead = [l for l in b if l.startswith("--")]
        rest = [l for l in b if not l.startswith("--")]
        if name is None:
            f.said.append("block? " + line)
            continue
        if "statement M" in sig or "Statement" in sig or name.endswith("-spec"):
            continue
        m = re.match(r"\s*tie\.(invariant|decreases)-(\S+)", sig)
        if m and rest[0].startswith("abbrev"):
            kind, old = m.group(1), m.group(2)
            if norm(old) not in loops:
                f.said.append(f"loop? {old} of {list(loops)}")
                continue
            new, variables, changed = loops[norm(old)]
            clause = "\n".join(rest[1:])
            lhs, rhs = clause.split("=", 1)
            binders = lhs.split()[1:]
            want = list(variables) + [v for v, c in zip(variables, changed) if c]
            if len(binders) != len(want):
                f.said.append(f"binders of {old}: {binders} against {variables} {changed}")
            table = {}
            for i, v in enumerate(binders):
                if i < len(variables):
                    table[v] = ("l.initial." if changed[i] else "l.") + variables[i]
                elif i < len(want):
                    table[v] = "l." + want[i]

            rhs = put_variables(rhs, table)
            invariants.append((lead, f"abbrev pub {kind}-{new} : goal.{kind}-{new}", f"{kind}-{new} l ={rhs}"))
            continue
        if rest[0].startswith("abbrev μ-"):
            fn = name[2:].replace("-", "_")
            params = PARAMS[fn]
            rhs = "\n".join(rest[1:]).split("=", 1)[1]
            rhs = re.sub(r"(?<![\w.])a((?:\.1)*)\.0(?![\w])", lambda mm: "l." + params[mm.group(1).count("1")], rhs)
            invariants.append((lead, f"abbrev pub decreases-{fn} : goal.decreases-{fn}", f"decreases-{fn} l ={rhs}"))
            continue
        if rest[0].startswith("abbrev") and re.search(r"(-at|_at|-below|_below|calls)$", name) and "ℕ →" in sig:
            continue
        m = re.match(r"\s*tie\.Need-(\S+)", sig) or re.match(r"\s*\(t : ℕ\) → [\w-]+-lts\.Need-(\S+)", sig)
        if m:
            old = m.group(1)
            new = f.need(old)
            clause = "\n".join(rest[1:])
            body = clause.split("=", 1)[1].strip() if "=" in clause else clause
            last = [l for l in rest[1:] if not l.startswith("unfolding")]
            unfolding = [l for l in rest[1:] if l.startswith("unfolding")]
            clause = "\n".join(last)
            lhs, rhs = clause.split("=", 1)
            binders = lhs.split()[1:]
            order.append((old, new))
            if rhs.strip() == "search rules" and not unfolding:
                continue
            if new is None:
                f.said.append(f"goal? {old}: {rhs.strip()[:60]}")
                new = "OLD-" + old
            var = next((x for x in binders if x not in ("κs", "t", "_")), "c")
            rhs = f.body(rhs, var)
            pre = [x for x in binders if x == "t"]
            extra = [x for x in binders if x not in ("κs", "t", var)]
            answers.append((lead, f"pub {new} : goal.{new}", unfolding, f"{new} {' '.join(pre + ['c'] + extra)} ={rhs}"))
            continue
        # a lemma of the file's own: one that takes a place is a `let` in each answer that cites it
        taken = re.match(r"\s*\((\w+) : tie\.[^)]*\)\s*→\s*(.*)", "\n".join([sig] + [l for l in rest[1:] if l.startswith("    ") and not re.match(re.escape(name) + r"\b", l)][:0]), re.S)
        clauses = [k for k, l in enumerate(rest) if k and re.match(re.escape(name) + r"(?=[ =])", l)]
        whole_sig = "\n".join([sig.strip()] + rest[1:clauses[0]]) if clauses else sig
        unfolds = [l for l in whole_sig.split("\n") if l.startswith("unfolding")]
        whole_sig = "\n".join(l for l in whole_sig.split("\n") if not l.startswith("unfolding"))
        taken = re.match(r"\s*\((\w+) : tie\.[^)]*\)\s*→\s*(.*)", whole_sig, re.S)
        if taken and len(clauses) == 1:
            clause = "\n".join(rest[clauses[0]:])
            lhs, rhs = clause.split("=", 1)
            binders = lhs.split()[1:]
            v, typ = taken.group(1), taken.group(2).strip()
            typ = f.body(typ, v)
            rhs = f.body(rhs, binders[0]).strip()
            if binders[1:]:
                rhs = "λ " + " ".join(binders[1:]) + ". " + rhs
            lets.append((name, typ, rhs, unfolds))
            continue
        whole = "\n".join(lead + rest)
        whole = f.goal_types(whole)
        for v in re.findall(r"\((\w+) : goal\.", whole):
            whole = f.body(whole, v)
        helpers.append(whole)
    answers = [(lead, sig, one_line(unfolding + us), clause) for lead, sig, unfolding, (clause, us) in
               ((lead, sig, unfolding, with_lets(clause, lets)) for lead, sig, unfolding, clause in answers)]
    module = "Rattle." + crate + ".proofs." + dotted
    out_uses = [u for u in uses]
    written = []
    folder_path = f"crates/{crate}/proofs/{folder}"
    head = "\n".join(comments)
    if invariants:
        t = "\n".join(out_uses) + f"\nuse {module}.Given as goal\n"
        for lead, sig, clause in invariants:
            t += "\n" + "\n".join(lead + [sig, clause]) + "\n"
        written.append((f"{folder_path}/Invariants.antt", (head + "\n" if head else "") + t))
        head = ""
    if answers or helpers:
        t = "\n".join(out_uses) + f"\nuse {module}.Goals as goal\n"
        for h in helpers:
            t += "\n" + h + "\n"
        for lead, sig, unfolding, clause in answers:
            t += "\n" + "\n".join(lead + [sig] + unfolding + [clause]) + "\n"
        written.append((f"{folder_path}/Answers.antt", (head + "\n" if head else "") + t))
    os.remove(path)
    for p, t in written:
        open(p, "w", encoding="utf-8").write(t)
    if f.said:
        print(f"{crate}/{folder}:", "; ".join(sorted(set(f.said))))


PARAMS = {}


def main(argv):
    crate, only = argv[0], argv[1:]
    names = names_of(crate)
    for v in names.values():
        if isinstance(v, dict):
            for f, ps in v.get("params", {}).items():
                if f.startswith(crate + "::"):
                    PARAMS[f.rsplit("::", 1)[-1]] = ps
    known = {}
    for k, v in names.items():
        m = re.match(r"Rattle-" + crate + r"-proofs\.(.*)\.Lts(?:-(\w+))?$", k)
        if m:
            known.setdefault(m.group(1), []).append((m.group(2), v))
    top = f"crates/{crate}/proofs"
    for folder, dirs, fs in os.walk(top):
        if "Proof.antt" not in fs:
            continue
        rel = os.path.relpath(folder, top)
        dotted = rel.replace("/", ".")
        if only and rel not in only:
            continue
        if dotted not in known:
            print(f"{crate}/{rel}: no names; has {[k for k in known if dotted.split('.')[-1].strip('+') in k]}")
            continue
        if len(known[dotted]) != 1:
            print(f"{crate}/{rel}: {len(known[dotted])} functions")
            continue
        turn(crate, rel, known[dotted][0][1], dotted)


if __name__ == "__main__":
    main(sys.argv[1:])
