#!/usr/bin/env python3
"""Places in crates/*/src that docs/DESIGN-PASS.md counts, a row a crate and a column a point (1 to 7). Called with nothing, it counts in the
work tree; with a commit, in that commit; -v lists each place. Points are told by what a place looks like:

1  a kind, an op, an axis, a class or a refusal told by a number: an arm or a test by a number, a constant that numbers a kind, a function
   that gives a number and a place or a number with 0 for none, and an enum of the shape of Option or Result
2  functions of one file whose bodies are alike but for names and numbers (5 lines or more)
3  a loop by `while`
4  a test written as a call, an equality by a loop, a field-by-field copy, a conversion or a print by hand
5  three or more parameters of the same names in three or more functions of a crate: each such function; and a fact of three or more
   contracts of a crate: each such fact
6  a buffer beside a length or an index behind what is used, and parallel arrays: each function that takes them so
7  a match or a chain of tests of which each arm runs another step: each such function
"""
import re, subprocess, sys, collections

def files(commit):
    if commit:
        names = subprocess.run(['git', 'ls-tree', '-r', '--name-only', commit, 'crates'], capture_output=True, text=True, check=True).stdout.split()
        names = [n for n in names if re.match(r'crates/[^/]+/src/.*\.rt$', n)]
        return [(n, subprocess.run(['git', 'show', f'{commit}:{n}'], capture_output=True, text=True, check=True).stdout) for n in names]
    import glob
    return [(n, open(n).read()) for n in sorted(glob.glob('crates/*/src/**/*.rt', recursive=True))]

def functions(text):
    """(name, line, header, contract, body) of each function."""
    out = []
    for m in re.finditer(r'^( *)(?:pub(?:\([a-z]+\))? )?(?:extern "C" )?fn (\w+)', text, re.M):
        i = text.index('(', m.end() - 0)
        depth = 0
        j = i
        while True:
            if text[j] in '([{': depth += 1
            if text[j] in ')]}': depth -= 1
            j += 1
            if depth == 0: break
        header = text[m.start():j]
        k = re.compile(r'\n' + m.group(1) + r'\{\n|\{\n', re.M).search(text, j)
        if not k: continue
        end = text.find('\n' + m.group(1) + '}', k.end() - 1)
        out.append((m.group(2), text.count('\n', 0, m.start()) + 1, header, text[j:k.start()], text[k.end():end if end > 0 else k.end()]))
    return out

KIND = r'(?:op|kind|axis|group|mode|edition|test|class|k|number|field|q|f)'
def point1(name, text, fs):
    for n, line in enumerate(text.split('\n'), 1):
        s = line.strip()
        if s.startswith('//') or re.match(r'(requires|ensures|ghost)', s): continue
        if re.match(r'\d+( \| \d+)* =>', s): yield n, s
        elif re.search(r'\bsame\((?:' + KIND + r'|kind_at\([^)]*\)|first|\w+\.kind|\w+\.mode), \d+\)', s) or re.search(r'(?<![\w.])(?:\w+\.)?' + KIND + r' (?:==|!=|<=?) \d+', s) or re.search(r'kind_at\([^)]*\) [!=]= \d', s): yield n, s
        elif re.match(r'(pub )?const [A-Z_]+: (usize|u32|u8) = \d+;', s) and not re.search(r'MOST|LAST|ROOM|COLUMN|LINKS|FAR|FEW|LIMIT|UNTOUCHED|BEYOND|TOO_|NAMES|[A-Z]+S:', s): yield n, s
        elif re.search(r'\b(?:given|told|refusal)\(', s) and 'fn ' not in s: yield n, s
        elif re.search(r'\.number (?:!=|==) 0', s): yield n, s
        elif re.match(r'(?:pub )?enum (Decimal|Head)\b', s): yield n, s
def point3(name, text, fs):
    for n, line in enumerate(text.split('\n'), 1):
        if re.match(r'\s*(?:\'\w+: )?while ', line): yield n, line.strip()
def point4(name, text, fs):
    for n, line in enumerate(text.split('\n'), 1):
        s = line.strip()
        if s.startswith('//'): continue
        for m in re.finditer(r'\b(?:both|either|same|below|at_most|opposite)\(', s): yield n, m.group(0)
        m = re.match(r'(\w+): (\w)\.(\w+),$', s)
        if m and m.group(1) == m.group(3): yield n, s
    for f, n, h, c, b in fs:
        if f in ('are_same', 'is_word', 'stands_at', 'widened', 'larger', 'least', 'choose', 'small', 'digit_of', 'put_unit', 'less', 'opposite', 'number_at', 'wide', 'feed_at'): yield n, 'fn ' + f
def params(h):
    inner = h[h.index('(') + 1:h.rindex(')')]
    return [p.split(':')[0].strip().replace('mut ', '') for p in re.split(r',(?![^<(\[]*[>)\]])', inner) if ':' in p]
def run(commit, verbose):
    table = collections.defaultdict(lambda: collections.Counter())
    places = []
    crates = collections.defaultdict(list)
    def add(point, name, line, what):
        crate = name.split('/')[1]
        table[crate][point] += 1
        places.append((point, f'{name}:{line}', what))
    for name, text in files(commit):
        fs = functions(text)
        crates[name.split('/')[1]] += [(name,) + f for f in fs]
        for p, f in ((1, point1), (3, point3), (4, point4)):
            for n, what in f(name, text, fs): add(p, name, n, what)
        # 2: twins within a file
        shapes = collections.defaultdict(list)
        for f, n, h, c, b in fs:
            if b.count('\n') < 4: continue
            shapes[re.sub(r'\s+', ' ', re.sub(r"[A-Za-z_]\w*|\d\w*|b?'[^']*'|b\"[^\"]*\"", 'x', b))].append((f, n))
        for group in shapes.values():
            if len(group) > 1:
                for f, n in group: add(2, name, n, 'fn ' + f + ' ~ ' + ', '.join(g for g, _ in group if g != f))
        # 7: arms that each run another step
        for f, n, h, c, b in fs:
            calls = re.findall(r'=> (?:return )?(\w+)\(', b) + re.findall(r'\{\n\s*return (\w+)\(', b)
            steps = {x for x in calls if x not in ('Some', 'Ok', 'Err', 'given', 'told', 'refusal')}
            if len(steps) >= 4: add(7, name, n, f'fn {f}: {len(steps)} steps')
        # 6: a buffer and a length beside it
        for f, n, h, c, b in fs:
            ps = params(h)
            if {'heads', 'nexts', 'starts'} <= set(ps): add(6, name, n, 'fn ' + f + ': heads, nexts, starts')
            elif re.search(r'&(?:\'\w+ )?mut \[', h) and {'used', 'n', 'at', 'm'} & set(ps): add(6, name, n, 'fn ' + f + ': a buffer and ' + ', '.join(sorted({'used', 'n', 'at', 'm'} & set(ps))))
            elif 'lengths' in ps: add(6, name, n, 'fn ' + f + ': lengths')
    # 5
    for crate, fs in crates.items():
        sets = collections.Counter()
        for name, f, n, h, c, b in fs:
            ps = tuple(params(h))
            seen = set()
            for i in range(len(ps)):
                for j in range(i + 3, len(ps) + 1): seen.add(ps[i:j])
            sets.update(seen)
        often = {s for s, k in sets.items() if k >= 3}
        for name, f, n, h, c, b in fs:
            ps = tuple(params(h))
            best = max((ps[i:j] for i in range(len(ps)) for j in range(i + 3, len(ps) + 1) if ps[i:j] in often), key=len, default=None)
            if best: add(5, name, n, 'fn ' + f + ': ' + ', '.join(best))
        facts = collections.Counter()
        for name, f, n, h, c, b in fs:
            own = set()
            for r in re.findall(r'requires (?:\w+ )?\{ (.*?) \}\n', c + '\n', re.S):
                for part in re.split(r' × ', re.sub(r'\s+', ' ', r)):
                    own.add(part.strip().strip('()').replace('.now', '').replace('.old', ''))
            facts.update(own)
        for fact, k in facts.items():
            if k >= 3: add(5, f'crates/{crate}/src', '-', f'{k} contracts: {fact}')
    if verbose:
        for p, where, what in sorted(places, key=lambda x: (x[0], x[1])): print(p, where, what)
    print('crate'.ljust(14) + ''.join(str(p).rjust(6) for p in range(1, 8)))
    total = collections.Counter()
    for crate in sorted(table):
        print(crate.ljust(14) + ''.join(str(table[crate][p]).rjust(6) for p in range(1, 8)))
        total.update(table[crate])
    print('all'.ljust(14) + ''.join(str(total[p]).rjust(6) for p in range(1, 8)))
args = [a for a in sys.argv[1:] if a != '-v']
run(args[0] if args else None, '-v' in sys.argv)
