#!/usr/bin/env python3
"""port_lists.py [TREE] [--most N] [--dry]: makes the lists of crates.txt short. The kit walks each path from a crate down through these lists, so the paths
are counted (those from all crates together), and lists are cut until there are at most N of them (3000000). A crate that is cut from a list is still
reached through one of the list, which passes it on whole: `pub use low;` in its src/lib.rt, `pub use Rattle.low as low` in its specs/Lib.antt. Then
`low::x` is `mid::low::x`, and `Rattle.low.specs.M` is `Rattle.mid.specs.low.specs.M`. It begins by undoing what an earlier run did, so it may be run on
any state of the tree."""
import collections
import pathlib
import re
import subprocess
import sys

words = sys.argv[1:]
MOST = 3_000_000
DRY = '--dry' in words
if DRY:
    words.remove('--dry')
if '--most' in words:
    at = words.index('--most')
    MOST = int(words[at + 1])
    del words[at:at + 2]
TREE = pathlib.Path(words[0] if words else '.').resolve()
LISTS = TREE / 'crates.txt'
SAID_RT = '// The crates among these are passed on to those above, which name them through this one.'
SAID_ANTT = '-- crates that are passed on to those above, which name them through this one'

listed = {}
for line in LISTS.read_text().splitlines():
    if m := re.match(r'(([a-z0-9_]+)(?: [^:]*)?):(.*)', line):
        listed[m[2]] = m[3].split()
own = list(listed)
place = {c: k for k, c in enumerate(own)}
order = listed
listed = {c: [x for x in v if x in place] for c, v in listed.items()}


def files(c):
    for part in ('src', 'specs', 'proofs'):
        for p in sorted((TREE / 'crates' / c / part).rglob('*')):
            if p.suffix in ('.rt', '.antt') and p.is_file():
                yield p


def root_of(c):
    p = TREE / 'crates' / c / 'src/lib.rt'
    return p if p.exists() else TREE / 'crates' / c / 'src/main.rt'


def in_code(p, line, change):
    """The line with its code changed, and not its comment."""
    at = re.search(r'//', line) if p.suffix == '.rt' else re.search(r'(?:^|(?<=[ (){}.;,]))--', line)
    cut = at.start() if at else len(line)
    return change(line[:cut]) + line[cut:]


text = {c: {p: p.read_text() for p in files(c)} for c in own}
before = {c: dict(text[c]) for c in own}

# ---- back to the plain names

USE = re.compile(r'^((?:pub )?use )([a-z0-9_]+)(?:::(\w+|\{[^{};]*\}))?;\n', re.M)


def parts(m):
    """The names that a line takes from a crate or, of `use low;`, the crate."""
    return [x.strip() for x in (m[3] or m[2]).strip('{}').split(',') if x.strip()]


passed = {c: {x for m in USE.finditer(before[c].get(root_of(c), '')) if m[1].startswith('pub') and m[2] in place for x in parts(m) if x in place} for c in own}


def undone(t):
    """The text without the lines that pass on crates or bring them in."""
    def less(m):
        if m[2] not in place:
            return m[0]
        if not m[3]:
            return ''
        left = [x for x in parts(m) if x not in passed[m[2]]]
        if len(left) == len(parts(m)):
            return m[0]
        return f'{m[1]}{m[2]}::{left[0] if len(left) == 1 else "{" + ", ".join(left) + "}"};\n' if left else ''
    t = USE.sub(less, t)
    t = re.sub(r'^pub use Rattle\.(?:[a-z0-9_]+\.specs\.)?([a-z0-9_]+) as \1\n', '', t, flags=re.M)
    t = re.sub(rf'^(?:{re.escape(SAID_RT)}|{re.escape(SAID_ANTT)})\n', '', t, flags=re.M)
    return re.sub(r'\n\n\n+', '\n\n', t)


def plain(c, p, t):
    if p.suffix == '.rt' or p.name == 'Lib.antt':
        t = undone(t)

    def change(code):
        while True:
            again = re.sub(r'\bRattle\.([a-z0-9_]+)\.specs\.([a-z0-9_]+)\.(?=specs\.|proofs\.)',
                           lambda m: f'Rattle.{m[2]}.' if m[1] in place and m[2] in place else m[0], code)
            if p.suffix == '.rt':
                again = re.sub(r'(?<![\w:.])([a-z0-9_]+)::([a-z0-9_]+)::',
                               lambda m: f'{m[2]}::' if m[1] in place and m[2] in passed[m[1]] else m[0], again)
            if again == code:
                return code
            code = again
    return '\n'.join(in_code(p, line, change) for line in t.split('\n'))


for c in own:
    for p in text[c]:
        text[c][p] = plain(c, p, text[c][p])

# ---- what each crate names

modules = {c: set(re.findall(r'^\s*(?:pub )?mod (\w+)', '\n'.join(t for p, t in text[c].items() if p.suffix == '.rt'), re.M)) for c in own}
named = {c: collections.Counter() for c in own}
named_rt = {c: set() for c in own}
named_antt = {c: set() for c in own}
for c in own:
    for p, t in text[c].items():
        for line in t.split('\n'):
            code = []
            in_code(p, line, lambda x: code.append(x) or x)
            code = code[0]
            for m in re.finditer(r'\bRattle\.([a-z0-9_]+)\.', code):
                if m[1] in place and m[1] != c:
                    named[c][m[1]] += 1
                    named_antt[c].add(m[1])
            if p.suffix == '.rt':
                for m in re.finditer(r'(?<![\w:.])([a-z0-9_]+)::', code):
                    if m[1] in place and m[1] != c and m[1] not in modules[c]:
                        named[c][m[1]] += 1
                        named_rt[c].add(m[1])

g = {c: set(listed[c]) | set(named[c]) for c in own}


def reached(g, c, seen=None):
    seen = set() if seen is None else seen
    for x in g[c]:
        if x not in seen:
            seen.add(x)
            reached(g, x, seen)
    return seen


def paths(g):
    T = {}

    def t(c):
        if c not in T:
            T[c] = 1 + sum(t(x) for x in g[c])
        return T[c]
    for c in own:
        t(c)
    return sum(T.values()), T


for c in own:
    if c in reached(g, c):
        sys.exit(f'port_lists: {c} reaches itself')
all_below = {c: reached(g, c) for c in own}
print(f'port_lists: {sum(map(len, g.values()))} entries, {paths(g)[0]} paths')
for c in own:
    if more := set(named[c]) - set(listed[c]):
        print(f'  {c} names what its list has not: {" ".join(sorted(more))}')

# names at the top of a crate, which a crate that it passes on may not have
tops = {}
for c in own:
    t = text[c].get(root_of(c), '')
    tops[c] = {x.lower() for x in re.findall(r'^(?:pub )?(?:fn|struct|enum|mod|const|static|type|trait) (\w+)', t, re.M)}
    for m in re.finditer(r'^(?:pub )?use ([^;]*);', t, re.M):
        tops[c] |= {x.lower() for x in re.findall(r'(\w+)\s*(?=[,}]|$)', m[1])}
    specs = text[c].get(TREE / 'crates' / c / 'specs/Lib.antt', '')
    tops[c] |= {x.lower() for x in re.findall(r'(?:mod|use) (?:[\w.]*\.)?(\w+)\s*$', specs, re.M)}
programs = {c for c in own if root_of(c).name == 'main.rt'}
may_pass = lambda m, low: m not in programs and low.lower() not in tops[m]


def way(g, c, low, passing):
    """The crate of c's list through which it names low, and what then has to be passed on: the least."""
    best = None
    for m in sorted(g[c], key=place.get):
        if (m, low) in passing:
            return m, {}
        if m == low or not may_pass(m, low):
            continue
        if low in g[m]:
            found = (m, {(m, low): m})
        elif low in reached(g, m):
            deeper = way(g, m, low, passing)
            if not deeper:
                continue
            found = (m, {**deeper[1], (m, low): deeper[0]})
        else:
            continue
        if best is None or len(found[1]) < len(best[1]):
            best = found
    return best


# ---- which entries to cut: the most paths for the fewest names

total, T = paths(g)
cut = []
so_far = {}


def sizes():
    """How many modules a crate's facade has, by what it passes on: those of each crate that it passes on stand in it once more."""
    lows = collections.defaultdict(set)
    for m, x in so_far:
        lows[m].add(x)
    S = {}

    def s(c):
        if c not in S:
            S[c] = 1 + sum(s(x) for x in lows[c])
        return S[c]
    for c in own:
        s(c)
    return S


while total > MOST:
    above = collections.defaultdict(set)
    for c in own:
        for x in g[c]:
            above[x].add(c)
    U = {}

    def u(c):
        if c not in U:
            U[c] = 1 + sum(u(y) for y in above[c])
        return U[c]
    S = sizes()
    # how often a crate's facade stands in others'
    again = collections.Counter()
    for c in own:
        again[c] += 1
    for m in reversed(own):
        for k, x in so_far:
            if k == m:
                again[x] += again[m]
    best = None
    for c in own:
        for x in sorted(g[c], key=place.get):
            if T[x] == 1 and named[c][x]:
                continue
            gain = u(c) * T[x]
            if best and gain / 5 <= best[0]:
                continue
            g[c].discard(x)
            found = way(g, c, x, so_far) if named[c][x] else (None, {})
            if not named[c][x] and not reached(g, c) >= {x}:
                found = None
            g[c].add(x)
            if found:
                cost = sum(S[low] * again[m] for m, low in found[1] if (m, low) not in so_far)
                score = gain / (named[c][x] + 4 + 10 * cost)
                if not best or score > best[0]:
                    best = score, c, x, found[1]
    if not best:
        print('port_lists: nothing more to cut')
        break
    g[best[1]].discard(best[2])
    cut.append(best[1:3])
    so_far.update(best[3])
    total, T = paths(g)
print(f'port_lists: {sum(sizes().values())} facades, {max(sizes().values())} in one')

# ---- through which crate each is named

passing = {}
through = {}
for c, x in sorted(cut, key=lambda e: (place[e[0]], place[e[1]])):
    if not named[c][x]:
        continue
    m, more = way(g, c, x, passing)
    passing.update(more)
    through[c, x] = m
# what is passed on in code, and in specs: the way down from each that needs it
rt, antt = set(), set()
for (c, x), m in through.items():
    for need, to in ((x in named_rt[c], rt), (x in named_antt[c], antt)):
        at = m
        while need and at is not None and (at, x) not in to:
            to.add((at, x))
            after = passing.get((at, x))
            at = after if after != at else None
for (m, x), k in passing.items():
    if m != k:
        through.setdefault((m, x), k)


def with_uses(t, adds, head=''):
    """The text with the lines before its first plain `use`, or else behind the head of the file."""
    lines = t.split('\n')
    at = next((k for k, line in enumerate(lines) if re.match(r'(pub )?use ', line)), None)
    adds = [head] * bool(head) + adds
    if at is None:
        at = next((k for k, line in enumerate(lines) if not re.match(r'//|#!|ghost use |$|(pub )?mod ', line)), len(lines))
        while at and lines[at - 1].startswith('//'):
            at -= 1
        lines[at:at] = [*adds, '']
    elif head:
        lines[at:at] = [*adds, '']
    else:
        lines[at:at] = adds
    return re.sub(r'\n\n\n+', '\n\n', '\n'.join(lines)).rstrip('\n') + '\n'


def respelled(c, p, t):
    cuts = {x: m for (d, x), m in through.items() if d == c and x not in g[c]}
    if not cuts:
        return t
    brought = set()
    tops_here = {x.lower() for x in re.findall(r'^(?:pub )?(?:fn|struct|enum|mod|const|static|type|trait) (\w+)', t, re.M)}
    for m in re.finditer(r'^(?:pub )?use ([^;]*);', t, re.M):
        tops_here |= {x.lower() for x in re.findall(r'(\w+)\s*(?=[,}]|$)', m[1])}

    def change(code):
        code = re.sub(r'\bRattle\.([a-z0-9_]+)\.', lambda m: f'Rattle.{cuts[m[1]]}.specs.{m[1]}.' if m[1] in cuts else m[0], code)
        if p.suffix != '.rt':
            return code
        uses = re.match(r'\s*(pub )?use ', code)

        def of(m):
            low = m[1]
            if low not in cuts or low in modules[c]:
                return m[0]
            if not uses and low not in tops_here:
                brought.add(low)
                return m[0]
            return f'{cuts[low]}::{low}::'
        return re.sub(r'(?<![\w:.])([a-z0-9_]+)::', of, code)
    t = '\n'.join(in_code(p, line, change) for line in t.split('\n'))
    # what is passed on at the top of the crate is brought in there
    brought = [x for x in sorted(brought, key=place.get) if not (p == root_of(c) and (c, x) in rt)]
    return with_uses(t, [f'use {cuts[x]}::{x};' for x in brought]) if brought else t


for c in own:
    for p in text[c]:
        text[c][p] = respelled(c, p, text[c][p])
    lows = sorted((x for m, x in rt if m == c), key=place.get)
    if lows:
        p = root_of(c)
        text[c][p] = with_uses(text[c][p], [f'pub use {x};' if passing.get((c, x), c) == c else f'pub use {passing[c, x]}::{x};' for x in lows], SAID_RT)
    lows = sorted((x for m, x in antt if m == c), key=place.get)
    if lows:
        p = TREE / 'crates' / c / 'specs/Lib.antt'
        t = text[c].get(p, '')
        before[c].setdefault(p, '')
        adds = [SAID_ANTT] + [f'pub use Rattle.{x} as {x}' if passing.get((c, x), c) == c else f'pub use Rattle.{passing[c, x]}.specs.{x} as {x}' for x in lows]
        text[c][p] = t.rstrip('\n') + ('\n' if t.strip() else '') + '\n'.join(adds) + '\n'

# ---- what is said of it

changed = [p for c in own for p in text[c] if text[c][p] != before[c].get(p)]
for c in own:
    cuts = [(x, through.get((c, x))) for d, x in cut if d == c]
    if cuts:
        print(f'  {c}: without ' + ', '.join(f'{x} (through {m}, {named[c][x]} names)' if m else f'{x} (not named)' for x, m in cuts))
for c in own:
    lows = [x for x in own if (c, x) in rt or (c, x) in antt]
    if lows:
        print(f'  {c} passes on {" ".join(lows)}')
print(f'port_lists: {sum(map(len, g.values()))} entries, {total} paths, {len(cut)} cut, {sum(named[c][x] for c, x in cut)} names respelled, {len(passing)} passed on')
for c in own:
    cuts = {x for d, x in through if d == c}
    for p in sorted((TREE / 'crates' / c / 'must-fail').glob('*.edit')):
        t = p.read_text()
        if any(re.search(rf'\bRattle\.{x}\.|\buse {x}::', t) for x in cuts) or re.search(r'Rattle\.\w+\.specs\.[a-z0-9_]+\.', t):
            print(f'  edit that names one of them: {p.relative_to(TREE)}')
if not DRY:
    for c in own:
        for p, t in text[c].items():
            if t != before[c].get(p):
                p.parent.mkdir(exist_ok=True)
                p.write_text(t)
    out = []
    for line in LISTS.read_text().split('\n'):
        m = re.match(r'(([a-z0-9_]+)(?: [^:]*)?):(.*)', line)
        if m:
            old = order[m[2]]
            below = [x for x in old if x not in place or x in g[m[2]]] + sorted(g[m[2]] - set(old), key=place.get)
            line = f'{m[1]}:' + ''.join(f' {x}' for x in below)
        out.append(line)
    LISTS.write_text('\n'.join(out))
    print(f'port_lists: {len(changed)} files changed')
