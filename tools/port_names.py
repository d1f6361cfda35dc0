#!/usr/bin/env python3
"""Brings the names of the definitions and lemmas of this repository to the spelling of the Rattle of November 2026: words in snake case, a prime an apostrophe.
It was run once, at the top, right behind the kit's port.py, which respells only those that a library shares; docs/PORT.md says in which commit.

usage: tools/port_names.py [--table]

What is declared below specs/ and proofs/ with a small first letter is turned: getBits and get-bits to get_bits. A lemma that would fall together with a
definition gets _lem behind it. Names of the kit's libraries, of functions of src/, of exported C and of goals that Rattle makes stay. --table prints the names
that are turned, old and new, and writes nothing.
"""
import collections
import glob
import re
import sys

SIG = re.compile(r'^(?P<ind> *)(?P<mods>(?:(?:pub|abbrev|unfoldable) +)*)(?P<name>[^\s(){}.;,@"«»:=]+)(?:,? [^\s(){}.;,@"«»:=]+)*(?: \{[^{}\n]*\})* : (?P<type>.*)', re.M)
WORD = re.compile(r'--[^\n]*|"(?:\\.|[^"\\\n])*"|«[^»]*»|[^\s(){}.;,@"«»]+')
# two definitions whose names would be one, beside a definition of the crates below
APART = {'post-of': 'post_in_memory', 'with-head': 'with_new_head'}


def snake(name):
    words = re.sub(r'(?<=[a-z0-9])[A-Z]', lambda m: '_' + m[0].lower(), name)
    return words.replace('-', '_').replace('′', "'")


def files(*parts):
    for part in parts:
        end = 'rt' if part == 'src' else 'antt'
        yield from sorted(p for p in glob.glob(f'crates/*/{part}/**/*.{end}', recursive=True) if '/out/' not in p)


def read(path):
    with open(path, encoding='utf-8') as f:
        return f.read()


def records(text):
    """The fields that the records of a file declare."""
    for block in re.findall(r'(?m)^(?:pub )?record [^\n]*\n((?:[ \t]+[^\n]*\n|\n|--[^\n]*\n)*)', text):
        yield from re.findall(r'(?m)^ +(?:pub )?([^\s(){}.;,@"«»:=]+) : ', block)


def table():
    """The new spelling of each declared name, and that of each declared field."""
    kinds, fields = collections.defaultdict(set), set()
    for path in files('specs', 'proofs'):
        text = read(path)
        fields.update(records(text))
        for m in SIG.finditer(text):
            name = m['name']
            if name.startswith('--') or name in ('let', 'use', 'open') or not name[0].islower():
                continue
            if m['ind'] and not m['mods']:
                continue
            if re.match(r'\S*tie\.|tie\.', m['type']):
                continue
            says = 'definition' if re.search(r'abbrev|unfoldable', m['mods']) else 'lemma'
            kinds[name].add((('/specs/' in path), says))
    by_new = collections.defaultdict(set)
    for name in kinds:
        by_new[snake(name)].add(name)
    turned = {}
    for new, names in by_new.items():
        rank = lambda n: max((2 if spec else 0) + (1 if says == 'definition' else 0) for spec, says in kinds[n])
        first = max(sorted(names), key=rank)
        for name in names:
            to = new if name == first else APART.get(name, new + '_lem')
            if to != name:
                turned[name] = to
    return turned, {f: snake(f) for f in fields if f[0].islower() and snake(f) != f}


def imported(text, own):
    """The names that a file takes from a library of the kit, and the aliases of modules."""
    theirs, modules = set(), set()
    for line in re.findall(r'(?m)^(?:pub |ghost )?use ([^\n;]*)', text):
        m = re.match(r'([^\s{]+?)\.\{(.*)\}', line)
        if m:
            if not re.match(r'Rattle\.(%s)\b' % own, m[1]):
                theirs.update(re.split(r' as ', w.strip())[-1] for w in m[2].split(','))
        else:
            a = re.match(r'(\S+)(?: as (\S+))?', line)
            modules.add((a[2] or a[1].rsplit('.', 1)[-1]).strip(';'))
    return theirs, modules


def turn_antt(text, turned, fields, own):
    theirs, modules = imported(text, own)

    def one(m):
        word = m[0]
        if word[:1] in '"«' or word.startswith('--'):
            return word
        before = text[:m.start()]
        if before.endswith('.') and not before.endswith(' .') and not before.endswith('..'):
            head = re.search(r'([^\s(){};,@"«»]+)\.$', before)
            if head and head[1] in modules:
                return turned.get(word, word)
            return fields.get(word, word) if not head or '.' not in head[1] or word in fields else word
        if word in theirs:
            return word
        # a field in a record's text or type
        if word in fields and re.match(r' [=:] ', text[m.end():m.end() + 3]) and word not in turned:
            return fields[word]
        return turned.get(word, word)

    return WORD.sub(one, text)


def turn_rt(text, turned, own):
    """In a source only clauses, ghost items and comments can name what is declared; Rust's own names have neither a dash nor a capital inside."""
    theirs, _ = imported(text, own)
    tell = {old: new for old, new in turned.items() if re.search(r'[A-Z-]', old) and old not in theirs}
    camel = {old: new for old, new in tell.items() if '-' not in old}

    def clause(m):
        return re.sub(r'(?<![\w-])[a-z][\w\'-]*(?![\w-])', lambda w: tell.get(w[0], w[0]), m[0])

    text = re.sub(r'ghost use [^;]*;', clause, text)
    return re.sub(r'(?<![\w-])[a-z]\w*(?![\w-])', lambda w: camel.get(w[0], w[0]), text)


def main():
    own = '|'.join(re.findall(r'(?m)^([a-z0-9_]+):', read('crates.txt')))
    turned, fields = table()
    if sys.argv[1:] == ['--table']:
        for old, new in sorted({**fields, **turned}.items()):
            print(old, new)
        return
    count = 0
    for path in files('specs', 'proofs', 'src'):
        text = read(path)
        new = turn_rt(text, turned, own) if path.endswith('.rt') else turn_antt(text, turned, fields, own)
        if new != text:
            count += 1
            with open(path, 'w', encoding='utf-8') as f:
                f.write(new)
    print(f'port_names: {len(turned)} names and {len(fields)} fields turned in {count} files')


main()
