#!/usr/bin/env python3
"""Brings the names of definitions, lemmas and fields that the documents have in code spans to the spelling of the Rattle of November 2026, as tools/port_names.py
and the kit's port.py brought them in the crates. It was run once; docs/PORT.md says so.

usage: tools/port_docs.py TABLE OLD FILE..
  TABLE    what `tools/port_names.py --table` prints in a checkout where port.py alone has run
  OLD      a checkout from before the port

A name is turned to what the table says, or else, where the crates do not have it any more, to its own words in snake case, if the crates have that now. What is left of the old crates' names is told and stays. `x .field` becomes `x.field`, and `f x .field`, which was the field of the whole, `(f x).field`.
A line that outgrows 160 characters hands its last words to the next one.
"""
import glob
import re
import sys

WORD = re.compile(r"[^\s(){}.;,@\"«»`*\[\]:|/]+")


def snake(name):
    words = re.sub(r'(?<=[a-z0-9])[A-Z]', lambda m: '_' + m[0].lower(), name)
    return words.replace('-', '_').replace('′', "'")


def vocabulary(root):
    """The words of the crates' texts, without comments."""
    words = set()
    for path in glob.glob(f'{root}/crates/*/*/**/*', recursive=True):
        if '/out/' in path or not path.endswith(('.rt', '.antt')):
            continue
        with open(path, encoding='utf-8') as f:
            for line in f:
                words.update(WORD.findall(re.split(r'--\s|//', line)[0]))
    return words


def tight(inner):
    """The projections of a statement, written tight; what is projected is an application as far as it goes."""
    while m := re.search(r"(?<=[\w')\]])\s+\.(?=[a-z0-9])", inner):
        at, depth, start, words = m.start(), 0, 0, 1
        for k in range(at - 1, -1, -1):
            c = inner[k]
            depth += (c in ')}') - (c in '({')
            if depth < 0:
                start = k + 1
                break
            if c == ' ' and not depth:
                before = re.search(r'(\S+)$', inner[:k])
                if not before or not re.search(r"[\w')}\]]$", before[1]) or before[1] in ('λ', '..'):
                    start = k + 1
                    break
                words += 1
        head = inner[start:at]
        inner = inner[:start] + (f'({head})' if words > 1 else head) + inner[m.end() - 1:]
    # a slice or a value that is lent: as it is, and where it is changed, as it was and as it is then
    inner = re.sub(r'\bnow \((\w+)\.exit\)', r'\1.new', inner)
    inner = re.sub(r'\bnow \((numbers|out|room)\.entry\)', r'\1.old', inner)
    inner = re.sub(r'\bnow \(t\.entry\)', 't.old' if 'start_of' in inner else 't.now', inner)
    inner = re.sub(r'\bnow \((\w+)\.entry\)', r'\1.now', inner)
    inner = re.sub(r'\bnow r\b', 'result.now', inner)
    if re.match(r'\(?r ≡ ', inner) or not re.search(r"[\w)'] r\b|\(r[ .]", inner):
        inner = re.sub(r'(^|[( ])r ≡ ', r'\1result ≡ ', inner)
    inner = re.sub(r"(?<![\w')])\((\((?:[^()]|\([^()]*\))*\)(?:\.\w+)+)\)", r'\1', inner)
    inner = inner.replace('getD ', 'get_or ')
    return re.sub(r"(?<![\w')])\(([\w']+(?:\.\w+)+)\)", r'\1', inner)


def fold(text):
    """No line of more than 160 characters."""
    lines, k = text.split('\n'), 0
    while k < len(lines):
        line = lines[k]
        if len(line) > 160 and ' ' in line.strip():
            cut = line.rindex(' ', 0, 161)
            rest, indent = line[cut + 1:], re.match(r'\s*(- )?', line)[0]
            indent = ' ' * len(indent)
            lines[k] = line[:cut]
            following = lines[k + 1] if k + 1 < len(lines) else ''
            if following.strip() and re.match(r' *', following)[0] == indent and not re.match(r'\s*(- |#|\||\d+\. )', following):
                lines[k + 1] = indent + rest + ' ' + following.strip()
            else:
                lines.insert(k + 1, indent + rest)
        k += 1
    return '\n'.join(lines)


def main():
    table = dict(line.split() for line in open(sys.argv[1], encoding='utf-8'))
    old, now = vocabulary(sys.argv[2]), vocabulary('.')
    left = {}
    for path in sys.argv[3:]:
        with open(path, encoding='utf-8') as f:
            text = f.read()

        def word(m):
            name = m[0]
            if re.search('[A-Z-]', name) and table.get(name) in now:
                return table[name]
            if name in now or not re.search(r'[A-Za-z]', name):
                return name
            for new in (table.get(name), snake(name)):
                if new and new != name and new in now:
                    return new
            if name in old:
                left.setdefault(name, path)
            return name

        def span(m):
            return f'`{tight(WORD.sub(word, m[1]))}`'

        new = re.sub(r'`([^`]*)`', span, text)
        if new != text:
            new = fold(new)
            with open(path, 'w', encoding='utf-8') as f:
                f.write(new)
    for name, path in sorted(left.items()):
        print(f'port_docs: {path}: {name} is left')


main()
