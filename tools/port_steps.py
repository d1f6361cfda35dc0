#!/usr/bin/env python3
"""Writes in the proofs by hand the names that the Rattle of November 2026 makes of goals, steps and places.

usage: tools/port_steps.py LIST CRATE

LIST is the names.json that `rattle check --generated DIR --old-names` writes for the crate, and CRATE its folder. The goals, which the older Rattle counted
(returns-2), and the steps (if1, Else1) have their names of the source now (returns-else-signed, if-signed). It rewrites proofs/**/Proof.antt in place, once.
"""
import glob
import json
import os
import re
import sys

TOKEN = re.compile(r'--[^\n]*|"(?:\\.|[^"\\\n])*"|[^\s(){};,@"«»]+')
plain = lambda n: n.replace('_', '-').lower()
# what the older Rattle joined by dashes, and what stood before a goal's name
WORDS = {'type-inv': 'type_inv', 'well-formed': 'well_formed', 'yielded-by': 'yielded_by', 'len-below': 'len_below'}
KINDS = re.compile(r'^(overflow|nonzero|bounds|offset-bounds|slice-bounds)-')
HOLDERS = ('args', 'ranges', 'initial', 'fn')


class Steps:
    """The places of a function, each with its parent, its old and new field, and what stands below its arm."""

    def __init__(self, of):
        # a parameter of an array or a struct, which the older Rattle counted
        self.args = {}
        for old, new in of.get('args') or []:
            m, n = re.match(r'\.(?:args|ranges) \.(\S+)$', old), re.match(r'\.(?:args|ranges) \.(\S+)$', new)
            if m and n:
                self.args[m[1]] = n[1]
        self.goals = {plain(old): new for old, new in of['needs']}
        self.order = [new for _, new in of['needs']]
        self.at = {}
        self.places = []
        for (old, parent, (was, now), _, subs), named, arm in zip(of['places'], of['places_by_name'], of['arms']):
            self.at.setdefault(plain(old), len(self.places))
            self.places.append((plain(old), plain(parent) if parent else None, plain(was), now, dict(subs), named, arm))
        self.params = {plain(old): of['params'].get(callee) for old, _, _, callee, _ in of['places'] if callee}
        self.asked = {new: self.at.get(plain(old)) for (_, new), (old, _) in zip(of['needs'], of['asked_at'])}
        self.loops, self.vars = {}, {}
        for it, changed in zip(of.get('loops') or [], of.get('changed') or []):
            self.vars[it[0][1]] = len(it[1]) + sum(changed)
        for it in of.get('loops') or []:
            self.loops[plain(it[0][0])] = it[0][1]

    def place(self, name):
        it = plain(name)
        for form in (it, re.sub(r'2$', '', it), it + '2'):
            if form in self.at:
                return self.at[form]
        return None

    def last(self, i):
        """An arm is one step today: its last place, where the older Rattle had several."""
        if i is None:
            return None
        arm = self.places[i][6]
        while arm and self.places[i][5].lower() != arm[0].lower():
            after = [k for k in range(len(self.places)) if self.parent(k) == i and self.places[k][6] and self.places[k][6][0] == arm[0]]
            if len(after) != 1:
                break
            i = after[0]
        return i

    def goal(self, name):
        it = plain(name)
        for form in (it, KINDS.sub('', it), re.sub(r'^slice-bounds-', 'part-', it)):
            for way in (form, re.sub(r'-(\d+)$', r'\1', form), re.sub(r'(\D)(\d+)$', r'\1-\2', form), re.sub(r'2(?=-|$)', '', form)):
                if way in self.goals:
                    return self.goals[way]
        return None

    def parent(self, i):
        up = self.places[i][1]
        return self.at.get(up) if up is not None else None

    def up(self, i):
        while i is not None:
            yield i
            i = self.parent(i)

    def before(self, i):
        """The place that `.before` of a place leads to today: an arm is one step, and was several."""
        arm = self.places[i][6]
        up = self.parent(i)
        if arm and self.places[i][5].lower() != arm[0].lower():
            return up
        while arm and up is not None and self.places[up][6] and self.places[up][6][0] == arm[0]:
            up = self.parent(up)
        return up

    def befores(self, i, to):
        """How many times `.before` leads from one place to another, or None."""
        count = 0
        while i is not None:
            if i == to:
                return count
            i, count = self.before(i), count + 1
        return None

    def partial(self, i, parts):
        """An arm that holds what stands below an older value's `given`, where the parts lead only on the way to it."""
        it = plain(parts[0])
        for form in (it, re.sub(r'2$', '', it)):
            for at in list(self.up(i)) if i is not None else range(len(self.places)):
                arm = self.places[at][6]
                subs = [(sub, path[len(parts) - 1:]) for sub, field, path in (arm[2] if arm else []) if plain(field) == form and path[:len(parts) - 1] == parts[1:] and len(path) >= len(parts)]
                if subs:
                    return arm[0], subs
        return None

    def resolve(self, i, parts):
        """How many of the parts are taken for what: the new parts, or None. i is the place, or None where it is not known."""
        it = plain(parts[0])
        if it.isdigit():
            return None
        forms = [f for f in (it, re.sub(r'2$', '', it), re.sub(r'-lem$', '', it)) if f]
        places = list(self.up(i)) if i is not None else range(len(self.places))
        for form in forms:
            for at in places:
                _, _, was, now, subs, _, arm = self.places[at]
                if arm:
                    for sub, field, path in sorted(arm[2], key=lambda s: -len(s[2])):
                        if plain(field) == form and path == parts[1:1 + len(path)] and not sub.endswith('-own'):
                            return 1 + len(path), [arm[0], sub]
                if was == form:
                    own = next((sub for sub, field, path in (arm[2] if arm else []) if plain(field) == form and not path), None)
                    if arm and own:
                        return 1, [arm[0], own]
                    if len(parts) > 1 and parts[1] in subs:
                        return 2, [now, subs[parts[1]]]
                    params = self.params.get(self.places[at][0])
                    if params and len(parts) > 2 and parts[1] == 'new':
                        n, name = param_at(params, parts[2:])
                        if name:
                            return 2 + n, [now, 'new', name]
                    return 1, [now]
        return None

    def called(self, i, parts):
        """The parameters of the call that the parts name, and nothing below it."""
        it = plain(parts[0])
        if len(parts) != 1:
            return None
        for form in (it, re.sub(r'2$', '', it)):
            for at in list(self.up(i)) if i is not None else range(len(self.places)):
                if self.places[at][2] == form and self.params.get(self.places[at][0]):
                    return self.params[self.places[at][0]]
        return None


def param_at(params, path):
    """The parameter that a path of an older nest of pairs leads to (0, 1.0, 1.1.0, ..), and the path's length."""
    n = 0
    while n < len(path) and path[n] == '1':
        n += 1
    if n < len(path) and path[n] == '0' and n < len(params):
        return n + 1, params[n]
    return 0, None


def turn(text, of):
    steps, said = Steps(of), set()
    # the place that a helper of the file speaks of
    helpers = {name: steps.last(steps.place(place)) for name, place in re.findall(r'(?m)^(?:abbrev |pub )*(\S+) : (?:\{[^{}\n]*\} )*\(\w+ : tie\.([^\s(){};,]+)', text)}

    results = {}
    for name, place in re.findall(r'(?m)^(?:abbrev |pub )*(\S+) : [^\n]*→ tie\.([^\s(){};,]+)[^→\n]*$', text):
        results[name] = steps.place(place)

    def tie(parts):
        it = parts[1]
        if it.startswith('Need-'):
            new = steps.goal(it[5:])
            if new is None:
                said.add(f'no goal {it}')
                return None
            return '.'.join(['tie', 'Need-' + new, *parts[2:]])
        for head in ('invariant-', 'decreases-'):
            if it.startswith(head) and plain(it[len(head):]) in steps.loops:
                return '.'.join(['tie', head + steps.loops[plain(it[len(head):])], *parts[2:]])
        at = steps.place(it)
        return None if at is None else '.'.join(['tie', steps.places[steps.last(at)][5], *parts[2:]])

    def block(lines, at=None):
        """One declaration, with the places of its variables."""
        known, real, aliases, calls = {}, {}, {}, {}
        if at is not None:
            known['c'] = at
        head = re.match(r'(?:abbrev |pub )*(\S+) : tie\.Need-([^\s(){};,]+)', lines)
        if head:
            new = steps.goal(head[2])
            known['c'] = steps.asked.get(new)
        for names, place in re.findall(r'\(([\w\' ]+) : tie\.([^\s(){};,]+)', lines):
            for name in names.split():
                known[name] = steps.place(place)
                real[name] = steps.last(known[name])

        for name, helper in re.findall(r'let (\S+) = ([^\s(){};,@]+) ', lines):
            if results.get(helper) is not None:
                known[name], real[name] = results[helper], steps.last(results[helper])

        def dotted(m):
            word = m[0]
            if word.startswith(('--', '"')) or '.' not in word:
                return word
            parts = word.split('.')
            parts[1:] = [steps.args.get(p, p) for p in parts[1:]]
            word = '.'.join(parts)
            if parts[0] == 'tie':
                return tie(parts) or word
            if parts[0] in aliases:
                for sub, path in sorted(aliases[parts[0]], key=lambda s: -len(s[1])):
                    if path and parts[1:1 + len(path)] == path:
                        return '.'.join([parts[0], sub, *parts[1 + len(path):]])
                return word
            if parts[0] in calls and parts[1] == 'new':
                n, name = param_at(calls[parts[0]], parts[2:])
                return '.'.join([parts[0], 'new', name, *parts[2 + n:]]) if name else word
            at = known.get(parts[0])
            seen = parts[0] in known
            start = at
            out, i, ups = [parts[0]], 1, 0
            while i < len(parts) and parts[i] == 'before':
                ups += 1
                i += 1
                at = steps.parent(at) if at is not None else None
            rest = parts[i:]
            if not rest or not rest[0]:
                bound = re.search(r'let (\S+) = $', lines[:m.start()])
                if bound and seen:
                    # what a helper is asked of it says where it stands
                    for it in re.finditer(r'(?<![\w\'.-])([^\s(){};,@]+) ' + re.escape(bound[1]) + r'(?![\w\'.-])', lines[m.end():]):
                        if helpers.get(it[1]) is not None:
                            at = helpers[it[1]]
                            break
                    known[bound[1]] = at
                    # a place gives what stands further out too
                    if not re.search(r'(?<![\w\'.-])' + re.escape(bound[1]) + r'(?![\w\'.-])', lines[m.end():]):
                        real[bound[1]] = real.get(parts[0], start)
                        return '.'.join([parts[0]] + rest)
                helper = re.search(r'([^\s(){};,@]+) \(?$', lines[:m.start()])
                if helper and helpers.get(helper[1]) is not None and seen:
                    at = helpers[helper[1]]
                # a helper whose answer is a place
                to = re.search(r'→ tie\.([^\s(){};,]+)[^\n→]*\n', lines)
                if seen and to and re.search(r'^\S+( \S+)* =\s*$', lines[:m.start()].split('\n')[-1] or lines[:m.start()].split('\n')[-2]):
                    at = steps.last(steps.place(to[1])) if steps.place(to[1]) is not None else at
                count = steps.befores(real.get(parts[0], start), at) if at is not None else None
                if bound and seen:
                    real[bound[1]] = at
                if count is None and at is not None:
                    count = steps.befores(real.get(parts[0], start), steps.last(at))
                    if bound and seen:
                        real[bound[1]] = steps.last(at)
                return '.'.join([parts[0]] + ['before'] * (ups if count is None else count) + rest)
            if not seen and ups == 0 and i == 1 and parts[0]:
                # a value that is no place: only the spelling of a field can have changed
                return '.'.join([parts[0], *[WORDS.get(p, p) for p in parts[1:]]])
            if rest[0] == 'fits' and seen and len(rest) > 1:
                rest[0] = 'ranges'
            if rest[0] not in ('args', 'ranges', 'requires', 'well_formed', 'well-formed', 'type-inv', 'type_inv', 'given', 'world'):
                bound = re.search(r'let (\S+) = $', lines[:m.start()])
                found = None
                if 'given' in rest:
                    whole = steps.resolve(at, rest) or steps.resolve(start, rest)
                    found = None if whole and whole[0] > 1 else steps.partial(at, rest) or steps.partial(start, rest)
                    if found and bound:
                        aliases[bound[1]] = found[1]
                        return '.'.join([parts[0], found[0]])
                    if found:
                        said.add(f'part of an arm: {word}')
                if bound:
                    it = steps.called(at, rest) or steps.called(start, rest)
                    if it:
                        calls[bound[1]] = it
                found = steps.resolve(at, rest) or steps.resolve(start, rest)
                if found:
                    n, new = found
                    rest = new + rest[n:]
                else:
                    out += ['before'] * ups
            elif rest[0] in ('given', 'world'):
                out += ['before'] * ups
            rest = [WORDS.get(p, p) for p in rest]
            return '.'.join(out + rest)

        return TOKEN.sub(dotted, lines)

    def closing(lines):
        """What closes the proof: an answer that is written there speaks of the place of its goal."""
        m = re.search(r'tie\.spec\s', lines)
        out, i, k = lines[:m.end()], m.end(), -2 * len(steps.vars)
        while i < len(lines):
            if lines[i] == '(':
                depth, j = 0, i
                while True:
                    depth += (lines[j] == '(') - (lines[j] == ')')
                    j += 1
                    if depth == 0:
                        break
                at = steps.asked.get(steps.order[k]) if 0 <= k < len(steps.order) else None
                out += block(lines[i:j], at)
                k, i = k + 1, j
            elif lines[i] == ')':
                return out + lines[i:]
            elif lines[i].isspace():
                out, i = out + lines[i], i + 1
            else:
                word = re.match(r'[^\s()]+', lines[i:])[0]
                k += 1
                out, i = out + word, i + len(word)
        return out

    parts = re.split(r'(\n\n+)', text)
    text = ''.join(p if k % 2 else closing(p) if re.search(r'tie\.spec\s', p) else block(p) for k, p in enumerate(parts))
    # an invariant is over the variables of today
    def fewer(m):
        names = m[3].split()
        want = steps.vars.get(m[1])
        if want is not None and len(names) > want:
            names = [n for n in names if not re.fullmatch(r't\d+₀?', n)]
        return f'{m[0][:m.start(3) - m.start()]}{" ".join(names)} ='

    text = re.sub(r'tie\.(?:invariant|decreases)-([^\s(){};,]+)\n(\S+) ([^=\n]*) =', fewer, text)
    # the answers carry the goals' names
    renamed = {}
    for name, goal in re.findall(r'(?m)^(\S+) : tie\.Need-([^\s(){};,]+)', text):
        renamed[name] = goal
    text = TOKEN.sub(lambda m: renamed.get(m[0], m[0]), text)
    # what closes the proof takes the goals in today's order
    m = re.search(r'tie\.spec\b((?:\s+[^\s()]+)*)\)', text)
    if not m:
        said.add('answers are written where it closes')
    if m:
        given = m[1].split()
        first = [g for g in given if g not in renamed.values()]
        missing = [n for n in steps.order if n not in renamed.values()]
        for n in missing:
            said.add(f'no answer to {n}')
        for g in first:
            if not g.startswith(('invariant', 'decreases')):
                said.add(f'not a goal now: {g}')
        first = [g for g in first if g.startswith(('invariant', 'decreases'))]
        add = ''.join(f'{n} : tie.Need-{n} {" ".join(first)}'.rstrip() + f'\n{n} c = search rules\n\n' for n in missing)
        whole = re.search(r'(?m)^pub \S+_spec :', text)
        text = text[:m.start(1)] + ' ' + ' '.join(first + steps.order) + text[m.end(1):]
        text = text[:whole.start()] + add + text[whole.start():]
    return text, said


def main():
    names, crate = json.load(open(sys.argv[1])), sys.argv[2].rstrip('/')
    name = os.path.basename(crate)
    for path in sorted(glob.glob(f'{crate}/proofs/**/Proof.antt', recursive=True)):
        function = os.path.dirname(os.path.relpath(path, f'{crate}/proofs')).replace('/', '.')
        of = names.get(f'Rattle-{name}-proofs.{function}.Lts')
        if of is None:
            print(f'{path}: no names')
            continue
        text = open(path).read()
        if 'tie.close' not in text:
            print(f'{path}: by hand')
            continue
        new, said = turn(text, of)
        for it in sorted(said):
            print(f'{path}: {it}')
        with open(path, 'w') as f:
            f.write(new)


main()
