#!/usr/bin/env python3
"""places.py [--commit COMMIT] [--list POINT] [--reasons]: counts in src/ the places that docs/DESIGN-PASS.md speaks of, point by point.

A place is found by its text alone, so each is to be looked at. One that stays has its reason in a comment, `Kept (POINTS): why`: in the lines above it, above
the function that it stands in, or at the head of the file where it holds for all of the file. --reasons prints it, and fails where there is none.
"""
import argparse
import collections
import pathlib
import re
import subprocess
import sys

ROOT = pathlib.Path(__file__).resolve().parent.parent


def sources(commit):
    """each .rt file of src/ with its text"""
    if commit is None:
        return {str(p.relative_to(ROOT)): p.read_text() for p in sorted(ROOT.glob("crates/*/src/**/*.rt"))}
    names = subprocess.run(["git", "ls-tree", "-r", "--name-only", commit, "crates"], cwd=ROOT, capture_output=True, text=True, check=True).stdout.split("\n")
    wanted = [n for n in names if re.match(r"crates/\w+/src/.*\.rt$", n)]
    return {n: subprocess.run(["git", "show", f"{commit}:{n}"], cwd=ROOT, capture_output=True, text=True, check=True).stdout for n in wanted}


def code(text):
    """the text with comments blanked, line by line"""
    return re.sub(r"(?m)(^|\s)//.*$", lambda m: m.group(1), text)


# a reason, as it stands in a comment: Kept (POINTS): why
REASON = re.compile(r"Kept \(([\d, ]+)\): (.*?)(?= Kept \(|$)")


def reason_at(text, at, point):
    """what a comment says of why the place in line `at` stays, or None"""
    lines = text.split("\n")

    def above(i):
        """the comment that ends above line i (from 0), with attributes and clauses passed over"""
        found = []
        i -= 1
        while i >= 0 and (lines[i].strip().startswith("//") or lines[i].strip().startswith("#[")):
            if lines[i].strip().startswith("//"):
                found.insert(0, lines[i].strip().lstrip("/").strip())
            i -= 1
        return " ".join(found)

    blocks = [above(at - 1)]
    head = next((i for i in range(at - 1, -1, -1) if re.match(r"\s*(pub(\(\w+\))? )?(extern \"C\" )?(fn|enum|struct|impl|trait) ?", lines[i])), None)
    if head is not None:
        blocks.append(above(head))
    first = []
    for l in lines:
        if not l.startswith("//"):
            break
        first.append(l.lstrip("/").strip())
    blocks.append(" ".join(first))
    for block in blocks:
        for points, why in REASON.findall(block):
            if str(point) in re.findall(r"\d", points):
                return why
    return None


def line_of(text, at):
    return text.count("\n", 0, at) + 1


def body(text, at):
    """what stands between the brace at `at` and the one that closes it"""
    depth = 0
    for i in range(at, len(text)):
        depth += {"{": 1, "}": -1}.get(text[i], 0)
        if depth == 0:
            return text[at + 1 : i]
    return text[at + 1 :]


def variants(inner):
    """the cases of an enum, each with what it carries"""
    found, depth, start = [], 0, 0
    for i, c in enumerate(inner + ","):
        depth += {"(": 1, "{": 1, ")": -1, "}": -1}.get(c, 0)
        if c == "," and depth == 0:
            piece = inner[start:i].strip()
            start = i + 1
            if piece:
                m = re.match(r"(\w+)\s*(.*)", piece, re.S)
                found.append((m.group(1), m.group(2).strip("(){} \n,")))
    return found


def functions(text):
    """name, parameters, clauses and place of each function"""
    for m in re.finditer(r"\bfn (\w+)(?:<[^>]*>)?\(", text):
        depth, i = 0, m.end() - 1
        while i < len(text):
            depth += {"(": 1, ")": -1}.get(text[i], 0)
            if depth == 0:
                break
            i += 1
        inside = re.sub(r"\s+", " ", text[m.end() : i]).strip().rstrip(",")
        rest = text[i + 1 :]
        head = re.split(r"\n\{|\{\n", rest, maxsplit=1)[0]
        yield m.group(1), [p.strip() for p in split(inside)], head, line_of(text, m.start())


def split(inside):
    out, depth, start = [], 0, 0
    for i, c in enumerate(inside):
        depth += {"(": 1, "[": 1, "<": 1, ")": -1, "]": -1, ">": -1}.get(c, 0)
        if c == "," and depth == 0:
            out.append(inside[start:i])
            start = i + 1
    return [p for p in out + [inside[start:]] if p.strip()]


def point1(files):
    """enums of two cases of which one carries a value and the other none or a refusal; enums with one case that carries the answer and others that say why
    there is none (a case Bad, Cut, Ill, Refused, Nothing, No, Unread); functions that answer a refusal as a number"""
    for name, text in files.items():
        t = code(text)
        for m in re.finditer(r"\benum (\w+) \{", t):
            vs = variants(body(t, m.end() - 1))
            bare = [v for v, inner in vs if not inner or re.fullmatch(r"(why: )?Refusal", inner)]
            full = [v for v, inner in vs if inner and not re.fullmatch(r"(why: )?Refusal", inner)]
            words = {"Bad", "Cut", "Ill", "Refused", "Nothing", "No", "Unread", "Short", "NoKind", "Never", "Closed", "Late"}
            two = len(vs) == 2 and (len(full) == 1 or any("Refusal" in inner for _, inner in vs) or (words & {v for v, _ in vs} and full))
            more = len(vs) > 2 and len(full) <= 2 and words & {v for v, _ in vs}
            if two or more:
                yield name, line_of(t, m.start()), "enum " + m.group(1)
        for fn, params, head, at in functions(t):
            if re.search(r"->\s*u(8|32)\b", head) and re.search(r"refus|word", head + fn):
                yield name, at, "number " + fn


def point2(files):
    """functions of a crate, or of two, whose text is the same but for names and numbers"""
    seen = collections.defaultdict(list)
    for name, text in files.items():
        t = code(text)
        for m in re.finditer(r"(?m)^\s*(?:pub )?(?:extern \"C\" )?fn (\w+)", t):
            brace = t.find("\n{", m.end())
            single = t.find("{", m.end())
            at = brace + 1 if 0 <= brace else single
            inner = body(t, at)
            if inner.count("\n") < 3:
                continue
            shape = re.sub(r"\b\d[\w.]*\b", "0", inner)
            shape = re.sub(r"b?\"[^\"]*\"|b'[^']*'", "s", shape)
            words = {}
            shape = re.sub(r"\b(?!let|mut|if|else|while|loop|match|return|for|in|as|fn|break|true|false\b)[A-Za-z_]\w*", lambda w: words.setdefault(w.group(), f"n{len(words)}"), shape)
            seen[re.sub(r"\s+", " ", shape)].append((name, line_of(t, m.start(1)), m.group(1)))
    for group in seen.values():
        if len(group) > 1:
            for name, at, fn in group[1:]:
                yield name, at, f"{fn} like {group[0][2]} ({group[0][0].split('/')[1]})", group


def point3(files):
    """`while` and `loop`"""
    for name, text in files.items():
        t = code(text)
        for m in re.finditer(r"(?m)^\s*(?:'\w+: )?(while|loop)\b[^\n]*", t):
            yield name, line_of(t, m.start(1)), m.group().strip()


def point4(files):
    """pairs of functions that turn a type into a number and back, equality written out, and printing of a type by hand"""
    for name, text in files.items():
        t = code(text)
        for fn, params, head, at in functions(t):
            own = [p for p in params if re.search(r": [A-Z]\w+$", p)]
            if len(params) == 1 and own and re.search(r"->\s*(u8|u32|i64|u64|usize)\b", head) and re.search(r"number|word|kind|raw", fn):
                yield name, at, "to a number: " + fn
            elif len(params) == 1 and re.search(r": (u8|u32|u64|i64|usize)$", params[0]) and re.search(r"->\s*[A-Z]\w+\b", head) and not re.search(r"->\s*(Option|Result)", head):
                yield name, at, "of a number: " + fn
            elif re.match(r"(is_)?(same|equal|equals|eq)(_|$)", fn) and re.search(r"->\s*bool", head):
                yield name, at, "equality: " + fn


def point5(files):
    """three or more parameters that travel together through three or more functions, and a premise that stands in three or more functions"""
    groups, premises = collections.defaultdict(list), collections.defaultdict(list)
    for name, text in files.items():
        t = code(text)
        for fn, params, head, at in functions(t):
            clean = [re.sub(r"^mut ", "", p) for p in params]
            for i in range(len(clean) - 2):
                groups[tuple(clean[i : i + 3])].append((name, at, fn))
            for m in re.finditer(r"requires(?: \w+)? \{([^}]*)\}", head):
                premises[re.sub(r"\s+", " ", m.group(1)).strip()].append((name, at, fn))
    for what, places in groups.items():
        if len({(n, f) for n, _, f in places}) >= 3:
            yield places[0][0], places[0][1], f"{len(places)} functions take {', '.join(what)}", places
    for what, places in premises.items():
        if len(places) >= 3:
            yield places[0][0], places[0][1], f"{len(places)} functions need {what}", places


def point6(files):
    """buffers of fixed size made in a function, and structs with an array and a count beside it"""
    for name, text in files.items():
        t = code(text)
        for m in re.finditer(r"let mut \w+ = (\[\w+; \w+\]|console::(large_)?buffer\(\))", t):
            yield name, line_of(t, m.start()), m.group()
        for m in re.finditer(r"\bstruct (\w+) \{", t):
            inner = body(t, m.end() - 1)
            if re.search(r": \[", inner) and re.search(r"\b(count|length|len|n|used)\b: ", inner):
                yield name, line_of(t, m.start()), "struct " + m.group(1)


def point7(files):
    """a match of four or more cases, each of which calls a function of its own"""
    for name, text in files.items():
        t = code(text)
        for m in re.finditer(r"\bmatch [^{\n]+\{", t):
            inner = body(t, m.end() - 1)
            arms = re.findall(r"(?m)^\s*[^\n=]+=> (?:\w+::)*([a-z]\w*)\(", inner)
            if len(set(arms)) >= 4:
                yield name, line_of(t, m.start()), m.group().strip()


def point8(commit):
    """proofs by hand: files of proofs/ that close a function's goals in full (tie.close)"""
    if commit is None:
        texts = {str(p.relative_to(ROOT)): p.read_text() for p in sorted(ROOT.glob("crates/*/proofs/**/*.antt"))}
        for n, t in texts.items():
            if "tie.close" in t:
                yield n, 1, f"{t.count(chr(10))} lines"
        return
    out = subprocess.run(["git", "grep", "-l", "tie.close", commit, "--", "crates/*/proofs/*"], cwd=ROOT, capture_output=True, text=True, check=False).stdout
    for l in out.split("\n"):
        if l:
            yield l.split(":", 1)[1], 1, ""


def main():
    p = argparse.ArgumentParser(description=__doc__.split("\n")[0])
    p.add_argument("--commit", help="count in a commit, not in the files as they stand")
    p.add_argument("--list", type=int, metavar="POINT", help="print each place of a point")
    p.add_argument("--reasons", action="store_true", help="print why each place stays, and fail where one says nothing")
    a = p.parse_args()
    silent = 0
    files = sources(a.commit)
    points = [point1, point2, point3, point4, point5, point6, point7]
    for i, f in enumerate(points, 1):
        places = list(f(files))
        if a.list in (None, i):
            print(f"{i}: {len(places)}")
        if a.list == i:
            for name, at, what, *_ in places:
                print(f"   {name}:{at}: {what}")
        if a.reasons and a.list in (None, i):
            for name, at, what, *group in places:
                why = next(filter(None, (reason_at(files[n], l, i) for n, l, _ in [(name, at, what)] + [g for gs in group for g in gs])), None)
                silent += why is None
                print(f"   {name}:{at}: {what}: {why or 'NO REASON'}")
    if a.list in (None, 8):
        places = list(point8(a.commit))
        print(f"8: {len(places)}")
        if a.list == 8:
            for name, at, what in places:
                print(f"   {name}: {what}")
        if a.reasons and a.commit is None:
            for name, at, what in places:
                why = next(iter(REASON.findall(re.sub(r"\s*\n-- ", " ", (ROOT / name).read_text().split("\n\n")[0]).replace("-- ", ""))), None)
                silent += why is None
                print(f"   {name}: {what}: {why[1] if why else 'NO REASON'}")
    return 1 if silent else 0


if __name__ == "__main__":
    sys.exit(main())
