"""design_lists.py OLD NEW [LOG]: docs/DESIGN-CHANGES.md on standard output, from two checkouts and the log of an `rt ci` of the new one.

What changed by text: public signatures, clauses, ghost items of types, traits and impls, definitions, theorems, must-fail edits; and what went, each with
what states its promise now, which design_went.txt beside this tells. It ends with 1, and says why on standard error, where something that went has no line
there, or a line names what does not stand.
The kit's contracts.py reads src/ and specs/; which function is which of before is told here, since a name may stand in many crates.
"""
import collections
import pathlib
import re
import sys
import textwrap

sys.path.insert(0, "/opt/rattle/port")
import contracts  # noqa: E402

PROGRAMS = {"desk", "nightlog", "replay", "compare", "readings"}
HAND = {"Proof.antt", "Answers.antt", "Invariants.antt"}


def wrapped(mark, text):
    return textwrap.fill(text, 156, initial_indent=f"  {mark} ", subsequent_indent="    ", break_long_words=False, break_on_hyphens=False)


def squeezed(text):
    return re.sub(r"\s+", " ", text).strip()


def laws(root):
    """(crate, file, name) of each law of proofs/ with its statement, behind the hypotheses of the modules around it, and whether it is marked as a theorem"""
    found = {}
    for path in sorted(pathlib.Path(root).glob("crates/*/proofs/**/*.antt")):
        if path.name in HAND:
            continue
        lines, crate = path.read_text().split("\n"), path.parts[path.parts.index("crates") + 1]
        at, heads = 0, []
        while at < len(lines):
            deep = len(lines[at]) - len(lines[at].lstrip())
            if lines[at].strip():
                heads = [h for h in heads if h[0] < deep]
            if re.match(r" *module\b", lines[at]):
                head = lines[at]
                while not re.search(r"\bwhere$", head) and at + 1 < len(lines):
                    at += 1
                    head += " " + lines[at].strip()
                heads.append((deep, re.sub(r"^ *module _ |\s*\bwhere$", "", head)))
                at += 1
                continue
            m = re.match(r"^( *)((?:pub |abbrev |unfoldable )*)([^\s:({]+) : (.*)$", lines[at])
            if not m or m.group(3) in ("use", "module", "record", "data"):
                at += 1
                continue
            text, end = m.group(4), at + 1
            while end < len(lines) and lines[end].startswith(m.group(1) + "  ") and not re.match(rf"^ *{re.escape(m.group(3))}[ ={{]", lines[end]):
                text += " " + lines[end].strip()
                end += 1
            above, mark = at - 1, False
            while above >= 0 and lines[above].strip().startswith("--"):
                mark = mark or "THEOREM" in lines[above]
                above -= 1
            found[crate, path.name, m.group(3)] = (squeezed(" ".join([*(h for _, h in heads), ":" if heads else "", text])), mark)
            at = end
    return found


def types(root):
    """(crate, name) of each public struct, enum and named type of the libraries with its text"""
    found = {}
    for path in sorted(pathlib.Path(root).glob("crates/*/src/**/*.rt")):
        raw = path.read_text()
        code = contracts.blank(raw)
        for m in re.finditer(r"((?:#\[[^\]]*\]\s*)*)pub (?:struct|enum|type)\s+(\w+)", code):
            brace, stop = code.find("{", m.end()), code.find(";", m.end())
            end = stop + 1 if brace < 0 or 0 <= stop < brace else contracts.closing(code, brace)
            found[path.parts[path.parts.index("crates") + 1], m.group(2)] = squeezed(re.sub(r"//[^\n]*", "", raw[m.start():end]))
    return {key: text for key, text in found.items() if key[0] not in PROGRAMS}


# functions that are another crate's now, with other clauses: (crate, type or trait, name) of before and of now
MOVED = {
    ("lent_words", "", "answer_word"): ("plain_words", "", "answer_word"),
    ("desk_buffers", "", "front"): ("console", "", "front"),
    ("desk_batch", "", "batch"): ("desk_table", "Way", "batch"),
}


def found_again(old, new):
    """each function of before with what it is now: at its place; by type and name, or as a method or function of its name, in its crate; in another crate where
    clauses and signature, or name, type and clauses, are the same; or as MOVED says. A public one is paired with a public one alone, or with a trait's method."""
    plain = lambda found: [(k, x) for k, v in sorted(found.items()) for x in v if not x["test"] and not x["in tests"]]  # noqa: E731
    seen = lambda k, x: x["pub"] or k[2] != "" and " for " in k[2]  # noqa: E731
    traits = {(k[0], k[2]) for k, x in plain(new) if not x["body"]}
    is_public = lambda k, x: seen(k, x) or (k[0], k[2]) in traits  # noqa: E731
    alike = lambda x, y: contracts.clauses(x) == contracts.clauses(y)  # noqa: E731
    olds, left, pairs = plain(old), plain(new), []
    tests = (
        lambda a, x, b, y: a == b and alike(x, y),
        lambda a, x, b, y: a == b,
        lambda a, x, b, y: (a[0], a[2], a[3]) == (b[0], b[2], b[3]) and x["pub"] == is_public(b, y),
        lambda a, x, b, y: MOVED.get((a[0], a[2], a[3])) == (b[0], b[2], b[3]),
        lambda a, x, b, y: (a[0], a[3]) == (b[0], b[3]) and x["pub"] == is_public(b, y),
        lambda a, x, b, y: a[3] == b[3] and x["pub"] == y["pub"] and alike(x, y) and (x["ensures"] != [] or x["sign"] == y["sign"]),
    )
    for test in tests:
        alone = []
        for a, x in olds:
            i = next((i for i, (b, y) in enumerate(left) if a[3] == b[3] and test(a, x, b, y)), None)
            if i is None:
                alone.append((a, x))
            else:
                b, y = left.pop(i)
                pairs.append((a, x, b, y))
        olds = alone
    return sorted(pairs, key=lambda p: (p[0], p[2])), olds


def place(key):
    return " ".join(part for part in key if part)


def print_clauses(mark, f):
    for kind in "requires", "ensures":
        for _, name, clause in f[kind]:
            print(wrapped(mark, f"{kind} {name + ' ' if name else ''}{{ {clause} }}"))


def named(root):
    """every word between backticks in README and docs/"""
    text = "\n".join(p.read_text() for p in [pathlib.Path(root) / "README.md", *sorted((pathlib.Path(root) / "docs").glob("**/*.md"))] if p.name not in ("DESIGN-CHANGES.md", "DESIGN-PASS.md", "PORT.md"))
    return set(re.findall(r"[^\s`(),;]+", " ".join(re.findall(r"`([^`\n]+)`", text))))


def first_errors(log):
    """crate/edit with what refused it, as `rt ci` printed it"""
    found = {}
    for line in pathlib.Path(log).read_text(errors="replace").splitlines() if log else []:
        m = re.search(r"must-fail (\w+)/([\w.-]+)\.edit: (?:refused[^:]*: )?(.*)$", line)
        if m:
            found[f"{m.group(1)}/{m.group(2)}"] = m.group(3)
    return found


def edits(root):
    return {f"{p.parts[-3]}/{p.stem}": p.read_text().strip() for p in sorted(pathlib.Path(root).glob("crates/*/must-fail/*.edit"))}


class Went:
    """design_went.txt: what states now what went said, by kind, crate, place and name"""

    def __init__(self, root):
        self.root, self.said, self.asked, self.without = pathlib.Path(root), {}, set(), []
        for line in (pathlib.Path(__file__).parent / "design_went.txt").read_text().split("\n"):
            if line.startswith("  "):
                for key in keys:
                    self.said[key] = (self.said.get(key, "") + " " + line.strip()).strip()
            elif line and not line.startswith("#"):
                head, names = line.split(": ")
                kind, crate, *place = head.split()
                keys = [(kind, crate, " ".join(place), name) for name in names.split(", ")]

    def of(self, kind, crate, place, name, whole_place=False):
        """what states it now; whole_place where the place's `*` does for it"""
        key = (kind, crate, place, name)
        if key not in self.said and whole_place:
            key = (kind, crate, place, "*")
        if key not in self.said:
            self.without.append(f"{kind} {crate} {place}: {name}")
            return "?"
        self.asked.add(key)
        return self.said[key].replace("{name}", name)

    def check(self):
        """whether each that was asked for is told, by what stands in the tree"""
        crates = {p.name for p in self.root.glob("crates/*")}
        words = {}
        for key in self.asked:
            for crate, name in re.findall(r"`(\w+)::(?:\w+::)*([\w{}]+)`", self.said[key].replace("{name}", key[3])):
                if crate[:1].islower() and not re.fullmatch(r"[iu](8|16|32|64|size)", crate):
                    if crate not in words:
                        files = [p for of in ("src", "specs", "proofs") for p in self.root.glob(f"crates/{crate}/{of}/**/*") if p.suffix in (".rt", ".antt")]
                        words[crate] = set(re.findall(r"[\w']+", "\n".join(p.read_text() for p in files)))
                    if crate not in crates or name not in words[crate]:
                        self.without.append(f"{' '.join(key)}: there is no {crate}::{name}")
        for one in self.without:
            print("tools/design_went.txt: " + one, file=sys.stderr)
        for key in sorted(set(self.said) - self.asked):
            print("tools/design_went.txt, and did not go: " + " ".join(key), file=sys.stderr)
        return not self.without


def print_went(rows):
    """rows of crate, place, name and what states it now: one block for those of a place of which the same is told"""
    blocks = collections.defaultdict(list)
    for crate, where, name, text in rows:
        blocks[crate, where, text].append(name)
    for (crate, where, text), names in sorted(blocks.items()):
        print(textwrap.fill(f"{crate} {where}: {', '.join(names)}", 156, subsequent_indent="  "))
        print(wrapped("=", text))


def section(title, said=""):
    print(f"\n## {title}\n")
    if said:
        print(said + "\n")


def main():
    old, new, log = sys.argv[1], sys.argv[2], sys.argv[3] if len(sys.argv) > 3 else None
    (_, of, og, os_, _, _), (_, nf, ng, ns, _, _) = contracts.read(old), contracts.read(new)
    pairs, alone = found_again(of, nf)
    went = Went(new)
    traits = {(k[0], k[2]) for k, v in nf.items() for x in v if not x["body"]}
    private = [(a, x) for a, x, b, y in pairs if x["pub"] and not y["pub"] and " for " not in b[2] and (b[0], b[2]) not in traits]
    begun = (pathlib.Path(new) / "docs/DESIGN-PASS.md").read_text().split("\n", 1)[0]
    fewer = [p for p in pairs if len(p[3]["ensures"]) < len(p[1]["ensures"])]
    more = [p for p in pairs if len(p[3]["requires"]) > len(p[1]["requires"])]
    print("# What the design pass changed, old and new\n")
    print(f"Made by tools/design_lists.py from {begun[:8]} and the tree as it stands: public signatures, clauses, ghost items, definitions of specs/ and the stated laws of")
    print("proofs/, each old (-) and new (+).")
    print(f"Of {len(pairs)} functions that stand, {sum(bool(x['ensures']) and not y['ensures'] for _, x, _, y in pairs)} have lost every `ensures`, {len(fewer)} have fewer ({', '.join(sorted({p[0][0] for p in fewer})) or 'none'}: two clauses are one), {len(more)} have more `requires`.")
    print("In definitions and laws most of what changed is how a case is written: `Frame k n` is `Ok (k, n)`, `Refused w` is `Err w`, `At i` is `Some i`,")
    print("`Nothing` is `None`, and so on (docs/DESIGN-PASS.md has the types).")

    section("Public signatures of the libraries, and where a function stands now")
    print("```")
    for a, x, b, y in pairs:
        if a[0] not in PROGRAMS and x["pub"] and (x["sign"] != y["sign"] or (a[0], a[2]) != (b[0], b[2])):
            print(place(a) + ("" if (a[0], a[2]) == (b[0], b[2]) else f", now {place(b)}"), wrapped("-", x["sign"]), wrapped("+", y["sign"]), sep="\n")
    print("```")

    section("Clauses")
    print("```")
    for a, x, b, y in pairs:
        if contracts.clauses(x) != contracts.clauses(y):
            print(place(a) + ("" if a == b else f", now {place(b)}"))
            print_clauses("-", x)
            print_clauses("+", y)
    print("```")

    section("Public functions of the libraries that went, with what they said and what states it now",
            "Behind `=` stands what states it now: a function, with its clause where it has other words, or what the library says.")
    print("```")
    for a, x in sorted(alone + private, key=lambda f: f[0]):
        if x["pub"] and a[0] not in PROGRAMS and x["ensures"]:
            print(place(a), wrapped("-", x["sign"]), sep="\n")
            print_clauses("-", x)
            print(wrapped("=", went.of("function", a[0], a[1], a[3])))
    print("```")

    section("Functions that take another type in place of a clause or of a wider type",
            "No public function that another crate can call is among them; behind `=` stand the type, who builds it and who calls the function.")
    print("```")
    for a, x, b, y in pairs:
        if ("takes", a[0], a[1], a[3]) in went.said:
            print(place(a) + ("" if (a[0], a[2]) == (b[0], b[2]) else f", now {place(b)}"), wrapped("-", x["sign"]), sep="\n")
            for _, _, clause in x["requires"]:
                print(wrapped("-", f"requires {{ {clause} }}"))
            print(wrapped("+", y["sign"]))
            print(wrapped("=", went.of("takes", a[0], a[1], a[3])))
    print("```")

    before, after = types(old), types(new)
    section("Public types of the libraries", "Those that changed, and those that went with what stands in their place.")
    print("```")
    for key in sorted(before):
        if after.get(key) != before[key]:
            print(" ".join(key), wrapped("-", before[key]), sep="\n")
            print(wrapped("+", after[key]) if key in after else wrapped("=", went.of("type", key[0], "", key[1])))
    print("```")

    section("Type invariants, ghost fields, trait clauses and the laws of impls")
    print("```")
    for key in sorted(set(og) | set(ng)):
        if key[1] != "const" and sorted(og.get(key, [])) != sorted(ng.get(key, [])):
            print(" ".join(key))
            for mark, side, other in (("-", og, ng), ("+", ng, og)):
                for text in side.get(key, []):
                    if text not in other.get(key, []):
                        print(wrapped(mark, text))
    print("```")

    section("Definitions of specs/")
    print("```")
    gone, changed, _ = contracts.beside(os_, ns)
    for crate, name, before, after in sorted(changed):
        print(f"{crate} {name}")
        for mark, side in (("-", before), ("+", after)):
            for text in side:
                print(wrapped(mark, squeezed(text)))
    print("```")
    # one that has the name of another of its crate, or stands in another crate word for word, is found above
    if gone:
        section("Definitions that went, and what states their promise")
        print("```")
        print_went([(c, "specs", n, went.of("definition", c, "", n)) for c, n in sorted(map(tuple, gone))])
        print("```")

    before, after, words = laws(old), laws(new), named(old) | named(new)
    wanted = {k for k, (_, mark) in before.items() if mark or k[2] in words}
    by_name = collections.defaultdict(list)
    for (crate, file, name), (text, _) in after.items():
        by_name[crate, name].append((file, text))
    changed, missing = [], []
    for crate, file, name in sorted(wanted):
        text = before[crate, file, name][0]
        same_file = [t for f, t in by_name.get((crate, name), []) if f == file]
        # a file may have been named anew, and what another file of the crate has by that name is another law where one of before had it there too
        there = same_file or [t for f, t in by_name.get((crate, name), []) if (crate, f, name) not in before]
        # or the same law in another crate, word for word
        there = there or [t for (c, n), ts in by_name.items() if n == name for _, t in ts if t == text]
        if not there:
            missing.append((crate, file, name))
        elif text not in there:
            changed.append((f"{crate} {file} {name}", text, there[0]))
    section("Theorems of proofs/, those marked THEOREM and those that README or docs/ name",
            f"{len(wanted)} stood; {len(changed)} are written anew, {len(missing)} have no law of their name, the others are word for word as they were.")
    if missing:
        print(textwrap.fill("Of no law of their name now, each a lemma that has the name of something else that README or docs/ name (\"Lemmas that went\", below): " + ", ".join(f"{c} {f} `{n}`" for c, f, n in missing) + ".", 156) + "\n")
    print("```")
    for what, a, b in changed:
        print(what, wrapped("-", a), wrapped("+", b), sep="\n")
    print("```")

    a, b, said = edits(old), edits(new), first_errors(log)
    # an edit that went to another crate with what it edits keeps its name
    of = {name.split("/")[1]: name for name in b}
    a = {of.get(name.split("/")[1], name) if name not in b else name: text for name, text in a.items()}
    lost = sorted(set(a) - set(b))
    shown = [name for name in sorted(b) if a.get(name) != b[name]]
    refused = sum(name in said for name in shown)
    told = "; all are refused (`rt ci`)" if all(name in said for name in b) else ""
    if said:
        told += f"; beside {'each' if refused == len(shown) else refused} of the {len(shown)} below stands the beginning of what refuses it"
    section("Must-fail edits whose text changed, and those that are new",
            f"{len(b)} stand, {len(lost)} of before are missing{': ' + ', '.join(lost) if lost else ''}{told}.")
    print("```")
    for name in shown:
        print(name + ("" if name in a else " (new)"))
        for mark, text in (("-", a.get(name, "")), ("+", b[name])):
            for line in text.split("\n") if text else []:
                print(wrapped(mark, line))
        if name in said:
            print(wrapped("=", said[name]))
    print("```")

    section("Other functions that went, and what states their promise",
            "A private function with a clause (`*`) served its callers alone: the clauses of these stand and are proved, so that they state what it did.\n"
            "A function of a program, and one without a clause, promised that it takes any input: whoever does its work now is proved to.")
    rows = []
    for a, x in sorted(alone, key=lambda f: f[0]):
        if not (x["pub"] and a[0] not in PROGRAMS and x["ensures"]):
            rows.append((a[0], a[1], a[3] + ("*" if x["ensures"] else ""), went.of("function", a[0], a[1], a[3], not x["ensures"])))
    print("```")
    print_went(rows)
    print("```")

    section("Lemmas that went, and what states what they said",
            "Each said a step of a function's proof by hand that the check takes itself now, or stands under another name; no theorem is among them.")
    # one that moved stands word for word elsewhere
    stated = {(name, text) for (_, _, name), (text, _) in after.items()}
    lemmas = missing + [
        (crate, file, name) for crate, file, name in sorted(before)
        if (crate, name) not in by_name and (name, before[crate, file, name][0]) not in stated and (crate, file, name) not in wanted and "-" not in name[:1]
    ]
    print("```")
    print_went([(c, f, n, went.of("lemma", c, f, n)) for c, f, n in sorted(lemmas)])
    print("```")
    return 0 if went.check() else 1


if __name__ == "__main__":
    sys.exit(main())
