#!/usr/bin/env python3
"""architecture.py [--check]: draws docs/architecture.svg from crates.txt: a band for each layer with its crates, lowest at the bottom, and an arrow from a layer
to each one that it is built on, but for those that it reaches through another one. --check says whether the picture is that of crates.txt."""
import re
import sys
from pathlib import Path

ROOT = Path(__file__).resolve().parents[1]
PICTURE = ROOT / 'docs/architecture.svg'
WIDTH, LETTER, LINE, GAP, MARGIN, LANE = 1120, 7.3, 24, 26, 16, 13
PROGRAMS = 'programs'


def layers(text):
    """The layers in their order, each with its crates and what each of them names."""
    found = []
    for line in text.splitlines():
        if head := re.fullmatch(r'# ---- (.*)', line):
            found.append((head[1], {}))
        elif crate := re.fullmatch(r'(\w+):(.*)', line):
            found[-1][1][crate[1]] = crate[2].split()
    return found


def built_on(found):
    """Of each layer by its number those that its crates name, without those that are reached through another one."""
    of = {crate: k for k, (_, crates) in enumerate(found) for crate in crates}
    direct = [{of[name] for names in crates.values() for name in names if name in of} - {k} for k, (_, crates) in enumerate(found)]

    def reached(k, seen=()):
        """An order of layers: one that is built on itself through others is a fault of crates.txt."""
        if k in seen:
            sys.exit(f'architecture: the layer {found[k][0]!r} is built on itself')
        return direct[k] | {below for next_ in direct[k] for below in reached(next_, (*seen, k))}

    return [{below for below in direct[k] if not any(below in reached(other) for other in direct[k])} for k in range(len(found))]


def rows(crates, room):
    """The crates' names in lines that fit, each with its place."""
    lines, at = [[]], 0
    for name in crates:
        size = len(name) * LETTER + 14
        if at + size > room and lines[-1]:
            lines.append([])
            at = 0
        lines[-1].append((name, at, size))
        at += size + 8
    return lines


def drawn(text):
    found = layers(text)
    arrows = [(k, below) for k, belows in enumerate(built_on(found)) for below in sorted(belows)]
    lanes = lanes_of(arrows)
    left = MARGIN + 30 + LANE * (max(lanes.values()) + 1)
    y, places, parts = MARGIN, {}, []
    for k in reversed(range(len(found))):
        title, crates = found[k]
        lines = rows(crates, WIDTH - left - 2 * MARGIN - 10)
        height = 26 + LINE * len(lines) + 6
        parts.append(f'<rect x="{left}" y="{y}" width="{WIDTH - left - MARGIN}" height="{height}" rx="6" class="{"top" if title == PROGRAMS else "layer"}"/>')
        parts.append(f'<text x="{left + 10}" y="{y + 18}" class="title">{title}</text>')
        for n, line in enumerate(lines):
            for name, at, size in line:
                x, top = left + 10 + at, y + 26 + n * LINE
                parts.append(f'<rect x="{x:.0f}" y="{top}" width="{size:.0f}" height="19" rx="3" class="crate"/><text x="{x + 7:.0f}" y="{top + 14}">{name}</text>')
        places[k] = (y, height)
        y += height + GAP
    for (upper, lower), lane in lanes.items():
        x = left - 22 - LANE * lane
        starts = sum(1 for other in arrows if other[0] == upper and lanes[other] < lane)
        ends = sum(1 for other in arrows if other[1] == lower and lanes[other] < lane)
        from_y, to_y = sum(places[upper]) - 10 - 7 * starts, places[lower][0] + 12 + 7 * ends
        parts.append(f'<path d="M {left} {from_y} H {x} V {to_y} H {left - 2}" class="arrow" marker-end="url(#head)"><title>{found[upper][0]}: {found[lower][0]}</title></path>')
    style = ('text { font: 12px ui-monospace, monospace; fill: #1d2733 } .title { font: bold 13px sans-serif } .layer { fill: #eef3f8; stroke: #9fb3c8 } '
             '.top { fill: #e9f5ec; stroke: #8fbf9c } .crate { fill: #ffffff; stroke: #c5d2df } .arrow { fill: none; stroke: #5b7083; stroke-width: 1.2 }')
    return '\n'.join([
        f'<svg xmlns="http://www.w3.org/2000/svg" viewBox="0 0 {WIDTH} {y - GAP + MARGIN}" width="{WIDTH}" height="{y - GAP + MARGIN}" role="img" aria-label="The layers and their crates">',
        f'<style>{style}</style>',
        '<defs><marker id="head" viewBox="0 0 8 8" refX="7" refY="4" markerWidth="7" markerHeight="7" orient="auto"><path d="M 0 0 L 8 4 L 0 8 z" fill="#5b7083"/></marker></defs>',
        f'<rect width="{WIDTH}" height="{y - GAP + MARGIN}" fill="#ffffff"/>', *parts, '</svg>', ''])


def lanes_of(arrows):
    """A lane for each arrow, so that two that pass each other have different ones: short arrows next to the bands."""
    lanes = {}
    for arrow in sorted(arrows, key=lambda arrow: (abs(arrow[0] - arrow[1]), arrow)):
        taken = {lane for other, lane in lanes.items() if max(min(arrow), min(other)) < min(max(arrow), max(other))}
        lanes[arrow] = next(lane for lane in range(len(arrows) + 1) if lane not in taken)
    return lanes


def main(words):
    text = (ROOT / 'crates.txt').read_text()
    if words == ['--check']:
        if not PICTURE.exists() or PICTURE.read_text() != drawn(text):
            sys.exit('architecture: docs/architecture.svg is not that of crates.txt: docs/architecture.py draws it')
        # another crates.txt has another picture
        if drawn(text) == drawn(text.replace('\nservice:\n', '\nservices:\n')):
            sys.exit('architecture: the test itself is wrong')
        print(f'architecture: docs/architecture.svg is that of crates.txt, {len(layers(text))} layers')
    else:
        PICTURE.write_text(drawn(text))


main(sys.argv[1:])
