"""The curves of a page, held to the readings that were accepted."""
import re

from drawn import axis

NEAR = 1.0
PANELS = {'voltage': 1, 'current': 2, 'insulation': 3}


def curves(page, told, whole=True):
    """`whole`: each reading must lie on its curve; else the curve may be thinned, but its highest and lowest stay."""
    faults = []
    drawings = {int(re.match(r'Curves of post (\d+):', svg['aria-label'])[1]): svg for svg in page.all('svg', 'readings')}
    if sorted(drawings) != sorted(post for post, statuses in told.statuses.items() if statuses):
        faults.append(f'curves of posts {sorted(drawings)}')
    for post, svg in drawings.items():
        place = axis(svg, min(told.times))
        for name, column in PANELS.items():
            panel = svg.one('g', name)
            of = height(panel, name)
            readings = [(place(status[0]), of(status[column])) for status in told.statuses[post]]
            faults += [f'post {post}, {name}: {fault}' for fault in against(lines(panel), readings, whole)]
    return faults


def height(panel, name):
    """The place of a value, by the lowest and the highest label of its axis; insulation's is a scale of roots, from 0 on."""
    labels = sorted((float(label.text()), float(label['y']) - 4) for label in panel.all('text', 'tick'))
    (low, bottom), (high, top) = labels[0], labels[-1]

    def of(value):
        share = (value - low) / (high - low)
        return bottom + (top - bottom) * (share ** 0.5 if name == 'insulation' else share)
    return of


def lines(panel):
    """The corners of each line of the panel's curve."""
    path, = (path for path in panel.all('path', 'curve') if 'least' not in path.classes)
    return [[tuple(map(float, corner.split(' '))) for corner in line.split('L')] for line in path['d'].split('M')[1:]]


def against(lines, readings, whole):
    corners = [corner for line in lines for corner in line]
    at = {}
    for x, y in readings:
        at.setdefault(round(x), []).append((x, y))
    for x, y in corners:
        if not any(abs(x - a) <= NEAR and abs(y - b) <= NEAR for n in (-1, 0, 1) for a, b in at.get(round(x) + n, [])):
            yield f'a corner at {x} {y} that no reading has'
    for pick in (min, max):
        if abs(pick(y for _, y in corners) - pick(y for _, y in readings)) > NEAR:
            yield f'not the {pick.__name__} of the readings'
    for x, y in readings if whole else []:
        if not any(passes(line, x, y) for line in lines):
            yield f'a reading at {x} {y} that is not on the curve'


def passes(line, x, y):
    for (left, a), (right, b) in zip(line, line[1:]):
        if left - NEAR <= x <= right + NEAR:
            share = 0 if right == left else min(1, max(0, (x - left) / (right - left)))
            if abs(a + share * (b - a) - y) <= NEAR:
                return True
    return False
