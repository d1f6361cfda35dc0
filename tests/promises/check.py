#!/usr/bin/env python3
"""docs/PROMISES.md names every must-fail edit, and no other: each stands there in italics. And what an edit replaces stands in its file, once, behind what its
earlier lines replaced, and something is changed: `rt ci` would tell it too, but only behind all proofs."""
import re
import sys
from pathlib import Path

ROOT = Path(__file__).resolve().parents[2]

edits = [path.stem for path in ROOT.glob('crates/*/must-fail/*.edit')]
named = set(re.findall(r'\*([a-z0-9]+(?:_[a-z0-9]+)+)\*', (ROOT / 'docs/PROMISES.md').read_text()))
faults = [f'{name} is not named' for name in sorted(set(edits) - named)]
faults += [f'{name} is named, and there is no such edit' for name in sorted(named - set(edits))]
for path in sorted(ROOT.glob('crates/*/must-fail/*.edit')):
    texts, was, file, old = {}, {}, None, None
    for line in path.read_text().split('\n'):
        if line.startswith('file: '):
            file = line.removeprefix('file: ').strip()
            if file not in texts:
                texts[file] = was[file] = (path.parents[1] / file).read_text()
        elif line.startswith('old: '):
            old = line.removeprefix('old: ')
        elif line.startswith('new:'):
            if texts[file].count(old) != 1:
                faults.append(f'{path.stem}: not once in its file: {old.strip()}')
            texts[file] = texts[file].replace(old, line.removeprefix('new:').removeprefix(' '))
    if texts == was:
        faults.append(f'{path.stem}: changes nothing')
for fault in faults:
    print(f'promises: {fault}', file=sys.stderr)
if faults or not edits:
    sys.exit(f'promises: {len(faults)} faults')
print(f'promises: docs/PROMISES.md names all {len(edits)} must-fail edits, and no other; what each replaces stands in its file')
