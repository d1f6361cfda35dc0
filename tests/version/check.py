#!/usr/bin/env python3
"""The version stands in VERSION: the header's number is the same and so is candump's word, the first heading of CHANGELOG.md has it with its date, and each note
of docs/landings has its line there."""
import re
import sys
from pathlib import Path

ROOT = Path(__file__).resolve().parents[2]


def faults(version, header, changes, notes, candump):
    """What is not as it should be."""
    found = []
    if not re.fullmatch(r'\d+\.\d\d\n', version):
        found.append(f'VERSION is {version!r}, no number like 1.01')
    if re.findall(r'(?m)^#define ROKEMAIPU_VERSION (\d+)', header) != [version.strip().replace('.', '')]:
        found.append('include/rokemaipu.h has another ROKEMAIPU_VERSION')
    if f'VERSION: &str = "{version.strip()}";' not in candump:
        found.append('candump/src/program.rs has another VERSION')
    heads = re.findall(r'(?m)^## (.*)$', changes)
    if not heads or not re.fullmatch(re.escape(version.strip()) + r', \d{4}-\d\d-\d\d', heads[0]):
        found.append(f'CHANGELOG.md does not begin with {version.strip()} and its date')
    return found + [f'CHANGELOG.md has no line for docs/landings/{note}' for note in notes if changes.count(f'](docs/landings/{note}):') != 1]


version, header, changes, candump = ((ROOT / name).read_text() for name in ('VERSION', 'include/rokemaipu.h', 'CHANGELOG.md', 'candump/src/program.rs'))
notes = sorted(path.name for path in (ROOT / 'docs/landings').glob('*.md'))
right = {'version': version, 'header': header, 'changes': changes, 'notes': notes, 'candump': candump}
found = faults(**right)
for fault in found:
    print(f'version: {fault}', file=sys.stderr)
# each is found where it is wrong
for wrong in ({'version': '1.1\n'}, {'header': header.replace('ROKEMAIPU_VERSION ', 'ROKEMAIPU_VERSION 9')}, {'changes': changes.replace('\n## ', '\n## 9', 1)},
              {'notes': [*notes, '99.md']}, {'candump': candump.replace('VERSION: &str = "', 'VERSION: &str = "9')}):
    if len(faults(**{**right, **wrong})) <= len(found):
        sys.exit('version: the test itself is wrong')
if found or not notes:
    sys.exit(f'version: {len(found)} faults')
print(f'version: {version.strip()} in the header, in candump and in CHANGELOG.md, with a line for each of {len(notes)} landings')
