#!/usr/bin/env python3
"""No line of the documents, and no comment, is longer than 160 characters."""
import re
import sys
from pathlib import Path

MOST = 160
ROOT = Path(__file__).resolve().parents[2]

# how a line begins that is a comment, by the file's ending; a file without one is a script
COMMENT = {
    '.rt': '//', '.rs': '//', '.antt': '--', '.py': '#', '.sh': '#', '.txt': '#', '.toml': '#', '': '#',
    '.c': r'//|/\*|\* ', '.h': r'//|/\*|\* ', '.css': r'/\*|\* ', '.js': r'//|/\*|\* ', '.edit': '#',
}


def is_held(path, line):
    if path.suffix == '.md':
        return True
    marks = COMMENT.get(path.suffix)
    return marks is not None and re.match(rf'\s*(?:{marks})', line) is not None


def too_long(path, text):
    """The lines that are too long, by their numbers."""
    return [k for k, line in enumerate(text.split('\n'), 1) if len(line) > MOST and is_held(path, line)]


def sources():
    """Every file of the repository; what is built stands in folders of these names, and is none."""
    built = {'.git', 'target', 'out', '__pycache__'}
    paths = (path.relative_to(ROOT) for path in sorted(ROOT.rglob('*')) if path.is_file())
    return [path for path in paths if not built & set(path.parts)]


def main():
    faults = held = 0
    for path in sources():
        if path.suffix != '.md' and path.suffix not in COMMENT:
            continue
        try:
            text = (ROOT / path).read_text()
        except UnicodeDecodeError:
            continue
        held += 1
        for k in too_long(path, text):
            faults += 1
            print(f'lines: {path}:{k}: over {MOST} characters', file=sys.stderr)
    # a line of 161 is found, one of 160 is not, and code may be longer
    for line, wanted in (('x' * 161, [1]), ('x' * 160, [])):
        if too_long(Path('a.md'), line) != wanted:
            sys.exit('lines: the test itself is wrong')
    if too_long(Path('a.rt'), '// ' + 'x' * 160) != [1] or too_long(Path('a.rt'), 'let x = ' + '1' * 160) != []:
        sys.exit('lines: the test itself is wrong')
    if faults:
        sys.exit(f'lines: {faults} too long')
    print(f'lines: documents and comments of {held} files have at most {MOST} characters a line')


main()
