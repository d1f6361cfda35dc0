#!/usr/bin/env python3
"""The manual pages: mandoc finds nothing to warn of, each program that users call has one with every word of its usage, in order, and the library's has every
function that the header declares."""
import re
import subprocess
import sys
import tempfile
from pathlib import Path

ROOT = Path(__file__).resolve().parents[2]
# what builds the product is no user's
OWN = {'build', 'check', 'gate', 'lib'}


def called(*words):
    return subprocess.run(words, capture_output=True, text=True, check=True).stdout


def words_of(text):
    """Words without what lays them out: hyphens at a line's end, spaces, dashes, `usage:` and the marks between calls."""
    return re.findall(r"[A-Za-z0-9_<>@^'.]+", text)


def missing(wanted, page):
    """The first of the words that the page does not have behind those before; None where it has them all."""
    rest = iter(page)
    return next((word for word in wanted if word not in rest), None)


def held(folder):
    faults = []
    pages = {path.name: called('mandoc', '-T', 'utf8', '-O', 'width=500', str(path)) for path in sorted(folder.iterdir())}
    pages = {name: re.sub('.\b', '', page) for name, page in pages.items()}
    for path in sorted(folder.iterdir()):
        lint = subprocess.run(['mandoc', '-T', 'lint', '-W', 'warning', path], capture_output=True, text=True)
        if lint.returncode or lint.stdout:
            faults.append(f'{path.name}: {lint.stdout.strip()}')
    tools = {path.name for path in (ROOT / 'tools').iterdir() if path.is_file() and path.suffix == '' } - OWN
    if set(pages) != {f'{name}.1' for name in tools} | {'rokemaipu.3'}:
        faults.append(f'pages are {sorted(pages)}')
        return faults
    for name in sorted(tools):
        usage = called(str(ROOT / 'tools' / name), '--help')
        usage = re.sub(r'(?m)^options:\n  -h, --help .*\n', '', usage).removeprefix('usage: ').replace('Exit status: ', '')
        if (word := missing(words_of(usage), words_of(pages[f'{name}.1']))) is not None:
            faults.append(f'{name}.1: `{word}` of the usage is not in its place')
    declared = re.findall(r'(?m)^(?:static inline )?[a-z]\w* \*?(rokemaipu_\w+)\(', (ROOT / 'include/rokemaipu.h').read_text())
    faults += [f'rokemaipu.3: {name} is not there' for name in declared if not re.search(rf'\b{name}\(', pages['rokemaipu.3'].split('FUNCTIONS')[1])]
    if len(declared) < 20:
        faults.append(f'only {len(declared)} functions in the header')
    return faults


if missing(['a', 'c'], ['a', 'b', 'c']) is not None or missing(['c', 'a'], ['a', 'b', 'c']) != 'a':
    sys.exit('man: the test itself is wrong')
with tempfile.TemporaryDirectory() as room:
    subprocess.run([sys.executable, '-B', ROOT / 'man/make.py', room], check=True)
    faults = held(Path(room))
    # a page that lacks a line of its usage is found
    page = Path(room) / 'nightlog.1'
    page.write_text(page.read_text().replace('prints the records', 'prints'))
    if not held(Path(room)):
        sys.exit('man: the test itself is wrong')
for fault in faults:
    print(f'man: {fault}', file=sys.stderr)
if faults:
    sys.exit(f'man: {len(faults)} faults')
print('man: each program has its page, with its usage, and the library has one with each function; mandoc warns of nothing')
