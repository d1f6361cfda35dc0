#!/usr/bin/env python3
"""The commands that README.md and docs/PROGRAMS.md show. In an indented block a line `$ COMMAND` is run by a shell and must print the lines behind it, and behind
`$ tools/desk` a line is typed and the next one is its answer, in turn; a line `make WORDS` names a target of the Makefile with variables that it knows; every
file that is linked to is there. The programs must be built. It runs in a folder of its own, which has the repository's tools, nights and target."""
import re
import subprocess
import sys
import tempfile
from pathlib import Path

ROOT = Path(__file__).resolve().parents[2]
DOCUMENTS = ('README.md', 'docs/PROGRAMS.md')


def blocks(text):
    """The indented lines of a document, as blocks, without their indent."""
    found = re.findall(r'(?m)(?:^    .*\n)+', text)
    return [[line[4:] for line in block.rstrip('\n').split('\n')] for block in found]


def calls(block):
    """Each command of a block with the lines behind it."""
    found = []
    for line in block:
        if line.startswith('$ '):
            found.append((line[2:], []))
        elif found:
            found[-1][1].append(line)
    return found


def said(command, typed, room):
    done = subprocess.run(['bash', '-c', command], input=typed, capture_output=True, text=True, cwd=room, timeout=100)
    return (done.stdout + done.stderr).rstrip('\n').split('\n')


def ran(block, room):
    """The faults of a block's commands, and how many they are."""
    faults, count = [], 0
    for command, told in calls(block):
        count += 1
        if command == 'tools/desk':
            typed, told = told[::2], told[1::2]
            got = said(command, ''.join(f'{line}\n' for line in typed), room)
        else:
            got = said(command, '', room)
        if got != told:
            faults.append(f'{command} prints {got}, not {told}')
    return faults, count


def made(block):
    """The faults of a block's calls of make, and how many they are."""
    lines = [line.split('#')[0].split() for line in block if line.startswith('make ')]
    makefile = (ROOT / 'Makefile').read_text()
    faults = []
    for _, target, *words in lines:
        if not re.search(rf'(?m)^{target}:', makefile):
            faults.append(f'make {target}: no such target')
        faults += [f'make {target}: {word} is no variable of the Makefile' for word in words if not re.search(rf'\b{word.split("=")[0]}\b', makefile)]
    return faults, len(lines)


def linked(name, text):
    """The files that a document links to and that are not there."""
    links = re.findall(r'\]\(([^)#]+)\)', text)
    return [f'{link} is not there' for link in links if '://' not in link and not (ROOT / name).parent.joinpath(link).exists()], len(links)


def held(name, text, room):
    faults, counts = linked(name, text)
    found = [counts, 0, 0]
    for block in blocks(text):
        for place, part in ((1, ran(block, room)), (2, made(block))):
            faults += part[0]
            found[place] += part[1]
    return faults, found


def main():
    with tempfile.TemporaryDirectory() as room:
        for name in ('tools', 'nights', 'target', 'VERSION'):
            (Path(room) / name).symlink_to(ROOT / name)
        # wrong ones are found
        for wrong in ('    $ echo a\n    b\n', '    make none\n', '    $ tools/desk\n    probe 8191\n    D 0\n', '[x](none.md)'):
            if not held('README.md', wrong, room)[0]:
                sys.exit('readme: the test itself is wrong')
        counts = [0, 0, 0]
        for name in DOCUMENTS:
            faults, found = held(name, (ROOT / name).read_text(), room)
            for fault in faults:
                print(f'readme: {name}: {fault}', file=sys.stderr)
            if faults:
                sys.exit(1)
            counts = [sum(pair) for pair in zip(counts, found)]
    if not all(counts):
        sys.exit('readme: nothing was run')
    print(f'readme: {counts[1]} commands print what is shown, {counts[2]} calls of make have their target, {counts[0]} links lead to files')


main()
