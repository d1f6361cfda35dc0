#!/usr/bin/env python3
"""make.py FOLDER [PREFIX]: writes the manual pages into FOLDER. A program's page is its own usage, what `--help` prints, laid out as a page; the library's is
the header. So nothing is said twice: here stand only each page's one line and its example. PREFIX goes before each program's name."""
import re
import subprocess
import sys
import textwrap
from pathlib import Path

ROOT = Path(__file__).resolve().parents[1]
VERSION = (ROOT / 'VERSION').read_text().strip()
# of the version
DATE = re.search(r'(?m)^## \S+, (\S+)$', (ROOT / 'CHANGELOG.md').read_text())[1]
PROGRAMS = {
    'nightlog': ('keeps the frames and ticks of a night in a file that stands a pulled plug',
                 'candump -L any | candump2log --lines | nightlog append night.log', 'candump2log replay compare'),
    'replay': ('replays a night log and tells what was found', 'replay depot.posts night.log', 'nightlog report desk'),
    'desk': ('answers steps of a script, a line for each', "echo 'probe -100' | desk", 'replay night'),
    'night': ('runs a script of the desk and tells what was found, in words', 'night march.desk', 'desk'),
    'compare': ('compares two night logs', 'compare gateway.log recorder.log 0 60000', 'nightlog'),
    'candump2log': ('turns a recording of candump into a night log', 'candump2log recording.candump night.log', 'log2candump nightlog'),
    'log2candump': ('turns a night log into a recording of candump', 'log2candump --start 1742000000 night.log -', 'candump2log nightlog'),
    'panel': ('shows what each post of a depot is doing now', 'panel depot.posts night.log --port 8600', 'nightlog replay report'),
    'report': ('writes a night as a page', 'replay --lines depot.posts night.log | report depot.posts night.log - night.html', 'replay nightlog'),
}
LIBRARY = 'reads, writes and changes the messages of charge controllers and watches the session of each charging post'


def text(words):
    """As roff reads it, in lines that are not too long: nothing in it is a request, and a hyphen is one."""
    words = textwrap.fill(words, 78, break_long_words=False, break_on_hyphens=False)
    return plain(words)


def plain(words):
    words = words.replace('\\', '\\e').replace('-', '\\-')
    return '\n'.join('\\&' + line if line[:1] in ('.', "'") else line for line in words.split('\n'))


def page(name, section, line, *parts):
    head = [f'.TH {name.upper()} {section} {DATE} "Rokemaipu {VERSION}" "Rokemaipu"', '.SH NAME', f'{plain(name)} \\- {plain(line)}']
    return '\n'.join([*head, *(part for title, body in parts for part in (f'.SH {title}', *body))]) + '\n'


def literal(lines):
    """Whole paragraphs of it, an empty line between."""
    return ['.nf', *(plain(line) if line else '.sp' for line in lines), '.fi']


class Usage:
    """The parts of what `--help` prints: the calls, paragraphs and items (a head and what is said of it), and the exit statuses."""

    def __init__(self, told):
        before, self.statuses = told.split('Exit status: ')
        self.calls, self.body = [], []
        for line in before.split('\n'):
            if line.startswith('usage: ') or self.calls and not self.body and line.startswith(' ' * 7):
                self.calls += [call.strip() for call in line.removeprefix('usage: ').split('; ')]
            elif found := re.fullmatch(r'  (\S+(?: \S+)*)(?:  +(\S.*))?', line):
                self.body.append((found[1], [found[2]] if found[2] else []))
            elif line.startswith('   ') and self.body and self.body[-1][0] is not None:
                self.body[-1][1].append(line.strip())
            elif self.body and self.body[-1][0] is None and self.body[-1][1] and line:
                self.body[-1][1].append(line)
            else:
                self.body.append((None, [line] if line else []))

    def description(self):
        lines = []
        for head, said in self.body:
            if head == '-h, --help' or said == ['options:']:
                continue
            if head is not None:
                lines += ['.TP', f'.B {plain(head)}', text(' '.join(said)) if said else '\\&']
            elif said:
                lines += ['.PP', text(' '.join(said))]
        return lines


def program(name, prefix):
    line, example, others = PROGRAMS[name]
    told = subprocess.run([ROOT / 'tools' / name, '--help'], capture_output=True, text=True, check=True).stdout
    usage = Usage(told)
    calls = [part for call in usage.calls for part in (plain(call), '.br')][:-1]
    options = ['.TP', '.B \\-\\-help', 'prints the usage.', '.TP', '.B \\-\\-version', 'prints the version.']
    also = [', '.join(f'\\fB{plain(prefix + other)}\\fR(1)' for other in others.split(' ')) + ', \\fBrokemaipu\\fR(3)']
    description = usage.description()
    return page(prefix + name, 1, line, ('SYNOPSIS', calls), ('DESCRIPTION', description[1:] if description[0] == '.PP' else description), ('OPTIONS', options),
                ('EXIT STATUS', [text(' '.join(usage.statuses.split()))]), ('EXAMPLES', literal([example])), ('SEE ALSO', also))


def comment(words):
    """A comment of C as lines of text, without what marks it as one."""
    return [re.sub(r'^ ?\* ?', '', line).rstrip() for line in words.strip().removeprefix('/*').removesuffix('*/').strip().split('\n')]


def paragraphs(lines):
    """What is indented stays as it is; all else is filled."""
    out, filled = [], []
    for line in [*lines, '']:
        if line and not line.startswith('  '):
            filled.append(line)
            continue
        if filled:
            out += ['.PP', text(' '.join(filled))]
            filled = []
        if line:
            out += literal([line])
    joined = '\n'.join(out).replace('\n.fi\n.nf\n', '\n')
    return joined.split('\n') if joined else []


def library():
    header = (ROOT / 'include/rokemaipu.h').read_text()
    first = comment(header[:header.index('*/') + 2])
    lines = paragraphs(first[1:])
    functions = re.findall(r'(?m)^/\*((?:(?!\*/).)*)\*/\n((?:static inline )?[a-z]\w* \*?(rokemaipu_\w+)\([^;{]*\)) ?[;{]', header, re.S)
    declared = [['.PP', '.B ' + text(' '.join(prototype.split()) + ';').replace('\n', '\n.B '), *paragraphs(comment(said))] for said, prototype, _ in functions]
    return page('rokemaipu', 3, LIBRARY, ('SYNOPSIS', literal(['#include <rokemaipu.h>', '', 'cc gateway.c $(pkg-config --cflags --libs rokemaipu)'])),
                ('DESCRIPTION', lines[1:] if lines[0] == '.PP' else lines), ('FUNCTIONS', [part for lines in declared for part in lines][1:]),
                ('SEE ALSO', ['\\fBnightlog\\fR(1), \\fBreplay\\fR(1)']))


def main(folder, prefix=''):
    folder = Path(folder)
    folder.mkdir(parents=True, exist_ok=True)
    for name in PROGRAMS:
        (folder / f'{prefix}{name}.1').write_text(program(name, prefix))
    (folder / 'rokemaipu.3').write_text(library())


if __name__ == '__main__':
    main(*sys.argv[1:])
