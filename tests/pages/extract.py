#!/usr/bin/env python3
"""extract.py PAPER: the signals of the maker's pages as lines of text, taken from the document itself.

A line for each signal, in the document's order:  MESSAGE IDENTIFIER BYTES SIGNAL START WIDTH TYPE SCALE OFFSET LABELS UNIT
TYPE is the document's word; of document 004, which has no word for it, the byte order and Signed or Unsigned, joined by ','. LABELS is NAME=NUMBER joined
by ';', or '-'; so is UNIT where there is none. `000.txt`, `001.txt` and `004.txt` beside this file were made by it from those documents; check.py holds the crates to them.
"""
import re
import sys


def cells(line):
    return [c.strip() for c in line.strip().strip('|').split('|')]


def tables(lines):
    """Documents 000 and 001: a heading for each message and signal, and tables with bars."""
    message = identifier = size = signal = row = None
    labels = []

    def done():
        if row:
            yield [message, identifier, size, signal, row[0], row[1], row[2].replace(' ', '_'), row[4], row[5], ';'.join(labels) or '-', row[3] or '-']

    for line in lines:
        if line.startswith('## ') and '{' in line:
            yield from done()
            message, row, labels = line.split()[1], None, []
        elif line.startswith('#### '):
            yield from done()
            signal, row, labels = line.split()[1], None, []
        elif line.startswith('| **Frame ID**'):
            identifier = cells(line)[1]
        elif line.startswith('| **Length [Bytes]**'):
            size = cells(line)[1]
        elif re.match(r'\| \d+ \| \d+ \|', line):
            row = cells(line)
        elif row and re.match(r'\| [^|]+ \| \d+ \|$', line):
            name, number = cells(line)
            labels.append(f'{name}={number}')
    yield from done()


def lists(lines):
    """Document 004: a title for each message, its signals as a list of lists, and its labels as a list behind them."""
    signs = {'Yes': 'Signed', 'No': 'Unsigned'}
    message = identifier = size = labelled = None
    rows = []
    for line, below in zip(lines, lines[1:] + ['']):
        if below.startswith('==='):
            message = line
        elif told := re.match(r'\*\*ID\*\*: (0x\w+)', line):
            identifier = told[1]
        elif told := re.match(r'\*\*Length\*\*: (\d+)', line):
            size = told[1]
        elif told := re.match(r'   \* - (.*)', line):
            rows.append((message, identifier, size, [told[1]], []))
        elif told := re.match(r'     - (.*)', line):
            rows[-1][3].append(told[1])
        elif told := re.match(r'- \*\*(\w+)\*\*', line):
            labelled = next(r for r in rows if r[0] == message and r[3][0] == told[1])
        elif told := re.match(r'  - (0x\w+) = (\S+)', line):
            labelled[4].append(f'{told[2]}={int(told[1], 16)}')
    for message, identifier, size, (name, start, width, order, signed, scale, offset, unit, *_), labels in rows:
        if name != 'Name':
            yield [message, identifier, size, name, start, width, order.replace(' ', '_') + ',' + signs[signed], scale, offset, ';'.join(labels) or '-', unit or '-']


if __name__ == '__main__':
    if len(sys.argv) != 2:
        sys.exit(__doc__)
    with open(sys.argv[1], encoding='utf-8') as paper:
        text = paper.read().splitlines()
    for s in (lists if any('list-table' in line for line in text) else tables)(text):
        print(' '.join(s))
