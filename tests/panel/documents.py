"""The maker's documents in the tests' own reading: a number in the desk's notation as the page means it, and the desk's words for the findings."""
import re

from depot import ROOT

UNITS = {'Volts': ' V', 'Amps': ' A', 'kOhms': ' kOhm', '-': ''}


def documents():
    """Each message by its identifier and form: name, and of each signal name, scale, unit, labels."""
    found = {}
    for name in ('000', '004', '001'):
        for line in (ROOT / f'tests/pages/{name}.txt').read_text().splitlines():
            message, ident, _, signal, _, _, _, scale, _, labels, unit = line.split(' ')
            pairs = [] if labels == '-' else [pair.rsplit('=', 1) for pair in labels.split(';')]
            key = f'{int(ident, 16):x}{"s" if int(ident, 16) < 2048 else "x"}'
            found.setdefault(key, (message, []))[1].append((signal, scale, UNITS.get(unit, f' {unit}'), {int(number): label for label, number in pairs}))
    return found


PAGES = documents()
FINDINGS = re.findall(r'(?m)^\s*b"(.*)",$', (ROOT / 'crates/desk_words/src/findings.rt').read_text())


def tenths(number):
    return f'{"-" if number < 0 else ""}{abs(number) // 10}.{abs(number) % 10}'


def words(signal, number, yes_no):
    """A number in the desk's notation as the page means it."""
    name, scale, unit, labels = signal
    if labels.get(number) == 'TempSensorNotUsed':
        return 'not used'
    if number in labels:
        return labels[number]
    if name == 'Insulation_Resistance' and yes_no:
        return {510: 'Valid', 0: 'Invalid'}.get(number, f'{number // 2}, neither Valid (255) nor Invalid (0)')
    return (tenths(number) if scale == '0.1' else str(number)) + unit
