"""Every kind of line that candump2log leaves out, with its number and why, among lines that it converts; and records that log2candump does."""
import tempfile
import unittest

from programs import candump2log, log2candump
from words import record

GOOD = '(1700000000.125000) can4 0006B000#01'
LEFT_OUT = [
    ('(1700000000.125000) can4 123#R', 29, 'a remote frame'),
    ('(1700000000.125000) can4 0006B000#R8', 34, 'a remote frame'),
    ('(1700000000.125000) can4 123##0112233', 29, 'an FD frame'),
    ('(1700000000.125000) can4 0006B000##1', 34, 'an FD frame'),
    ('(1700000000.125000) can4 20000004#0000000000000000', 26, 'an error frame'),
    ('(1700000000.125000) can4 20000080#0000000000000000 R', 26, 'an error frame'),
    ('(1700000000.125000) can32 123#', 21, 'interface can32: channels end at 31'),
    ('(1700000000.125000) can 123#', 21, 'interface can has no number and is not in a map'),
    ('(1700000000.122999) can4 123#', 1, "a stamp before the first line's"),
    ('(1704294967.419000) can4 123#', 1, "a stamp more than 4294967295 ms after the first line's"),
    ('(1700000000.125000) can4 800#', 26, 'a standard identifier above 7FF'),
    ('(1700000000.125000) can4 40000000#', 26, 'an extended identifier above 1FFFFFFF'),
    ('(1700000000.125000) can4 6B000#01', 26, 'an identifier of 5 digits, neither 3 nor 8'),
    ('(1700000000.125000) can4 123#000102030405060708', 26, 'more than 8 bytes'),
    ('(1700000000.125000) can4 123#010', 32, 'half a byte'),
    ('(1700000000.125000) can4 123#0G', 31, 'G is no hexadecimal digit'),
    ('(1700000000.125000) can4 123#01 X', 33, 'more than a frame and its direction, R or T'),
    ('(1700000000.125000) can4  123   [1]  01', 27, 'no frame ID#BYTES as candump -L writes it'),
    ('(1700000000.125000) can4', 25, 'no frame ID#BYTES as candump -L writes it'),
    ('(1700000000.125000)', 20, 'no interface'),
    ('  can4  123   [1]  01', 3, 'no stamp (SECONDS.MICROSECONDS) as candump -L writes it'),
    ('(1700000000.125) can4 123#', 1, 'no stamp (SECONDS.MICROSECONDS) as candump -L writes it'),
    ('\0' * 100, 1, 'no stamp (SECONDS.MICROSECONDS) as candump -L writes it'),
    ('', 1, 'an empty line'),
]


class LeftOut(unittest.TestCase):
    maxDiff = None

    def test_lines(self):
        # the first line's stamp counts, though the line is left out
        told = ['(1700000000.123999) can4 7FF#R', GOOD]
        said = ['line 1, column 29: a remote frame']
        for line, column, why in LEFT_OUT:
            told += [line, GOOD]
            said.append(f'line {len(told) - 1}, column {column}: {why}')
        said.append(f'lines left out: {len(LEFT_OUT) + 1} of {len(told)}')
        self.assertEqual(candump2log('-', '-', told='\n'.join([*told, '']).encode()),
                         (1, record('frame 4 2 6b000 x 01') * (len(LEFT_OUT) + 1),
                          ''.join(f'candump2log: standard input: {line}\n' for line in said)))

    def test_bounds_that_are_held(self):
        """The other side of each bound."""
        lines = {
            '(1700000000.123000) can31 7FF#': 'frame 31 0 7ff s -',
            '(1700000000.122999) can0 7FF#': None,
            '(1700000000.123999) can0 1FFFFFFF#0001020304050607': 'frame 0 0 1fffffff x 0001020304050607',
            '(1704294967.418999) can0 00000000#': 'frame 0 4294967295 0 x -',
            '(1704294967.419000) can0 00000000#': None,
        }
        status, bytes_, said = candump2log('-', '-', told=''.join(f'{line}\n' for line in lines).encode())
        self.assertEqual((status, bytes_), (1, b''.join(record(line) for line in lines.values() if line)))
        self.assertEqual(said.count('\n'), 3)

    def test_cut_after_every_byte(self):
        """A cut recording: the whole lines are converted, and something is said of the piece."""
        line = '(1700000000.125000) can4 0006B000#0123'
        whole = record('frame 4 0 6b000 x 0123')
        # cuts that leave a frame: nobody can tell that there was more
        frames = {len(line) - missing: record(f'frame 4 0 6b000 x {payload}') for missing, payload in [(4, '-'), (2, '01'), (0, '0123')]}
        for size in range(1, len(line) + 1):
            status, bytes_, said = candump2log('-', '-', told=f'{line}\n{line[:size]}'.encode())
            if size in frames:
                self.assertEqual((status, bytes_), (0, whole + frames[size]))
                self.assertEqual(said, 'candump2log: standard input: line 2: no line feed behind it, it may be cut\n')
            else:
                self.assertEqual((status, bytes_), (1, whole))
                self.assertTrue(said.startswith('candump2log: standard input: line 2, column '), said)

    def test_what_a_map_keeps_apart(self):
        with tempfile.NamedTemporaryFile('w', suffix='.map') as file:
            file.write('can0 4\n')
            file.flush()
            told = '(1.000000) can0 123#\n(1.000000) can4 123#\n(1.000000) can5 123#\n'
            self.assertEqual(candump2log('--map', file.name, '-', '-', told=told.encode()),
                             (1, record('frame 4 0 123 s -') + record('frame 5 0 123 s -'),
                              'candump2log: standard input: line 2, column 12: interface can4: the map gives channel 4 to can0\n'
                              'candump2log: standard input: lines left out: 1 of 3\n'))
            log = b''.join(record(f'frame {channel} 1000 123 s -') for channel in (4, 0, 5))
            self.assertEqual(log2candump('--map', file.name, '-', '-', told=log),
                             (1, b'(0000000001.000000) can0 123#\n(0000000001.000000) can5 123#\n',
                              'log2candump: standard input: record 2: channel 0 is not in the map, which gives can0 to channel 4\n'))
