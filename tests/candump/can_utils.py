"""Debian's can-utils on what log2candump writes: log2asc reads it, and asc2log gives the same frames back."""
import unittest

from programs import called, candump2log, log2candump
from trips import frames, log


def time_of(line):
    return int(line.split(' ')[2])


class CanUtils(unittest.TestCase):
    maxDiff = 1000

    def test_frames_through_asc(self):
        # an ASC file tells its times from its first line on and goes on in time
        lines = ['frame 4 0 6b000 x 01', *sorted(frames(11, 4000), key=time_of)]
        # log2asc takes second 0 for "no line yet"
        status, text, _ = log2candump('--start', 1700000000, '-', '-', told=log(lines))
        self.assertEqual(status, 0)

        status, asc, _ = called('log2asc', *(f'can{n}' for n in range(32)), told=text)
        self.assertEqual(status, 0)
        self.assertEqual(asc.count(b' Rx '), len(lines))

        status, back, _ = called('asc2log', told=asc)
        self.assertEqual(status, 0)
        self.assertEqual(columns(back, 1, 3), columns(text, 1, 3))
        self.assertEqual(candump2log('-', '-', told=back), (0, log(lines), ''))


def columns(text, first, behind):
    return [line.split()[first:behind] for line in text.decode().splitlines()]
