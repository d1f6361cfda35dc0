"""Night logs that are cut or malformed: the frames before that are written, and the place is told as nightlog tells it."""
import unittest

from programs import candump_text, is_frame, log2candump
from words import record, some_lines

# 02, Req 01: what is refused with each number
DAMAGED = {16: b'\x80\x00', 17: b'\x01\x20', 18: b'\x01\x01\x80\x20', 19: b'\x01\x01\x81\x80\x80\x80\x04', 20: b'\x01\x01\x00\x0a', 21: b'\x01\x01\x02\x09'}


def said_of(lines, ending):
    ticks = len(lines) - sum(map(is_frame, lines))
    counted = f'log2candump: standard input: ticks, which have no candump line: {ticks}\n' if ticks else ''
    return counted + (f'log2candump: standard input: {ending}\n' if ending else '')


class Endings(unittest.TestCase):
    maxDiff = 1000

    def test_cut_after_every_byte(self):
        lines = some_lines(21, 34)
        parts = list(map(record, lines))
        log = b''.join(parts)
        count = at = 0
        for size in range(len(log) + 1):
            if count < len(parts) and at + len(parts[count]) == size:
                count, at = count + 1, size
            status, ending = (0, '') if at == size else (1, f'CUT@{at}')
            want = status, candump_text(lines[:count]), said_of(lines[:count], ending)
            self.assertEqual(log2candump('-', '-', told=log[:size]), want, f'cut after byte {size}')
        self.assertEqual(count, len(parts))

    def test_malformed(self):
        for count in (0, 5, 20000):
            lines = some_lines(22, count)
            log = b''.join(map(record, lines))
            for number, bytes_ in DAMAGED.items():
                want = 1, candump_text(lines), said_of(lines, f'BAD R{number}@{len(log)}')
                self.assertEqual(log2candump('-', '-', told=log + bytes_ + log[:1000]), want, f'{count} records, then R{number}')
