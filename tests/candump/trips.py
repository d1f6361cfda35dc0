"""Night logs and recordings there and back."""
import random
import subprocess
import tempfile
import unittest

from programs import PROGRAMS, candump2log, candump_text, is_frame, log2candump
from words import record, some_lines

START = 1700000000123


def frames(seed, count):
    return [line for line in some_lines(seed, count) if is_frame(line)]


def log(lines):
    return b''.join(map(record, lines))


class Trips(unittest.TestCase):
    maxDiff = 1000

    def test_a_log_comes_back_byte_for_byte(self):
        lines = frames(1, 12000)
        text = candump_text(lines)
        self.assertGreater(len(log(lines)), 65536, 'more than a piece')
        self.assertEqual(log2candump('-', '-', told=log(lines)), (0, text, ''))
        self.assertEqual(candump2log('--clock', 'wrap', '-', '-', told=text), (0, log(lines), ''))

    def test_from_the_first_line(self):
        lines = ['frame 4 0 6b000 x 01', *frames(2, 3000)]
        text = candump_text(lines, start=START)
        self.assertEqual(log2candump('--start', '1700000000.123', '-', '-', told=log(lines)), (0, text, ''))
        for clock in [(), ('--clock', 'first')]:
            self.assertEqual(candump2log(*clock, '-', '-', told=text), (0, log(lines), ''))

    def test_over_a_turn_of_the_clock(self):
        turn = 2**32 * 395
        lines = frames(3, 3000)
        text = candump_text(lines, start=turn)
        self.assertEqual(candump2log('--clock', 'wrap', '-', '-', told=text), (0, log(lines), ''))
        self.assertEqual(log2candump('--start', f'{turn // 1000}.{turn % 1000:03}', '-', '-', told=log(lines)), (0, text, ''))

    def test_by_a_map(self):
        """Every channel has the interface of another one's number."""
        lines = frames(4, 3000)
        with tempfile.NamedTemporaryFile('w', suffix='.map') as file:
            file.write('# a depot\n' + ''.join(f'can{31 - n}\t{n} # {n}\n' for n in range(32)))
            file.flush()
            text = candump_text([swapped(line) for line in lines])
            self.assertEqual(log2candump('--map', file.name, '-', '-', told=log(lines)), (0, text, ''))
            self.assertEqual(candump2log('--map', file.name, '--clock', 'wrap', '-', '-', told=text), (0, log(lines), ''))

    def test_a_recording_comes_back_cut_to_ms(self):
        """With microseconds, times that go back, blanks as candump aligns interfaces, and direction marks."""
        r = random.Random(5)
        lines = [['(1700000000.123456)', 'can4', '0006B000#01']]
        for line in candump_text(frames(5, 4000)).decode().splitlines():
            _, interface, frame = line.split(' ')
            at = 1700000000123000 + r.randrange(10**12)
            lines.append([f'({at // 10**6}.{at % 10**6:06})', interface, frame])
        told = ''.join(stamp + r.choice([' ', '  ']) + interface + ' ' + frame + r.choice(['', ' R', ' T']) + '\n' for stamp, interface, frame in lines)
        back = ''.join(f'{stamp[:-4]}000) {interface} {frame}\n' for stamp, interface, frame in lines)
        status, bytes_, said = candump2log('-', '-', told=told.encode())
        self.assertEqual((status, said), (0, ''))
        self.assertEqual(log2candump('--start', '1700000000.123456', '-', '-', told=bytes_), (0, back.encode(), ''))

    def test_ticks_are_counted(self):
        lines = some_lines(6, 1000)
        ticks = len(lines) - sum(map(is_frame, lines))
        self.assertGreater(ticks, 100)
        said = f'log2candump: standard input: ticks, which have no candump line: {ticks}\n'
        self.assertEqual(log2candump('-', '-', told=log(lines)), (0, candump_text(lines), said))

    def test_in_small_pieces(self):
        lines = frames(7, 200)
        for name, words, told, want in [
            ('log2candump', (), log(lines), candump_text(lines)),
            ('candump2log', ('--clock', 'wrap'), candump_text(lines), log(lines)),
        ]:
            run = subprocess.Popen([PROGRAMS / name, *words, '-', '-'], stdin=subprocess.PIPE, stdout=subprocess.PIPE, bufsize=0)
            for at in range(0, len(told), 7):
                run.stdin.write(told[at:at + 7])
            got, _ = run.communicate(timeout=30)
            self.assertEqual((run.returncode, got), (0, want))


def swapped(line):
    word, channel, rest = line.split(' ', 2)
    return f'{word} {31 - int(channel)} {rest}'
