"""Recordings in which the gateway's clock comes round: `--clock wrap` there and back, and their replay by the second program."""
import subprocess
import tempfile
import unittest
from pathlib import Path

from programs import ROOT, candump2log, log2candump
from words import record

SECOND = ROOT / 'second/target/release/second'
ROUND, HOUR = 2**32, 3600 * 1000
# a turn of the clock since 1970
TURN = ROUND * 395
STATUS = '0006B000#01'


def recording(stamps, frame=STATUS):
    """A line of candump on channel 2 for each stamp in ms."""
    return ''.join(f'({at // 1000}.{at % 1000:03}000) can2 {frame}\n' for at in stamps).encode()


def seconds(stamp):
    return f'{stamp // 1000}.{stamp % 1000:03}'


def replayed(log):
    """The second program's answers, on a post of channel 2."""
    with tempfile.TemporaryDirectory() as folder:
        posts, file = Path(folder) / 'posts', Path(folder) / 'log'
        posts.write_text('setup 0 2 5000 2000 500 500\n')
        file.write_bytes(log)
        done = subprocess.run([SECOND, 'replay', posts, file], capture_output=True, text=True, timeout=50, check=True)
    *lines, ending = done.stdout.splitlines()
    return [line.split(' ')[2] for line in lines], ending


class Rounds(unittest.TestCase):
    maxDiff = 1000

    def there_and_back(self, stamps):
        """The answers of the replay; the log has the times of a 32-bit clock, and gives the stamps back."""
        text = recording(stamps)
        status, log, said = candump2log('--clock', 'wrap', '-', '-', told=text)
        self.assertEqual((status, said), (0, ''))
        self.assertEqual(log, b''.join(record(f'frame 2 {stamp % ROUND} 6b000 x 01') for stamp in stamps))
        for start in (stamps[0], stamps[0] - ROUND + 1):
            self.assertEqual(log2candump('--clock', 'wrap', '--start', seconds(start), '-', '-', told=log), (0, text, ''))
        answers, ending = replayed(log)
        self.assertEqual((len(answers), ending), (len(stamps), 'END'))
        return answers

    def test_shortly_before_the_round(self):
        """Each 200 ms, which is not late, and once 201."""
        answers = self.there_and_back([TURN - 6, TURN + 5, *range(TURN + 205, TURN + 2000, 200), TURN + 2006])
        self.assertEqual(answers, ['A0'] * 11 + ['A2'])

    def test_a_hundred_days(self):
        """Each hour a status and, 200 ms later, another: three rounds, no refusal, and only the first of an hour is late."""
        begin = TURN - 5 * HOUR
        stamps = [begin + hour * HOUR + later for hour in range(24 * 100) for later in (0, 200)]
        self.assertEqual(stamps[-1] // ROUND - stamps[0] // ROUND, 3)
        self.assertEqual(self.there_and_back(stamps), ['A0', 'A0'] + ['A2', 'A0'] * (24 * 100 - 1))

    def test_from_the_first_line_for_49_7_days(self):
        begin = TURN + 1000
        text = recording([begin, begin + ROUND - 1, begin + ROUND])
        said = "candump2log: standard input: line 3, column 1: a stamp more than 4294967295 ms after the first line's\n"
        self.assertEqual(candump2log('-', '-', told=text),
                         (1, record('frame 2 0 6b000 x 01') + record('frame 2 4294967295 6b000 x 01'),
                          said + 'candump2log: standard input: lines left out: 1 of 3\n'))

    def test_one_round_after_the_other_without_the_clock(self):
        """Without `--clock wrap` a time has the same stamp wherever it stands."""
        times = (4294967290, 5, 4294967291)
        log = b''.join(record(f'frame 2 {time} 6b000 x 01') for time in times)
        for clock in ((), ('--clock', 'first')):
            self.assertEqual(log2candump(*clock, '-', '-', told=log)[1], log2candump('-', '-', told=log)[1])
            self.assertEqual([line.split(b')')[0] for line in log2candump(*clock, '-', '-', told=log)[1].splitlines()],
                             [b'(0004294967.290000', b'(0000000000.005000', b'(0004294967.291000'])
        told = log2candump('--clock', 'wrap', '-', '-', told=log)[1].splitlines()
        self.assertEqual([line.split(b')')[0] for line in told], [b'(0004294967.290000', b'(0004294967.301000', b'(0004294967.291000'])

    def test_ticks_move_the_clock(self):
        """Without the tick between them the second frame would be before the first."""
        lines = ('frame 2 0 6b000 x 01', 'tick 2 2000000000', 'frame 2 4000000000 6b000 x 01')
        told = log2candump('--clock', 'wrap', '--start', '100', '-', '-', told=b''.join(map(record, lines)))[1].splitlines()
        first, second = (int(line[1:11]) * 1000 + int(line[12:15]) for line in told)
        self.assertEqual((first % ROUND, second - first), (0, 4000000000))

    def test_no_stamp_below_0(self):
        log = record('frame 2 5 6b000 x 01') + record('frame 2 4294967295 6b000 x 01') + record('frame 2 6 6b000 x 01')
        status, out, said = log2candump('--clock', 'wrap', '-', '-', told=log)
        self.assertEqual((status, said), (1, 'log2candump: standard input: record 2: no stamp for time 4294967295\n'))
        self.assertEqual(out, recording([5, 6]).replace(b'(0.', b'(0000000000.'))

    def test_another_clock(self):
        self.assertEqual(log2candump('--clock', 'last', '-', '-'), (2, b'', 'log2candump: --clock last: neither first nor wrap\n'))
