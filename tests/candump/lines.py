"""`candump2log --lines`: the desk's lines of a recording, each written at once, for `nightlog append`."""
import socket
import subprocess
import unittest

from programs import PROGRAMS, candump2log, candump_line, candump_text
from trips import frames

# the turn of 2^32 ms in which these times stand as they are
TURN = 2**32 * 395


def joined(lines):
    return ''.join(f'{line}\n' for line in lines).encode()


class Lines(unittest.TestCase):
    maxDiff = 1000

    def test_frames(self):
        """IN and OUT may stand there or not."""
        lines = frames(41, 4000)
        for words in ('--lines',), ('--lines', '-', '-'), ('-', '-', '--clock', 'wrap', '--lines'):
            self.assertEqual(candump2log(*words, told=candump_text(lines, start=TURN)), (0, joined(lines), ''))

    def test_one_clock_for_every_run(self):
        """The second run of a recording goes on by the clock of the first; only where the crew asks for it times begin with the run."""
        line = 'frame 4 1000 6b000 x 01'
        for clock, want in ((), line), (('--clock', 'wrap'), line), (('--clock', 'first'), 'frame 4 0 6b000 x 01'):
            self.assertEqual(candump2log('--lines', *clock, told=candump_text([line], start=TURN)), (0, joined([want]), ''))

    def test_a_line_at_once(self):
        """While the next one is not there, and while the rest of a long piece is there already."""
        run = subprocess.Popen([PROGRAMS / 'candump2log', '--lines'], stdin=subprocess.PIPE, stdout=subprocess.PIPE, bufsize=0)
        for line in frames(42, 30):
            run.stdin.write(candump_line(line, start=TURN).encode())
            self.assertEqual(run.stdout.read(1000), joined([line]))
        run.stdin.write(candump_text(frames(43, 500), start=TURN))
        for line in frames(43, 500):
            self.assertEqual(run.stdout.read(len(line) + 1), joined([line]))
        run.stdin.close()
        self.assertEqual((run.wait(timeout=20), run.stdout.read()), (0, b''))
        run.stdout.close()

    def test_one_write_for_a_line(self):
        """So that a line that is written is whole, wherever the program is killed. A socket of packets tells one write from the next."""
        lines = frames(44, 100)
        here, there = socket.socketpair(socket.AF_UNIX, socket.SOCK_SEQPACKET)
        with here, there:
            run = subprocess.Popen([PROGRAMS / 'candump2log', '--lines'], stdin=subprocess.PIPE, stdout=there)
            run.stdin.write(candump_text(lines, start=TURN))
            run.stdin.close()
            here.settimeout(20)
            self.assertEqual([here.recv(10000) for _ in lines], [joined([line]) for line in lines])
            self.assertEqual(run.wait(timeout=20), 0)

    def test_left_out(self):
        """What no log holds is named, as without `--lines`; so is a last line that may be cut, which `nightlog` could not tell from a whole one."""
        told = '(1.000000) can4 123#R\n(1.000000) can4 123#01\n'
        for piece, more in [
            ('', []),
            ('(1.000000) can4 123#01', ['line 3: no line feed behind it, it may be cut: left out']),
            ('(1.000000) can4 12', ['line 3, column 17: no frame ID#BYTES as candump -L writes it']),
        ]:
            said = ['line 1, column 20: a remote frame', *more, f'lines left out: {1 + len(more)} of {2 + len(more)}']
            self.assertEqual(candump2log('--lines', told=(told + piece).encode()),
                             (1, b'frame 4 1000 123 s 01\n', ''.join(f'candump2log: standard input: {line}\n' for line in said)))

    def test_wrong_arguments(self):
        usage = candump2log('--help')[1].decode()
        self.assertIn('candump2log --lines', usage)
        for words in ('--lines', 'a'), ('--lines', 'a', 'b', 'c'):
            self.assertEqual(candump2log(*words), (2, b'', f'candump2log: an IN and an OUT are needed, and no more\n{usage}'))
