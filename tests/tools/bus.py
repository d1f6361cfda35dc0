"""From the bus to a durable log: `candump -L any | tools/candump2log --lines | tools/nightlog append night.log`, candump's side from a file, killed and
started again in the middle. Nothing is lost and nothing doubled."""
import os
import random
import re
import signal
import subprocess
import sys
import tempfile
import threading
import time
import unittest
from pathlib import Path

from standing import ROOT, children, is_there

sys.path.append(str(ROOT / 'tests/candump'))

from programs import candump_line
from trips import frames
from words import record

# the turn of 2^32 ms in which these times stand as they are
TURN = 2**32 * 395
LINES = frames(51, 9000)
PARTS = list(map(record, LINES))
RECORDING = [candump_line(line, start=TURN).encode() for line in LINES]
SEED = random.randrange(10**6)


class Bus(unittest.TestCase):
    def setUp(self):
        folder = tempfile.TemporaryDirectory()
        self.addCleanup(folder.cleanup)
        self.addCleanup(os.chdir, os.getcwd())
        os.chdir(folder.name)

    def start(self):
        to_lines = subprocess.Popen([ROOT / 'tools/candump2log', '--lines'], stdin=subprocess.PIPE, stdout=subprocess.PIPE,
                                    stderr=subprocess.DEVNULL, bufsize=0)
        append = subprocess.Popen([ROOT / 'tools/nightlog', 'append', 'night.log'], stdin=to_lines.stdout, stderr=subprocess.PIPE)
        to_lines.stdout.close()
        return to_lines, append

    def recorded(self):
        """How many records are in the log, all of them those of the recording."""
        got = Path('night.log').read_bytes() if Path('night.log').exists() else b''
        self.assertTrue(b''.join(PARTS).startswith(got), 'not the beginning of the recording')
        count = size = 0
        while count < len(PARTS) and size + len(PARTS[count]) <= len(got):
            size += len(PARTS[count])
            count += 1
        return count

    def test_killed_and_started_again(self):
        r, have, inside = random.Random(SEED), 0, 0
        for turn in range(12):
            to_lines, append = self.start()
            feeder = threading.Thread(target=feed, args=(to_lines.stdin, RECORDING[have:have + 400]))
            feeder.start()
            self.wait_for(have + r.randrange(1, 40), append)
            killed, programs = (to_lines, append, append)[turn % 3], children(append.pid)
            killed.send_signal(r.choice([signal.SIGKILL, signal.SIGTERM]))
            self.assertLess(killed.wait(timeout=20), 0)
            feeder.join()
            to_lines.stdin.close()
            said = append.communicate(timeout=20)[1]
            to_lines.wait(timeout=20)
            # a program that is killed with its wrapper may still be in its last write
            while any(map(is_there, programs)):
                time.sleep(0.001)
            before, have = have, self.recorded()
            self.assertGreater(have, before, f'seed {SEED}: turn {turn}')
            inside += have < before + 400
            if killed is to_lines:
                self.assertTrue(said.endswith(f'nightlog: night.log: {have - before} records appended\n'.encode()), said)
            # the plug is pulled in the middle of the next record
            with open('night.log', 'ab') as log:
                log.write(PARTS[have][:r.randrange(len(PARTS[have]))])
        self.assertGreater(inside, 3, f'seed {SEED}: hardly any kill came in the middle')
        to_lines, append = self.start()
        feed(to_lines.stdin, RECORDING[have:], pause=0)
        to_lines.stdin.close()
        append.communicate(timeout=60)
        self.assertIn(append.returncode, (0, 1), 'cut back, or whole')
        self.assertEqual(to_lines.wait(timeout=20), 0)
        self.assertTrue(Path('night.log').read_bytes() == b''.join(PARTS), f'seed {SEED}: lost or doubled')

    def wait_for(self, count, append):
        patience = time.monotonic() + 20
        while self.recorded() < count:
            self.assertIsNone(append.poll())
            self.assertLess(time.monotonic(), patience, 'nothing comes into the log')
            time.sleep(0.001)

    def test_a_line_is_in_the_log_before_the_next(self):
        to_lines, append = self.start()
        for count, line in enumerate(RECORDING[:20], 1):
            to_lines.stdin.write(line)
            self.wait_for(count, append)
        to_lines.stdin.close()
        self.assertEqual((append.communicate(timeout=20)[1], append.returncode), (b'nightlog: night.log: 20 records appended\n', 0))
        self.assertEqual(to_lines.wait(timeout=20), 0)

    def test_as_README_shows_it(self):
        """With another candump in its place."""
        shown, = re.findall(r'^    (candump -L any \| .*night\.log)(?: +#.*)?$', (ROOT / 'README.md').read_text(), re.MULTILINE)
        Path('recording').write_bytes(b''.join(RECORDING))
        Path('candump').write_text('#!/bin/sh\nexec cat recording\n')
        os.chmod('candump', 0o755)
        os.symlink(ROOT / 'tools', 'tools')
        path = {**os.environ, 'PATH': f'.:{os.environ["PATH"]}'}
        done = subprocess.run(['bash', '-o', 'pipefail', '-c', shown], env=path, capture_output=True, text=True, timeout=60)
        self.assertEqual((done.returncode, done.stderr), (0, f'nightlog: night.log: {len(LINES)} records appended\n'))
        self.assertTrue(Path('night.log').read_bytes() == b''.join(PARTS))


def feed(pipe, lines, pause=0.002):
    try:
        for at in range(0, len(lines), 5):
            pipe.write(b''.join(lines[at:at + 5]))
            time.sleep(pause)
    except BrokenPipeError:
        pass
