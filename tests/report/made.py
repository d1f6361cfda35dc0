"""The night logs that nights/logs.py makes: their replay answers what the nights' scripts are answered, and a night that is no replay is told."""
import shutil
import subprocess
import tempfile
import unittest
from pathlib import Path

from second import ROOT, SECOND, records, replay


def script(name):
    """Frames and ticks of a night with their answers."""
    steps = [line for line in (ROOT / f'nights/{name}.desk').read_text().splitlines() if line and not line.startswith('#')]
    answers = (ROOT / f'nights/{name}.answers').read_text().splitlines()
    return [(step, answer.replace(':', ' ')) for step, answer in zip(steps, answers, strict=True) if step.split(' ')[0] in ('frame', 'tick')]


def replayed(name):
    posts, log = ROOT / f'nights/{name}.posts', ROOT / f'nights/{name}.log'
    lines, _ = replay(posts, log)
    return list(zip(records(log.read_bytes())[0], (line.split(' ', 2)[2] for line in lines), strict=True))


class Nights(unittest.TestCase):
    maxDiff = 1000

    def test_the_same_answers(self):
        for name in ('clean', 'faults', 'round', 'sixteen'):
            self.assertEqual(replayed(name), script(name))

    def test_march(self):
        """Post 1 is on its channel from the beginning."""
        changed = [(was, now) for was, now in zip(script('march'), replayed('march'), strict=True) if was != now]
        self.assertEqual(changed, [((f'frame 5 {time} 6b000 x 01', 'R1'), (f'frame 5 {time} 6b000 x 01', 'A0')) for time in (1004, 1104, 1204)])

    def test_frames_left_out(self):
        """Without the frames that no log can hold."""
        for name, count in (('damaged', 9), ('safety', 1), ('older', 1), ('vehicle', 1)):
            kept = replayed(name)
            lost = [step for step in script(name) if step not in kept]
            self.assertEqual([step for step in script(name) if step in kept], kept)
            self.assertEqual(len(lost), count)
            for step, _ in lost:
                _, channel, _, identifier, form, payload = step.split(' ')
                self.assertTrue(int(channel) > 31 or len(payload) > 16 or int(identifier, 16) >= (2**29 if form == 'x' else 2**11), step)


CLEAN = len((ROOT / 'nights/clean.desk').read_text().splitlines())


class Logs(unittest.TestCase):
    def setUp(self):
        folder = tempfile.TemporaryDirectory()
        self.addCleanup(folder.cleanup)
        self.nights = Path(folder.name) / 'nights'
        shutil.copytree(ROOT / 'nights', self.nights)

    def logs(self, *words):
        done = subprocess.run([self.nights / 'logs.py', '--second', SECOND, *words], capture_output=True, text=True, timeout=60)
        return done.returncode, done.stdout, done.stderr

    def add(self, name, *steps):
        """Steps at the end of a night, with their answers."""
        for suffix, words in zip(('desk', 'answers'), zip(*steps)):
            with open(self.nights / f'{name}.{suffix}', 'a') as file:
                file.write(''.join(f'{word}\n' for word in words))

    def test_the_same_files_each_time(self):
        before = {path.name: path.read_bytes() for path in self.nights.iterdir()}
        self.assertEqual(self.logs('march'), (0, f'march: {len(script("march"))} records, 0 that no log can hold\n', ''))
        self.assertEqual({path.name: path.read_bytes() for path in self.nights.iterdir()}, before)

    def test_stale(self):
        (self.nights / 'march.log').write_bytes(b'')
        (self.nights / 'clean.posts').unlink()
        code, _, said = self.logs('--check')
        self.assertEqual((code, said), (1, 'clean.posts is not what logs.py writes\nmarch.log is not what logs.py writes\n'))

    def test_no_replay(self):
        for step, why in [
            (('release 0', 'A'), f'line {CLEAN + 1} releases post 0'),
            (('setup 0 0 5000 2000 500 500', 'A'), f'line {CLEAN + 1} sets post 0 up again'),
        ]:
            shutil.copytree(ROOT / 'nights', self.nights, dirs_exist_ok=True)
            self.add('clean', step)
            self.assertEqual(self.logs('clean'), (1, f'clean: no replay: {why}\n', 'clean is no replay\n'))
        for suffix in ('posts', 'log'):
            (self.nights / f'clean.{suffix}').unlink()
        self.assertEqual(self.logs('--check')[0], 0, 'no log is stored, and none is asked for')

    def test_a_late_set_up_that_changes_more(self):
        """A controller's frame before its set-up makes the tick behind it late."""
        self.add('clean', ('frame 7 1000 6b000 x 01', 'R1'), ('setup 5 7 5000 2000 500 500', 'A'), ('tick 7 1300', 'A0'))
        self.assertEqual(self.logs('clean'), (1, f'clean: no replay: line {CLEAN + 3} is answered A0, and A2 with every set-up before it\n',
                                             'clean is no replay\n'))

    def test_refused_steps_stay_away(self):
        self.add('clean', ('setup 5 0 5000 2000 500 500', 'R11'), ('release 6', 'R14'), ('tick 40 1', 'R1'))
        self.assertEqual(self.logs('clean'), (0, f'clean: {len(script("clean"))} records, 1 that no log can hold\n  clean.desk:{CLEAN + 3}: R17\n', ''))
        self.assertIn('# refused in the script (R11): setup 5 0 5000 2000 500 500\n', (self.nights / 'clean.posts').read_text())
