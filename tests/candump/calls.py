"""How the programs are called, from tools/ too: files and pipes, a recording that still goes on, and what cannot be read or written."""
import os
import shutil
import subprocess
import tempfile
import time
import unittest
from pathlib import Path

from programs import PROGRAMS, ROOT, called, candump2log, log2candump
from words import record

LINE = b'(0000000000.000000) can4 0006B000#01\n'
RECORD = record('frame 4 0 6b000 x 01')


class Calls(unittest.TestCase):
    maxDiff = None

    def setUp(self):
        folder = tempfile.TemporaryDirectory()
        self.addCleanup(folder.cleanup)
        self.addCleanup(os.chdir, os.getcwd())
        os.chdir(folder.name)
        self.folder = Path(folder.name)
        self.file('night.candump', LINE)
        self.file('night.log', RECORD)
        self.file('folder/inside', b'')

    def file(self, name, bytes_):
        path = self.folder / name
        path.parent.mkdir(exist_ok=True)
        path.write_bytes(bytes_)
        return path

    def test_tools(self):
        """By relative names, from another folder, through a link."""
        os.symlink(ROOT / 'tools/log2candump', 'back')
        self.assertEqual(called(ROOT / 'tools/candump2log', 'night.candump', 'new.log'), (0, b'', ''))
        self.assertEqual(Path('new.log').read_bytes(), RECORD)
        self.assertEqual(called('./back', 'new.log', 'new.candump'), (0, b'', ''))
        self.assertEqual(Path('new.candump').read_bytes(), LINE)
        self.assertEqual(called(ROOT / 'tools/candump2log', '-', '-', told=b'\n')[0], 1)

    def test_tools_without_cargo(self):
        os.mkdir('bin')
        for tool in ('bash', 'dirname', 'readlink'):
            os.symlink(shutil.which(tool), f'bin/{tool}')
        for name in ('candump2log', 'log2candump'):
            said = f'{name}: cargo, which builds this program, is not installed (on Debian: apt-get install cargo)\n'
            self.assertEqual(called(ROOT / 'tools' / name, 'night.candump', 'x', env={'PATH': str(self.folder / 'bin')}), (2, b'', said))

    def test_out_is_written_anew(self):
        self.file('x', b'more than a record of some bytes')
        self.assertEqual(candump2log('night.candump', 'x'), (0, b'', ''))
        self.assertEqual(Path('x').read_bytes(), RECORD)

    def test_nothing_in_nothing_out(self):
        self.assertEqual(candump2log('-', '-'), (0, b'', ''))
        self.assertEqual(log2candump('-', '-'), (0, b'', ''))

    def test_a_recording_that_goes_on(self):
        """A line is in the log before the rest of the next one comes."""
        run = subprocess.Popen([PROGRAMS / 'candump2log', '-', 'live.log'], stdin=subprocess.PIPE, bufsize=0)
        patience = time.monotonic() + 20
        run.stdin.write(LINE[:20])
        for count in (1, 2, 3):
            run.stdin.write(LINE[20:] + LINE[:20])
            while not (Path('live.log').exists() and Path('live.log').read_bytes() == RECORD * count):
                self.assertLess(time.monotonic(), patience, f'record {count} is not written')
                time.sleep(0.001)
        run.stdin.write(LINE[20:])
        run.stdin.close()
        self.assertEqual(run.wait(timeout=20), 0)
        self.assertEqual(Path('live.log').read_bytes(), RECORD * 4)

    def test_help(self):
        for program in (candump2log, log2candump):
            status, usage, said = program('--help')
            self.assertEqual((status, said), (0, ''))
            self.assertTrue(usage.startswith(f'usage: {program.__name__} '.encode()))
            self.assertIn(b'Exit status: 0 ', usage)

    def test_wrong_arguments(self):
        for words, wrong in [
            ((), 'an IN and an OUT are needed, and no more'),
            (('a', 'b', 'c'), 'an IN and an OUT are needed, and no more'),
            (('--map',), '--map lacks its value'),
            (('--none', 'a', 'b'), 'there is no option --none'),
        ]:
            for program in (candump2log, log2candump):
                usage = program('--help')[1].decode()
                self.assertEqual(program(*words), (2, b'', f'{program.__name__}: {wrong}\n{usage}'))
        self.assertEqual(candump2log('--clock', 'last', 'night.candump', 'x'), (2, b'', 'candump2log: --clock last: neither first nor wrap\n'))
        for seconds in ('', 'now', '-1', '1.', '18446744073709551'):
            self.assertEqual(log2candump('--start', seconds, 'night.log', 'x'), (2, b'', f'log2candump: --start {seconds}: no seconds, or too many\n'))
        self.assertFalse(Path('x').exists())

    def test_maps(self):
        for text, why in [
            (b'can0 1\ncan1\n', 'line 2, column 1: not INTERFACE CHANNEL'),
            (b'can0 1 1\n', 'line 1, column 1: not INTERFACE CHANNEL'),
            (b'# posts\n\n  can0 32\n', 'line 3, column 8: 32 is no channel from 0 to 31'),
            (b'can0 1\ncan0 2\n', 'line 2, column 1: can0 has channel 1 already'),
            (b'can0 1\ncan2 1\n', "line 2, column 6: channel 1 is can0's already"),
        ]:
            self.file('map', text)
            self.assertEqual(candump2log('--map', 'map', 'night.candump', 'x'), (2, b'', f'candump2log: map: {why}\n'))
            self.assertEqual(log2candump('--map', 'map', 'night.log', 'x'), (2, b'', f'log2candump: map: {why}\n'))
        self.assertFalse(Path('x').exists())

    def test_unreadable_and_unwritable(self):
        none, folder = 'No such file or directory (os error 2)', 'Is a directory (os error 21)'
        full = 'No space left on device (os error 28)'
        for words, said in [
            (('none', 'x'), f'none: cannot be read: {none}'),
            (('folder', 'x'), f'folder: cannot be read: {folder}'),
            (('--map', 'none', 'night.candump', 'x'), f'none: cannot be read: {none}'),
            (('night.candump', 'folder'), f'folder: cannot be written: {folder}'),
            (('night.candump', 'none/x'), f'none/x: cannot be written: {none}'),
            (('night.candump', '/dev/full'), f'/dev/full: cannot be written: {full}'),
        ]:
            self.assertEqual(candump2log(*words), (2, b'', f'candump2log: {said}\n'))
            log = [word.replace('night.candump', 'night.log') for word in words]
            self.assertEqual(log2candump(*log), (2, b'', f'log2candump: {said}\n'))
        self.assertFalse(Path('x').exists())

    def test_in_and_out_are_one_file(self):
        os.link('night.candump', 'link')
        for words in [('night.candump', 'night.candump'), ('night.candump', './link'), ('link', 'folder/../night.candump')]:
            self.assertEqual(candump2log(*words), (2, b'', f'candump2log: {words[0]}: IN and OUT are the same file\n'))
        with open('night.candump', 'rb') as told, open('night.candump', 'ab') as written:
            done = subprocess.run([PROGRAMS / 'candump2log', '-', '-'], stdin=told, stdout=written, stderr=subprocess.PIPE, timeout=30)
        self.assertEqual((done.returncode, done.stderr), (2, b'candump2log: standard input: IN and OUT are the same file\n'))
        self.assertEqual(Path('night.candump').read_bytes(), LINE)
