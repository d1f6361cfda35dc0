"""The exit statuses of tools/nightlog, tools/desk, tools/replay and tools/compare over the proved programs, which say the same as they do by
themselves."""
import os
import signal
import subprocess
import sys
import tempfile
import unittest
from pathlib import Path
from unittest import mock

from standing import ROOT

sys.path.append(str(ROOT / 'tools'))

from machine import command
from words import record

TICK = record('tick 2 300')
CUT, BAD = TICK + b'\x80', TICK + b'\x01\x20' + TICK
SET_UP = 'setup 0 2 5000 2000 500 500\n'
# of any bytes: no text, line feeds, and words that the programs say themselves
NO_TEXT = b'\xff\xfe'
NAMES = [NO_TEXT + b'.log', b'line 1', b'line 1: no frame or tick\n', b"CUT@1\n'$(x)'"]
WELL, PARTLY, FAILED = 0, 1, 2


class Statuses(unittest.TestCase):
    maxDiff = 1000

    def setUp(self):
        folder = tempfile.TemporaryDirectory()
        self.addCleanup(folder.cleanup)
        self.addCleanup(os.chdir, os.getcwd())
        os.chdir(folder.name)
        os.mkdir('folder')

    def status(self, tool, *words, told=b'', fresh=None, **more):
        """What the program says by itself is said here too; files are as they were before each of the two. Of a file whose name is no UTF-8, which a program of
        Rattle does not open, it says by itself what it says of one with another name."""
        got = []
        plain = lambda name: os.fsencode(name).replace(NO_TEXT, b'plain')
        for called, named in (([*command(tool), *map(plain, words)], plain), ([ROOT / 'tools' / tool, *(['--lines'] if tool == 'replay' else []), *words], os.fsencode)):
            if fresh:
                Path(os.fsdecode(named(fresh[0]))).write_bytes(fresh[1])
            given = {'stdout': subprocess.PIPE, **({} if 'stdin' in more else {'input': told}), **more}
            got.append(subprocess.run(called, stderr=subprocess.PIPE, timeout=60, **given))
        self.assertEqual((got[1].stdout, plain(got[1].stderr)), (got[0].stdout, got[0].stderr), words)
        return got[1].returncode

    def test_append(self):
        for told, log, want in [
            (b'tick 1 1\n', b'', WELL), (b'', b'', WELL), (b'# words\n\n', TICK, WELL),
            (b'tick 1 1\n', CUT, PARTLY), (b'tick 1 1\n', BAD, PARTLY),
            (b'hello\ntick 1 1\n', b'', PARTLY), (b'tick 32 1\n', b'', PARTLY), (b'x' * 70000 + b'\n', b'', PARTLY),
            (b'tick 1 1\ntick 1 2', b'', PARTLY), (b'tick 1 1\n# words', b'', WELL), (b'tick 1 1\n', TICK + bytes(4), PARTLY), (b'tick 1 1\n', TICK + bytes(3), PARTLY),
        ]:
            self.assertEqual(self.status('nightlog', 'append', 'a.log', told=told, fresh=('a.log', log)), want, (told[:20], log))
        for words in ('append', 'folder'), ('append', 'none/a.log'), ('append', b'none/line 1: R17'), ('append', '/dev/full'):
            self.assertEqual(self.status('nightlog', *words, told=b'tick 1 1\n'), FAILED, words)
        self.assertEqual(self.status('nightlog', 'append', 'a.log', told=b'hello\n', fresh=('a.log', b''), stdin=os.open('folder', os.O_RDONLY)), FAILED)

    def test_what_is_not_flushed(self):
        """All of it is in the file; but what is not known to be flushed is no success."""
        failing = ['strace', '-f', '-qq', '-o', '/dev/null', '-e', 'trace=fsync', '-e', 'inject=fsync:error=EIO:when=1']
        for log in None, b'':
            Path('a.log').unlink(missing_ok=True)
            if log is not None:
                Path('a.log').write_bytes(log)
            done = subprocess.run([*failing, ROOT / 'tools/nightlog', 'append', 'a.log'], input=b'tick 2 300\n', stderr=subprocess.PIPE, timeout=60)
            self.assertEqual((done.returncode, Path('a.log').read_bytes()), (FAILED, TICK), done.stderr)
            self.assertIn(b' flushed', done.stderr)

    def test_two(self):
        """Whose file another one has written to stops and says so; nothing that the other has written is cut away."""
        runs = []
        for time in (b'300', b'301'):
            run = subprocess.Popen([ROOT / 'tools/nightlog', 'append', 'a.log'], stdin=subprocess.PIPE, stderr=subprocess.DEVNULL, bufsize=0)
            run.stdin.write(b'tick 2 ' + time + b'\n')
            while not Path('a.log').exists() or len(Path('a.log').read_bytes()) < len(TICK) * (len(runs) + 1):
                self.assertIsNone(run.poll())
            runs.append(run)
        runs[0].stdin.write(b'tick 2 302\n')
        self.assertEqual(runs[0].wait(timeout=20), FAILED)
        runs[1].stdin.close()
        self.assertEqual(runs[1].wait(timeout=20), WELL)
        runs[0].stdin.close()
        self.assertEqual(Path('a.log').read_bytes(), TICK + record('tick 2 301'))

    def test_names(self):
        for name in NAMES:
            self.assertEqual(self.status('nightlog', 'show', name), FAILED, name)
            self.assertEqual(self.status('nightlog', 'append', name, told=b'tick 1 1\n', fresh=(name, TICK)), WELL, name)
            self.assertEqual(self.status('nightlog', 'append', name, told=b'hello\n', fresh=(name, CUT)), PARTLY, name)
            self.assertEqual(self.status('replay', name, name, fresh=(name, SET_UP.encode())), PARTLY, name)
            self.assertEqual(self.status('replay', name, name + b'none'), FAILED, name)
            self.assertEqual(self.status('replay', name, name, fresh=(name, b'setup 0\n')), PARTLY, name)

    def test_no_text(self):
        """A program of Rattle opens no file whose name is no UTF-8: it says so, and its wrapper opens it, and makes it."""
        name = NO_TEXT + b'.log'
        room = tempfile.TemporaryDirectory()
        self.addCleanup(room.cleanup)
        self.enterContext(mock.patch.dict(os.environ, TMPDIR=room.name))
        for words in ('nightlog', 'append', name), ('nightlog', 'show', name), ('replay', name, name), ('compare', name, name):
            done = subprocess.run([*command(words[0]), *words[1:]], stdin=subprocess.DEVNULL, capture_output=True, timeout=60)
            self.assertIn(NO_TEXT, done.stderr, words)
            self.assertEqual((done.stdout, os.listdir(b'.')), (b'', [b'folder']), words)
        self.assertEqual(self.status('nightlog', 'append', name, told=b'tick 2 300\n'), WELL)
        self.assertEqual(Path(os.fsdecode(name)).read_bytes(), TICK)
        self.assertEqual(self.status('nightlog', 'append', name, told=b'tick 2 300\n'), WELL)
        self.assertEqual(Path(os.fsdecode(name)).read_bytes(), 2 * TICK)
        done = subprocess.run([ROOT / 'tools/nightlog', 'append', NO_TEXT + b'/a.log'], stdin=subprocess.DEVNULL, stderr=subprocess.PIPE, timeout=60)
        self.assertEqual((done.returncode, NO_TEXT in done.stderr), (FAILED, True))
        self.assertEqual(os.listdir(room.name), [])

    def test_show_and_check(self):
        for word in ('show', 'check'):
            self.assertEqual(self.status('nightlog', word, 'none.log'), FAILED, word)
            for log, want in (TICK, WELL), (b'', WELL), (CUT, PARTLY), (BAD, PARTLY), (TICK + bytes(8), WELL if word == 'show' else PARTLY):
                self.assertEqual(self.status('nightlog', word, 'a.log', fresh=('a.log', log)), want, (word, log))
            self.assertEqual(self.status('nightlog', word, 'folder'), FAILED)
            self.assertEqual(self.status('nightlog', word, 'n/' * 2500), FAILED)
            with open('/dev/full', 'wb') as full:
                self.assertEqual(self.status('nightlog', word, b'a.log', fresh=(b'a.log', TICK), stdout=full), FAILED)

    def test_replay(self):
        posts = Path('a.posts')
        for set_ups, bytes_, want in [
            (SET_UP, TICK, WELL), ('', b'', WELL), (SET_UP, CUT, PARTLY), (SET_UP, BAD, PARTLY), (SET_UP, TICK + record('tick 9 1'), WELL),
            ('setup 16 2 5000 2000 500 500\n', TICK, PARTLY), ('setup 0 2\n', TICK, PARTLY), ('#' * 65536, TICK, FAILED),
        ]:
            posts.write_text(set_ups)
            self.assertEqual(self.status('replay', posts, 'a', fresh=('a', bytes_)), want, (set_ups[:20], bytes_))
        self.assertEqual(self.status('replay', 'a', posts), PARTLY, 'a log for POSTS')
        self.assertEqual(self.status('replay', 'none', 'a'), FAILED)
        posts.write_text(SET_UP)
        self.assertEqual(self.status('replay', posts, 'none'), FAILED)
        self.assertEqual(self.status('replay', 'folder', 'folder'), FAILED)
        with open('/dev/full', 'wb') as full:
            self.assertEqual(self.status('replay', 'a.posts', 'a', stdout=full), FAILED)

    def test_replay_in_words(self):
        """The same statuses; errors on standard error, and words behind the lines."""
        posts = Path('a.posts')
        for set_ups, bytes_, want, words, said in [
            (SET_UP, TICK, WELL, '1 0 A0\n\nEND: the log is whole\n1 records: 1 accepted, 0 refused\n', ''),
            (SET_UP, CUT, PARTLY, '1 0 A0\n\nCUT@5: a piece of a record is left over from byte 5 on\n1 records: 1 accepted, 0 refused\n', ''),
            ('setup 16 2 5000 2000 500 500\n', TICK, PARTLY, '\nSETUP R9: post number above 15\n', 'replay: a.posts: line 1: the set-up is refused\n'),
            ('hello\n', TICK, PARTLY, '', 'replay: a.posts: line 1: no setup POST CHANNEL VOLT CHG DIS W [SENSOR [IFACE]]\n'),
            (SET_UP, None, FAILED, '', 'replay: a.log: No such file or directory\n'),
        ]:
            posts.write_text(set_ups)
            Path('a.log').unlink(missing_ok=True)
            if bytes_ is not None:
                Path('a.log').write_bytes(bytes_)
            done = subprocess.run([ROOT / 'tools/replay', 'a.posts', 'a.log'], capture_output=True, text=True, timeout=60)
            self.assertEqual((done.returncode, done.stdout, done.stderr), (want, words, said))
        posts.write_text(SET_UP)
        Path('a.log').write_bytes(TICK)
        with open('/dev/full', 'wb') as full:
            self.assertEqual(subprocess.run([ROOT / 'tools/replay', 'a.posts', 'a.log'], stdout=full, stderr=subprocess.DEVNULL, timeout=60).returncode, FAILED)

    def test_desk(self):
        for script, want in [
            (SET_UP + 'tick 2 300\ntick 3 1\nrecord 0\n', WELL), ('', WELL), ('# ?\n\n' + '#' * 70000 + '\n', WELL),
            ('release 16\nrecord 16\nindex\nexplain R9\n', WELL), ('logr ac02020009\nreplay ac02020009 -\n', WELL), ('write 6b000 x 1 -\nread 1 x 00\n', WELL),
            ('hello\n', PARTLY), ('hello', PARTLY), ('tick 2 300 1\ntick 2 300\n', PARTLY), ('x' * 70000 + '\n', PARTLY),
            ('setup 16 2 5000 2000 500 500', PARTLY), (SET_UP + 'release 16\n' + SET_UP.replace('0 2', '1 2') + 'tick 2 1\n', PARTLY),
            ('logr ac020200\n', PARTLY), ('logr 8000\n', PARTLY), ('replay ac020200 -\n', PARTLY), ('replay - 16,2,5000,2000,500,500\n', PARTLY),
        ]:
            self.assertEqual(self.status('desk', told=script.encode()), want, script[:40])
        self.assertEqual(self.status('desk', 'lent', told=b'setup 16 2 5000 2000 500 500'), PARTLY)
        here = os.open('folder', os.O_RDONLY)
        self.assertEqual(self.status('desk', stdin=here), FAILED)
        os.close(here)
        with open('/dev/full', 'wb') as full:
            self.assertEqual(self.status('desk', told=b'tick 2 1\n', stdout=full), FAILED)

    def test_a_long_script(self):
        """The night's script is answered as by the desk itself, and lines that are none are found among many."""
        script = (ROOT / 'nights/march.desk').read_bytes()
        self.assertEqual(self.status('desk', told=script), PARTLY, 'a set-up of the March night is refused')
        self.assertEqual(self.status('desk', told=b'tick 1 1\n' * 100000), WELL)
        self.assertEqual(self.status('desk', told=b'tick 1 1\n' * 100000 + b'release 16\nsetup 16 1 1 1 1 1\n'), PARTLY)

    def test_compare(self):
        """As `cmp` has them: 0 same, 1 differ, 2 trouble."""
        other = record('tick 3 301')
        for name, log in ('one', TICK + other), ('turned', other + TICK), ('less', TICK), ('cut', CUT), ('bad', BAD), ('none', b''), ('many', TICK * 513):
            Path(name).write_bytes(log)
        for words, want in [
            (('one', 'one'), WELL), (('one', 'turned'), WELL), (('none', 'none'), WELL), (('one', 'less'), PARTLY), (('none', 'one'), PARTLY),
            (('one', 'less', '0', '300'), WELL), (('one', 'less', '301', '400'), PARTLY), (('many', 'many', '0', '299'), WELL),
            (('cut', 'one'), FAILED), (('one', 'bad'), FAILED), (('cut', 'cut'), FAILED), (('many', 'many'), FAILED), (('one', 'missing'), FAILED),
            (('folder', 'one'), FAILED), (('one', 'bad', '0', '1'), FAILED),
        ]:
            self.assertEqual(self.status('compare', *words), want, words)
        for name in NAMES:
            self.assertEqual(self.status('compare', name, 'one', fresh=(name, TICK + other)), WELL, name)
            self.assertEqual(self.status('compare', 'one', name + b'none'), FAILED, name)
        with open('/dev/full', 'wb') as full:
            self.assertEqual(self.status('compare', 'one', 'less', stdout=full), FAILED)

    def test_make(self):
        """`make run` ends with the replay's status; `make report` writes a page of a cut log too, and of a refused set-up. The program stands already."""
        def made(*words):
            return subprocess.run(['make', '-s', '-o', 'replay', *words], cwd=ROOT, capture_output=True, text=True, timeout=100)

        self.assertEqual((made('run').returncode, made('run').stdout.splitlines()[-3]), (0, '490 records: 490 accepted, 0 refused')) # then F9 and F12
        refused = 'Nothing was replayed: the set-up in line 1 of '
        for set_ups, log, told in (SET_UP, CUT, 'The log is cut'), (SET_UP.replace(' 0', ' 16', 1), TICK, refused), (SET_UP, b'', 'The log holds no record.'):
            Path('statuses.posts').write_text(set_ups)
            Path('statuses.log').write_bytes(log)
            done = made('report', f'NIGHT={os.getcwd()}/statuses.log', f'POSTS={os.getcwd()}/statuses.posts')
            self.assertEqual((done.returncode, done.stdout), (0, 'target/report/statuses.html\n'), done.stderr)
            self.assertIn(told, (ROOT / 'target/report/statuses.html').read_text())

    def test_wrong_usage(self):
        for tool, words in [('nightlog', ()), ('nightlog', ('show',)), ('nightlog', ('shows', 'a.log')), ('nightlog', ('show', 'a.log', 'b.log')),
                            ('nightlog', ('append', 'a', 'b')), ('desk', ('lents',)), ('desk', ('lent', 'lent')), ('replay', ()), ('replay', ('a.posts',)), ('replay', ('a', 'b', 'c')),
                            ('compare', ()), ('compare', ('a',)), ('compare', ('a', 'b', '0')), ('compare', ('a', 'b', '1', '0')), ('compare', ('a', 'b', 'x', '1'))]:
            self.assertEqual(self.status(tool, *words), FAILED, (tool, words))

    def test_ended_by_a_signal(self):
        """`nightlog append` killed with its wrapper has what it has flushed, and nobody else writes to the file."""
        for number in signal.SIGTERM, signal.SIGKILL:
            run = subprocess.Popen([ROOT / 'tools/nightlog', 'append', 'a.log'], stdin=subprocess.PIPE, bufsize=0)
            run.stdin.write(b'tick 2 300\n')
            while not Path('a.log').exists() or Path('a.log').read_bytes() != TICK:
                self.assertIsNone(run.poll())
            run.send_signal(number)
            self.assertEqual(run.wait(timeout=20), -number)
            try:
                run.stdin.write(b'tick 2 300\n' * 10)
            except BrokenPipeError:
                pass
            run.stdin.close()
            self.assertEqual(Path('a.log').read_bytes(), TICK)
            os.remove('a.log')
