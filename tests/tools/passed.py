"""What passes through tools/nightlog, tools/desk, tools/replay and tools/compare: bytes, dialogues, terminals and signals, as if the program itself were called."""
import os
import pty
import random
import signal
import subprocess
import time
import tty
import unittest

from standing import Standing, is_there

ECHO = '''
while piece := os.read(0, 1000):
    os.write(1, piece)
'''
WAIT = '''
os.write(2, b'nightlog: %d\\n' % os.getpid())
while True:
    time.sleep(1)
'''
NAMES = ('nightlog', 'desk', 'replay', 'compare')


class Passed(unittest.TestCase):
    maxDiff = 1000

    def setUp(self):
        self.tools = Standing(self)

    def test_arguments(self):
        """Of any bytes; none is taken for the shell's."""
        words = [b'append', bytes(range(1, 256)), b'$HOME `id` *', b"'", b'', b'--help']
        for name in NAMES:
            self.tools.stand_in(name, 'os.write(1, b"\\0".join(words))')
            first = [b'--lines'] if name == 'replay' else []
            self.assertEqual(self.tools.call(name, *first, *words)[1], b'\0'.join(words), name)

    def test_streams(self):
        """A megabyte of any bytes each way, and standard error beside it."""
        told, said = (random.Random(seed).randbytes(1000000) for seed in (1, 2))
        (self.tools.root / 'said').write_bytes(said)
        for name in NAMES:
            self.tools.stand_in(name, f'os.write(2, open({str(self.tools.root / "said")!r}, "rb").read()){ECHO}')
            words = ['--lines'] if name == 'replay' else ['check', 'x'] if name == 'nightlog' else []
            got = self.tools.call(name, *words, told=told)
            self.assertTrue(got == (2, told, said), name)

    def test_dialogue(self):
        """Each answer is there before the next line is told."""
        for name in NAMES:
            self.tools.stand_in(name, ECHO)
            run = self.tools.start(name, stdin=subprocess.PIPE, stdout=subprocess.PIPE, stderr=subprocess.DEVNULL)
            for line in (b'tick 1 1\n', b'half', b' a line\n') * 5:
                run.stdin.write(line)
                self.assertEqual(run.stdout.read(100), line, name)
            run.stdin.close()
            run.wait(timeout=20)
            run.stdout.close()

    def test_what_is_said_at_once(self):
        self.tools.stand_in('nightlog', 'os.write(2, b"half a line"); os.read(0, 1)')
        run = self.tools.start('nightlog', stdin=subprocess.PIPE, stderr=subprocess.PIPE)
        self.assertEqual(run.stderr.read(100), b'half a line')
        run.stdin.close()
        self.assertEqual(run.wait(timeout=20), 2)
        run.stderr.close()

    def test_other_descriptors(self):
        """`nightlog check <(..)` names one."""
        self.tools.stand_in('nightlog', 'os.write(1, open(words[1], "rb").read())')
        read, write = os.pipe()
        os.write(write, b'all of it')
        os.close(write)
        self.assertEqual(self.tools.call('nightlog', 'show', f'/dev/fd/{read}', pass_fds=[read])[1], b'all of it')
        os.close(read)

    def test_terminal(self):
        """The program sees one where there is one, and no byte is changed on the way."""
        for name in NAMES:
            self.tools.stand_in(name, 'os.write(2, b"%d\\n\\r\\x1b[K\\x03" % os.isatty(2))')
            words = ['--lines'] if name == 'replay' else []
            ours, theirs = pty.openpty()
            tty.setraw(theirs)
            run = self.tools.start(name, *words, stdin=subprocess.DEVNULL, stdout=subprocess.DEVNULL, stderr=theirs)
            run.wait(timeout=20)
            self.assertEqual(os.read(ours, 100), b'1\n\r\x1b[K\x03', name)
            os.close(ours)
            os.close(theirs)
            self.assertEqual(self.tools.call(name, *words)[2], b'0\n\r\x1b[K\x03', name)

    def test_folder_for_standard_input(self):
        """The program learns why it cannot be read, and says so."""
        self.tools.stand_in_sh('nightlog', 'exec cat')
        self.tools.stand_in('desk', ECHO)
        here = os.open('/', os.O_RDONLY)
        for name, said in ('nightlog', b'cat: -: Is a directory\n'), ('desk', b'desk: reading standard input: Is a directory\n'):
            run = self.tools.start(name, stdin=here, stderr=subprocess.PIPE)
            self.assertEqual((run.communicate(timeout=20)[1], run.returncode), (said, 2))
        os.close(here)


class Ended(unittest.TestCase):
    def setUp(self):
        self.tools = Standing(self)

    def started(self, name='nightlog', **more):
        """The wrapper and the number of its program."""
        self.tools.stand_in(name, WAIT)
        words = ['--lines'] if name == 'replay' else []
        run = self.tools.start(name, *words, stdin=subprocess.PIPE, stderr=subprocess.PIPE, **more)
        self.addCleanup(run.stderr.close)
        self.addCleanup(run.stdin.close)
        self.addCleanup(run.wait)
        self.addCleanup(run.kill)
        program = int(run.stderr.read(100).split()[1])
        self.addCleanup(lambda: is_there(program) and os.kill(program, signal.SIGKILL))
        return run, program

    def gone(self, process):
        patience = time.monotonic() + 10
        while is_there(process):
            self.assertLess(time.monotonic(), patience, 'the program outlives its wrapper')
            time.sleep(0.005)

    def test_signals(self):
        """Both end by the signal that one of them got."""
        for name in NAMES:
            for number in (signal.SIGTERM, signal.SIGINT, signal.SIGHUP, signal.SIGKILL) if name == 'nightlog' else (signal.SIGTERM, signal.SIGKILL):
                run, program = self.started(name)
                run.send_signal(number)
                self.assertEqual(run.wait(timeout=20), -number, name)
                self.gone(program)
            run, program = self.started(name)
            os.kill(program, signal.SIGKILL)
            self.assertEqual(run.wait(timeout=20), -signal.SIGKILL, name)

    def test_a_last_word(self):
        """The signal reaches the program, and what it still says passes; the wrapper says nothing of its own and ends behind it."""
        for number in signal.SIGTERM, signal.SIGINT:
            self.tools.stand_in('nightlog', f'''
def last(*_):
    os.write(2, b'the end')
    signal.signal({int(number)}, signal.SIG_DFL)
    os.kill(os.getpid(), {int(number)})
signal.signal({int(number)}, last)
os.write(2, b'begun, ')
while True:
    time.sleep(1)''')
            run = self.tools.start('nightlog', stdin=subprocess.DEVNULL, stderr=subprocess.PIPE)
            begun = run.stderr.read(7)
            run.send_signal(number)
            self.assertEqual((begun + run.communicate(timeout=20)[1], run.returncode), (b'begun, the end', -number))

    def test_a_signal_that_is_ignored(self):
        """As under nohup."""
        run, program = self.started(preexec_fn=lambda: signal.signal(signal.SIGHUP, signal.SIG_IGN))
        run.send_signal(signal.SIGHUP)
        os.kill(program, signal.SIGHUP)
        time.sleep(0.1)
        self.assertIsNone(run.poll())
        self.assertTrue(is_there(program))
        run.terminate()
        self.assertEqual(run.wait(timeout=20), -signal.SIGTERM)

    def test_nobody_reads(self):
        """`nightlog show | head`: the program is ended by it, and so is its wrapper."""
        for name, words in (('nightlog', ['show', 'x']), ('nightlog', ['check', 'x']), ('desk', []), ('replay', ['--lines']), ('compare', ['a', 'b'])):
            self.tools.stand_in(name, 'while True: os.write(1, b"tick 1 1\\n")')
            run = self.tools.start(name, *words, stdin=subprocess.DEVNULL, stdout=subprocess.PIPE)
            run.stdout.read(10)
            run.stdout.close()
            self.assertEqual(run.wait(timeout=20), -signal.SIGPIPE, (name, words))

    def test_nobody_ever_reads(self):
        """A program whose few bytes are taken on the way before it could learn that."""
        for name, words in (('nightlog', ['check', 'x']), ('desk', [])):
            self.tools.stand_in(name, 'os.write(1, b"0 records, END\\n")')
            read, write = os.pipe()
            os.close(read)
            run = self.tools.start(name, *words, stdin=subprocess.DEVNULL, stdout=write)
            os.close(write)
            self.assertEqual(run.wait(timeout=20), -signal.SIGPIPE, name)

    def test_a_full_device(self):
        for name, words in (('nightlog', ['check', 'x']), ('desk', [])):
            self.tools.stand_in(name, 'os.write(1, b"0 records, END\\n")')
            with open('/dev/full', 'wb') as full:
                run = self.tools.start(name, *words, stdin=subprocess.DEVNULL, stdout=full, stderr=subprocess.PIPE)
                self.assertEqual((run.communicate(timeout=20)[1].decode(), run.returncode), (f'{name}: writing standard output: No space left on device\n', 2))

    def test_a_program_that_is_not_there(self):
        for name in NAMES:
            status, out, said = self.tools.call(name, 'a', 'b')
            self.assertEqual((status, out), (2, b''))
            path = f'{self.tools.root}/target/bin/{name}'
            self.assertEqual(said.decode(), f'{name}: {path} cannot be run: No such file or directory; `tools/build {name}` builds it\n')

    def test_a_program_that_fails_or_says_nothing(self):
        for name, words in (('nightlog', ['show', 'x']), ('desk', []), ('replay', ['a', 'b']), ('compare', ['a', 'b'])):
            self.tools.stand_in(name, 'sys.exit(1)')
            self.assertEqual(self.tools.call(name, *words)[0], 2, name)
        for name, words in (('nightlog', ['append', 'x']), ('nightlog', ['check', 'x']), ('replay', ['a', 'b']), ('replay', ['--lines', 'a', 'b']), ('compare', ['a', 'b'])):
            self.tools.stand_in(name, '')
            self.assertEqual(self.tools.call(name, *words), (2, b'', b''), name)

    def test_what_a_comparison_ends_with(self):
        """The status is that of its last line, and of nothing before it; whatever is said on standard error is trouble."""
        for out, said, want in [
            ('same', '', 0), ('differ', '', 1), ('first 1 tick 1 1\\ndiffer', '', 1), ('differ\\nsame', '', 0), ('same\\ncompared 1 and 1 records', '', 2),
            ('same', 'x', 2), ('differ', 'compare: a: R26, CUT@1', 2), ('sam', '', 2), ('different', '', 2), ('same\\n', '', 0), ('same\\n\\n', '', 2), ('', '', 2),
        ]:
            self.tools.stand_in('compare', f'os.write(1, b"{out}")\nos.write(2, b"{said}")')
            self.assertEqual(self.tools.call('compare', 'a', 'b')[0], want, (out, said))
