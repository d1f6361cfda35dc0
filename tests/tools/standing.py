"""tools/ with other programs in target/bin, which stand in for those that are proved: so that what passes through is held without them."""
import shutil
import signal
import stat
import subprocess
import tempfile
from pathlib import Path

ROOT = Path(__file__).resolve().parents[2]
# the programs of target/bin are x86-64; these run anywhere
MACHINE = '''from pathlib import Path
PROGRAMS = Path(__file__).resolve().parents[1] / 'target/bin'
def command(program):
    return [str(PROGRAMS / program)]
'''


def heeded():
    """Signals as they are in a terminal: whoever runs the tests in the background has some of them ignored, and a wrapper leaves those ignored."""
    for number in signal.SIGHUP, signal.SIGINT, signal.SIGQUIT, signal.SIGTERM:
        signal.signal(number, signal.SIG_DFL)


class Standing:
    def __init__(self, test):
        folder = tempfile.TemporaryDirectory()
        test.addCleanup(folder.cleanup)
        self.root = Path(folder.name)
        shutil.copytree(ROOT / 'tools', self.root / 'tools')
        shutil.copytree(ROOT / 'report', self.root / 'report')
        shutil.copy(ROOT / 'VERSION', self.root)
        (self.root / 'tools/machine.py').write_text(MACHINE)
        (self.root / 'target/bin').mkdir(parents=True)

    def stand_in(self, name, program):
        """A program in Python, in which `words` are its arguments as bytes."""
        self.stand_in_sh(name, '', f'/usr/bin/env -S python3 -S\nimport os, signal, sys, time\nsignal.signal(signal.SIGPIPE, signal.SIG_DFL)\n'
                                   f'words = list(map(os.fsencode, sys.argv[1:]))\n{program}')

    def stand_in_sh(self, name, program, by='/bin/sh'):
        path = self.root / 'target/bin' / name
        path.write_text(f'#!{by}\n{program}\n')
        path.chmod(path.stat().st_mode | stat.S_IXUSR)

    def start(self, name, *words, **more):
        more.setdefault('preexec_fn', heeded)
        return subprocess.Popen([self.root / 'tools' / name, *words], bufsize=0, **more)

    def call(self, name, *words, told=b'', **more):
        """Exit status, standard output and standard error."""
        done = subprocess.run([self.root / 'tools' / name, *words], input=told, capture_output=True, timeout=60, **more)
        return done.returncode, done.stdout, done.stderr


def state_and_parent(process):
    """Of a process by its number."""
    try:
        state, parent = Path(f'/proc/{process}/stat').read_text().rsplit(')', 1)[1].split()[:2]
        return state, int(parent)
    except OSError:
        return 'Z', 0


def is_there(process):
    return state_and_parent(process)[0] != 'Z'


def children(process):
    return [int(path.name) for path in Path('/proc').iterdir() if path.name.isdecimal() and state_and_parent(path.name)[1] == process]
