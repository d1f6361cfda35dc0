"""A program of target/bin in the place of the one that calls `run`: arguments, streams and signals pass unchanged and at once, and what the program
says is heard on the way. A Rattle program has no exit status, so the caller makes one of what it heard. A Rattle program opens files whose names are UTF-8
alone: one whose name is none is handed to it by another name, for the time of the run."""
import ctypes
import errno
import os
import shutil
import signal
import subprocess
import sys
import tempfile
import termios
import threading
import tty
from pathlib import Path

sys.path.append(str(Path(__file__).resolve().parents[1]))

from asked import asked
from machine import PROGRAMS, command

# all well; the log is cut or bad, a line was left out, a set-up refused; could not be read or written, wrong usage
WELL, PARTLY, FAILED = 0, 1, 2

# where tools/ has put standard input
STDIN = 9
PIECE = 65536
PASSED_ON = (signal.SIGHUP, signal.SIGINT, signal.SIGQUIT, signal.SIGTERM, signal.SIGUSR1, signal.SIGUSR2)
PR_SET_PDEATHSIG = 1
system = ctypes.CDLL(None, use_errno=True)


def say(words):
    """Whatever bytes stand in it; where standard error is gone there is nobody left to tell."""
    try:
        os.write(2, os.fsencode(words) + b'\n')
    except OSError:
        pass


def run(program, arguments, errors, output=None, told=None, made=False):
    """Runs it to its end; `errors` hears its standard error, and, where they are given, `output` its standard output and `told` its standard input.
    Each is a function of the bytes, b'' at the end; what `errors` or `output` answers, if anything, passes in their place. `made` is whether it makes a file
    that is not there. False where something could not be done, which was said."""
    with Named(arguments, made) as named:
        return ran(program, named.words, named.heard_by(errors), output, told)


def ran(program, arguments, errors, output, told):
    os.set_inheritable(STDIN, False)
    with Signals() as signals:
        said, ours = stream()
        try:
            child = subprocess.Popen([*command(program), *arguments], stdin=subprocess.PIPE if told else STDIN, stdout=subprocess.PIPE if output else None,
                                     stderr=said, bufsize=0, close_fds=False, preexec_fn=signals.begin)
        except OSError as error:
            say(f'{program}: {PROGRAMS / program} cannot be run: {error.strerror}; `tools/build {program}` builds it')
            return False
        finally:
            os.close(said)
        signals.to = child.pid
    pumps = [Pump(program, ours, 2, errors)]
    if output:
        pumps.append(Pump(program, child.stdout.fileno(), 1, output))
    if told:
        feed = Feed(program, child.stdin, told)
    child.wait()
    for pump in pumps:
        pump.join()
    if child.returncode < 0:
        die_by(-child.returncode)
    if any(pump.broken for pump in pumps):
        die_by(signal.SIGPIPE)
    return child.returncode == 0 and all(pump.sound for pump in pumps) and not (told and feed.failed)


class Named:
    """The words of a call, of which those that are no UTF-8 are links to the files that they name, for the time of the run. A file that the program makes,
    which it cannot do behind a link, is made before. What the program says of a link is said of the file."""

    room = None

    def __init__(self, words, made):
        self.names, self.made, self.links, self.held = [os.fsencode(word) for word in words], made, {}, b''

    def __enter__(self):
        self.words = [self.word(k, name) for k, name in enumerate(self.names)]
        return self

    def __exit__(self, *_):
        self.cleared()

    @classmethod
    def cleared(cls):
        if cls.room is not None:
            shutil.rmtree(cls.room, ignore_errors=True)
            cls.room = None

    def word(self, place, name):
        try:
            name.decode()
            return name
        except UnicodeDecodeError:
            pass
        if not os.path.isdir(os.path.dirname(name) or b'.'):
            return name
        try:
            if self.made:
                make(name)
            Named.room = Named.room or tempfile.mkdtemp(prefix='rokemaipu-')
            link = os.fsencode(f'{Named.room}/{place}')
            os.symlink(os.path.abspath(name), link)
        except OSError:
            return name
        self.links[link] = name
        return link

    def heard_by(self, errors):
        """What hears the program: `errors`, which hears of the files."""
        if not self.links:
            return errors

        def heard(piece):
            text, said = self.of_files(piece), b''
            for part in [text] * (text != b'') + [b''] * (piece == b''):
                instead = errors(part)
                said += part if instead is None else instead
            return said

        return heard

    def of_files(self, piece):
        text = self.held + piece
        for link, name in self.links.items():
            text = text.replace(link, name)
        # the beginning of a link may stand at the end
        longest = 0
        if piece != b'':
            longest = max((n for link in self.links for n in range(1, len(link)) if text.endswith(link[:n])), default=0)
        self.held = text[len(text) - longest:]
        return text[:len(text) - longest]


def make(name):
    """A file without a byte, where there is none, that stays."""
    try:
        os.close(os.open(name, os.O_WRONLY | os.O_CREAT | os.O_EXCL, 0o666))
    except FileExistsError:
        return
    folder = os.open(os.path.dirname(name) or b'.', os.O_RDONLY | os.O_DIRECTORY)
    try:
        os.fsync(folder)
    finally:
        os.close(folder)


def stream():
    """The two ends of the program's standard error: a terminal where this one's is a terminal, since the program asks for that."""
    if not os.isatty(2):
        ours, said = os.pipe()
        return said, ours
    ours, said = os.openpty()
    tty.setraw(said, termios.TCSANOW)
    return said, ours


def die_by(number):
    """As the program did."""
    Named.cleared()
    if number != signal.SIGKILL:
        signal.signal(number, signal.SIG_DFL)
    os.kill(os.getpid(), number)
    sys.exit(128 + number)


class Signals:
    """A signal that would end this program goes to the other one, which ends both; those that are ignored stay ignored. None is lost while it starts."""

    def __init__(self):
        self.to, self.here = None, os.getpid()
        self.caught = [number for number in PASSED_ON if signal.getsignal(number) != signal.SIG_IGN]

    def __enter__(self):
        signal.pthread_sigmask(signal.SIG_BLOCK, self.caught)
        for number in self.caught:
            signal.signal(number, self.pass_on)
        return self

    def __exit__(self, *_):
        signal.pthread_sigmask(signal.SIG_UNBLOCK, self.caught)

    def pass_on(self, number, _):
        if self.to is None:
            die_by(number)
        try:
            os.kill(self.to, number)
        except ProcessLookupError:
            pass

    def begin(self):
        """In the new process: it is killed where this one is, so that a log never has two that append to it."""
        system.prctl(PR_SET_PDEATHSIG, signal.SIGKILL)
        if os.getppid() != self.here:
            os._exit(FAILED)
        for number in self.caught:
            signal.signal(number, signal.SIG_DFL)
        signal.pthread_sigmask(signal.SIG_UNBLOCK, self.caught)


class Pump(threading.Thread):
    """From the program to this one's own stream. `broken` where nobody reads that any more, and then nobody reads the program's either."""

    def __init__(self, program, source, sink, heard):
        super().__init__(daemon=True)
        self.program, self.source, self.sink, self.heard = program, source, sink, heard
        self.sound, self.broken = True, False
        self.start()

    def run(self):
        piece = None
        while piece != b'' and not self.broken:
            piece = self.read()
            instead = self.heard(piece)
            self.write(piece if instead is None else instead)

    def write(self, piece):
        try:
            write_all(self.sink, piece)
        except BrokenPipeError:
            self.broken = True
            os.close(self.source)
        except OSError as error:
            if self.sound:
                say(f'{self.program}: writing standard {"output" if self.sink == 1 else "error"}: {error.strerror}')
            self.sound = False

    def read(self):
        try:
            return os.read(self.source, PIECE)
        except OSError as error:
            # a terminal that nobody holds open any more
            if error.errno == errno.EIO:
                return b''
            raise


class Feed(threading.Thread):
    """From this one's standard input to the program."""

    def __init__(self, program, sink, told):
        super().__init__(daemon=True)
        self.program, self.sink, self.told, self.failed = program, sink, told, False
        self.start()

    def run(self):
        try:
            while piece := self.read():
                self.told(piece)
                write_all(self.sink.fileno(), piece)
            self.told(b'')
        except BrokenPipeError:
            pass
        self.sink.close()

    def read(self):
        try:
            return os.read(STDIN, PIECE)
        except OSError as error:
            say(f'{self.program}: reading standard input: {error.strerror}')
            self.failed = True
            return b''


def write_all(sink, piece):
    while piece:
        piece = piece[os.write(sink, piece):]
