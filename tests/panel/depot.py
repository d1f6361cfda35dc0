"""The panel as it is called, over files of a test's own; `nightlog`, which appends to its log; and what the desk says of the same records."""
import http.client
import os
import signal
import subprocess
import sys
import time
from pathlib import Path

ROOT = Path(__file__).resolve().parents[2]
sys.path += [str(ROOT), str(ROOT / 'tests/nightlog')]
# tests/panel/run says which processor's panel, and what runs it and the programs
PANEL = os.environ.get('PANEL', str(ROOT / 'panel/target/release/panel')).split()
RUN = os.environ.get('PROGRAMS_RUN', '').split()
PROGRAMS = ROOT / os.environ.get('PROGRAMS', 'target/bin')


def hears():
    """Ctrl-C: a shell that runs a test in the background ignores it for all that it starts."""
    signal.signal(signal.SIGINT, signal.SIG_DFL)


class Panel:
    """Started, with the address that it prints."""

    def __init__(self, posts, log, port=0):
        self.process = subprocess.Popen([*PANEL, str(posts), str(log), '--port', str(port)], stdout=subprocess.PIPE, stderr=subprocess.PIPE, text=True,
                                        preexec_fn=hears)
        self.ended = None
        self.address = self.process.stdout.readline().strip()
        self.port = int(self.address.rsplit(':', 1)[-1].strip('/') or 0) if self.address else 0

    def __enter__(self):
        return self

    def __exit__(self, *_):
        self.end()

    def end(self, by=signal.SIGINT):
        """How it ends, and what it said."""
        if self.ended is None:
            if self.process.poll() is None:
                self.process.send_signal(by)
            self.ended = self.process.wait(timeout=5), self.process.stderr.read()
            self.process.stdout.close()
            self.process.stderr.close()
        return self.ended

    def got(self, path, patience=10, **headers):
        """The answer to a GET: status, headers, body."""
        connection = http.client.HTTPConnection('127.0.0.1', self.port, timeout=patience)
        connection.request('GET', path, headers=headers)
        answer = connection.getresponse()
        body = answer.read()
        connection.close()
        return answer.status, dict(answer.getheaders()), body


class Nightlog:
    """`nightlog append`, record by record: each line is in the file when `append` returns."""

    def __init__(self, log):
        self.log = Path(log)
        self.process = self.started()

    def __enter__(self):
        return self

    def __exit__(self, *_):
        self.end()

    def started(self):
        return subprocess.Popen([*RUN, str(PROGRAMS / 'nightlog'), 'append', str(self.log)], stdin=subprocess.PIPE, stderr=subprocess.PIPE)

    def append(self, *lines):
        from words import record
        size = (self.log.stat().st_size if self.log.exists() else 0) + sum(len(record(line)) for line in lines)
        self.process.stdin.write(''.join(f'{line}\n' for line in lines).encode())
        self.process.stdin.flush()
        end = time.monotonic() + 10
        while not self.log.exists() or self.log.stat().st_size < size:
            if time.monotonic() > end or self.process.poll() is not None:
                raise AssertionError(f'nightlog does not append: {self.process.stderr.read()}')
            time.sleep(0.001)

    def end(self, by=None):
        """To its last line, or at once by a signal."""
        if by is not None:
            self.process.send_signal(by)
        self.process.stdin.close()
        self.process.wait(timeout=10)
        self.process.stderr.close()


def shown(log):
    """The records of a log as desk lines."""
    told = subprocess.run([*RUN, PROGRAMS / 'nightlog', 'show', log], capture_output=True, text=True, check=True)
    return told.stdout.splitlines()


def desk(lines):
    """The desk's answers, one for each line."""
    told = subprocess.run([*RUN, PROGRAMS / 'desk'], input=''.join(f'{line}\n' for line in lines), capture_output=True, text=True, check=True)
    return told.stdout.splitlines()


def steps(posts):
    """The lines of a POSTS file that set something up."""
    return [line for line in Path(posts).read_text().splitlines() if line and not line.startswith('#')]
