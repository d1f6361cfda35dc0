"""The system calls of `nightlog append` under strace: what is to be on the disk is flushed before the program waits for more, and nothing is cut that another
program may have written. `faults` says what is wrong with a list of calls; it is run on the program's own, and on those with one call taken out."""
import os
import re
import signal
import subprocess
import sys
import time
from collections import namedtuple

from words import record

CALLS = 'openat,read,write,lseek,ftruncate,fsync,close'
CALL = re.compile(r'(?:\d+ +)?(\w+)\((.*)\) += (-?\d+).*')
TEXT = re.compile(r'"((?:\\x[0-9a-f]{2})*)"')
FOLDER, FILE = 'room/', 'room/calls.log'
PIECE = b'\xac\x02\x02'
LINES = ['tick 1 1', 'tick 1 2', 'frame 2 300 6b000 x 01', 'tick 3 4']

# `on` is a path or the number of a descriptor, `asked` the last argument, `bytes` those that were read or written
Call = namedtuple('Call', 'name on asked bytes result')


def failing(injected, *paths, trace='/dev/null'):
    """The command that has a call of the program behind it fail or wait; of calls on these paths alone, where some are named."""
    return ['strace', '-f', '-qq', '-o', trace, *(word for path in paths for word in ('-P', path)), '-e', f'trace={injected.split(":")[0]}', '-e', f'inject={injected}']


def end(*words):
    sys.exit(f'tests/nightlog: {" | ".join(map(str, words))}')


def text(arguments):
    found = TEXT.search(arguments)
    return bytes.fromhex(found[1].replace('\\x', '')) if found else b''


def calls_in(trace):
    """The calls from the first that names the log on."""
    calls = []
    for line in trace.splitlines():
        if found := CALL.fullmatch(line):
            name, arguments, result = found[1], found[2], int(found[3])
            asked = arguments.rsplit(', ', 1)[-1]
            if name == 'openat':
                calls.append(Call(name, text(arguments).decode(), arguments.rsplit('"', 1)[1], b'', result))
            else:
                calls.append(Call(name, int(arguments.split(',')[0]), asked, text(arguments)[:max(0, result)], result))
    first = next((at for at, call in enumerate(calls) if call.on == FILE), len(calls))
    return calls[first:]


class Log:
    """What is known of the file from the calls so far: its descriptor and its folder's, whether its name and its bytes are flushed, whether its length was
    looked at since it was changed, and whether the last write was short."""

    def __init__(self):
        self.fd = self.folder = None
        self.named = self.flushed = True
        self.looked = self.short = False
        self.told = self.written = b''


def faults(calls):
    """What a pulled plug, or a second program, could make of these calls. Empty where they are as they should be."""
    log, found = Log(), []
    for call in calls:
        if call.name == 'openat':
            if call.on == FILE and 'O_CREAT' in call.asked:
                log.named = False
            elif call.on == FILE and 'O_APPEND' in call.asked and call.result >= 0:
                log.fd = call.result
            elif call.on == FOLDER:
                log.folder = call.result
        elif call.name == 'close' and call.on == log.folder:
            log.folder = None
        elif call.name == 'read' and call.on == 0:
            if not log.named:
                found.append('the folder of a new file is not flushed before lines are waited for')
            if not log.flushed:
                found.append('what was written or cut is not flushed before lines are waited for')
            if log.written != b''.join(map(record, log.told.decode().split('\n')[:-1])):
                found.append('the records of the lines so far are not written before more are waited for')
            log.told += call.bytes
        elif call.name == 'fsync' and call.result == 0:
            log.flushed = log.flushed or call.on == log.fd
            log.named = log.named or call.on == log.folder
        elif call.name == 'lseek' and call.on == log.fd:
            log.looked = True
        elif call.name in ('write', 'ftruncate') and call.on == log.fd:
            # the rest of a record is written at once
            if not log.looked and not (call.name == 'write' and log.short):
                found.append(f'{call.name} without a look at the length before it')
            log.short = call.name == 'write' and 0 < call.result < int(call.asked)
            log.looked = log.flushed = False
            log.written += call.bytes
        elif call.name == 'write' and call.on == 2 and b'records appended' in call.bytes and not log.flushed:
            found.append('told as appended, and not flushed')
    return found


def strace(command, *before):
    return ['strace', '-f', '-qq', '-xx', '-s', '100000', '-e', 'signal=none', '-e', f'trace={CALLS}', '-o', 'trace', *before, *command, 'append', FILE]


def calls_of_last():
    with open('trace') as f:
        return calls_in(f.read())


def size():
    return os.path.getsize(FILE) if os.path.exists(FILE) else 0


def wait_for(run, done):
    patience = time.monotonic() + 20
    while not done():
        if time.monotonic() > patience or run.poll() is not None:
            end('nothing came of it under strace', run.stderr.read())
        time.sleep(0.001)


def line_by_line(command, whole):
    """The calls where each line is told once the one before is in the file, behind its whole records of so many bytes."""
    run = subprocess.Popen(strace(command), stdin=subprocess.PIPE, stderr=subprocess.PIPE, bufsize=0)
    for line in LINES:
        whole += len(record(line))
        run.stdin.write(line.encode() + b'\n')
        wait_for(run, lambda: size() == whole)
    run.stdin.close()
    run.wait(timeout=30)
    run.stderr.close()
    return calls_of_last()


def limited(command, most):
    """The calls where the file may have so many bytes and no more."""
    subprocess.run(strace(command, 'prlimit', f'--fsize={most}'), input=''.join(line + '\n' for line in LINES).encode(), stderr=subprocess.PIPE, timeout=30,
                   preexec_fn=lambda: signal.signal(signal.SIGXFSZ, signal.SIG_IGN))
    return calls_of_last()


def doctored(calls, out, **wanted):
    """The calls are as they should be and as many as they should be, and each of those named in `out` that is taken out in turn is missed."""
    if found := faults(calls):
        end(found, calls)
    fd = next(call.result for call in calls if call.on == FILE and 'O_APPEND' in call.asked and call.result >= 0)
    ours = [at for at, call in enumerate(calls) if call.name in ('fsync', 'ftruncate') or call.on == FOLDER or call.name in ('lseek', 'write') and call.on == fd and call.result >= 0]
    got = {name: sum(calls[at].name == name for at in ours) for name in wanted}
    if got != wanted:
        end('calls that were to be seen', wanted, got, calls)
    missed = [at for at in ours if calls[at].name in out]
    for at in missed:
        if not faults(calls[:at] + calls[at + 1:]):
            end('a call that is taken out is not missed', at, calls[at], calls)
    return len(missed)


def order(command):
    """A new file; a piece of a record left over; a record that could not be written whole."""
    every = 'openat', 'lseek', 'write', 'fsync'
    count = doctored(line_by_line(command, 0), every, openat=1, lseek=4, write=4, fsync=5)
    whole = size()
    with open(FILE, 'ab') as log:
        log.write(PIECE)
    count += doctored(line_by_line(command, whole), every, openat=0, lseek=5, write=4, fsync=5, ftruncate=1)
    os.remove(FILE)
    # no more lines are waited for behind the cut
    count += doctored(limited(command, 10), ('openat', 'lseek', 'fsync'), openat=1, lseek=4, write=3, fsync=2, ftruncate=1)
    with open(FILE, 'rb') as log:
        if log.read() != b''.join(map(record, LINES[:2])):
            end('a record that could not be written whole is not taken back')
    os.remove(FILE)
    return count


def said(command, before, lines=LINES[:2], log=None):
    """What `append` says where a call fails, and the file then."""
    if log is not None:
        with open(FILE, 'wb') as file:
            file.write(log)
    run = subprocess.run([*before, *command, 'append', FILE], input=''.join(line + '\n' for line in lines).encode(), capture_output=True, timeout=30)
    with open(FILE, 'rb') as file:
        left = file.read()
    os.remove(FILE)
    return own_words(run.stderr), left


def own_words(stderr):
    """What the program said: strace tells of each path that it was given."""
    return ''.join(line for line in stderr.decode().splitlines(True) if not line.startswith('strace: '))


def failures(command):
    """What failed is not told as done."""
    whole, about = b''.join(map(record, LINES[:2])), f'nightlog: {FILE}: '
    for what, injected, log, words, left in [
        ('a folder that cannot be flushed', failing('fsync:error=EIO:when=1'), None,
         ['flushing its folder: Input/output error', '2 records appended, 2 flushed, the name of the file not'], whole),
        ('a folder that cannot be opened', failing('openat:error=EACCES', FOLDER), None,
         ['opening its folder: Permission denied', '2 records appended, 2 flushed, the name of the file not'], whole),
        ('a file that cannot be flushed', failing('fsync:error=EIO'), b'', ['flushing: Input/output error', '2 records appended, 0 flushed'], whole),
        ('neither', failing('fsync:error=EIO'), None,
         ['flushing its folder: Input/output error', 'flushing: Input/output error', '2 records appended, 0 flushed, the name of the file not'], whole),
        ('a cut that cannot be flushed', failing('fsync:error=EIO'), whole + PIECE, ['flushing: Input/output error'], whole),
        ('a cut that fails', failing('ftruncate:error=EIO'), whole + PIECE, ['cutting back: Input/output error'], whole + PIECE),
        ('a length that is not known', failing('lseek:error=EIO:when=2', FILE), b'', ['finding its length: Input/output error', '0 records appended'], b''),
        ('a write that fails', failing('write:error=ENOSPC:when=2', FILE), b'', ['writing line 2: No space left on device', '1 records appended'], whole[:4]),
    ]:
        got = said(command, injected, log=log)
        want = ''.join(f'{about}{line}\n' for line in words), left
        if got != want:
            end(what, got, want)


def another(command):
    """A file that grows between the walk over it and the cut: nothing is cut."""
    log, other = record(LINES[0]) + PIECE, record(LINES[3])
    with open(FILE, 'wb') as file:
        file.write(log)
    run = subprocess.Popen([*failing('lseek:delay_enter=1500000:when=2', FILE, trace='trace'), *command, 'append', FILE], stdin=subprocess.PIPE, stderr=subprocess.PIPE)
    wait_for(run, lambda: os.path.exists('trace') and 'SEEK_END) ' in open('trace').read())
    with open(FILE, 'ab') as file:
        file.write(other)
    words = own_words(run.communicate(b'tick 1 1\n', timeout=30)[1])
    want = f'nightlog: {FILE}: {len(log + other)} bytes where this program left {len(log)}: another one writes to it\n'
    with open(FILE, 'rb') as file:
        left = file.read()
    if (words, left) != (want, log + other):
        end('another program writes before the cut', words, want, left)
    os.remove(FILE)


def held(command):
    """The number of calls that were taken out and missed."""
    os.mkdir(FOLDER)
    count = order(command)
    failures(command)
    os.remove('trace')
    another(command)
    return count
